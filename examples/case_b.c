/* Case B of the paper: five references of 4000 ticks at timescale 1000, behind a window of 10 seconds. Then the
 * same with an update period of two seconds, which the references must cover past the clock too; and the same as a
 * packager sends them, by one call for each. What it must print stands in case_b.txt. */
#include <inttypes.h>
#include <stdint.h>
#include <stdio.h>

#include "flonterri_timeline.h"

#define TABLE_WORDS (4 * FLONTERRI_RUN_WORDS)

static uint64_t table[TABLE_WORDS];
static struct flonterri_timeline timeline;

static void show(const char *call, uint32_t refusal)
{
    const uint64_t *record = timeline.record;

    if (refusal == FLONTERRI_OK) {
        printf("%s: kept %" PRIu64 " of %" PRIu64 ", next tick %" PRIu64 "\n", call,
               record[FLONTERRI_ACCEPTED] - record[FLONTERRI_DROPPED], record[FLONTERRI_ACCEPTED],
               record[FLONTERRI_NEXT_TICK]);
    } else {
        printf("%s: refused %" PRIu32 "\n", call, refusal);
    }
}

/* Shows an append, and by how much a start is off that does not join. */
static void show_append(const char *call, uint32_t refusal, uint64_t distance)
{
    if (refusal == FLONTERRI_GAP || refusal == FLONTERRI_OVERLAP) {
        printf("%s: refused %" PRIu32 " by %" PRIu64 "\n", call, refusal, distance);
    } else {
        show(call, refusal);
    }
}

/* Appends one reference of 4000 ticks by its stamp. */
static void append_stamp(uint32_t stamp)
{
    uint64_t distance = 0;
    uint32_t refusal = flonterri_timeline_append_stamp(&timeline, stamp, 4000, 1, &distance);

    show_append("append by stamp", refusal, distance);
}

/* The same, and trims at a clock in the same call. */
static void append_trim(uint32_t stamp, uint64_t clock)
{
    char call[64];
    uint64_t distance = 0;
    uint32_t refusal = flonterri_timeline_append_trim(&timeline, stamp, 4000, 1, clock, &distance);

    snprintf(call, sizeof call, "append and trim at %" PRIu64, clock);
    show_append(call, refusal, distance);
}

static void verdict(uint64_t clock)
{
    struct flonterri_verdict_answer answer;
    uint32_t refusal = flonterri_timeline_verdict(&timeline, clock, &answer);

    printf("verdict at %" PRIu64 ": ", clock);
    if (refusal != FLONTERRI_OK) {
        printf("refused %" PRIu32 "\n", refusal);
        return;
    }
    switch (answer.kind) {
    case FLONTERRI_NOTHING_NEEDED:
        printf("nothing needed\n");
        break;
    case FLONTERRI_COMPLETE:
        printf("complete %" PRIu64 "/%" PRIu64 " %" PRIu64 "%%\n", answer.covered, answer.needed, answer.percent);
        break;
    case FLONTERRI_LACKING:
        printf("lacking %" PRIu64 " %" PRIu64 "/%" PRIu64 " %" PRIu64 "%%\n", answer.lowest, answer.covered,
               answer.needed, answer.percent);
        break;
    }
}

/* Up to which clock the window ends in what was appended. */
static void edge(void)
{
    struct flonterri_edge_answer answer;
    uint32_t refusal = flonterri_timeline_covered_edge(&timeline, &answer);

    if (refusal != FLONTERRI_OK) {
        printf("covered edge: refused %" PRIu32 "\n", refusal);
    } else if (answer.kind == FLONTERRI_NO_EDGE) {
        printf("covered edge: none\n");
    } else {
        printf("covered edge: %" PRIu64 "\n", answer.clock);
    }
}

/* A call of flonterri.h itself, which is given every length and answers in words. */
static void availability(uint64_t number)
{
    int64_t out[FLONTERRI_AVAILABILITY_WORDS] = {0};
    uint32_t refusal = flonterri_availability(timeline.record, FLONTERRI_RECORD_WORDS, table, TABLE_WORDS, number, out,
                                              FLONTERRI_AVAILABILITY_WORDS);

    printf("number %" PRIu64 ": ", number);
    if (refusal != FLONTERRI_OK) {
        printf("refused %" PRIu32 "\n", refusal);
    } else if (out[FLONTERRI_AVAILABILITY_KIND] == FLONTERRI_NEVER_ENDS) {
        printf("available from %" PRId64 " grains on\n", out[FLONTERRI_AVAILABILITY_START]);
    } else {
        printf("available from %" PRId64 " to %" PRId64 " grains\n", out[FLONTERRI_AVAILABILITY_START],
               out[FLONTERRI_AVAILABILITY_END]);
    }
}

static void trim(uint64_t clock)
{
    char call[64];

    snprintf(call, sizeof call, "trim at %" PRIu64, clock);
    show(call, flonterri_timeline_trim(&timeline, clock));
}

static void file(void)
{
    uint8_t bytes[256] = {0};
    size_t length = 0;
    uint32_t refusal = flonterri_timeline_write(&timeline, bytes, sizeof bytes, &length);

    if (refusal != FLONTERRI_OK) {
        printf("file: refused %" PRIu32 "\n", refusal);
        return;
    }
    printf("file: %zu bytes\n", length);
    fwrite(bytes, 1, length, stdout);
}

/* Opens with a head, and appends the five references. */
static void five_references(const struct flonterri_head *head)
{
    uint64_t distance = 0;

    show("open", flonterri_timeline_open(&timeline, table, TABLE_WORDS, head, 0));
    show("append", flonterri_timeline_append(&timeline, 0, 4000, 5, &distance));
}

/* A player that took the manifest at 18 seconds asks for no other before 20: the references just reach so far.
 * A millisecond later a tick is missing. */
static void with_update_period(struct flonterri_head head)
{
    head.update = 2000;
    printf("update period %" PRIu64 "\n", head.update);
    five_references(&head);
    verdict(0);
    verdict(14000);
    verdict(18000);
    verdict(18001);
    edge();
    trim(13999);
    trim(14000);
    trim(18000);
    file();
}

/* Each reference comes when it is over, so that its end is the clock. One is missing, and what is refused trims
 * nothing: the verdict at the clock before it is still given, and the missing one still joins. A clock over its
 * limit appends nothing. */
static void one_call_for_each(const struct flonterri_head *head)
{
    uint32_t stamp;

    printf("one call for each\n");
    show("open", flonterri_timeline_open(&timeline, table, TABLE_WORDS, head, 0));
    for (stamp = 0; stamp < 20000; stamp += 4000) {
        append_trim(stamp, stamp + 4000);
    }
    append_trim(24000, 28000);
    verdict(20000);
    append_trim(20000, UINT64_C(100000000001));
    append_trim(20000, 24000);
    append_trim(24000, 28000);
}

int main(void)
{
    /* what is not named is 0: the end is unknown, and the window ends at the clock */
    const struct flonterri_head head = {.timescale = 1000, .depth = 10000, .first_number = 1};

    five_references(&head);
    verdict(0);
    verdict(14000);
    verdict(20001);
    edge();
    availability(3);
    trim(13999);
    trim(14000);
    trim(18000);
    availability(2);
    verdict(14000);
    append_stamp(20001);
    file();
    with_update_period(head);
    one_call_for_each(&head);
    return 0;
}
