/* Case A of the paper: two references of 40 and 10 ticks at timescale 10, in a period of 10 seconds. The verdict
 * of the whole period, the runs that touch a span, and the file, written and read again; and how far a start is off
 * that does not join. It is C and C++ too. What it must print stands in case_a.txt. */
#include <inttypes.h>
#include <stdint.h>
#include <stdio.h>
#include <string.h>

#include "flonterri_timeline.h"

#define TABLE_WORDS (4 * FLONTERRI_RUN_WORDS)
#define FILE_BYTES 256

/* Where the start of the second S line stands in the file: behind a head line, an S line and a kind. */
#define SECOND_START (99 + 35 + 2)

/* Prints what a call is refused with, and tells whether it is accepted. */
static int accepted(const char *call, uint32_t refusal)
{
    if (refusal != FLONTERRI_OK) {
        printf("%s: refused %" PRIu32 "\n", call, refusal);
    }
    return refusal == FLONTERRI_OK;
}

/* Appends one reference, or tells by how many ticks its start misses the next tick. */
static int append(struct flonterri_timeline *timeline, uint64_t start, uint32_t duration)
{
    uint64_t distance = 0;
    uint32_t refusal = flonterri_timeline_append(timeline, start, duration, 1, &distance);

    if (refusal == FLONTERRI_GAP || refusal == FLONTERRI_OVERLAP) {
        printf("append at %" PRIu64 ": refused %" PRIu32 " by %" PRIu64 "\n", start, refusal, distance);
        return 0;
    }
    return accepted("append", refusal);
}

static void whole_period(const struct flonterri_timeline *timeline)
{
    struct flonterri_verdict_answer answer;

    if (accepted("whole period", flonterri_timeline_verdict_whole(timeline, &answer))) {
        printf("whole period: %" PRIu64 " of %" PRIu64 " ticks, %" PRIu64 "%%, lowest %" PRIu64 "\n", answer.covered,
               answer.needed, answer.percent, answer.lowest);
    }
}

static void availability(const struct flonterri_timeline *timeline, uint64_t number)
{
    struct flonterri_availability_answer answer;

    if (accepted("availability", flonterri_timeline_availability(timeline, number, &answer))) {
        printf("number %" PRIu64 ": from %" PRId64 " grains on%s\n", number, answer.start,
               answer.kind == FLONTERRI_NEVER_ENDS ? ", without end" : "");
    }
}

static void touching(const struct flonterri_timeline *timeline, uint64_t a, uint64_t b)
{
    struct flonterri_runs runs;
    size_t at;

    if (accepted("touching", flonterri_timeline_touching(timeline, a, b, &runs))) {
        printf("from %" PRIu64 " to %" PRIu64 ": %zu runs\n", a, b, runs.count);
        for (at = 0; at < runs.count; at++) {
            struct flonterri_run run = flonterri_run_at(&runs, at);

            printf("  %" PRIu64 " of %" PRIu64 " ticks from %" PRIu64 " on\n", run.count, run.duration, run.start);
        }
    }
}

static void read_again(const uint8_t *bytes, size_t byte_count)
{
    static uint64_t table[TABLE_WORDS];
    struct flonterri_timeline timeline;
    struct flonterri_read_answer answer;

    if (accepted("read", flonterri_timeline_read(&timeline, table, TABLE_WORDS, bytes, byte_count, &answer))) {
        printf("read: next tick %" PRIu64 "\n", timeline.record[FLONTERRI_NEXT_TICK]);
    } else if (answer.distance != 0) {
        printf("  in line %" PRIu64 " by %" PRIu64 "\n", answer.line, answer.distance);
    } else {
        printf("  in line %" PRIu64 "\n", answer.line);
    }
    whole_period(&timeline);
}

int main(void)
{
    static uint64_t table[TABLE_WORDS];
    /* timescale, offset, start, duration, depth (none), first number, update period (none) */
    const struct flonterri_head head = {10, 100, 30000, 10000, 0, 0, 0};
    struct flonterri_timeline timeline;
    uint8_t bytes[FILE_BYTES] = {0};
    size_t length = 0;

    if (!accepted("open", flonterri_timeline_open(&timeline, table, TABLE_WORDS, &head, 111))
        || !append(&timeline, 111, 40) || !append(&timeline, 151, 10)) {
        return 1;
    }
    append(&timeline, 170, 10);
    append(&timeline, 160, 10);
    whole_period(&timeline);
    availability(&timeline, 0);
    availability(&timeline, UINT64_C(4294967296));
    touching(&timeline, 0, 111);
    touching(&timeline, 150, 152);
    touching(&timeline, 5, 5);
    if (accepted("write", flonterri_timeline_write(&timeline, bytes, FILE_BYTES, &length))) {
        fwrite(bytes, 1, length, stdout);
        read_again(bytes, length);
        read_again(bytes, length - 1);
        memcpy(bytes + SECOND_START, "00000000000000a0", 16);
        read_again(bytes, length);
    }
    return 0;
}
