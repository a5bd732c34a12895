/* Flonterri's calls over one struct: a timeline keeps its record and knows its table, so that no call asks
 * for a length that never changes, and answers come as structs with names.
 *
 *     static uint64_t table[100 * FLONTERRI_RUN_WORDS];
 *     struct flonterri_timeline timeline;
 *     struct flonterri_verdict_answer verdict;
 *     uint64_t distance;
 *     struct flonterri_head head = {.timescale = 1000, .depth = 10000};
 *
 *     if (flonterri_timeline_open(&timeline, table, 100 * FLONTERRI_RUN_WORDS, &head, 0) == FLONTERRI_OK
 *         && flonterri_timeline_append(&timeline, 0, 4000, 5, &distance) == FLONTERRI_OK
 *         && flonterri_timeline_verdict(&timeline, 14000, &verdict) == FLONTERRI_OK) {
 *         printf("%" PRIu64 " ticks of %" PRIu64 "\n", verdict.covered, verdict.needed);
 *     }
 *
 * Every function answers the refusal number of its namesake in flonterri.h, and is refused exactly when that
 * one is; the lengths of record and out are right here, so the refusals for them do not occur. What that
 * header takes for granted of memory is for the caller here too, as far as it concerns the table and the
 * bytes: they are valid for their lengths, not null even where the length is 0, have been written, and
 * overlap nothing else. Where a call takes one of them, "no null" says so again. No other pointer may be null.
 *
 * This layer is plain C, a few lines a call, and is not proved. It stands in a header of its own so that
 * flonterri.h has only what the archive has: what is proved, and what another language binds to.
 */
#ifndef FLONTERRI_TIMELINE_H
#define FLONTERRI_TIMELINE_H

#include "flonterri.h"

#ifdef __cplusplus
extern "C" {
#endif

/* A timeline. Opening or reading fills it, whatever it held before. The table is the caller's and must last
 * as long as the timeline; table_words is how many words it has. The words of the record may be read at any
 * time, as record[FLONTERRI_NEXT_TICK]. A longer table holds the same timeline where it begins with the words
 * of the old one and has zeros behind them: point table at it, and set table_words. */
struct flonterri_timeline {
    uint64_t record[FLONTERRI_RECORD_WORDS];
    uint64_t *table;
    size_t table_words;
};

/* What a timeline is opened with. All but the timescale may be 0. */
struct flonterri_head {
    uint32_t timescale;    /* ticks a second */
    uint64_t offset;       /* presentation time offset: the tick that stands at the period start */
    uint64_t start;        /* period start, in milliseconds from availabilityStartTime */
    uint64_t duration;     /* period duration, in milliseconds; 0: the end is unknown */
    uint64_t depth;        /* window depth, in milliseconds; 0: none is given */
    uint32_t first_number; /* the number of the first reference */
    uint64_t update;       /* update period, in milliseconds: how far past the clock the window reaches */
};

/* A verdict. What does not apply is 0. */
struct flonterri_verdict_answer {
    enum flonterri_verdict_kind kind;
    uint64_t needed;  /* how many ticks are needed */
    uint64_t covered; /* how many of them lie in a kept reference */
    uint64_t lowest;  /* the lowest that lies in none */
    uint64_t percent; /* covered x 100 / needed, rounded down */
};

/* An availability, in signed grains from availabilityStartTime. */
struct flonterri_availability_answer {
    enum flonterri_availability_kind kind;
    int64_t start; /* from here on */
    int64_t end;   /* up to here, which is excluded; 0 where it never ends */
};

/* The full tick of a stamp. */
struct flonterri_full_tick_answer {
    enum flonterri_full_tick_kind kind;
    uint64_t tick; /* 0 where there is none */
};

/* A run: references of one duration, each starting where the one before it ends. */
struct flonterri_run {
    uint64_t start;    /* where the first reference starts, in ticks */
    uint64_t duration; /* how many ticks each of them lasts */
    uint64_t count;    /* how many there are */
};

/* Runs in a part of a timeline's table; nothing is copied, so they last until the timeline changes. */
struct flonterri_runs {
    const uint64_t *words;
    size_t count; /* how many runs */
};

/* A covered edge. */
struct flonterri_edge_answer {
    enum flonterri_edge_kind kind;
    uint64_t clock; /* in milliseconds from availabilityStartTime; 0 where there is no edge */
};

/* What a reading tells of the refused line. Both are 0 where the file is accepted. */
struct flonterri_read_answer {
    uint64_t line;     /* counted from 1 */
    uint64_t distance; /* how many ticks its start lies from the next tick, where the answer is 4 or 5; else 0 */
};

/* ---- the calls that change */

/* A timeline over a table of so many words, with zeros for a record, before it is opened or read. No null. */
static inline struct flonterri_timeline flonterri_timeline_over(uint64_t *table, size_t table_words)
{
    struct flonterri_timeline timeline = {{0}, table, table_words};

    return timeline;
}

/* Opens a timeline over a table of so many words. Refusal 1, which leaves the table as it came and a record of
 * zeros, so that every call but opening and reading is refused with 2. No null. */
static inline uint32_t flonterri_timeline_open(struct flonterri_timeline *timeline, uint64_t *table,
                                               size_t table_words, const struct flonterri_head *head,
                                               uint64_t first_tick)
{
    *timeline = flonterri_timeline_over(table, table_words);
    return flonterri_open(timeline->record, FLONTERRI_RECORD_WORDS, table, table_words, head->timescale,
                          head->offset, head->start, head->duration, head->depth, head->first_number,
                          head->update, first_tick);
}

/* Appends count references of duration ticks each, from a full tick on. Refusals 2 to 9. Refused with 4 or 5, it
 * puts into distance how many ticks start lies from the next tick; any other answer leaves distance as it came. */
static inline uint32_t flonterri_timeline_append(struct flonterri_timeline *timeline, uint64_t start,
                                                 uint32_t duration, uint32_t count, uint64_t *distance)
{
    return flonterri_append(timeline->record, FLONTERRI_RECORD_WORDS, timeline->table, timeline->table_words, start,
                            duration, count, distance, FLONTERRI_DISTANCE_WORDS);
}

/* The same, from the low 32 bits of a tick on. Refusals 2 to 9, and distance as above. */
static inline uint32_t flonterri_timeline_append_stamp(struct flonterri_timeline *timeline, uint32_t stamp,
                                                       uint32_t duration, uint32_t count, uint64_t *distance)
{
    return flonterri_append_stamp(timeline->record, FLONTERRI_RECORD_WORDS, timeline->table, timeline->table_words,
                                  stamp, duration, count, distance, FLONTERRI_DISTANCE_WORDS);
}

/* Raises the greatest clock, unless it is greater already, and drops what is spent then. Refusals 2, 10. */
static inline uint32_t flonterri_timeline_trim(struct flonterri_timeline *timeline, uint64_t clock)
{
    return flonterri_trim(timeline->record, FLONTERRI_RECORD_WORDS, timeline->table, timeline->table_words, clock);
}

/* Appends by stamp and then trims at clock, as one call for each segment; refused it does neither. Refusals 2,
 * 10, 3 to 9, in this order, and distance as for an append. */
static inline uint32_t flonterri_timeline_append_trim(struct flonterri_timeline *timeline, uint32_t stamp,
                                                      uint32_t duration, uint32_t count, uint64_t clock,
                                                      uint64_t *distance)
{
    return flonterri_append_trim(timeline->record, FLONTERRI_RECORD_WORDS, timeline->table, timeline->table_words,
                                 stamp, duration, count, clock, distance, FLONTERRI_DISTANCE_WORDS);
}

/* ---- the calls that look: refused, they leave the answer as it came */

/* Gives a verdict by its words, unless it is refused. */
static inline uint32_t flonterri_verdict_told(uint32_t refusal, const uint64_t *out,
                                              struct flonterri_verdict_answer *answer)
{
    if (refusal == FLONTERRI_OK) {
        answer->kind = (enum flonterri_verdict_kind)out[FLONTERRI_VERDICT_KIND];
        answer->needed = out[FLONTERRI_VERDICT_NEEDED];
        answer->covered = out[FLONTERRI_VERDICT_COVERED];
        answer->lowest = out[FLONTERRI_VERDICT_LOWEST];
        answer->percent = out[FLONTERRI_VERDICT_PERCENT];
    }
    return refusal;
}

/* The verdict at a clock. Refusals 2, 10, 11. */
static inline uint32_t flonterri_timeline_verdict(const struct flonterri_timeline *timeline, uint64_t clock,
                                                  struct flonterri_verdict_answer *answer)
{
    uint64_t out[FLONTERRI_VERDICT_WORDS] = {0};
    uint32_t refusal = flonterri_verdict(timeline->record, FLONTERRI_RECORD_WORDS, timeline->table,
                                         timeline->table_words, clock, out, FLONTERRI_VERDICT_WORDS);

    return flonterri_verdict_told(refusal, out, answer);
}

/* The verdict of the whole period. Refusals 2, 19. */
static inline uint32_t flonterri_timeline_verdict_whole(const struct flonterri_timeline *timeline,
                                                        struct flonterri_verdict_answer *answer)
{
    uint64_t out[FLONTERRI_VERDICT_WORDS] = {0};
    uint32_t refusal = flonterri_verdict_whole(timeline->record, FLONTERRI_RECORD_WORDS, timeline->table,
                                               timeline->table_words, out, FLONTERRI_VERDICT_WORDS);

    return flonterri_verdict_told(refusal, out, answer);
}

/* When the kept reference of a number is available. Refusals 2, 13. */
static inline uint32_t flonterri_timeline_availability(const struct flonterri_timeline *timeline, uint64_t number,
                                                       struct flonterri_availability_answer *answer)
{
    int64_t out[FLONTERRI_AVAILABILITY_WORDS] = {0};
    uint32_t refusal = flonterri_availability(timeline->record, FLONTERRI_RECORD_WORDS, timeline->table,
                                              timeline->table_words, number, out, FLONTERRI_AVAILABILITY_WORDS);

    if (refusal == FLONTERRI_OK) {
        answer->kind = (enum flonterri_availability_kind)out[FLONTERRI_AVAILABILITY_KIND];
        answer->start = out[FLONTERRI_AVAILABILITY_START];
        answer->end = out[FLONTERRI_AVAILABILITY_END];
    }
    return refusal;
}

/* Whether the kept reference of a number is available at a clock. Refusals 2, 10, 13. */
static inline uint32_t flonterri_timeline_available_at(const struct flonterri_timeline *timeline, uint64_t number,
                                                       uint64_t clock, enum flonterri_available *available)
{
    uint64_t out[FLONTERRI_AVAILABLE_WORDS] = {0};
    uint32_t refusal = flonterri_available_at(timeline->record, FLONTERRI_RECORD_WORDS, timeline->table,
                                              timeline->table_words, number, clock, out, FLONTERRI_AVAILABLE_WORDS);

    if (refusal == FLONTERRI_OK) {
        *available = (enum flonterri_available)out[0];
    }
    return refusal;
}

/* The full tick of a stamp by the next tick, or none. Refusal 2. */
static inline uint32_t flonterri_timeline_full_tick(const struct flonterri_timeline *timeline, uint32_t stamp,
                                                    struct flonterri_full_tick_answer *answer)
{
    uint64_t out[FLONTERRI_FULL_TICK_WORDS] = {0};
    uint32_t refusal = flonterri_full_tick(timeline->record, FLONTERRI_RECORD_WORDS, timeline->table,
                                           timeline->table_words, stamp, out, FLONTERRI_FULL_TICK_WORDS);

    if (refusal == FLONTERRI_OK) {
        answer->kind = (enum flonterri_full_tick_kind)out[FLONTERRI_FULL_TICK_KIND];
        answer->tick = out[FLONTERRI_FULL_TICK_TICK];
    }
    return refusal;
}

/* The runs that touch the ticks from a up to b, b excluded. Refusals 2, 14. */
static inline uint32_t flonterri_timeline_touching(const struct flonterri_timeline *timeline, uint64_t a, uint64_t b,
                                                   struct flonterri_runs *runs)
{
    uint64_t out[FLONTERRI_TOUCHING_WORDS] = {0};
    uint32_t refusal = flonterri_touching(timeline->record, FLONTERRI_RECORD_WORDS, timeline->table,
                                          timeline->table_words, a, b, out, FLONTERRI_TOUCHING_WORDS);

    if (refusal == FLONTERRI_OK) {
        runs->words = timeline->table + out[FLONTERRI_TOUCHING_FROM];
        runs->count = (size_t)(out[FLONTERRI_TOUCHING_TO] - out[FLONTERRI_TOUCHING_FROM]) / FLONTERRI_RUN_WORDS;
    }
    return refusal;
}

/* The covered edge: later than this clock no verdict is complete, as flonterri.h says, and up to it one need
 * not be. Refusal 2. */
static inline uint32_t flonterri_timeline_covered_edge(const struct flonterri_timeline *timeline,
                                                       struct flonterri_edge_answer *answer)
{
    uint64_t out[FLONTERRI_EDGE_WORDS] = {0};
    uint32_t refusal = flonterri_covered_edge(timeline->record, FLONTERRI_RECORD_WORDS, timeline->table,
                                              timeline->table_words, out, FLONTERRI_EDGE_WORDS);

    if (refusal == FLONTERRI_OK) {
        answer->kind = (enum flonterri_edge_kind)out[FLONTERRI_EDGE_KIND];
        answer->clock = out[FLONTERRI_EDGE_CLOCK];
    }
    return refusal;
}

/* One of some runs, counted from 0; at must be below their count. */
static inline struct flonterri_run flonterri_run_at(const struct flonterri_runs *runs, size_t at)
{
    const uint64_t *words = runs->words + at * FLONTERRI_RUN_WORDS;
    struct flonterri_run run;

    run.start = words[FLONTERRI_RUN_START];
    run.duration = words[FLONTERRI_RUN_DURATION];
    run.count = words[FLONTERRI_RUN_COUNT];
    return run;
}

/* ---- the file */

/* Reads a whole file into a timeline over a table of so many words. The answer tells the refused line and its
 * distance. Refusals 1, 3 to 9, 16, 17, 18, which leave a table and a record of zeros, so that every call but
 * opening and reading is refused with 2. No null. */
static inline uint32_t flonterri_timeline_read(struct flonterri_timeline *timeline, uint64_t *table,
                                               size_t table_words, const uint8_t *bytes, size_t byte_count,
                                               struct flonterri_read_answer *answer)
{
    uint64_t out[FLONTERRI_READ_WORDS] = {0};
    uint32_t refusal;

    *timeline = flonterri_timeline_over(table, table_words);
    refusal = flonterri_read(bytes, byte_count, timeline->record, FLONTERRI_RECORD_WORDS, table, table_words, out,
                             FLONTERRI_READ_WORDS);
    answer->line = out[FLONTERRI_READ_LINE];
    answer->distance = out[FLONTERRI_READ_DISTANCE];
    return refusal;
}

/* Writes the whole file of what is kept to the front of some bytes, and its length; what lies behind stays as
 * it came. Refusals 2, 12, 15; refused it changes nothing. No null. */
static inline uint32_t flonterri_timeline_write(const struct flonterri_timeline *timeline, uint8_t *bytes,
                                                size_t byte_count, size_t *length)
{
    uint64_t out[FLONTERRI_WRITE_WORDS] = {0};
    uint32_t refusal = flonterri_write(timeline->record, FLONTERRI_RECORD_WORDS, timeline->table,
                                       timeline->table_words, bytes, byte_count, out, FLONTERRI_WRITE_WORDS);

    if (refusal == FLONTERRI_OK) {
        *length = (size_t)out[0];
    }
    return refusal;
}

#ifdef __cplusplus
}
#endif

#endif
