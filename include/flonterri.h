/* Flonterri: the segment references of a DASH timeline, over words and bytes that the caller owns.
 *
 * Every function answers a refusal number, 0 where the call is accepted. Each takes any words and
 * any lengths: a call is refused, never undefined, whatever a record or a table holds. That is proved
 * for the code of this library. The proofs take these things for granted, and nothing tests them:
 *
 * - a pointer is valid for the length beside it, counted in elements, and aligned for their type;
 * - it is not null, even where the length is 0: give the address of any element then. Each call below says
 *   so again by "no null";
 * - what it points at has been written, with zeros if with nothing better;
 * - what a call may change (a pointer without const) overlaps nothing else that the call is given;
 * - while a call runs no other thread touches what it may change, or writes to what it reads.
 *
 * The calls that change a timeline change the words of its record in place: go on with those words. A copy
 * from before is refused with 2 only where the words of the table do not fit it any more; else it is taken
 * for the record, and a clock or some numbers are forgotten.
 *
 * The limits. A timescale is 1 to 10,000,000 ticks a second. A tick is at most 2^52 - 1. Period start,
 * duration, window depth, update period and clock are whole milliseconds, at most 100,000,000,000. A
 * duration of 0 means that the period end is unknown, a depth of 0 that no window depth is given. A grain
 * is 1/(1000 x timescale) second.
 *
 * The update period is how long a player may go by a manifest before it asks for the next: the window
 * reaches so far past the clock. Where it is 0 the window ends at the clock.
 *
 * flonterri_timeline.h has the same calls over one struct, without the lengths that never change.
 */
#ifndef FLONTERRI_H
#define FLONTERRI_H

#include <stddef.h>
#include <stdint.h>

#ifdef __cplusplus
extern "C" {
#endif

/* How many words a record has, and a run of the table: its start, its duration, its count. A table of
 * n words holds n / 3 runs. */
#define FLONTERRI_RECORD_WORDS 12
#define FLONTERRI_RUN_WORDS 3

/* How many words out must have, for each function that takes it. */
#define FLONTERRI_VERDICT_WORDS 5
#define FLONTERRI_AVAILABILITY_WORDS 3
#define FLONTERRI_AVAILABLE_WORDS 1
#define FLONTERRI_FULL_TICK_WORDS 2
#define FLONTERRI_TOUCHING_WORDS 2
#define FLONTERRI_EDGE_WORDS 2
#define FLONTERRI_DISTANCE_WORDS 1
#define FLONTERRI_READ_WORDS 2
#define FLONTERRI_WRITE_WORDS 1

/* Where each field of a record stands. */
enum flonterri_record_word {
    FLONTERRI_TIMESCALE = 0,
    FLONTERRI_OFFSET = 1,
    FLONTERRI_START = 2,
    FLONTERRI_DURATION = 3,
    FLONTERRI_DEPTH = 4,
    FLONTERRI_FIRST_NUMBER = 5,
    FLONTERRI_UPDATE_PERIOD = 6,
    FLONTERRI_ACCEPTED = 7,
    FLONTERRI_DROPPED = 8,
    FLONTERRI_NEXT_TICK = 9,
    FLONTERRI_GREATEST_CLOCK = 10,
    FLONTERRI_RUNS_USED = 11
};

/* Where each word of a run stands, counted from its first. */
enum flonterri_run_word {
    FLONTERRI_RUN_START = 0,
    FLONTERRI_RUN_DURATION = 1,
    FLONTERRI_RUN_COUNT = 2
};

/* Where each word of a verdict stands in out: the kind, how many ticks are needed, how many of them are
 * covered, the lowest that is not, and covered x 100 / needed rounded down. */
enum flonterri_verdict_word {
    FLONTERRI_VERDICT_KIND = 0,
    FLONTERRI_VERDICT_NEEDED = 1,
    FLONTERRI_VERDICT_COVERED = 2,
    FLONTERRI_VERDICT_LOWEST = 3,
    FLONTERRI_VERDICT_PERCENT = 4
};

/* The kinds of a verdict. */
enum flonterri_verdict_kind {
    FLONTERRI_NOTHING_NEEDED = 0,
    FLONTERRI_COMPLETE = 1,
    FLONTERRI_LACKING = 2
};

/* Where each word of an availability stands in out: the kind, from which grain on, and up to which, that
 * one excluded. */
enum flonterri_availability_word {
    FLONTERRI_AVAILABILITY_KIND = 0,
    FLONTERRI_AVAILABILITY_START = 1,
    FLONTERRI_AVAILABILITY_END = 2
};

/* The kinds of an availability. */
enum flonterri_availability_kind {
    FLONTERRI_NEVER_ENDS = 0,
    FLONTERRI_ENDS = 1
};

/* What is told of a number at a clock. */
enum flonterri_available {
    FLONTERRI_NOT_AVAILABLE = 0,
    FLONTERRI_AVAILABLE = 1
};

/* Where each word of a full tick stands in out: the kind, and the tick. */
enum flonterri_full_tick_word {
    FLONTERRI_FULL_TICK_KIND = 0,
    FLONTERRI_FULL_TICK_TICK = 1
};

/* The kinds of a full tick: there is none, or it is named. */
enum flonterri_full_tick_kind {
    FLONTERRI_NO_TICK = 0,
    FLONTERRI_TICK = 1
};

/* Where each word stands in out that tells the runs which touch a span: the place in the table of their
 * first word, and the place past their last. */
enum flonterri_touching_word {
    FLONTERRI_TOUCHING_FROM = 0,
    FLONTERRI_TOUCHING_TO = 1
};

/* Where each word of a covered edge stands in out: the kind, and the clock. */
enum flonterri_edge_word {
    FLONTERRI_EDGE_KIND = 0,
    FLONTERRI_EDGE_CLOCK = 1
};

/* The kinds of a covered edge. */
enum flonterri_edge_kind {
    FLONTERRI_NO_EDGE = 0,
    FLONTERRI_EDGE_AT = 1
};

/* Where each word stands in out that tells of a reading: the refused line, counted from 1, or 0 where the file is
 * accepted; and the distance where the answer is 4 or 5, else 0. */
enum flonterri_read_word {
    FLONTERRI_READ_LINE = 0,
    FLONTERRI_READ_DISTANCE = 1
};

/* What a function answers. Where several numbers apply to a call, it answers the lowest; but
 * flonterri_append_trim answers 10 before 3 to 9, and a file's lines have an order of their own. Before all
 * else a record that is not of 12 words is 2, and then an out that is not of its length is 15. */
enum flonterri_refusal {
    FLONTERRI_OK = 0,              /* the call is accepted */
    FLONTERRI_OVER_LIMIT = 1,      /* a head field, the first tick or the offset over its limit, or timescale 0 */
    FLONTERRI_DISAGREEMENT = 2,    /* record and table disagree, or the record is not of 12 words */
    FLONTERRI_NOTHING_GIVEN = 3,   /* duration or count 0 */
    FLONTERRI_GAP = 4,             /* the start lies after the next tick; out tells the distance */
    FLONTERRI_OVERLAP = 5,         /* the start lies before the next tick; out tells the distance */
    FLONTERRI_TICK_LIMIT = 6,      /* an end over 2^52 - 1 */
    FLONTERRI_COUNT_LIMIT = 7,     /* accepted total over 2^31, or first number plus accepted over 2^32 - 1 */
    FLONTERRI_PAST_END = 8,        /* a reference starts at or after a known period end */
    FLONTERRI_NO_RUN_LEFT = 9,     /* a new run is needed, and the table is full */
    FLONTERRI_CLOCK_LIMIT = 10,    /* the clock is over its limit */
    FLONTERRI_EARLIER_CLOCK = 11,  /* a verdict's clock lies before the greatest clock */
    FLONTERRI_NOTHING_KEPT = 12,   /* writing with no run kept */
    FLONTERRI_NOT_KEPT = 13,       /* no kept reference has the number */
    FLONTERRI_EMPTY_SPAN = 14,     /* a lies at or after b */
    FLONTERRI_SHORT_OUTPUT = 15,   /* bytes shorter than the whole file, or out not of its length */
    FLONTERRI_BAD_LINE = 16,       /* a line too short, too long, not lower-case hex, of unknown kind,
                                      unended, missing, or extra after the end */
    FLONTERRI_BAD_ORDER = 17,      /* a frame out of order, S after a negative r, a wrong S count */
    FLONTERRI_NO_END_TO_REACH = 18, /* a negative r, and no known period end */
    FLONTERRI_END_UNKNOWN = 19     /* a whole-period verdict, and no known period end */
};

/* Opens a timeline: writes the record, and zeroes the table. update is the update period. Refusals 1, 2.
 * Refused with 1 it zeroes the record and leaves the table as it came; refused with 2 it changes nothing.
 * No null. */
uint32_t flonterri_open(uint64_t *record, size_t record_words, uint64_t *table, size_t table_words,
                        uint32_t timescale, uint64_t offset, uint64_t start, uint64_t duration, uint64_t depth,
                        uint32_t first_number, uint64_t update, uint64_t first_tick);

/* Appends count references of duration ticks each, from start on, a full tick, which must be the next
 * tick. Those that are spent already are counted as dropped and not stored. out has 1 word, the distance: how
 * many ticks start lies after the next tick where the answer is 4, or before it where it is 5, never 0. Any other
 * answer leaves out as it came. Refusals 2 to 9, and 15 for out. Changes record and table; refused it changes
 * nothing but out, and that for 4 and 5 alone. No null. */
uint32_t flonterri_append(uint64_t *record, size_t record_words, uint64_t *table, size_t table_words,
                          uint64_t start, uint32_t duration, uint32_t count, uint64_t *out, size_t out_words);

/* The same, where the start comes as the low 32 bits of a tick. Stamp less next tick, modulo 2^32, is 0
 * where it joins; from 1 up to 2^31 - 1 it is a gap by so many ticks; else it is an overlap by as many as it is
 * short of 2^32, so by 2^31 where the stamp lies exactly half a circle away. out, refusals and changes as
 * above. No null. */
uint32_t flonterri_append_stamp(uint64_t *record, size_t record_words, uint64_t *table, size_t table_words,
                                uint32_t stamp, uint32_t duration, uint32_t count, uint64_t *out,
                                size_t out_words);

/* Raises the greatest clock, unless it is greater already, and drops the references that are spent then. The
 * update period plays no part in it. It costs no coverage: a verdict at this clock or a later one is told as
 * without it. Refusals 2, 10. Changes record and table; refused it changes nothing. No null. */
uint32_t flonterri_trim(uint64_t *record, size_t record_words, uint64_t *table, size_t table_words, uint64_t clock);

/* Appends by stamp and then trims at clock, as one call for each segment: record and table are tested once.
 * Accepted, it does what flonterri_append_stamp and then flonterri_trim do. Refused, it does neither, which the
 * two calls do not promise: behind a gap the second still trims, and before a clock over its limit the first
 * still appends. The clock makes no room: which references are spent already, and whether a run is left, goes by
 * the greatest clock before the call, so a full table is 9 also where the trim would have emptied it. A clock
 * that is not later than the greatest is accepted, and nothing is trimmed. out as for flonterri_append_stamp.
 * Refusals 2, 10, 3, 4 or 5, 6, 7, 8, 9, in this order, and 15 for out. Changes record and table; refused it
 * changes nothing but out, and that for 4 and 5 alone. No null. */
uint32_t flonterri_append_trim(uint64_t *record, size_t record_words, uint64_t *table, size_t table_words,
                               uint32_t stamp, uint32_t duration, uint32_t count, uint64_t clock, uint64_t *out,
                               size_t out_words);

/* The verdict at a clock. The window ends at the clock plus the update period, or with the period if that is
 * earlier; the sum may pass the limit of milliseconds. out has 5 words, as flonterri_verdict_word names them.
 * What does not apply is 0; where the kind is complete, covered is needed and percent is 100. Refusals 2, 10,
 * 11, and 15 for out; 10 and 11 go by the clock alone. Changes out alone; refused it changes nothing.
 * No null. */
uint32_t flonterri_verdict(const uint64_t *record, size_t record_words, const uint64_t *table, size_t table_words,
                           uint64_t clock, uint64_t *out, size_t out_words);

/* The verdict of the whole period, out as above. Refusals 2, 19, and 15 for out. Changes out alone; refused
 * it changes nothing. No null. */
uint32_t flonterri_verdict_whole(const uint64_t *record, size_t record_words, const uint64_t *table,
                                 size_t table_words, uint64_t *out, size_t out_words);

/* When the kept reference of a number is available. out has 3 words, as flonterri_availability_word names
 * them, in signed grains from availabilityStartTime; where it never ends, the end is 0. Refusals 2, 13, and 15
 * for out; a number over 2^32 - 1 is never kept, and so is 13. Changes out alone; refused it changes nothing.
 * No null. */
uint32_t flonterri_availability(const uint64_t *record, size_t record_words, const uint64_t *table,
                                size_t table_words, uint64_t number, int64_t *out, size_t out_words);

/* Whether the kept reference of a number is available at a clock. out has 1 word, one of flonterri_available.
 * Refusals 2, 10, 13, and 15 for out; a number over 2^32 - 1 is never kept, and so is 13. Changes out alone;
 * refused it changes nothing. No null. */
uint32_t flonterri_available_at(const uint64_t *record, size_t record_words, const uint64_t *table,
                                size_t table_words, uint64_t number, uint64_t clock, uint64_t *out,
                                size_t out_words);

/* The full tick of a stamp, the low 32 bits of a tick, by the next tick: the only tick that has the stamp and
 * lies less than 2^31 after the next tick, or before it by 2^31 at most. So a caller who hears of a gap or an
 * overlap widens no stamp by hand. out has 2 words, as flonterri_full_tick_word names them; where that tick
 * would lie below 0 or over 2^52 - 1 there is none, and both are 0. Refusals 2, and 15 for out. Changes out
 * alone; refused it changes nothing. No null. */
uint32_t flonterri_full_tick(const uint64_t *record, size_t record_words, const uint64_t *table, size_t table_words,
                             uint32_t stamp, uint64_t *out, size_t out_words);

/* The runs that touch the ticks from a up to b, b excluded. out has 2 words, as flonterri_touching_word names
 * them; both are 0 if no run touches. Refusals 2, 14, and 15 for out. Changes out alone; refused it changes
 * nothing. No null. */
uint32_t flonterri_touching(const uint64_t *record, size_t record_words, const uint64_t *table, size_t table_words,
                            uint64_t a, uint64_t b, uint64_t *out, size_t out_words);

/* The covered edge: the latest clock, within its limit, at which the window's upper edge is at or before the
 * next tick; the upper edge lies the update period past the clock. At a later clock whose window is not empty no
 * verdict is complete: references are missing at its end. It is the limit where the next tick reaches a known
 * period end, and there is none where the upper edge lies after the next tick at clock 0 already. It does not say
 * that a verdict is complete up to it: it knows nothing of the lower edge, where older references may be missing.
 * And it may lie before the greatest clock, where a verdict is 11. It stands still where a packager has stopped:
 * compare it with now, and ask and trim at the earlier of the two. out has 2 words, as flonterri_edge_word names
 * them; where there is no edge, both are 0. Refusals 2, and 15 for out. Changes out alone; refused it changes
 * nothing. No null. */
uint32_t flonterri_covered_edge(const uint64_t *record, size_t record_words, const uint64_t *table,
                                size_t table_words, uint64_t *out, size_t out_words);

/* Reads a whole file into record and table, as opening plus appends. A head of kind 01 has no update period, and
 * is read with 0. out has 2 words, as flonterri_read_word names them: the refused line, and for 4 and 5 how far its
 * start lies from the next tick; both are 0 where the file is accepted. Refusals 1, 3 to 9, 16, 17, 18. Refused so,
 * it zeroes record and table and writes both words of out; refused with 2 for the record's length or 15 for out it
 * changes nothing. No null. */
uint32_t flonterri_read(const uint8_t *bytes, size_t byte_count, uint64_t *record, size_t record_words,
                        uint64_t *table, size_t table_words, uint64_t *out, size_t out_words);

/* Writes the whole file of what record and table keep: 110 bytes, and 35 for each used run. Its head is of kind
 * 05, also where the update period is 0. out has 1 word: how many bytes were written; those behind them stay as
 * they came. Refusals 2, 12, 15. Changes bytes and out; refused it changes nothing. No null. */
uint32_t flonterri_write(const uint64_t *record, size_t record_words, const uint64_t *table, size_t table_words,
                         uint8_t *bytes, size_t byte_count, uint64_t *out, size_t out_words);

#ifdef __cplusplus
}
#endif

#endif
