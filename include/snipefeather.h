/* Snipefeather: the admission board's C interface, for C and C++.
 *
 * sf_fact_check is in libfactcheck.a, all other calls are in libcabi.a. `./install PREFIX` puts both, this header and a pkg-config file into place;
 * `rt staticlib factcheck` and `rt staticlib cabi` write them to target/staticlib/. They are archives for x86-64 Linux and need nothing but memcpy,
 * memmove and memset. examples/controller.c is a small program to start from, and examples/catalogue.c one that writes a plant.
 *
 * The bytes of a plant file and of an offer are laid out as docs/FORMATS.md says, which is installed beside this header's other documents; every
 * refusal, and what a caller does about it, is in docs/REFUSALS.md.
 *
 * Memory
 *
 * The caller owns all memory. Each list is lent for the length of a call, as a pointer and a number of elements (bytes, words of 32 bits, or rows).
 * Nothing is kept after the call returns, and nothing is allocated. Any bytes and any words may stand in the lists; nothing outside them is
 * read or written. Lists lent to one call may not overlap, and a list of length 0 may be NULL. No call uses global state: calls on
 * different boards may run at the same time on different threads. The stack that each call was measured to use stands at the call.
 */
#ifndef SNIPEFEATHER_H
#define SNIPEFEATHER_H

#include <stddef.h>
#include <stdint.h>

#ifdef __cplusplus
extern "C" {
#endif

/* The version of this interface. The first number changes where a program that was written for it must be changed, the
 * second where a call is added. */
#define SF_VERSION_MAJOR 2
#define SF_VERSION_MINOR 0

/* What a call returns: SF_ACCEPTED, or the first refusal that holds. Behind some stands the value that sf_plan gives in `cause`, and
 * sf_write_plant in `written`; all of these count from 0, allocations through all steps of the offer. */
enum sf_number {
    SF_ACCEPTED = 0,        /* accepted */
    SF_NO_PLANT = 1,        /* the plant file has under 12 bytes or lacks the mark */
    SF_PLANT_LENGTH = 2,    /* the action count is out of range, or the length is not what the trailer says */
    SF_PLANT_RECORD = 3,    /* an index entry isn't where the record before ended, a record passes the index, has n above 4 or a nonzero spare byte,
                               or the last one ends short of the index (action) */
    SF_PLANT_ACTION = 4,    /* an action has a duration, resource, offset or length out of range, or a fact twice in its needs or in its makes
                               (action) */
    SF_BAD_SETTINGS = 5,    /* the horizon or the lead is out of range */
    SF_UNSOUND = 6,         /* the board is not sound */
    SF_OFFER_HEADER = 7,    /* the offer has under 28 bytes or a step count outside 1 to 8 */
    SF_OFFER_STEP = 8,      /* a step's bytes run past the offer, or the plant has no such action (step) */
    SF_OFFER_LENGTH = 9,    /* bytes are left over */
    SF_BOTH_WAYS = 10,      /* a fact is both known true and known false, or both in the goal */
    SF_UNDONE = 11,         /* a step undoes what is needed after it (step) */
    SF_CLASH = 12,          /* a step's need clashes with what is needed after it (step) */
    SF_NOT_KNOWN = 13,      /* a needed fact is not known so (lowest such fact) */
    SF_FULL = 14,           /* there are 16 jobs, or the points would pass 64 */
    SF_BAD_PLACE = 15,      /* a place exceeds the number in its line at that moment (allocation) */
    SF_LINE_FULL = 16,      /* the line has 32 already (allocation) */
    SF_NO_TIMETABLE = 17,   /* no timetable keeps all rules */
    SF_NOT_UNSENT = 18,     /* send names a place with no unsent job */
    SF_BAD_CLOCK = 19,      /* the clock would go back or pass the horizon */
    SF_CLOCK_TOO_LATE = 20, /* no timetable is left after the clock's rules */
    SF_NOT_OVER = 21,       /* there is no job to retire, or the oldest is unsent, or its last point or an allocation ends after the clock */
    SF_SHORT_LIST = 22,     /* the list is shorter than the rows, or the buffer than the file */
    SF_DUE_TOO_LATE = 23    /* the due time is past the horizon */
};

/* The fact check: whether a chain is sure to run through to its goal, whatever is not known of the sheet. Lends a plant file and an offer:
 * nothing is written. SF_ACCEPTED where the chain passes, or the first of 1 to 4 and 7 to 13. It sees no board, so that it passes every due time.
 * Stack: 0.3 KB. */
uint32_t sf_fact_check(const uint8_t *plant, size_t plant_len, const uint8_t *offer, size_t offer_len);

/* Writes a plant file from its actions' fields into the buffer `plant`. `actions` has SF_ACTION_WORDS words for each action: needs-true, needs-false,
 * makes-true, makes-false, shortest, longest, the number n of allocations, then four times resource, offset and length; words past the first n
 * allocations are not looked at. Refusals, in this order: 2 (no action, more than SF_MOST_ACTIONS, or words that are no whole number of actions); 3 (n
 * above SF_MOST_ALLOCATIONS) and 4, action by action; 22 (`plant_len`, a number of bytes, is below the file's length). Where `written` has a word, it
 * becomes the action that 3 and 4 speak of, and 0 where there is none; where it has a second one, that becomes the file's length, and 0 where refused.
 * Bytes past the file, and all of them where refused, stay as they were. The length is 28 bytes for each action, 12 for each allocation, 4 for each
 * action's index entry, and 12: never more than SF_MOST_PLANT_BYTES. Stack: 0.1 KB. */
#define SF_ACTION_WORDS 19
#define SF_MOST_ACTIONS 128
#define SF_MOST_ALLOCATIONS 4
#define SF_MOST_PLANT_BYTES 10252
uint32_t sf_write_plant(const uint32_t *actions, size_t actions_len, uint8_t *plant, size_t plant_len, uint32_t *written, size_t written_len);

/* The board, lent as its words. A board comes from sf_fresh, and goes from call to call. Where each word stands:
 *
 *   SF_HORIZON_AT, SF_LEAD_AT, SF_CLOCK_AT, SF_COUNT_AT     the head: horizon, lead, clock, number of jobs
 *   SF_JOBS_AT + SF_JOB_WORDS * k                           job k, oldest first: SF_JOB_POINTS, SF_JOB_BATCH, SF_JOB_SENT (0 or 1), SF_JOB_DUE
 *                                                           (0: no due time) behind it
 *   SF_LINES_AT + SF_LINE_WORDS * r                         the line of resource r: its number of uses, and from SF_LINE_USES behind it on
 *                                                           SF_USE_WORDS for each: SF_USE_POINT, SF_USE_OFFSET, SF_USE_LENGTH
 *   SF_CELLS_AT + SF_SIDE * i + j                           the gap from point i to point j plus SF_BIAS; 0 where one of them is no live point
 *
 * After a refused call every word of the board is what it was (but for sf_fresh refused with SF_BAD_SETTINGS). While a call runs, the words are its own: no
 * other thread may look at them, since rules are tried on the table where it lies, and it is put back where they fail (17 and 20). `board_len` is a
 * number of words: with another one than SF_BOARD_WORDS the words are no sound board, so that the answer is SF_UNSOUND where it would be for an
 * unsound board, and no word is written. */
#define SF_MOST_JOBS 16
#define SF_RESOURCES 16
#define SF_MOST_USES 32
#define SF_MOST_POINTS 64
#define SF_SIDE (SF_MOST_POINTS + 1)
#define SF_BIAS 100000000

#define SF_HORIZON_AT 0
#define SF_LEAD_AT 1
#define SF_CLOCK_AT 2
#define SF_COUNT_AT 3
#define SF_HEAD_WORDS 4

#define SF_JOB_POINTS 0
#define SF_JOB_BATCH 1
#define SF_JOB_SENT 2
#define SF_JOB_DUE 3
#define SF_JOB_WORDS 4

#define SF_USE_POINT 0
#define SF_USE_OFFSET 1
#define SF_USE_LENGTH 2
#define SF_USE_WORDS 3
#define SF_LINE_USES 1
#define SF_LINE_WORDS (SF_LINE_USES + SF_USE_WORDS * SF_MOST_USES)

#define SF_JOBS_AT SF_HEAD_WORDS
#define SF_LINES_AT (SF_JOBS_AT + SF_JOB_WORDS * SF_MOST_JOBS)
#define SF_CELLS_AT (SF_LINES_AT + SF_LINE_WORDS * SF_RESOURCES)
#define SF_BOARD_WORDS (SF_CELLS_AT + SF_SIDE * SF_SIDE)

/* A fresh board with this horizon (1 to 100,000,000 ms) and lead (0 to 1,000,000 ms), its clock at 0 and no job on it; what the words held before does
 * not matter. Refusals, in this order: 6 (another number of words), 5. Refused with 5 it leaves the board of zeros, which is not sound.
 * Stack: 3.1 KB. */
uint32_t sf_fresh(uint32_t *board, size_t board_len, uint32_t horizon, uint32_t lead);

/* Plans an offer: the board gets the offer's job, its newest. Where the offer has a due time, the job's last point is no later. Refusals, in this order:
 * 1 to 4 (the plant file), 6, 7 to 10, 23, 11 to 17. Where `cause` has a word, its first word becomes the action, step, fact or allocation that the
 * refusal speaks of, and 0 where there is none. Stack: 21 KB. */
uint32_t sf_plan(uint32_t *board, size_t board_len, const uint8_t *plant, size_t plant_len, const uint8_t *offer, size_t offer_len,
                 uint32_t *cause, size_t cause_len);

/* Sends the unsent jobs up to this place in the job list (0 is the oldest): each of their points is set to its earliest time. Refusals: 6, 18.
 * Stack: 0.9 KB. */
uint32_t sf_send(uint32_t *board, size_t board_len, uint32_t place);

/* Moves the clock to c: every unsent job starts at c + lead or later. Refusals: 6, 19, 20. Stack: 26 KB. */
uint32_t sf_clock(uint32_t *board, size_t board_len, uint32_t c);

/* Drops the oldest job, which is sent and over. Refusals: 6, 21. Stack: 3.3 KB. */
uint32_t sf_retire(uint32_t *board, size_t board_len);

/* A point's row: its job's place in the job list (0 is the oldest), its own place in the job (0 first), its earliest and its latest time in ms. */
struct sf_row {
    uint32_t job, point, earliest, latest;
};

/* The rows of the board, one for each live point but the origin, in number order. Refusals: 6, 22 (`rows_len`, a number of rows, is below theirs).
 * Rows past them, and all of them where refused, stay as they were. There are as many as the jobs have points together: never more than
 * SF_MOST_ROWS. Stack: 0.3 KB. */
#define SF_MOST_ROWS SF_MOST_POINTS
uint32_t sf_report(const uint32_t *board, size_t board_len, struct sf_row *rows, size_t rows_len);

#ifdef __cplusplus
}
#endif

#endif
