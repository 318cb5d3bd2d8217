/* A print line's controller in small: two jobs are offered to the board, the second of which must leave by a stated time; three offers are refused; the
 * first job runs and leaves.
 *
 * Build it with the board's library (rt staticlib cabi):
 *     cc -std=c11 -Iinclude examples/controller.c target/staticlib/libcabi.a -o controller
 */
#include "snipefeather.h"

#include <stdio.h>

/* A plant of two actions, in 32-bit words (low byte first in the file):
 *   action 0, print: needs fact 0 (there is a sheet), makes fact 1 (it is printed), 10 to 20 ms, takes resource 0 for its first 10 ms
 *   action 1, stack: needs fact 1, makes fact 2 (it is stacked), 5 ms */
static const uint32_t plant_words[] = {
    1, 0, 2, 0, 10, 20, 1, 0, 0, 10, /* print: needs, needs not, makes, makes not, shortest, longest; one allocation: resource, offset, length */
    2, 0, 4, 0, 5,  5,  0,           /* stack: no allocation */
    0, 40, 68, 2, 0x544e4c50,        /* where the records begin; where this index begins, how many actions, the mark PLNT */
};

/* A sheet that is there is to be printed and stacked by the time `due` (0: whenever it is); its print comes behind `before` others in the line of
 * resource 0. */
static size_t offer_words(uint32_t *words, uint32_t known, uint32_t due, uint32_t before) {
    /* batch, known, known not, goal, goal not, number of steps, due time; the steps: print, its place, stack */
    const uint32_t offer[] = {0, known, 0, 4, 0, 2, due, 0, before, 1};
    const size_t n = sizeof offer / sizeof offer[0];
    for (size_t k = 0; k < n; k++)
        words[k] = offer[k];
    return n;
}

static size_t to_bytes(uint8_t *bytes, const uint32_t *words, size_t n) {
    for (size_t k = 0; k < 4 * n; k++)
        bytes[k] = (uint8_t)(words[k / 4] >> (8 * (k % 4)));
    return 4 * n;
}

/* The board, and what is lent beside it, belong to the controller. */
static uint32_t board[SF_BOARD_WORDS];
static uint8_t plant[sizeof plant_words];
static size_t plant_len;

static void plan(const char *sheet, uint32_t known, uint32_t due, uint32_t before) {
    uint32_t words[16];
    uint8_t offer[64];
    size_t offer_len = to_bytes(offer, words, offer_words(words, known, due, before));
    uint32_t cause;
    uint32_t number = sf_plan(board, SF_BOARD_WORDS, plant, plant_len, offer, offer_len, &cause, 1);
    if (number == SF_ACCEPTED)
        printf("plan %s: accepted\n", sheet);
    else
        printf("plan %s: refused with %u, cause %u\n", sheet, (unsigned)number, (unsigned)cause);
}

static void told(const char *call, uint32_t number) {
    if (number == SF_ACCEPTED)
        printf("%s: accepted\n", call);
    else
        printf("%s: refused with %u\n", call, (unsigned)number);
}

static void report(void) {
    static struct sf_row rows[SF_MOST_ROWS];
    if (sf_report(board, SF_BOARD_WORDS, rows, SF_MOST_ROWS) != SF_ACCEPTED)
        return;
    size_t points = 0;
    for (uint32_t job = 0; job < board[SF_COUNT_AT]; job++)
        points += board[SF_JOBS_AT + SF_JOB_WORDS * job + SF_JOB_POINTS];
    for (const struct sf_row *row = rows; row < rows + points; row++)
        printf("  job %u, point %u: %u to %u ms\n", (unsigned)row->job, (unsigned)row->point, (unsigned)row->earliest, (unsigned)row->latest);
}

int main(void) {
    plant_len = to_bytes(plant, plant_words, sizeof plant_words / sizeof plant_words[0]);

    told("a fresh board, 1000 ms long", sf_fresh(board, SF_BOARD_WORDS, 1000, 5));
    plan("sheet A", 1, 0, 0);
    plan("a sheet that is not there", 0, 0, 1);
    plan("sheet B, behind A, due at 2000 ms", 1, 2000, 1);
    plan("sheet B, behind A, due at 25 ms", 1, 25, 1);
    plan("sheet B, behind A, due at 100 ms", 1, 100, 1);
    report();

    told("send the oldest job", sf_send(board, SF_BOARD_WORDS, 0));
    report();

    told("retire it", sf_retire(board, SF_BOARD_WORDS));
    told("clock to 20 ms", sf_clock(board, SF_BOARD_WORDS, 20));
    told("retire it", sf_retire(board, SF_BOARD_WORDS));
    report();
    return 0;
}
