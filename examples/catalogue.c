/* A catalogue tool in small: the plant file of a site is written from what the catalogue says of its machines, and a sheet is planned on it at once.
 *
 * Build it with the board's library (rt staticlib cabi):
 *     cc -std=c11 -Iinclude examples/catalogue.c target/staticlib/libcabi.a -o catalogue
 */
#include "snipefeather.h"

#include <stdio.h>

/* The facts of a sheet, a bit each. */
enum { FED = 1, PRINTED = 2, TURNED = 4, STACKED = 8 };

/* The catalogue's own record of an action: which facts it needs and makes, its shortest and longest time, and where it takes a machine: resource,
 * when after its start, for how long. Times are in ms. */
struct entry {
    const char *name;
    uint32_t needs, makes, unmakes;
    uint32_t shortest, longest;
    uint32_t uses;
    uint32_t use[4][3];
};

enum { PRINT, TURN, STACK, ACTIONS };

static struct entry catalogue[ACTIONS] = {
    {"print", FED, PRINTED, FED, 10, 20, 1, {{0, 0, 10}, {0, 0, 0}, {0, 0, 0}, {0, 0, 0}}},
    {"turn", PRINTED, TURNED, 0, 8, 4, 2, {{1, 0, 4}, {2, 2, 6}, {0, 0, 0}, {0, 0, 0}}},
    {"stack", PRINTED | TURNED, STACKED, 0, 5, 5, 0, {{0, 0, 0}, {0, 0, 0}, {0, 0, 0}, {0, 0, 0}}},
};

static uint8_t plant[1024];
static size_t plant_len;
static uint32_t board[SF_BOARD_WORDS];

/* An entry's words, as sf_write_plant takes them. */
static void to_words(uint32_t *words, const struct entry *entry) {
    const uint32_t head[] = {entry->needs, 0, entry->makes, entry->unmakes, entry->shortest, entry->longest, entry->uses};
    for (size_t k = 0; k < 7; k++)
        words[k] = head[k];
    for (size_t k = 0; k < 12; k++)
        words[7 + k] = entry->use[k / 3][k % 3];
}

/* Writes the plant into a buffer with room for so many bytes. What there was is still there where it is refused. */
static void write_plant(size_t room) {
    uint32_t words[SF_ACTION_WORDS * ACTIONS];
    uint32_t written[2];
    for (size_t k = 0; k < ACTIONS; k++)
        to_words(words + SF_ACTION_WORDS * k, &catalogue[k]);
    uint32_t number = sf_write_plant(words, SF_ACTION_WORDS * ACTIONS, plant, room, written, 2);
    if (number == SF_ACCEPTED) {
        plant_len = written[1];
        printf("write the plant into %u bytes: accepted, it takes %u\n", (unsigned)room, (unsigned)plant_len);
    } else if (number == SF_PLANT_RECORD || number == SF_PLANT_ACTION) {
        printf("write the plant into %u bytes: refused with %u, action %u (%s)\n", (unsigned)room, (unsigned)number, (unsigned)written[0],
               catalogue[written[0]].name);
    } else {
        printf("write the plant into %u bytes: refused with %u\n", (unsigned)room, (unsigned)number);
    }
}

/* A sheet that is fed in is to be stacked, whenever that is: it is printed, turned and stacked, each time the first in the line of its machine. */
static void plan(void) {
    /* batch, known, known not, goal, goal not, number of steps, due time; the steps, each with its places */
    const uint32_t words[] = {0, FED, 0, STACKED, 0, ACTIONS, 0, PRINT, 0, TURN, 0, 0, STACK};
    uint8_t offer[sizeof words];
    uint32_t cause;
    for (size_t k = 0; k < sizeof offer; k++)
        offer[k] = (uint8_t)(words[k / 4] >> (8 * (k % 4)));
    uint32_t number = sf_plan(board, SF_BOARD_WORDS, plant, plant_len, offer, sizeof offer, &cause, 1);
    if (number == SF_ACCEPTED)
        printf("plan a sheet: accepted\n");
    else
        printf("plan a sheet: refused with %u, cause %u\n", (unsigned)number, (unsigned)cause);
}

int main(void) {
    struct sf_row rows[ACTIONS + 1];

    write_plant(sizeof plant);
    /* The catalogue had turn's two times the wrong way round. */
    catalogue[TURN].shortest = 4, catalogue[TURN].longest = 8;
    write_plant(100);
    write_plant(sizeof plant);

    if (sf_fresh(board, SF_BOARD_WORDS, 1000, 5) != SF_ACCEPTED)
        return 1;
    plan();
    if (sf_report(board, SF_BOARD_WORDS, rows, ACTIONS + 1) != SF_ACCEPTED)
        return 1;
    for (size_t k = 0; k < ACTIONS; k++)
        printf("  %s starts at %u to %u ms\n", catalogue[k].name, (unsigned)rows[k].earliest, (unsigned)rows[k].latest);
    printf("  the sheet is done at %u to %u ms\n", (unsigned)rows[ACTIONS].earliest, (unsigned)rows[ACTIONS].latest);
    return 0;
}
