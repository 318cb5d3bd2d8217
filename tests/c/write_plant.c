/* Calls sf_write_plant from C: document 01's plant byte for byte, each limit and one past it, the order of refusals, buffers and lists of every length;
 * and what was written is planned on. */
#include "bytes.h"
#include "snipefeather.h"

#include <stdio.h>
#include <stdlib.h>
#include <string.h>

enum { MOST_ACTIONS = 128, LONGEST_FILE = 10252, UNTOUCHED = 0xab, UNTOLD = 77 };

static int failures = 0;
static int checks = 0;

static void expect(const char *what, uint32_t got, uint32_t want) {
    checks++;
    if (got != want) {
        failures++;
        printf("%s: %u, and should be %u\n", what, (unsigned)got, (unsigned)want);
    }
}

/* Fields of actions, as they are lent. */
struct fields {
    uint32_t at[SF_ACTION_WORDS * (MOST_ACTIONS + 1)];
    size_t len;
};

/* what a call gave: the number, the two words that tell of it, and the buffer */
static uint32_t number, value, length;
static uint8_t buffer[LONGEST_FILE + 1];

static int untouched(size_t from, size_t to) {
    while (from < to && buffer[from] == UNTOUCHED)
        from++;
    return from == to;
}

/* Writes into a buffer of `room` bytes. Each list is lent as an exact heap block, so that a tool that watches the heap sees what goes past an end. */
static void write_plant(const struct fields *f, size_t room) {
    uint32_t *actions = (uint32_t *)malloc(f->len ? f->len * sizeof(uint32_t) : 1);
    uint8_t *plant = (uint8_t *)malloc(room ? room : 1);
    uint32_t *written = (uint32_t *)malloc(2 * sizeof(uint32_t));
    memcpy(actions, f->at, f->len * sizeof(uint32_t));
    memset(plant, UNTOUCHED, room);
    written[0] = written[1] = UNTOLD;
    number = sf_write_plant(actions, f->len, plant, room, written, 2);
    value = written[0], length = written[1];
    memset(buffer, UNTOUCHED, sizeof buffer);
    memcpy(buffer, plant, room);
    expect("the fields after it", memcmp(actions, f->at, f->len * sizeof(uint32_t)) != 0, 0);
    free(actions), free(plant), free(written);
}

static void accepted(const char *what, const struct fields *f, size_t room, uint32_t want) {
    write_plant(f, room);
    expect(what, number, SF_ACCEPTED);
    expect("  no value", value, 0);
    expect("  its length", length, want);
    expect("  bytes past it", untouched(length, sizeof buffer), 1);
}

static void refused(const char *what, const struct fields *f, size_t room, uint32_t want, uint32_t of) {
    write_plant(f, room);
    expect(what, number, want);
    expect("  its value", value, of);
    expect("  no length", length, 0);
    expect("  no byte", untouched(0, sizeof buffer), 1);
}

/* The plant of the proving table; what stands past the first n allocations says nothing. */
static struct fields proving(void) {
    static const uint32_t actions[3][SF_ACTION_WORDS] = {
        {1, 0, 2, 1, 10, 20, 1, 0, 0, 10, 16, 9, 0, 5, 5, 5, 7, 7, 7},
        {2, 0, 4, 2, 5, 5, 0, 99, 1000001, 0, 1, 1, 1, 1, 1, 1, 1, 1, 1},
        {8, 0, 0, 0, 1, 1, 0, 0, 0, 0, 0, 0, 0, 0, 0, 0, 0, 0, 0},
    };
    struct fields f;
    f.len = sizeof actions / sizeof(uint32_t);
    memcpy(f.at, actions, sizeof actions);
    return f;
}

/* So many actions with every number at its upper limit and n allocations. */
static struct fields many(size_t count, uint32_t n) {
    static const uint32_t largest[SF_ACTION_WORDS] = {0xfffffffe, 1,       0x7fffffff, 0x80000000, 1000000, 1000000, 0,       15,      1000000, 1000000,
                                                      15,         1000000, 1000000,    15,         1000000, 1000000, 15,      1000000, 1000000};
    struct fields f;
    f.len = 0;
    for (size_t k = 0; k < count; k++) {
        memcpy(f.at + f.len, largest, sizeof largest);
        f.at[f.len + 6] = n;
        f.len += SF_ACTION_WORDS;
    }
    return f;
}

/* The proving plant with one word of an action changed. */
static struct fields changed(size_t action, size_t word, uint32_t to) {
    struct fields f = proving();
    f.at[SF_ACTION_WORDS * action + word] = to;
    return f;
}

static void whole_files(void) {
    struct bytes plant = proving_plant();
    struct fields f = proving();
    accepted("the proving plant, 120 bytes", &f, 120, 120);
    expect("byte for byte", memcmp(buffer, plant.at, 120) != 0, 0);
    accepted("the same, a byte more", &f, 121, 120);
    expect("byte for byte", memcmp(buffer, plant.at, 120) != 0, 0);
    accepted("the same, much more", &f, LONGEST_FILE, 120);
    refused("22: a byte less", &f, 119, SF_SHORT_LIST, 0);
    refused("22: no byte", &f, 0, SF_SHORT_LIST, 0);
    refused("22: a byte", &f, 1, SF_SHORT_LIST, 0);
}

static void counts(void) {
    struct fields f = many(1, 0);
    accepted("one action, no allocation", &f, 44, 44);
    refused("22: a byte less", &f, 43, SF_SHORT_LIST, 0);
    f = many(128, 4);
    accepted("128 actions, four allocations each", &f, LONGEST_FILE, LONGEST_FILE);
    refused("22: a byte less", &f, LONGEST_FILE - 1, SF_SHORT_LIST, 0);
    f.len--;
    refused("2: a word less", &f, LONGEST_FILE, SF_PLANT_LENGTH, 0);
    f = many(129, 0);
    refused("2: 129 actions", &f, LONGEST_FILE, SF_PLANT_LENGTH, 0);
    f.len = SF_ACTION_WORDS * 128 + 1;
    refused("2: a word more than 128 actions", &f, LONGEST_FILE, SF_PLANT_LENGTH, 0);
    f.len = 0;
    refused("2: no action", &f, LONGEST_FILE, SF_PLANT_LENGTH, 0);
    for (f.len = 1; f.len < SF_ACTION_WORDS; f.len++)
        refused("2: a part of an action", &f, LONGEST_FILE, SF_PLANT_LENGTH, 0);
    f = many(129, 5);
    refused("2 comes before 3 and 22", &f, 0, SF_PLANT_LENGTH, 0);
}

static void allocation_counts(void) {
    struct fields f = many(2, 4);
    accepted("n = 4", &f, LONGEST_FILE, 172);
    static const uint32_t large[] = {5, 255, 256, 257, 260, 65536, 0x1000000, 0x80000000, 0xffffffff};
    for (size_t k = 0; k < sizeof large / sizeof large[0]; k++) {
        f = many(2, 4), f.at[SF_ACTION_WORDS + 6] = large[k];
        refused("3: n is too large", &f, LONGEST_FILE, SF_PLANT_RECORD, 1);
        f = changed(0, 6, large[k]);
        refused("3: n is too large in the first action", &f, 0, SF_PLANT_RECORD, 0);
    }
    f = changed(1, 6, 256), f.len = 2 * SF_ACTION_WORDS;
    refused("3 before 22: A0, then n = 256", &f, 0, SF_PLANT_RECORD, 1);
}

static void ranges(void) {
    /* a word of an action, what it may just be, what it may not; of all the least and the largest */
    static const struct {
        const char *what;
        uint32_t word, good, bad;
    } limits[] = {
        {"shortest 0", 4, 1, 0},
        {"shortest past longest", 4, 1000000, 1000001},
        {"longest past 1,000,000", 5, 1000000, 1000001},
        {"longest below shortest", 5, 1000000, 999999},
        {"resource 16", 7, 15, 16},
        {"offset 1,000,001", 8, 1000000, 1000001},
        {"length 0", 9, 1, 0},
        {"length 1,000,001", 9, 1000000, 1000001},
        {"the last resource", 16, 0, 0xffffffff},
        {"the last offset", 17, 0, 0x80000000},
        {"the last length", 18, 1, 0},
        {"a fact twice in the needs", 1, 1, 2},
        {"the last fact twice in the makes", 2, 0, 0x80000000},
    };
    for (size_t k = 0; k < sizeof limits / sizeof limits[0]; k++) {
        struct fields f = many(128, 4);
        f.at[SF_ACTION_WORDS * 127 + limits[k].word] = limits[k].good;
        accepted(limits[k].what, &f, LONGEST_FILE, LONGEST_FILE);
        f.at[SF_ACTION_WORDS * 127 + limits[k].word] = limits[k].bad;
        refused(limits[k].what, &f, LONGEST_FILE, SF_PLANT_ACTION, 127);
        refused(limits[k].what, &f, 0, SF_PLANT_ACTION, 127);
    }
}

static void orders(void) {
    struct fields f = changed(1, 1, 2);
    refused("4 before 22: a fact twice in action 1", &f, 119, SF_PLANT_ACTION, 1);
    f = changed(0, 4, 0), f.at[SF_ACTION_WORDS + 6] = 5;
    refused("4 of an action before 3 of the next", &f, LONGEST_FILE, SF_PLANT_ACTION, 0);
    f = changed(1, 4, 0), f.at[SF_ACTION_WORDS + 6] = 5;
    refused("3 before 4 in an action", &f, LONGEST_FILE, SF_PLANT_RECORD, 1);
    f = changed(2, 6, 5), f.at[SF_ACTION_WORDS + 4] = 0;
    refused("4 of an action before 3 of a later one", &f, LONGEST_FILE, SF_PLANT_ACTION, 1);
}

/* As far as there is room, and NULL where there is none. */
static void lists(void) {
    struct fields good = proving(), bad = changed(2, 4, 0);
    uint32_t told[3] = {UNTOLD, UNTOLD, UNTOLD};
    uint8_t plant[120];
    expect("no list", sf_write_plant(good.at, good.len, plant, sizeof plant, NULL, 0), SF_ACCEPTED);
    expect("no list, refused", sf_write_plant(bad.at, bad.len, plant, sizeof plant, NULL, 0), SF_PLANT_ACTION);
    expect("a list of a word", sf_write_plant(bad.at, bad.len, plant, sizeof plant, told, 1), SF_PLANT_ACTION);
    expect("  the value", told[0], 2);
    expect("  no more", told[1], UNTOLD);
    expect("a list of three", sf_write_plant(good.at, good.len, plant, sizeof plant, told, 3), SF_ACCEPTED);
    expect("  no value", told[0], 0);
    expect("  the length", told[1], 120);
    expect("  no more", told[2], UNTOLD);
    expect("no buffer", sf_write_plant(good.at, good.len, NULL, 0, told, 2), SF_SHORT_LIST);
    expect("  no length", told[1], 0);
    expect("nothing at all", sf_write_plant(NULL, 0, NULL, 0, NULL, 0), SF_PLANT_LENGTH);
}

/* The file is written at eight places of a block, since it may begin anywhere, and job J is planned on it: the windows of case a. */
static void planned(void) {
    struct fields f = proving();
    struct bytes j; /* batch 0, fact 0 known, goal fact 2, no due time, steps A0 (place 0) and A1 */
    j.len = 0;
    word(&j, 0), word(&j, 1), word(&j, 0), word(&j, 4), word(&j, 0), word(&j, 2), word(&j, 0), word(&j, 0), word(&j, 0), word(&j, 1);
    static uint32_t board[SF_BOARD_WORDS];
    for (size_t at = 0; at < 8; at++) {
        uint8_t block[136];
        struct sf_row rows[3];
        memset(block, UNTOUCHED, sizeof block);
        expect("write anywhere", sf_write_plant(f.at, f.len, block + at, 120, NULL, 0), SF_ACCEPTED);
        memcpy(buffer, block, sizeof block);
        expect("  bytes around it", untouched(0, at) && untouched(at + 120, sizeof block), 1);
        expect("  fresh", sf_fresh(board, SF_BOARD_WORDS, 1000, 5), SF_ACCEPTED);
        expect("  plan J on it", sf_plan(board, SF_BOARD_WORDS, block + at, 120, j.at, j.len, NULL, 0), SF_ACCEPTED);
        expect("  report", sf_report(board, SF_BOARD_WORDS, rows, 3), SF_ACCEPTED);
        expect("  the start, earliest", rows[0].earliest, 5);
        expect("  the start, latest", rows[0].latest, 985);
        expect("  the end, earliest", rows[2].earliest, 20);
        expect("  the end, latest", rows[2].latest, 1000);
    }
}

int main(void) {
    whole_files();
    counts();
    allocation_counts();
    ranges();
    orders();
    lists();
    planned();
    printf("C: %d of %d answers of sf_write_plant were what they should be\n", checks - failures, checks);
    return failures != 0;
}
