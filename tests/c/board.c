/* Calls the board from C: a job planned, sent and retired on a board lent as words, each refusal's words and cause, and lent lists that are
 * too short. */
#include "bytes.h"
#include "snipefeather.h"

#include <stdio.h>
#include <stdlib.h>
#include <string.h>

static int failures = 0;
static int checks = 0;

static void expect(const char *what, uint32_t got, uint32_t want) {
    checks++;
    if (got != want) {
        failures++;
        printf("%s: %u, and should be %u\n", what, got, want);
    }
}

/* an exact heap block, so that a tool that watches the heap sees what goes past an end */
static uint32_t *words(size_t n) { return (uint32_t *)malloc(n * sizeof(uint32_t)); }

/* the same offer with a due time */
static struct bytes due(struct bytes offer, uint32_t time) {
    size_t len = offer.len;
    offer.len = 24;
    word(&offer, time);
    offer.len = len;
    return offer;
}

int main(void) {
    struct bytes plant = proving_plant();
    struct bytes j; /* batch 0, fact 0 known, goal fact 2, no due time, steps A0 (place 0) and A1 */
    j.len = 0;
    word(&j, 0), word(&j, 1), word(&j, 0), word(&j, 4), word(&j, 0), word(&j, 2), word(&j, 0), word(&j, 0), word(&j, 0), word(&j, 1);
    struct bytes lacking = j; /* A1 A0 */
    lacking.len = 28;
    word(&lacking, 1), word(&lacking, 0), word(&lacking, 0);
    struct bytes late = due(lacking, 1001), short_of_time = due(j, 19), in_time = due(j, 900);

    size_t n = SF_BOARD_WORDS;
    uint32_t *board = words(n), *before = words(n), *cause = words(1);
    struct sf_row *rows = (struct sf_row *)malloc(4 * sizeof *rows);
    memset(board, 0xab, n * 4);
    memcpy(before, board, n * 4);

    expect("fresh of a word less", sf_fresh(board, n - 1, 0, 5), SF_UNSOUND);
    expect("no board at all", sf_fresh(NULL, 0, 1000, 5), SF_UNSOUND);
    expect("send on no board", sf_send(board, n, 0), SF_UNSOUND);
    expect("words after refusals", memcmp(board, before, n * 4) != 0, 0);
    memset(before, 0, n * 4);
    expect("fresh of horizon 0", sf_fresh(board, n, 0, 5), SF_BAD_SETTINGS);
    expect("all zeros after it", memcmp(board, before, n * 4) != 0, 0);
    expect("send after it", sf_send(board, n, 0), SF_UNSOUND);
    expect("fresh", sf_fresh(board, n, 1000, 5), SF_ACCEPTED);
    before[SF_HORIZON_AT] = 1000, before[SF_LEAD_AT] = 5, before[SF_CELLS_AT] = SF_BIAS;
    expect("the words of a fresh board", memcmp(board, before, n * 4) != 0, 0);

    memcpy(before, board, n * 4);
    *cause = 77;
    expect("13: a fact lacks", sf_plan(board, n, plant.at, plant.len, lacking.at, lacking.len, cause, 1), SF_NOT_KNOWN);
    expect("the fact", *cause, 1);
    expect("words after 13", memcmp(board, before, n * 4) != 0, 0);
    *cause = 77;
    expect("plan, a word less", sf_plan(board, n - 1, plant.at, plant.len, j.at, j.len, cause, 1), SF_UNSOUND);
    expect("no value of 6", *cause, 0);
    expect("1 comes before 6", sf_plan(board, n - 1, NULL, 0, j.at, j.len, cause, 1), SF_NO_PLANT);
    expect("words after refused plans", memcmp(board, before, n * 4) != 0, 0);
    expect("1: no plant", sf_plan(board, n, NULL, 0, j.at, j.len, NULL, 0), SF_NO_PLANT);
    *cause = 77;
    expect("23 comes before 13", sf_plan(board, n, plant.at, plant.len, late.at, late.len, cause, 1), SF_DUE_TOO_LATE);
    expect("no value of 23", *cause, 0);
    expect("17: due at 19", sf_plan(board, n, plant.at, plant.len, short_of_time.at, short_of_time.len, cause, 1), SF_NO_TIMETABLE);
    expect("words after 23 and 17", memcmp(board, before, n * 4) != 0, 0);
    expect("plan, due at 900", sf_plan(board, n, plant.at, plant.len, in_time.at, in_time.len, cause, 1), SF_ACCEPTED);
    expect("its due time", board[SF_JOBS_AT + SF_JOB_DUE], 900);
    expect("the gap from the origin to its last point", board[SF_CELLS_AT + 3], SF_BIAS + 900);
    expect("fresh again", sf_fresh(board, n, 1000, 5), SF_ACCEPTED);
    expect("plan", sf_plan(board, n, plant.at, plant.len, j.at, j.len, cause, 1), SF_ACCEPTED);
    expect("no value", *cause, 0);
    const uint32_t *job = board + SF_JOBS_AT, *line = board + SF_LINES_AT, *use = line + SF_LINE_USES;
    expect("one job", board[SF_COUNT_AT], 1);
    expect("its points", job[SF_JOB_POINTS], 3);
    expect("its batch", job[SF_JOB_BATCH], 0);
    expect("its mark", job[SF_JOB_SENT], 0);
    expect("no due time", job[SF_JOB_DUE], 0);
    expect("line 0's count", line[0], 1);
    expect("its use's point", use[SF_USE_POINT], 1);
    expect("its use's offset", use[SF_USE_OFFSET], 0);
    expect("its use's length", use[SF_USE_LENGTH], 10);
    expect("the gap from the origin to the last point", board[SF_CELLS_AT + 3], SF_BIAS + 1000);
    expect("the gap from the last point to the origin", board[SF_CELLS_AT + SF_SIDE * 3], SF_BIAS - 20);

    for (int k = 0; k < 4; k++)
        rows[k].job = rows[k].point = rows[k].earliest = rows[k].latest = 77;
    expect("22: two rows", sf_report(board, n, rows, 2), SF_SHORT_LIST);
    expect("6: report, a word less", sf_report(board, n - 1, rows, 4), SF_UNSOUND);
    expect("22: no list", sf_report(board, n, NULL, 0), SF_SHORT_LIST);
    expect("no row written", rows[0].job, 77);
    expect("report", sf_report(board, n, rows, 4), SF_ACCEPTED);
    static const struct sf_row want[4] = {{0, 0, 5, 985}, {0, 1, 15, 995}, {0, 2, 20, 1000}, {77, 77, 77, 77}};
    for (int k = 0; k < 4; k++) {
        expect("a row's job", rows[k].job, want[k].job);
        expect("a row's point", rows[k].point, want[k].point);
        expect("a row's earliest time", rows[k].earliest, want[k].earliest);
        expect("a row's latest time", rows[k].latest, want[k].latest);
    }
    rows[0].job = 77;
    expect("report into as many rows", sf_report(board, n, rows, 3), SF_ACCEPTED);
    expect("the first row again", rows[0].job, 0);

    expect("18: no job at place 1", sf_send(board, n, 1), SF_NOT_UNSENT);
    expect("send", sf_send(board, n, 0), SF_ACCEPTED);
    expect("its mark, sent", job[SF_JOB_SENT], 1);
    expect("18: sent already", sf_send(board, n, 0), SF_NOT_UNSENT);
    expect("21: not over", sf_retire(board, n), SF_NOT_OVER);
    expect("19: past the horizon", sf_clock(board, n, 1001), SF_BAD_CLOCK);
    expect("clock", sf_clock(board, n, 20), SF_ACCEPTED);
    expect("the clock", board[SF_CLOCK_AT], 20);
    expect("19: back", sf_clock(board, n, 19), SF_BAD_CLOCK);

    board[SF_JOBS_AT + SF_JOB_SENT] = 2;
    memcpy(before, board, n * 4);
    expect("6: a mark of 2", sf_retire(board, n), SF_UNSOUND);
    expect("6: report of a mark of 2", sf_report(board, n, rows, 4), SF_UNSOUND);
    expect("words after 6", memcmp(board, before, n * 4) != 0, 0);
    board[SF_JOBS_AT + SF_JOB_SENT] = 1;
    board[SF_JOBS_AT + SF_JOB_DUE] = 1001;
    expect("6: due past the horizon", sf_retire(board, n), SF_UNSOUND);
    board[SF_JOBS_AT + SF_JOB_DUE] = 1000;
    expect("retire", sf_retire(board, n), SF_ACCEPTED);
    expect("no job", board[SF_COUNT_AT], 0);
    expect("no use", line[0], 0);
    expect("21: no job", sf_retire(board, n), SF_NOT_OVER);

    free(board), free(before), free(cause), free(rows);
    printf("C: %d of %d answers of the board's calls were what they should be\n", checks - failures, checks);
    return failures != 0;
}
