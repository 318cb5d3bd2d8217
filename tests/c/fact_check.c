/* Calls sf_fact_check from C: the fact cases of document 01's proving table, and one input for each refusal number. */
#include "bytes.h"
#include "snipefeather.h"

#include <stdio.h>
#include <stdlib.h>
#include <string.h>

/* an offer's header, with no due time */
static struct bytes offer(uint32_t known, uint32_t known_false, uint32_t goal, uint32_t goal_false, uint32_t steps) {
    struct bytes b;
    b.len = 0;
    word(&b, 0);
    word(&b, known);
    word(&b, known_false);
    word(&b, goal);
    word(&b, goal_false);
    word(&b, steps);
    word(&b, 0);
    return b;
}

static int failures = 0;
static int checks = 0;

/* The two ranges are lent as exact heap blocks, so that a tool that watches the heap sees a read past either end. */
static void expect(const char *what, struct bytes p, struct bytes o, uint32_t want) {
    uint8_t *plant = (uint8_t *)malloc(p.len ? p.len : 1);
    uint8_t *offered = (uint8_t *)malloc(o.len ? o.len : 1);
    memcpy(plant, p.at, p.len);
    memcpy(offered, o.at, o.len);
    uint32_t got = sf_fact_check(plant, p.len, offered, o.len);
    checks++;
    if (got != want) {
        failures++;
        printf("%s: sf_fact_check gave %u, and should give %u\n", what, got, want);
    }
    free(plant);
    free(offered);
}

int main(void) {
    struct bytes plant = proving_plant();

    struct bytes j = offer(1, 0, 4, 0, 2);
    word(&j, 0), word(&j, 0), word(&j, 1);
    expect("a: job J", plant, j, 0);
    struct bytes b = offer(1, 0, 4, 0, 2);
    word(&b, 1), word(&b, 0), word(&b, 0);
    expect("b: A1 A0", plant, b, 13);
    struct bytes c = offer(1, 0, 5, 0, 2);
    word(&c, 0), word(&c, 0), word(&c, 1);
    expect("c: goal facts 0 and 2", plant, c, 11);
    struct bytes d = offer(0, 0, 0, 8, 1);
    word(&d, 2);
    expect("d: goal fact 3 false, A2", plant, d, 12);
    struct bytes e = offer(1, 0, 0, 1, 1);
    word(&e, 0), word(&e, 0);
    expect("e: goal fact 0 false, A0", plant, e, 0);

    struct bytes p = plant;
    p.at[p.len - 1] = 'U';
    expect("1: the mark", p, j, 1);
    p = plant, p.len = 11;
    expect("1: eleven bytes", p, j, 1);
    p = plant, p.at[p.len - 8] = 4;
    expect("2: four actions", p, j, 2);
    p = plant, p.at[25] = 1;
    expect("3: a spare byte", p, j, 3);
    p = plant, p.at[28] = 16;
    expect("4: resource 16", p, j, 4);
    struct bytes o = offer(1, 0, 4, 0, 9);
    expect("7: nine steps", plant, o, 7);
    o = j, o.len = 27;
    expect("7: 27 bytes", plant, o, 7);
    o = j, o.len = 28;
    expect("8: no byte of a step", plant, o, 8);
    o = j, o.at[28] = 3;
    expect("8: no such action", plant, o, 8);
    o = j, o.len = 38;
    expect("8: cut off", plant, o, 8);
    o = j, o.len = 41;
    expect("9: a byte left over", plant, o, 9);
    o = j, o.at[8] = 1;
    expect("10: fact 0 known both ways", plant, o, 10);
    o = j, o.at[16] = 4;
    expect("10: fact 2 both in the goal", plant, o, 10);
    o = j, o.at[24] = o.at[25] = o.at[26] = o.at[27] = 0xff;
    expect("a due time past every horizon", plant, o, 0);

    if (sf_fact_check(NULL, 0, NULL, 0) != 1) {
        failures++;
        printf("no bytes at all: should give 1\n");
    }
    checks++;
    printf("C: %d of %d calls of sf_fact_check gave what they should\n", checks - failures, checks);
    return failures != 0;
}
