/* What the tests from C share: bytes that are written word by word, low byte first, and the plant of document 01's proving table. */
#include <stdint.h>
#include <stddef.h>
#include <string.h>

struct bytes {
    uint8_t at[256];
    size_t len;
};

static void word(struct bytes *b, uint32_t v) {
    for (int i = 0; i < 4; i++)
        b->at[b->len++] = (uint8_t)(v >> (8 * i));
}

/* The plant of the proving table: action 0 has one allocation of resource 0, offset 0, length 10. */
static struct bytes proving_plant(void) {
    static const uint32_t words[] = {1, 0, 2, 1, 10, 20, 1, 0, 0, 10, 2, 0, 4, 2, 5, 5, 0, 8, 0, 0, 0, 1, 1, 0, 0, 40, 68, 96, 3};
    struct bytes b;
    b.len = 0;
    for (size_t k = 0; k < sizeof words / sizeof words[0]; k++)
        word(&b, words[k]);
    memcpy(b.at + b.len, "PLNT", 4);
    b.len += 4;
    return b;
}
