/*
 * Writes the block of message passing to standard output: hart 0 stores x=1 and y=1, hart 1 loads y reading 1 and x reading 0.
 *
 *   gcc -std=c11 -O2 -Iinclude -o target/write examples/write.c target/staticlib/libcapi.a
 *   target/write >message-passing.block
 */
#include <cogthunder.h>

#include <stdio.h>

_Static_assert(sizeof(struct ct_event) == 24, "an event ends with two bytes of padding");
_Static_assert(sizeof(struct ct_table) == 808, "a byte of padding behind the model, and two behind the initial values");

enum kind { LOAD = 1, STORE = 2 };
enum location { X, Y };

static const struct ct_table MESSAGE_PASSING = {
    .harts = 2,
    .locations = 2,
    .count = 4,
    .events = {
        {.hart = 0, .kind = STORE, .location = X, .written = 1},
        {.hart = 0, .kind = STORE, .location = Y, .written = 1},
        {.hart = 1, .kind = LOAD, .location = Y, .read = 1},
        {.hart = 1, .kind = LOAD, .location = X, .read = 0},
    },
};

int main(void)
{
    uint8_t block[CT_BLOCK];
    uint64_t word = ct_write(MESSAGE_PASSING, block, sizeof block);
    if (CT_CASE(word) == CT_REFUSED) {
        fprintf(stderr, "refused %u\n", CT_BYTE1(word));
        return 1;
    }
    return fwrite(block, 1, sizeof block, stdout) == sizeof block ? 0 : 1;
}
