/*
 * Goes through the blocks of a suite: where each stands, and whether it is by itself a good test, of edition 1. examples/tests.c
 * goes through its tests, of both editions.
 *
 *   gcc -std=c11 -O2 -Iinclude -o target/parts examples/parts.c target/staticlib/libcapi.a
 *   target/parts samples/suite
 */
#include "read_file.h"

#include <cogthunder.h>

#include <inttypes.h>
#include <stdio.h>

_Static_assert(sizeof(struct ct_part) == 24, "a part is returned by value, without padding");

enum { LONGEST = 1 << 20 };

static uint8_t suite[LONGEST];

static void describe(uint64_t k, struct ct_part part)
{
    uint64_t word = ct_read(suite + part.offset, part.length);
    printf("block %" PRIu64 ": %" PRIu64 " bytes from byte %" PRIu64 " on, ", k, part.length, part.offset);
    if (CT_CASE(word) == CT_REFUSED) {
        printf("refused %u\n", CT_BYTE1(word));
    } else {
        printf("a good test\n");
    }
}

int main(int count, char **arguments)
{
    size_t length = 0;
    if (count != 2) {
        fputs("usage: parts FILE, a suite of up to 1 MiB\n", stderr);
        return 2;
    }
    if (!read_file(arguments[1], suite, sizeof suite, &length)) {
        return 1;
    }
    for (uint64_t k = 0;; k++) {
        struct ct_part part = ct_part_of(suite, length, k);
        if (CT_CASE(part.word) == CT_REFUSED) {
            printf("block %" PRIu64 ": refused %u\n", k, CT_BYTE1(part.word));
            return 0;
        }
        describe(k, part);
    }
}
