/*
 * Goes through the tests of a suite, of both editions: where each begins, how long it is, and whether it is good.
 *
 *   gcc -std=c11 -O2 -Iinclude -o target/tests examples/tests.c target/staticlib/libcapi.a
 *   target/tests samples/suite
 */
#include "read_file.h"

#include <cogthunder.h>

#include <inttypes.h>
#include <stdio.h>

enum { LONGEST = 1 << 20 };

static uint8_t suite[LONGEST];

static void describe(uint64_t k, uint64_t length)
{
    uint64_t word = ct_read(suite + CT_BLOCK * k, length);
    printf("block %" PRIu64 ": a test of %" PRIu64 " bytes, ", k, length);
    if (CT_CASE(word) == CT_REFUSED) {
        printf("refused %u\n", CT_BYTE1(word));
    } else {
        printf("good\n");
    }
}

int main(int count, char **arguments)
{
    size_t length = 0;
    uint64_t tests = 0;
    if (count != 2) {
        fputs("usage: tests FILE, a suite of up to 1 MiB\n", stderr);
        return 2;
    }
    if (!read_file(arguments[1], suite, sizeof suite, &length)) {
        return 1;
    }
    for (uint64_t k = 0; ct_test_length(suite, length, k) > 0; k = ct_next(suite, length, k)) {
        describe(k, ct_test_length(suite, length, k));
        tests++;
    }
    printf("%" PRIu64 " tests\n", tests);
    return 0;
}
