/*
 * Lists all witnesses of the test in a file, the global memory orders that give its outcome: each call is given the order that the
 * one before it wrote. There is no allowance, so that the outcome is allowed or forbidden, and never undecided.
 *
 *   gcc -std=c11 -O2 -Iinclude -o target/witnesses examples/witnesses.c target/staticlib/libcapi.a
 *   target/witnesses samples/C1.block
 */
#include "read_file.h"

#include <cogthunder.h>

#include <inttypes.h>
#include <stdio.h>
#include <string.h>

enum status { ALLOWED = 0, FORBIDDEN = 1, UNUSABLE = 3 };

static const char USAGE[] =
    "usage: witnesses FILE\n"
    "FILE holds one test: a block of 512 bytes, or three of them in edition 2.\n"
    "Exit status: 0 allowed, 1 forbidden, 3 refused or not readable.\n";

static void print_order(const uint8_t *order, unsigned length)
{
    for (unsigned i = 0; i < length; i++) {
        printf(i == 0 ? "%u" : " %u", order[i]);
    }
    printf("\n");
}

static enum status list(const uint8_t *test, size_t length)
{
    uint8_t start[CT_EVENTS], order[CT_EVENTS];
    size_t start_length = 0;
    uint64_t count = 0;
    uint64_t word = ct_decide(test, length, start, start_length, order, sizeof order);
    while (CT_CASE(word) == CT_FOUND) {
        count++;
        start_length = CT_BYTE1(word);
        print_order(order, CT_BYTE1(word));
        memcpy(start, order, start_length);
        word = ct_decide(test, length, start, start_length, order, sizeof order);
    }
    if (CT_CASE(word) == CT_REFUSED) {
        printf("refused %u\n", CT_BYTE1(word));
        return UNUSABLE;
    }
    printf("%s: %" PRIu64 " witnesses\n", count == 0 ? "forbidden" : "allowed", count);
    return count == 0 ? FORBIDDEN : ALLOWED;
}

int main(int count, char **arguments)
{
    /* With one byte past the longest test: what is longer is refused all the same. */
    uint8_t test[CT_TEST + 1];
    size_t length = 0;
    if (count != 2) {
        fputs(USAGE, stderr);
        return UNUSABLE;
    }
    if (!read_file(arguments[1], test, sizeof test, &length)) {
        return UNUSABLE;
    }
    return list(test, length);
}
