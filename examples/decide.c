/*
 * Decides the test in a file: prints whether the outcome is allowed, and exits with a status that says so. With --pruned it
 * searches by the engine that gives up early, which visits fewer prefixes.
 *
 *   gcc -std=c11 -O2 -Iinclude -o target/decide examples/decide.c target/staticlib/libcapi.a
 *   target/decide samples/C1.block
 *   target/decide --pruned samples/C1.block
 */
#include "read_file.h"

#include <cogthunder.h>

#include <errno.h>
#include <inttypes.h>
#include <stdio.h>
#include <stdlib.h>
#include <string.h>

enum status { ALLOWED = 0, FORBIDDEN = 1, UNDECIDED = 2, UNUSABLE = 3 };

static const uint64_t DEFAULT_ALLOWANCE = 1000000;

/* An engine: ct_search or ct_search_pruned. */
typedef uint64_t search_function(const uint8_t *test, size_t test_len, const uint8_t *start, size_t start_len, uint8_t *out,
                                 size_t out_len, uint64_t allowance);

static const char USAGE[] =
    "usage: decide [--pruned] FILE [ALLOWANCE]\n"
    "FILE holds one test: a block of 512 bytes, or three of them in edition 2. At most ALLOWANCE prefixes are visited:\n"
    "1000000, or up to 1000000000.\n"
    "Exit status: 0 allowed, 1 forbidden, 2 undecided, 3 refused or not readable.\n";

/* False if the text isn't a whole number. */
static int read_number(const char *text, uint64_t *number)
{
    char *end;
    errno = 0;
    *number = strtoull(text, &end, 10);
    return text[0] >= '0' && text[0] <= '9' && *end == '\0' && errno == 0;
}

static enum status refused(uint64_t word)
{
    printf("refused %u", CT_BYTE1(word));
    if (CT_BYTE2(word) != CT_NO_RECORD) {
        printf(" at record %u", CT_BYTE2(word));
    }
    printf("\n");
    return UNUSABLE;
}

static enum status allowed(uint64_t word, const uint8_t *order)
{
    printf("allowed, %" PRIu32 " visited, order", CT_VISITED(word));
    for (unsigned i = 0; i < CT_BYTE1(word); i++) {
        printf(" %u", order[i]);
    }
    printf("\n");
    return ALLOWED;
}

static enum status decide(search_function *search, const uint8_t *test, size_t length, uint64_t allowance)
{
    uint8_t order[CT_EVENTS];
    /* The start is empty; its pointer must not be null all the same. */
    uint64_t word = search(test, length, test, 0, order, sizeof order, allowance);
    switch (CT_CASE(word)) {
    case CT_FOUND:
        return allowed(word, order);
    case CT_NONE_LEFT:
        printf("forbidden, %" PRIu32 " visited\n", CT_VISITED(word));
        return FORBIDDEN;
    case CT_SPENT:
        printf("undecided, %" PRIu32 " visited\n", CT_VISITED(word));
        return UNDECIDED;
    default:
        return refused(word);
    }
}

int main(int count, char **arguments)
{
    /* With one byte past the longest test: what is longer is refused all the same. */
    uint8_t test[CT_TEST + 1];
    size_t length = 0;
    uint64_t allowance = DEFAULT_ALLOWANCE;
    search_function *search = ct_search;
    if (count > 1 && strcmp(arguments[1], "--pruned") == 0) {
        search = ct_search_pruned;
        count--;
        arguments++;
    }
    if (count < 2 || count > 3 || (count == 3 && !read_number(arguments[2], &allowance))) {
        fputs(USAGE, stderr);
        return UNUSABLE;
    }
    if (!read_file(arguments[1], test, sizeof test, &length)) {
        return UNUSABLE;
    }
    return decide(search, test, length, allowance);
}
