/*
 * Lists all outcomes of the test in a file, whatever it states: for each event that reads its value (r2=1: event 2 returns 1),
 * then for each location the value that it ends at (x0=2: location 0 ends at 2).
 *
 *   gcc -std=c11 -O2 -Iinclude -o target/outcomes examples/outcomes.c target/staticlib/libcapi.a
 *   target/outcomes samples/C1.block
 */
#include "read_file.h"

#include <cogthunder.h>

#include <stdio.h>
#include <string.h>

enum status { LISTED = 0, UNDECIDED = 2, UNUSABLE = 3 };
enum kind { LOAD = 1, AMO = 3, LR = 4 };

static const uint64_t ALLOWANCE = 1000000;

static void print(const struct ct_table *table, const uint16_t *outcome)
{
    for (unsigned event = 0; event < table->count; event++) {
        unsigned kind = table->events[event].kind;
        if (kind == LOAD || kind == AMO || kind == LR) {
            printf("r%u=%u ", event, *outcome++);
        }
    }
    for (unsigned location = 0; location < table->locations; location++) {
        printf("x%u=%u%c", location, *outcome++, location + 1 < table->locations ? ' ' : '\n');
    }
}

/* Each call is given the last outcome of the call before it; the first one none. */
static enum status list(const uint8_t *test, size_t length)
{
    struct ct_table table = ct_table_of(test, length);
    uint16_t outcomes[CT_OUTCOMES * CT_VALUES], previous[CT_VALUES];
    size_t previous_len = 0;
    unsigned count = 0;
    for (;;) {
        uint64_t word = ct_outcomes(test, length, previous, previous_len, outcomes, sizeof outcomes / sizeof *outcomes, ALLOWANCE);
        switch (CT_CASE(word)) {
        case CT_FOUND:
            previous_len = CT_BYTE1(word);
            for (uint32_t k = 0; k < CT_OUTCOMES_WRITTEN(word); k++) {
                print(&table, outcomes + k * previous_len);
            }
            count += CT_OUTCOMES_WRITTEN(word);
            memcpy(previous, outcomes + (CT_OUTCOMES_WRITTEN(word) - 1) * previous_len, previous_len * sizeof *previous);
            break;
        case CT_NONE_LEFT:
            printf("%u outcomes\n", count);
            return LISTED;
        case CT_SPENT:
            printf("undecided\n");
            return UNDECIDED;
        default:
            printf("refused %u\n", CT_BYTE1(word));
            return UNUSABLE;
        }
    }
}

int main(int count, char **arguments)
{
    /* With one byte past the longest test: what is longer is refused all the same. */
    uint8_t test[CT_TEST + 1];
    size_t length = 0;
    if (count != 2) {
        fputs("usage: outcomes FILE\n", stderr);
        return UNUSABLE;
    }
    if (!read_file(arguments[1], test, sizeof test, &length)) {
        return UNUSABLE;
    }
    return list(test, length);
}
