/*
 * Says which fences the test in a file lacks: of its fences with no bits, the fewest that forbid its outcome when they get all
 * four. With a second file it writes the block that results, which is of edition 1.
 *
 *   gcc -std=c11 -O2 -Iinclude -o target/advise examples/advise.c target/staticlib/libcapi.a
 *   target/advise samples/C1-fences.block fixed.block
 */
#include "read_file.h"

#include <cogthunder.h>

#include <errno.h>
#include <stdio.h>
#include <string.h>

enum status { FORBIDDEN = 0, NO_HELP = 1, UNDECIDED = 2, UNUSABLE = 3 };

static const uint64_t ALLOWANCE = 1000000;

/* The flags of a fence that orders all accesses. */
static const uint8_t FULL = 15;

static const char USAGE[] =
    "usage: advise FILE [OUT]\n"
    "FILE holds one test: a block of 512 bytes, or three of them in edition 2. OUT gets the block with the fences advised.\n"
    "Exit status: 0 forbidden with these fences, 1 fences don't help, 2 undecided, 3 refused, not readable or not written.\n";

static int write_file(const char *path, const uint8_t block[CT_BLOCK])
{
    FILE *file = fopen(path, "wb");
    if (file == NULL) {
        return 0;
    }
    int good = fwrite(block, 1, CT_BLOCK, file) == CT_BLOCK;
    return fclose(file) == 0 && good;
}

static enum status refused(uint64_t word)
{
    printf("refused %u\n", CT_BYTE1(word));
    return UNUSABLE;
}

static void print_set(const char *verdict, uint32_t fences)
{
    printf("%s", verdict);
    printf(fences == 0 ? " as it is" : " with fences");
    for (unsigned event = 0; event < CT_EVENTS; event++) {
        if (CT_HAS_FENCE(fences, event)) {
            printf(" %u", event);
        }
    }
    printf("\n");
}

/* Writes the block of a test whose fences of the set have all bits. */
static enum status write_filled(const uint8_t *test, size_t length, uint32_t fences, const char *path)
{
    uint8_t block[CT_BLOCK];
    struct ct_table table = ct_table_of(test, length);
    for (unsigned event = 0; event < CT_EVENTS; event++) {
        if (CT_HAS_FENCE(fences, event)) {
            table.events[event].flags = FULL;
        }
    }
    uint64_t word = ct_write(table, block, sizeof block);
    if (CT_CASE(word) == CT_REFUSED) {
        return refused(word);
    }
    if (!write_file(path, block)) {
        fprintf(stderr, "%s: %s\n", path, strerror(errno));
        return UNUSABLE;
    }
    return FORBIDDEN;
}

static enum status advise(const uint8_t *test, size_t length, const char *out)
{
    uint64_t word = ct_advise(test, length, ALLOWANCE);
    switch (CT_CASE(word)) {
    case CT_ADVISED:
        print_set("forbidden", CT_FENCES(word));
        return out == NULL ? FORBIDDEN : write_filled(test, length, CT_FENCES(word), out);
    case CT_UNDECIDED:
        print_set("undecided", CT_FENCES(word));
        return UNDECIDED;
    case CT_NO_HELP:
        printf("fences don't help\n");
        return NO_HELP;
    default:
        return refused(word);
    }
}

int main(int count, char **arguments)
{
    /* With one byte past the longest test: what is longer is refused all the same. */
    uint8_t test[CT_TEST + 1];
    size_t length = 0;
    if (count < 2 || count > 3) {
        fputs(USAGE, stderr);
        return UNUSABLE;
    }
    if (!read_file(arguments[1], test, sizeof test, &length)) {
        return UNUSABLE;
    }
    return advise(test, length, count == 3 ? arguments[2] : NULL);
}
