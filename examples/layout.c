/*
 * Holds the header's `struct ct_table` to the library's layout, which no proof speaks of: writes a table that has another number
 * in each field, looks at the block's bytes, and reads the table back.
 */
#include <cogthunder.h>

#include <stdio.h>
#include <string.h>

enum kind { LOAD = 1, AMO = 3 };

static const struct ct_table TABLE = {
    .harts = 2,
    .locations = 8,
    .count = 3,
    .stated = 0xff,
    .model = CT_RVTSO,
    .initial = {0x0102, 0x0304, 0x0506, 0x0708, 0x090a, 0x0b0c, 0x0d0e, 0x0f10},
    .events = {
        {.kind = LOAD, .hart = 1, .location = 2, .read = 0x2122},
        {.kind = LOAD, .hart = 1, .location = 3, .read = 0x2324},
        {.kind = AMO, .hart = 1, .location = 7, .flags = 9, .addr = 1, .data = 2, .ctrl = 3, .read = 0x2526, .written = 0x2577,
         .operation = CT_XOR, .operand = 0x51},
    },
    .finals = {0x3132, 0x3334, 0x3536, 0x3738, 0x393a, 0x3b3c, 0x3d3e, 0x3f40},
};

/* The header and the initial values, the three records, and the final values, as the layout of a block has them. */
static const uint8_t HEADER[] = {
    'R', 'V', 'T', '1', 1, 2, 8, 3, 0xff, 1, 0, 0, 0, 0, 0, 0,
    0x02, 0x01, 0x04, 0x03, 0x06, 0x05, 0x08, 0x07, 0x0a, 0x09, 0x0c, 0x0b, 0x0e, 0x0d, 0x10, 0x0f,
    1, 1, 2, 0, 0, 0, 0, 0, 0, 0, 0x22, 0x21, 0, 0, 0, 0,
    1, 1, 3, 0, 0, 0, 0, 0, 0, 0, 0x24, 0x23, 0, 0, 0, 0,
    3, 1, 7, 9, 1, 0, 2, 0, 3, 0, 0x26, 0x25, 0x77, 0x25, 4, 0x51,
};
static const uint8_t FINALS[] = {
    0x32, 0x31, 0x34, 0x33, 0x36, 0x35, 0x38, 0x37, 0x3a, 0x39, 0x3c, 0x3b, 0x3e, 0x3d, 0x40, 0x3f,
};
enum { FINALS_AT = 288 };

static int same_event(struct ct_event a, struct ct_event b)
{
    return a.kind == b.kind && a.hart == b.hart && a.location == b.location && a.flags == b.flags && a.addr == b.addr &&
           a.data == b.data && a.ctrl == b.ctrl && a.read == b.read && a.written == b.written &&
           a.operation == b.operation && a.operand == b.operand;
}

static int same_table(struct ct_table a, struct ct_table b)
{
    int same = a.harts == b.harts && a.locations == b.locations && a.count == b.count && a.stated == b.stated &&
               a.model == b.model &&
               memcmp(a.initial, b.initial, sizeof a.initial) == 0 && memcmp(a.finals, b.finals, sizeof a.finals) == 0;
    for (unsigned k = 0; k < CT_SLOTS; k++) {
        same = same && same_event(a.events[k], b.events[k]);
    }
    return same;
}

int main(void)
{
    uint8_t block[CT_BLOCK];
    uint64_t word = ct_write(TABLE, block, sizeof block);
    int written = CT_CASE(word) == CT_GOOD && memcmp(block, HEADER, sizeof HEADER) == 0 &&
                  memcmp(block + FINALS_AT, FINALS, sizeof FINALS) == 0;
    int read = same_table(ct_table_of(block, sizeof block), TABLE);
    puts(written && read ? "every field stands where the library has it" : "the header has another layout than the library");
    return written && read ? 0 : 1;
}
