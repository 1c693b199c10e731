/*
 * Cogthunder: a proved bench for the RISC-V memory models (RVWMO and RVTSO).
 *
 * Link with target/staticlib/libcapi.a, which `scripts/archive capi` makes.
 *
 * Every function takes any bytes: what it cannot work on it refuses, and it alters no byte but those of `out`. A
 * refusal alters none at all. A pointer must be valid for the length that follows it, and must not be null, also where
 * that length is 0. `out` must not overlap another argument. No function keeps a pointer, allocates, or has a state.
 *
 * A test is a block of 512 bytes, or three of them in edition 2; docs/FORMAT.md has its fields, the lists and the word, with an
 * example worked in hex. Every function that takes a test takes both editions. Events are numbered from 0 in the order of the
 * table, locations from 0. A test may also be a text, which asks for a condition; three functions take texts, and they take
 * nothing else.
 *
 * The word
 * --------
 * All functions but ct_table_of, ct_table_of_text, ct_blocks, ct_test_length and ct_next answer by one word, ct_part_of by one in
 * a struct. Byte 0, the lowest, is the case; bytes that the table doesn't name are 0. A set of rules is in bytes 4 and 5: bit
 * r - 1, counted from the lowest of byte 4, is rule r, from 1 to 13. A set of fences is in bytes 4 to 7: bit e is event e.
 *
 *   case                   byte 1              byte 2                      byte 3        bytes 4 to 7
 *   0  good                -                   -                           -             ct_rules: set of rules
 *   1  refused             number of refusal   record, or 255 if no        -             19 and 20: place in the text
 *                                              record is named
 *   2  preserved order     event a             event b                     lowest rule   set of rules
 *   3  load value          reader              -                           -             -
 *   4  atomicity           LR                  writer                      -             -
 *   5  value read          reader              -                           -             -
 *   6  final value         location            -                           -             -
 *   7  found               length written      -                           -             visited, 0 of ct_decide
 *                          outcomes: values of each                                      ct_outcomes: how many
 *   8  none left           -                   -                           -             visited, 0 of outcomes and ct_decide
 *   9  spent               length written      -                           -             visited, 0 of outcomes
 *   10 step accepted       event               entry of a returned list    -             -
 *   11 advised             -                   -                           -             set of fences
 *   12 undecided           -                   -                           -             set of fences
 *   13 fences don't help   -                   -                           -             -
 */
#ifndef COGTHUNDER_H
#define COGTHUNDER_H

#include <stddef.h>
#include <stdint.h>

#ifdef __cplusplus
extern "C" {
#endif

/* The length of a block, and that of the longest test, which is one of edition 2. */
#define CT_BLOCK 512u
#define CT_TEST (3u * CT_BLOCK)

/* The length of the longest text. */
#define CT_TEXT 2048u

/* How many locations a table has values for, and how many events it has room for. */
#define CT_LOCATIONS 8u
#define CT_SLOTS 32u

/* A test has at most this many events, one of edition 1 up to 16: the entries of a returned list, and of an order. */
#define CT_EVENTS 30u

/* The largest allowance of a search, and of a call for outcomes. */
#define CT_ALLOWANCE UINT64_C(1000000000)

/* An outcome has a value for each event that reads and for each location: at most this many. */
#define CT_VALUES (CT_EVENTS + CT_LOCATIONS)

/* No call of ct_outcomes writes more outcomes than this. */
#define CT_OUTCOMES 64u

/* The most fences with all bits clear that ct_advise takes. */
#define CT_CLEAR_FENCES 8u

/* In a returned list: the entry of an event that doesn't read, and of one that returns the initial value. */
#define CT_NOTHING 254u
#define CT_INITIALLY 255u

/* In the place of a record where a refusal names none. */
#define CT_NO_RECORD 255u

/* Byte 0 of a word. */
enum ct_case {
    CT_GOOD = 0,
    CT_REFUSED = 1,
    CT_PRESERVED_ORDER = 2,
    CT_LOAD_VALUE = 3,
    CT_ATOMICITY = 4,
    CT_VALUE_READ = 5,
    CT_FINAL_VALUE = 6,
    CT_FOUND = 7,
    CT_NONE_LEFT = 8,
    CT_SPENT = 9,
    CT_STEP_TAKEN = 10,
    CT_ADVISED = 11,
    CT_UNDECIDED = 12,
    CT_NO_HELP = 13
};

/* The parts of a word. */
#define CT_CASE(word) ((unsigned)((word) & 0xff))
#define CT_BYTE1(word) ((unsigned)((word) >> 8 & 0xff))
#define CT_BYTE2(word) ((unsigned)((word) >> 16 & 0xff))
#define CT_BYTE3(word) ((unsigned)((word) >> 24 & 0xff))
#define CT_VISITED(word) ((uint32_t)((word) >> 32))
#define CT_OUTCOMES_WRITTEN(word) ((uint32_t)((word) >> 32))
#define CT_RULES(word) ((uint16_t)((word) >> 32 & 0xffff))
#define CT_FENCES(word) ((uint32_t)((word) >> 32))

/* Of refusals 19 and 20: the byte of the text, from 0, where it is wrong; the text's length if it ends too soon. */
#define CT_PLACE(word) ((uint32_t)((word) >> 32))

/* Whether rule r, from 1 to 13, is in a set of rules, and event e in a set of fences. */
#define CT_HAS_RULE(rules, r) (((rules) >> ((r) - 1) & 1) == 1)
#define CT_HAS_FENCE(fences, e) (((fences) >> (e) & 1) == 1)

/* What an AMO makes of the value read and of its operand, both unsigned. */
enum ct_operation {
    CT_NO_OPERATION = 0, /* the value written is as stated */
    CT_ADD = 1,          /* amoadd: the sum, modulo 65,536 */
    CT_AND = 2,          /* amoand */
    CT_OR = 3,           /* amoor */
    CT_XOR = 4,          /* amoxor */
    CT_LARGER = 5,       /* amomaxu */
    CT_SMALLER = 6       /* amominu */
};

/* An event of a table. Bit k of a mask (bit 0 lowest) names event k. */
struct ct_event {
    uint8_t kind;      /* 1 load, 2 store, 3 AMO, 4 LR, 5 SC, 6 fence, 7 fence.tso */
    uint8_t hart;
    uint8_t location;
    uint8_t flags;     /* as in a record (docs/FORMAT.md) */
    uint32_t addr;     /* mask of the events that the address depends on */
    uint32_t data;     /* .. that the data depend on */
    uint32_t ctrl;     /* .. that it has a control dependency on */
    uint16_t read;     /* the value read, 0 if nothing reads */
    uint16_t written;  /* the value written, 0 if nothing writes; with an operation what this makes of the value read */
    uint8_t operation; /* of an AMO, enum ct_operation; 0 of other events */
    uint8_t operand;   /* of the operation, 0 without one */
};

/* The memory models. */
enum ct_model {
    CT_RVWMO = 0,
    CT_RVTSO = 1 /* the annotations of the Ztso extension, besides those that an event carries */
};

/*
 * A test by value: 808 bytes, of which an event has 24. Padding, which may hold anything, is one byte behind the model, two behind
 * the initial values and the last two of an event; what else a test doesn't use is zero, slots past its events too.
 */
struct ct_table {
    uint8_t harts;
    uint8_t locations;
    uint8_t count;  /* of events */
    uint8_t stated; /* mask of the locations whose final value is stated */
    uint8_t model;  /* enum ct_model */
    uint16_t initial[CT_LOCATIONS];
    struct ct_event events[CT_SLOTS];
    uint16_t finals[CT_LOCATIONS];
};

/* Reads a test. Case 0: it is good. Case 1: refusal 1 to 11 or 21. */
uint64_t ct_read(const uint8_t *test, size_t test_len);

/*
 * The table of a test: all zero if reading refuses it, which ct_read says. Where the test is a block, of edition 1, ct_write then
 * gives it back.
 */
struct ct_table ct_table_of(const uint8_t *test, size_t test_len);

/*
 * Writes the block of a table, of edition 1, to `out`, which has CT_BLOCK bytes. Any numbers may stand in the table. Case 1:
 * refusal 1 if `out` has another length, else 5 to 11 or 21, the numbers and records by which reading refuses; more than 16
 * events are refused by 5. Case 0: written. Reading the block then gives case 0, and it is the only block of this table.
 */
uint64_t ct_write(struct ct_table table, uint8_t *out, size_t out_len);

/*
 * The verdict for a candidate. `returned` has an entry for each event: the writer that a reader returns from,
 * CT_INITIALLY, or CT_NOTHING for an event that doesn't read. `order` is the global memory order: each memory event
 * once. Case 0: allowed. Case 1: refusal 1 to 14 or 21. Cases 2 to 6: the first axiom or stated value that is broken.
 */
uint64_t ct_verdict(const uint8_t *test, size_t test_len, const uint8_t *returned, size_t returned_len,
                    const uint8_t *order, size_t order_len);

/*
 * Every rule by which preserved program order puts event `a` before event `b`, with the returns given: any numbers, and
 * `returned` as for a candidate. Case 0: the set of these rules, which is empty unless both are memory events of the test
 * and `a` is earlier on the same hart. Case 1: refusal 1 to 12, 14 or 21.
 */
uint64_t ct_rules(const uint8_t *test, size_t test_len, const uint8_t *returned, size_t returned_len, uint64_t a,
                  uint64_t b);

/*
 * One step of the machine for RVTSO, behind the list of the steps so far, a byte each: the hart to issue its next event, or the hart
 * plus 4 to drain the oldest store of its buffer. Any number may be asked for as the step. Case 10: accepted; byte 1 is its event, byte
 * 2 what a returned list holds for it, CT_NOTHING for a store or a fence. The caller then adds the step to the list. Case 1: refusal 1 to
 * 11 or 21, or 24: the list isn't a run, the machine doesn't take the step, or the test isn't of model CT_RVTSO.
 */
uint64_t ct_step(const uint8_t *test, size_t test_len, const uint8_t *steps, size_t steps_len, uint64_t step);

/*
 * Where fences are missing, so that the stated outcome has no witness. A test may hold up to CT_CLEAR_FENCES clear fences: of kind 6,
 * with all bits clear. Sets of these are tried, the empty set first, then by size, equal sizes by their ascending lists of event
 * numbers, compared entry by entry; each is turned to all four bits and searched from the empty start as by ct_search, with
 * `allowance`. The first set with which no witness is found decides. Case 11: none are left, and the set is advised; no smaller set
 * forbids the outcome, nor does one of its size that is tried before it. Case 12: the search with this set is spent; with each set
 * before it there is a witness. Case 13: with every set there is one. Case 1: refusal 1 to 11, 21, 22 or 17, in this order.
 *
 * At most 256 searches are made, so that a large allowance may take long.
 */
uint64_t ct_advise(const uint8_t *test, size_t test_len, uint64_t allowance);

/*
 * Writes the returned list that an order determines to the front of `out`, which has room for an entry for each event
 * (CT_EVENTS is enough for any test); bytes past it stay. Case 0: written. Case 1: refusal 1 to 13, 16 or 21.
 */
uint64_t ct_returns(const uint8_t *test, size_t test_len, const uint8_t *order, size_t order_len, uint8_t *out,
                    size_t out_len);

/*
 * Searches the clean prefixes greater than `start`, ascending, for the next witness, and visits at most `allowance` of
 * them. `start` is empty or a clean prefix: after found or spent, what that call wrote, at the length it answered.
 * `out` has room for each memory event (CT_EVENTS is enough for any test); bytes past what is written stay.
 *
 * Case 7, found: the order of the witness is written. Case 8, none left: nothing is written. Case 9, spent: the last
 * prefix visited is written. Case 1: refusal 1 to 11, 15 to 17 or 21.
 */
uint64_t ct_search(const uint8_t *test, size_t test_len, const uint8_t *start, size_t start_len, uint8_t *out,
                   size_t out_len, uint64_t allowance);

/*
 * The same search by an engine that gives up early, for tests with many clean prefixes. A clean prefix is spoiled if one of its
 * readers returns another value than the stated one, whatever follows. This engine visits only the clean prefixes of which no
 * proper prefix is spoiled, and `allowance`, the number visited and refusal 15 read over these: a spoiled one is visited and may
 * be a start, and what extends it is refused by 15. Arguments, cases and what is written are those of ct_search.
 *
 * From the empty start until none are left, both functions find the same witnesses in the same order. Keep to one of them from
 * call to call: a start is what an earlier call of the same function wrote.
 */
uint64_t ct_search_pruned(const uint8_t *test, size_t test_len, const uint8_t *start, size_t start_len, uint8_t *out,
                          size_t out_len, uint64_t allowance);

/*
 * Decides a test: the least witness greater than `start`, or that there is none. It takes no allowance, visits no prefixes one by
 * one, and is never spent; with the empty start, none left means that the outcome is forbidden. `start` is any list of bytes, a
 * witness or not: orders are compared with it entry by entry, and a list comes before its extensions. The order that a call wrote
 * is the start of the next one. `out` has room for each memory event (CT_EVENTS is enough for any test); bytes past what is
 * written stay.
 *
 * Case 7, found: the order is written, and byte 1 is its length. Case 8, none left: nothing is written. Case 1: refusal 1 to 11 or
 * 21, then 16.
 *
 * From the empty start until none are left, it gives the witnesses of ct_search in their order. Most tests take microseconds; tests
 * of thirty events were made that take half a second, and longer ones can't be ruled out.
 */
uint64_t ct_decide(const uint8_t *test, size_t test_len, const uint8_t *start, size_t start_len, uint8_t *out,
                   size_t out_len);

/*
 * The same with a lent memo of any number of words, in the place of the 4,096 that ct_decide has: on tests that take long, more words
 * save time. The answer is the same whatever is in it; what the call leaves in it is of no account. A refused call doesn't touch it.
 */
uint64_t ct_decide_with(const uint8_t *test, size_t test_len, const uint8_t *start, size_t start_len, uint8_t *out,
                        size_t out_len, uint64_t *memo, size_t memo_len);

/*
 * The next outcome of a test. An outcome is what some order that the rules allow gives: the value of each event that
 * reads, in the order of the events, then the value that each location of the test ends at. The reads and final values
 * that the test states aren't asked for, and an AMO with an operation writes what this makes of the value that the order
 * makes it return. Outcomes are compared value by value.
 *
 * `previous` is an earlier outcome, with its length, or has length 0 for none; it may also be any other values, as many
 * as an outcome has. Case 7: the least outcome above it is written to the front of `out`, which has room for it
 * (CT_VALUES is enough for any test); byte 1 is the number of its values, and places past them stay. Case 8: no outcome
 * is above it. Case 9, spent: the test has more clean prefixes, counted from the empty start, than the allowance,
 * whatever the previous outcome. Cases 8 and 9 write nothing. Case 1: refusal 1 to 11 or 21; 12 if `previous` has
 * another length, 16 if `out` has too few places, 17.
 */
uint64_t ct_outcome(const uint8_t *test, size_t test_len, const uint16_t *previous, size_t previous_len, uint16_t *out,
                    size_t out_len, uint64_t allowance);

/*
 * The next outcomes at once, by one walk: as many as there are and `out` has room for, CT_OUTCOMES at most, ascending,
 * one behind the other. Arguments and cases are those of ct_outcome; of case 7, bytes 4 to 7 are the number of outcomes
 * written. The next call is given the last of them.
 */
uint64_t ct_outcomes(const uint8_t *test, size_t test_len, const uint16_t *previous, size_t previous_len, uint16_t *out,
                     size_t out_len, uint64_t allowance);

/*
 * Reads a test as text, of up to CT_TEXT bytes. Case 0: it is good. Case 1: refusal 1, 5, 7 to 11, 19 to 21 or 23. The text
 * needn't end in a zero byte, and one that does is refused there.
 */
uint64_t ct_read_text(const uint8_t *text, size_t text_len);

/*
 * The table of a text: all zero if reading refuses it, which ct_read_text says. A text states no values: those read, those that
 * an AMO with an operation writes, and the final ones are 0.
 */
struct ct_table ct_table_of_text(const uint8_t *text, size_t text_len);

/*
 * The search of ct_search over a text, with the same arguments, cases and bytes written. A witness is an order that the rules
 * allow and that makes the text's condition true; an AMO with an operation writes what this makes of the value that the order
 * makes it return. Case 1: the refusals of ct_read_text, or 15 to 17.
 */
uint64_t ct_search_text(const uint8_t *text, size_t text_len, const uint8_t *start, size_t start_len, uint8_t *out,
                        size_t out_len, uint64_t allowance);

/* How many blocks a suite has; a last part block counts. */
uint64_t ct_blocks(const uint8_t *suite, size_t suite_len);

/* Where a block stands in its suite: `length` bytes from `suite + offset` on. Both are 0 where the word is a refusal. */
struct ct_part {
    uint64_t word;
    uint64_t offset;
    uint64_t length;
};

/*
 * Block k of a suite, for any k. Case 0: it is in the suite, and a last part block is shorter than CT_BLOCK. Case 1: refusal
 * 18 if the suite has no block k.
 */
struct ct_part ct_part_of(const uint8_t *suite, size_t suite_len, uint64_t k);

/*
 * How many bytes the test that begins at block k of a suite has, from `suite + CT_BLOCK * k` on: those of three blocks if block k
 * by itself is refused neither by 2 nor by 3 and states edition 2, else those of one. A test that is cut has what is left, and 0
 * says that block k isn't in the suite.
 */
uint64_t ct_test_length(const uint8_t *suite, size_t suite_len, uint64_t k);

/*
 * The number of the block where the test after that at block k begins: k + 3 after a good test of edition 2, k + 1 after any
 * other, refused or not. It is k itself if block k isn't in the suite.
 */
uint64_t ct_next(const uint8_t *suite, size_t suite_len, uint64_t k);

#ifdef __cplusplus
}
#endif

#endif
