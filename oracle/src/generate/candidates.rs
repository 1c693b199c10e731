//! The stored stream of `candidates`, with a name for each call.

use super::breaches::{base, base_block, breaches};
use super::cases::*;
use super::chains::chain_cases;
use super::decided::decided;
use super::edition_two::refused_by_each_line;
use super::models::tso_cases;
use super::operations::{mixed_operation_cases, operation_cases};
use super::orders::*;
use super::prng::Prng;
use super::random::random_table;
use super::unused::{stated_ends, unused_cases, unused_in_two};
use crate::candidate::{encode_entry, INITIAL, NON_READER};
use crate::candidates::{LEND, RETURNED, RULES, VERDICT};
use crate::encode::{encode, encode_fitting, encode_in};
use crate::layout::one::MAX_EVENTS;
use crate::layout::*;
use crate::litmus::{self, *};
use crate::rules::{determined_returns, RULE_COUNT};
use crate::stream::{push_frame, push_list};
use crate::table::*;
use std::collections::BTreeSet;

const SEED: u64 = 2;
const RANDOM_TABLES: usize = 160;
const WIDE_TABLES: usize = 30;
const TSO_TABLES: usize = 40;
const ROUNDS: usize = 3;
/// Pairs of a random table that are asked for with one returned list.
const SOME_PAIRS: usize = 4;

/// The stream, and the names of its calls.
#[derive(Default)]
pub struct Calls {
    pub stream: Vec<u8>,
    pub names: Vec<String>,
}

impl Calls {
    fn lend(&mut self, block: &[u8]) {
        self.stream.push(LEND);
        push_frame(&mut self.stream, block);
    }

    fn verdict(&mut self, name: &str, returned: &[u8], order: &[u8]) {
        self.names.push(name.to_string());
        self.stream.push(VERDICT);
        push_list(&mut self.stream, returned);
        push_list(&mut self.stream, order);
    }

    fn returned(&mut self, name: &str, order: &[u8], buffer_length: usize) {
        self.names.push(name.to_string());
        self.stream.push(RETURNED);
        push_list(&mut self.stream, order);
        self.stream.push(buffer_length as u8);
    }

    fn rules(&mut self, name: &str, returned: &[u8], a: u64, b: u64) {
        self.names.push(name.to_string());
        self.stream.push(RULES);
        push_list(&mut self.stream, returned);
        self.stream.extend(a.to_le_bytes());
        self.stream.extend(b.to_le_bytes());
    }
}

pub fn make_candidates() -> Calls {
    let mut calls = Calls::default();
    four_points(&mut calls);
    rules_of_c5(&mut calls);
    load_values(&mut calls);
    fences(&mut calls);
    annotations(&mut calls, Model::Rvwmo);
    for (name, test) in cases() {
        every_order(&mut calls, name, &test);
        every_pair(&mut calls, name, &test);
    }
    for (name, test) in rule_set_cases() {
        calls.lend(&encode(&test));
        every_pair(&mut calls, name, &test);
    }
    numbers_of_no_event(&mut calls);
    reading_refusals(&mut calls);
    order_refusals(&mut calls);
    returned_refusals(&mut calls);
    buffer_lengths(&mut calls);
    let mut prng = Prng::new(SEED);
    for _ in 0..RANDOM_TABLES {
        let table = contended_table(&mut prng);
        random_calls(&mut calls, &mut prng, table);
    }
    for (name, test) in atomicity_place_cases() {
        every_order(&mut calls, name, &test);
    }
    writes_after_the_sc(&mut calls);
    for case in decided() {
        calls.lend(&encode(&case.table));
        both_entries(&mut calls, case.name, &case.table, &case.order);
    }
    candidates_in_two(&mut calls, &mut prng);
    candidates_in_model_1(&mut calls, &mut prng);
    unused_locations(&mut calls);
    calls
}

fn candidates_in_model_1(calls: &mut Calls, prng: &mut Prng) {
    annotations(calls, Model::Rvtso);
    for (name, test) in tso_cases() {
        every_order(calls, name, &test);
        every_pair(calls, name, &test);
    }
    for _ in 0..TSO_TABLES {
        let table = contended_table(prng).in_model(Model::Rvtso);
        random_calls(calls, prng, table);
    }
}

/// Line 21 with lists that are right, and with breaches of the lines 12, 13, 14 and 16, which come
/// after it; then tests that state where an untouched location ends.
fn unused_locations(calls: &mut Calls) {
    for (name, test) in unused_cases() {
        for edition in Edition::ALL {
            calls.lend(&encode_in(edition, &test));
            refused_calls(calls, name, &test);
        }
    }
    for (name, test) in unused_in_two() {
        calls.lend(&encode_in(Edition::Two, &test));
        refused_calls(calls, name, &test);
    }
    for (name, test) in stated_ends() {
        every_order(calls, name, &test);
        every_pair(calls, name, &test);
    }
}

/// Calls of all entries on a test that is refused: with good lists and a good buffer, and with ones
/// that the later lines refuse.
fn refused_calls(calls: &mut Calls, name: &str, table: &Table) {
    let order = bytes(&table.memory_events());
    let returned = returned_list(table, &table.memory_events());
    let (longer, doubled) = ([&order[..], &[0]].concat(), vec![order[0]; order.len()]);
    let wrong = vec![table.events.len() as u8; returned.len()];
    calls.verdict(name, &returned, &order);
    calls.verdict(&format!("{name}-and-order-length"), &returned, &longer);
    calls.verdict(&format!("{name}-and-returned-length"), &returned[1..], &order);
    calls.verdict(&format!("{name}-and-order"), &returned, &doubled);
    calls.verdict(&format!("{name}-and-entries"), &wrong, &order);
    calls.returned(name, &order, returned.len());
    calls.returned(&format!("{name}-and-order-length"), &longer, returned.len());
    calls.returned(&format!("{name}-and-order"), &doubled, returned.len());
    calls.returned(&format!("{name}-and-buffer"), &order, 0);
    calls.rules(name, &returned, 0, 1);
    calls.rules(&format!("{name}-and-returned-length"), &returned[1..], 0, 1);
    calls.rules(&format!("{name}-and-entries"), &wrong, 0, u64::MAX);
}

/// Candidates of tables with more events than edition 1 has room for.
fn candidates_in_two(calls: &mut Calls, prng: &mut Prng) {
    for (name, test) in chain_cases() {
        chain_calls(calls, name, &test);
    }
    last_events(calls);
    for test in refused_by_each_line() {
        calls.lend(&test);
        calls.verdict("refused-reading", &[INITIAL; 17], &[0; 17]);
        calls.returned("refused-reading-and-buffer", &[0; 17], 0);
        calls.rules("refused-reading-and-length", &[], 0, u64::MAX);
    }
    for _ in 0..WIDE_TABLES {
        let table = wide_contended_table(prng);
        random_calls(calls, prng, table);
    }
}

/// The order of a chain's table, that with its last two events the other way round, and the rules
/// between neighbours.
fn chain_calls(calls: &mut Calls, name: &str, table: &Table) {
    let order = table.memory_events();
    let mut swapped = order.clone();
    swapped.swap(order.len() - 2, order.len() - 1);
    calls.lend(&encode_fitting(table));
    both_entries(calls, name, table, &order);
    both_entries(calls, name, table, &swapped);
    let returned = returned_list(table, &order);
    for pair in order.windows(2) {
        calls.rules(name, &returned, pair[0] as u64, pair[1] as u64);
    }
}

/// Numbers, entries and buffer lengths about that of the last of thirty events, a load that stands
/// behind a store of its location.
fn last_events(calls: &mut Calls) {
    let mut test = table(vec![load(0, X, 0); MOST_EVENTS]);
    test.events[MOST_EVENTS - 2] = store(0, X, 1);
    test.events[MOST_EVENTS - 1] = load(0, X, 1);
    let order = test.memory_events();
    let returned = returned_list(&test, &order);
    calls.lend(&encode_fitting(&test));
    for number in 27..=33 {
        calls.rules("last-events", &returned, 28, number);
        calls.rules("last-events", &returned, number, 29);
        let mut changed = returned.clone();
        changed[MOST_EVENTS - 1] = number as u8;
        calls.verdict("last-events-entry", &changed, &bytes(&order));
        calls.returned("last-events-buffer", &bytes(&order), number as usize);
        let mut changed = bytes(&order);
        changed[MOST_EVENTS - 1] = number as u8;
        calls.verdict("last-events-order", &returned, &changed);
    }
    calls.verdict("last-events-lengths", &returned[1..], &bytes(&order));
    calls.verdict("last-events-lengths", &returned, &bytes(&order[1..]));
}

/// Tests of which every order and every pair are asked for.
fn cases() -> Vec<Case> {
    let families = [
        litmus::all(),
        releasing_amos(),
        counters(),
        location_cases(),
        fence_cases(),
        annotation_cases(),
        dependency_cases(),
        forwarding_cases(),
        later_write_cases(),
        atomicity_cases(),
        value_cases(),
        operation_cases(),
        mixed_operation_cases(),
    ];
    families.concat()
}

pub fn list_candidates() -> String {
    let names = make_candidates().names;
    names.iter().enumerate().map(|(number, name)| format!("{number}: {name}\n")).collect()
}

/// The returned list that an order determines.
pub fn returned_list(table: &Table, order: &[usize]) -> Vec<u8> {
    determined_returns(table, order).into_iter().map(encode_entry).collect()
}

/// Both entries on one order, the verdict with the returned list that it determines.
fn both_entries(calls: &mut Calls, name: &str, table: &Table, order: &[usize]) {
    calls.verdict(name, &returned_list(table, order), &bytes(order));
    calls.returned(name, &bytes(order), table.events.len());
}

fn every_order(calls: &mut Calls, name: &str, table: &Table) {
    calls.lend(&encode(table));
    for order in permutations(&table.memory_events()) {
        both_entries(calls, name, table, &order);
    }
}

/// The rules of every two events, fences too, with each returned list that an order of the
/// table lent determines.
fn every_pair(calls: &mut Calls, name: &str, table: &Table) {
    let orders = permutations(&table.memory_events());
    let lists: BTreeSet<Vec<u8>> = orders.iter().map(|o| returned_list(table, o)).collect();
    let events = 0..table.events.len() as u64;
    for returned in lists {
        for a in events.clone() {
            for b in events.clone() {
                calls.rules(name, &returned, a, b);
            }
        }
    }
}

/// One candidate of a table of its own.
fn single(calls: &mut Calls, name: &str, table: &Table, returned: &[u8], order: &[u8]) {
    calls.lend(&encode(table));
    calls.verdict(name, returned, order);
}

/// "Where bench programs have gone wrong"
fn four_points(calls: &mut Calls) {
    single(calls, "own-store-wait", &c4(1), &[NON_READER, 0], &[1, 0]);
    let control = [NON_READER, NON_READER, NON_READER, 2, INITIAL];
    single(calls, "control-load", &c9_control(), &control, &[4, 0, 2, 3]);
    let mut initial_one = table(vec![load(0, X, 1), load(0, X, 1), store(1, X, 1)]);
    initial_one.initial[X] = 1;
    single(calls, "rule2-equal-values", &initial_one, &[2, INITIAL, NON_READER], &[1, 2, 0]);
    let two_stores = table(vec![load(0, X, 1), load(0, X, 1), store(1, X, 1), store(2, X, 1)]);
    let returned = [3, 2, NON_READER, NON_READER];
    single(calls, "rule2-equal-values", &two_stores, &returned, &[2, 1, 3, 0]);
    single(calls, "rule2-one-write", &two_stores, &[3, 3, NON_READER, NON_READER], &[2, 3, 1, 0]);
    let pair = [INITIAL, NON_READER, NON_READER];
    single(calls, "own-store-atomicity", &c8(), &pair, &[0, 1, 2]);
}

/// Case C5, "where the set is rules 2 and 3"; then with other returned lists.
fn rules_of_c5(calls: &mut Calls) {
    calls.lend(&encode(&c5()));
    calls.rules("c5-rules-2-and-3", &[INITIAL, 0], 0, 1);
    calls.verdict("c5-rules-2-and-3", &[INITIAL, 0], &[1, 0]);
    calls.rules("c5-rule-3", &[0, 0], 0, 1);
    calls.rules("c5-rule-2", &[0, INITIAL], 0, 1);
    calls.rules("c5-no-rule", &[INITIAL, INITIAL], 0, 1);
    calls.rules("c5-other-way-round", &[INITIAL, 0], 1, 0);
}

/// Returned lists that line 14 lets pass, and the order doesn't determine.
fn load_values(calls: &mut Calls) {
    single(calls, "load-value-amo-itself", &c5(), &[0, 0], &[0, 1]);
    single(calls, "load-value-initial", &c4(1), &[NON_READER, INITIAL], &[0, 1]);
    let own_later = table(vec![load(0, X, 0), store(0, X, 1)]);
    single(calls, "load-value-own-later-store", &own_later, &[1, NON_READER], &[0, 1]);
    let foreign = table(vec![load(0, X, 0), store(1, X, 1), store(1, X, 2)]);
    for (written, order) in [(1, [0, 1, 2]), (1, [1, 2, 0]), (2, [1, 0, 2]), (INITIAL, [1, 0, 2])] {
        single(
            calls,
            "load-value-foreign-store",
            &foreign,
            &[written, NON_READER, NON_READER],
            &order,
        );
    }
    // Rule 3 alone with an AMO: a store between rules out rule 2.
    let amo_first = table(vec![amo(0, X, 0, 1), store(0, X, 2), load(0, X, 1)]);
    single(calls, "rule-3-amo", &amo_first, &[INITIAL, NON_READER, 0], &[2, 0, 1]);
    single(calls, "rule-3-amo-kept", &amo_first, &[INITIAL, NON_READER, 0], &[0, 1, 2]);
    // The returns given count for rules 2, 3 and 12, not those that the order determines.
    let c6_list = [NON_READER, 0, INITIAL];
    single(calls, "returns-given-rule-2", &c6(), &c6_list, &[2, 1, 0]);
    let dependent = table(vec![load(0, X, 0), store(0, Y, 1).data_from(0), load(0, Y, 1)]);
    single(calls, "returns-given-rule-12", &dependent, &[INITIAL, NON_READER, INITIAL], &[2, 0, 1]);
    let both_initial = [NON_READER, NON_READER, INITIAL, INITIAL];
    single(calls, "load-value-lowest-reader", &c1(), &both_initial, &[0, 1, 2, 3]);
    // An LR that names its own SC.
    single(calls, "load-value-lr-own-sc", &c7(1), &[1, NON_READER, NON_READER], &[0, 1, 2]);
}

/// Rule 4 with every flags and fence.tso, between every two of a load, a store and an AMO;
/// the order is the other way round.
fn fences(calls: &mut Calls) {
    let flagged = (0..=ALL_FLAGS).map(|flags| fence(0, flags));
    for fence in flagged.chain([fence_tso(0)]) {
        let accesses =
            |location| [load(0, location, 0), store(0, location, 1), amo(0, location, 0, 1)];
        for first in accesses(X) {
            for second in accesses(Y) {
                let test = table(vec![first.clone(), fence.clone(), second]);
                single(calls, "rule-4", &test, &returned_list(&test, &[2, 0]), &[2, 0]);
            }
        }
    }
}

/// Rules 5, 6 and 7: every lawful flags on two accesses, in the order the other way round.
fn annotations(calls: &mut Calls, model: Model) {
    let pairs = [
        (load(0, X, 0), store(0, Y, 1)),
        (store(0, X, 1), load(0, Y, 0)),
        (store(0, X, 1), amo(0, Y, 0, 1)),
        (amo(0, X, 0, 1), load(0, Y, 0)),
    ];
    for (first, second) in pairs {
        for flags in 0..=ALL_FLAGS {
            for other in 0..=ALL_FLAGS {
                let events = vec![first.clone().flags(flags), second.clone().flags(other)];
                let test = table(events).in_model(model);
                if read(&encode(&test)).is_ok() {
                    let returned = returned_list(&test, &[1, 0]);
                    single(calls, "rules-5-6-7", &test, &returned, &[1, 0]);
                }
            }
        }
    }
}

/// "if the write itself fails to precede": an LR that returned from a write after its SC. The load
/// value breaks before atomicity is asked, or preserved order where the write is of its own hart.
fn writes_after_the_sc(calls: &mut Calls) {
    for writer in [store(1, X, 2), amo(1, X, 0, 2)] {
        let entry = if writer.reads() { 1 } else { NON_READER };
        let test = table(vec![lr(0, X, 2), sc(0, X, 1), writer]);
        let returned = [2, NON_READER, entry];
        single(calls, "atomicity-write-after-the-sc", &test, &returned, &[0, 1, 2]);
    }
    let own = table(vec![store(0, X, 3), lr(0, X, 3), sc(0, X, 1)]);
    let returned = [NON_READER, 0, NON_READER];
    for order in [[1, 2, 0], [2, 1, 0]] {
        single(calls, "atomicity-own-write-after-the-sc", &own, &returned, &order);
    }
}

/// Numbers that name no event of C2, some of which would if they were cut to fewer bits; and
/// pairs of which one is a fence, on another hart, or earlier.
fn numbers_of_no_event(calls: &mut Calls) {
    let returned = returned_list(&c2(), &[0, 2, 3, 5]);
    let powers = [4, 5, 6, 7, 8, 15, 16, 31, 32, 63].map(|bit| 1u64 << bit);
    let cut = [8, 16, 32, 63].map(|bit| (1u64 << bit) + 2);
    let past = [6, 7, 15, 254, 255, 65_535, u64::from(u32::MAX), u64::MAX - 1, u64::MAX];
    calls.lend(&encode(&c2()));
    for number in [&powers[..], &cut, &past].concat() {
        for event in [0, 1, 2, 5] {
            calls.rules("rules-of-no-event", &returned, event, number);
            calls.rules("rules-of-no-event", &returned, number, event);
        }
        calls.rules("rules-of-no-event", &returned, number, number);
        calls.rules("rules-of-no-event", &returned, number, number.wrapping_add(1));
    }
}

/// Lines 1 to 11 and 21, each with lists that are right and with an order and a buffer too short.
fn reading_refusals(calls: &mut Calls) {
    let mut wrong_check = base_block();
    wrong_check[CHECK_AT] ^= 1;
    let short = base_block()[..BLOCK_LENGTH - 1].to_vec();
    let long = base_block().repeat(2);
    let mut blocks = vec![Vec::new(), short, long, wrong_check];
    let all = breaches();
    for line in all.chunk_by(|a, b| a.line == b.line) {
        for breach in [line[0], line[line.len() / 2], line[line.len() - 1]] {
            let mut block = base_block();
            breach.apply(&mut block);
            blocks.push(block);
        }
    }
    let order = base().memory_events();
    let returned = returned_list(&base(), &order);
    for block in blocks {
        calls.lend(&block);
        calls.verdict("refused-reading", &returned, &bytes(&order));
        calls.returned("refused-reading", &bytes(&order), returned.len());
        calls.verdict("refused-reading-and-length", &returned, &[]);
        calls.returned("refused-reading-and-buffer", &bytes(&order), 0);
        calls.rules("refused-reading", &returned, 0, 1);
        calls.rules("refused-reading-and-length", &[], 0, u64::MAX);
    }
    calls.lend(&encode(&table(vec![fence(0, FULL), fence_tso(0)])));
    calls.verdict("refused-no-memory-event", &[NON_READER, NON_READER], &[]);
    calls.returned("refused-no-memory-event", &[], 2);
    calls.rules("refused-no-memory-event", &[NON_READER, NON_READER], 0, 1);
}

/// Lines 12 and 13. The memory events of C2 are 0, 2, 3 and 5; 1 and 4 are fences.
fn order_refusals(calls: &mut Calls) {
    let returned = returned_list(&c2(), &[0, 2, 3, 5]);
    let long_list = [INITIAL; 255];
    calls.lend(&encode(&c2()));
    for order in [&[][..], &[0], &[0, 2, 3], &[0, 2, 3, 5, 5], &[0, 0], &[9; 8], &[0; 255]] {
        calls.verdict("refused-order-length", &returned, order);
        calls.returned("refused-order-length", order, returned.len());
        calls.returned("refused-order-length-and-buffer", order, 0);
        calls.verdict("refused-both-lengths", &[], order);
    }
    for list in
        [&[][..], &returned[..1], &returned[..5], &[&returned[..], &[254]].concat(), &long_list]
    {
        calls.verdict("refused-returned-length", list, &[0, 2, 3, 5]);
        calls.verdict("refused-returned-length-and-order", list, &[0, 0, 3, 5]);
        calls.rules("refused-returned-length", list, 0, 2);
        calls.rules("refused-returned-length-and-no-event", list, 6, u64::MAX);
    }
    let orders = [
        [0, 0, 3, 5],
        [0, 2, 3, 3],
        [5, 5, 5, 5],
        [0, 1, 3, 5],
        [4, 2, 3, 5],
        [0, 2, 3, 6],
        [0, 2, 3, 16],
        [254, 2, 3, 5],
        [0, 2, 255, 5],
        [0, 2, 3, 5 + 128],
    ];
    for order in orders {
        calls.verdict("refused-order-events", &returned, &order);
        calls.returned("refused-order-events", &order, returned.len());
        calls.verdict("refused-order-events-and-returned", &[0; 6], &order);
        calls.returned("refused-order-events-and-buffer", &order, 0);
    }
}

/// Line 14, entry by entry: every byte that could matter for each event.
fn returned_refusals(calls: &mut Calls) {
    let test = table(vec![
        load(0, X, 0),
        store(0, X, 1),
        store(1, Y, 1),
        fence(0, FULL),
        amo(1, X, 0, 2),
        lr(2, X, 0),
        sc(2, X, 3),
        fence_tso(2),
        load(2, Y, 1),
    ]);
    let order = test.memory_events();
    let returned = returned_list(&test, &order);
    let past = test.events.len() as u8;
    calls.lend(&encode(&test));
    for event in 0..test.events.len() {
        for entry in (0..=past).chain([16, 128, 253, NON_READER, INITIAL]) {
            let mut changed = returned.clone();
            changed[event] = entry;
            calls.verdict("returned-entry", &changed, &bytes(&order));
            calls.rules("returned-entry", &changed, 5, 6);
            calls.rules("returned-entry-and-no-event", &changed, past.into(), u64::MAX);
        }
    }
}

/// Buffers of every length about the number of events, and line 16 with 12 and 13.
fn buffer_lengths(calls: &mut Calls) {
    calls.lend(&encode(&c2()));
    for length in (0..=10).chain([254, 255]) {
        calls.returned("buffer-length", &[3, 5, 0, 2], length);
        calls.returned("buffer-length-and-order-length", &[3, 5, 0], length);
        calls.returned("buffer-length-and-order-events", &[3, 5, 0, 1], length);
    }
}

/// A table whose harts meet at few locations.
pub fn contended_table(prng: &mut Prng) -> Table {
    let locations = if prng.one_in(6) { MAX_LOCATIONS } else { 1 + prng.below(3) };
    let harts = 1 + prng.below(MAX_HARTS);
    let events = 2 + prng.below(MAX_EVENTS - 1);
    random_table(prng, harts, locations, events)
}

/// Such a table with more events than edition 1 has room for.
pub fn wide_contended_table(prng: &mut Prng) -> Table {
    let (harts, locations) = (1 + prng.below(MAX_HARTS), 1 + prng.below(3));
    let events = MAX_EVENTS + 1 + prng.below(MOST_EVENTS - MAX_EVENTS);
    random_table(prng, harts, locations, events)
}

/// Random candidates of one table, most of them consistent or nearly so.
fn random_calls(calls: &mut Calls, prng: &mut Prng, mut table: Table) {
    let lawful = lawful_order(prng, &table);
    if let Some(order) = &lawful {
        choose_outcome(prng, &mut table, order);
    }
    calls.lend(&encode_fitting(&table));
    if let Some(order) = &lawful {
        both_entries(calls, "random-lawful", &table, order);
    }
    for _ in 0..ROUNDS {
        let order = linear_extension(prng, &table);
        let returned = returned_list(&table, &order);
        both_entries(calls, "random-extension", &table, &order);
        let changed = other_return(prng, &table, &returned);
        calls.verdict("random-return", &changed, &bytes(&order));
        let changed = other_return(prng, &table, &changed);
        calls.verdict("random-returns", &changed, &bytes(&order));
        random_pairs(calls, prng, &table, &changed);
        let swapped = with_swap(prng, lawful.as_ref().unwrap_or(&order));
        both_entries(calls, "random-swap", &table, &swapped);
    }
    against_each_rule(calls, prng, &table);
    let shuffled = permutation(prng, &table);
    both_entries(calls, "random-permutation", &table, &shuffled);
    random_damage(calls, prng, &table);
}

/// The rules of some pairs, mostly of one hart; now and then a number is any at all.
fn random_pairs(calls: &mut Calls, prng: &mut Prng, table: &Table, returned: &[u8]) {
    for _ in 0..SOME_PAIRS {
        let (a, b) = any_pair(prng, table);
        calls.rules("random-pair", returned, a, b);
    }
}

/// Two numbers: mostly events in program order, else any events, else any numbers.
pub fn any_pair(prng: &mut Prng, table: &Table) -> (u64, u64) {
    let events = table.events.len();
    let pairs = (0..events).flat_map(|a| (a + 1..events).map(move |b| (a, b)));
    let ordered: Vec<_> = pairs.filter(|&(a, b)| table.in_program_order(a, b)).collect();
    match prng.below(8) {
        0 => (prng.bits(), prng.bits()),
        1 => (prng.below(2 * MAX_EVENTS) as u64, prng.below(2 * MAX_EVENTS) as u64),
        2 | 3 => (prng.below(events) as u64, prng.below(events) as u64),
        _ if ordered.is_empty() => (0, 1),
        _ => {
            let (a, b) = *prng.pick(&ordered);
            (a as u64, b as u64)
        }
    }
}

/// For each steady rule an order with one pair the wrong way round, where there is one.
fn against_each_rule(calls: &mut Calls, prng: &mut Prng, table: &Table) {
    for rule in 1..=RULE_COUNT {
        if let Some(order) = extension_against(prng, table, rule) {
            let name = format!("random-against-rule-{rule}");
            calls.verdict(&name, &returned_list(table, &order), &bytes(&order));
        }
    }
}

/// By turns leaves the random values, states those of an order, or all of them but one.
pub fn choose_outcome(prng: &mut Prng, table: &mut Table, order: &[usize]) {
    let choice = prng.below(4);
    if choice > 0 {
        state_outcome(table, order);
    }
    if choice == 1 && table.stated != 0 {
        let location = table.stated.trailing_zeros() as usize;
        table.finals[location] = table.finals[location].wrapping_add(1);
    }
}

/// An order with two entries swapped.
pub fn with_swap(prng: &mut Prng, order: &[usize]) -> Vec<usize> {
    let mut swapped = order.to_vec();
    swapped.swap(prng.below(order.len()), prng.below(order.len()));
    swapped
}

/// A returned list with a reader's entry changed to another that line 14 lets pass.
pub fn other_return(prng: &mut Prng, table: &Table, returned: &[u8]) -> Vec<u8> {
    let mut changed = returned.to_vec();
    let readers: Vec<usize> =
        (0..table.events.len()).filter(|&e| table.events[e].reads()).collect();
    if !readers.is_empty() {
        let reader = *prng.pick(&readers);
        let location = table.events[reader].location;
        let writes = |e: &usize| table.events[*e].writes() && table.events[*e].location == location;
        let writers = bytes(&(0..table.events.len()).filter(writes).collect::<Vec<_>>());
        changed[reader] = *prng.pick(&[writers, vec![INITIAL]].concat());
    }
    changed
}

/// One byte of the order or of the returned list is any byte; any buffer length.
fn random_damage(calls: &mut Calls, prng: &mut Prng, table: &Table) {
    let order = linear_extension(prng, table);
    let mut returned = returned_list(table, &order);
    let mut order = bytes(&order);
    let list = if prng.one_in(2) { &mut order } else { &mut returned };
    let at = prng.below(list.len());
    list[at] = prng.bits() as u8;
    calls.verdict("random-damage", &returned, &order);
    let (a, b) = any_pair(prng, table);
    calls.rules("random-damage", &returned, a, b);
    calls.returned("random-damage", &order, prng.below(2 * MAX_EVENTS));
}

#[cfg(test)]
mod tests {
    use super::*;
    use crate::candidates::print_candidates;

    /// The calls' names with their answers.
    fn answers() -> Vec<(String, String)> {
        let calls = make_candidates();
        let lines = print_candidates(&calls.stream).expect("the stream is whole");
        assert_eq!(lines.lines().count(), calls.names.len());
        let answer = |line: &str| line.split_once(": ").expect("a number before").1.to_string();
        calls.names.into_iter().zip(lines.lines().map(answer)).collect()
    }

    #[test]
    fn c5_has_its_set() {
        let named: Vec<_> =
            answers().into_iter().filter(|(name, _)| name == "c5-rules-2-and-3").collect();
        let said: Vec<&str> = named.iter().map(|(_, answer)| answer.as_str()).collect();
        assert_eq!(said, ["rules 2 3", "preserved order 0 1 rules 2 3"]);
    }

    #[test]
    fn line_21_comes_before_those_of_lists_and_buffers() {
        let answers = answers();
        let unused: Vec<_> =
            answers.iter().filter(|(name, _)| name.starts_with("unused")).collect();
        assert!(unused.len() >= 500, "{}", unused.len());
        for (name, answer) in unused {
            assert!(answer.starts_with("refused 21"), "{name}: {answer}");
        }
        for (name, answer) in &answers {
            assert!(!name.starts_with("untouched") || !answer.starts_with("refused"), "{name}");
        }
    }

    #[test]
    fn each_rule_is_met_among_the_sets_of_pairs() {
        let answers = answers();
        let sets = answers.iter().filter_map(|(_, answer)| answer.strip_prefix("rules"));
        let met: BTreeSet<&str> = sets.flat_map(str::split_whitespace).collect();
        assert_eq!(met.len(), RULE_COUNT);
    }
}
