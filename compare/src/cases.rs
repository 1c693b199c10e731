//! Random calls, in rounds. A round has one table or one string of bytes, and makes some calls with it.

use crate::advice::{advice, large_advice};
use crate::call::{Call, Entry, OfSuite, Outcome, Reply};
use crate::comparison::{Comparison, Difference};
use crate::decisions::{all_decided, decision_on_bytes, decisions};
use crate::outcomes::{all_outcomes, any_listing, outcome_calls};
use crate::runs::{all_runs, any_step, steps};
use crate::texts::*;
use crate::writes::writes;
use cogthunder::Answer;
use oracle::encode::encode_in;
use oracle::generate::calls::any_buffer_length;
use oracle::generate::candidates::*;
use oracle::generate::chains::chained_table;
use oracle::generate::damage::damaged_in;
use oracle::generate::orders::*;
use oracle::generate::prng::Prng;
use oracle::generate::random::{any_table, random_table, wide_table};
use oracle::generate::readings::random_block;
use oracle::layout::*;
use oracle::litmus;
use oracle::rules::RULE_COUNT;
use oracle::search::{Engine, MAX_ALLOWANCE};
use oracle::settled::is_spoiled;
use oracle::table::*;
use oracle::walks::Given;

pub type Round = fn(&mut Prng, &mut Comparison) -> Result<(), Box<Difference>>;

/// As often as they shall come.
const ROUNDS: [Round; 57] = [
    candidates,
    candidates,
    candidates,
    large_searches,
    large_searches,
    large_searches,
    small_walk,
    small_walk,
    small_walk,
    small_walk,
    chain_walk,
    chain_walk,
    witnesses,
    both_engines,
    both_engines,
    steps,
    steps,
    steps,
    all_runs,
    all_runs,
    outcome_calls,
    outcome_calls,
    all_outcomes,
    all_outcomes,
    advice,
    advice,
    large_advice,
    decisions,
    decisions,
    decisions,
    all_decided,
    damaged_table,
    damaged_table,
    damaged_table,
    damaged_table,
    fences_only,
    unused_locations,
    random_bytes,
    suite,
    mixed_suite,
    writes,
    writes,
    text_walk,
    text_walk,
    text_walk,
    text_searches,
    text_searches,
    text_witnesses,
    damaged_texts,
    damaged_texts,
    damaged_texts,
    broken_lines,
    broken_lines,
    unused_in_texts,
    deep_texts,
    long_texts,
    other_bytes,
];

/// With so few memory events a table's list of prefixes is short enough to be walked to the end, whatever the table.
pub const FEW_EVENTS: usize = 6;
/// No walk makes more calls than this.
const MOST_CALLS: usize = 30;
/// Calls of a round that has no end of its own.
pub const SOME_CALLS: usize = 6;
const LONGEST_SUITE: usize = 5000;
/// Tests or parts of one in a mixed suite.
const MOST_PARTS: usize = 5;
pub const LONGEST_BYTES: usize = 2000;
const LONGEST_LIST: usize = 300;

pub fn round(prng: &mut Prng, comparison: &mut Comparison) -> Result<(), Box<Difference>> {
    prng.pick(&ROUNDS)(prng, comparison)
}

/// The calls with one test or one suite.
pub struct Calls<'a> {
    pub comparison: &'a mut Comparison,
    pub bytes: Vec<u8>,
}

impl Calls<'_> {
    pub fn call(&mut self, entry: Entry) -> Result<Outcome, Box<Difference>> {
        self.comparison.call(Call { bytes: self.bytes.clone(), entry })
    }

    pub fn search(
        &mut self,
        prng: &mut Prng,
        given: Given,
        start: Vec<u8>,
        room: usize,
        allowance: u64,
    ) -> Result<Outcome, Box<Difference>> {
        let out = some_bytes(prng, room);
        self.call(Entry::Search { given, start, out, allowance })
    }
}

/// A block, for either engine.
fn any_engine(prng: &mut Prng) -> Given {
    Given::Block(*prng.pick(&Engine::ALL))
}

pub fn some_bytes(prng: &mut Prng, length: usize) -> Vec<u8> {
    (0..length).map(|_| prng.bits() as u8).collect()
}

/// Candidates of a table of any shape.
fn candidates(prng: &mut Prng, comparison: &mut Comparison) -> Result<(), Box<Difference>> {
    let mut table = any_shape(prng);
    let lawful = lawful_order(prng, &table);
    if let Some(order) = &lawful {
        choose_outcome(prng, &mut table, order);
    }
    let mut calls = Calls { comparison, bytes: any_test(prng, &table) };
    calls.call(Entry::Read)?;
    for _ in 0..SOME_CALLS {
        let order = match &lawful {
            Some(order) if prng.one_in(3) => order.clone(),
            Some(order) if prng.one_in(4) => with_swap(prng, order),
            _ => any_order(prng, &table),
        };
        candidate(prng, &mut calls, &table, &order)?;
    }
    for order in (1..=RULE_COUNT).filter_map(|rule| extension_against(prng, &table, rule)).collect::<Vec<_>>() {
        candidate(prng, &mut calls, &table, &order)?;
    }
    Ok(())
}

/// Mostly a test of edition 1, where that has room for the table's events.
fn any_edition(prng: &mut Prng, table: &Table) -> Edition {
    if table.events.len() > one::MAX_EVENTS || prng.one_in(4) {
        Edition::Two
    } else {
        Edition::One
    }
}

pub fn any_test(prng: &mut Prng, table: &Table) -> Vec<u8> {
    encode_in(any_edition(prng, table), table)
}

/// Model 1 in a third of the tests.
pub fn any_model(prng: &mut Prng) -> Model {
    if prng.one_in(3) {
        Model::Rvtso
    } else {
        Model::Rvwmo
    }
}

/// A table of any shape, in either model.
pub fn any_shape(prng: &mut Prng) -> Table {
    let model = any_model(prng);
    any_program(prng).in_model(model)
}

/// Tables of any size, tables whose harts meet at few locations, smaller ones whose harts meet at one, and tables with
/// many annotations; and two kinds of tables with more events than edition 1 has room for.
pub fn any_program(prng: &mut Prng) -> Table {
    match prng.below(6) {
        0 => any_table(prng),
        1 => contended_table(prng),
        2 => {
            let (harts, events) = (2 + prng.below(MAX_HARTS - 1), 2 + prng.below(FEW_EVENTS));
            random_table(prng, harts, 1, events)
        }
        3 => wide_contended_table(prng),
        4 => wide_table(prng),
        _ => annotated_table(prng),
    }
}

/// Half of the loads and LRs have an acquire, half of the stores and SCs a release, and most AMOs the one or the other.
fn annotated_table(prng: &mut Prng) -> Table {
    let mut table = any_table(prng);
    for event in table.events.iter_mut().filter(|event| event.is_memory()) {
        let choices: &[u8] = match event.kind {
            Kind::Amo => &[0, ACQUIRE_RCPC, ACQUIRE_RCSC, RELEASE_RCPC, RELEASE_RCSC],
            Kind::Load | Kind::Lr => &[0, 0, ACQUIRE_RCPC, ACQUIRE_RCSC],
            _ => &[0, 0, RELEASE_RCPC, RELEASE_RCSC],
        };
        event.flags = *prng.pick(choices);
    }
    table
}

fn any_order(prng: &mut Prng, table: &Table) -> Vec<usize> {
    if prng.one_in(4) {
        permutation(prng, table)
    } else {
        linear_extension(prng, table)
    }
}

/// The entries on an order of a table, and the rules of a pair: lists that are right, or nearly so.
fn candidate(prng: &mut Prng, calls: &mut Calls, table: &Table, order: &[usize]) -> Result<(), Box<Difference>> {
    let mut returned = returned_list(table, order);
    let mut order = bytes(order);
    match prng.below(8) {
        0 | 1 => returned = other_return(prng, table, &returned),
        2 => returned = nearly(prng, &returned),
        3 => order = nearly(prng, &order),
        _ => {}
    }
    let room = any_buffer_length(prng, table.events.len());
    let out = some_bytes(prng, room);
    let (a, b) = any_pair(prng, table);
    calls.call(Entry::Verdict { returned: returned.clone(), order: order.clone() })?;
    calls.call(Entry::Rules { returned, a, b })?;
    calls.call(Entry::Returns { order, out })?;
    Ok(())
}

/// A list changed in one place: another event or any byte, one entry less, or one more.
pub fn nearly(prng: &mut Prng, list: &[u8]) -> Vec<u8> {
    let mut list = list.to_vec();
    let at = prng.below(list.len() + 1);
    let entry = if prng.one_in(2) { prng.below(MOST_EVENTS + 1) as u8 } else { prng.bits() as u8 };
    match prng.below(4) {
        0 if at < list.len() => drop(list.remove(at)),
        1 => list.insert(at, entry),
        _ if at < list.len() => list[at] = entry,
        _ => {}
    }
    list
}

/// A table of some size that often has witnesses, in either model.
pub fn table_with_outcome(prng: &mut Prng, events: usize) -> Table {
    let model = any_model(prng);
    program_with_outcome(prng, events, model)
}

/// The same in a model.
pub fn program_with_outcome(prng: &mut Prng, events: usize, model: Model) -> Table {
    let harts = 1 + prng.below(MAX_HARTS);
    let locations = 1 + prng.below(3);
    let mut table = random_table(prng, harts, locations, events).in_model(model);
    if !prng.one_in(3) {
        let order = lawful_order(prng, &table).unwrap_or_else(|| linear_extension(prng, &table));
        state_outcome(&mut table, &order);
    }
    table
}

/// A walk over a small table, with any allowances and buffers; mostly to its end.
fn small_walk(prng: &mut Prng, comparison: &mut Comparison) -> Result<(), Box<Difference>> {
    let events = 1 + prng.below(FEW_EVENTS);
    let table = table_with_outcome(prng, events);
    let bytes = any_test(prng, &table);
    walk(prng, &mut Calls { comparison, bytes }, &table)
}

/// A table of more events than edition 1 has room for, whose harts are chains, in either model.
pub fn any_chain(prng: &mut Prng) -> Table {
    let model = any_model(prng);
    chained_table(prng).in_model(model)
}

/// A walk over such a table.
fn chain_walk(prng: &mut Prng, comparison: &mut Comparison) -> Result<(), Box<Difference>> {
    let table = any_chain(prng);
    let bytes = any_test(prng, &table);
    let mut calls = Calls { comparison, bytes };
    single_search(prng, &mut calls, &table)?;
    walk(prng, &mut calls, &table)
}

fn walk(prng: &mut Prng, calls: &mut Calls, table: &Table) -> Result<(), Box<Difference>> {
    let engine = any_engine(prng);
    walk_over(engine, prng, calls, table)
}

pub fn walk_over(given: Given, prng: &mut Prng, calls: &mut Calls, table: &Table) -> Result<(), Box<Difference>> {
    let memory_events = table.memory_events().len();
    let largest = *prng.pick(&[2, 10, 40, 200]);
    let mut start = Vec::new();
    for _ in 0..1 + prng.below(MOST_CALLS) {
        let room = if prng.one_in(4) { any_buffer_length(prng, memory_events) } else { memory_events };
        let allowance = any_allowance(prng, memory_events, largest);
        let outcome = calls.search(prng, given, start.clone(), room, allowance)?;
        match outcome.reply {
            Reply::Searched(Answer::Found { len, .. } | Answer::Spent { len, .. }) => {
                start = outcome.out[..len].to_vec()
            }
            // Now and then a walk goes on after its end.
            Reply::Searched(Answer::NoneLeft { .. }) if !prng.one_in(4) => return Ok(()),
            _ => {}
        }
    }
    Ok(())
}

/// Mostly under a bound; as large as can be only if the table is small.
pub fn any_allowance(prng: &mut Prng, memory_events: usize, bound: usize) -> u64 {
    let small = prng.below(bound) as u64;
    let largest = if memory_events <= FEW_EVENTS { MAX_ALLOWANCE } else { small };
    *prng.pick(&[0, 1, small, small, small, small, largest, largest, largest, MAX_ALLOWANCE + 1, u64::MAX])
}

/// Searches of a table of any size, from clean prefixes and from others.
fn large_searches(prng: &mut Prng, comparison: &mut Comparison) -> Result<(), Box<Difference>> {
    let events = 1 + prng.below(MOST_EVENTS);
    let table = table_with_outcome(prng, events);
    let mut calls = Calls { comparison, bytes: any_test(prng, &table) };
    for _ in 0..SOME_CALLS {
        single_search(prng, &mut calls, &table)?;
    }
    walk(prng, &mut calls, &table)
}

fn single_search(prng: &mut Prng, calls: &mut Calls, table: &Table) -> Result<(), Box<Difference>> {
    let engine = any_engine(prng);
    search_of(engine, prng, calls, table)
}

/// From any start, good or not.
pub fn search_of(given: Given, prng: &mut Prng, calls: &mut Calls, table: &Table) -> Result<(), Box<Difference>> {
    let memory_events = table.memory_events().len();
    let mut start = bytes(&any_start(prng, table));
    if prng.one_in(4) {
        start = nearly(prng, &start);
    }
    if prng.one_in(20) {
        let length = prng.below(LONGEST_LIST);
        start = some_bytes(prng, length);
    }
    let room = any_buffer_length(prng, memory_events);
    let allowance = any_allowance(prng, memory_events, 100);
    calls.search(prng, given, start, room, allowance)?;
    Ok(())
}

/// The front of an order: as much as there is before it is spoiled, with the entry that spoils it, with one more, or any part.
pub fn any_start(prng: &mut Prng, table: &Table) -> Vec<usize> {
    let mut order = any_order(prng, table);
    let any = prng.below(order.len() + 1);
    let unspoiled = (0..order.len()).take_while(|&last| !is_spoiled(table, &order[..=last])).count();
    order.truncate(*prng.pick(&[any, any, any, unspoiled, unspoiled + 1, unspoiled + 1, unspoiled + 2]));
    order
}

/// All witnesses of a small table by the iterator, from the beginning or from any start.
fn witnesses(prng: &mut Prng, comparison: &mut Comparison) -> Result<(), Box<Difference>> {
    let events = 1 + prng.below(FEW_EVENTS);
    let table = table_with_outcome(prng, events);
    let mut calls = Calls { comparison, bytes: any_test(prng, &table) };
    for _ in 0..SOME_CALLS {
        let mut start = Vec::new();
        if prng.one_in(2) {
            start = bytes(&any_start(prng, &table));
        }
        let given = any_engine(prng);
        let allowance = any_allowance_of_a_walk(prng);
        calls.call(Entry::Witnesses { given, start, allowance, steps: prng.below(SOME_CALLS) })?;
    }
    Ok(())
}

pub fn any_allowance_of_a_walk(prng: &mut Prng) -> u64 {
    *prng.pick(&[0, 1, 2, 7, 50, MAX_ALLOWANCE, u64::MAX])
}

/// All witnesses of a table by both engines: of a small one, or of one whose harts are chains.
fn both_engines(prng: &mut Prng, comparison: &mut Comparison) -> Result<(), Box<Difference>> {
    let events = 1 + prng.below(FEW_EVENTS);
    let table = if prng.one_in(8) { any_chain(prng) } else { table_with_outcome(prng, events) };
    let bytes = any_test(prng, &table);
    let allowance = any_allowance_of_a_walk(prng);
    Calls { comparison, bytes }.call(Entry::BothEngines { allowance })?;
    Ok(())
}

/// A table whose test is damaged in one place; lists are those of the whole table.
fn damaged_table(prng: &mut Prng, comparison: &mut Comparison) -> Result<(), Box<Difference>> {
    let table = any_shape(prng);
    let bytes = damaged_in(any_edition(prng, &table), prng, &table);
    every_entry(prng, &mut Calls { comparison, bytes }, &table)
}

/// Calls of every entry, with lists of a table that the bytes may or may not hold.
fn every_entry(prng: &mut Prng, calls: &mut Calls, table: &Table) -> Result<(), Box<Difference>> {
    calls.call(Entry::Read)?;
    let order = any_order(prng, table);
    candidate(prng, calls, table, &order)?;
    let memory_events = table.memory_events().len();
    let room = any_buffer_length(prng, memory_events);
    let start = bytes(&order[..prng.below(order.len() + 1)]);
    // The bytes may hold another table than this one, with more prefixes.
    let allowance = any_allowance(prng, MOST_EVENTS, 100);
    for engine in Engine::ALL {
        calls.search(prng, Given::Block(engine), start.clone(), room, allowance)?;
    }
    let step = any_step(prng, None);
    calls.call(Entry::Step { steps: start, step })?;
    calls.call(Entry::Step { steps: Vec::new(), step })?;
    calls.call(Entry::Advise { allowance })?;
    decision_on_bytes(prng, calls, table)?;
    any_listing(prng, calls, table, allowance)
}

/// A table without a memory event.
fn fences_only(prng: &mut Prng, comparison: &mut Comparison) -> Result<(), Box<Difference>> {
    let fences = any_fences(prng);
    let bytes = any_test(prng, &fences);
    every_entry(prng, &mut Calls { comparison, bytes }, &litmus::c1())
}

/// A table with locations that no event touches, of which some are stated.
fn unused_locations(prng: &mut Prng, comparison: &mut Comparison) -> Result<(), Box<Difference>> {
    let table = with_unused(prng);
    let bytes = any_test(prng, &table);
    every_entry(prng, &mut Calls { comparison, bytes }, &table)
}

/// Often with a location more than its events have. Each untouched one is stated or not.
pub fn with_unused(prng: &mut Prng) -> Table {
    let mut table = any_shape(prng);
    table.locations = MAX_LOCATIONS.min(table.locations + prng.below(2));
    for location in table.untouched().collect::<Vec<_>>() {
        table.stated &= !(1 << location);
        table.finals[location] = 0;
        if !prng.one_in(3) {
            table = table.with_final(location, prng.below(2) as u16);
        }
    }
    table
}

pub fn any_fences(prng: &mut Prng) -> Table {
    litmus::table((0..1 + prng.below(MOST_EVENTS)).map(|_| any_fence(prng)).collect())
}

fn any_fence(prng: &mut Prng) -> Event {
    let hart = prng.below(MAX_HARTS);
    if prng.one_in(3) {
        return litmus::fence_tso(hart);
    }
    litmus::fence(hart, prng.below(usize::from(ALL_FLAGS) + 1) as u8)
}

/// Random bytes: of any length, in the form of a block, or a table's test cut short or made longer.
fn random_bytes(prng: &mut Prng, comparison: &mut Comparison) -> Result<(), Box<Difference>> {
    let table = contended_table(prng);
    let length = any_length(prng);
    let bytes = match prng.below(3) {
        0 => some_bytes(prng, length),
        1 => {
            let form = prng.below(4);
            random_block(prng, form)
        }
        _ => {
            let mut bytes = any_test(prng, &table).repeat(4);
            bytes.truncate(length);
            bytes
        }
    };
    every_entry(prng, &mut Calls { comparison, bytes }, &table)
}

/// About the lengths of tests, or any.
fn any_length(prng: &mut Prng) -> usize {
    let any = prng.below(LONGEST_BYTES);
    let tests = [BLOCK_LENGTH, 2 * BLOCK_LENGTH, LONGEST_TEST];
    let about = *prng.pick(&tests) + prng.below(3) - 1;
    *prng.pick(&[0, 1, about, about, about, any])
}

/// How many blocks a suite of any length has, and where they stand: the first, the last or the next, and one whose offset no
/// number of 64 bits has.
fn suite(prng: &mut Prng, comparison: &mut Comparison) -> Result<(), Box<Difference>> {
    let length = prng.below(LONGEST_SUITE);
    let edge = BLOCK_LENGTH * prng.below(LONGEST_SUITE / BLOCK_LENGTH);
    for length in [length, edge, edge + 1, (edge + BLOCK_LENGTH) - 1] {
        let mut calls = Calls { comparison: &mut *comparison, bytes: some_bytes(prng, length) };
        calls.call(Entry::Suite(OfSuite::Blocks))?;
        let whole = length / BLOCK_LENGTH;
        for k in [0, whole.saturating_sub(1), whole, usize::MAX / BLOCK_LENGTH + 1] {
            calls.call(Entry::Suite(OfSuite::Part { k: k as u64 }))?;
        }
    }
    Ok(())
}

/// A suite of tests of both editions, good ones and others, often cut: all its tests, and that at each block, the next ones and
/// any other.
fn mixed_suite(prng: &mut Prng, comparison: &mut Comparison) -> Result<(), Box<Difference>> {
    let mut bytes = Vec::new();
    for _ in 0..1 + prng.below(MOST_PARTS) {
        bytes.extend(any_part(prng));
    }
    if prng.one_in(2) {
        bytes.truncate(prng.below(bytes.len() + 1));
    }
    let blocks = bytes.len().div_ceil(BLOCK_LENGTH) as u64;
    let mut calls = Calls { comparison, bytes };
    calls.call(Entry::Suite(OfSuite::Tests))?;
    for k in (0..blocks + 2).chain([u64::MAX / BLOCK_LENGTH as u64 + 1, prng.bits()]) {
        calls.call(Entry::Suite(OfSuite::Test { k }))?;
    }
    Ok(())
}

/// A test, mostly good, its first block alone, or any bytes.
fn any_part(prng: &mut Prng) -> Vec<u8> {
    let table = any_shape(prng);
    let edition = any_edition(prng, &table);
    match prng.below(8) {
        0..=3 => encode_in(edition, &table),
        4 | 5 => damaged_in(edition, prng, &table),
        6 => encode_in(edition, &table)[..BLOCK_LENGTH].to_vec(),
        _ => some_bytes(prng, BLOCK_LENGTH),
    }
}

#[cfg(test)]
mod tests {
    use super::*;
    use oracle::operation::Operation;

    /// Tables enough to meet what is asked for.
    const TABLES: usize = 1000;

    fn shapes(seed: u64) -> Vec<Table> {
        let mut prng = Prng::new(seed);
        (0..TABLES).map(|_| any_shape(&mut prng)).collect()
    }

    #[test]
    fn amos_have_each_annotation_alone() {
        let tables = shapes(1);
        for flags in [ACQUIRE_RCPC, ACQUIRE_RCSC, RELEASE_RCPC, RELEASE_RCSC] {
            let is_met = |event: &Event| event.kind == Kind::Amo && event.flags == flags;
            assert!(tables.iter().any(|table| table.events.iter().any(is_met)), "{flags}");
        }
    }

    #[test]
    fn tables_are_of_both_models() {
        let tables = shapes(5);
        for model in Model::ALL {
            assert!(tables.iter().filter(|table| table.model == model).count() > TABLES / 4, "{model:?}");
        }
    }

    #[test]
    fn amos_have_each_operation_and_none() {
        let tables = shapes(3);
        for operation in [&[Operation::None], &Operation::SOME[..]].concat() {
            let is_met = |event: &Event| event.kind == Kind::Amo && event.operation == operation;
            assert!(tables.iter().any(|table| table.events.iter().any(is_met)), "{operation:?}");
        }
    }

    #[test]
    fn starts_are_spoiled_and_extend_spoiled_ones() {
        let mut prng = Prng::new(4);
        let (mut spoiled, mut extended) = (0, 0);
        for _ in 0..TABLES {
            let table = any_shape(&mut prng);
            let start = any_start(&mut prng, &table);
            let test = any_test(&mut prng, &table);
            let search = |engine: Engine| engine.search(&test, &bytes(&start), &mut [0; MOST_EVENTS], 0);
            let is_listed = search(Engine::Second).is_ok();
            spoiled += u32::from(is_listed && is_spoiled(&table, &start));
            extended += u32::from(!is_listed && search(Engine::First).is_ok());
        }
        assert!(spoiled > 100 && extended > 100, "{spoiled}, {extended}");
    }

    #[test]
    fn tables_are_good() {
        let mut prng = Prng::new(2);
        for _ in 0..TABLES {
            let table = any_shape(&mut prng);
            assert_eq!(read(&any_test(&mut prng, &table)), Ok(table));
        }
    }
}
