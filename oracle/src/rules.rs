//! The thirteen rules of preserved program order, and the axioms over an order of the
//! memory events.

use crate::table::*;

/// A write that a reader can return from. "Initial writes belong to no hart and precede
/// everything."
#[derive(Clone, Copy, PartialEq, Eq, Debug)]
pub enum Write {
    Initial,
    Of(usize),
}

/// What each event returned from; a non-reader returned nothing.
pub type Returns = [Option<Write>];

/// "Rules 2, 3 and 12 look at what was returned; the other ten are the steady rules."
enum Rule {
    Steady(fn(&Table, usize, usize) -> bool),
    Returned(fn(&Table, &Returns, usize, usize) -> bool),
}

pub const RULE_COUNT: usize = 13;

/// The rules in the paper's order; a rule's number is its place counted from 1.
const RULES: [Rule; RULE_COUNT] = [
    Rule::Steady(later_write_to_the_location),
    Rule::Returned(reads_of_different_writes),
    Rule::Returned(read_of_an_amo_or_sc),
    Rule::Steady(fence_between),
    Rule::Steady(acquire),
    Rule::Steady(release),
    Rule::Steady(both_rcsc),
    Rule::Steady(paired),
    Rule::Steady(address_dependency),
    Rule::Steady(data_dependency),
    Rule::Steady(control_dependency_of_a_write),
    Rule::Returned(read_of_a_dependent_write),
    Rule::Steady(write_after_a_dependent_address),
];

/// The numbers of some rules, ascending.
pub type RuleSet = Vec<usize>;

/// "Preserved order puts a before b if a is earlier on the same hart, both are memory events,
/// and one holds": all that do.
pub fn preserved_by(table: &Table, returns: &Returns, a: usize, b: usize) -> RuleSet {
    rules_of(table, a, b, |rule| match rule {
        Rule::Steady(holds) => holds(table, a, b),
        Rule::Returned(holds) => holds(table, returns, a, b),
    })
}

/// The steady rules that put a before b.
pub fn steady_rules(table: &Table, a: usize, b: usize) -> RuleSet {
    rules_of(table, a, b, |rule| matches!(rule, Rule::Steady(holds) if holds(table, a, b)))
}

fn rules_of(table: &Table, a: usize, b: usize, holds: impl Fn(&Rule) -> bool) -> RuleSet {
    if !may_be_preserved(table, a, b) {
        return RuleSet::new();
    }
    (1..).zip(&RULES).filter(|(_, rule)| holds(rule)).map(|(number, _)| number).collect()
}

fn may_be_preserved(table: &Table, a: usize, b: usize) -> bool {
    table.in_program_order(a, b) && table.events[a].is_memory() && table.events[b].is_memory()
}

fn same_location(table: &Table, a: usize, b: usize) -> bool {
    table.events[a].location == table.events[b].location
}

/// Whether some event strictly between a and b in program order is as asked.
fn some_between(table: &Table, a: usize, b: usize, is_asked: impl Fn(usize) -> bool) -> bool {
    let is_between = |m: usize| table.in_program_order(a, m) && table.in_program_order(m, b);
    (0..table.events.len()).any(|m| is_between(m) && is_asked(m))
}

/// Whether an event writes to the location of another.
fn writes_to_location_of(table: &Table, writer: usize, other: usize) -> bool {
    table.events[writer].writes() && same_location(table, writer, other)
}

/// Rule 1: "b writes, same location."
fn later_write_to_the_location(table: &Table, a: usize, b: usize) -> bool {
    table.events[b].writes() && same_location(table, a, b)
}

/// Rule 2: "Both read one location, no writer to it strictly between, and they return from
/// different writes."
fn reads_of_different_writes(table: &Table, returns: &Returns, a: usize, b: usize) -> bool {
    table.events[a].reads()
        && table.events[b].reads()
        && same_location(table, a, b)
        && !some_between(table, a, b, |m| writes_to_location_of(table, m, b))
        && returns[a] != returns[b]
}

/// Rule 3: "a is an AMO or SC, b reads and returns from a."
fn read_of_an_amo_or_sc(table: &Table, returns: &Returns, a: usize, b: usize) -> bool {
    matches!(table.events[a].kind, Kind::Amo | Kind::Sc)
        && table.events[b].reads()
        && returns[b] == Some(Write::Of(a))
}

/// Rule 4: "A fence between"
fn fence_between(table: &Table, a: usize, b: usize) -> bool {
    let (first, second) = (&table.events[a], &table.events[b]);
    some_between(table, a, b, |m| fence_orders(&table.events[m], first, second))
}

/// "a reads and pr or a writes and pw, with b reads and sr or b writes and sw; or fence.tso,
/// where event a reads or both write."
fn fence_orders(fence: &Event, a: &Event, b: &Event) -> bool {
    let has = |flag: u8| fence.flags & flag != 0;
    match fence.kind {
        Kind::Fence => {
            (a.reads() && has(PR) || a.writes() && has(PW))
                && (b.reads() && has(SR) || b.writes() && has(SW))
        }
        Kind::FenceTso => a.reads() || a.writes() && b.writes(),
        _ => false,
    }
}

/// Rule 5: "a has an acquire."
fn acquire(table: &Table, a: usize, _: usize) -> bool {
    table.annotations(a) & ACQUIRES != 0
}

/// Rule 6: "b has a release."
fn release(table: &Table, _: usize, b: usize) -> bool {
    table.annotations(b) & RELEASES != 0
}

/// Rule 7: "Both have an RCsc annotation."
fn both_rcsc(table: &Table, a: usize, b: usize) -> bool {
    let is_rcsc = |event: usize| table.annotations(event) & (ACQUIRE_RCSC | RELEASE_RCSC) != 0;
    is_rcsc(a) && is_rcsc(b)
}

/// Rule 8: "a is the LR paired with SC b."
fn paired(table: &Table, a: usize, b: usize) -> bool {
    table.events[b].kind == Kind::Sc && table.paired_lr(b) == Some(a)
}

/// Rule 9: "b's address depends on a."
fn address_dependency(table: &Table, a: usize, b: usize) -> bool {
    names(table.events[b].address, a)
}

/// Rule 10: "b's data depends on a."
fn data_dependency(table: &Table, a: usize, b: usize) -> bool {
    names(table.events[b].data, a)
}

/// Rule 11: "b writes and has a control dependency on a."
fn control_dependency_of_a_write(table: &Table, a: usize, b: usize) -> bool {
    table.events[b].writes() && names(table.events[b].control, a)
}

/// Rule 12: "b reads from a writer m strictly between, whose address or data depends on a."
fn read_of_a_dependent_write(table: &Table, returns: &Returns, a: usize, b: usize) -> bool {
    let depends = |m: usize| address_dependency(table, a, m) || data_dependency(table, a, m);
    some_between(table, a, b, |m| returns[b] == Some(Write::Of(m)) && depends(m))
}

/// Rule 13: "b writes, and some m strictly between has an address dependency on a."
fn write_after_a_dependent_address(table: &Table, a: usize, b: usize) -> bool {
    table.events[b].writes() && some_between(table, a, b, |m| address_dependency(table, a, m))
}

/// What a candidate breaks, with its place.
#[derive(Clone, PartialEq, Eq, Debug)]
pub enum Axiom {
    PreservedOrder { a: usize, b: usize, rules: RuleSet },
    LoadValue { reader: usize },
    Atomicity { lr: usize, writer: usize },
    ValueRead { reader: usize },
    FinalValue { location: usize },
}

/// "Verdict order: preserved order; load value; atomicity; value read; final value"
pub fn first_broken(table: &Table, order: &[usize], returns: &Returns) -> Option<Axiom> {
    broken_law(table, order, returns)
        .or_else(|| broken_value_read(table, returns))
        .or_else(|| broken_final_value(table, order))
}

/// The first three of these, which ask for no stated value.
fn broken_law(table: &Table, order: &[usize], returns: &Returns) -> Option<Axiom> {
    broken_preserved_order(table, order, returns)
        .or_else(|| broken_load_value(table, order, returns))
        .or_else(|| broken_atomicity(table, order, returns))
}

/// "An order is lawful if, with the returns that it determines, preserved order, load value
/// and atomicity hold."
pub fn is_lawful(table: &Table, order: &[usize]) -> bool {
    broken_law(table, order, &determined_returns(table, order)).is_none()
}

/// "It is a witness if besides that each reader returns its stated value and each stated
/// final value is that of the location's last write."
pub fn is_witness(table: &Table, order: &[usize]) -> bool {
    first_broken(table, order, &determined_returns(table, order)).is_none()
}

/// Whether a stands before b in the order.
fn precedes(order: &[usize], a: usize, b: usize) -> bool {
    let place = |event: usize| order.iter().position(|&e| e == event);
    place(a) < place(b)
}

/// "the lowest a, and for that a the lowest b, .. using the returns given", with "the whole set
/// of rules that hold"
fn broken_preserved_order(table: &Table, order: &[usize], returns: &Returns) -> Option<Axiom> {
    for a in table.memory_events() {
        for b in table.memory_events() {
            let rules = preserved_by(table, returns, a, b);
            if !rules.is_empty() && !precedes(order, a, b) {
                return Some(Axiom::PreservedOrder { a, b, rules });
            }
        }
    }
    None
}

/// "a reader returns from the latest in the order among writers to its location that precede
/// it in the order or in program order, never itself"
pub fn determined_return(table: &Table, order: &[usize], reader: usize) -> Write {
    let may_be_returned = |&&writer: &&usize| {
        writer != reader
            && writes_to_location_of(table, writer, reader)
            && (precedes(order, writer, reader) || table.in_program_order(writer, reader))
    };
    match order.iter().rev().find(may_be_returned) {
        Some(&writer) => Write::Of(writer),
        None => Write::Initial,
    }
}

/// "the returns that it determines"
pub fn determined_returns(table: &Table, order: &[usize]) -> Vec<Option<Write>> {
    let reads = |event: &usize| table.events[*event].reads();
    let determined = |event| Some(event).filter(reads).map(|r| determined_return(table, order, r));
    (0..table.events.len()).map(determined).collect()
}

fn readers(table: &Table) -> impl Iterator<Item = usize> + '_ {
    (0..table.events.len()).filter(|&e| table.events[e].reads())
}

/// "load value (lowest reader)"
fn broken_load_value(table: &Table, order: &[usize], returns: &Returns) -> Option<Axiom> {
    let is_broken = |&r: &usize| returns[r] != Some(determined_return(table, order, r));
    readers(table).find(is_broken).map(|reader| Axiom::LoadValue { reader })
}

/// "atomicity (lowest LR, then the lowest foreign writer between; if the write itself fails
/// to precede, that write)"
fn broken_atomicity(table: &Table, order: &[usize], returns: &Returns) -> Option<Axiom> {
    readers(table).find_map(|lr| {
        let sc = (0..table.events.len()).find(|&e| paired(table, lr, e))?;
        let writer = atomicity_breaker(table, order, returns[lr]?, sc)?;
        Some(Axiom::Atomicity { lr, writer })
    })
}

/// "for paired LR and SC, the write that the LR returned from precedes the SC in the order,
/// and no other hart's write to the location stands after it and before the SC"
fn atomicity_breaker(table: &Table, order: &[usize], write: Write, sc: usize) -> Option<usize> {
    let stands_after_write = |event: usize| match write {
        Write::Initial => true,
        Write::Of(writer) => precedes(order, writer, event),
    };
    let is_foreign = |event: usize| {
        table.events[event].hart != table.events[sc].hart && writes_to_location_of(table, event, sc)
    };
    match write {
        Write::Of(writer) if !precedes(order, writer, sc) => Some(writer),
        _ => (0..table.events.len())
            .find(|&e| is_foreign(e) && stands_after_write(e) && precedes(order, e, sc)),
    }
}

/// "value read (lowest reader)"
fn broken_value_read(table: &Table, returns: &Returns) -> Option<Axiom> {
    let is_broken = |&r: &usize| {
        returns[r].is_some_and(|write| value_of(table, write, r) != table.events[r].read)
    };
    readers(table).find(is_broken).map(|reader| Axiom::ValueRead { reader })
}

/// The value that a reader gets from a write.
pub fn value_of(table: &Table, write: Write, reader: usize) -> u16 {
    match write {
        Write::Initial => table.initial[table.events[reader].location],
        Write::Of(writer) => table.events[writer].written,
    }
}

/// "final value (lowest location)"
fn broken_final_value(table: &Table, order: &[usize]) -> Option<Axiom> {
    let is_broken = |&l: &usize| {
        names_location(table.stated, l) && last_value(table, order, l) != table.finals[l]
    };
    (0..table.locations).find(is_broken).map(|location| Axiom::FinalValue { location })
}

/// The stated value of the location's last write.
pub fn last_value(table: &Table, order: &[usize], location: usize) -> u16 {
    match last_write(table, order, location) {
        Write::Initial => table.initial[location],
        Write::Of(writer) => table.events[writer].written,
    }
}

/// "the location's last write"; with no writer that is the initial one.
pub fn last_write(table: &Table, order: &[usize], location: usize) -> Write {
    let writes_here =
        |&&e: &&usize| table.events[e].writes() && table.events[e].location == location;
    match order.iter().rev().find(writes_here) {
        Some(&writer) => Write::Of(writer),
        None => Write::Initial,
    }
}
