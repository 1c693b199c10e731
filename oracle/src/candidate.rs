//! The entries for candidates: the verdict, the rules of a pair, and the returned list that an
//! order determines.

use crate::rules::{determined_returns, first_broken, preserved_by, Axiom, RuleSet, Write};
use crate::table::{read, refuse_if, Line, Refusal, Table};

/// Entries of a returned list: "a non-reader's entry isn't 254, or a reader's is neither 255
/// (initial) nor a writer to its location"
pub const NON_READER: u8 = 254;
pub const INITIAL: u8 = 255;

/// "A refusal, an axiom with its place, or allowed": nothing broken is allowed.
pub fn verdict(block: &[u8], returned: &[u8], order: &[u8]) -> Result<Option<Axiom>, Refusal> {
    let table = read(block)?;
    let wrong_length = has_wrong_length(&table, order) || returned.len() != table.events.len();
    refuse_if(wrong_length, Line::ListLength)?;
    let order = decode_order(&table, order)?;
    let returns = decode_returned(&table, returned)?;
    Ok(first_broken(&table, &order, &returns))
}

/// "ask by itself whether a is before b, of a table and a returned list (refused as for a
/// candidate)": "the whole set of rules that hold", "empty unless both are memory events of the
/// test and a is earlier on the same hart".
pub fn pair_rules(block: &[u8], returned: &[u8], a: u64, b: u64) -> Result<RuleSet, Refusal> {
    let table = read(block)?;
    refuse_if(returned.len() != table.events.len(), Line::ListLength)?;
    let returns = decode_returned(&table, returned)?;
    let event = |number: u64| (0..table.events.len()).find(|&event| event as u64 == number);
    match (event(a), event(b)) {
        (Some(a), Some(b)) => Ok(preserved_by(&table, &returns, a, b)),
        _ => Ok(RuleSet::new()),
    }
}

/// "One further entry writes the returned list that an order determines; bytes past it stay."
pub fn write_returned(block: &[u8], order: &[u8], buffer: &mut [u8]) -> Result<(), Refusal> {
    let table = read(block)?;
    refuse_if(has_wrong_length(&table, order), Line::ListLength)?;
    let order = decode_order(&table, order)?;
    refuse_if(buffer.len() < table.events.len(), Line::Buffer)?;
    for (entry, write) in buffer.iter_mut().zip(determined_returns(&table, &order)) {
        *entry = encode_entry(write);
    }
    Ok(())
}

/// 12: "an order whose length isn't M (the number of memory events)"
fn has_wrong_length(table: &Table, order: &[u8]) -> bool {
    order.len() != table.memory_events().len()
}

/// Refuses by 13: "the order isn't each memory event once".
fn decode_order(table: &Table, order: &[u8]) -> Result<Vec<usize>, Refusal> {
    let order: Vec<usize> = order.iter().map(|&event| event.into()).collect();
    let mut sorted = order.clone();
    sorted.sort();
    refuse_if(sorted != table.memory_events(), Line::OrderEvents)?;
    Ok(order)
}

/// Refuses a list with an entry for each event by 14.
fn decode_returned(table: &Table, returned: &[u8]) -> Result<Vec<Option<Write>>, Refusal> {
    let is_broken = |event: usize| returned_entry_broken(table, event, returned[event]);
    refuse_if((0..table.events.len()).any(is_broken), Line::ReturnedEntries)?;
    Ok(returned.iter().map(|&entry| decode_entry(entry)).collect())
}

/// 14, for one event's entry.
fn returned_entry_broken(table: &Table, event: usize, entry: u8) -> bool {
    let event = &table.events[event];
    let is_writer_to_location = || {
        let named = table.events.get(usize::from(entry));
        named.is_some_and(|writer| writer.writes() && writer.location == event.location)
    };
    if event.reads() {
        entry != INITIAL && !is_writer_to_location()
    } else {
        entry != NON_READER
    }
}

fn decode_entry(entry: u8) -> Option<Write> {
    match entry {
        NON_READER => None,
        INITIAL => Some(Write::Initial),
        writer => Some(Write::Of(writer.into())),
    }
}

pub fn encode_entry(write: Option<Write>) -> u8 {
    match write {
        None => NON_READER,
        Some(Write::Initial) => INITIAL,
        Some(Write::Of(writer)) => writer as u8,
    }
}

#[cfg(test)]
mod tests {
    use super::*;
    use crate::encode::encode;
    use crate::litmus::*;
    use crate::table::{RELEASE_RCPC, RELEASE_RCSC};

    fn judge(test: &Table, returned: &[u8], order: &[u8]) -> Option<Axiom> {
        verdict(&encode(test), returned, order).expect("no line refuses")
    }

    fn refused(line: Line) -> Refusal {
        Refusal { line, record: None }
    }

    #[test]
    fn c5_breaks_rules_2_and_3() {
        let broken = Axiom::PreservedOrder { a: 0, b: 1, rules: vec![2, 3] };
        assert_eq!(judge(&c5(), &[INITIAL, 0], &[1, 0]), Some(broken));
        assert_eq!(judge(&c5(), &[INITIAL, 0], &[0, 1]), None);
    }

    #[test]
    fn c7_breaks_atomicity() {
        let returned = [INITIAL, NON_READER, NON_READER];
        let broken = Axiom::Atomicity { lr: 0, writer: 2 };
        assert_eq!(judge(&c7(1), &returned, &[0, 2, 1]), Some(broken));
        assert_eq!(judge(&c7(2), &returned, &[0, 1, 2]), None);
        let other_final = Axiom::FinalValue { location: X };
        assert_eq!(judge(&c7(1), &returned, &[0, 1, 2]), Some(other_final));
    }

    #[test]
    fn a_load_does_not_wait_for_its_own_store() {
        assert_eq!(judge(&c4(1), &[NON_READER, 0], &[1, 0]), None);
    }

    #[test]
    fn a_control_dependency_does_not_order_a_later_load() {
        let returned = [NON_READER, NON_READER, NON_READER, 2, INITIAL];
        assert_eq!(judge(&c9_control(), &returned, &[4, 0, 2, 3]), None);
        let broken = Axiom::PreservedOrder { a: 3, b: 4, rules: vec![9] };
        assert_eq!(judge(&c9_address(), &returned, &[4, 0, 2, 3]), Some(broken));
    }

    #[test]
    fn the_release_of_an_amo_orders_by_rule_6_and_its_rcsc_by_rule_7() {
        let order = [1, 2, 3, 0];
        let passed = [NON_READER, INITIAL, 1, INITIAL];
        let broken = Axiom::PreservedOrder { a: 0, b: 1, rules: vec![6] };
        assert_eq!(judge(&amo_passes(RELEASE_RCPC), &passed, &order), Some(broken));
        assert_eq!(judge(&amo_passes(0), &passed, &order), None);
        let broken = Axiom::PreservedOrder { a: 0, b: 1, rules: vec![7] };
        assert_eq!(judge(&amo_stores(RELEASE_RCSC), &[INITIAL; 4], &order), Some(broken));
        assert_eq!(judge(&amo_stores(0), &[INITIAL; 4], &order), None);
    }

    #[test]
    fn of_two_adds_to_a_counter_the_second_reads_what_the_first_wrote() {
        assert_eq!(judge(&counter(), &[INITIAL, 0], &[0, 1]), None);
        let broken = Axiom::ValueRead { reader: 0 };
        assert_eq!(judge(&counter(), &[1, INITIAL], &[1, 0]), Some(broken.clone()));
        assert_eq!(judge(&counter_lost(), &[1, INITIAL], &[1, 0]), Some(broken));
        let broken = Axiom::ValueRead { reader: 1 };
        assert_eq!(judge(&counter_lost(), &[INITIAL, 0], &[0, 1]), Some(broken));
        let broken = Axiom::LoadValue { reader: 1 };
        assert_eq!(judge(&counter_lost(), &[INITIAL, INITIAL], &[0, 1]), Some(broken));
    }

    #[test]
    fn rule_2_compares_writes_and_not_values() {
        let mut test = table(vec![load(0, X, 1), load(0, X, 1), store(1, X, 1)]);
        test.initial[X] = 1;
        let broken = Axiom::PreservedOrder { a: 0, b: 1, rules: vec![2] };
        assert_eq!(judge(&test, &[2, INITIAL, NON_READER], &[1, 2, 0]), Some(broken));
        assert_eq!(judge(&test, &[2, 2, NON_READER], &[2, 1, 0]), None);
    }

    #[test]
    fn a_store_of_the_lrs_own_hart_does_not_break_atomicity() {
        assert_eq!(judge(&c8(), &[INITIAL, NON_READER, NON_READER], &[0, 1, 2]), None);
    }

    #[test]
    fn rule_8_holds_beside_rule_1() {
        let pair = table(vec![lr(0, X, 0), sc(0, X, 1)]);
        let broken = Axiom::PreservedOrder { a: 0, b: 1, rules: vec![1, 8] };
        assert_eq!(judge(&pair, &[INITIAL, NON_READER], &[1, 0]), Some(broken));
    }

    #[test]
    fn candidates_are_refused_by_the_lowest_line() {
        let block = encode(&c4(1));
        let good = [NON_READER, 0];
        assert_eq!(verdict(&block, &good[..1], &[1, 1]), Err(refused(Line::ListLength)));
        assert_eq!(verdict(&block, &[0, 0], &[1, 1]), Err(refused(Line::OrderEvents)));
        assert_eq!(verdict(&block, &[0, 0], &[1, 0]), Err(refused(Line::ReturnedEntries)));
        assert_eq!(verdict(&block, &[NON_READER, 1], &[1, 0]), Err(refused(Line::ReturnedEntries)));
        assert_eq!(verdict(&block, &good, &[1, 0]), Ok(None));
    }

    #[test]
    fn the_rules_of_c5_are_2_and_3() {
        let block = encode(&c5());
        assert_eq!(pair_rules(&block, &[INITIAL, 0], 0, 1), Ok(vec![2, 3]));
        assert_eq!(pair_rules(&block, &[INITIAL, INITIAL], 0, 1), Ok(vec![]));
    }

    #[test]
    fn no_rules_but_of_two_memory_events_in_program_order() {
        let full = || fence(0, FULL);
        let test = table(vec![load(0, X, 0), full(), store(0, X, 1), full(), store(1, X, 2)]);
        let returned = [INITIAL, NON_READER, NON_READER, NON_READER, NON_READER];
        let rules = |a: u64, b: u64| pair_rules(&encode(&test), &returned, a, b);
        assert_eq!(rules(0, 2), Ok(vec![1, 4]));
        for (a, b) in [(2, 0), (0, 0), (0, 1), (0, 3), (1, 2), (0, 4), (2, 4)] {
            assert_eq!(rules(a, b), Ok(vec![]), "{a} {b}");
        }
        for past in [5, 16, 255, 256, 1 << 32, (1 << 32) + 2, u64::MAX] {
            assert_eq!(rules(0, past), Ok(vec![]));
            assert_eq!(rules(past, 2), Ok(vec![]));
        }
    }

    #[test]
    fn pairs_are_refused_as_candidates_are() {
        let block = encode(&c4(1));
        let rules = |returned: &[u8]| pair_rules(&block, returned, 0, 1);
        assert_eq!(pair_rules(&block[1..], &[], 0, 1), Err(refused(Line::Length)));
        assert_eq!(rules(&[NON_READER]), Err(refused(Line::ListLength)));
        assert_eq!(rules(&[0, 0, 0]), Err(refused(Line::ListLength)));
        assert_eq!(rules(&[0, 0]), Err(refused(Line::ReturnedEntries)));
        assert_eq!(rules(&[NON_READER, 0]), Ok(vec![]));
    }

    #[test]
    fn the_returned_list_is_written_and_bytes_past_it_stay() {
        let block = encode(&c4(1));
        let mut buffer = [9; 3];
        assert_eq!(write_returned(&block, &[1, 0], &mut buffer), Ok(()));
        assert_eq!(buffer, [NON_READER, 0, 9]);
    }

    #[test]
    fn a_refused_call_leaves_the_buffer_alone() {
        let block = encode(&c4(1));
        let mut buffer = [9];
        assert_eq!(write_returned(&block, &[1, 0], &mut buffer), Err(refused(Line::Buffer)));
        assert_eq!(write_returned(&block, &[1, 1], &mut buffer), Err(refused(Line::OrderEvents)));
        assert_eq!(write_returned(&block, &[1], &mut buffer), Err(refused(Line::ListLength)));
        assert_eq!(buffer, [9]);
    }
}
