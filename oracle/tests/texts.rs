//! Reading tests as text, sentence by sentence of the request that asked for them.

use oracle::condition::Condition;
use oracle::encode::encode_raw;
use oracle::generate::prng::Prng;
use oracle::generate::text_cases::{open_numbers, text};
use oracle::layout::{Edition, MAX_LOCATIONS};
use oracle::litmus::table;
use oracle::operation::Operation;
use oracle::raw::{RawTable, SLOTS};
use oracle::record::RawEvent;
use oracle::table::{read, Kind, Line, Refusal};
use oracle::text::{read_document, Breach, Document};
use oracle::text_test::{read_text, TextRefusal};

fn illegal(line: Line, place: usize) -> TextRefusal {
    TextRefusal::Illegal(Breach { line, place })
}

fn declined(line: Line, record: Option<usize>) -> TextRefusal {
    TextRefusal::Declined(Refusal { line, record })
}

/// The refusal of a text of some lines, initial values and a condition.
fn refusal(lines: &[&str], initial: &str, condition: &str) -> Option<TextRefusal> {
    read_text(text(lines, initial, condition).as_bytes()).err()
}

#[test]
fn numbers_have_no_leading_zero_and_fit_their_field() {
    for (before, behind, most) in open_numbers() {
        let breach =
            |number: &str| read_document(format!("{before}{number}{behind}").as_bytes()).err();
        let at = |digit: usize| Some(Breach { line: Line::Grammar, place: before.len() + digit });
        for fitting in [0, 1, 9, 10, 99, 100, most - 1, most] {
            assert_eq!(breach(&fitting.to_string()), None);
        }
        let digits = most.to_string().len();
        for too_large in [most + 1, most + 4, most / 10 * 10 + 10] {
            assert_eq!(breach(&too_large.to_string()), at(digits - 1), "{too_large}");
        }
        assert_eq!(breach(&(10 * most).to_string()), at(digits));
        assert_eq!(breach(&"9".repeat(40)), at(digits - 1));
        for leading in ["00", "01", "000", "0255"] {
            assert_eq!(breach(leading), at(1));
        }
        for no_number in ["", " 0", "-1", "+1", "x"] {
            assert_eq!(breach(no_number), at(0), "{no_number}");
        }
    }
}

const LOAD: &str = "1 0 0 0 0 0 0 0 0 0 0";
const STORE: &str = "2 0 0 0 0 0 0 0 1 0 0";

/// A condition that names the first locations by `x`.
fn ends(locations: usize) -> String {
    (1..locations).fold("x0=0".to_string(), |all, l| format!("( {all} or x{l}=0 )"))
}

#[test]
fn harts_and_locations_are_the_least_that_cover_fields_and_initial_values() {
    let assert_numbers = |lines: &str, initial: &str, (harts, locations): (usize, usize)| {
        let text = format!("{lines}\n\n{initial}\n{}\n", ends(locations));
        let table = read_text(text.as_bytes()).expect("no line refuses").table;
        assert_eq!((table.harts, table.locations), (harts, locations));
    };
    assert_numbers(LOAD, "0", (1, 1));
    assert_numbers(LOAD, "0 0 5", (1, 3));
    assert_numbers("1 3 2 0 0 0 0 0 0 0 0", "4", (4, 3));
    assert_numbers(&format!("{LOAD}\n6 2 0 15 0 0 0 0 0 0 0"), "0", (3, 1));
    assert_numbers("1 0 7 0 0 0 0 0 0 0 0", "0 0 0 0 0 0 0 9", (1, 8));
}

#[test]
fn initial_values_that_are_not_given_are_0() {
    let text = format!("1 0 3 0 0 0 0 0 0 0 0\n\n7 65535\n{}\n", ends(3));
    let table = read_text(text.as_bytes()).expect("no line refuses").table;
    assert_eq!(table.initial, [7, 65535, 0, 0, 0, 0, 0, 0]);
    assert_eq!((table.stated, table.finals), (0, [0; MAX_LOCATIONS]));
}

#[test]
fn too_many_or_no_events_or_initial_values_are_5() {
    let five = Some(declined(Line::Ranges, None));
    assert_eq!(refusal(&[], "0", "x0=0"), five);
    assert_eq!(refusal(&[STORE; 30], "0", "x0=0"), None);
    assert_eq!(refusal(&[STORE; 31], "0", "x0=0"), five);
    assert_eq!(refusal(&[STORE; 80], "0", "x0=0"), five);
    assert_eq!(refusal(&[STORE], "0 0 0 0 0 0 0 0", &ends(8)), None);
    assert_eq!(refusal(&[STORE], "0 0 0 0 0 0 0 0 0", "x0=0"), five);
    assert_eq!(refusal(&[STORE], &["0"; 300].join(" "), "x0=0"), five);
}

#[test]
fn no_value_read_and_no_written_value_of_an_operation_is_stated() {
    let seven = Some(declined(Line::Fields, Some(1)));
    for kind in 1..=7 {
        let line = format!("{kind} 0 0 0 0 0 0 1 0 0 0");
        assert_eq!(refusal(&["4 0 0 0 0 0 0 0 0 0 0", &line], "0", "r0=0"), seven);
    }
    for operation in 1..=6 {
        let amo = |written: u16| format!("3 0 0 0 0 0 0 0 {written} {operation} 5");
        assert_eq!(refusal(&[LOAD, &amo(0)], "0", "r0=0"), None);
        for written in [1, 5, 65535] {
            assert_eq!(refusal(&[LOAD, &amo(written)], "0", "r0=0"), seven);
        }
    }
    assert_eq!(refusal(&[LOAD, "3 0 0 0 0 0 0 0 65535 0 0"], "0", "r0=0"), None);
    assert_eq!(refusal(&[LOAD, "3 0 0 0 0 0 0 0 0 7 0"], "0", "r0=0"), seven);
    assert_eq!(refusal(&[LOAD, "3 0 0 0 0 0 0 0 0 0 1"], "0", "r0=0"), seven);
    assert_eq!(refusal(&[LOAD, "2 0 0 0 0 0 0 0 0 1 0"], "0", "r0=0"), seven);
}

#[test]
fn names_of_a_condition_come_after_the_table() {
    let twenty_three = Some(declined(Line::Names, None));
    let lines = [STORE, LOAD, "6 0 0 15 0 0 0 0 0 0 0", "3 0 1 0 0 0 0 0 2 0 0"];
    for good in ["r1=0", "r3=0", "x0=5", "x1=5", "( r1=0 or not x1=1 )"] {
        assert_eq!(refusal(&lines, "0", good), None);
    }
    for wrong in ["r0=0", "r2=0", "r4=0", "r30=0", "r255=0", "x2=0", "x7=0", "x8=0", "x255=0"] {
        assert_eq!(refusal(&lines, "0", wrong), twenty_three);
        for around in [format!("not {wrong}"), format!("( r1=0 or not ( x1=0 and {wrong} ) )")] {
            assert_eq!(refusal(&lines, "0", &around), twenty_three);
        }
        let breach = refusal(&[STORE, "5 0 0 0 0 0 0 0 1 0 0"], "0", wrong);
        assert_eq!(breach, Some(declined(Line::Pairing, Some(1))));
    }
}

#[test]
fn over_2048_bytes_is_1_whatever_they_are() {
    let legal = |values: usize| format!("{LOAD}\n\n{}\nr0=0\n", ["0"; 2000][..values].join(" "));
    let fitting = |length: usize| {
        let text = legal((length - legal(1).len()) / 2 + 1);
        if text.len() < length {
            text.replacen("\n\n0", "\n\n10", 1)
        } else {
            text
        }
    };
    assert_eq!((fitting(2048).len(), fitting(2049).len()), (2048, 2049));
    assert_eq!(read_text(fitting(2048).as_bytes()), Err(declined(Line::Ranges, None)));
    assert_eq!(read_text(fitting(2049).as_bytes()), Err(declined(Line::Length, None)));
    for byte in [b'0', b'\n', 0, 255] {
        assert_eq!(read_text(&[byte; 2049]), Err(declined(Line::Length, None)));
        assert!(matches!(read_text(&[byte; 2048]), Err(TextRefusal::Illegal(_))));
    }
    assert_eq!(read_text(b""), Err(illegal(Line::Grammar, 0)));
}

/// A number below `good`, or now and then below `all`.
fn mostly(prng: &mut Prng, good: usize, all: usize) -> u8 {
    let bound = if prng.one_in(40) { all } else { good };
    prng.below(bound) as u8
}

/// That number once in three times, and else 0.
fn seldom(prng: &mut Prng, good: usize, all: usize) -> u8 {
    let number = mostly(prng, good, all);
    if prng.one_in(3) {
        number
    } else {
        0
    }
}

/// The fields of an event that states no values, mostly good ones.
fn random_fields(prng: &mut Prng, count: usize) -> RawEvent {
    let mut mask = || if prng.one_in(8) { 1 << prng.below(count + 1) } else { 0 };
    let (address, data, control) = (mask(), mask(), mask());
    let kind = 1 + mostly(prng, 7, 9);
    let is_amo = kind == Kind::Amo as u8;
    let operation = if is_amo { seldom(prng, 7, 9) } else { mostly(prng, 1, 3) };
    let writes = matches!(Kind::from_number(kind), Some(Kind::Store | Kind::Sc));
    RawEvent {
        kind,
        hart: mostly(prng, 2, 5),
        location: if kind < Kind::Fence as u8 { seldom(prng, 3, 9) } else { mostly(prng, 1, 3) },
        flags: seldom(prng, 16, 20),
        written: u16::from(writes && operation == 0),
        operation,
        operand: if operation > 0 { prng.below(3) as u8 } else { mostly(prng, 1, 3) },
        ..RawEvent { address, data, control, ..RawEvent::default() }
    }
}

/// The record of such an event in a block, where an AMO with an operation states what it makes of 0.
fn record_of(line: &RawEvent) -> RawEvent {
    let operation = Operation::from_number(line.operation);
    let applied = operation.and_then(|operation| operation.applied(0, line.operand));
    RawEvent { written: applied.unwrap_or(line.written), ..*line }
}

/// A text of random fields, and the block of edition 2 that has them. The condition names one location,
/// and the block states where it ends.
fn random_pair(prng: &mut Prng) -> (String, Vec<u8>) {
    let count = if prng.one_in(20) { prng.below(SLOTS) } else { 1 + prng.below(4) };
    let lines: Vec<RawEvent> = (0..count).map(|_| random_fields(prng, count)).collect();
    let initial: Vec<u16> = (0..1 + prng.below(3)).map(|_| prng.below(9) as u16).collect();
    let locations = lines.iter().map(|line| line.location + 1).max().unwrap_or(0);
    let mut block = RawTable {
        harts: lines.iter().map(|line| line.hart + 1).max().unwrap_or(0),
        locations: locations.max(initial.len() as u8),
        count: count as u8,
        stated: 1,
        ..RawTable::from(&table(Vec::new()))
    };
    block.initial[..initial.len()].copy_from_slice(&initial);
    for (record, line) in block.events.iter_mut().zip(&lines) {
        *record = record_of(line);
    }
    let condition = Condition::Ends { location: 0, value: 0 };
    let text = Document { events: lines, initial, condition }.to_string();
    (text, encode_raw(Edition::Two, &block))
}

#[test]
fn lines_5_to_11_and_21_are_those_of_a_block_of_edition_2() {
    let mut prng = Prng::new(8);
    let mut seen = [0; 22];
    for _ in 0..40_000 {
        let (text, block) = random_pair(&mut prng);
        let of_block = read(&block).err();
        let of_text = read_text(text.as_bytes()).err();
        assert_eq!(of_text, of_block.map(TextRefusal::Declined), "{text}");
        seen[of_block.map_or(0, |refusal| refusal.line as usize)] += 1;
    }
    assert!([0, 5, 7, 8, 9, 10, 11, 21].iter().all(|&line| seen[line] > 100), "{seen:?}");
}
