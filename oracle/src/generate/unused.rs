//! Line 21: tables and texts with locations that no memory event touches, and those next to them
//! that are good.

use super::cases::Case;
use super::random::state_untouched;
use super::text_cases::{text, FENCE, LOAD, STORE};
use super::texts::{text_of, text_with};
use crate::layout::{one, two, MAX_LOCATIONS};
use crate::litmus::*;
use crate::operation::Operation;
use crate::table::{Event, Table};
use crate::text::MAX_LEVELS;

/// A table with that many locations, whatever its events use.
fn with_locations(locations: usize, test: Table) -> Table {
    Table { locations, ..test }
}

/// Eight locations, of which one hart loads some.
fn loading(is_loaded: impl Fn(&usize) -> bool) -> Table {
    let loads = (0..MAX_LOCATIONS).filter(is_loaded).map(|location| load(0, location, 0));
    with_locations(MAX_LOCATIONS, table(loads.collect()))
}

/// Tables that line 21 refuses.
pub fn unused_cases() -> Vec<Case> {
    let mut cases = vec![
        ("unused-first", table(vec![load(0, Y, 0)])),
        ("unused-last", with_locations(2, c10())),
        ("unused-between", table(vec![store(0, X, 1), store(1, Z, 1)])),
        ("unused-every-other", loading(|location| location % 2 == 1)),
        ("unused-initially-7", Table { initial: [0, 7, 0, 0, 0, 0, 0, 0], ..c10_of_two() }),
        // The final value that is stated is another's.
        ("unused-beside-a-stated-one", with_locations(2, c7(1))),
        ("unused-by-sixteen-events", with_locations(2, loads(one::MAX_EVENTS))),
    ];
    let only_x = [c4(1), c5(), c6(), c7(2), c8(), counter()];
    cases.extend(only_x.map(|test| ("unused-y-of-the-paper", with_locations(2, test))));
    for location in 0..MAX_LOCATIONS {
        cases.push(("unused-one-of-eight", loading(|&other| other != location)));
        cases.push(("unused-seven-of-eight", loading(|&other| other == location)));
        // All that aren't touched are stated but for one.
        let mut but_one = loading(|&other| other == location);
        state_untouched(&mut but_one);
        but_one.stated &= !(1 << ((location + 1) % MAX_LOCATIONS));
        cases.push(("unused-one-not-stated", but_one));
    }
    [cases, fences_alone()].concat()
}

fn c10_of_two() -> Table {
    with_locations(2, c10())
}

fn loads(count: usize) -> Table {
    table(vec![load(0, X, 0); count])
}

/// Fences have 0 in their location byte, and touch no location.
fn fences_alone() -> Vec<Case> {
    vec![
        ("unused-but-for-a-fence", table(vec![fence(0, FULL), store(0, Y, 1)])),
        ("unused-but-for-an-empty-fence", table(vec![lr(0, Y, 0), fence(0, 0), sc(0, Y, 1)])),
        ("unused-but-for-a-fence-tso", table(vec![amo(0, Y, 0, 1), fence_tso(1)])),
    ]
}

/// Such tables with more events than edition 1 has room for.
pub fn unused_in_two() -> Vec<Case> {
    let last_is = |event: Event| {
        let used = (0..two::MAX_EVENTS - 1).map(|k| load(0, k % (MAX_LOCATIONS - 1), 0));
        with_locations(MAX_LOCATIONS, table(used.chain([event]).collect()))
    };
    vec![
        ("unused-by-seventeen-events", with_locations(2, loads(one::MAX_EVENTS + 1))),
        ("unused-by-thirty-events", with_locations(MAX_LOCATIONS, loads(two::MAX_EVENTS))),
        ("unused-by-the-last-event", last_is(load(0, X, 0))),
        ("unused-but-for-a-last-fence", last_is(fence(0, FULL))),
    ]
}

/// Tables with a location that one event touches, of each kind that does; an SC has its LR there.
fn touched_cases() -> Vec<Case> {
    let beside = |events: Vec<Event>| table([vec![load(0, X, 0)], events].concat());
    vec![
        ("touched-by-a-load", beside(vec![load(0, Y, 0)])),
        ("touched-by-a-store", beside(vec![store(1, Y, 1)])),
        ("touched-by-an-amo", beside(vec![amo(0, Y, 0, 1)])),
        ("touched-by-an-operation", beside(vec![amo_with(1, Y, 0, Operation::Or, 0)])),
        ("touched-by-an-lr", beside(vec![lr(0, Y, 0)])),
        ("touched-by-an-sc", beside(vec![lr(0, Y, 0), sc(0, Y, 1)])),
        ("touched-beside-a-fence", table(vec![fence(0, FULL), load(0, X, 0)])),
    ]
}

/// Good tables: the untouched locations are stated, or there are none.
pub fn used_cases() -> Vec<Case> {
    let stated = unused_cases().into_iter().map(|(_, mut test)| {
        state_untouched(&mut test);
        ("stated-though-unused", test)
    });
    stated.chain(touched_cases()).collect()
}

/// The same of edition 2: stated, and touched by the last of thirty events.
pub fn used_in_two() -> Vec<Case> {
    let stated = unused_in_two().into_iter().map(|(_, mut test)| {
        state_untouched(&mut test);
        ("stated-though-unused", test)
    });
    let mut last = loading(|&location| location < MAX_LOCATIONS - 1);
    last.events.resize(two::MAX_EVENTS - 1, load(0, X, 0));
    last.events.push(store(0, MAX_LOCATIONS - 1, 1));
    stated.chain([("touched-by-the-last-event", last)]).collect()
}

/// Small tests that state the end of a location that they don't touch: at its initial value, so that
/// an order can be a witness, and at another.
pub fn stated_ends() -> Vec<Case> {
    let initially_7 = |test: Table| Table { initial: [0, 7, 0, 0, 0, 0, 0, 0], ..test };
    let of_two = |test: Table| with_locations(2, test);
    vec![
        ("untouched-end", of_two(c4(1)).with_final(Y, 0)),
        ("untouched-end-other", of_two(c4(1)).with_final(Y, 1)),
        ("untouched-end-initially-7", initially_7(of_two(c5())).with_final(Y, 7)),
        ("untouched-end-initially-7-other", initially_7(of_two(c5())).with_final(Y, 0)),
        ("untouched-end-beside-another", of_two(c7(2)).with_final(Y, 0)),
    ]
}

/// Texts about line 21, refused by it and good ones.
pub fn unused_texts() -> Vec<String> {
    let families =
        [table_texts(), named_texts(), some_named(), from_initial_values(), with_fences()];
    [families.concat(), earlier_breaches()].concat()
}

/// The tables as texts that ask where a touched location ends; and where all the others do too.
fn table_texts() -> Vec<String> {
    let mut texts = Vec::new();
    for (_, test) in [unused_cases(), unused_in_two()].concat() {
        let is_touched = |location: &usize| !test.untouched().any(|other| other == *location);
        let touched = (0..test.locations).find(is_touched).expect("a memory event touches one");
        texts.push(text_with(&test, &format!("x{touched}=0")));
    }
    let good = [used_cases(), used_in_two(), stated_ends()].concat();
    texts.extend(good.iter().map(|(_, test)| text_of(test).to_string()));
    texts
}

/// Each of eight locations is the one that isn't touched: named by `x` somewhere, by a wrong value
/// too, and its number named by `r` alone.
fn named_texts() -> Vec<String> {
    let mut texts = Vec::new();
    for l in 0..MAX_LOCATIONS {
        let (test, event) = (loading(|&other| other != l), l.min(MAX_LOCATIONS - 2));
        for condition in [
            format!("x{l}=0"),
            format!("x{l}=65535"),
            format!("not x{l}=1"),
            format!("( r{event}=0 or x{l}=5 )"),
            format!("( ( r0=1 and not x{l}=1 ) or r{event}=0 )"),
            format!("{}x{l}=0", "not ".repeat(MAX_LEVELS)),
            format!("r{event}=0"),
            format!("( r{event}=0 and not x{}=1 )", (l + 1) % MAX_LOCATIONS),
        ] {
            texts.push(text_with(&test, &condition));
        }
    }
    texts
}

/// One of eight locations is touched, and the others are named but for one, or all of them.
fn some_named() -> Vec<String> {
    let asked = |left_out: Option<usize>| {
        let ends = (1..MAX_LOCATIONS).filter(|&location| Some(location) != left_out);
        let ends: Vec<String> = ends.map(|location| format!("x{location}=0")).collect();
        ends[1..].iter().fold(ends[0].clone(), |all, end| format!("( {all} and {end} )"))
    };
    let test = loading(|&location| location == X);
    let left_out = (1..MAX_LOCATIONS).map(Some).chain([None]);
    left_out.map(|left_out| text_with(&test, &asked(left_out))).collect()
}

/// Locations that only initial values give, or that only a higher one covers.
fn from_initial_values() -> Vec<String> {
    let load_z = "1 0 2 0 0 0 0 0 0 0 0";
    let texts = [
        (LOAD, "0", "r0=0"),
        (LOAD, "0 0", "r0=0"),
        (LOAD, "0 7", "r0=0"),
        (LOAD, "0 7", "x0=0"),
        (LOAD, "0 7", "x1=7"),
        (LOAD, "0 7", "not x1=7"),
        (LOAD, "0 7", "( r0=0 and x1=0 )"),
        (LOAD, "0 0 0", "x2=0"),
        (LOAD, "0 0 0", "( x2=0 or x1=0 )"),
        (LOAD, "0 0 0 0 0 0 0 0", "x7=0"),
        (load_z, "0", "r0=0"),
        (load_z, "0", "x0=0"),
        (load_z, "0", "x1=0"),
        (load_z, "0", "( x0=0 and x1=0 )"),
        (load_z, "0 0 0", "( x0=0 or x2=0 )"),
    ];
    texts.map(|(line, initial, condition)| text(&[line], initial, condition)).to_vec()
}

/// A fence's location byte is 0, and touches nothing.
fn with_fences() -> Vec<String> {
    let store_y = "2 0 1 0 0 0 0 0 1 0 0";
    let mut texts = Vec::new();
    for fence in [FENCE, "6 0 0 0 0 0 0 0 0 0 0", "7 0 0 0 0 0 0 0 0 0 0"] {
        for condition in ["x1=1", "x0=0", "( x1=1 and not x0=1 )"] {
            texts.push(text(&[fence, store_y], "0", condition));
        }
        texts.push(text(&[fence, LOAD], "0", "r1=0"));
    }
    texts
}

/// Location 1 isn't touched, but another line comes first: 19, 20, 5, 7 to 11 and 23.
fn earlier_breaches() -> Vec<String> {
    let ninth_level = "not ".repeat(MAX_LEVELS + 1) + "r0=0";
    let texts = [
        (LOAD, "0 0", "r0=00"),
        (LOAD, "0 0", &ninth_level),
        (LOAD, "0 0 0 0 0 0 0 0 0", "r0=0"),
        ("1 4 0 0 0 0 0 0 0 0 0", "0 0", "r0=0"),
        ("8 0 0 0 0 0 0 0 0 0 0", "0 0", "r0=0"),
        ("1 0 0 0 0 0 0 1 0 0 0", "0 0", "r0=0"),
        ("1 0 0 3 0 0 0 0 0 0 0", "0 0", "r0=0"),
        ("1 0 0 0 1 0 0 0 0 0 0", "0 0", "r0=0"),
        ("5 0 0 0 0 0 0 0 1 0 0", "0 0", "x0=0"),
        (FENCE, "0 0", "x0=0"),
        (STORE, "0 0", "r0=0"),
        (LOAD, "0 0", "r1=0"),
        (LOAD, "0 0", "x2=0"),
        (LOAD, "0 0", "( x1=0 and not x2=0 )"),
        (LOAD, "0 0", "( r0=0 or r255=0 )"),
    ];
    texts.map(|(line, initial, condition)| text(&[line], initial, condition)).to_vec()
}

#[cfg(test)]
mod tests {
    use super::*;
    use crate::encode::{encode_fitting, encode_in};
    use crate::layout::{Edition, BLOCK_LENGTH};
    use crate::raw::{write, RawTable};
    use crate::table::{read, Line, Refusal};
    use crate::text_test::{read_text, TextRefusal};

    const UNUSED: Refusal = Refusal { line: Line::UnusedLocation, record: None };

    fn editions(test: &Table) -> impl Iterator<Item = Edition> + '_ {
        let has_room = |edition: &Edition| test.events.len() <= edition.max_events();
        Edition::ALL.into_iter().filter(has_room)
    }

    #[test]
    fn unused_locations_are_refused_by_21_in_blocks_of_both_editions_and_in_the_writer() {
        for (name, test) in [unused_cases(), unused_in_two()].concat() {
            for edition in editions(&test) {
                assert_eq!(read(&encode_in(edition, &test)), Err(UNUSED), "{name}");
            }
        }
        for (name, test) in unused_cases() {
            let mut buffer = [0xEE; BLOCK_LENGTH];
            assert_eq!(write(&RawTable::from(&test), &mut buffer), Err(UNUSED), "{name}");
            assert_eq!(buffer, [0xEE; BLOCK_LENGTH]);
        }
    }

    #[test]
    fn stated_and_touched_ones_are_good() {
        for (name, test) in [used_cases(), used_in_two(), stated_ends()].concat() {
            for edition in editions(&test) {
                assert_eq!(read(&encode_in(edition, &test)).as_ref(), Ok(&test), "{name}");
            }
            let text = text_of(&test).to_string();
            let as_text = read_text(text.as_bytes()).expect("no line refuses").table;
            assert_eq!(as_text.locations, test.locations, "{name}");
        }
        for (name, test) in used_cases() {
            let mut block = [0; BLOCK_LENGTH];
            assert_eq!(write(&RawTable::from(&test), &mut block), Ok(()), "{name}");
            assert_eq!(block[..], encode_fitting(&test));
        }
    }

    /// The line that refuses a text, or 0.
    fn line(text: &str) -> u8 {
        read_text(text.as_bytes()).err().map_or(0, |refusal| refusal.line() as u8)
    }

    #[test]
    fn in_texts_a_location_named_by_x_counts_as_stated() {
        for texts in named_texts().chunks(8) {
            let lines: Vec<u8> = texts.iter().map(|text| line(text)).collect();
            assert_eq!(lines, [0, 0, 0, 0, 0, 0, 21, 21]);
        }
        let lines: Vec<u8> = some_named().iter().map(|text| line(text)).collect();
        assert_eq!(lines, [21, 21, 21, 21, 21, 21, 21, 0]);
        let lines: Vec<u8> = from_initial_values().iter().map(|text| line(text)).collect();
        assert_eq!(lines, [0, 21, 21, 21, 0, 0, 0, 21, 0, 21, 21, 21, 21, 0, 21]);
        for texts in with_fences().chunks(4) {
            let lines: Vec<u8> = texts.iter().map(|text| line(text)).collect();
            assert_eq!(lines, [21, 0, 0, 0]);
        }
    }

    #[test]
    fn in_texts_21_comes_after_23_and_all_before_it() {
        let lines: Vec<u8> = earlier_breaches().iter().map(|text| line(text)).collect();
        assert_eq!(lines, [19, 20, 5, 5, 7, 7, 8, 9, 10, 11, 23, 23, 23, 23, 23]);
    }

    #[test]
    fn a_text_names_no_record_and_no_place() {
        for (name, test) in unused_cases() {
            let touched = test.events.iter().find(|event| event.is_memory());
            let location = touched.expect("there is a memory event").location;
            let text = text_with(&test, &format!("x{location}=0"));
            let refused = read_text(text.as_bytes());
            assert_eq!(refused, Err(TextRefusal::Declined(UNUSED)), "{name}");
        }
    }
}
