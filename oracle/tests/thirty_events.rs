//! Edition 2, sentence by sentence of the request that asked for it.

use oracle::candidate::{verdict, NON_READER};
use oracle::encode::{encode, encode_in, seal};
use oracle::layout::*;
use oracle::litmus::*;
use oracle::operation::Operation;
use oracle::raw::{write, RawTable};
use oracle::search::{Answer, Engine};
use oracle::suite::{next_block, print_suite, test_at, tests};
use oracle::table::{read, Event, Kind, Line, Refusal, Table};

fn refused(line: Line) -> Result<Table, Refusal> {
    Err(Refusal { line, record: None })
}

fn refused_at(line: Line, record: usize) -> Result<Table, Refusal> {
    Err(Refusal { line, record: Some(record) })
}

fn encode_two(table: &Table) -> Vec<u8> {
    encode_in(Edition::Two, table)
}

/// Stores to x on one hart, each of another value: rule 1 leaves one order.
fn stores(count: usize) -> Table {
    table((0..count).map(|k| store(0, X, k as u16 + 1)).collect())
}

/// A good test of edition 2 with a byte changed and good checks.
fn with_byte(test: &Table, at: usize, value: u8) -> Vec<u8> {
    let mut bytes = encode_two(test);
    bytes[at] = value;
    seal(&mut bytes);
    bytes
}

/// What reading gives of the first bytes of a test, or of it with zeros behind it.
fn read_length(test: &[u8], length: usize) -> Result<Table, Refusal> {
    let mut bytes = test.to_vec();
    bytes.resize(length, 0);
    read(&bytes)
}

#[test]
fn edition_2_is_three_blocks_by_hand() {
    let mut bytes = [0; 1536];
    bytes[..9].copy_from_slice(&[0x52, 0x56, 0x54, 0x31, 2, 1, 1, 17, 1]);
    bytes[288] = 17;
    for k in 0..17 {
        let at = if k < 15 { 512 + 32 * k } else { 1024 + 32 * (k - 15) };
        bytes[at] = 2;
        bytes[at + 18] = k as u8 + 1;
    }
    for block in bytes.chunks_mut(512) {
        let sum: u32 = (0..508).map(|i| (i as u32 + 1) * u32::from(block[i])).sum();
        block[508..].copy_from_slice(&sum.to_le_bytes());
    }
    assert_eq!(read(&bytes), Ok(stores(17).with_final(X, 17)));
    assert_eq!(encode_two(&stores(17).with_final(X, 17)), bytes);
}

#[test]
fn a_record_has_its_fields_by_hand() {
    let (loads, amo) = (vec![load(0, X, 0); 29], amo(0, 1, 0x1234, 0x34));
    let last = Event { address: 1 << 28, data: 1 << 17, control: 1 << 9, ..amo };
    let last = last.flags(9).operation(Operation::And, 0xFF);
    let bytes = encode_two(&table([loads, vec![last.clone()]].concat()));
    let record = [
        [3, 0, 1, 9, 0, 0, 0, 0x10, 0, 0, 2, 0, 0, 2, 0, 0],
        [0x34, 0x12, 0x34, 0, 2, 0xFF, 0, 0, 0, 0, 0, 0, 0, 0, 0, 0],
    ];
    assert_eq!(bytes[1024 + 32 * 14..][..32], record.concat());
    assert_eq!(read(&bytes).map(|table| table.events[29].clone()), Ok(last));
}

#[test]
fn events_run_from_1_to_30_and_edition_1_keeps_16() {
    for count in 1..=30 {
        assert_eq!(read(&encode_two(&stores(count))), Ok(stores(count)));
    }
    for count in [0, 31, 32, 255] {
        assert_eq!(read(&with_byte(&stores(30), EVENTS_AT, count)), refused(Line::Ranges));
    }
    for count in 1..=30 {
        let mut block = encode(&stores(16));
        block[EVENTS_AT] = count;
        seal(&mut block);
        assert_eq!(read(&block) == refused(Line::Ranges), count > 16, "{count}");
    }
}

#[test]
fn the_writer_writes_edition_1_only() {
    for count in 1..=31 {
        let mut buffer = [0xEE; BLOCK_LENGTH];
        let written = write(&RawTable::from(&stores(count)), &mut buffer);
        if count <= 16 {
            assert_eq!((written, &buffer[..]), (Ok(()), &encode(&stores(count))[..]));
        } else {
            let refusal = Refusal { line: Line::Ranges, record: None };
            assert_eq!((written, buffer), (Err(refusal), [0xEE; BLOCK_LENGTH]));
        }
    }
    let mut buffer = [0xEE; LONGEST_TEST];
    let refusal = Refusal { line: Line::Length, record: None };
    assert_eq!(write(&RawTable::from(&stores(17)), &mut buffer), Err(refusal));
}

#[test]
fn both_editions_give_one_kind_of_table() {
    for (_, test) in [all(), releasing_amos(), counters()].concat() {
        assert_eq!(read(&encode_two(&test)), read(&encode(&test)));
        assert_eq!(read(&encode_two(&test)), Ok(test));
    }
}

#[test]
fn length_is_1536_in_edition_2_and_512_in_edition_1() {
    for length in [0, 1, 511, 512, 513, 1024, 1535, 1536, 1537, 2048] {
        let two = read_length(&encode_two(&stores(17)), length);
        assert_eq!(two.is_ok(), length == 1536);
        assert!(two.is_ok() || two == refused(Line::Length));
        let one = read_length(&encode(&c1()), length);
        assert_eq!(one.is_ok(), length == 512);
        assert!(one.is_ok() || one == refused(Line::Length));
    }
}

#[test]
fn refusal_4_is_for_editions_other_than_1_and_2() {
    for edition in 0..=255 {
        let mut short = encode(&c1());
        short[EDITION_AT] = edition;
        seal(&mut short);
        let mut long = with_byte(&stores(17), EDITION_AT, edition);
        assert_eq!(read(&short) == refused(Line::Edition), edition != 1 && edition != 2);
        assert_eq!(read(&long) == refused(Line::Edition), edition != 1 && edition != 2);
        long[CHECK_AT] ^= 1;
        assert_eq!(read(&long), refused(Line::Check));
    }
    assert_eq!(read(&with_byte(&stores(17), EDITION_AT, 1)), refused(Line::Length));
}

/// The lengths at which the first 512 bytes decide.
const LONG_LENGTHS: [usize; 6] = [512, 513, 1024, 1535, 1536, 1537];

#[test]
fn the_first_512_bytes_decide_by_2_3_and_4_whatever_the_length() {
    for good in [encode(&c1()), encode_two(&stores(17))] {
        let changed = |at: usize, value: u8, is_sealed: bool| {
            let mut test = good.clone();
            test[at] = value;
            if is_sealed {
                seal(&mut test);
            }
            test
        };
        let wrong_check = changed(CHECK_AT, good[CHECK_AT] ^ 1, false);
        let wrong_marker = changed(3, 0x32, true);
        let wrong_edition = changed(EDITION_AT, 3, true);
        for length in LONG_LENGTHS {
            assert_eq!(read_length(&wrong_check, length), refused(Line::Check));
            assert_eq!(read_length(&wrong_marker, length), refused(Line::Marker));
            assert_eq!(read_length(&wrong_edition, length), refused(Line::Edition));
        }
        for length in [0, 1, 508, 511] {
            assert_eq!(read_length(&wrong_check, length), refused(Line::Length));
        }
    }
}

#[test]
fn length_comes_before_the_later_blocks() {
    let mut test = encode_two(&stores(17));
    test[BLOCK_LENGTH + CHECK_AT] ^= 1;
    assert_eq!(read(&test), refused(Line::Check));
    assert_eq!(read(&test[..1535]), refused(Line::Length));
    assert_eq!(read(&test[..1024]), refused(Line::Length));
    assert_eq!(read_length(&test, 1537), refused(Line::Length));
}

#[test]
fn each_later_block_has_its_check() {
    for block in [1, 2] {
        for at in CHECK_AT..BLOCK_LENGTH {
            let mut test = encode_two(&stores(17));
            test[BLOCK_LENGTH * block + at] ^= 1;
            assert_eq!(read(&test), refused(Line::Check));
        }
        let mut test = encode_two(&stores(30));
        test[BLOCK_LENGTH * block] ^= 1;
        assert_eq!(read(&test), refused(Line::Check));
        // A later block's check comes before 5, and a header's marker before it.
        test[HARTS_AT] = 9;
        let header = test[..BLOCK_LENGTH].to_vec();
        seal(&mut test[..BLOCK_LENGTH]);
        assert_ne!(header, test[..BLOCK_LENGTH]);
        assert_eq!(read(&test), refused(Line::Check));
        test[0] = 0;
        seal(&mut test[..BLOCK_LENGTH]);
        assert_eq!(read(&test), refused(Line::Marker));
    }
}

#[test]
fn bytes_named_zero_are_zero() {
    // Two events, one location, no stated final value: all else is zero.
    let test = stores(2);
    let header = (10..16).chain(18..508);
    let second = (534..544).chain(566..1020);
    for at in header.chain(second).chain(1024..1532) {
        assert_eq!(read(&with_byte(&test, at, 1)), refused(Line::Zeros), "byte {at}");
    }
    // Of thirty events, the ten zeros of each record, and what follows the records.
    for record in 0..30 {
        for at in 22..32 {
            let bytes = with_byte(&stores(30), two::record_at(record) + at, 1);
            assert_eq!(read(&bytes), refused(Line::Zeros), "record {record}, byte {at}");
        }
    }
}

#[test]
fn limits_of_harts_and_locations_are_those_of_edition_1() {
    for (at, value) in
        [(HARTS_AT, 0), (HARTS_AT, 5), (LOCATIONS_AT, 0), (LOCATIONS_AT, 9), (STATED_AT, 2)]
    {
        assert_eq!(read(&with_byte(&stores(17), at, value)), refused(Line::Ranges));
    }
}

#[test]
fn a_line_names_a_record_of_a_later_block() {
    let with = |record: usize, change: fn(&mut Event)| {
        let mut table = table(vec![load(0, X, 0); 30]);
        change(&mut table.events[record]);
        read(&encode_two(&table))
    };
    for record in [0, 14, 15, 29] {
        assert_eq!(with(record, |e| e.flags = 16), refused_at(Line::Fields, record));
        assert_eq!(with(record, |e| e.flags = 4), refused_at(Line::Annotations, record));
        assert_eq!(with(record, |e| e.kind = Kind::Sc), refused_at(Line::Pairing, record));
    }
    let fences = table(vec![fence(0, FULL); 30]);
    assert_eq!(read(&encode_two(&fences)), refused(Line::NoMemoryEvent));
}

#[test]
fn mask_bits_30_and_31_are_9() {
    for mask in [two::field::ADDRESS, two::field::DATA, two::field::CONTROL] {
        for bit in 0..32 {
            let mut table = table(vec![load(0, X, 0); 30]);
            table.events[29] = store(0, X, 1);
            let at = two::record_at(29) + mask + bit / 8;
            let reading = read(&with_byte(&table, at, 1 << (bit % 8)));
            if bit < 29 {
                assert!(reading.is_ok());
            } else {
                assert_eq!(reading, refused_at(Line::Dependencies, 29));
            }
        }
    }
}

/// Two harts that store and load in turn, each access ordered by a fence: message passing with
/// seventeen events.
fn long_message(read: u16) -> Table {
    let mut events = Vec::new();
    for k in 1..=5 {
        events.extend([store(0, X, k), fence(0, FULL)]);
    }
    events.push(store(0, Y, 1));
    events.extend([load(1, Y, 1), fence(1, FULL), load(1, X, read)]);
    events.extend([fence(1, FULL), fence(1, FULL), fence(1, FULL)]);
    table(events)
}

#[test]
fn rules_verdict_and_search_are_those_of_any_table() {
    let test = long_message(5);
    assert_eq!(test.events.len(), 17);
    let order: Vec<usize> = test.memory_events();
    let bytes: Vec<u8> = order.iter().map(|&event| event as u8).collect();
    let mut returned = [NON_READER; 17];
    [returned[11], returned[13]] = [10, 8];
    assert_eq!(verdict(&encode_two(&test), &returned, &bytes), Ok(None));
    let mut buffer = [0; MOST_EVENTS];
    let found = Engine::First.search(&encode_two(&test), &[], &mut buffer, 1000);
    assert!(matches!(found, Ok(Answer::Found { order: first, .. }) if first == order));
    for read in 0..5 {
        let none = Engine::First.search(&encode_two(&long_message(read)), &[], &mut buffer, 1000);
        assert!(matches!(none, Ok(Answer::NoneLeft { .. })));
    }
}

#[test]
fn a_suite_walk_moves_three_blocks_after_a_good_edition_2_test_and_one_after_any_refusal() {
    let (one, two) = (encode(&c2()), encode_two(&stores(17)));
    let suite = [&one[..], &two, &one, &two, &two].concat();
    let firsts: Vec<usize> = tests(&suite).map(|(k, _)| k).collect();
    assert_eq!(firsts, [0, 1, 4, 5, 8]);
    // Refused by its last block's check: each of its blocks is then a test by itself.
    let mut broken = suite;
    broken[BLOCK_LENGTH * 4 - 1] ^= 1;
    let firsts: Vec<usize> = tests(&broken).map(|(k, _)| k).collect();
    assert_eq!(firsts, [0, 1, 2, 3, 4, 5, 8]);
    let lines = "block 0: forbidden, 18 visited\n\
                 block 1: refused 2\n\
                 block 2: refused 3\n\
                 block 3: refused 2\n\
                 block 4: forbidden, 18 visited\n";
    assert!(print_suite(&broken).starts_with(lines));
    assert!(print_suite(&broken).ends_with("\n7 blocks\n"));
}

#[test]
fn a_line_shows_its_tests_first_block_and_the_last_line_counts_tests_and_refusals() {
    let suite = [encode_two(&stores(17)), encode(&c2()), vec![0; 5]].concat();
    let order: Vec<String> = (0..17).map(|event| event.to_string()).collect();
    let lines = format!(
        "block 0: allowed, 17 visited, order {}\n\
         block 3: forbidden, 18 visited\n\
         block 4: refused 1\n\
         3 blocks\n",
        order.join(" ")
    );
    assert_eq!(print_suite(&suite), lines);
}

#[test]
fn blocks_are_still_asked_for_by_their_own_number() {
    let suite = [encode_two(&stores(17)), encode(&c2())].concat();
    for (k, length, next) in [(0, 1536, 3), (1, 512, 2), (2, 512, 3), (3, 512, 4), (4, 0, 4)] {
        assert_eq!((test_at(&suite, k).len(), next_block(&suite, k)), (length, next));
    }
    for k in [usize::MAX / BLOCK_LENGTH, usize::MAX / BLOCK_LENGTH + 1, usize::MAX] {
        assert_eq!((test_at(&suite, k).len(), next_block(&suite, k)), (0, k));
    }
}

#[test]
fn a_test_is_three_blocks_where_its_first_passes_2_and_3_and_has_edition_2() {
    let good = encode_two(&stores(17));
    let changed = |at: usize, value: u8, is_sealed: bool| {
        let mut suite = good.repeat(2);
        suite[at] = value;
        if is_sealed {
            seal(&mut suite);
        }
        (test_at(&suite, 0).len(), next_block(&suite, 0))
    };
    assert_eq!(changed(0, good[0], false), (1536, 3));
    assert_eq!(changed(CHECK_AT, good[CHECK_AT] ^ 1, false), (512, 1));
    assert_eq!(changed(0, 0, true), (512, 1));
    assert_eq!(changed(EDITION_AT, 1, true), (512, 1));
    assert_eq!(changed(EDITION_AT, 3, true), (512, 1));
    // Refused by what follows: it is of three blocks all the same.
    assert_eq!(changed(HARTS_AT, 0, true), (1536, 1));
    assert_eq!(changed(1024, 255, true), (1536, 1));
    assert_eq!(changed(1535, 1, false), (1536, 1));
}

#[test]
fn too_few_bytes_left_are_refused_by_1_and_the_walk_goes_on_with_the_next_block() {
    let test = encode_two(&stores(17));
    for cut in 1..LONGEST_TEST {
        let suite = [&encode(&c1())[..], &test[..cut]].concat();
        assert_eq!((test_at(&suite, 1).len(), next_block(&suite, 1)), (cut, 2), "{cut}");
        assert_eq!(read(test_at(&suite, 1)), refused(Line::Length));
        let firsts: Vec<usize> = tests(&suite).map(|(k, _)| k).collect();
        assert_eq!(firsts, (0..1 + cut.div_ceil(BLOCK_LENGTH)).collect::<Vec<_>>()[..]);
    }
}
