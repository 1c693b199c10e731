//! Searches of tests as text.

use oracle::encode::encode_fitting;
use oracle::generate::corner_texts::{corner_texts, CornerText};
use oracle::generate::orders::{bytes, lawful_order, state_outcome};
use oracle::generate::prng::Prng;
use oracle::generate::random::random_table;
use oracle::generate::texts::{text_of, text_with};
use oracle::layout::MOST_EVENTS;
use oracle::litmus::*;
use oracle::readings::spaced;
use oracle::search::{Answer, Engine};
use oracle::stream::PREFILL;
use oracle::table::{Event, Table};
use oracle::text_test::search_text;

const ALLOWANCE: u64 = 1_000_000;

/// The answer of a search, and the buffer that it leaves: what is written, and bytes past it stay.
fn answered(text: &[u8], start: &[u8], room: usize, allowance: u64) -> String {
    let mut buffer = vec![PREFILL; room];
    let answer = search_text(text, start, &mut buffer, allowance);
    let (line, written) = match answer {
        Err(refusal) => (refusal.to_string(), vec![]),
        Ok(Answer::NoneLeft { visited }) => (format!("none left, {visited} visited"), vec![]),
        Ok(Answer::Found { visited, order }) => {
            (format!("found, {visited} visited, order {}", spaced(&order)), order)
        }
        Ok(Answer::Spent { visited, prefix }) => {
            (format!("spent, {visited} visited, prefix {}", spaced(&prefix)), prefix)
        }
    };
    assert_eq!(buffer[..written.len()], bytes(&written));
    assert!(buffer[written.len()..].iter().all(|&byte| byte == PREFILL));
    line
}

#[test]
fn the_stored_corner_texts() {
    let stored = corner_texts();
    for CornerText { what, text, start, room, allowance, answer } in &stored {
        assert_eq!(answered(text, start, *room, *allowance), *answer, "{what}");
    }
    assert_eq!(stored.len(), 94);
}

/// A search's answers from the empty start until none are left.
fn walked<R: std::fmt::Debug>(mut search: impl FnMut(&[u8]) -> Result<Answer, R>) -> Vec<Answer> {
    let (mut answers, mut start) = (Vec::new(), Vec::new());
    loop {
        let answer = search(&start).expect("no line refuses");
        answers.push(answer.clone());
        match answer {
            Answer::Found { order: list, .. } | Answer::Spent { prefix: list, .. } => {
                start = bytes(&list);
            }
            Answer::NoneLeft { .. } => return answers,
        }
    }
}

/// A table's block and its text have the same answers, whatever the allowance. How many witnesses
/// these hand out.
fn assert_same_walks(name: &str, test: &Table, allowance: u64) -> usize {
    let (block, text) = (encode_fitting(test), text_of(test).to_string());
    let mut buffer = [0; MOST_EVENTS];
    let of_block = walked(|start| Engine::First.search(&block, start, &mut buffer, allowance));
    let of_text = walked(|start| search_text(text.as_bytes(), start, &mut buffer, allowance));
    assert_eq!(of_text, of_block, "{name}");
    of_text.iter().filter(|answer| matches!(answer, Answer::Found { .. })).count()
}

#[test]
fn the_papers_cases_as_texts_have_the_witnesses_of_their_blocks() {
    for (name, test) in [all(), releasing_amos(), counters()].concat() {
        assert_same_walks(name, &test, ALLOWANCE);
        assert_same_walks(name, &test, 3);
    }
    for (test, witnesses) in
        [(c1(), 6), (c2(), 0), (c4(1), 2), (c6(), 0), (c7(2), 1), (c9_control(), 1), (c10(), 1)]
    {
        assert_eq!(assert_same_walks("", &test, ALLOWANCE), witnesses);
    }
}

#[test]
fn a_text_that_asks_for_what_a_table_states_has_the_witnesses_of_its_block() {
    let mut prng = Prng::new(9);
    let mut found = 0;
    for number in 0..1500 {
        let (harts, locations) = (1 + prng.below(3), 1 + prng.below(3));
        let events = 1 + prng.below(6);
        let mut test = random_table(&mut prng, harts, locations, events);
        if !prng.one_in(3) {
            if let Some(order) = lawful_order(&mut prng, &test) {
                state_outcome(&mut test, &order);
            }
        }
        let allowance = if prng.one_in(2) { ALLOWANCE } else { 1 + prng.below(40) as u64 };
        found += usize::from(assert_same_walks(&number.to_string(), &test, allowance) > 0);
    }
    assert!(found > 700);
}

/// Whether some lawful order of these events makes a condition true.
fn is_found(events: Vec<Event>, condition: &str) -> bool {
    let text = text_with(&table(events), condition);
    answered(text.as_bytes(), &[], MOST_EVENTS, ALLOWANCE).starts_with("found")
}

#[test]
fn conditions_mean_what_they_say() {
    for possible in [
        "r2=1",
        "not r2=1",
        "( r2=1 and r3=0 )",
        "( r2=0 and not r3=0 )",
        "( x0=1 and x1=1 )",
        "( x0=5 or r3=1 )",
        "not ( x0=5 or x1=5 )",
    ] {
        assert!(is_found(c1().events, possible), "{possible}");
    }
    for impossible in
        ["r2=2", "not x0=1", "( r2=1 and r2=0 )", "( x0=5 or x1=5 )", "( r2=5 and x0=1 )"]
    {
        assert!(!is_found(c1().events, impossible), "{impossible}");
    }
}

/// What a level of a condition is, and what it makes of the truth of what is inside it.
type Level = (&'static str, &'static str, fn(bool) -> bool);

const LEVELS: [Level; 5] = [
    ("not ", "", |inner| !inner),
    ("( ", " or r0=1 )", |inner| inner),
    ("( r0=0 or ", " )", |_| true),
    ("( x0=0 and ", " )", |inner| inner),
    ("( ", " and x0=1 )", |_| false),
];

/// A load of 0 from x, so that `r0=0` and `x0=0` are true.
#[test]
fn conditions_of_up_to_eight_levels_mean_what_they_say() {
    let mut prng = Prng::new(10);
    for _ in 0..5000 {
        let mut truth = prng.one_in(2);
        let mut condition = if truth { "r0=0" } else { "x0=1" }.to_string();
        for _ in 0..prng.below(9) {
            let (open, close, meaning) = prng.pick(&LEVELS);
            condition = format!("{open}{condition}{close}");
            truth = meaning(truth);
        }
        assert_eq!(is_found(c10().events, &condition), truth, "{condition}");
    }
}

/// Eight increments of one hart are in one order, and each returns what the one before it wrote.
#[test]
fn chains_of_amos_write_what_follows() {
    let lines = "3 0 0 0 0 0 0 0 0 1 200\n".repeat(8);
    let text = |condition: &str| format!("{lines}\n65000\n{condition}\n");
    let last = "( r7=864 and x0=1064 )";
    let order = "found, 8 visited, order 0 1 2 3 4 5 6 7";
    assert_eq!(answered(text(last).as_bytes(), &[], 8, ALLOWANCE), order);
    assert_eq!(answered(text("r2=65400").as_bytes(), &[], 8, ALLOWANCE), order);
    assert_eq!(answered(text("r3=64").as_bytes(), &[], 8, ALLOWANCE), order);
    assert_eq!(answered(text("x0=65000").as_bytes(), &[], 8, ALLOWANCE), "none left, 8 visited");
}
