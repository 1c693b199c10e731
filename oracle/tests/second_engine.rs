//! The second engine, sentence by sentence of the request that asked for it.

use oracle::encode::encode;
use oracle::generate::orders::{bytes, lawful_order, state_outcome};
use oracle::generate::prng::Prng;
use oracle::generate::random::random_table;
use oracle::layout::MOST_EVENTS;
use oracle::litmus::*;
use oracle::rules::{is_witness, steady_rules};
use oracle::search::{Answer, Engine, MAX_ALLOWANCE};
use oracle::settled::is_spoiled;
use oracle::table::{Line, Refusal, Table};
use oracle::walks::Walk;

const TABLES: usize = 1500;
/// With so few events all lists of different ones can be gone through.
const FEW_EVENTS: usize = 5;

fn search(test: &Table, start: &[usize], allowance: u64) -> Result<Answer, Refusal> {
    Engine::Second.search(&encode(test), &bytes(start), &mut [0; MOST_EVENTS], allowance)
}

/// All witnesses that a walk to its end hands out, and how many prefixes it visits.
fn walked(engine: Engine, test: &Table, allowance: u64) -> (Vec<Vec<usize>>, u64) {
    let (block, mut walk) = (encode(test), Walk::by(engine));
    let (mut witnesses, mut total) = (Vec::new(), 0);
    loop {
        match walk.call(&block, &mut [0; MOST_EVENTS], allowance).expect("no line refuses") {
            Answer::Found { visited, order } => {
                witnesses.push(order);
                total += visited;
            }
            Answer::Spent { visited, .. } => total += visited,
            Answer::NoneLeft { visited } => return (witnesses, total + visited),
        }
    }
}

/// A small table, mostly with a witness.
fn small_table(prng: &mut Prng) -> Table {
    let (harts, locations) = (1 + prng.below(3), 1 + prng.below(2));
    let events = 1 + prng.below(FEW_EVENTS);
    let mut test = random_table(prng, harts, locations, events);
    if !prng.one_in(3) {
        if let Some(order) = lawful_order(prng, &test) {
            state_outcome(&mut test, &order);
        }
    }
    test
}

/// All nonempty lists of different events.
fn lists_of(events: &[usize]) -> Vec<Vec<usize>> {
    let mut lists = Vec::new();
    for &first in events {
        let others: Vec<usize> = events.iter().copied().filter(|&event| event != first).collect();
        let longer = lists_of(&others).into_iter().map(|rest| [vec![first], rest].concat());
        lists.extend([vec![first]].into_iter().chain(longer));
    }
    lists
}

/// "It is clean if no listed event has a steady predecessor missing or standing after it."
fn is_clean(test: &Table, prefix: &[usize]) -> bool {
    prefix.iter().enumerate().all(|(place, &b)| {
        let mut predecessors =
            test.memory_events().into_iter().filter(|&a| !steady_rules(test, a, b).is_empty());
        predecessors.all(|a| prefix[..place].contains(&a))
    })
}

/// "only those clean prefixes none of whose proper prefixes is spoiled"
fn is_listed(test: &Table, prefix: &[usize]) -> bool {
    is_clean(test, prefix) && (0..prefix.len()).all(|length| !is_spoiled(test, &prefix[..length]))
}

/// "With allowance B: found, with the first witness, if one is among the first B; none left, if
/// the list has at most B entries and no witness; otherwise spent." Here over the second list.
fn defined_answer(test: &Table, list: &[Vec<usize>], start: &[usize], allowance: u64) -> Answer {
    let greater: Vec<&Vec<usize>> = list.iter().filter(|prefix| &prefix[..] > start).collect();
    let first = &greater[..greater.len().min(allowance as usize)];
    let is_whole = |prefix: &[usize]| prefix.len() == test.memory_events().len();
    let witness = first.iter().position(|prefix| is_whole(prefix) && is_witness(test, prefix));
    let visited = first.len() as u64;
    match witness {
        Some(place) => Answer::Found { visited: place as u64 + 1, order: first[place].clone() },
        None if first.len() == greater.len() => Answer::NoneLeft { visited },
        None => {
            let prefix = first.last().map_or(start.to_vec(), |last| last.to_vec());
            Answer::Spent { visited, prefix }
        }
    }
}

#[test]
fn each_answer_is_that_of_the_list_as_the_request_defines_it() {
    let mut prng = Prng::new(1);
    for _ in 0..TABLES {
        let test = small_table(&mut prng);
        let mut list = lists_of(&test.memory_events());
        list.retain(|prefix| is_listed(&test, prefix));
        list.sort();
        let length = list.len() as u64;
        let some = prng.pick(&list).clone();
        for start in [&[], &some[..]] {
            for allowance in [0, 1, length / 2, length - 1, length, length + 1, MAX_ALLOWANCE] {
                let stated = defined_answer(&test, &list, start, allowance);
                assert_eq!(search(&test, start, allowance), Ok(stated));
            }
        }
    }
}

#[test]
fn a_start_is_refused_by_15_exactly_if_it_is_not_in_the_list() {
    let mut prng = Prng::new(2);
    let (mut spoiled, mut extended) = (0, 0);
    for _ in 0..TABLES {
        let test = small_table(&mut prng);
        for start in lists_of(&test.memory_events()) {
            let answer = search(&test, &start, 0);
            let is_refused = answer == Err(Refusal { line: Line::Start, record: None });
            assert_eq!(is_refused, !is_listed(&test, &start));
            spoiled += u32::from(!is_refused && is_spoiled(&test, &start));
            extended += u32::from(is_refused && is_clean(&test, &start));
        }
    }
    assert!(spoiled > 1000 && extended > 1000);
}

#[test]
fn both_engines_hand_out_the_same_witnesses_in_the_same_order() {
    let mut prng = Prng::new(3);
    let mut with_witnesses = 0;
    for _ in 0..TABLES {
        let test = small_table(&mut prng);
        let (witnesses, visited) = walked(Engine::First, &test, MAX_ALLOWANCE);
        for allowance in [MAX_ALLOWANCE, 1 + prng.below(10) as u64] {
            let (others, fewer) = walked(Engine::Second, &test, allowance);
            assert_eq!(others, witnesses);
            assert!(fewer <= visited);
        }
        with_witnesses += u32::from(!witnesses.is_empty());
    }
    assert!(with_witnesses > 500);
}

#[test]
fn the_papers_cases_have_short_lists() {
    let length = |test: &Table| walked(Engine::Second, test, MAX_ALLOWANCE).1;
    assert_eq!(length(&c1()), 34);
    assert_eq!(length(&c2()), 6);
    assert_eq!(length(&c3()), 48);
    assert_eq!(length(&c4(1)), 4);
    assert_eq!(length(&c4(0)), 3);
    assert_eq!(length(&c6()), 9);
    let found = |visited: u64| Ok(Answer::Found { visited, order: vec![1, 2, 3, 0] });
    assert_eq!(search(&c1(), &[], MAX_ALLOWANCE), found(17));
    assert_eq!(search(&c3(), &[], MAX_ALLOWANCE), found(19));
}

/// In C4 reading 0 the load returns from its hart's store in any case: 1 is spoiled, and so is 01.
#[test]
fn a_spoiled_prefix_is_visited_and_may_be_a_start_but_is_not_extended() {
    let test = c4(0);
    assert_eq!(search(&test, &[], 2), Ok(Answer::Spent { visited: 2, prefix: vec![0, 1] }));
    assert_eq!(search(&test, &[], 3), Ok(Answer::NoneLeft { visited: 3 }));
    assert_eq!(search(&test, &[0, 1], 9), Ok(Answer::NoneLeft { visited: 1 }));
    assert_eq!(search(&test, &[1], 0), Ok(Answer::NoneLeft { visited: 0 }));
    let refused = Err(Refusal { line: Line::Start, record: None });
    assert_eq!(search(&test, &[1, 0], 0), refused);
    assert!(Engine::First.search(&encode(&test), &[1, 0], &mut [0; 2], 0).is_ok());
}

#[test]
fn the_lowest_line_refuses_a_search_and_nothing_is_written() {
    let refusal = |start: &[u8], length: usize, allowance: u64| {
        let mut buffer = [7; 4];
        let answer =
            Engine::Second.search(&encode(&c4(0)), start, &mut buffer[..length], allowance);
        assert_eq!(buffer, [7; 4]);
        answer.expect_err("a line refuses").line
    };
    let too_much = MAX_ALLOWANCE + 1;
    assert_eq!(refusal(&[1, 0], 1, too_much), Line::Start);
    assert_eq!(refusal(&[1], 1, too_much), Line::Buffer);
    assert_eq!(refusal(&[1], 2, too_much), Line::Allowance);
}
