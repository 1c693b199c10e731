//! Calls for advice on the fences that random tables lack.

use crate::call::Entry;
use crate::cases::{any_allowance, any_shape, any_test, table_with_outcome, Calls, SOME_CALLS};
use crate::comparison::{Comparison, Difference};
use oracle::advice::MOST_EMPTY_FENCES;
use oracle::encode::encode_fitting;
use oracle::generate::advice_tables::{between_neighbours, fenced_tests, with_clear_fences};
use oracle::generate::prng::Prng;
use oracle::layout::MOST_EVENTS;
use oracle::search::{Answer, Engine, MAX_ALLOWANCE};
use oracle::table::Table;

/// With so few events the 256 searches of a table are short, whatever the allowance.
const FEW_EVENTS: usize = 5;
/// Prefixes visited of a table of any size.
const FEW_PREFIXES: usize = 60;

/// Advice on a small table, or on a well-known test, with clear fences between neighbours or anywhere.
pub fn advice(prng: &mut Prng, comparison: &mut Comparison) -> Result<(), Box<Difference>> {
    let events = 1 + prng.below(FEW_EVENTS);
    let bare = if prng.one_in(4) { prng.pick(&fenced_tests()).1.clone() } else { table_with_outcome(prng, events) };
    let fenced = if prng.one_in(2) { between_neighbours(&bare) } else { bare };
    let table = with_some_fences(prng, &fenced);
    let first = first_visited(&table);
    let mut calls = Calls { comparison, bytes: any_test(prng, &table) };
    for _ in 0..SOME_CALLS {
        let (any, about) = (any_allowance(prng, events, 200), first + prng.below(10) as u64);
        calls.call(Entry::Advise { allowance: *prng.pick(&[any, any, first, about]) })?;
    }
    Ok(())
}

/// How many prefixes the search of a table as it is visits: with this allowance one of a later set may be spent.
fn first_visited(table: &Table) -> u64 {
    match Engine::First.search(&encode_fitting(table), &[], &mut [0; MOST_EVENTS], MAX_ALLOWANCE) {
        Ok(Answer::Found { visited, .. } | Answer::NoneLeft { visited } | Answer::Spent { visited, .. }) => visited,
        Err(refusal) => panic!("the table is good, but {refusal}"),
    }
}

/// Advice on a table of any size, of which only the first prefixes are visited.
pub fn large_advice(prng: &mut Prng, comparison: &mut Comparison) -> Result<(), Box<Difference>> {
    let bare = any_shape(prng);
    let table = with_some_fences(prng, &bare);
    let mut calls = Calls { comparison, bytes: any_test(prng, &table) };
    for _ in 0..SOME_CALLS {
        let allowance = any_allowance(prng, MOST_EVENTS, FEW_PREFIXES);
        calls.call(Entry::Advise { allowance })?;
    }
    Ok(())
}

/// Mostly few, and now and then one more than is good, as far as there is room.
fn with_some_fences(prng: &mut Prng, table: &Table) -> Table {
    let room = MOST_EVENTS - table.events.len();
    let (few, any) = (prng.below(4), prng.below(MOST_EMPTY_FENCES + 2));
    let count = *prng.pick(&[few, few, any]);
    with_clear_fences(prng, table, count.min(room))
}

#[cfg(test)]
mod tests {
    use super::*;
    use oracle::advice::clear_fences;

    #[test]
    fn tables_have_any_number_of_clear_fences() {
        let mut prng = Prng::new(1);
        let counts: Vec<usize> = (0..500)
            .map(|_| {
                let bare = table_with_outcome(&mut prng, FEW_EVENTS);
                clear_fences(&with_some_fences(&mut prng, &bare)).len()
            })
            .collect();
        for count in 0..=MOST_EMPTY_FENCES + 1 {
            assert!(counts.iter().filter(|&&other| other == count).count() >= 5, "{count}");
        }
    }
}
