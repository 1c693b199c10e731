//! What a clean prefix settles: the returns of its readers, and whether one of them reads a wrong
//! value whatever follows.

use crate::rules::{value_of, Write};
use crate::table::Table;

/// "In a clean prefix, a listed reader's return is settled: from its hart's latest earlier writer
/// to that location that isn't listed before the reader, if there is one; otherwise from the last
/// writer to it listed before the reader, or the initial write."
pub fn settled_return(table: &Table, prefix: &[usize], reader: usize) -> Write {
    let place = prefix.iter().position(|&event| event == reader).expect("the reader is listed");
    let listed_before = &prefix[..place];
    let location = table.events[reader].location;
    let writes_there =
        |writer: usize| table.events[writer].writes() && table.events[writer].location == location;
    let is_unlisted_own =
        |w: usize| table.in_program_order(w, reader) && !listed_before.contains(&w);
    let own = (0..reader).rev().find(|&w| writes_there(w) && is_unlisted_own(w));
    let listed = || listed_before.iter().rev().copied().find(|&w| writes_there(w));
    own.or_else(listed).map_or(Write::Initial, Write::Of)
}

/// "The prefix is spoiled if a settled value differs from the stated one."
pub fn is_spoiled(table: &Table, prefix: &[usize]) -> bool {
    prefix.iter().any(|&event| {
        table.events[event].reads()
            && value_of(table, settled_return(table, prefix, event), event)
                != table.events[event].read
    })
}

#[cfg(test)]
mod tests {
    use super::*;
    use crate::generate::orders::linear_extension;
    use crate::generate::prng::Prng;
    use crate::generate::random::any_table;
    use crate::litmus::*;
    use crate::rules::determined_returns;

    const TABLES: usize = 2000;

    /// The prefixes of a list, itself and the empty one among them.
    fn prefixes(list: &[usize]) -> impl Iterator<Item = &[usize]> {
        (0..=list.len()).map(|length| &list[..length])
    }

    #[test]
    fn in_every_order_that_extends_a_prefix_the_returns_are_the_settled_ones() {
        let mut prng = Prng::new(1);
        for _ in 0..TABLES {
            let table = any_table(&mut prng);
            let order = linear_extension(&mut prng, &table);
            let returns = determined_returns(&table, &order);
            for prefix in prefixes(&order) {
                for &reader in prefix.iter().filter(|&&event| table.events[event].reads()) {
                    assert_eq!(returns[reader], Some(settled_return(&table, prefix, reader)));
                }
            }
        }
    }

    #[test]
    fn an_own_store_that_is_not_listed_is_returned_from_before_a_listed_one_of_another_hart() {
        let test = table(vec![store(0, X, 1), store(0, X, 2), store(1, X, 3), load(0, X, 2)]);
        assert_eq!(settled_return(&test, &[2, 3], 3), Write::Of(1));
        assert_eq!(settled_return(&test, &[0, 2, 3], 3), Write::Of(1));
        assert_eq!(settled_return(&test, &[0, 1, 2, 3], 3), Write::Of(2));
        assert_eq!(settled_return(&test, &[0, 2, 1, 3], 3), Write::Of(1));
    }

    #[test]
    fn a_store_behind_the_reader_or_later_in_its_hart_is_not_returned_from() {
        let test = table(vec![load(0, X, 0), store(0, X, 1), store(1, X, 2)]);
        assert_eq!(settled_return(&test, &[0], 0), Write::Initial);
        assert_eq!(settled_return(&test, &[0, 1, 2], 0), Write::Initial);
        assert_eq!(settled_return(&test, &[2, 0, 1], 0), Write::Of(2));
    }

    #[test]
    fn an_amo_does_not_return_from_itself() {
        assert_eq!(settled_return(&counter(), &[0], 0), Write::Initial);
        assert_eq!(settled_return(&counter(), &[0, 1], 1), Write::Of(0));
    }

    #[test]
    fn once_spoiled_always_spoiled() {
        let mut prng = Prng::new(2);
        for _ in 0..TABLES {
            let table = any_table(&mut prng);
            let order = linear_extension(&mut prng, &table);
            assert!(prefixes(&order).is_sorted_by_key(|prefix| is_spoiled(&table, prefix)));
        }
    }
}
