//! The ways in which the readers of a table could get their values, and the writes of each location be ordered.

use crate::case::Case;
use crate::record::{reads, writes};
use cogthunder::{INITIALLY, NOTHING};

/// One way.
#[derive(Clone, PartialEq, Eq, Debug)]
pub struct Way {
    /// What each event returns from, as the library's returned list has it.
    pub returned: Vec<u8>,
    /// The writes of each location, first to last.
    pub orders: Vec<Vec<u8>>,
}

/// The ways of one table, as the choices that each is put together from.
pub struct Ways {
    /// For each event what it could return from.
    returned: Vec<Vec<u8>>,
    /// For each location its writes, in the table's order, and the value that the last has to have.
    writes: Vec<(Vec<u8>, Option<u16>)>,
    /// The value that each event writes.
    written: Vec<u16>,
}

impl Ways {
    /// The ways of a table that states its values.
    pub fn of(case: &Case) -> Ways {
        let table = &case.table;
        let writers: Vec<Vec<u8>> = (0..table.locations).map(|location| writers(case, location)).collect();
        let returned = (0..table.count).map(|event| sources(case, event, &writers)).collect();
        let stated = |location: usize| (table.stated >> location & 1 == 1).then(|| table.finals[location]);
        let writes = writers.into_iter().enumerate().map(|(location, writers)| (writers, stated(location))).collect();
        let written = table.events[..table.count.into()].iter().map(|event| event.written).collect();
        Ways { returned, writes, written }
    }

    /// How many there are; the largest number if there are more than that.
    pub fn count(&self) -> u128 {
        let returned = self.returned.iter().map(|sources| sources.len() as u128);
        let orders = self.writes.iter().map(|(writers, last)| {
            let lasts = writers.iter().filter(|&&writer| self.may_end(writer, *last)).count() as u128;
            let others = (1..writers.len() as u128).product::<u128>();
            if writers.is_empty() {
                1
            } else {
                lasts * others
            }
        });
        returned.chain(orders).fold(1, u128::saturating_mul)
    }

    /// All of them. They should be few.
    pub fn all(&self) -> Vec<Way> {
        let orders: Vec<Vec<Vec<u8>>> = self
            .writes
            .iter()
            .map(|(writers, last)| {
                let mut orders = permutations(writers);
                orders.retain(|order| order.last().is_none_or(|&writer| self.may_end(writer, *last)));
                orders
            })
            .collect();
        let orders = product(&orders);
        let pair = |returned: &Vec<u8>| {
            let returned = returned.clone();
            orders.iter().map(move |orders| Way { returned: returned.clone(), orders: orders.clone() })
        };
        product(&self.returned).iter().flat_map(pair).collect()
    }

    /// The lowest event whose value nothing gives.
    pub fn unsupplied(&self) -> Option<usize> {
        self.returned.iter().position(Vec::is_empty)
    }

    /// The lowest location that no write can leave at its stated value.
    pub fn unreached(&self) -> Option<usize> {
        self.writes.iter().position(|(writers, last)| {
            !writers.is_empty() && !writers.iter().any(|&writer| self.may_end(writer, *last))
        })
    }

    fn may_end(&self, writer: u8, last: Option<u16>) -> bool {
        last.is_none_or(|value| self.written[usize::from(writer)] == value)
    }
}

/// The events that write to a location.
pub fn writers(case: &Case, location: u8) -> Vec<u8> {
    let writes_there = |event: &u8| {
        let event = &case.table.events[usize::from(*event)];
        writes(event) && event.location == location
    };
    (0..case.table.count).filter(writes_there).collect()
}

/// What an event could return from, by its stated value.
fn sources(case: &Case, number: u8, writers: &[Vec<u8>]) -> Vec<u8> {
    let event = &case.table.events[usize::from(number)];
    if !reads(event) {
        return vec![NOTHING];
    }
    let location = usize::from(event.location);
    let gives = |&writer: &u8| writer != number && case.table.events[usize::from(writer)].written == event.read;
    let mut sources: Vec<u8> = writers[location].iter().copied().filter(gives).collect();
    if case.table.initial[location] == event.read {
        sources.push(INITIALLY);
    }
    sources
}

/// One of each, in all combinations.
fn product<T: Clone>(choices: &[Vec<T>]) -> Vec<Vec<T>> {
    choices.iter().fold(vec![Vec::new()], |all, choice| {
        let more = |begun: &Vec<T>| {
            let begun = begun.clone();
            choice.iter().map(move |one| [begun.as_slice(), std::slice::from_ref(one)].concat())
        };
        all.iter().flat_map(more).collect()
    })
}

fn permutations(items: &[u8]) -> Vec<Vec<u8>> {
    if items.is_empty() {
        return vec![Vec::new()];
    }
    let with_first = |k: usize| {
        let rest = [&items[..k], &items[k + 1..]].concat();
        permutations(&rest).into_iter().map(move |order| [vec![items[k]], order].concat())
    };
    (0..items.len()).flat_map(with_first).collect()
}

#[cfg(test)]
mod tests {
    use super::*;
    use cogthunder::Table;

    #[test]
    fn each_source_and_each_order_is_a_way() {
        let mut table = Table::new(2, 1);
        table.store(0, 0, 1);
        table.store(0, 0, 1);
        table.store(1, 0, 2);
        table.load(1, 0, 1);
        table.final_value(0, 1);
        let ways = Ways::of(&Case::of_table(table.clone()));
        let all = ways.all();
        // From event 0 or 1; the last write is 0 or 1, and the two before it have two orders.
        assert_eq!((ways.count(), all.len()), (8, 8));
        assert!(all.iter().all(|way| [0, 1].contains(way.orders[0].last().unwrap())));
        assert_eq!((ways.unsupplied(), ways.unreached()), (None, None));
        table.events[3].read = 7;
        table.final_value(0, 8);
        let ways = Ways::of(&Case::of_table(table));
        assert_eq!((ways.count(), ways.all(), ways.unsupplied(), ways.unreached()), (0, vec![], Some(3), Some(0)));
    }

    #[test]
    fn the_number_of_ways_may_be_large() {
        let mut table = Table::new(1, 1);
        (0..30).for_each(|value| {
            table.store(0, 0, value);
        });
        assert_eq!(Ways::of(&Case::of_table(table)).count(), (1..=30).product());
    }
}
