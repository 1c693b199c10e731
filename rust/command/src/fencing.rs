//! Fences of tables: where one may be missing, and tables with more of them.

use crate::case::Case;
use crate::picture::{details, instruction, is_fence};
use crate::record::FENCE;
use cogthunder::{Event, Table};

/// The flags of a fence that orders all accesses.
pub const FULL: u8 = 15;

/// Whether an event is a fence that orders nothing.
pub fn is_clear_fence(event: &Event) -> bool {
    event.kind == FENCE && event.flags == 0
}

/// The neighbouring accesses of a hart that no full fence parts.
pub fn gaps(table: &Table) -> Vec<(u8, u8)> {
    let mut gaps = Vec::new();
    for hart in 0..table.harts {
        let own = (0..table.count).filter(|&number| table.events[usize::from(number)].hart == hart);
        let mut before = None;
        for number in own {
            let event = &table.events[usize::from(number)];
            if is_fence(event) {
                before = before.filter(|_| event.kind != FENCE || event.flags != FULL);
            } else {
                gaps.extend(before.map(|before| (before, number)));
                before = Some(number);
            }
        }
    }
    gaps.sort_unstable();
    gaps
}

/// A table with a fence directly behind each of some events, which ascend.
pub fn with_fences(table: &Table, behind: &[u8], flags: u8) -> Table {
    behind.iter().rev().fold(table.clone(), |table, &before| with_fence(&table, before, flags))
}

fn with_fence(table: &Table, before: u8, flags: u8) -> Table {
    let (place, count) = (usize::from(before) + 1, usize::from(table.count));
    let mut fenced = table.clone();
    fenced.count += 1;
    fenced.events.copy_within(place..count, place + 1);
    let mut fence = Event::default();
    (fence.kind, fence.hart, fence.flags) = (FENCE, table.events[usize::from(before)].hart, flags);
    fenced.events[place] = fence;
    let below = (1 << place) - 1;
    let moved = |mask: u32| mask & below | (mask & !below) << 1;
    for event in &mut fenced.events {
        (event.address, event.data, event.control) = (moved(event.address), moved(event.data), moved(event.control));
    }
    fenced
}

/// The place of a clear fence, in words: its hart, and the accesses next to it. `number` says how an event is called, and where
/// instructions are events without operands their values are said too.
pub fn place_words(case: &Case, fence: u8, number: &dyn Fn(u8) -> u8, with_values: bool) -> String {
    let event = |k: u8| &case.table.events[usize::from(k)];
    let hart = event(fence).hart;
    let is_own_access = |&k: &u8| event(k).hart == hart && !is_fence(event(k));
    let words = |k: u8| {
        let text = instruction(case, k.into());
        let values = if with_values { format!(" {}", details(case, event(k))[0]) } else { String::new() };
        format!("({}) {text}{values}", number(k))
    };
    let before = (0..fence).rev().find(is_own_access).map(words);
    let behind = (fence + 1..case.table.count).find(is_own_access).map(words);
    match (before, behind) {
        (Some(before), Some(behind)) => format!("P{hart} between {before} and {behind}"),
        (Some(before), None) => format!("P{hart} behind {before}"),
        (None, Some(behind)) => format!("P{hart} before {behind}"),
        (None, None) => format!("P{hart}, which accesses nothing"),
    }
}

#[cfg(test)]
mod tests {
    use super::*;
    use cogthunder::Accesses;

    /// Hart 0 stores and loads around a fence, hart 1 loads and stores what depends on that.
    fn table(before: Accesses) -> Table {
        let mut table = Table::new(2, 2);
        table.store(0, 0, 1);
        let flag = table.load(1, 1, 1);
        table.fence(0, before, Accesses::RW);
        let data = table.store(1, 0, 2);
        table.data_dependency(data, flag);
        table.load(0, 1, 0);
        table
    }

    #[test]
    fn gaps_are_between_neighbours_that_no_full_fence_parts() {
        assert_eq!(gaps(&table(Accesses::W)), [(0, 4), (1, 3)]);
        assert_eq!(gaps(&table(Accesses::RW)), [(1, 3)]);
    }

    #[test]
    fn a_fence_moves_the_events_behind_it_and_what_names_them() {
        let fenced = with_fences(&table(Accesses::W), &[0, 1], 0);
        let kinds: Vec<u8> = fenced.events[..7].iter().map(|event| event.kind).collect();
        assert_eq!(kinds, [2, 6, 1, 6, 6, 2, 1]);
        assert_eq!((fenced.count, fenced.events[5].data), (7, 0b100));
        let empty: Vec<usize> = (0..7).filter(|&k| is_clear_fence(&fenced.events[k])).collect();
        assert_eq!(empty, [1, 3]);
        assert!(fenced.test().is_ok());
    }
}
