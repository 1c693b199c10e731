//! When a test is at least as strong as another, and tests made stronger at random.

use oracle::generate::prng::Prng;
use oracle::table::*;

/// "two good tables that differ only in that the second sets further fence bits, dependency bits or annotations, or turns RCpc
/// into RCsc"
pub fn is_stronger(first: &Table, second: &Table) -> bool {
    let mut events = first.events.iter().zip(&second.events);
    let rest = |table: &Table| Table { events: table.events.iter().map(bare).collect(), ..table.clone() };
    rest(first) == rest(second) && events.all(|(first, second)| is_stronger_event(first, second))
}

/// An event without its flags and dependencies.
pub fn bare(event: &Event) -> Event {
    Event { flags: 0, address: 0, data: 0, control: 0, ..event.clone() }
}

fn is_stronger_event(first: &Event, second: &Event) -> bool {
    let flags = if first.is_fence() {
        first.flags & !second.flags == 0
    } else {
        acquire(first.flags) <= acquire(second.flags) && release(first.flags) <= release(second.flags)
    };
    let masks = [(first.address, second.address), (first.data, second.data), (first.control, second.control)];
    flags && masks.iter().all(|(first, second)| first & !second == 0)
}

/// Weakest first.
#[derive(Clone, Copy, PartialEq, Eq, PartialOrd, Ord, Debug)]
enum Strength {
    None,
    Rcpc,
    Rcsc,
}

fn acquire(flags: u8) -> Strength {
    strength(flags, ACQUIRE_RCPC, ACQUIRE_RCSC)
}

fn release(flags: u8) -> Strength {
    strength(flags, RELEASE_RCPC, RELEASE_RCSC)
}

fn strength(flags: u8, rcpc: u8, rcsc: u8) -> Strength {
    match (flags & rcpc != 0, flags & rcsc != 0) {
        (_, true) => Strength::Rcsc,
        (true, false) => Strength::Rcpc,
        (false, false) => Strength::None,
    }
}

/// A table made stronger at random, in a few places or in many; now and then in model 1 in the place of model 0.
pub fn strengthened(prng: &mut Prng, table: &Table) -> Table {
    let mut table = table.clone();
    let sparsity = *prng.pick(&[1, 3, 8]);
    for e in 0..table.events.len() {
        if prng.one_in(sparsity) {
            strengthen_flags(prng, &mut table, e);
        }
        if prng.one_in(sparsity) {
            strengthen_masks(prng, &mut table, e);
        }
    }
    if prng.one_in(4) {
        table.model = Model::Rvtso;
    }
    table
}

/// Any flags that lines 7 and 8 let pass and that aren't weaker.
fn strengthen_flags(prng: &mut Prng, table: &mut Table, e: usize) {
    let before = table.events[e].clone();
    if before.kind == Kind::FenceTso {
        return;
    }
    loop {
        table.events[e].flags = prng.below(usize::from(ALL_FLAGS) + 1) as u8;
        if is_stronger_event(&before, &table.events[e]) && !annotations_broken(table, e) {
            return;
        }
    }
}

/// Further bits of one of the masks, as line 9 wants them: a control dependency is one of each later memory event of the hart.
fn strengthen_masks(prng: &mut Prng, table: &mut Table, e: usize) {
    if table.events[e].is_fence() {
        return;
    }
    let sources = (0..e).filter(|&source| may_be_depended_on(table, source, e));
    let further = sources.filter(|_| prng.one_in(2)).fold(0, |mask, source| mask | 1 << source);
    match prng.below(3) {
        0 => table.events[e].address |= further,
        1 if table.events[e].writes() => table.events[e].data |= further,
        _ => {
            let hart = table.events[e].hart;
            for later in table.events[e..].iter_mut().filter(|event| event.hart == hart && event.is_memory()) {
                later.control |= further;
            }
        }
    }
}

#[cfg(test)]
mod tests {
    use super::*;
    use crate::cases::{any_shape, any_test};
    use oracle::litmus::{amo, c1, fence, fence_tso, load, store, table, X, Y};

    /// Tables enough to meet what is asked for.
    const TABLES: usize = 2000;

    fn pairs(seed: u64) -> Vec<(Table, Table)> {
        let mut prng = Prng::new(seed);
        let pair = |_| {
            let first = any_shape(&mut prng);
            let second = strengthened(&mut prng, &first);
            (first, second)
        };
        (0..TABLES).map(pair).collect()
    }

    #[test]
    fn strengthened_tables_are_good_and_stronger() {
        let mut prng = Prng::new(1);
        for (first, second) in pairs(1) {
            assert_eq!(read(&any_test(&mut prng, &second)), Ok(second.clone()));
            assert!(is_stronger(&first, &second.clone().in_model(first.model)));
        }
    }

    #[test]
    fn each_kind_of_strength_is_met() {
        let changes: Vec<(Event, Event)> =
            pairs(2).into_iter().flat_map(|(first, second)| first.events.into_iter().zip(second.events)).collect();
        let is_met = |is: fn(&Event, &Event) -> bool| changes.iter().any(|(first, second)| is(first, second));
        assert!(is_met(|first, second| first.is_fence() && first.flags != second.flags));
        assert!(is_met(|first, second| first.address != second.address));
        assert!(is_met(|first, second| first.data != second.data));
        assert!(is_met(|first, second| first.control != second.control));
        for of in [acquire, release] {
            for (from, to) in
                [(Strength::None, Strength::Rcpc), (Strength::None, Strength::Rcsc), (Strength::Rcpc, Strength::Rcsc)]
            {
                let turns = |(first, second): &(Event, Event)| {
                    first.is_memory() && (of(first.flags), of(second.flags)) == (from, to)
                };
                assert!(changes.iter().any(turns), "{from:?} {to:?}");
            }
        }
    }

    #[test]
    fn both_models_and_the_change_between_them_are_met() {
        let models: Vec<[Model; 2]> = pairs(3).iter().map(|(first, second)| [first.model, second.model]).collect();
        for met in [[Model::Rvwmo; 2], [Model::Rvtso; 2], [Model::Rvwmo, Model::Rvtso]] {
            assert!(models.iter().filter(|&&models| models == met).count() > TABLES / 10, "{met:?}");
        }
    }

    #[test]
    fn what_is_taken_away_or_changed_is_not_stronger() {
        let alone = |event: Event| table(vec![event]);
        let stronger = |first: Event, second: Event| is_stronger(&alone(first), &alone(second));
        assert!(stronger(fence(0, PR), fence(0, PR | SW)));
        assert!(!stronger(fence(0, PR), fence(0, PW)));
        assert!(!stronger(fence(0, 0), fence_tso(0)));
        let swap = |flags| amo(0, X, 0, 1).flags(flags);
        assert!(stronger(swap(ACQUIRE_RCPC), swap(ACQUIRE_RCSC | RELEASE_RCPC)));
        assert!(!stronger(swap(ACQUIRE_RCSC), swap(ACQUIRE_RCPC)));
        assert!(!stronger(swap(ACQUIRE_RCPC), swap(RELEASE_RCSC)));
        let depending = |event: Event| table(vec![load(0, X, 0), event]);
        let free = depending(store(0, Y, 1));
        let bound = depending(store(0, Y, 1).data_from(0));
        assert!(is_stronger(&free, &bound) && !is_stronger(&bound, &free));
        assert!(!is_stronger(&bound, &depending(store(0, Y, 1).address_from(0))));
        assert!(!is_stronger(&c1(), &c1().in_model(Model::Rvtso)));
    }
}
