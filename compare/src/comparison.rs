//! Makes calls of both benches, and stops at the first difference.

use crate::call::{Bench, Call, Outcome};
use crate::shrink::shrink;
use crate::tally::Tally;
use std::fmt;

pub struct Comparison {
    reference: Box<dyn Bench>,
    library: Box<dyn Bench>,
    pub tally: Tally,
}

/// The smallest call found on which the two differ, and what each gives.
#[derive(Debug)]
pub struct Difference {
    pub call: Call,
    pub reference: Outcome,
    pub library: Outcome,
}

impl Comparison {
    pub fn new(reference: impl Bench + 'static, library: impl Bench + 'static) -> Comparison {
        Comparison { reference: Box::new(reference), library: Box::new(library), tally: Tally::default() }
    }

    /// What both give.
    pub fn call(&mut self, call: Call) -> Result<Outcome, Box<Difference>> {
        let reference = self.reference.outcome(&call);
        let library = self.library.outcome(&call);
        self.tally.count(&call, &reference);
        if reference == library {
            return Ok(reference);
        }
        let call = shrink(call, |call| self.reference.outcome(call) != self.library.outcome(call));
        let reference = self.reference.outcome(&call);
        let library = self.library.outcome(&call);
        Err(Box::new(Difference { call, reference, library }))
    }
}

impl fmt::Display for Difference {
    fn fmt(&self, f: &mut fmt::Formatter) -> fmt::Result {
        write!(f, "{}independent program: {}\nlibrary: {}", self.call, self.reference, self.library)
    }
}

#[cfg(test)]
mod tests {
    use super::*;
    use crate::call::{Entry, OfSuite, Reply, Walked};
    use crate::cases::round;
    use crate::lent::Room;
    use crate::library::Library;
    use crate::reference::Reference;
    use cogthunder::{Advice, Answer, Axiom, Decision, Listing, Rules, Taken, INITIALLY, NOTHING};
    use oracle::encode::{encode, seal};
    use oracle::generate::prng::Prng;
    use oracle::layout::{BLOCK_LENGTH, CHECK_AT, EVENTS_AT, LONGEST_TEST};
    use oracle::litmus;
    use oracle::search::Engine;
    use oracle::walks::Given;

    /// Calls enough to meet the faults below.
    const CALLS: u64 = 20_000;

    /// Of the calls: with it each fault is shown by a test as small as it can be.
    const SEED: u64 = 45;

    /// The independent program with a fault.
    struct Faulty(fn(&Call, &mut Outcome));

    impl Bench for Faulty {
        fn outcome(&mut self, call: &Call) -> Outcome {
            let mut outcome = Reference::default().outcome(call);
            self.0(call, &mut outcome);
            outcome
        }
    }

    /// The first difference that random calls meet.
    fn difference(fault: fn(&Call, &mut Outcome)) -> Difference {
        let mut comparison = Comparison::new(Reference::default(), Faulty(fault));
        let mut prng = Prng::new(SEED);
        loop {
            assert!(comparison.tally.calls < CALLS, "the fault is met");
            if let Err(difference) = round(&mut prng, &mut comparison) {
                return *difference;
            }
        }
    }

    #[test]
    fn a_forgotten_fence_is_shown_by_two_events_and_the_fence() {
        let found = difference(|_, outcome| {
            if let Reply::Broken(Axiom::PreservedOrder { rules, .. }) = outcome.reply {
                if rules == Rules::from_iter([4]) {
                    outcome.reply = Reply::Good;
                }
            }
        });
        assert_eq!(found.call.bytes[EVENTS_AT], 3);
        let rules = Rules::from_iter([4]);
        assert_eq!(found.reference.reply, Reply::Broken(Axiom::PreservedOrder { a: 0, b: 2, rules }));
    }

    #[test]
    fn a_rule_missing_from_the_set_of_a_pair_is_shown_by_two_events() {
        let found = difference(|_, outcome| {
            if let Reply::Rules(rules) = &mut outcome.reply {
                *rules = rules.iter().filter(|&rule| rule != 1).collect();
            }
        });
        assert_eq!(found.call.bytes[EVENTS_AT], 2);
        assert!(matches!(found.call.entry, Entry::Rules { a: 0, b: 1, .. }));
        assert!(matches!(found.reference.reply, Reply::Rules(rules) if rules.contains(1)));
    }

    #[test]
    fn a_wrong_count_is_shown_by_one_event() {
        let found = difference(|call, outcome| {
            if let (false, Reply::Searched(Answer::Spent { visited, .. })) =
                (call.entry.takes_text(), &mut outcome.reply)
            {
                *visited += 1;
            }
        });
        assert_eq!(found.call.bytes[EVENTS_AT], 1);
        assert_eq!(found.reference.reply, Reply::Searched(Answer::Spent { len: 0, visited: 0 }));
    }

    #[test]
    fn a_spoiled_prefix_that_is_extended_is_shown_by_two_events() {
        let found = difference(|call, outcome| {
            let pruned = Given::Block(Engine::Second);
            if let Entry::Search { given, start, out, allowance } = call.entry.clone() {
                if given != pruned {
                    return;
                }
                let entry = Entry::Search { given: Given::Block(Engine::First), start, out, allowance };
                *outcome = Reference::default().outcome(&Call { bytes: call.bytes.clone(), entry });
            }
        });
        assert_eq!(found.call.bytes[EVENTS_AT], 2);
    }

    #[test]
    fn a_witness_that_one_engine_misses_is_shown_by_one_event() {
        let found = difference(|_, outcome| {
            if let Reply::SameWitnesses { orders, visited } = outcome.reply.clone() {
                let [first, second] = visited.map(|visited| Walked { orders: orders.clone(), visited });
                let fewer = Walked { orders: orders.into_iter().skip(1).collect(), ..second };
                outcome.reply = Reply::from([first, fewer]);
            }
        });
        assert_eq!(found.call.bytes[EVENTS_AT], 1);
        assert!(matches!(found.library.reply, Reply::OtherWitnesses(_)));
    }

    #[test]
    fn a_load_that_returns_past_its_buffer_is_shown_by_a_store_and_the_load() {
        let found = difference(|call, outcome| {
            let is_drained = matches!(&call.entry, Entry::Step { steps, .. } if steps.iter().any(|&step| step >= 4));
            if let (false, Reply::Taken(taken)) = (is_drained, &mut outcome.reply) {
                if taken.entry != NOTHING {
                    taken.entry = INITIALLY;
                }
            }
        });
        assert_eq!(found.call.bytes[EVENTS_AT], 2);
        // The hart is the same, whichever it is.
        let Entry::Step { steps, step } = found.call.entry else { panic!("a step is asked for") };
        assert_eq!(steps, [step as u8]);
        assert_eq!(found.reference.reply, Reply::Taken(Taken { event: 1, entry: 0 }));
    }

    #[test]
    fn an_order_that_no_run_has_is_shown_by_one_event() {
        let found = difference(|_, outcome| {
            if let Reply::Ran(ran) = &mut outcome.reply {
                ran.orders.pop();
            }
        });
        assert_eq!((found.call.bytes[EVENTS_AT], found.call.entry), (1, Entry::Runs));
        assert!(matches!(found.reference.reply, Reply::Ran(ran) if ran.orders.len() == 1));
    }

    #[test]
    fn a_last_outcome_that_is_missed_is_shown_by_one_event() {
        let found = difference(|_, outcome| {
            if let Reply::AllOutcomes(outcomes) = &mut outcome.reply {
                outcomes.pop();
            }
        });
        assert_eq!(found.call.bytes[EVENTS_AT], 1);
        assert!(matches!(found.reference.reply, Reply::AllOutcomes(outcomes) if outcomes.len() == 1));
    }

    #[test]
    fn an_outcome_where_the_allowance_is_one_too_small_is_seen() {
        let found = difference(|call, outcome| {
            if let Entry::Outcomes { asked, previous, out, allowance } = call.entry.clone() {
                let entry = Entry::Outcomes { asked, previous, out, allowance: allowance.saturating_add(1) };
                *outcome = Reference::default().outcome(&Call { entry, ..call.clone() });
            }
        });
        assert_eq!(found.reference.reply, Reply::Listed(Listing::Spent));
        assert_ne!(found.library.reply, Reply::Listed(Listing::Spent));
    }

    #[test]
    fn advice_that_lacks_a_fence_is_shown_by_four_accesses_and_two_fences_at_most() {
        let found = difference(|_, outcome| {
            if let Reply::Advice(Advice::Advised(fences)) = &mut outcome.reply {
                fences.pop();
            }
        });
        assert!(matches!(&found.reference.reply, Reply::Advice(Advice::Advised(fences)) if !fences.is_empty()));
        assert!(found.call.bytes[EVENTS_AT] <= 6);
    }

    #[test]
    fn a_decision_that_misses_a_witness_is_shown_by_one_event() {
        let found = difference(|call, outcome| {
            if let (Entry::Decide { out, .. }, Reply::Decided(Decision::Found { .. })) = (&call.entry, &outcome.reply) {
                *outcome = Outcome { reply: Reply::Decided(Decision::NoneLeft), out: out.clone(), altered: Vec::new() };
            }
        });
        assert_eq!(found.call.bytes[EVENTS_AT], 1);
        assert_eq!(found.reference.reply, Reply::Decided(Decision::Found { len: 1 }));
    }

    #[test]
    fn a_decision_that_gives_a_witness_but_the_least_is_shown_by_two_events() {
        let found = difference(|call, outcome| {
            if let (Entry::Decide { out, .. }, Reply::Decided(Decision::Found { len })) = (&call.entry, &outcome.reply)
            {
                let entry = Entry::Decide { start: outcome.out[..*len].to_vec(), out: out.clone() };
                let next = Reference::default().outcome(&Call { entry, ..call.clone() });
                if next.reply == outcome.reply {
                    *outcome = next;
                }
            }
        });
        assert_eq!(found.call.bytes[EVENTS_AT], 2);
        assert_eq!(found.reference.out[..2], [0, 1]);
        assert_eq!(found.library.out[..2], [1, 0]);
    }

    #[test]
    fn a_last_witness_that_the_iterator_misses_is_shown_by_one_event() {
        let found = difference(|_, outcome| {
            if let Reply::Orders(orders) = &mut outcome.reply {
                orders.pop();
            }
        });
        assert_eq!(found.call.bytes[EVENTS_AT], 1);
        assert_eq!(found.reference.reply, Reply::Orders(vec![vec![0]]));
    }

    #[test]
    fn a_byte_written_past_the_answer_is_seen() {
        let found = difference(|call, outcome| {
            if let (Entry::Returns { .. }, Reply::Good, Some(last)) =
                (&call.entry, &outcome.reply, outcome.out.last_mut())
            {
                *last ^= 1;
            }
        });
        assert_eq!(found.call.bytes[EVENTS_AT], 1);
    }

    #[test]
    fn a_byte_written_wrong_is_shown_by_a_table_of_one_event() {
        let found = difference(|call, outcome| {
            if let (Entry::Write { .. }, Reply::Good) = (&call.entry, &outcome.reply) {
                outcome.out[CHECK_AT] ^= 1;
            }
        });
        let Entry::Write { table, .. } = found.call.entry else { panic!("the writer is called") };
        assert_eq!(table.count, 1);
        assert_eq!(found.reference.reply, Reply::Good);
    }

    #[test]
    fn a_walk_that_passes_over_a_block_is_shown_by_one_block() {
        let found = difference(|call, outcome| {
            if let (Entry::Suite(OfSuite::Test { .. }), Reply::Test { length: 1.., next }) =
                (&call.entry, &mut outcome.reply)
            {
                *next += 1;
            }
        });
        assert_eq!(found.call.entry, Entry::Suite(OfSuite::Test { k: 0 }));
        assert_eq!(found.reference.reply, Reply::Test { length: 1, next: 1 });
    }

    #[test]
    fn a_later_blocks_check_that_is_not_tested_is_seen() {
        let found = difference(|call, outcome| {
            let mut bytes = call.bytes.clone();
            if call.entry == Entry::Read && bytes.len() == LONGEST_TEST {
                seal(&mut bytes[BLOCK_LENGTH..]);
                *outcome = Reference::default().outcome(&Call { bytes, entry: Entry::Read });
            }
        });
        assert_eq!(found.reference.reply, Reply::Refused { number: 2, record: None, place: None });
        assert_ne!(found.library.reply, found.reference.reply);
    }

    #[test]
    fn a_place_that_is_one_byte_late_is_shown_by_the_empty_text() {
        let found = difference(|_, outcome| {
            if let Reply::Refused { place: Some(place), .. } = &mut outcome.reply {
                *place += 1;
            }
        });
        assert!(found.call.bytes.is_empty());
        assert_eq!(found.reference.reply, Reply::Refused { number: 19, record: None, place: Some(0) });
    }

    #[test]
    fn a_ninth_level_refused_by_19_is_shown_by_nine_levels() {
        let found = difference(|_, outcome| {
            if let Reply::Refused { number: number @ 20, .. } = &mut outcome.reply {
                *number = 19;
            }
        });
        assert!(matches!(found.reference.reply, Reply::Refused { number: 20, place: Some(_), .. }));
        // A blank line, one initial value, and levels; nothing of the ninth one but its first byte.
        assert!(found.call.bytes.starts_with(b"\n") && found.call.bytes.len() <= 3 + 8 * "( r0=0 and ".len() + 1);
    }

    #[test]
    fn a_witness_of_a_text_that_is_missed_is_shown_by_few_events() {
        let found = difference(|call, outcome| {
            if let (true, Reply::Searched(Answer::Found { visited, .. })) =
                (call.entry.takes_text(), outcome.reply.clone())
            {
                outcome.reply = Reply::Searched(Answer::NoneLeft { visited });
            }
        });
        assert!(matches!(found.reference.reply, Reply::Searched(Answer::Found { len: 1..=4, .. })));
    }

    #[test]
    fn an_altered_argument_is_a_difference() {
        let found = difference(|call, outcome| {
            if call.entry == Entry::Suite(OfSuite::Blocks) {
                outcome.altered.push("the suite");
            }
        });
        assert!(found.call.bytes.is_empty());
    }

    #[test]
    fn the_library_agrees_between_guard_bytes_and_between_guard_pages() {
        for room in [Room::with_guard_bytes, Room::with_guard_pages] {
            let mut comparison = Comparison::new(Reference::default(), Library::new(room));
            let mut prng = Prng::new(SEED);
            while comparison.tally.calls < CALLS {
                round(&mut prng, &mut comparison).expect("no difference");
            }
        }
    }

    #[test]
    fn the_samples_of_the_package_are_the_papers_c1_c2_and_c5() {
        assert_eq!(encode(&litmus::c1()), include_bytes!("../../samples/C1.block"));
        assert_eq!(encode(&litmus::c2()), include_bytes!("../../samples/C2.block"));
        assert_eq!(encode(&litmus::c5()), include_bytes!("../../samples/C5.block"));
    }
}
