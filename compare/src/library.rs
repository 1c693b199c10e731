//! The proved library's outcome of a call, through its Rust package.

use crate::call::{Answered, Bench, Call, Entry, OfSuite, Outcome, Reply, Walked};
use crate::decisions;
use crate::lent::Room;
use crate::outcomes;
use crate::reference::same_fields;
use crate::runs;
use cogthunder::{advise, decide, read_text, returns, rules, verdict, write};
use cogthunder::{Answer, Refusal, Table, Tests, Verdict, Witnesses};
use oracle::search::Engine;
use oracle::walks::Given;
use std::ops::Range;

extern "C" {
    // The table has the layout of C, though other packages may not count on its fields.
    #[allow(improper_ctypes)]
    fn ct_table_of_text(text: *const u8, text_len: usize) -> Table;
}

fn table_of_text(text: &[u8]) -> Table {
    // The pointer is that of a slice, beside its length.
    unsafe { ct_table_of_text(text.as_ptr(), text.len()) }
}

/// Each slice is lent from a room of its own.
pub struct Library {
    bytes: Room,
    first: Room,
    second: Room,
}

impl Library {
    pub fn new(room: fn() -> Room) -> Library {
        Library { bytes: room(), first: room(), second: room() }
    }

    fn answer(&mut self, call: &Call) -> Answered {
        let Library { bytes, first, second } = self;
        let bytes = bytes.lend(&call.bytes);
        Ok(match &call.entry {
            Entry::Read => Table::of_test(bytes)?.into(),
            Entry::ReadText => read_text(bytes)?.into(),
            Entry::TableOfText => table_of_text(bytes).into(),
            Entry::Write { table, out } => write(&same_fields(table), second.lend(out)).map(|()| Reply::Good)?,
            Entry::Verdict { returned, order } => match verdict(bytes, first.lend(returned), second.lend(order))? {
                Verdict::Allowed => Reply::Good,
                Verdict::Broken(axiom) => Reply::Broken(axiom),
            },
            Entry::Rules { returned, a, b } => Reply::Rules(rules(bytes, first.lend(returned), *a, *b)?),
            Entry::Returns { order, out } => {
                returns(bytes, first.lend(order), second.lend(out)).map(|()| Reply::Good)?
            }
            Entry::Search { given, start, out, allowance } => {
                Reply::Searched(search_of(*given)(bytes, first.lend(start), second.lend(out), *allowance)?)
            }
            Entry::Suite(asked) => suite_answer(bytes, asked)?,
            Entry::Witnesses { given, start, allowance, steps } => {
                Reply::Witnesses(walk(*given, bytes, first.lend(start), *allowance, *steps)?)
            }
            Entry::BothEngines { allowance } => both_walks(bytes, *allowance)?.into(),
            Entry::Step { steps, step } => Reply::Taken(cogthunder::step(bytes, first.lend(steps), *step)?),
            Entry::Runs => Reply::Ran(runs::library(bytes)?),
            Entry::Outcomes { asked, previous, out, allowance } => {
                let (previous, out) = (first.lend_values(previous), second.lend_values(out));
                Reply::Listed(outcomes::entry_of(*asked)(bytes, previous, out, *allowance)?)
            }
            Entry::AllOutcomes { asked, previous, allowance, resumed_after } => {
                Reply::AllOutcomes(outcomes::library(bytes, *asked, previous, *allowance, *resumed_after)?)
            }
            Entry::Advise { allowance } => Reply::Advice(advise(bytes, *allowance)?),
            Entry::Decide { start, out } => Reply::Decided(decide(bytes, first.lend(start), second.lend(out))?),
            Entry::AllDecided { start, steps } => Reply::Orders(decisions::library(bytes, first.lend(start), *steps)?),
        })
    }

    fn altered(&mut self, call: &Call) -> Vec<&'static str> {
        let (first, second) = call.entry.inputs();
        let rooms = [
            ("the test, the text or the suite", &mut self.bytes, Some((&call.bytes).into())),
            ("the list after it", &mut self.first, first),
            ("the second list or the buffer", &mut self.second, second),
        ];
        let mut altered = Vec::new();
        for (name, room, input) in rooms {
            if room.is_trespassed() || input.is_some_and(|before| before != room.now()) {
                altered.push(name);
            }
        }
        altered
    }
}

impl Bench for Library {
    fn outcome(&mut self, call: &Call) -> Outcome {
        let reply = self.answer(call).unwrap_or_else(|refusal| refusal);
        let altered = self.altered(call);
        let out = call.entry.out().map_or_else(Vec::new, |_| self.second.now().to_vec());
        Outcome { reply, out, altered }
    }
}

fn suite_answer(suite: &[u8], asked: &OfSuite) -> Answered {
    Ok(match *asked {
        OfSuite::Blocks => Reply::Blocks(cogthunder::blocks(suite)),
        OfSuite::Part { k } => Reply::Part(place_in(suite, cogthunder::part(suite, k)?)),
        OfSuite::Test { k } => {
            Reply::Test { length: cogthunder::test_length(suite, k), next: cogthunder::next_test(suite, k) }
        }
        OfSuite::Tests => Reply::Tests(Tests::of(suite).map(|(k, test)| (k, place_in(suite, test))).collect()),
    })
}

/// Where a part of the bytes stands in them.
pub fn place_in(bytes: &[u8], part: &[u8]) -> Range<usize> {
    let from = part.as_ptr() as usize - bytes.as_ptr() as usize;
    from..from + part.len()
}

/// Of a test or a text, with a start, a buffer and an allowance.
type Search = fn(&[u8], &[u8], &mut [u8], u64) -> Result<Answer, Refusal>;

fn search_of(given: Given) -> Search {
    match given {
        Given::Block(Engine::First) => cogthunder::search,
        Given::Block(Engine::Second) => cogthunder::search_pruned,
        Given::Text => cogthunder::search_text,
    }
}

fn resume<'a>(given: Given, test: &'a [u8], start: &[u8]) -> Result<Witnesses<'a>, Refusal> {
    match given {
        Given::Block(Engine::First) => Witnesses::resume(test, start),
        Given::Block(Engine::Second) => Witnesses::resume_pruned(test, start),
        Given::Text => Witnesses::resume_text(test, start),
    }
}

/// Walks by the iterator: after some search calls it is thrown away, and another one resumed where it stood.
fn walk(given: Given, test: &[u8], start: &[u8], allowance: u64, steps: usize) -> Result<Walked, Refusal> {
    let mut orders = Vec::new();
    let mut walk = resume(given, test, start)?.allowance(allowance);
    for _ in 0..steps {
        match walk.step() {
            Answer::Found { .. } => orders.push(walk.start().to_vec()),
            Answer::Spent { .. } => {}
            Answer::NoneLeft { .. } => return Ok(Walked { orders, visited: walk.visited() }),
        }
    }
    let mut rest = resume(given, test, walk.start())?.allowance(allowance);
    orders.extend(&mut rest);
    Ok(Walked { orders, visited: walk.visited() + rest.visited() })
}

fn both_walks(test: &[u8], allowance: u64) -> Result<[Walked; 2], Refusal> {
    let to_the_end = |mut walk: Witnesses| Walked { orders: walk.by_ref().collect(), visited: walk.visited() };
    let [first, second] = [Witnesses::of(test)?, Witnesses::pruned(test)?];
    Ok([first, second].map(|walk| to_the_end(walk.allowance(allowance))))
}
