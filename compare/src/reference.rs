//! The independent program's outcome of a call.

use crate::call::{Answered, Bench, Call, Entry, OfSuite, Outcome, Reply, Walked};
use crate::decisions;
use crate::library::place_in;
use crate::outcomes;
use crate::runs;
use cogthunder::{Advice, Answer, Axiom, Event, Rules, Table, Taken};
use oracle::decision::Decider;
use oracle::generate::orders::bytes;
use oracle::outcome::{Arguments, Lister};
use oracle::raw::RawTable;
use oracle::record::RawEvent;
use oracle::search::{Engine, MAX_ALLOWANCE};
use oracle::text_test::{read_text, TextRefusal};
use oracle::walks::Given;

/// "Block number not in the suite".
const NOT_IN_SUITE: u8 = 18;

/// It keeps the outcomes of the test that it listed last, and the witnesses of the one that it decided last.
#[derive(Default)]
pub struct Reference {
    lister: Lister,
    decider: Decider,
}

impl Bench for Reference {
    fn outcome(&mut self, call: &Call) -> Outcome {
        let mut out = call.entry.out().unwrap_or_default().into_owned();
        let reply = answer(self, call, &mut out).unwrap_or_else(|refusal| refusal);
        Outcome { reply, out, altered: Vec::new() }
    }
}

fn answer(reference: &mut Reference, call: &Call, buffer: &mut [u8]) -> Answered {
    let bytes = &call.bytes;
    let Reference { lister, decider } = reference;
    Ok(match &call.entry {
        Entry::Read => same_table(&oracle::table::read(bytes)?).into(),
        Entry::ReadText => same_table(&read_text(bytes)?.table).into(),
        Entry::TableOfText => read_text(bytes).map_or(Table::default(), |test| same_table(&test.table)).into(),
        Entry::Write { table, .. } => oracle::raw::write(table, buffer).map(|()| Reply::Good)?,
        Entry::Verdict { returned, order } => {
            let broken = oracle::candidate::verdict(bytes, returned, order)?;
            broken.map_or(Reply::Good, |axiom| Reply::Broken(same_axiom(axiom)))
        }
        Entry::Rules { returned, a, b } => {
            Reply::Rules(same_rules(&oracle::candidate::pair_rules(bytes, returned, *a, *b)?))
        }
        Entry::Returns { order, .. } => {
            oracle::candidate::write_returned(bytes, order, buffer).map(|()| Reply::Good)?
        }
        Entry::Search { given, start, allowance, .. } => {
            Reply::Searched(same_answer(&given.search(bytes, start, buffer, *allowance)?))
        }
        Entry::Suite(asked) => suite_reply(bytes, asked),
        Entry::Witnesses { given, start, .. } => Reply::Witnesses(walk(*given, bytes, start)?),
        Entry::BothEngines { .. } => both_walks(bytes)?.into(),
        Entry::Step { steps, step } => {
            let taken = oracle::machine::step(bytes, steps, *step)?;
            Reply::Taken(Taken { event: taken.event as u8, entry: taken.entry() })
        }
        Entry::Runs => Reply::Ran(runs::reference(bytes)?),
        Entry::Outcomes { asked, previous, out, allowance } => {
            let arguments = Arguments { asked: *asked, previous, places: out.len(), allowance: *allowance };
            Reply::Listed(outcomes::listed(lister, bytes, arguments, buffer)?)
        }
        Entry::AllOutcomes { previous, allowance, .. } => outcomes::reference(bytes, previous, *allowance)?,
        Entry::Advise { allowance } => Reply::Advice(same_advice(&oracle::advice::advise(bytes, *allowance)?)),
        Entry::Decide { start, .. } => Reply::Decided(decisions::decided(decider, bytes, start, buffer)?),
        Entry::AllDecided { start, .. } => Reply::Orders(decisions::reference(bytes, start)?),
    })
}

fn suite_reply(suite: &[u8], asked: &OfSuite) -> Reply {
    use oracle::suite::{next_block, test_at, tests};
    let mut blocks = suite.chunks(oracle::layout::BLOCK_LENGTH);
    match *asked {
        OfSuite::Blocks => Reply::Blocks(blocks.len() as u64),
        OfSuite::Part { k } => {
            let part = usize::try_from(k).ok().and_then(|k| blocks.nth(k));
            let refused = Reply::Refused { number: NOT_IN_SUITE, record: None, place: None };
            part.map_or(refused, |part| Reply::Part(place_in(suite, part)))
        }
        OfSuite::Test { k } => {
            let k = k as usize;
            Reply::Test { length: test_at(suite, k).len(), next: next_block(suite, k) as u64 }
        }
        OfSuite::Tests => Reply::Tests(tests(suite).map(|(k, test)| (k as u64, place_in(suite, test))).collect()),
    }
}

fn same_table(table: &oracle::table::Table) -> Table {
    same_fields(&RawTable::from(table))
}

pub fn same_fields(raw: &RawTable) -> Table {
    let mut table = Table::new(raw.harts, raw.locations);
    table.count = raw.count;
    table.stated = raw.stated;
    table.model = raw.model;
    table.initial = raw.initial;
    table.finals = raw.finals;
    table.events = raw.events.map(same_event);
    table
}

fn same_event(raw: RawEvent) -> Event {
    let mut event = Event::default();
    [event.kind, event.hart, event.location, event.flags] = [raw.kind, raw.hart, raw.location, raw.flags];
    [event.address, event.data, event.control] = [raw.address, raw.data, raw.control];
    [event.read, event.written] = [raw.read, raw.written];
    [event.operation, event.operand] = [raw.operation, raw.operand];
    event
}

fn same_rules(rules: &[usize]) -> Rules {
    rules.iter().map(|&rule| rule as u8).collect()
}

fn same_axiom(axiom: oracle::rules::Axiom) -> Axiom {
    use oracle::rules::Axiom as Other;
    match axiom {
        Other::PreservedOrder { a, b, rules } => {
            Axiom::PreservedOrder { a: a as u8, b: b as u8, rules: same_rules(&rules) }
        }
        Other::LoadValue { reader } => Axiom::LoadValue { reader: reader as u8 },
        Other::Atomicity { lr, writer } => Axiom::Atomicity { lr: lr as u8, writer: writer as u8 },
        Other::ValueRead { reader } => Axiom::ValueRead { reader: reader as u8 },
        Other::FinalValue { location } => Axiom::FinalValue { location: location as u8 },
    }
}

fn same_answer(answer: &oracle::search::Answer) -> Answer {
    use oracle::search::Answer as Other;
    match answer {
        Other::Found { visited, order } => Answer::Found { len: order.len(), visited: *visited },
        Other::NoneLeft { visited } => Answer::NoneLeft { visited: *visited },
        Other::Spent { visited, prefix } => Answer::Spent { len: prefix.len(), visited: *visited },
    }
}

fn same_advice(advice: &oracle::advice::Advice) -> Advice {
    use oracle::advice::Advice as Other;
    match advice {
        Other::Advised(fences) => Advice::Advised(bytes(fences)),
        Other::Undecided(fences) => Advice::Undecided(bytes(fences)),
        Other::NoHelp => Advice::NoHelp,
    }
}

/// From witness to witness, to the end.
fn walk(given: Given, test: &[u8], start: &[u8]) -> Result<Walked, TextRefusal> {
    use oracle::search::Answer as Other;
    let mut start = start.to_vec();
    let mut walked = Walked { orders: Vec::new(), visited: 0 };
    let mut buffer = [0; oracle::layout::MOST_EVENTS];
    loop {
        match given.search(test, &start, &mut buffer, MAX_ALLOWANCE)? {
            Other::Found { visited, order } => {
                start = buffer[..order.len()].to_vec();
                walked.orders.push(start.clone());
                walked.visited += visited;
            }
            Other::NoneLeft { visited } => {
                walked.visited += visited;
                return Ok(walked);
            }
            Other::Spent { .. } => panic!("the tables of walks have fewer prefixes than the largest allowance"),
        }
    }
}

fn both_walks(test: &[u8]) -> Result<[Walked; 2], TextRefusal> {
    let [first, second] = Engine::ALL.map(|engine| walk(Given::Block(engine), test, &[]));
    let walks = [first?, second?];
    assert_eq!(walks[0].orders, walks[1].orders, "the independent program's engines have the same witnesses");
    Ok(walks)
}
