//! One call, and what may come of it.

use cogthunder::{Advice, Answer, Axiom, Decision, Listing, Refusal, Rules, Table, Taken};
use oracle::outcome::Asked;
use oracle::raw::RawTable;
use oracle::search::Engine;
use oracle::text_test::TextRefusal;
use oracle::walks::Given;
use std::borrow::Cow;
use std::fmt;
use std::ops::Range;

/// A test, a text or a suite, and which entry is called with it. There are no bytes if that is the writer.
#[derive(Clone, PartialEq, Eq, Debug)]
pub struct Call {
    pub bytes: Vec<u8>,
    pub entry: Entry,
}

/// An entry with the rest of its arguments; `out` is what the buffer holds before the call.
#[derive(Clone, PartialEq, Eq, Debug)]
pub enum Entry {
    Read,
    ReadText,
    /// By the function for C itself: the package hands out the table of a good text only.
    TableOfText,
    Write {
        table: Box<RawTable>,
        out: Vec<u8>,
    },
    Verdict {
        returned: Vec<u8>,
        order: Vec<u8>,
    },
    Rules {
        returned: Vec<u8>,
        a: u64,
        b: u64,
    },
    Returns {
        order: Vec<u8>,
        out: Vec<u8>,
    },
    Search {
        given: Given,
        start: Vec<u8>,
        out: Vec<u8>,
        allowance: u64,
    },
    Suite(OfSuite),
    /// All witnesses after a start, by the iterator: it is resumed after some search calls with the given allowance.
    Witnesses {
        given: Given,
        start: Vec<u8>,
        allowance: u64,
        steps: usize,
    },
    /// All witnesses by the iterators of both engines, from the beginning.
    BothEngines {
        allowance: u64,
    },
    /// One step of the machine, behind a list of steps.
    Step {
        steps: Vec<u8>,
        step: u64,
    },
    /// All runs of the machine, and all witnesses.
    Runs,
    /// The next outcome above a list of values, or the next ones.
    Outcomes {
        asked: Asked,
        previous: Vec<u16>,
        out: Vec<u16>,
        allowance: u64,
    },
    /// All outcomes above a list of values: by single calls, or by the iterator, which is resumed after some outcomes.
    AllOutcomes {
        asked: Asked,
        previous: Vec<u16>,
        allowance: u64,
        resumed_after: usize,
    },
    /// Advice on missing fences.
    Advise {
        allowance: u64,
    },
    /// The least witness above a list.
    Decide {
        start: Vec<u8>,
        out: Vec<u8>,
    },
    /// All witnesses above a list, by the iterator over decisions, which is resumed after some of them.
    AllDecided {
        start: Vec<u8>,
        steps: usize,
    },
}

/// What is asked of a suite.
#[derive(Clone, PartialEq, Eq, Debug)]
pub enum OfSuite {
    Blocks,
    /// Block k.
    Part {
        k: u64,
    },
    /// The test that begins at block k, and where the next one does.
    Test {
        k: u64,
    },
    /// All tests, by the iterator.
    Tests,
}

#[derive(Clone, PartialEq, Eq, Debug)]
pub enum Reply {
    Good,
    Refused {
        number: u8,
        record: Option<u8>,
        place: Option<u32>,
    },
    Broken(Axiom),
    Table(Box<Table>),
    Rules(Rules),
    Searched(Answer),
    Blocks(u64),
    Part(Range<usize>),
    Test {
        length: usize,
        next: u64,
    },
    Tests(Vec<(u64, Range<usize>)>),
    Witnesses(Walked),
    /// The walks of both engines have the same witnesses; how many prefixes each visited.
    SameWitnesses {
        orders: Vec<Vec<u8>>,
        visited: [u64; 2],
    },
    OtherWitnesses([Walked; 2]),
    Taken(Taken),
    Ran(Ran),
    Listed(Listing),
    AllOutcomes(Vec<Vec<u16>>),
    Advice(Advice),
    Decided(Decision),
    Orders(Vec<Vec<u8>>),
}

/// A refusal is a reply too, so that a function may end at one by `?`.
pub type Answered = Result<Reply, Reply>;

/// The orders of all complete runs of the machine, with their returned lists, and all witnesses; both ascending.
#[derive(Clone, PartialEq, Eq, Default, Debug)]
pub struct Ran {
    pub orders: Vec<(Vec<u8>, Vec<u8>)>,
    pub witnesses: Vec<Vec<u8>>,
}

/// The witnesses of a walk to its end, and how many prefixes it visited.
#[derive(Clone, PartialEq, Eq, Debug)]
pub struct Walked {
    pub orders: Vec<Vec<u8>>,
    pub visited: u64,
}

impl From<Table> for Reply {
    fn from(table: Table) -> Reply {
        Reply::Table(Box::new(table))
    }
}

impl From<[Walked; 2]> for Reply {
    fn from(walks: [Walked; 2]) -> Reply {
        if walks[0].orders != walks[1].orders {
            return Reply::OtherWitnesses(walks);
        }
        let visited = [walks[0].visited, walks[1].visited];
        let [Walked { orders, .. }, _] = walks;
        Reply::SameWitnesses { orders, visited }
    }
}

/// The reply, the buffer afterwards, and what was altered though it must not be.
#[derive(Clone, PartialEq, Eq, Debug)]
pub struct Outcome {
    pub reply: Reply,
    pub out: Vec<u8>,
    pub altered: Vec<&'static str>,
}

/// What answers calls.
pub trait Bench {
    fn outcome(&mut self, call: &Call) -> Outcome;
}

impl From<Refusal> for Reply {
    fn from(refusal: Refusal) -> Reply {
        Reply::Refused { number: refusal.number, record: refusal.record, place: refusal.place }
    }
}

impl From<oracle::table::Refusal> for Reply {
    fn from(refusal: oracle::table::Refusal) -> Reply {
        let record = refusal.record.map(|record| record as u8);
        Reply::Refused { number: refusal.line as u8, record, place: None }
    }
}

impl From<TextRefusal> for Reply {
    fn from(refusal: TextRefusal) -> Reply {
        match refusal {
            TextRefusal::Illegal(breach) => {
                Reply::Refused { number: breach.line as u8, record: None, place: Some(breach.place as u32) }
            }
            TextRefusal::Declined(refusal) => refusal.into(),
        }
    }
}

/// The bytes of a list or a buffer, if the entry has one.
type Lent<'a> = Option<Cow<'a, [u8]>>;

impl Entry {
    /// The lists that are lent beside the test, and must stay as they are.
    pub fn inputs(&self) -> (Lent<'_>, Lent<'_>) {
        match self {
            Entry::Read | Entry::ReadText | Entry::TableOfText | Entry::Write { .. } | Entry::Suite(_) => (None, None),
            Entry::BothEngines { .. } | Entry::Runs | Entry::AllOutcomes { .. } | Entry::Advise { .. } => (None, None),
            Entry::Verdict { returned, order } => (Some(returned.into()), Some(order.into())),
            Entry::Rules { returned: list, .. }
            | Entry::Returns { order: list, .. }
            | Entry::Search { start: list, .. }
            | Entry::Witnesses { start: list, .. }
            | Entry::Decide { start: list, .. }
            | Entry::AllDecided { start: list, .. }
            | Entry::Step { steps: list, .. } => (Some(list.into()), None),
            Entry::Outcomes { previous, .. } => (Some(value_bytes(previous).into()), None),
        }
    }

    /// Whether the bytes are a text.
    pub fn takes_text(&self) -> bool {
        match self {
            Entry::ReadText | Entry::TableOfText => true,
            Entry::Search { given, .. } | Entry::Witnesses { given, .. } => *given == Given::Text,
            _ => false,
        }
    }

    /// The buffer that is written to.
    pub fn out(&self) -> Lent<'_> {
        match self {
            Entry::Write { out, .. }
            | Entry::Returns { out, .. }
            | Entry::Search { out, .. }
            | Entry::Decide { out, .. } => Some(out.into()),
            Entry::Outcomes { out, .. } => Some(value_bytes(out).into()),
            _ => None,
        }
    }

    pub fn name(&self) -> &'static str {
        match self {
            Entry::Read => "read",
            Entry::ReadText => "read_text",
            Entry::TableOfText => "table_of_text",
            Entry::Write { .. } => "write",
            Entry::Verdict { .. } => "verdict",
            Entry::Rules { .. } => "rules",
            Entry::Returns { .. } => "returns",
            Entry::Search { given: Given::Block(Engine::First), .. } => "search",
            Entry::Search { given: Given::Block(Engine::Second), .. } => "search_pruned",
            Entry::Search { given: Given::Text, .. } => "search_text",
            Entry::Suite(OfSuite::Blocks) => "blocks",
            Entry::Suite(OfSuite::Part { .. }) => "part",
            Entry::Suite(OfSuite::Test { .. }) => "test",
            Entry::Suite(OfSuite::Tests) => "tests",
            Entry::Witnesses { given: Given::Text, .. } => "witnesses of texts",
            Entry::Witnesses { .. } => "witnesses",
            Entry::BothEngines { .. } => "both engines",
            Entry::Step { .. } => "step",
            Entry::Runs => "all runs",
            Entry::Advise { .. } => "advise",
            Entry::Decide { .. } => "decide",
            Entry::AllDecided { .. } => "all decided",
            Entry::Outcomes { asked: Asked::One, .. } => "outcome",
            Entry::Outcomes { asked: Asked::Some, .. } => "outcomes",
            Entry::AllOutcomes { .. } => "all outcomes",
        }
    }
}

/// Values as they lie in memory, the lower byte first.
pub fn value_bytes(values: &[u16]) -> Vec<u8> {
    values.iter().flat_map(|value| value.to_le_bytes()).collect()
}

/// Bytes in lines of 32, two digits each.
fn hex(bytes: &[u8]) -> String {
    let line = |line: &[u8]| line.iter().map(|byte| format!("{byte:02x}")).collect::<String>() + "\n";
    bytes.chunks(32).map(line).collect()
}

impl fmt::Display for Call {
    fn fmt(&self, f: &mut fmt::Formatter) -> fmt::Result {
        writeln!(f, "{:?}", self.entry)?;
        if self.entry.takes_text() {
            return writeln!(f, "text \"{}\"", self.bytes.escape_ascii());
        }
        write!(f, "{} bytes:\n{}", self.bytes.len(), hex(&self.bytes))
    }
}

impl fmt::Display for Outcome {
    fn fmt(&self, f: &mut fmt::Formatter) -> fmt::Result {
        write!(f, "{:?}, buffer {:?}", self.reply, self.out)?;
        if !self.altered.is_empty() {
            write!(f, ", ALTERED: {}", self.altered.join(", "))?;
        }
        Ok(())
    }
}
