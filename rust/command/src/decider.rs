//! Whether the rules allow an outcome: asked of the proved library, table by table.

use crate::case::Case;
use crate::choices::Choices;
use crate::error::Error;
use crate::litmus::{Expected, Test};
use crate::progress::Progress;
use crate::text::Text;
use cogthunder::{decide, returns, Answer, Refusal, Witnesses, EVENTS};

/// How many prefixes are visited for one text, or for the outcomes of one table, unless another bound is given.
pub const MOST_VISITED: u64 = 100_000_000;

/// How many one call visits, so that the progress can be shown between calls.
const ALLOWANCE: u64 = 1_000_000;

/// The answer for one test.
#[derive(Clone, Copy, PartialEq, Eq, Debug)]
pub enum Verdict {
    Allowed,
    Forbidden,
    /// Of a text: the bound was reached before.
    Undecided,
}

/// A table with an order that shows its outcome.
#[derive(Clone, Debug)]
pub struct Witness {
    pub case: Case,
    pub order: Vec<u8>,
    /// What each event returns from, as the library's returned list has it.
    pub returned: Vec<u8>,
}

/// What was found out about a test.
#[derive(Clone, Debug)]
pub struct Decision {
    pub verdict: Verdict,
    /// How many prefixes were visited, of a text; a table is decided without.
    pub visited: Option<u64>,
    /// How many tables were asked about.
    pub tables: u64,
    /// The first table.
    pub first: Option<Case>,
    /// The first witness, of an allowed outcome.
    pub witness: Option<Witness>,
}

impl Verdict {
    /// Whether it is what a file or the caller expects.
    pub fn is(self, expected: Expected) -> bool {
        match expected {
            Expected::Allowed => self == Verdict::Allowed,
            Expected::Forbidden => self == Verdict::Forbidden,
        }
    }

    pub fn word(self) -> &'static str {
        match self {
            Verdict::Allowed => "allowed",
            Verdict::Forbidden => "forbidden",
            Verdict::Undecided => "undecided",
        }
    }
}

/// A walk over the tables of one test.
pub struct Decider {
    decision: Decision,
}

impl Decider {
    pub fn new() -> Decider {
        let decision = Decision { verdict: Verdict::Forbidden, visited: None, tables: 0, first: None, witness: None };
        Decider { decision }
    }

    /// Decides a litmus test: it is allowed if one of its tables is.
    pub fn litmus(mut self, test: &Test) -> Result<Decision, Error> {
        Choices::asked(test)?.visit(&mut |choice| {
            self.table(Case::of(test, &choice)?).map_err(Error::declined)?;
            Ok(self.decision.verdict != Verdict::Allowed)
        })?;
        Ok(self.decision)
    }

    /// Decides one table.
    pub fn case(mut self, case: Case) -> Result<Decision, Error> {
        self.table(case).map_err(Error::declined)?;
        Ok(self.decision)
    }

    /// Decides a text, by the library's own search for texts, up to a bound on the prefixes visited.
    pub fn text(mut self, text: &Text, most: u64, progress: &mut Progress) -> Result<Decision, Error> {
        let walk = Witnesses::of_text(&text.bytes).map_err(Error::declined)?;
        if let Some(order) = self.walk(walk, most, progress) {
            let (case, returned) = text.along(&order).map_err(Error::declined)?;
            self.found(Witness { case, order, returned });
        }
        self.count(text.open());
        Ok(self.decision)
    }

    fn table(&mut self, case: Case) -> Result<(), Refusal> {
        let test = case.table.test()?;
        let mut order = [0; EVENTS];
        if let cogthunder::Decision::Found { len } = decide(&test, &[], &mut order)? {
            let order = order[..len].to_vec();
            let mut returned = [0; EVENTS];
            returns(&test, &order, &mut returned)?;
            let returned = returned[..case.texts.len()].to_vec();
            self.found(Witness { case: case.clone(), order, returned });
        }
        self.count(case);
        Ok(())
    }

    /// Goes on to the first witness, or to the end or the bound.
    fn walk(&mut self, mut walk: Witnesses, most: u64, progress: &mut Progress) -> Option<Vec<u8>> {
        self.decision.visited = Some(0);
        loop {
            let left = most - walk.visited();
            if left == 0 {
                self.decision.verdict = Verdict::Undecided;
                return None;
            }
            walk = walk.allowance(left.min(ALLOWANCE));
            let answer = walk.step();
            self.decision.visited = Some(walk.visited());
            progress.show(walk.visited());
            match answer {
                Answer::Found { .. } => return Some(walk.start().to_vec()),
                Answer::NoneLeft { .. } => return None,
                Answer::Spent { .. } => {}
            }
        }
    }

    fn count(&mut self, case: Case) {
        self.decision.tables += 1;
        self.decision.first.get_or_insert(case);
    }

    fn found(&mut self, witness: Witness) {
        self.decision.verdict = Verdict::Allowed;
        self.decision.witness = Some(witness);
    }
}
