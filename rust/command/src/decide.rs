//! The subcommand `decide`: a line for each test, and a summary.

use crate::arguments::Options;
use crate::decider::{Decision, Verdict};
use crate::error::Error;
use crate::litmus::{Expected, Quantifier, Test};
use crate::output::{complain, Output};
use crate::progress::Progress;
use crate::source::{tests, Kind, Source};
use crate::{herd, picture, Status};

/// What the summary counts.
#[derive(Default)]
pub struct Tally {
    allowed: usize,
    forbidden: usize,
    undecided: usize,
    /// Files and blocks that are no tests.
    unread: usize,
    /// Tests with an expectation, and those of them that don't meet it.
    expecting: usize,
    unexpected: usize,
}

/// Decides all tests of all files.
pub fn run(options: &Options, out: &mut Output) -> Result<Status, String> {
    let (mut tally, mut progress) = (Tally::default(), Progress::new());
    for file in &options.files {
        match tests(file, options.model) {
            Err(error) => tally.unread(file, &error),
            Ok(tests) => {
                for test in tests {
                    match test.and_then(|source| one(&source, options, &mut progress, &mut tally)) {
                        Ok(lines) => out.lines(&lines)?,
                        Err(error) => tally.unread(file, &error),
                    }
                }
            }
        }
    }
    if !options.herd {
        out.lines(&[tally.words()])?;
    }
    Ok(tally.status())
}

/// The lines for one test.
fn one(source: &Source, options: &Options, progress: &mut Progress, tally: &mut Tally) -> Result<Vec<String>, Error> {
    let log = options.herd.then(|| herd::log(source)).transpose();
    let decided = source.decide(options.visit, progress);
    let (log, decision) = (log?, decided?);
    let expected = options.expect.or(source.expected());
    tally.count(decision.verdict, expected);
    if let Some(log) = log {
        return Ok(log);
    }
    let mut lines = vec![format!("{}: {}", source.name, words(source, &decision, expected))];
    if options.verbose {
        let noun = if decision.tables == 1 { "table" } else { "tables" };
        lines.push(format!("    {} {noun}{}", decision.tables, visited(&decision)));
        if let Some(witness) = &decision.witness {
            lines.extend(picture::order(witness).iter().map(|line| format!("    {line}")));
        }
    }
    Ok(lines)
}

/// The verdict, and what has to be known with it.
pub fn words(source: &Source, decision: &Decision, expected: Option<Expected>) -> String {
    let mut words = decision.verdict.word().to_string();
    if decision.verdict == Verdict::Undecided {
        let visited = visited(decision);
        words.push_str(&format!("{visited} (raise the bound by --visit, or ask for fewer events)"));
    }
    if let Kind::Litmus(test) = &source.kind {
        let notes = notes(test, decision);
        if !notes.is_empty() {
            words.push_str(&format!(" ({})", notes.join("; ")));
        }
    }
    if let Some(expected) = expected.filter(|&expected| !decision.verdict.is(expected)) {
        words.push_str(&format!(", but expected to be {expected}"));
    }
    words
}

/// How many prefixes were visited, where that was done.
pub fn visited(decision: &Decision) -> String {
    decision.visited.map(|visited| format!(", {visited} prefixes visited")).unwrap_or_default()
}

/// What the verdict of a litmus test is about, where that isn't plain.
fn notes(test: &Test, decision: &Decision) -> Vec<&'static str> {
    let mut notes = Vec::new();
    if test.question.quantifier == Quantifier::Forall {
        notes.push("an outcome outside the condition");
    }
    if decision.tables == 0 {
        notes.push("no values of the test give it");
    } else if decision.verdict != Verdict::Allowed && test.assumes_sc() {
        notes.push("in runs where each SC succeeds");
    }
    notes
}

impl Tally {
    pub fn unread(&mut self, file: &str, error: &Error) {
        self.unread += 1;
        complain(&error.of_file(file));
    }

    pub fn count(&mut self, verdict: Verdict, expected: Option<Expected>) {
        match verdict {
            Verdict::Allowed => self.allowed += 1,
            Verdict::Forbidden => self.forbidden += 1,
            Verdict::Undecided => self.undecided += 1,
        }
        if let Some(expected) = expected {
            self.expecting += 1;
            self.unexpected += usize::from(!verdict.is(expected));
        }
    }

    pub fn words(&self) -> String {
        let tests = self.allowed + self.forbidden + self.undecided;
        let noun = if tests == 1 { "test" } else { "tests" };
        let mut words = format!("{tests} {noun}: {} allowed, {} forbidden", self.allowed, self.forbidden);
        for (count, what) in [(self.undecided, "undecided"), (self.unread, "not read")] {
            if count > 0 {
                words.push_str(&format!(", {count} {what}"));
            }
        }
        if self.expecting > 0 {
            let met = self.expecting - self.unexpected;
            words.push_str(&format!("; {met} of {} as expected", self.expecting));
        }
        words
    }

    pub fn status(&self) -> Status {
        match self {
            Tally { unread: 1.., .. } => Status::Unusable,
            Tally { unexpected: 1.., .. } => Status::Unexpected,
            _ => Status::Good,
        }
    }
}

#[cfg(test)]
mod tests {
    use super::*;
    use crate::decider::MOST_VISITED;
    use crate::litmus::read;

    /// What is said of two harts, one of which has an LR and an SC.
    fn said(condition: &str) -> String {
        let columns = "P0 | P1 ;\nlr.w x7,(x6) | sw x5,0(x6) ;\nsc.w x8,x5,(x6) | ;\n";
        let text = format!("RISCV a\n{{ 0:x5=1; 0:x6=x; 1:x5=2; 1:x6=x; }}\n{columns}{condition}");
        let kind = Kind::Litmus(Box::new(read(&text).unwrap()));
        let source = Source { name: "a".to_string(), kind };
        let decision = source.decide(MOST_VISITED, &mut Progress::new()).unwrap();
        words(&source, &decision, None)
    }

    #[test]
    fn the_verdict_says_what_it_is_about() {
        assert_eq!(said("exists (0:x7=0 /\\ x=1 /\\ 0:x8=0)"), "forbidden");
        assert_eq!(said("exists (0:x7=0 /\\ x=1)"), "forbidden (in runs where each SC succeeds)");
        assert_eq!(said("exists (0:x7=2 /\\ x=1)"), "allowed");
        assert_eq!(said("exists 0:x7=3"), "forbidden (no values of the test give it)");
        assert_eq!(said("~exists (0:x7=2 /\\ x=1)"), "allowed");
        assert_eq!(
            said("forall (0:x7=2 \\/ x=2)"),
            "forbidden (an outcome outside the condition; in runs where each SC succeeds)"
        );
        assert_eq!(said("forall x=1"), "allowed (an outcome outside the condition)");
    }
}
