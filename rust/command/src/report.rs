//! The subcommand `report`: one page with all tests, which stands alone.

use crate::arguments::Options;
use crate::decide::{words, Tally};
use crate::decider::Decision;
use crate::error::Error;
use crate::litmus::Expected;
use crate::output::Output;
use crate::page::{self, Entry};
use crate::progress::Progress;
use crate::source::{tests, Source};
use crate::{drawing, explain, show, svg, Status};

/// Writes a page about the tests of all files.
pub fn run(options: &Options, out: &mut Output) -> Result<Status, String> {
    let (mut tally, mut progress, mut entries) = (Tally::default(), Progress::new(), Vec::new());
    for file in &options.files {
        match tests(file, options.model) {
            Err(error) => entries.push(unread(file, &error, &mut tally)),
            Ok(tests) => {
                for test in tests {
                    let made = test.and_then(|source| entry(&source, options, &mut progress, &mut tally));
                    entries.push(made.unwrap_or_else(|error| unread(file, &error, &mut tally)));
                }
            }
        }
    }
    out.to(options.output.as_deref(), page::page(&tally.words(), &entries).as_bytes())?;
    Ok(tally.status())
}

fn unread(file: &str, error: &Error, tally: &mut Tally) -> Entry {
    tally.unread(file, error);
    Entry::unread(file, &error.of_file(file))
}

fn entry(source: &Source, options: &Options, progress: &mut Progress, tally: &mut Tally) -> Result<Entry, Error> {
    let decision = source.decide(options.visit, progress)?;
    let expected = source.expected();
    let why = explain::why(source, &decision)?;
    tally.count(decision.verdict, expected);
    Ok(Entry {
        name: source.name.clone(),
        verdict: words(source, &decision, expected),
        marks: marks(&decision, expected),
        expected: expected.map(|expected| expected.to_string()).unwrap_or_default(),
        events: decision.first.as_ref().map_or(0, |case| case.texts.len()),
        table: show::head(source, &decision),
        picture: drawing::of(source, &decision).map(|drawing| svg::svg(&drawing)).unwrap_or_default(),
        why,
    })
}

/// What the page's filter looks for.
fn marks(decision: &Decision, expected: Option<Expected>) -> String {
    let word = decision.verdict.word();
    match expected {
        Some(expected) if !decision.verdict.is(expected) => format!("{word} unexpected"),
        _ => word.to_string(),
    }
}
