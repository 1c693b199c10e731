//! The subcommand `outcomes`: every outcome of a test, as a table.

use crate::arguments::{Model, Options};
use crate::error::Error;
use crate::listing::{self, Listing};
use crate::litmus::value_words;
use crate::output::{unusable, Output};
use crate::source::{tests, Kind, Source};
use crate::value::Value;
use crate::Status;

/// Lists the outcomes of all tests of all files.
pub fn run(options: &Options, out: &mut Output) -> Result<Status, String> {
    let mut status = Status::Good;
    for file in &options.files {
        let read = tests(file, options.model);
        for test in read.unwrap_or_else(|error| vec![Err(error)]) {
            match test.and_then(|source| lines(&source, options)) {
                Ok(lines) => out.lines(&lines)?,
                Err(error) => status = unusable(file, &error),
            }
        }
    }
    Ok(status)
}

fn lines(source: &Source, options: &Options) -> Result<Vec<String>, Error> {
    let mut lines = vec![source.name.clone()];
    if source.model() != Model::Rvwmo {
        lines.push(format!("model {}", source.model()));
    }
    match listing::of(source, options.all, options.visit)? {
        Some(listing) => {
            lines.extend(table(source, &listing));
            lines.push(summary(source, &listing));
        }
        None => {
            let bound = options.visit;
            lines.push(format!(
                "undecided: a table has more than {bound} clean prefixes (raise the bound by --visit, or ask for fewer events)"
            ));
        }
    }
    Ok(lines)
}

/// The names, then a line for each outcome. Columns are as wide as their longest entry.
fn table(source: &Source, listing: &Listing) -> Vec<String> {
    let locations = match &source.kind {
        Kind::Litmus(test) => &test.locations[..],
        Kind::Block(_) | Kind::Text(_) => &[],
    };
    let words =
        |values: &Vec<Value>| values.iter().map(|&value| value_words(value, locations)).collect::<Vec<String>>();
    let rows: Vec<(Vec<String>, bool)> = listing.rows.iter().map(|(values, holds)| (words(values), *holds)).collect();
    let width = |column: usize| {
        let entries = rows.iter().map(|(words, _)| &words[column]).chain([&listing.names[column]]);
        entries.map(|entry| entry.chars().count()).max().unwrap_or(0)
    };
    let widths: Vec<usize> = (0..listing.names.len()).map(width).collect();
    let line = |words: &[String]| {
        let entries = words.iter().zip(&widths).map(|(word, &width)| format!(" {word:>width$}"));
        entries.collect::<Vec<String>>().join(" ")
    };
    let mut lines = vec![line(&listing.names)];
    lines.extend(rows.iter().map(|(words, holds)| {
        let mark = if *holds { format!("  {}", asked(source).meets) } else { String::new() };
        format!("{}{mark}", line(words))
    }));
    lines
}

/// How an outcome is said to be what the test asks for: of one, and of several.
struct Asked {
    meets: &'static str,
    meet: &'static str,
}

fn asked(source: &Source) -> Asked {
    match source.kind {
        Kind::Litmus(_) | Kind::Text(_) => Asked { meets: "meets the condition", meet: "meet the condition" },
        Kind::Block(_) => Asked { meets: "has the stated values", meet: "have the stated values" },
    }
}

fn summary(source: &Source, listing: &Listing) -> String {
    let count = listing.rows.len();
    let noun = if count == 1 { "outcome" } else { "outcomes" };
    let Asked { meets, meet } = asked(source);
    let of_asked = match listing.rows.values().filter(|&&holds| holds).count() {
        0 => format!("none {meets}"),
        1 => format!("1 {meets}"),
        several => format!("{several} {meet}"),
    };
    let note = match &source.kind {
        Kind::Litmus(test) if test.sc_count() > 0 => " (in runs where each SC succeeds)",
        _ => "",
    };
    format!("{count} {noun}; {of_asked}{note}")
}
