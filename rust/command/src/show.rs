//! The subcommand `show`: the table as it was understood, in columns, and a witness.

use crate::arguments::{Options, Picture};
use crate::case::Case;
use crate::decider::{Decision, Verdict};
use crate::error::Error;
use crate::output::Output;
use crate::progress::Progress;
use crate::source::{each, Kind, Source};
use crate::{decide, dot, drawing, litmus, picture, svg, Status};

/// Shows the test of each file.
pub fn run(options: &Options, out: &mut Output) -> Result<Status, String> {
    let path = options.output.as_deref();
    each(options, |source| shown(source, options), |text| out.to(path, text.as_bytes()))
}

fn shown(source: &Source, options: &Options) -> Result<String, Error> {
    let decision = source.decide(options.visit, &mut Progress::new())?;
    Ok(match options.picture {
        None => lines(source, &decision).iter().map(|line| format!("{line}\n")).collect(),
        Some(Picture::Svg) => svg::svg(&drawing::of(source, &decision)?),
        Some(Picture::Dot) => dot::dot(&drawing::of(source, &decision)?),
    })
}

fn lines(source: &Source, decision: &Decision) -> Vec<String> {
    let mut lines = head(source, decision);
    if let Some(witness) = &decision.witness {
        lines.push("an order that gives it, first to last:".to_string());
        lines.extend(picture::order(witness).iter().map(|line| format!("  {line}")));
    }
    lines
}

/// The table, the question and the verdict.
pub fn head(source: &Source, decision: &Decision) -> Vec<String> {
    let mut lines = vec![source.name.clone()];
    match decision.witness.as_ref().map(|witness| &witness.case).or(decision.first.as_ref()) {
        Some(case) => lines.extend(table(case, decision)),
        None => lines.push("no table: no values that the test can read or write meet the condition".to_string()),
    }
    lines.extend(question(source));
    let verdict = decide::words(source, decision, source.expected());
    lines.push(verdict + &decide::visited(decision));
    lines
}

/// What is asked; a block states its values.
pub fn question(source: &Source) -> Option<String> {
    match &source.kind {
        Kind::Litmus(test) => {
            let words = litmus::words(&test.question.condition, &test.locations);
            Some(format!("{} {words}", test.question.quantifier))
        }
        Kind::Text(text) => Some(format!("exists {}", text.condition)),
        Kind::Block(_) => None,
    }
}

fn table(case: &Case, decision: &Decision) -> Vec<String> {
    let mut lines = Vec::from_iter(picture::model_line(case));
    lines.extend([format!("initially {}", picture::initial(case)), String::new()]);
    lines.extend(picture::columns(case));
    lines.push(String::new());
    let finals = picture::finals(case);
    if !finals.is_empty() {
        lines.push(format!("finally {finals}"));
    }
    if decision.tables > 1 {
        let which = if decision.verdict == Verdict::Allowed { "the last" } else { "the first" };
        lines.push(format!(
            "{which} of {} tables that were asked about, one for each choice of values",
            decision.tables
        ));
    }
    lines
}
