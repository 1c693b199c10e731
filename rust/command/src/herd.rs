//! A test in the form of herd7's log, so that logs can be compared by the field's tools.

use crate::case::Case;
use crate::choices::{Choice, Choices};
use crate::decider::{Decider, Verdict};
use crate::error::Error;
use crate::litmus::{place_words, value_words, words, Place, Quantifier, Test};
use crate::source::{Kind, Source};
use crate::value::Value;
use std::collections::btree_map::{BTreeMap, Entry};

/// The states of a test: what is observed of each, and whether the condition holds in it.
type States = BTreeMap<String, bool>;

/// The log of one test. Witnesses are counted by states, and each SC has succeeded.
pub fn log(source: &Source) -> Result<Vec<String>, Error> {
    let Kind::Litmus(test) = &source.kind else {
        return Err(Error::new("--herd takes litmus tests only, since a block names no registers"));
    };
    let states = states(test).map_err(|error| error.or_line(test.question.line))?;
    let positive = states.values().filter(|&&holds| holds).count();
    let negative = states.len() - positive;
    let (kind, is_met) = match test.question.quantifier {
        Quantifier::Exists => ("Allowed", positive > 0),
        Quantifier::NotExists => ("Forbidden", positive == 0),
        Quantifier::Forall => ("Required", negative == 0),
    };
    let observation = match (positive, negative) {
        (0, _) => "Never",
        (_, 0) => "Always",
        _ => "Sometimes",
    };
    let mut lines = vec![format!("Test {} {kind}", test.name), format!("States {}", states.len())];
    lines.extend(states.into_keys());
    lines.push(if is_met { "Ok" } else { "No" }.to_string());
    lines.push("Witnesses".to_string());
    lines.push(format!("Positive: {positive} Negative: {negative}"));
    let condition = words(&test.question.condition, &test.locations);
    lines.push(format!("Condition {} {}", test.question.quantifier, bracketed(condition)));
    lines.push(format!("Observation {} {observation} {positive} {negative}", test.name));
    lines.push(String::new());
    Ok(lines)
}

fn bracketed(condition: String) -> String {
    if condition.starts_with('(') {
        return condition;
    }
    format!("({condition})")
}

/// All states that some order gives.
fn states(test: &Test) -> Result<States, Error> {
    let mut observed = test.question.observed();
    observed.sort_by_key(Place::rank);
    let mut states = States::new();
    Choices::all(test)?.visit(&mut |choice| {
        if let Entry::Vacant(state) = states.entry(state(test, &choice, &observed)) {
            if Decider::new().case(Case::of(test, &choice)?)?.verdict == Verdict::Allowed {
                let holds = test.question.condition.holds(&|place| Some(value(&choice, place)));
                state.insert(holds == Some(true));
            }
        }
        Ok(true)
    })?;
    Ok(states)
}

/// What a place holds at the end. Every location that is observed has its final value stated.
fn value(choice: &Choice, place: Place) -> Value {
    match place {
        Place::Register(hart, register) => choice.runs[hart].registers[register.index()],
        Place::Location(location) => {
            let stated = choice.finals.iter().find(|(other, _)| *other == location);
            Value::number(stated.expect("it is stated").1.into())
        }
    }
}

fn state(test: &Test, choice: &Choice, observed: &[Place]) -> String {
    let entry = |place: &Place| {
        let words = place_words(*place, &test.locations);
        let name = if matches!(place, Place::Location(_)) { format!("[{words}]") } else { words };
        format!("{name}={};", value_words(value(choice, *place), &test.locations))
    };
    observed.iter().map(entry).collect::<Vec<String>>().join(" ")
}
