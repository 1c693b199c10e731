//! The subcommand `convert`: between litmus tests, blocks and texts.

use crate::arguments::{Form, Options};
use crate::case::Case;
use crate::error::Error;
use crate::output::Output;
use crate::source::{each, Kind, Source};
use crate::{text_written, written, Status};

/// Converts one file.
pub fn run(options: &Options, out: &mut Output) -> Result<Status, String> {
    let path = options.output.as_deref();
    each(options, |source| converted(source, options), |bytes| out.to(path, &bytes))
}

fn converted(source: &Source, options: &Options) -> Result<Vec<u8>, Error> {
    match (&source.kind, options.to) {
        (Kind::Litmus(_) | Kind::Text(_), None | Some(Form::Block)) if options.all => blocks(source),
        (Kind::Litmus(_) | Kind::Text(_), None) | (_, Some(Form::Block)) => block(&only_case(source)?),
        (Kind::Text(text), Some(Form::Litmus)) => {
            let case = Case::of_table(text.table.clone());
            written::litmus(&source.name, &case, Some(&text.condition)).map(String::into_bytes)
        }
        (Kind::Block(_), None) | (_, Some(Form::Litmus)) => {
            written::litmus(&source.name, &only_case(source)?, None).map(String::into_bytes)
        }
        (Kind::Text(text), Some(Form::Text)) => Ok(text.bytes.clone()),
        (_, Some(Form::Text)) => text_written::text(&only_case(source)?),
    }
}

fn block(case: &Case) -> Result<Vec<u8>, Error> {
    case.table.test().map_err(Error::declined)
}

/// The blocks of all choices of values.
fn blocks(source: &Source) -> Result<Vec<u8>, Error> {
    let mut bytes = Vec::new();
    source.visit(&mut |case| {
        bytes.extend(block(&case)?);
        Ok(true)
    })?;
    if bytes.is_empty() {
        return Err(none(source));
    }
    Ok(bytes)
}

fn none(source: &Source) -> Error {
    let sentence = "no values that the test can read or write meet the condition, so it has no block";
    source.of_question(Error::new(sentence))
}

/// The table of a test whose condition leaves one choice of values.
fn only_case(source: &Source) -> Result<Case, Error> {
    let mut cases = Vec::new();
    source.visit(&mut |case| {
        cases.push(case);
        Ok(cases.len() < 2)
    })?;
    let case = cases.pop().ok_or_else(|| none(source))?;
    if !cases.is_empty() {
        let sentence =
            "the condition leaves several choices of values, and a table states one (--all writes a block for each)";
        return Err(source.of_question(Error::new(sentence)));
    }
    Ok(case)
}
