//! The tests of a file.

use crate::arguments::{Model, Options};
use crate::case::Case;
use crate::choices::Choices;
use crate::decider::{Decider, Decision};
use crate::error::Error;
use crate::input::{self, Contents};
use crate::litmus::{self, Expected};
use crate::output::unusable;
use crate::picture::model_of;
use crate::progress::Progress;
use crate::text::{self, Text};
use crate::Status;
use cogthunder::{Refusal, Table, Tests};
use std::path::Path;

/// A test of a file, with the name that it is called by.
pub struct Source {
    pub name: String,
    pub kind: Kind,
}

/// What a test is written as.
pub enum Kind {
    Litmus(Box<litmus::Test>),
    /// A block, or the three of edition 2.
    Block(Box<Table>),
    Text(Box<Text>),
}

impl Source {
    /// Asks the library about the test. A text is undecided where more prefixes than the bound would be visited.
    pub fn decide(&self, most: u64, progress: &mut Progress) -> Result<Decision, Error> {
        progress.task(&self.name);
        let decider = Decider::new();
        let decision = match &self.kind {
            Kind::Litmus(test) => decider.litmus(test).map_err(|error| error.or_line(test.question.line)),
            Kind::Block(table) => decider.case(Case::of_table((**table).clone())),
            Kind::Text(text) => decider.text(text, most, progress),
        };
        progress.clear();
        decision
    }

    /// Calls `each` with every table whose values meet the condition, until it answers false.
    pub fn visit(&self, each: &mut dyn FnMut(Case) -> Result<bool, Error>) -> Result<(), Error> {
        let visited = match &self.kind {
            Kind::Litmus(test) => {
                Choices::asked(test).and_then(|choices| choices.visit(&mut |choice| each(Case::of(test, &choice)?)))
            }
            Kind::Block(table) => each(Case::of_table((**table).clone())).map(|_| ()),
            Kind::Text(text) => text.visit(each),
        };
        visited.map_err(|error| self.of_question(error))
    }

    /// An error about what is asked, with its line.
    pub fn of_question(&self, error: Error) -> Error {
        match &self.kind {
            Kind::Litmus(test) => error.or_line(test.question.line),
            Kind::Block(_) => error,
            Kind::Text(text) => error.or_line(text.bytes.iter().filter(|&&byte| byte == b'\n').count()),
        }
    }

    /// The model that it is of.
    pub fn model(&self) -> Model {
        match &self.kind {
            Kind::Litmus(test) => test.model,
            Kind::Block(table) => model_of(table),
            Kind::Text(text) => model_of(&text.table),
        }
    }

    /// What its file expects of it, in RVWMO.
    pub fn expected(&self) -> Option<Expected> {
        match &self.kind {
            Kind::Litmus(test) => test.expected.filter(|_| test.model == Model::Rvwmo),
            Kind::Block(_) | Kind::Text(_) => None,
        }
    }
}

fn refused(refusal: Refusal) -> Error {
    Error::new(refusal.to_string())
}

/// The tests of a file, each of which may be refused. A model that is asked for is that of a litmus test, and has to be the one
/// that a block states; texts are of RVWMO.
pub fn tests(file: &str, model: Option<Model>) -> Result<Vec<Result<Source, Error>>, Error> {
    of_contents(file, input::read(file)?, model)
}

fn of_contents(file: &str, contents: Contents, model: Option<Model>) -> Result<Vec<Result<Source, Error>>, Error> {
    match contents {
        Contents::Litmus(text) => {
            let mut test = litmus::read(&text)?;
            test.model = model.unwrap_or(test.model);
            Ok(vec![Ok(Source { name: test.name.clone(), kind: Kind::Litmus(Box::new(test)) })])
        }
        Contents::Blocks(bytes) => Ok(blocks(file, &bytes, model)),
        Contents::Text(bytes) => Ok(vec![Ok(of_text(file, bytes, model)?)]),
    }
}

fn of_text(file: &str, bytes: Vec<u8>, model: Option<Model>) -> Result<Source, Error> {
    let text = text::read(bytes)?;
    match model.filter(|&model| model != model_of(&text.table)) {
        Some(model) => Err(Error::new(format!("a text is of the model {}, and not {model}", model_of(&text.table)))),
        None => Ok(Source { name: base(file), kind: Kind::Text(Box::new(text)) }),
    }
}

/// The name of a file without its folders.
fn base(file: &str) -> String {
    Path::new(file).file_name().map_or(file.into(), |name| name.to_string_lossy()).to_string()
}

/// The tests of a suite. One that is alone has the name of its file.
fn blocks(file: &str, bytes: &[u8], model: Option<Model>) -> Vec<Result<Source, Error>> {
    let base = base(file);
    let tests: Vec<(u64, &[u8])> = Tests::of(bytes).collect();
    let is_alone = tests.len() == 1;
    let source = |(number, test): &(u64, &[u8])| {
        let name = if is_alone { base.to_string() } else { format!("{base} block {number}") };
        let subject = if is_alone { "the test".to_string() } else { format!("block {number}") };
        match Table::of_test(test) {
            Ok(table) => match model.filter(|&model| model != model_of(&table)) {
                Some(model) => {
                    Err(Error::new(format!("{subject} states the model {}, and not {model}", model_of(&table))))
                }
                None => Ok(Source { name, kind: Kind::Block(Box::new(table)) }),
            },
            Err(refusal) if is_alone => Err(refused(refusal)),
            Err(refusal) => Err(Error::new(format!("block {number} is {refusal}"))),
        }
    };
    tests.iter().map(source).collect()
}

/// Makes something of the only test of each file, and hands it on. A file with which that can't be done is complained about.
pub fn each<T>(
    options: &Options,
    make: impl Fn(&Source) -> Result<T, Error>,
    mut hand_on: impl FnMut(T) -> Result<(), String>,
) -> Result<Status, String> {
    let mut status = Status::Good;
    for file in &options.files {
        match only(file, options.model).and_then(|source| make(&source)) {
            Ok(made) => hand_on(made)?,
            Err(error) => status = unusable(file, &error),
        }
    }
    Ok(status)
}

/// The only test of a file.
pub fn only(file: &str, model: Option<Model>) -> Result<Source, Error> {
    only_of(file, input::read(file)?, model)
}

/// The same of a file that has been read.
pub fn only_of(file: &str, contents: Contents, model: Option<Model>) -> Result<Source, Error> {
    let mut tests = of_contents(file, contents, model)?;
    if tests.len() != 1 {
        return Err(Error::new(format!("the file has {} tests, and this takes one", tests.len())));
    }
    tests.remove(0)
}
