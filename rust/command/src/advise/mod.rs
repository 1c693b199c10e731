//! The subcommand `advise`: between which accesses a fence is missing, and the test with the fences put in.

mod block;
mod litmus;

use crate::arguments::Options;
use crate::error::Error;
use crate::fencing::is_clear_fence;
use crate::input::{self, Contents};
use crate::output::{unusable, Output};
use crate::source::{only_of, Kind};
use crate::Status;
use cogthunder::{advise, Advice, Table, EMPTY_FENCES, LARGEST_ALLOWANCE};

/// Advises on the test of each file.
pub fn run(options: &Options, out: &mut Output) -> Result<Status, String> {
    let mut status = Status::Good;
    for file in &options.files {
        match advised(file, options) {
            Ok(advised) => {
                out.lines(&advised.lines())?;
                if let (Some(path), Some(mended)) = (&options.output, &advised.mended) {
                    out.to(Some(path), mended)?;
                }
                if advised.mended.is_none() && status == Status::Good {
                    status = Status::Unexpected;
                }
            }
            Err(error) => status = unusable(file, &error),
        }
    }
    Ok(status)
}

/// What was found out about a test.
struct Advised {
    name: String,
    /// The places of its clear fences, in words.
    places: Vec<String>,
    finding: Finding,
    /// The test with the fences filled, where its outcome is then forbidden.
    mended: Option<Vec<u8>>,
}

/// A set of places, by their numbers, as the library's advice has it.
enum Finding {
    Forbidden(Vec<usize>),
    Undecided(Vec<usize>),
    NoHelp,
}

impl Advised {
    fn lines(&self) -> Vec<String> {
        let name = &self.name;
        let (head, set) = match &self.finding {
            Finding::Forbidden(set) => (format!("{name}: {}", forbidden(set.len())), set),
            Finding::Undecided(set) => (format!("{name}: {}", undecided(set.len())), set),
            Finding::NoHelp => return vec![format!("{name}: {}", no_help(self.places.len()))],
        };
        [vec![head], set.iter().map(|&place| format!("  {}", self.places[place])).collect()].concat()
    }
}

fn forbidden(fences: usize) -> String {
    match fences {
        0 => "forbidden as it is, so that no fence is missing".to_string(),
        1 => "a fence is missing, and with it the outcome is forbidden:".to_string(),
        _ => format!("{fences} fences are missing, and with no fewer the outcome is forbidden:"),
    }
}

fn undecided(fences: usize) -> String {
    let (bound, tried) = ("raise the bound by --visit, or ask for fewer events", "tried with a fence");
    match fences {
        0 => format!("undecided as it is ({bound})"),
        1 => format!("undecided ({bound}); {tried} here:"),
        _ => format!("undecided ({bound}); {tried} in {fences} places:"),
    }
}

fn no_help(places: usize) -> String {
    let tried = match places {
        0 => "there is no place for one".to_string(),
        1 => "it is allowed with one in the only place".to_string(),
        _ => format!("it is allowed with one in each of {places} places"),
    };
    format!("allowed, and fences don't help: {tried}")
}

fn advised(file: &str, options: &Options) -> Result<Advised, Error> {
    let contents = input::read(file)?;
    let text = if let Contents::Litmus(text) = &contents { text.clone() } else { String::new() };
    let source = only_of(file, contents, options.model)?;
    match &source.kind {
        Kind::Litmus(test) => litmus::advised(&source, &text, test, options).map_err(|error| source.of_question(error)),
        Kind::Block(table) => block::advised(&source, table, options),
        Kind::Text(_) => {
            Err(Error::new("advise takes litmus tests and blocks, and this is a text (convert makes one of those)"))
        }
    }
}

/// The library's advice on one table. `place` says which place an event is.
fn asked(table: &Table, options: &Options, place: &dyn Fn(u8) -> usize) -> Result<Finding, Error> {
    let test = table.test().map_err(Error::declined)?;
    let places = |fences: Vec<u8>| fences.into_iter().map(place).collect();
    Ok(match advise(&test, options.visit.min(LARGEST_ALLOWANCE)).map_err(Error::declined)? {
        Advice::Advised(fences) => Finding::Forbidden(places(fences)),
        Advice::Undecided(fences) => Finding::Undecided(places(fences)),
        Advice::NoHelp => Finding::NoHelp,
    })
}

fn too_many(count: usize) -> Error {
    Error::new(format!(
        "a fence could be missing in {count} places, and at most {EMPTY_FENCES} are tried (--between A,B chooses)"
    ))
}

/// The gaps that are asked for, or all.
fn chosen<T: Copy>(gaps: Vec<(T, (u8, u8))>, between: &[(u8, u8)]) -> Result<Vec<T>, Error> {
    if let Some((a, b)) = between.iter().find(|pair| !gaps.iter().any(|(_, gap)| gap == *pair)) {
        let sentence = format!("({a}) and ({b}) aren't neighbouring accesses of a hart without a full fence between");
        return Err(Error::new(sentence));
    }
    let is_asked = |gap: &(u8, u8)| between.is_empty() || between.contains(gap);
    let places: Vec<T> = gaps.into_iter().filter(|(_, gap)| is_asked(gap)).map(|(place, _)| place).collect();
    match places.len() {
        count if count > EMPTY_FENCES => Err(too_many(count)),
        _ => Ok(places),
    }
}

/// A test that has clear fences of its own is asked about those.
fn own_fences(count: usize, options: &Options) -> Result<bool, Error> {
    if count == 0 {
        return Ok(false);
    }
    if !options.between.is_empty() {
        return Err(Error::new(
            "the test has fences with no sets of its own, and these are tried, not those of --between",
        ));
    }
    if count > EMPTY_FENCES {
        return Err(Error::new(format!(
            "the test has {count} fences with no sets, and at most {EMPTY_FENCES} are tried"
        )));
    }
    Ok(true)
}

fn clear_fences(table: &Table) -> Vec<u8> {
    (0..table.count).filter(|&number| is_clear_fence(&table.events[usize::from(number)])).collect()
}

/// The number that an event had before fences were put in.
fn before_fences(fences: &[u8], event: u8) -> u8 {
    event - fences.iter().filter(|&&fence| fence < event).count() as u8
}

#[cfg(test)]
mod tests {
    use super::*;

    #[test]
    fn gaps_are_chosen_by_their_accesses() {
        let gaps = || vec![('a', (0, 1)), ('b', (2, 4))];
        assert_eq!(chosen(gaps(), &[]).unwrap(), ['a', 'b']);
        assert_eq!(chosen(gaps(), &[(2, 4)]).unwrap(), ['b']);
        let error = chosen(gaps(), &[(2, 4), (0, 2)]).unwrap_err();
        assert!(error.sentence.starts_with("(0) and (2) aren't neighbouring accesses"));
        let nine: Vec<(u8, (u8, u8))> = (0..9).map(|k| (k, (k, k + 1))).collect();
        assert!(chosen(nine.clone(), &[]).unwrap_err().sentence.contains("in 9 places"));
        assert_eq!(chosen(nine, &[(8, 9)]).unwrap(), [8]);
    }
}
