//! The words of the command line.

use crate::decider::MOST_VISITED;
use crate::error::{quoted, STANDARD_INPUT};
use crate::help;
use crate::litmus::Expected;
use std::ffi::OsString;
use std::fmt;

/// A subcommand.
#[derive(Clone, Copy, PartialEq, Eq, Debug)]
pub enum Subcommand {
    Decide,
    Show,
    Explain,
    Convert,
    Step,
    Outcomes,
    Advise,
    Report,
}

/// A memory model.
#[derive(Clone, Copy, PartialEq, Eq, Debug)]
pub enum Model {
    Rvwmo,
    /// That of the extension Ztso.
    Rvtso,
}

/// A form of tests.
#[derive(Clone, Copy, PartialEq, Eq, Debug)]
pub enum Form {
    Litmus,
    Block,
    Text,
}

/// A form of pictures.
#[derive(Clone, Copy, PartialEq, Eq, Debug)]
pub enum Picture {
    Svg,
    Dot,
}

/// What was asked for.
#[derive(Debug, PartialEq, Eq)]
pub enum Request {
    /// A help text.
    Help(&'static str),
    Run(Options),
}

/// A subcommand with its options. One that it doesn't have keeps its first value.
#[derive(Debug, PartialEq, Eq)]
pub struct Options {
    pub subcommand: Subcommand,
    pub files: Vec<String>,
    pub verbose: bool,
    pub herd: bool,
    pub expect: Option<Expected>,
    pub visit: u64,
    pub model: Option<Model>,
    pub to: Option<Form>,
    pub all: bool,
    pub output: Option<String>,
    /// Pairs of accesses, by their event numbers.
    pub between: Vec<(u8, u8)>,
    pub picture: Option<Picture>,
}

const TRY: &str = "`cogthunder --help` says what there is";

impl Subcommand {
    fn of(word: &str) -> Option<Subcommand> {
        match word {
            "decide" => Some(Subcommand::Decide),
            "show" => Some(Subcommand::Show),
            "explain" => Some(Subcommand::Explain),
            "convert" => Some(Subcommand::Convert),
            "step" => Some(Subcommand::Step),
            "outcomes" => Some(Subcommand::Outcomes),
            "advise" => Some(Subcommand::Advise),
            "report" => Some(Subcommand::Report),
            _ => None,
        }
    }

    fn help(self) -> &'static str {
        match self {
            Subcommand::Decide => help::DECIDE,
            Subcommand::Show => help::SHOW,
            Subcommand::Explain => help::EXPLAIN,
            Subcommand::Convert => help::CONVERT,
            Subcommand::Step => help::STEP,
            Subcommand::Outcomes => help::OUTCOMES,
            Subcommand::Advise => help::ADVISE,
            Subcommand::Report => help::REPORT,
        }
    }

    fn has(self, option: &str) -> bool {
        match option {
            "--visit" => !matches!(self, Subcommand::Convert | Subcommand::Step),
            "--model" => self != Subcommand::Step,
            "-v" | "--verbose" | "--herd" | "--expect" => self == Subcommand::Decide,
            "--svg" | "--dot" => self == Subcommand::Show,
            "-o" | "--output" => !matches!(self, Subcommand::Decide | Subcommand::Explain | Subcommand::Outcomes),
            "--all" => [Subcommand::Convert, Subcommand::Outcomes].contains(&self),
            "--between" => self == Subcommand::Advise,
            "--to" => self == Subcommand::Convert,
            _ => false,
        }
    }
}

/// Reads the words behind the program's name.
pub fn read(words: impl Iterator<Item = OsString>) -> Result<Request, String> {
    let mut words = Vec::from_iter(words).into_iter().map(|word| {
        word.into_string().map_err(|word| format!("the word {} isn't UTF-8", quoted(&word.to_string_lossy())))
    });
    let first = words.next().transpose()?.ok_or(format!("a subcommand is missing; {TRY}"))?;
    if ["--help", "-h", "help"].contains(&first.as_str()) {
        return Ok(Request::Help(help::WHOLE));
    }
    let subcommand = Subcommand::of(&first).ok_or(format!("there is no subcommand {}; {TRY}", quoted(&first)))?;
    let mut options = Options {
        subcommand,
        files: Vec::new(),
        verbose: false,
        herd: false,
        expect: None,
        visit: MOST_VISITED,
        model: None,
        to: None,
        all: false,
        output: None,
        between: Vec::new(),
        picture: None,
    };
    let mut are_files = false;
    while let Some(word) = words.next().transpose()? {
        if ["--help", "-h"].contains(&word.as_str()) && !are_files {
            return Ok(Request::Help(subcommand.help()));
        }
        if word == "--" && !are_files {
            are_files = true;
        } else if are_files || word == STANDARD_INPUT || !word.starts_with('-') {
            options.files.push(word);
        } else {
            options.take(&word, &mut words)?;
        }
    }
    options.check()?;
    Ok(Request::Run(options))
}

impl Options {
    /// Takes an option, and its value from the words behind it.
    fn take(&mut self, option: &str, words: &mut dyn Iterator<Item = Result<String, String>>) -> Result<(), String> {
        if !self.subcommand.has(option) {
            return Err(format!("there is no option {} here; {TRY}", quoted(option)));
        }
        let mut value = || words.next().transpose()?.ok_or(format!("a word is missing behind {option}"));
        match option {
            "-v" | "--verbose" => self.verbose = true,
            "--herd" => self.herd = true,
            "--all" => self.all = true,
            "--svg" => self.picture = Some(Picture::Svg),
            "--dot" => self.picture = Some(Picture::Dot),
            "-o" | "--output" => self.output = Some(value()?),
            "--between" => self.between.push(pair(&value()?)?),
            "--visit" => self.visit = count(&value()?)?,
            "--expect" => self.expect = Some(expected(&value()?)?),
            "--model" => self.model = Some(model(&value()?)?),
            _ => self.to = Some(form(&value()?)?),
        }
        Ok(())
    }

    fn check(&self) -> Result<(), String> {
        if self.files.is_empty() {
            return Err(format!("a file is missing (`-` is standard input); {TRY}"));
        }
        if self.subcommand == Subcommand::Convert && self.files.len() > 1 {
            return Err("convert takes one file".to_string());
        }
        if self.subcommand == Subcommand::Step && self.files.len() > 1 {
            return Err("step takes one file; the steps come from standard input".to_string());
        }
        if self.subcommand == Subcommand::Step && self.files == [STANDARD_INPUT] {
            return Err("step reads the steps from standard input, so the test has to be a file".to_string());
        }
        if self.subcommand == Subcommand::Advise && self.output.is_some() && self.files.len() > 1 {
            return Err("advise takes one file where it writes a test".to_string());
        }
        let is_one = self.picture.is_some() || self.output.is_some();
        if self.subcommand == Subcommand::Show && is_one && self.files.len() > 1 {
            return Err("show takes one file where it writes a picture or to a file".to_string());
        }
        if self.files.iter().filter(|file| *file == STANDARD_INPUT).count() > 1 {
            return Err("standard input can be read only once".to_string());
        }
        Ok(())
    }
}

fn count(word: &str) -> Result<u64, String> {
    word.parse().map_err(|_| format!("--visit takes a number, and not {}", quoted(word)))
}

/// Two event numbers, as in `0,1`.
fn pair(word: &str) -> Result<(u8, u8), String> {
    let numbers = word.split_once(',').and_then(|(a, b)| Some((a.parse().ok()?, b.parse().ok()?)));
    numbers.ok_or(format!("--between takes two event numbers, such as 0,1, and not {}", quoted(word)))
}

fn expected(word: &str) -> Result<Expected, String> {
    match word {
        "allowed" => Ok(Expected::Allowed),
        "forbidden" => Ok(Expected::Forbidden),
        _ => Err(format!("--expect takes allowed or forbidden, and not {}", quoted(word))),
    }
}

fn model(word: &str) -> Result<Model, String> {
    match word {
        "rvwmo" => Ok(Model::Rvwmo),
        "rvtso" => Ok(Model::Rvtso),
        _ => Err(format!("--model takes rvwmo or rvtso, and not {}", quoted(word))),
    }
}

impl fmt::Display for Model {
    fn fmt(&self, f: &mut fmt::Formatter) -> fmt::Result {
        write!(f, "{}", if *self == Model::Rvwmo { "RVWMO" } else { "RVTSO" })
    }
}

fn form(word: &str) -> Result<Form, String> {
    match word {
        "litmus" => Ok(Form::Litmus),
        "block" => Ok(Form::Block),
        "text" => Ok(Form::Text),
        _ => Err(format!("--to takes block, litmus or text, and not {}", quoted(word))),
    }
}

#[cfg(test)]
mod tests {
    use super::*;

    fn read_words(words: &str) -> Result<Request, String> {
        read(words.split_whitespace().map(OsString::from))
    }

    #[test]
    fn options_stand_anywhere() {
        let Ok(Request::Run(options)) = read_words("decide a.litmus -v --expect forbidden - --visit 5 -- -b") else {
            panic!("a request")
        };
        assert_eq!(options.files, ["a.litmus", "-", "-b"]);
        assert!(options.verbose && !options.herd);
        assert_eq!((options.expect, options.visit), (Some(Expected::Forbidden), 5));
        assert_eq!(options.model, None);
        for (word, model) in [("rvwmo", Model::Rvwmo), ("rvtso", Model::Rvtso)] {
            let Ok(Request::Run(options)) = read_words(&format!("show --model {word} x")) else { panic!("a request") };
            assert_eq!(options.model, Some(model));
        }
    }

    #[test]
    fn each_subcommand_has_its_help() {
        assert_eq!(read_words("--help"), Ok(Request::Help(help::WHOLE)));
        let texts = [
            (help::DECIDE, "decide"),
            (help::SHOW, "show"),
            (help::EXPLAIN, "explain"),
            (help::CONVERT, "convert"),
            (help::STEP, "step"),
            (help::OUTCOMES, "outcomes"),
            (help::ADVISE, "advise"),
            (help::REPORT, "report"),
        ];
        for (text, word) in texts {
            assert_eq!(read_words(&format!("{word} x --help")), Ok(Request::Help(text)));
            assert!(text.contains("example: ") && text.contains(&format!("cogthunder {word} ")));
        }
    }

    #[test]
    fn what_is_wrong_is_said() {
        let sentence = |words| read_words(words).unwrap_err();
        assert!(sentence("").starts_with("a subcommand is missing"));
        assert!(sentence("decode x").starts_with("there is no subcommand `decode`"));
        assert!(sentence("decide").starts_with("a file is missing"));
        assert!(sentence("show --herd x").starts_with("there is no option `--herd` here"));
        assert_eq!(sentence("decide --visit x y"), "--visit takes a number, and not `x`");
        assert_eq!(sentence("decide x --expect"), "a word is missing behind --expect");
        assert_eq!(sentence("decide - -"), "standard input can be read only once");
        assert_eq!(sentence("convert x y"), "convert takes one file");
        assert_eq!(sentence("show --svg x y"), "show takes one file where it writes a picture or to a file");
        assert_eq!(sentence("convert --to page x"), "--to takes block, litmus or text, and not `page`");
        assert_eq!(sentence("decide --model tso x"), "--model takes rvwmo or rvtso, and not `tso`");
        assert!(sentence("step --model rvtso x").starts_with("there is no option `--model` here"));
        assert_eq!(sentence("advise --between 1 x"), "--between takes two event numbers, such as 0,1, and not `1`");
        assert_eq!(sentence("advise x y -o z"), "advise takes one file where it writes a test");
        assert_eq!(sentence("step x y"), "step takes one file; the steps come from standard input");
        assert_eq!(sentence("step -"), "step reads the steps from standard input, so the test has to be a file");
    }
}
