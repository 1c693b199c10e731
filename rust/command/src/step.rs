//! The subcommand `step`: a test on the library's machine for RVTSO, step by step.

use crate::arguments::{Model, Options};
use crate::case::Case;
use crate::error::{quoted, Error};
use crate::input::io_words;
use crate::output::{complain, unusable, Output};
use crate::picture::{self, instruction, is_fence};
use crate::record::{AMO, SC, STORE};
use crate::source::{only, Source};
use crate::Status;
use cogthunder::{step, verdict, Taken, Verdict, INITIALLY, NOTHING};
use std::io::{stdin, BufRead, IsTerminal};

/// A step is the hart to issue, or the hart plus this number to drain.
const DRAIN: u8 = 4;
const STEPS: std::ops::Range<u8> = 0..2 * DRAIN;

/// Reads steps from standard input, shows the machine behind each line, and writes the steps to a file if one is named.
pub fn run(options: &Options, out: &mut Output) -> Result<Status, String> {
    let file = &options.files[0];
    let mut session = match session(file) {
        Ok(session) => session,
        Err(error) => return Ok(unusable(file, &error)),
    };
    out.lines(&session.head())?;
    out.lines(&session.machine().lines())?;
    let status = follow(&mut session, out)?;
    if let Some(path) = &options.output {
        out.to(Some(path), session.written().as_bytes())?;
    }
    Ok(status)
}

/// Takes the steps of standard input, up to its end or `quit`.
fn follow(session: &mut Session, out: &mut Output) -> Result<Status, String> {
    let mut status = Status::Good;
    prompt(out)?;
    for line in stdin().lock().lines() {
        let line = line.map_err(|error| format!("standard input: {}", io_words(&error)))?;
        for word in line.split_whitespace() {
            match session.word(word) {
                Ok(Turn::Quit) => return Ok(status),
                Ok(Turn::Said(line)) => out.lines(&[line])?,
                Err(sentence) => {
                    complain(&sentence);
                    status = Status::Unusable;
                }
            }
        }
        out.lines(&session.machine().lines())?;
        prompt(out)?;
    }
    Ok(status)
}

/// Only a terminal is asked for the next line.
fn prompt(out: &mut Output) -> Result<(), String> {
    if stdin().is_terminal() {
        return out.bytes(b"> ");
    }
    Ok(())
}

/// The table of a file's test.
fn session(file: &str) -> Result<Session, Error> {
    let source = only(file, Some(Model::Rvtso))?;
    let case = first_case(&source)?;
    let test = case.table.test().map_err(|refusal| source.of_question(Error::declined(refusal)))?;
    Ok(Session { name: source.name, case, test, steps: Vec::new(), taken: Vec::new() })
}

fn first_case(source: &Source) -> Result<Case, Error> {
    let mut first = None;
    source.visit(&mut |case| {
        first = Some(case);
        Ok(false)
    })?;
    let none = "no values that the test can read or write meet the condition, so it has no table";
    first.ok_or_else(|| source.of_question(Error::new(none)))
}

/// What a word of the input did.
enum Turn {
    Said(String),
    Quit,
}

/// A test, the steps so far, and what the library answered to each.
struct Session {
    name: String,
    case: Case,
    test: Vec<u8>,
    steps: Vec<u8>,
    taken: Vec<Taken>,
}

impl Session {
    fn head(&self) -> Vec<String> {
        let mut lines = vec![self.name.clone()];
        lines.extend(picture::model_line(&self.case));
        lines.extend([format!("initially {}", picture::initial(&self.case)), String::new()]);
        lines.extend(picture::columns(&self.case));
        lines.push(String::new());
        lines
    }

    fn word(&mut self, word: &str) -> Result<Turn, String> {
        match (word, word.parse()) {
            ("quit", _) => Ok(Turn::Quit),
            ("undo", _) => self.undo().map(Turn::Said),
            (_, Ok(number)) if STEPS.contains(&number) => self.step(number).map(Turn::Said),
            _ => Err(format!("{} is no step from 0 to 7, undo or quit", quoted(word))),
        }
    }

    /// The steps so far on one line, as standard input takes them.
    fn written(&self) -> String {
        let numbers: Vec<String> = self.steps.iter().map(u8::to_string).collect();
        numbers.join(" ") + "\n"
    }

    fn undo(&mut self) -> Result<String, String> {
        let last = self.steps.pop().zip(self.taken.pop());
        let (number, taken) = last.ok_or("there is no step to take back".to_string())?;
        Ok(format!("back before {}", self.words(number, taken)))
    }

    fn step(&mut self, number: u8) -> Result<String, String> {
        let refused = |_| format!("the machine doesn't take step {number} now");
        let taken = step(&self.test, &self.steps, number.into()).map_err(refused)?;
        self.steps.push(number);
        self.taken.push(taken);
        Ok(self.words(number, taken))
    }

    /// A step with its event, as in `0  P0 issues (1) lw x7, 0(x6): R y=0 initially`.
    fn words(&self, number: u8, taken: Taken) -> String {
        let event = usize::from(taken.event);
        let verb = if number < DRAIN { "issues" } else { "drains" };
        let hart = self.case.table.events[event].hart;
        let words = format!("{number}  P{hart} {verb} ({event}) {}", instruction(&self.case, event));
        match values(&self.case, taken) {
            None => words,
            Some(values) => format!("{words}: {values}"),
        }
    }

    /// The machine behind the steps so far.
    fn machine(&self) -> Machine<'_> {
        let harts = usize::from(self.case.table.harts);
        let mut machine = Machine {
            session: self,
            issued: 0,
            buffers: vec![Vec::new(); harts],
            memory: vec![INITIALLY; self.case.locations.len()],
            order: Vec::new(),
            returned: vec![NOTHING; self.case.texts.len()],
        };
        for (&number, &taken) in self.steps.iter().zip(&self.taken) {
            machine.take(number, taken);
        }
        machine
    }
}

/// What a step reads and writes. The value read is the one that the table states of the write returned from.
fn values(case: &Case, taken: Taken) -> Option<String> {
    let event = &case.table.events[usize::from(taken.event)];
    let name = &case.locations[usize::from(event.location)];
    let (read, written) = (held(case, event.location, taken.entry), format!("W {name}={}", event.written));
    match event.kind {
        _ if is_fence(event) => None,
        STORE | SC => Some(written),
        AMO => Some(format!("R {read}, {written}")),
        _ => Some(format!("R {read}")),
    }
}

/// A location with the value of the write named, as in `x=1 from (0)`.
fn held(case: &Case, location: u8, writer: u8) -> String {
    let name = &case.locations[usize::from(location)];
    match writer {
        INITIALLY => format!("{name}={} initially", case.table.initial[usize::from(location)]),
        NOTHING => name.clone(),
        _ => format!("{name}={} from ({writer})", case.table.events[usize::from(writer)].written),
    }
}

/// Where the steps have led.
struct Machine<'a> {
    session: &'a Session,
    issued: usize,
    /// For each hart the stores that it has issued and not drained, oldest first.
    buffers: Vec<Vec<u8>>,
    /// For each location its last write, or `INITIALLY`.
    memory: Vec<u8>,
    /// The drains, loads, LRs and AMOs.
    order: Vec<u8>,
    returned: Vec<u8>,
}

impl Machine<'_> {
    fn take(&mut self, number: u8, taken: Taken) {
        let event = &self.session.case.table.events[usize::from(taken.event)];
        let buffer = &mut self.buffers[usize::from(event.hart)];
        let (is_issue, is_store) = (number < DRAIN, matches!(event.kind, STORE | SC));
        self.issued += usize::from(is_issue);
        self.returned[usize::from(taken.event)] = taken.entry;
        if is_issue && is_store {
            buffer.push(taken.event);
            return;
        }
        buffer.retain(|&store| store != taken.event);
        if is_store || event.kind == AMO {
            self.memory[usize::from(event.location)] = taken.event;
        }
        if !is_fence(event) {
            self.order.push(taken.event);
        }
    }

    fn is_complete(&self) -> bool {
        self.issued == self.returned.len() && self.buffers.iter().all(Vec::is_empty)
    }

    fn lines(&self) -> Vec<String> {
        let case = &self.session.case;
        let memory = (0..).zip(&self.memory).map(|(location, &writer)| held(case, location, writer));
        let mut lines = vec![format!("memory: {}", memory.collect::<Vec<String>>().join("; "))];
        lines.extend(
            self.buffers.iter().enumerate().map(|(hart, buffer)| format!("buffer of P{hart}:{}", self.stores(buffer))),
        );
        lines.push(format!("order:{}", listed(&self.order)));
        lines.extend(self.next());
        lines
    }

    fn stores(&self, buffer: &[u8]) -> String {
        let store = |&event: &u8| {
            values(&self.session.case, Taken { event, entry: NOTHING }).map(|w| format!(" ({event}) {w}"))
        };
        let stores: Vec<String> = buffer.iter().filter_map(store).collect();
        if stores.is_empty() {
            return " empty".to_string();
        }
        stores.join(";")
    }

    /// The steps that can be taken now, or how the run ended.
    fn next(&self) -> Vec<String> {
        let Session { test, steps, .. } = self.session;
        let accepted: Vec<String> = STEPS
            .filter_map(|number| Some((number, step(test, steps, number.into()).ok()?)))
            .map(|(number, taken)| format!("  {}", self.session.words(number, taken)))
            .collect();
        if !accepted.is_empty() {
            return [vec!["steps:".to_string()], accepted].concat();
        }
        vec![if self.is_complete() { self.outcome() } else { STUCK.to_string() }]
    }

    fn outcome(&self) -> String {
        match verdict(&self.session.test, &self.returned, &self.order) {
            Ok(Verdict::Allowed) => "the run is complete, and has the stated outcome".to_string(),
            Ok(Verdict::Broken(axiom)) => format!("the run is complete, and has another outcome: {axiom}"),
            Err(refusal) => format!("the run is complete, and its order is {refusal}"),
        }
    }
}

const STUCK: &str = "no step is left, and the run isn't complete: an SC can't drain any more";

/// Events, as in ` 1 0`.
fn listed(events: &[u8]) -> String {
    if events.is_empty() {
        return " empty".to_string();
    }
    events.iter().map(|event| format!(" {event}")).collect()
}
