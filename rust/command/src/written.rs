//! A table as a litmus test: instructions that have its events, annotations and dependencies, and a condition that states its
//! values.

use crate::arguments::Model;
use crate::case::Case;
use crate::error::Error;
use crate::picture::{fence_words, is_fence, members, model_of};
use crate::record::{ACQUIRE, AMO, AMOS, FENCE_TSO, LOAD, LR, RCPC, RELEASE, SC, STORE};
use crate::text_condition::Condition;
use cogthunder::Event;

/// The first register that is used; those below are for calls and stacks.
const FIRST_REGISTER: u8 = 5;
const LAST_REGISTER: u8 = 31;

/// The text of a litmus file. It asks for the table's values, or where there is a condition of a text, for that.
pub fn litmus(name: &str, case: &Case, asked: Option<&Condition>) -> Result<String, Error> {
    if model_of(&case.table) == Model::Rvtso {
        return Err(Error::new("the test is of the model RVTSO, which a litmus file can't state"));
    }
    let harts: Vec<Writer> = (0..case.table.harts).map(|hart| writer(case, hart)).collect::<Result<_, _>>()?;
    let mut text = format!("RISCV {name}\n{{\n");
    for (location, value) in case.locations.iter().zip(case.table.initial) {
        text.push_str(&format!("{location}={value};\n"));
    }
    for hart in &harts {
        if !hart.initial.is_empty() {
            text.push_str(&format!("{};\n", hart.initial.join("; ")));
        }
    }
    text.push_str("}\n");
    text.push_str(&columns(&harts));
    let is_asked = |number: usize| asked.is_none() || case.table.events[number].kind == SC;
    let atoms = harts.iter().flat_map(|hart| hart.results.iter().map(move |result| (hart, result)));
    let mut atoms: Vec<String> = atoms
        .filter(|(_, (number, _))| is_asked(*number))
        .map(|(hart, (number, register))| format!("{}:{register}={}", hart.hart, case.table.events[*number].read))
        .collect();
    for (location, name) in case.locations.iter().enumerate() {
        if case.table.stated >> location & 1 == 1 {
            atoms.push(format!("{name}={}", case.table.finals[location]));
        }
    }
    atoms.extend(asked.map(|condition| words(condition, case, &harts)));
    let condition = if atoms.is_empty() { "true".to_string() } else { atoms.join(" /\\ ") };
    text.push_str(&format!("exists ({condition})\n"));
    Ok(text)
}

/// The condition of a text, over registers.
fn words(condition: &Condition, case: &Case, harts: &[Writer]) -> String {
    let inner = |condition: &Condition| words(condition, case, harts);
    match condition {
        Condition::Reads(event, value) => {
            let hart = case.table.events[usize::from(*event)].hart;
            format!("{hart}:{}={value}", harts[usize::from(hart)].result(*event))
        }
        Condition::Ends(location, value) => format!("{}={value}", case.locations[usize::from(*location)]),
        Condition::Not(condition) => format!("not ({})", inner(condition)),
        Condition::Both(left, right) => format!("({} /\\ {})", inner(left), inner(right)),
        Condition::Either(left, right) => format!("({} \\/ {})", inner(left), inner(right)),
    }
}

fn columns(harts: &[Writer]) -> String {
    let columns: Vec<Vec<String>> =
        harts.iter().map(|writer| [vec![format!("P{}", writer.hart)], writer.lines.clone()].concat()).collect();
    let height = columns.iter().map(Vec::len).max().unwrap_or(0);
    let widths: Vec<usize> = columns.iter().map(|lines| lines.iter().map(String::len).max().unwrap_or(0)).collect();
    let mut text = String::new();
    for row in 0..height {
        let cells = columns
            .iter()
            .zip(&widths)
            .map(|(lines, width)| format!(" {:width$} ", lines.get(row).map_or("", String::as_str), width = *width));
        text.push_str(&cells.collect::<Vec<String>>().join("|"));
        text.push_str(";\n");
    }
    text
}

/// The instructions of one hart as they are put together.
struct Writer<'a> {
    case: &'a Case,
    hart: u8,
    next: u8,
    lines: Vec<String>,
    initial: Vec<String>,
    /// The register that each event of the hart has its value or result in.
    results: Vec<(usize, String)>,
    /// What initial registers hold.
    held: Vec<(String, String)>,
    /// The events that branches so far were on.
    control: u32,
}

fn writer(case: &Case, hart: u8) -> Result<Writer<'_>, Error> {
    let mut writer = Writer {
        case,
        hart,
        next: FIRST_REGISTER,
        lines: Vec::new(),
        initial: Vec::new(),
        results: Vec::new(),
        held: Vec::new(),
        control: 0,
    };
    for (number, event) in case.table.events[..case.texts.len()].iter().enumerate() {
        if event.hart == hart {
            writer.event(number, event)?;
        }
    }
    Ok(writer)
}

impl Writer<'_> {
    fn register(&mut self) -> Result<String, Error> {
        if self.next > LAST_REGISTER {
            return Err(Error::new(format!("hart {} would need more registers than there are", self.hart)));
        }
        self.next += 1;
        Ok(format!("x{}", self.next - 1))
    }

    /// A register that holds something from the beginning.
    fn holding(&mut self, what: String) -> Result<String, Error> {
        if what == "0" {
            return Ok("x0".to_string());
        }
        if let Some((_, register)) = self.held.iter().find(|(held, _)| *held == what) {
            return Ok(register.clone());
        }
        let register = self.register()?;
        self.initial.push(format!("{}:{register}={what}", self.hart));
        self.held.push((what, register.clone()));
        Ok(register)
    }

    fn event(&mut self, number: usize, event: &Event) -> Result<(), Error> {
        if is_fence(event) {
            let text = if event.kind == FENCE_TSO { "fence.tso".to_string() } else { fence_words(event.flags) };
            self.lines.push(text);
            return Ok(());
        }
        if event.flags & RCPC != 0 {
            return Err(Error::new(format!("event {number} has an RCpc annotation, which no instruction has")));
        }
        for on in members(event.control & !self.control) {
            let register = self.result(on);
            let label = format!("L{}{}", self.hart, self.lines.len());
            self.lines.push(format!("bne {register}, x0, {label}"));
            self.lines.push(format!("{label}:"));
        }
        self.control |= event.control;
        self.access(number, event)
    }

    fn result(&self, event: u8) -> String {
        let found = self.results.iter().find(|(number, _)| *number == usize::from(event));
        found.expect("a mask names earlier events of its hart that have a result").1.clone()
    }

    /// A register with what `base` holds, that depends on the events of a mask.
    fn depending(&mut self, base: String, mask: u32) -> Result<String, Error> {
        let mut register = base;
        for on in members(mask) {
            let (source, zero) = (self.result(on), self.register()?);
            self.lines.push(format!("xor {zero}, {source}, {source}"));
            self.lines.push(format!("add {zero}, {zero}, {register}"));
            register = zero;
        }
        Ok(register)
    }

    fn access(&mut self, number: usize, event: &Event) -> Result<(), Error> {
        let location = self.case.locations[usize::from(event.location)].clone();
        let base = self.holding(location)?;
        let address = self.depending(base, event.address)?;
        let value = if event.operation == 0 { event.written } else { event.operand.into() };
        let mut from = String::new();
        if matches!(event.kind, STORE | AMO | SC) {
            let held = self.holding(value.to_string())?;
            from = self.depending(held, event.data)?;
        }
        let word = word(event);
        if event.kind == STORE {
            self.lines.push(format!("{word} {from}, 0({address})"));
            return Ok(());
        }
        let to = self.register()?;
        self.lines.push(match event.kind {
            LOAD => format!("{word} {to}, 0({address})"),
            LR => format!("{word} {to}, ({address})"),
            _ => format!("{word} {to}, {from}, ({address})"),
        });
        self.results.push((number, to));
        Ok(())
    }
}

/// The instruction of a memory event with its annotations.
fn word(event: &Event) -> String {
    let root = match event.kind {
        LOAD => "lw".to_string(),
        STORE => "sw".to_string(),
        LR => "lr.w".to_string(),
        SC => "sc.w".to_string(),
        _ => format!("{}.w", AMOS[usize::from(event.operation)]),
    };
    let annotation = match event.flags & (ACQUIRE | RELEASE) {
        0 => "",
        ACQUIRE => ".aq",
        RELEASE => ".rl",
        _ => ".aqrl",
    };
    root + annotation
}

#[cfg(test)]
mod tests {
    use super::*;
    use crate::choices::Choices;
    use crate::litmus::read;
    use crate::random::{table, Numbers};
    use cogthunder::{Annotation, Table};

    #[test]
    fn a_table_written_and_read_again_is_the_same() {
        let (mut numbers, mut read_again) = (Numbers(1), 0);
        for _ in 0..500 {
            let table = table(&mut numbers);
            table.block().expect("the table is good");
            let text = litmus("a", &Case::of_table(table.clone()), None).expect("it can be written");
            let test = read(&text).unwrap_or_else(|error| panic!("{error:?}\n{text}"));
            let mut found = Vec::new();
            let choices = Choices::asked(&test).unwrap_or_else(|error| panic!("{error:?}\n{text}"));
            choices
                .visit(&mut |choice| {
                    found.push(Case::of(&test, &choice)?.table);
                    Ok(true)
                })
                .unwrap();
            // Where nobody writes a value that is read, there is no choice.
            assert!(found.is_empty() || found == [table], "{text}");
            read_again += found.len();
        }
        assert!(read_again > 100, "{read_again}");
    }

    #[test]
    fn what_no_instruction_says_is_an_error() {
        let mut table = Table::new(1, 1);
        table.load(0, 0, 0);
        table.annotate(0, Annotation::AcquireRcpc);
        let error = litmus("a", &Case::of_table(table), None).unwrap_err();
        assert_eq!(error.sentence, "event 0 has an RCpc annotation, which no instruction has");
        let mut table = Table::new(1, 1);
        table.load(0, 0, 0);
        table.tso();
        let error = litmus("a", &Case::of_table(table), None).unwrap_err();
        assert_eq!(error.sentence, "the test is of the model RVTSO, which a litmus file can't state");
        let mut table = Table::new(1, 1);
        for _ in 0..28 {
            table.load(0, 0, 0);
        }
        assert!(litmus("a", &Case::of_table(table), None).unwrap_err().sentence.contains("more registers"));
    }
}
