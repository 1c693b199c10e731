//! The outcomes of a test as rows, asked of the proved library table by table.

use crate::case::Case;
use crate::choices::{Choice, Choices};
use crate::error::Error;
use crate::litmus::{place_words, Action, Place, Test};
use crate::record::reads;
use crate::run::{self, Run};
use crate::source::{Kind, Source};
use crate::text::{without_reads, Text};
use crate::value::Value;
use cogthunder::{Outcomes, Table, Unlisted, LARGEST_ALLOWANCE};
use std::collections::{BTreeMap, BTreeSet};

/// What the places of a test hold at the end, ascending, and whether that is what its condition or, of a block, its stated values
/// ask for.
pub type Rows = BTreeMap<Vec<Value>, bool>;

/// The outcomes of a test.
pub struct Listing {
    /// What each value of a row is of.
    pub names: Vec<String>,
    pub rows: Rows,
}

/// All outcomes; for a litmus test what the places hold that its question names, or all of them. None if a table has more clean
/// prefixes than `most`.
pub fn of(source: &Source, all: bool, most: u64) -> Result<Option<Listing>, Error> {
    let most = most.min(LARGEST_ALLOWANCE);
    match &source.kind {
        Kind::Litmus(test) => of_litmus(test, &places(test, all), most),
        Kind::Block(table) => of_block(table, most),
        Kind::Text(text) => of_text(text, most),
    }
    .map_err(|error| source.of_question(error))
}

/// The outcomes of a table, unless it has more clean prefixes than `most`.
fn outcomes(table: &Table, most: u64) -> Result<Option<Vec<Vec<u16>>>, Error> {
    let test = table.test().map_err(Error::declined)?;
    match Outcomes::of(&test, most) {
        Ok(outcomes) => Ok(Some(outcomes.collect())),
        Err(Unlisted::Spent) => Ok(None),
        Err(Unlisted::Refused(refusal)) => Err(Error::declined(refusal)),
    }
}

/// The numbers of the events that read.
fn readers(table: &Table) -> impl Iterator<Item = u8> + '_ {
    (0..table.count).filter(|&event| reads(&table.events[usize::from(event)]))
}

fn of_block(table: &Table, most: u64) -> Result<Option<Listing>, Error> {
    let case = Case::of_table(table.clone());
    let reads = readers(table).map(|event| {
        let location = usize::from(table.events[usize::from(event)].location);
        format!("({event}) {}", case.locations[location])
    });
    let names = reads.chain(case.locations.iter().cloned()).collect();
    let is_stated = |reads: &[u16], ends: &[u16]| {
        let stated = readers(table).map(|event| table.events[usize::from(event)].read);
        let is_end = |location: usize| table.stated >> location & 1 == 0 || ends[location] == table.finals[location];
        stated.eq(reads.iter().copied()) && (0..ends.len()).all(is_end)
    };
    of_table(table, names, &is_stated, most)
}

fn of_text(text: &Text, most: u64) -> Result<Option<Listing>, Error> {
    let table = text.stated();
    let names = readers(&table).map(|event| format!("r{event}"));
    let names = names.chain((0..table.locations).map(|location| format!("x{location}"))).collect();
    let holds = |reads: &[u16], ends: &[u16]| {
        let read = |event: u8| readers(&table).position(|reader| reader == event).map(|place| reads[place]);
        text.condition.holds(&read, &|location| ends.get(usize::from(location)).copied()) == Some(true)
    };
    of_table(&table, names, &holds, most)
}

/// The outcomes of one table; `is_asked` is told what the readers return and where the locations end.
fn of_table(
    table: &Table,
    names: Vec<String>,
    is_asked: &dyn Fn(&[u16], &[u16]) -> bool,
    most: u64,
) -> Result<Option<Listing>, Error> {
    let Some(outcomes) = outcomes(table, most)? else { return Ok(None) };
    let row = |outcome: Vec<u16>| {
        let (reads, ends) = outcome.split_at(readers(table).count());
        let is_asked = is_asked(reads, ends);
        (outcome.iter().map(|&value| Value::number(value.into())).collect(), is_asked)
    };
    Ok(Some(Listing { names, rows: outcomes.into_iter().map(row).collect() }))
}

/// The registers and locations that the question names; where it names none, or all are asked for, the registers that take
/// a value read, and all locations. Registers come first, by their harts.
fn places(test: &Test, all: bool) -> Vec<Place> {
    let mut places = test.question.observed();
    if all || places.is_empty() {
        for (hart, program) in test.harts.iter().map(|hart| &hart.program).enumerate() {
            let is_read = |action: &Action| matches!(action, Action::Access(access) if run::reads(access.kind));
            let actions = program.iter().map(|instruction| &instruction.action).filter(|action| is_read(action));
            places.extend(actions.filter_map(Action::destination).map(|register| Place::Register(hart, register)));
        }
        places.extend((0..test.locations.len()).map(Place::Location));
    }
    places.sort_by_key(Place::rank);
    places.dedup();
    places
}

/// Where a write depends on what is read, by its value, its address or a branch, a litmus test has several tables. An
/// outcome of one of them is one of the test if the harts, given the values read, have that table.
fn of_litmus(test: &Test, places: &[Place], most: u64) -> Result<Option<Listing>, Error> {
    let mut gathered = Gathered { test, places, asked: BTreeSet::new(), rows: Rows::new() };
    let mut is_decided = true;
    Choices::shapes(test)?.visit(&mut |choice| {
        is_decided = gathered.add(&choice, most)?;
        Ok(is_decided)
    })?;
    let names = places.iter().map(|&place| place_words(place, &test.locations)).collect();
    Ok(is_decided.then_some(Listing { names, rows: gathered.rows }))
}

/// The rows of a litmus test so far.
struct Gathered<'a> {
    test: &'a Test,
    places: &'a [Place],
    /// The tables that the library was asked about.
    asked: BTreeSet<Vec<u8>>,
    rows: Rows,
}

impl Gathered<'_> {
    /// Adds the outcomes of a choice's table. False if that has more clean prefixes than `most`.
    fn add(&mut self, choice: &Choice, most: u64) -> Result<bool, Error> {
        let table = without_reads(&Case::of(self.test, choice)?.table);
        if !self.asked.insert(table.test().map_err(Error::declined)?) {
            return Ok(true);
        }
        let Some(outcomes) = outcomes(&table, most)? else { return Ok(false) };
        for outcome in outcomes {
            self.take(&table, &outcome)?;
        }
        Ok(true)
    }

    /// Adds an outcome of a table, if the harts have that table with the values read.
    fn take(&mut self, table: &Table, outcome: &[u16]) -> Result<(), Error> {
        let (reads, ends) = outcome.split_at(readers(table).count());
        let Some(runs) = self.runs(table, reads) else { return Ok(()) };
        let case = Case::of(self.test, &Choice { runs: runs.iter().collect(), finals: Vec::new() })?;
        if without_reads(&case.table) != *table {
            return Ok(());
        }
        let value = |place: Place| match place {
            Place::Register(hart, register) => runs[hart].registers[register.index()],
            Place::Location(location) => {
                let number = case.locations.iter().position(|name| *name == self.test.locations[location]);
                Value::number(number.map_or(self.test.initial[location], |number| ends[number]).into())
            }
        };
        let holds = self.test.question.condition.holds(&|place| Some(value(place)));
        self.rows.insert(self.places.iter().map(|&place| value(place)).collect(), holds == Some(true));
        Ok(())
    }

    /// The run of each hart, with the values that a table's readers return. None where a hart doesn't go that way.
    fn runs(&self, table: &Table, reads: &[u16]) -> Option<Vec<Run>> {
        let reads: Vec<(u8, u16)> = readers(table).zip(reads.iter().copied()).collect();
        let of_hart = |hart: usize| {
            let is_own = |event: u8| usize::from(table.events[usize::from(event)].hart) == hart;
            let own: Vec<u16> = reads.iter().filter(|read| is_own(read.0)).map(|read| read.1).collect();
            Run::of(self.test, hart, &own)
        };
        (0..self.test.harts.len()).map(of_hart).collect()
    }
}

#[cfg(test)]
mod tests {
    use super::*;
    use crate::decider::MOST_VISITED;
    use crate::litmus::read;

    /// The rows of two harts, in words, with a star where the condition holds.
    fn rows(columns: &str, all: bool) -> Vec<String> {
        let harts = "0:x5=1; 0:x6=x; 0:x7=y; 1:x5=2; 1:x6=x; 1:x7=y;";
        let text = format!("RISCV a\n{{ {harts} }}\nP0 | P1 ;\n{columns}");
        let test = read(&text).unwrap();
        let listing = of_litmus(&test, &places(&test, all), MOST_VISITED).unwrap().expect("it is decided");
        let line = |(values, holds): (&Vec<Value>, &bool)| {
            let values =
                listing.names.iter().zip(values).map(|(name, value)| format!("{name}={} ", value.number as i64));
            format!("{}{}", values.collect::<String>().trim_end(), if *holds { " *" } else { "" })
        };
        listing.rows.iter().map(line).collect()
    }

    #[test]
    fn rows_have_what_the_question_names_or_all() {
        let columns = "sw x5,0(x6) | lw x8,0(x6) ;\nexists 1:x8=1";
        assert_eq!(rows(columns, false), ["1:x8=0", "1:x8=1 *"]);
        assert_eq!(rows(columns, true), ["1:x8=0 x=1 y=0", "1:x8=1 x=1 y=0 *"]);
        let unnamed = "sw x5,0(x6) | lw x8,0(x6) ;\nexists (true)";
        assert_eq!(rows(unnamed, false), ["1:x8=0 x=1 y=0 *", "1:x8=1 x=1 y=0 *"]);
    }

    #[test]
    fn values_are_passed_on_from_hart_to_hart() {
        let columns = "lw x8,0(x6) | lw x8,0(x7) ; addi x8,x8,1 | ; sw x8,0(x7) | sw x8,0(x6) ;\n";
        assert_eq!(rows(&format!("{columns}exists (0:x8=1 /\\ 1:x8=1)"), false), ["0:x8=1 1:x8=0", "0:x8=1 1:x8=1 *"]);
    }

    #[test]
    fn a_branch_has_the_outcomes_of_both_its_ways() {
        let columns = "sw x5,0(x6) | lw x8,0(x6) ; | beqz x8,L ; | sw x5,0(x7) ; | L: ;\nexists (1:x8=1 /\\ y=0)";
        assert_eq!(rows(columns, false), ["1:x8=0 y=0", "1:x8=1 y=2"]);
    }

    #[test]
    fn amos_write_what_follows_whatever_their_operand() {
        for operand in ["1", "300"] {
            let columns = format!(
                "li x9,{operand} | li x9,{operand} ; amoadd.w x8,x9,(x6) | amoadd.w x8,x9,(x6) ;\nexists x={operand}"
            );
            let twice = 2 * operand.parse::<u64>().unwrap();
            assert_eq!(rows(&columns, false), [format!("x={twice}")]);
        }
    }

    #[test]
    fn an_address_that_is_loaded_leads_to_one_table_each() {
        let columns = "sw x5,0(x7) | lw x8,0(x7) ; | xor x9,x8,x8 ; | add x9,x9,x6 ; | lw x10,0(x9) ;\n\
                       exists (1:x8=1 /\\ 1:x10=0)";
        assert_eq!(rows(columns, false), ["1:x8=0 1:x10=0", "1:x8=1 1:x10=0 *"]);
    }

    #[test]
    fn a_table_with_more_prefixes_than_the_bound_is_undecided() {
        let columns = "sw x5,0(x6) | lw x8,0(x6) ;\nexists 1:x8=1";
        let test = read(&format!("RISCV a\n{{ 0:x5=1; 0:x6=x; 1:x6=x; }}\nP0 | P1 ;\n{columns}")).unwrap();
        let is_decided = |most: u64| of_litmus(&test, &places(&test, false), most).unwrap().is_some();
        assert!(is_decided(4) && !is_decided(3));
    }
}
