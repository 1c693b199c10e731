//! The choices of returned values and final values that meet the condition. Each gives one table.

use crate::error::Error;
use crate::litmus::{Action, Condition, Place, Test};
use crate::run::{writes, Run, Runs, Wanted};
use crate::value::Value;
use std::collections::BTreeSet;

/// A location can have at most as many values.
const MOST_VALUES: usize = 256;
/// At most as many combinations of runs are looked at.
const MOST_COMBINATIONS: u64 = 1_000_000;

/// A run of each hart, and the final values that are stated.
#[derive(Debug)]
pub struct Choice<'a> {
    pub runs: Vec<&'a Run>,
    pub finals: Vec<(usize, u16)>,
}

/// The runs of each hart that can be part of an outcome that is asked for.
pub struct Choices<'a> {
    test: &'a Test,
    asked: Condition,
    /// The locations whose final value the question names.
    named: Vec<usize>,
    /// Whether each of them has to be stated, even where the condition is met without.
    all_stated: bool,
    /// Whether runs that read what no event writes are left out.
    supplied_only: bool,
    runs: Vec<Vec<Run>>,
}

impl<'a> Choices<'a> {
    /// Those that meet the condition.
    pub fn asked(test: &'a Test) -> Result<Choices<'a>, Error> {
        Choices::of(test, test.question.asked(), false)
    }

    /// All, each with a final value for every location that the question names.
    pub fn all(test: &'a Test) -> Result<Choices<'a>, Error> {
        Choices::of(test, Condition::Always(true), true)
    }

    /// One for each way in which the events can be, but for the values that nothing depends on.
    pub fn shapes(test: &'a Test) -> Result<Choices<'a>, Error> {
        let runs = all_runs(test, Wanted::Writes)?;
        let asked = Condition::Always(true);
        Ok(Choices { test, asked, named: Vec::new(), all_stated: false, supplied_only: false, runs })
    }

    fn of(test: &'a Test, asked: Condition, all_stated: bool) -> Result<Choices<'a>, Error> {
        let named = test.question.observed().into_iter().filter_map(|place| match place {
            Place::Location(location) => Some(location),
            Place::Register(..) => None,
        });
        let mut named: Vec<usize> = named.collect();
        named.sort_unstable();
        let runs = all_runs(test, Wanted::Meeting(&asked))?;
        Ok(Choices { test, asked, named, all_stated, supplied_only: true, runs })
    }

    /// Calls `each` with every choice, by ascending runs of the first hart, then of the second and so on, until it answers
    /// false.
    pub fn visit(&self, each: &mut dyn FnMut(Choice) -> Result<bool, Error>) -> Result<(), Error> {
        let mut picked = vec![0; self.runs.len()];
        if self.runs.iter().any(Vec::is_empty) {
            return Ok(());
        }
        for _ in 0..MOST_COMBINATIONS {
            let runs: Vec<&Run> = self.runs.iter().zip(&picked).map(|(runs, &k)| &runs[k]).collect();
            if self.is_supplied(&runs) && !self.visit_finals(&runs, &mut Vec::new(), each)? {
                return Ok(());
            }
            if !step(&mut picked, &self.runs) {
                return Ok(());
            }
        }
        Err(Error::new(format!(
            "the harts' runs have more than {MOST_COMBINATIONS} combinations that could be asked for"
        )))
    }

    /// Whether each value read is an initial one or written by some event: else no order gives the choice.
    fn is_supplied(&self, runs: &[&Run]) -> bool {
        if !self.supplied_only {
            return true;
        }
        let events = || runs.iter().flat_map(|run| &run.events);
        events().all(|event| match event.read {
            None => true,
            Some(value) => {
                value == self.test.initial[event.location]
                    || events().any(|other| other.location == event.location && other.written == Some(value))
            }
        })
    }

    /// Adds final values of the named locations, one after the other, as long as the condition isn't decided. False if
    /// `each` has answered so.
    fn visit_finals(
        &self,
        runs: &[&Run],
        finals: &mut Vec<(usize, u16)>,
        each: &mut dyn FnMut(Choice) -> Result<bool, Error>,
    ) -> Result<bool, Error> {
        let holds = self.asked.holds(&|place| known(runs, finals, place));
        let next = self.named.get(finals.len());
        match (holds, next) {
            (Some(false), _) => Ok(true),
            (Some(true), Some(_)) if !self.all_stated => each(Choice { runs: runs.to_vec(), finals: finals.clone() }),
            (_, Some(&location)) => {
                for value in last_values(self.test, runs, location) {
                    finals.push((location, value));
                    let goes_on = self.visit_finals(runs, finals, each)?;
                    finals.pop();
                    if !goes_on {
                        return Ok(false);
                    }
                }
                Ok(true)
            }
            (_, None) => each(Choice { runs: runs.to_vec(), finals: finals.clone() }),
        }
    }
}

/// The next combination: the last hart's run changes first. False after the last one.
fn step(picked: &mut [usize], runs: &[Vec<Run>]) -> bool {
    for hart in (0..picked.len()).rev() {
        picked[hart] += 1;
        if picked[hart] < runs[hart].len() {
            return true;
        }
        picked[hart] = 0;
    }
    false
}

/// What is known of the final state.
fn known(runs: &[&Run], finals: &[(usize, u16)], place: Place) -> Option<Value> {
    match place {
        Place::Register(hart, register) => Some(runs[hart].registers[register.index()]),
        Place::Location(location) => {
            finals.iter().find(|(other, _)| *other == location).map(|&(_, value)| Value::number(value.into()))
        }
    }
}

/// The values that a location can end with, ascending: those written to it, or the initial one if there is none.
fn last_values(test: &Test, runs: &[&Run], location: usize) -> BTreeSet<u16> {
    let events = runs.iter().flat_map(|run| &run.events);
    let written: BTreeSet<u16> =
        events.filter(|event| event.location == location).filter_map(|event| event.written).collect();
    if written.is_empty() {
        return BTreeSet::from([test.initial[location]]);
    }
    written
}

/// The runs of each hart that are wanted.
fn all_runs(test: &Test, wanted: Wanted) -> Result<Vec<Vec<Run>>, Error> {
    let values = listed(&readable(test)?);
    let hart_runs = |hart: usize| {
        let mut kept = Vec::new();
        Runs { test, hart, values: &values, wanted }.visit(&mut |run| kept.push(run))?;
        Ok(kept)
    };
    (0..test.harts.len()).map(hart_runs).collect()
}

/// The values that loads can return, for each location: the initial ones, then what runs that read those write, and so on.
///
/// In a lawful order what a write depends on comes from writes before it, each of which happens once, so that there are no
/// more steps than instructions that write; and a write is the same whatever the loads return that it doesn't depend on, so
/// that runs which break the condition have to be looked at too.
fn readable(test: &Test) -> Result<Vec<BTreeSet<u16>>, Error> {
    let mut values: Vec<BTreeSet<u16>> = test.initial.iter().map(|&value| BTreeSet::from([value])).collect();
    for _ in 0..writers(test) {
        let mut more = values.clone();
        for hart in 0..test.harts.len() {
            Runs { test, hart, values: &listed(&values), wanted: Wanted::Writes }.visit(&mut |run| {
                for event in &run.events {
                    // A fence has no location.
                    event.written.map(|value| more[event.location].insert(value));
                }
            })?;
        }
        if more == values {
            break;
        }
        if let Some(location) = more.iter().position(|values| values.len() > MOST_VALUES) {
            let name = &test.locations[location];
            return Err(Error::new(format!("the location {name} could have more than {MOST_VALUES} values")));
        }
        values = more;
    }
    Ok(values)
}

fn listed(values: &[BTreeSet<u16>]) -> Vec<Vec<u16>> {
    values.iter().map(|values| values.iter().copied().collect()).collect()
}

fn writers(test: &Test) -> usize {
    let is_writer = |action: &Action| matches!(action, Action::Access(access) if writes(access.kind));
    test.harts.iter().flat_map(|hart| &hart.program).filter(|instruction| is_writer(&instruction.action)).count()
}

#[cfg(test)]
mod tests {
    use super::*;
    use crate::litmus::read;

    /// The values read, hart by hart, and the final values.
    type Found = (Vec<u16>, Vec<(usize, u16)>);

    fn choices(columns: &str) -> Vec<Found> {
        let harts = "0:x5=1; 0:x6=x; 0:x7=y; 1:x5=1; 1:x6=x; 1:x7=y;";
        let test = read(&format!("RISCV a\n{{ {harts} }}\nP0 | P1 ;\n{columns}")).unwrap();
        let mut found = Vec::new();
        let choices = Choices::asked(&test).unwrap();
        choices
            .visit(&mut |choice| {
                let events = choice.runs.iter().flat_map(|run| &run.events);
                found.push((events.filter_map(|event| event.read).collect(), choice.finals));
                Ok(true)
            })
            .unwrap();
        found
    }

    #[test]
    fn loads_that_the_condition_leaves_free_return_each_value() {
        let found = choices("sw x5,0(x6) | lw x8,0(x6) ; | lw x9,0(x6) ;\nexists 1:x8=1");
        assert_eq!(found, [(vec![1, 0], vec![]), (vec![1, 1], vec![])]);
    }

    #[test]
    fn a_write_behind_a_load_is_seen_whatever_the_load_returns() {
        let found = choices("lw x8,0(x6) | lw x8,0(x7) ; sw x5,0(x7) | sw x5,0(x6) ;\nexists (0:x8=1 /\\ 1:x8=1)");
        assert_eq!(found, [(vec![1, 1], vec![])]);
    }

    #[test]
    fn values_are_passed_on_and_none_comes_from_nowhere() {
        let columns = "lw x8,0(x6) | lw x8,0(x7) ; addi x8,x8,1 | ; sw x8,0(x7) | sw x8,0(x6) ;\n";
        let all: Vec<Vec<u16>> = choices(&format!("{columns}exists (true)")).into_iter().map(|found| found.0).collect();
        // Hart 0 reads 0 and writes 1 to y; if it read 1 in x, nobody would have written 1 to y.
        assert_eq!(all, [[0, 0], [0, 1]]);
        assert!(choices(&format!("{columns}exists 1:x8=7")).is_empty());
    }

    #[test]
    fn final_values_are_stated_only_where_they_decide() {
        let columns = "sw x5,0(x6) | lw x8,0(x6) ;\n";
        assert_eq!(choices(&format!("{columns}exists (x=1 /\\ 1:x8=0)")), [(vec![0], vec![(0, 1)])]);
        assert_eq!(choices(&format!("{columns}exists (x=1 \\/ 1:x8=0)")), [(vec![0], vec![]), (vec![1], vec![(0, 1)])]);
        assert_eq!(choices(&format!("{columns}forall (x=1)")), []);
        assert_eq!(choices(&format!("{columns}exists y=0")), [(vec![0], vec![(1, 0)]), (vec![1], vec![(1, 0)])]);
    }
}
