//! Advice on a litmus test.

use super::{asked, before_fences, chosen, clear_fences, own_fences, Advised, Finding};
use crate::arguments::Options;
use crate::case::Case;
use crate::choices::Choices;
use crate::decider::{Decider, Verdict};
use crate::error::Error;
use crate::fencing::{gaps, place_words, FULL};
use crate::litmus::edit::{self, Place};
use crate::litmus::{self, Action, Expected, Test};
use crate::source::Source;
use cogthunder::Table;
use std::collections::BTreeMap;

/// Advises on a litmus test, whose file has this text.
pub fn advised(source: &Source, text: &str, test: &Test, options: &Options) -> Result<Advised, Error> {
    let is_own = own_fences(fences_of(test).len(), options)?;
    let (mut behind, mut opened) = (Vec::new(), test.clone());
    if !is_own {
        behind = places_of(test, options)?;
        opened = Test { model: test.model, ..litmus::read(&edit::with_fences(text, &behind, edit::EMPTY)?)? };
    }
    let fences = fences_of(&opened);
    let (places, tables) = tables(&opened, &fences, is_own)?;
    let finding = match &tables[..] {
        [(table, instructions)] => asked(table, options, &|fence| {
            let is_fence = |place: &Place| *place == instructions[usize::from(fence)];
            fences.iter().position(is_fence).expect("it is one of them")
        })?,
        _ => tried(&opened, &fences)?,
    };
    let of = |set: &[usize], places: &[Place]| set.iter().map(|&place| places[place]).collect::<Vec<Place>>();
    let mended = match &finding {
        Finding::Forbidden(set) if set.is_empty() => Some(text.to_string()),
        Finding::Forbidden(set) if is_own => {
            Some(expecting(source, test, edit::with_filled(text, &of(set, &fences))?)?)
        }
        Finding::Forbidden(set) => {
            Some(expecting(source, test, edit::with_fences(text, &of(set, &behind), edit::FULL)?)?)
        }
        _ => None,
    };
    Ok(Advised { name: source.name.clone(), places, finding, mended: mended.map(String::into_bytes) })
}

/// A file that expects its outcome to be allowed expects another verdict of the mended test.
fn expecting(source: &Source, test: &Test, text: String) -> Result<String, Error> {
    if source.expected() == Some(Expected::Allowed) {
        return edit::expecting_forbidden(&text, test.question.quantifier);
    }
    Ok(text)
}

/// The clear fences of a litmus test.
fn fences_of(test: &Test) -> Vec<Place> {
    let mut fences = Vec::new();
    for (hart, column) in test.harts.iter().enumerate() {
        let is_empty = |action: &Action| *action == Action::Fence { flags: 0 };
        let own = column.program.iter().enumerate().filter(|(_, instruction)| is_empty(&instruction.action));
        fences.extend(own.map(|(number, _)| (hart, number)));
    }
    fences
}

/// Calls `each` with every table of a litmus test, and the instruction of each event.
fn visit(test: &Test, each: &mut dyn FnMut(Case, Vec<Place>) -> Result<(), Error>) -> Result<(), Error> {
    Choices::asked(test)?.visit(&mut |choice| {
        let instructions = choice.runs.iter().enumerate();
        let instructions =
            instructions.flat_map(|(hart, run)| run.events.iter().map(move |event| (hart, event.instruction)));
        each(Case::of(test, &choice)?, instructions.collect())?;
        Ok(true)
    })
}

/// The instructions that a fence is put behind.
fn places_of(test: &Test, options: &Options) -> Result<Vec<Place>, Error> {
    let mut found = BTreeMap::new();
    visit(test, &mut |case, instructions| {
        for gap in gaps(&case.table) {
            found.entry(instructions[usize::from(gap.0)]).or_insert(gap);
        }
        Ok(())
    })?;
    chosen(found.into_iter().collect(), &options.between)
}

/// A table, and the instruction of each of its events.
type Instructed = (Table, Vec<Place>);

/// The places of fences in words, each by the first table that has it; and the tables, or the first two of more.
fn tables(test: &Test, fences: &[Place], is_own: bool) -> Result<(Vec<String>, Vec<Instructed>), Error> {
    let (mut words, mut tables) = (BTreeMap::new(), Vec::new());
    visit(test, &mut |case, instructions| {
        let empty = clear_fences(&case.table);
        let number = |event: u8| if is_own { event } else { before_fences(&empty, event) };
        for &fence in &empty {
            let place = instructions[usize::from(fence)];
            words.entry(place).or_insert_with(|| place_words(&case, fence, &number, false));
        }
        if tables.len() < 2 {
            tables.push((case.table, instructions));
        }
        Ok(())
    })?;
    let unmet = |place: &Place| format!("P{}, in runs that the condition leaves out", place.0);
    let places = fences.iter().map(|place| words.remove(place).unwrap_or_else(|| unmet(place))).collect();
    Ok((places, tables))
}

/// Tries sets of fences in the order of the library's advice: with a set the outcome is forbidden if every table is.
fn tried(opened: &Test, fences: &[Place]) -> Result<Finding, Error> {
    for set in sets(fences.len()) {
        let mut test = opened.clone();
        for &place in &set {
            let (hart, number) = fences[place];
            test.harts[hart].program[number].action = Action::Fence { flags: FULL };
        }
        if Decider::new().litmus(&test)?.verdict == Verdict::Forbidden {
            return Ok(Finding::Forbidden(set));
        }
    }
    Ok(Finding::NoHelp)
}

/// The sets of numbers below a count, by size, those of one size by their ascending lists.
fn sets(count: usize) -> Vec<Vec<usize>> {
    let members = |mask: u32| (0..count).filter(|place| mask >> place & 1 == 1).collect();
    let mut sets: Vec<Vec<usize>> = (0..1 << count).map(members).collect();
    sets.sort_by_key(|set| (set.len(), set.clone()));
    sets
}

#[cfg(test)]
mod tests {
    use super::*;

    #[test]
    fn sets_go_by_size_then_by_their_lists() {
        let three: [&[usize]; 8] = [&[], &[0], &[1], &[2], &[0, 1], &[0, 2], &[1, 2], &[0, 1, 2]];
        assert_eq!(sets(3), three);
        let four = sets(4);
        assert!(four.iter().position(|set| set == &[0, 3]) < four.iter().position(|set| set == &[1, 2]));
    }
}
