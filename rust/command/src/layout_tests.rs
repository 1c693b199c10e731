//! No text of a picture is on another.

use super::*;
use crate::arguments::Model;
use crate::case::Case;
use crate::decider::{Decision, Verdict, Witness, MOST_VISITED};
use crate::drawing;
use crate::progress::Progress;
use crate::random::{table, Numbers};
use crate::source::{only, Kind as SourceKind, Source};
use cogthunder::{returns, Table, EVENTS};

/// No text is on another, no label on a box, and nothing is outside.
fn check(drawing: &Drawing) {
    let Layout { width, height, boxes, texts, paths } = Layout::of(drawing);
    let mut points = paths.iter().flat_map(|path| &path.points);
    assert!(points.all(|point| point.0 >= 0.0 && point.0 <= width && point.1 <= height), "{}", drawing.title);
    for (k, text) in texts.iter().enumerate() {
        let Rect { x, y, w, h } = text.rect;
        let place = format!("{} of {}", text.text, drawing.title);
        assert!(x >= 0.0 && y >= 0.0 && x + w <= width && y + h <= height, "outside: {place}");
        let other = texts[..k].iter().find(|other| other.rect.meets(&text.rect));
        assert!(other.is_none(), "{place} is on {other:?}");
        let is_label = matches!(text.style, Style::Label(_));
        assert!(!is_label || !boxes.iter().any(|rect| rect.meets(&text.rect)), "{place} is on a box");
    }
    for (k, rect) in boxes.iter().enumerate() {
        assert!(!boxes[..k].iter().any(|other| other.meets(rect)), "boxes of {}", drawing.title);
    }
}

#[test]
fn no_text_of_a_sample_is_on_another() {
    let folder = std::path::Path::new(env!("CARGO_MANIFEST_DIR")).join("../../samples/litmus");
    for entry in std::fs::read_dir(folder).unwrap() {
        let file = entry.unwrap().path();
        for model in [Model::Rvwmo, Model::Rvtso] {
            let source = only(file.to_str().unwrap(), Some(model)).unwrap();
            let decision = source.decide(MOST_VISITED, &mut Progress::new()).unwrap();
            check(&drawing::of(&source, &decision).unwrap());
        }
    }
}

/// A table as it is run in the order of its events, with that order as its witness.
fn run(mut table: Table) -> (Source, Decision) {
    let mut memory = table.initial;
    for event in &mut table.events[..table.count.into()] {
        let at = &mut memory[usize::from(event.location)];
        if crate::record::reads(event) {
            event.read = *at;
        }
        if let Some(operation) = crate::record::operation(event.operation) {
            event.written = operation.apply(event.read, event.operand);
        }
        if crate::record::writes(event) {
            *at = event.written;
        }
    }
    (table.stated, table.finals) = (0, [0; 8]);
    let is_memory = |&event: &u8| table.events[usize::from(event)].kind < crate::record::FENCE;
    let order: Vec<u8> = (0..table.count).filter(is_memory).collect();
    let mut returned = [0; EVENTS];
    returns(&table.test().unwrap(), &order, &mut returned).unwrap();
    let returned = returned[..table.count.into()].to_vec();
    let case = Case::of_table(table.clone());
    let source = Source { name: "random".to_string(), kind: SourceKind::Block(Box::new(table)) };
    let witness = Some(Witness { case: case.clone(), order, returned });
    (source, Decision { verdict: Verdict::Allowed, visited: None, tables: 1, first: Some(case), witness })
}

#[test]
fn no_text_of_a_random_picture_is_on_another() {
    let mut numbers = Numbers(3);
    for _ in 0..300 {
        let (source, decision) = run(table(&mut numbers));
        check(&drawing::of(&source, &decision).unwrap());
    }
}

#[test]
fn thirty_events_have_room() {
    let mut numbers = Numbers(5);
    for harts in 1..=4 {
        let mut table = Table::new(harts, 2);
        while table.count < EVENTS as u8 {
            let (hart, location, value) = (numbers.below(harts), numbers.below(2), u16::from(numbers.below(100)));
            match numbers.below(3) {
                0 => table.load(hart, location, 0),
                1 => table.store(hart, location, value),
                _ => table.amo(hart, location, 0, value),
            };
        }
        let (source, decision) = run(table);
        check(&drawing::of(&source, &decision).unwrap());
    }
}
