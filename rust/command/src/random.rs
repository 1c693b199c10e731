//! Random tables for tests.

use crate::record::{FENCE, FENCE_TSO, LOAD, SC, STORE};
use cogthunder::{Accesses, Annotation, Event, Operation, Table};

/// Numbers that look random, and are the same in every run.
pub struct Numbers(pub u64);

impl Numbers {
    /// A number below a bound.
    pub fn below(&mut self, bound: u8) -> u8 {
        self.0 = self.0.wrapping_mul(6_364_136_223_846_793_005).wrapping_add(1_442_695_040_888_963_407);
        ((self.0 >> 33) % u64::from(bound)) as u8
    }
}

/// A good table of up to 12 events, by hart, without RCpc annotations.
pub fn table(numbers: &mut Numbers) -> Table {
    const LOCATIONS: u8 = 2;
    let harts = 1 + numbers.below(3);
    let mut table = Table::new(harts, LOCATIONS);
    for location in 0..LOCATIONS {
        table.store(0, location, u16::from(numbers.below(3)));
        table.initial_value(location, u16::from(numbers.below(2)));
    }
    for hart in 0..harts {
        let first = table.count;
        for _ in 0..1 + numbers.below(3) {
            let location = numbers.below(LOCATIONS);
            add(&mut table, numbers, hart, location);
            let event = table.count - 1;
            dependencies(&mut table, numbers, hart, first, event);
        }
    }
    if numbers.below(2) == 1 {
        table.final_value(0, u16::from(numbers.below(3)));
    }
    table
}

fn add(table: &mut Table, numbers: &mut Numbers, hart: u8, location: u8) {
    let (read, written) = (u16::from(numbers.below(3)), u16::from(numbers.below(3)));
    let sets = [Accesses::None, Accesses::R, Accesses::W, Accesses::RW];
    let event = match numbers.below(7) {
        0 => table.load(hart, location, read),
        1 => table.store(hart, location, written),
        2 => table.amo(hart, location, read, written),
        3 => table.amo_with(hart, location, read, Operation::Add, written as u8),
        4 => {
            table.lr(hart, location, read);
            table.sc(hart, location, written)
        }
        5 => {
            table.fence(hart, sets[usize::from(numbers.below(4))], sets[usize::from(numbers.below(4))]);
            return;
        }
        _ => {
            table.fence_tso(hart);
            return;
        }
    };
    if numbers.below(3) == 0 {
        table.annotate(event, Annotation::AcquireRcsc);
        table.annotate(event, Annotation::ReleaseRcsc);
    }
}

/// Dependencies on earlier events of the hart that have a result. Control dependencies stay.
fn dependencies(table: &mut Table, numbers: &mut Numbers, hart: u8, first: u8, event: u8) {
    let control = (0..event).filter(|&k| table.events[usize::from(k)].hart == hart);
    let control = control.fold(0, |all, k| all | table.events[usize::from(k)].control);
    let Event { kind, .. } = table.events[usize::from(event)];
    if kind >= FENCE {
        return;
    }
    table.events[usize::from(event)].control |= control;
    if kind == SC {
        table.events[usize::from(event) - 1].control |= control;
    }
    for on in first..event {
        let has_result = ![STORE, FENCE, FENCE_TSO].contains(&table.events[usize::from(on)].kind);
        match numbers.below(8) {
            0 if has_result => table.address_dependency(event, on),
            1 if has_result && kind != LOAD => table.data_dependency(event, on),
            2 if has_result => table.control_dependency(event, on),
            _ => {}
        }
    }
}
