//! Random tables for the writer: good ones, ones with another number in one field or another operation, and buffers of any
//! length.

use crate::call::{Call, Entry, Outcome, Reply};
use crate::cases::{any_fences, any_shape, some_bytes, with_unused, LONGEST_BYTES, SOME_CALLS};
use crate::comparison::{Comparison, Difference};
use oracle::generate::prng::Prng;
use oracle::layout::*;
use oracle::operation::Operation;
use oracle::raw::{RawTable, SLOTS};
use oracle::record::RawEvent;
use oracle::table::Kind;

/// Writes one table, mostly damaged, to some buffers. What was written is read.
pub fn writes(prng: &mut Prng, comparison: &mut Comparison) -> Result<(), Box<Difference>> {
    let table = match prng.below(20) {
        0 => any_fences(prng),
        1 => with_unused(prng),
        _ => any_shape(prng),
    };
    let table = RawTable::from(&table);
    for _ in 0..SOME_CALLS {
        let mut table = table.clone();
        if !prng.one_in(3) {
            damage(prng, &mut table);
        }
        let length = any_length(prng);
        let out = some_bytes(prng, length);
        let entry = Entry::Write { table: Box::new(table), out };
        let Outcome { reply, out, .. } = comparison.call(Call { bytes: Vec::new(), entry })?;
        if reply == Reply::Good {
            comparison.call(Call { bytes: out, entry: Entry::Read })?;
        }
    }
    Ok(())
}

/// Mostly that of a block.
fn any_length(prng: &mut Prng) -> usize {
    if !prng.one_in(4) {
        return BLOCK_LENGTH;
    }
    let any = prng.below(LONGEST_BYTES);
    *prng.pick(&[0, BLOCK_LENGTH - 1, BLOCK_LENGTH + 1, any])
}

/// Puts another number into one field of a good table, or another operation into an AMO of it.
fn damage(prng: &mut Prng, table: &mut RawTable) {
    let event = prng.below(table.count.into());
    match prng.below(21) {
        0 => table.harts = any_byte(prng),
        1 => table.locations = any_byte(prng),
        2 => table.count = any_byte(prng),
        3 => table.stated = any_byte(prng),
        4 => table.initial[prng.below(MAX_LOCATIONS)] = any_value(prng),
        5 => table.finals[prng.below(MAX_LOCATIONS)] = any_value(prng),
        6 => {
            let slot = prng.below(SLOTS);
            damage_event(prng, &mut table.events[slot]);
        }
        7 => table.model = any_byte(prng),
        8..=10 => {
            let amo = table.events.iter().position(|event| event.kind == Kind::Amo as u8);
            operate(prng, &mut table.events[amo.unwrap_or(event)]);
        }
        _ => damage_event(prng, &mut table.events[event]),
    }
}

pub fn damage_event(prng: &mut Prng, event: &mut RawEvent) {
    match prng.below(12) {
        0 => event.kind = any_byte(prng),
        1 => event.kind = *prng.pick(&Kind::ALL) as u8,
        2 => event.hart = any_byte(prng),
        3 => event.location = any_byte(prng),
        4 => event.flags = any_byte(prng),
        5 => event.address = any_mask(prng),
        6 => event.data = any_mask(prng),
        7 => event.control = any_mask(prng),
        8 => event.read = any_value(prng),
        9 => event.operation = any_byte(prng),
        10 => event.operand = any_byte(prng),
        _ => event.written = any_value(prng),
    }
}

/// Gives an event any operation, operand and values; mostly the value written is right.
fn operate(prng: &mut Prng, event: &mut RawEvent) {
    let (value, operand) = (any_value(prng), prng.bits() as u8);
    event.operation = prng.below(Operation::SOME.len() + 2) as u8;
    event.operand = *prng.pick(&[0, 1, 255, operand]);
    event.read = *prng.pick(&[0, 255, 256, 65535, value]);
    let operation = Operation::from_number(event.operation);
    let applied = operation.and_then(|operation| operation.applied(event.read, event.operand));
    event.written = applied.unwrap_or(value);
    if prng.one_in(4) {
        event.written ^= 1 << prng.below(u16::BITS as usize);
    }
}

/// Mostly a small number, which may be in range.
fn any_byte(prng: &mut Prng) -> u8 {
    if prng.one_in(4) {
        return prng.bits() as u8;
    }
    prng.below(one::MAX_EVENTS + 1) as u8
}

fn any_value(prng: &mut Prng) -> u16 {
    prng.bits() as u16
}

/// Mostly of one event, which may be in the test.
fn any_mask(prng: &mut Prng) -> u32 {
    if prng.one_in(4) {
        return prng.bits() as u32;
    }
    1 << prng.below(SLOTS)
}

#[cfg(test)]
mod tests {
    use super::*;
    use cogthunder::{Accesses, Annotation};
    use oracle::encode::{encode, encode_fitting};
    use oracle::generate::random::{any_table, wide_table};
    use oracle::table::{names, names_location, Event, Model, Table};

    const TABLES: usize = 5000;

    /// The accesses that two bits of a fence name.
    const ACCESSES: [Accesses; 4] = [Accesses::None, Accesses::R, Accesses::W, Accesses::RW];

    /// The annotations by their bits.
    const ANNOTATIONS: [Annotation; 4] =
        [Annotation::AcquireRcpc, Annotation::AcquireRcsc, Annotation::ReleaseRcpc, Annotation::ReleaseRcsc];

    fn same_operation(operation: Operation) -> Option<cogthunder::Operation> {
        use cogthunder::Operation as Same;
        Some(match operation {
            Operation::None => return None,
            Operation::Add => Same::Add,
            Operation::And => Same::And,
            Operation::Or => Same::Or,
            Operation::Xor => Same::Xor,
            Operation::Larger => Same::Larger,
            Operation::Smaller => Same::Smaller,
        })
    }

    fn add(built: &mut cogthunder::Table, event: &Event) -> u8 {
        let (hart, location) = (event.hart as u8, event.location as u8);
        match event.kind {
            Kind::Load => built.load(hart, location, event.read),
            Kind::Store => built.store(hart, location, event.written),
            Kind::Amo => match same_operation(event.operation) {
                None => built.amo(hart, location, event.read, event.written),
                Some(operation) => built.amo_with(hart, location, event.read, operation, event.operand),
            },
            Kind::Lr => built.lr(hart, location, event.read),
            Kind::Sc => built.sc(hart, location, event.written),
            Kind::Fence => {
                let [before, after] = [event.flags % 4, event.flags / 4].map(|bits| ACCESSES[usize::from(bits)]);
                built.fence(hart, before, after)
            }
            Kind::FenceTso => built.fence_tso(hart),
        }
    }

    fn say(built: &mut cogthunder::Table, number: u8, event: &Event) {
        for on in (0..MOST_EVENTS).filter(|&on| names(event.address, on)) {
            built.address_dependency(number, on as u8);
        }
        for on in (0..MOST_EVENTS).filter(|&on| names(event.data, on)) {
            built.data_dependency(number, on as u8);
        }
        for on in (0..MOST_EVENTS).filter(|&on| names(event.control, on)) {
            built.control_dependency(number, on as u8);
        }
        let annotations = (0..).zip(ANNOTATIONS).filter(|&(bit, _)| event.is_memory() && event.flags >> bit & 1 == 1);
        for (_, annotation) in annotations {
            built.annotate(number, annotation);
        }
    }

    fn built(table: &Table) -> cogthunder::Table {
        let mut built = cogthunder::Table::new(table.harts as u8, table.locations as u8);
        built.model = table.model as u8;
        for event in &table.events {
            let number = add(&mut built, event);
            say(&mut built, number, event);
        }
        for location in 0..table.locations {
            built.initial_value(location as u8, table.initial[location]);
            if names_location(table.stated, location) {
                built.final_value(location as u8, table.finals[location]);
            }
        }
        built
    }

    #[test]
    fn tables_built_call_by_call_have_the_blocks_of_the_independent_program() {
        let mut prng = Prng::new(3);
        for _ in 0..TABLES {
            let table = any_table(&mut prng).in_model(*prng.pick(&Model::ALL));
            let block = built(&table).block().expect("the table is good");
            assert_eq!(block, encode(&table)[..]);
        }
    }

    #[test]
    fn tables_of_more_events_have_the_tests_of_the_independent_program() {
        let mut prng = Prng::new(4);
        for _ in 0..TABLES {
            let table = wide_table(&mut prng).in_model(*prng.pick(&Model::ALL));
            let test = built(&table).test().expect("the table is good");
            assert_eq!(test, encode_fitting(&table));
        }
    }
}
