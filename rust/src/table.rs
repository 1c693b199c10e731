//! A test by value, and the functions that build one.

use crate::answers::Refusal;
use crate::edition_two;
use crate::library::{read, table_of, write};
use crate::operation::Operation;
use crate::{BLOCK, LOCATIONS};

/// How many events a table has room for. No test has as many, so that the last slot is that of no event.
const SLOTS: usize = 32;
const LAST_SLOT: u8 = SLOTS as u8 - 1;

/// A block, which is a test of edition 1, has no more events.
const BLOCK_EVENTS: u8 = 16;

/// More locations than a test has: refused by 5.
const TOO_MANY: u8 = u8::MAX;

/// Flags that no event has: refused by 7.
const OUT_OF_RANGE: u8 = u8::MAX;

/// The flags of a fence that orders all accesses.
const FULL: u8 = 15;

/// In the flags of a fence the later accesses stand this many bits above the earlier ones.
const LATER: u8 = 2;

/// The kinds of events.
const LOAD: u8 = 1;
const STORE: u8 = 2;
const AMO: u8 = 3;
const LR: u8 = 4;
const SC: u8 = 5;
const FENCE: u8 = 6;
const FENCE_TSO: u8 = 7;

/// The model of a table whose events have the annotations that the Ztso extension adds.
const RVTSO: u8 = 1;

/// An event of a [`Table`], by the fields of its record. Bit k of a mask (bit 0 lowest) names event k.
#[repr(C)]
#[derive(Clone, Copy, Default, PartialEq, Eq, Hash, Debug)]
#[non_exhaustive]
pub struct Event {
    /// 1 load, 2 store, 3 AMO, 4 LR, 5 SC, 6 fence, 7 fence.tso.
    pub kind: u8,
    /// The hart that it is on, from 0.
    pub hart: u8,
    /// The location that it accesses, from 0; 0 for a fence.
    pub location: u8,
    /// From bit 0, of a memory event: acquire-RCpc, acquire-RCsc, release-RCpc, release-RCsc; of a fence: earlier reads,
    /// earlier writes, later reads, later writes.
    pub flags: u8,
    /// Mask of the events that its address depends on.
    pub address: u32,
    /// Mask of the events that its data depend on.
    pub data: u32,
    /// Mask of the events that it has a control dependency on.
    pub control: u32,
    /// The value read; 0 if it doesn't read.
    pub read: u16,
    /// The value written; 0 if it doesn't write. That of an AMO with an operation is what this makes of the value read.
    pub written: u16,
    /// The number of an AMO's [`Operation`]; 0 if it has none, and for other events.
    pub operation: u8,
    /// The operand of the operation; 0 without one.
    pub operand: u8,
}

/// A test by value: its fields, and functions that fill them in.
///
/// Any numbers may stand in it. A mistake comes back from [`block`](Table::block) and [`test`](Table::test), as the refusal
/// that says what is wrong.
///
/// Message passing, built and decided:
///
/// ```
/// use cogthunder::{Accesses, Table, Witnesses};
///
/// const X: u8 = 0;
/// const Y: u8 = 1;
/// let mut table = Table::new(2, 2);
/// table.store(0, X, 1);
/// table.fence(0, Accesses::W, Accesses::W);
/// table.store(0, Y, 1);
/// let flag = table.load(1, Y, 1);
/// let data = table.load(1, X, 0);
/// assert_eq!(Witnesses::of(&table.block()?)?.next(), Some(vec![4, 0, 2, 3]));
///
/// // Without the second load's dependency hart 1 may see the flag and miss the data; with it no order gives that.
/// table.address_dependency(data, flag);
/// assert_eq!(Witnesses::of(&table.block()?)?.next(), None);
/// # Ok::<(), cogthunder::Refusal>(())
/// ```
///
/// A mistake, by a function and by a field:
///
/// ```
/// let mut table = cogthunder::Table::new(1, 1);
/// table.load(0, 0, 0);
/// table.store(9, 0, 1);
/// let refusal = table.block().unwrap_err();
/// assert_eq!((refusal.number, refusal.record), (7, Some(1)));
///
/// table.count = 200;
/// let refusal = table.block().unwrap_err();
/// assert_eq!((refusal.number, refusal.record), (5, None));
/// ```
#[repr(C)]
#[derive(Clone, Default, PartialEq, Eq, Hash, Debug)]
#[non_exhaustive]
pub struct Table {
    /// The number of harts, 1 to 4.
    pub harts: u8,
    /// The number of locations, 1 to 8.
    pub locations: u8,
    /// The number of events, 1 to 30; in a block up to 16.
    pub count: u8,
    /// Mask of the locations whose final value is stated; bit 0, the lowest, names location 0.
    pub stated: u8,
    /// The memory model: 0 RVWMO, 1 RVTSO.
    pub model: u8,
    /// The initial value of each location; 0 for those that aren't in the test.
    pub initial: [u16; LOCATIONS],
    /// The events in table order; those past `count` are zero in each field.
    pub events: [Event; SLOTS],
    /// The stated final value of each location; 0 where none is stated.
    pub finals: [u16; LOCATIONS],
}

/// The accesses before or after a fence that it orders, as in `fence rw, w`.
#[derive(Clone, Copy, PartialEq, Eq, Hash, Debug)]
pub enum Accesses {
    /// None.
    None = 0,
    /// Reads.
    R = 1,
    /// Writes.
    W = 2,
    /// Reads and writes.
    RW = 3,
}

/// An annotation of a memory event.
#[derive(Clone, Copy, PartialEq, Eq, Hash, Debug)]
pub enum Annotation {
    /// Acquire-RCpc.
    AcquireRcpc = 1,
    /// Acquire-RCsc.
    AcquireRcsc = 2,
    /// Release-RCpc.
    ReleaseRcpc = 4,
    /// Release-RCsc.
    ReleaseRcsc = 8,
}

/// An empty table, and its events in table order. Each function that adds an event gives its number.
impl Table {
    /// A table without events, whose locations are 0 at first and have no stated final value. Its model is RVWMO.
    pub fn new(harts: u8, locations: u8) -> Table {
        Table { harts, locations, ..Table::default() }
    }

    /// Gives the table the model RVTSO: every load or LR behaves as if it had acquire-RCpc, every store or SC release-RCpc, and
    /// every AMO acquire-RCsc and release-RCsc, besides the annotations that it has.
    ///
    /// Message passing is allowed in RVWMO and forbidden in RVTSO, store buffering is allowed in both:
    ///
    /// ```
    /// use cogthunder::{Table, Witnesses};
    ///
    /// const X: u8 = 0;
    /// const Y: u8 = 1;
    /// let mut passing = Table::new(2, 2);
    /// passing.store(0, X, 1);
    /// passing.store(0, Y, 1);
    /// passing.load(1, Y, 1);
    /// passing.load(1, X, 0);
    /// assert!(Witnesses::of(&passing.block()?)?.next().is_some());
    /// passing.tso();
    /// assert!(Witnesses::of(&passing.block()?)?.next().is_none());
    ///
    /// let mut buffering = Table::new(2, 2);
    /// buffering.tso();
    /// buffering.store(0, X, 1);
    /// buffering.load(0, Y, 0);
    /// buffering.store(1, Y, 1);
    /// buffering.load(1, X, 0);
    /// assert!(Witnesses::of(&buffering.block()?)?.next().is_some());
    /// # Ok::<(), cogthunder::Refusal>(())
    /// ```
    pub fn tso(&mut self) {
        self.model = RVTSO;
    }

    /// Adds a load.
    pub fn load(&mut self, hart: u8, location: u8, read: u16) -> u8 {
        self.add(LOAD, hart, location, read, 0)
    }

    /// Adds a plain store.
    pub fn store(&mut self, hart: u8, location: u8, written: u16) -> u8 {
        self.add(STORE, hart, location, 0, written)
    }

    /// Adds an AMO without an operation: it writes the value that is stated.
    pub fn amo(&mut self, hart: u8, location: u8, read: u16, written: u16) -> u8 {
        self.add(AMO, hart, location, read, written)
    }

    /// Adds an AMO with an operation: it writes what the operation makes of the value read and of the operand.
    ///
    /// Two harts add 1 to a counter. One of them reads what the other wrote; that both read 0 is forbidden:
    ///
    /// ```
    /// use cogthunder::{Operation, Table, Witnesses};
    ///
    /// let mut table = Table::new(2, 1);
    /// table.amo_with(0, 0, 0, Operation::Add, 1);
    /// table.amo_with(1, 0, 1, Operation::Add, 1);
    /// table.final_value(0, 2);
    /// assert_eq!(Witnesses::of(&table.block()?)?.next(), Some(vec![0, 1]));
    ///
    /// let mut lost = Table::new(2, 1);
    /// lost.amo_with(0, 0, 0, Operation::Add, 1);
    /// lost.amo_with(1, 0, 0, Operation::Add, 1);
    /// assert_eq!(Witnesses::of(&lost.block()?)?.next(), None);
    /// # Ok::<(), cogthunder::Refusal>(())
    /// ```
    pub fn amo_with(&mut self, hart: u8, location: u8, read: u16, operation: Operation, operand: u8) -> u8 {
        let amo = self.amo(hart, location, read, operation.apply(read, operand));
        let event = self.slot(amo);
        [event.operation, event.operand] = [operation as u8, operand];
        amo
    }

    /// Adds a load-reserved.
    pub fn lr(&mut self, hart: u8, location: u8, read: u16) -> u8 {
        self.add(LR, hart, location, read, 0)
    }

    /// Adds a store-conditional that succeeds. The nearest LR or SC before it on its hart has to be an LR to its location.
    pub fn sc(&mut self, hart: u8, location: u8, written: u16) -> u8 {
        self.add(SC, hart, location, 0, written)
    }

    /// Adds a fence.
    pub fn fence(&mut self, hart: u8, before: Accesses, after: Accesses) -> u8 {
        let fence = self.add(FENCE, hart, 0, 0, 0);
        let event = self.slot(fence);
        // An annotation that it was given before it was added isn't taken for its own flags.
        event.flags = if event.flags == 0 { before as u8 | (after as u8) << LATER } else { OUT_OF_RANGE };
        fence
    }

    /// Adds a fence.tso.
    pub fn fence_tso(&mut self, hart: u8) -> u8 {
        self.add(FENCE_TSO, hart, 0, 0, 0)
    }

    /// What was said of the event before it was added stays. Past the last slot only the number of events grows: refused
    /// by 5.
    fn add(&mut self, kind: u8, hart: u8, location: u8, read: u16, written: u16) -> u8 {
        let number = self.count;
        if let Some(event) = self.events.get_mut(usize::from(number)) {
            *event = Event { kind, hart, location, read, written, ..*event };
        }
        self.count = number.saturating_add(1);
        number
    }
}

/// What is said of an event, which may also be added later.
impl Table {
    /// Gives a memory event an annotation, besides those that it has.
    pub fn annotate(&mut self, event: u8, annotation: Annotation) {
        let event = self.slot(event);
        // The same bits of a fence mean other things.
        event.flags |= if event.kind == FENCE { OUT_OF_RANGE } else { annotation as u8 };
    }

    /// Makes a fence order all accesses before it with all behind it, as [`advise`](crate::advise) tries it.
    pub fn fill_fence(&mut self, event: u8) {
        let event = self.slot(event);
        event.flags = if event.kind == FENCE { FULL } else { OUT_OF_RANGE };
    }

    /// The event's address depends on what event `on` read, or on the result of that SC.
    pub fn address_dependency(&mut self, event: u8, on: u8) {
        self.slot(event).address |= bit(on);
    }

    /// The event's data depend on what event `on` read, or on the result of that SC.
    pub fn data_dependency(&mut self, event: u8, on: u8) {
        self.slot(event).data |= bit(on);
    }

    /// The event comes after a branch that depends on what event `on` read, or on the result of that SC. So do all later
    /// memory events of the hart, each of which has to be given this dependency too.
    pub fn control_dependency(&mut self, event: u8, on: u8) {
        self.slot(event).control |= bit(on);
    }

    /// The slot of an event. The last one stands for those that there is no room for: what isn't zero past the events is
    /// refused by 6.
    fn slot(&mut self, event: u8) -> &mut Event {
        &mut self.events[usize::from(event.min(LAST_SLOT))]
    }
}

/// Values of locations. A table has room for eight; the value of another one makes the number of locations too large, which
/// is refused by 5.
impl Table {
    /// States the initial value of a location.
    pub fn initial_value(&mut self, location: u8, value: u16) {
        match self.initial.get_mut(usize::from(location)) {
            Some(initial) => *initial = value,
            None => self.locations = TOO_MANY,
        }
    }

    /// States the final value of a location.
    pub fn final_value(&mut self, location: u8, value: u16) {
        match self.finals.get_mut(usize::from(location)) {
            Some(last) => {
                *last = value;
                self.stated |= 1 << location;
            }
            None => self.locations = TOO_MANY,
        }
    }
}

/// A table and its test.
impl Table {
    /// The table of a test of either edition. It is refused by 1 to 11 and 21.
    ///
    /// ```
    /// use cogthunder::{Operation, Table};
    ///
    /// let block = include_bytes!(concat!(env!("CARGO_MANIFEST_DIR"), "/../samples/counter.block"));
    /// let mut table = Table::of_test(block)?;
    /// assert_eq!(table.events[1].operation, Operation::Add as u8);
    /// assert_eq!(table.block()?, *block);
    ///
    /// // The second hart writes another value than the sum.
    /// table.events[1].written = 1;
    /// let refusal = table.block().unwrap_err();
    /// assert_eq!((refusal.number, refusal.record), (7, Some(1)));
    /// # Ok::<(), cogthunder::Refusal>(())
    /// ```
    pub fn of_test(test: &[u8]) -> Result<Table, Refusal> {
        read(test)?;
        Ok(table_of(test))
    }

    /// The block of the table, of which there is only one; [`read`](crate::read) accepts it. It is refused by 5 to 11 and 21; a
    /// block is of edition 1, so more than 16 events are refused by 5.
    pub fn block(&self) -> Result<[u8; BLOCK], Refusal> {
        let mut block = [0; BLOCK];
        write(self, &mut block)?;
        Ok(block)
    }

    /// The test of the table, which [`read`](crate::read) accepts: its block, or where there are more than 16 events a test of
    /// edition 2. It is refused by 5 to 11 and 21.
    ///
    /// A block is written by the proved writer. A test of edition 2 isn't: plain Rust puts it together, and the library reads it
    /// before it is handed out. That reading gives this table back is tested, and not proved.
    ///
    /// ```
    /// use cogthunder::{Table, Witnesses, BLOCK, TEST};
    ///
    /// let mut table = Table::new(1, 1);
    /// for value in 1..=16 {
    ///     table.store(0, 0, value);
    /// }
    /// assert_eq!(table.test()?.len(), BLOCK);
    /// assert_eq!(table.test()?, table.block()?);
    ///
    /// table.store(0, 0, 17);
    /// table.final_value(0, 17);
    /// let test = table.test()?;
    /// assert_eq!(test.len(), TEST);
    /// assert_eq!(Table::of_test(&test)?, table);
    /// assert_eq!(Witnesses::of(&test)?.next(), Some((0..17).collect()));
    /// assert_eq!(table.block().unwrap_err().number, 5);
    /// # Ok::<(), cogthunder::Refusal>(())
    /// ```
    pub fn test(&self) -> Result<Vec<u8>, Refusal> {
        if self.count <= BLOCK_EVENTS {
            return self.block().map(|block| block.to_vec());
        }
        let test = edition_two::encode(self);
        read(&test)?;
        Ok(test.to_vec())
    }
}

/// The bit of an event in a mask. That of the last slot stands for those that have none: a mask that names no event of the
/// test is refused by 9.
fn bit(event: u8) -> u32 {
    1 << event.min(LAST_SLOT)
}

#[cfg(test)]
mod tests {
    use super::*;
    use crate::Witnesses;

    const X: u8 = 0;
    const Y: u8 = 1;

    /// Good, with an event of each kind: LR 0, SC 1, AMO 2, fence 3 and fence.tso 4 on hart 0, load 5 and store 6 on hart 1.
    fn table() -> Table {
        let mut table = Table::new(2, 2);
        table.lr(0, X, 0);
        table.sc(0, X, 1);
        table.amo(0, Y, 0, 2);
        table.fence(0, Accesses::R, Accesses::RW);
        table.fence_tso(0);
        table.load(1, Y, 2);
        table.store(1, X, 3);
        table
    }

    /// The number and the record by which a table is refused.
    fn refused<T>(change: impl FnOnce(&mut Table) -> T) -> (u8, Option<u8>) {
        let mut table = table();
        change(&mut table);
        let refusal = table.block().expect_err("the table has a mistake");
        (refusal.number, refusal.record)
    }

    #[test]
    fn a_good_table_is_written_read_and_searched() {
        let block = table().block().expect("the table is good");
        assert_eq!(Table::of_test(&block), Ok(table()));
        assert_eq!(table().test(), Ok(block.to_vec()));
        assert!(Witnesses::of(&block).expect("the block is good").next().is_some());
    }

    #[test]
    fn a_table_of_either_model_is_given_back() {
        for test in [table(), thirty()] {
            let mut tso = test.clone();
            tso.tso();
            assert_eq!((test.model, tso.model), (0, 1));
            for table in [test, tso] {
                let bytes = table.test().expect("the table is good");
                assert_eq!(Table::of_test(&bytes), Ok(table));
            }
        }
    }

    #[test]
    fn what_is_said_before_an_event_is_added_stays() {
        let mut early = table();
        early.data_dependency(8, 7);
        early.annotate(8, Annotation::ReleaseRcpc);
        early.load(1, X, 3);
        early.store(1, Y, 4);
        let mut late = table();
        let on = late.load(1, X, 3);
        let event = late.store(1, Y, 4);
        late.data_dependency(event, on);
        late.annotate(event, Annotation::ReleaseRcpc);
        assert_eq!(early.block(), late.block());
        assert!(late.block().is_ok());
    }

    #[test]
    fn numbers_out_of_range_are_refused() {
        assert_eq!(refused(|t| t.harts = 5), (5, None));
        assert_eq!(refused(|t| t.locations = 0), (5, None));
        assert_eq!(refused(|t| t.count = 200), (5, None));
        assert_eq!(refused(|t| t.model = 2), (5, None));
        assert_eq!(refused(|t| t.model = 255), (5, None));
        assert_eq!(refused(|t| t.load(9, X, 0)), (7, Some(7)));
        assert_eq!(refused(|t| t.load(0, 2, 0)), (7, Some(7)));
        assert_eq!(refused(|t| t.events[3].kind = 77), (7, Some(3)));
        assert_eq!(refused(|t| t.events[5].written = 1), (7, Some(5)));
        assert_eq!(refused(|t| t.events[5].flags = 16), (7, Some(5)));
    }

    #[test]
    fn an_operation_writes_what_it_makes_of_the_value_read() {
        let amos = [
            (Operation::Add, 65_535, 1, 0),
            (Operation::Add, 65_535, 255, 254),
            (Operation::And, 0x1234, 255, 0x34),
            (Operation::Or, 0x1200, 255, 0x12FF),
            (Operation::Xor, 65_535, 255, 65_280),
            (Operation::Larger, 254, 255, 255),
            (Operation::Larger, 65_535, 255, 65_535),
            (Operation::Smaller, 256, 255, 255),
            (Operation::Smaller, 65_535, 0, 0),
        ];
        let mut table = Table::new(1, 1);
        for (operation, read, operand, written) in amos {
            let amo = table.amo_with(0, X, read, operation, operand);
            assert_eq!(table.slot(amo).written, written, "{operation:?} {read} {operand}");
        }
        assert_eq!(table.block().and_then(|block| read(&block)), Ok(()));
    }

    #[test]
    fn what_an_operation_cannot_be_is_refused() {
        let with = |t: &mut Table, change: fn(&mut Event)| {
            let amo = t.amo_with(1, Y, 0x1234, Operation::And, 255);
            change(t.slot(amo));
        };
        assert_eq!(refused(|t| with(t, |amo| amo.operation = 7)), (7, Some(7)));
        assert_eq!(refused(|t| with(t, |amo| amo.operation = 0)), (7, Some(7)));
        assert_eq!(refused(|t| with(t, |amo| amo.operand = 4)), (7, Some(7)));
        assert_eq!(refused(|t| with(t, |amo| amo.read = 0)), (7, Some(7)));
        assert_eq!(refused(|t| with(t, |amo| amo.written = 0x1234)), (7, Some(7)));
        assert_eq!(refused(|t| t.amo_with(9, Y, 0, Operation::Or, 1)), (7, Some(7)));
        // Every event but the AMO.
        for event in [0, 1, 3, 4, 5, 6] {
            assert_eq!(refused(|t| t.slot(event).operation = Operation::Add as u8), (7, Some(event)));
        }
        for event in 0..7 {
            assert_eq!(refused(|t| t.slot(event).operand = 1), (7, Some(event)));
        }
        assert_eq!(refused(|t| t.slot(7).operation = Operation::Add as u8), (6, None));
        assert_eq!(refused(|t| t.slot(31).operand = 1), (6, None));
    }

    #[test]
    fn any_number_of_events_may_be_added() {
        for events in [17, 32, 33, 255, 256, 1000] {
            let mut table = Table::new(1, 1);
            for event in 0..events {
                assert_eq!(usize::from(table.fence(0, Accesses::RW, Accesses::RW)), event.min(255));
            }
            assert_eq!(table.block().map_err(|refusal| refusal.number), Err(5));
            let expected = if events <= 30 { 11 } else { 5 };
            assert_eq!(table.test().map_err(|refusal| refusal.number), Err(expected));
        }
    }

    /// Loads, as many as edition 2 has room for.
    fn thirty() -> Table {
        let mut table = Table::new(1, 1);
        for _ in 0..30 {
            table.load(0, X, 0);
        }
        table
    }

    /// The number and the record by which a table of thirty events is refused.
    fn refused_in_two<T>(change: impl FnOnce(&mut Table) -> T) -> (u8, Option<u8>) {
        let mut table = thirty();
        change(&mut table);
        let refusal = table.test().expect_err("the table has a mistake");
        (refusal.number, refusal.record)
    }

    #[test]
    fn thirty_events_are_written_read_and_searched() {
        let test = thirty().test().expect("the table is good");
        assert_eq!(Table::of_test(&test), Ok(thirty()));
        assert_eq!(Witnesses::of(&test).expect("the test is good").next(), Some((0..30).collect()));
    }

    #[test]
    fn mistakes_among_thirty_events_are_refused_as_among_few() {
        assert_eq!(refused_in_two(|t| t.load(0, X, 0)), (5, None));
        assert_eq!(refused_in_two(|t| t.model = 2), (5, None));
        assert_eq!(refused_in_two(|t| t.count = 29), (6, None));
        assert_eq!(refused_in_two(|t| t.slot(30).kind = LOAD), (6, None));
        assert_eq!(refused_in_two(|t| t.slot(31).operand = 1), (6, None));
        assert_eq!(refused_in_two(|t| t.annotate(200, Annotation::AcquireRcpc)), (6, None));
        assert_eq!(refused_in_two(|t| (t.harts, t.events[30].kind) = (9, LOAD)), (5, None));
        assert_eq!(refused_in_two(|t| (t.events[3].kind, t.events[30].kind) = (9, LOAD)), (6, None));
        assert_eq!(refused_in_two(|t| t.initial_value(1, 1)), (6, None));
        assert_eq!(refused_in_two(|t| t.slot(29).hart = 1), (7, Some(29)));
        assert_eq!(refused_in_two(|t| t.annotate(15, Annotation::ReleaseRcpc)), (8, Some(15)));
        assert_eq!(refused_in_two(|t| t.address_dependency(29, 30)), (9, Some(29)));
        assert_eq!(refused_in_two(|t| t.address_dependency(29, 31)), (9, Some(29)));
        assert_eq!(refused_in_two(|t| t.address_dependency(29, 200)), (9, Some(29)));
        assert_eq!(refused_in_two(|t| (t.slot(29).kind, t.slot(29).read) = (SC, 0)), (10, Some(29)));
    }

    #[test]
    fn values_of_other_locations_are_refused() {
        assert_eq!(refused(|t| t.initial_value(2, 1)), (6, None));
        assert_eq!(refused(|t| t.final_value(2, 0)), (5, None));
        for location in [8, 9, 200, 255] {
            assert_eq!(refused(|t| t.initial_value(location, 1)), (5, None));
            assert_eq!(refused(|t| t.final_value(location, 0)), (5, None));
        }
    }

    #[test]
    fn a_location_that_is_neither_touched_nor_stated_is_refused() {
        assert_eq!(refused(|t| t.locations = 3), (21, None));
        assert_eq!(refused(|t| (t.locations, t.initial[2]) = (3, 7)), (21, None));
        assert_eq!(refused_in_two(|t| t.locations = 8), (21, None));
        // A fence has location 0, and touches nothing.
        let mut fenced = Table::new(1, 2);
        fenced.fence_tso(0);
        fenced.load(0, Y, 0);
        assert_eq!(fenced.block().map_err(|refusal| refusal.number), Err(21));
        fenced.final_value(X, 0);
        assert!(fenced.block().is_ok());
        let mut stated = thirty();
        stated.locations = 2;
        stated.final_value(Y, 0);
        assert!(stated.test().is_ok());
    }

    #[test]
    fn what_is_said_of_no_event_is_refused() {
        for event in [7, 15, 16, 31, 32, 255] {
            assert_eq!(refused(|t| t.annotate(event, Annotation::AcquireRcsc)), (6, None));
            assert_eq!(refused(|t| t.control_dependency(event, 5)), (6, None));
        }
        for on in [6, 7, 16, 31, 32, 255] {
            assert_eq!(refused(|t| t.address_dependency(6, on)), (9, Some(6)));
        }
    }

    #[test]
    fn what_an_event_cannot_have_is_refused() {
        for fence in [3, 4] {
            assert_eq!(refused(|t| t.annotate(fence, Annotation::AcquireRcpc)), (7, Some(fence)));
        }
        let annotated_early = |t: &mut Table| {
            t.annotate(7, Annotation::AcquireRcpc);
            t.fence(1, Accesses::None, Accesses::W)
        };
        assert_eq!(refused(annotated_early), (7, Some(7)));
        assert_eq!(refused(|t| t.annotate(5, Annotation::ReleaseRcsc)), (8, Some(5)));
        assert_eq!(refused(|t| t.data_dependency(5, 0)), (9, Some(5)));
        assert_eq!(refused(|t| t.control_dependency(1, 0)), (9, Some(1)));
        assert_eq!(refused(|t| t.sc(0, Y, 1)), (10, Some(7)));
        let mut fences = Table::new(1, 1);
        fences.fence_tso(0);
        assert_eq!(fences.block().map_err(|refusal| refusal.number), Err(11));
    }
}
