//! A hart run by itself, with the values that its loads are supposed to return: its events, with their addresses, values and
//! dependencies, and its registers at the end.

use crate::error::Error;
use crate::flow::Flow;
use crate::litmus::{sign_extended, truncated, value_words, Hart, Instruction, Register, Source, Test, REGISTERS};
use crate::litmus::{Access, AccessKind, Action, AmoOp, Condition, Place};
use crate::record::MOST_EVENTS;
use crate::value::Value;

/// A hart is followed from one read to the next at most as often.
const MOST_STEPS: usize = 50_000;

/// What an event is.
#[derive(Clone, Copy, PartialEq, Eq, Debug)]
pub enum EventKind {
    Access(AccessKind),
    Fence,
    FenceTso,
}

/// An event of a hart. Bit k of a mask names the hart's event k.
#[derive(Clone, PartialEq, Eq, Debug)]
pub struct Event {
    pub kind: EventKind,
    /// The instruction that it is of, by its number on the hart.
    pub instruction: usize,
    /// The location of an access; 0 of a fence.
    pub location: usize,
    pub flags: u8,
    pub address: u32,
    pub data: u32,
    pub control: u32,
    /// The value read, of an event that reads.
    pub read: Option<u16>,
    /// The value written, of an event that writes.
    pub written: Option<u16>,
    /// The operand of an AMO as its instruction has it.
    pub operand: u64,
}

/// A run of one hart to its end.
#[derive(Clone, Debug)]
pub struct Run {
    pub events: Vec<Event>,
    pub registers: [Value; REGISTERS],
}

impl Run {
    /// The run of a hart whose reads return these values, one after the other. None if it can't be followed, or has more reads or
    /// fewer.
    pub fn of(test: &Test, hart: usize, reads: &[u16]) -> Option<Run> {
        let (mut state, mut left) = (State::first(test, &test.harts[hart]), reads.iter());
        while let Stop::Reads(_) = state.advance().ok()? {
            state.supply(*left.next()?).ok()?;
        }
        left.next().is_none().then(|| state.run())
    }
}

/// What a register holds, and the events that it depends on.
#[derive(Clone, Copy, Default)]
struct Held {
    value: Value,
    sources: u32,
}

/// A hart on its way.
#[derive(Clone)]
struct State<'a> {
    test: &'a Test,
    hart: &'a Hart,
    at: usize,
    registers: [Held; REGISTERS],
    /// The events that branches so far depended on.
    control: u32,
    events: Vec<Event>,
}

/// Where a hart stops.
enum Stop {
    /// It needs the value that a read of this location returns.
    Reads(usize),
    End,
}

/// Which runs are looked for.
#[derive(Clone, Copy)]
pub enum Wanted<'a> {
    /// Those that differ in what they write: a read that nothing depends on returns one value only.
    Writes,
    /// Those whose registers don't break a condition.
    Meeting(&'a Condition),
}

/// Runs of one hart, in which every read returns one of the values that `values` has for its location.
pub struct Runs<'a> {
    pub test: &'a Test,
    pub hart: usize,
    pub values: &'a [Vec<u16>],
    pub wanted: Wanted<'a>,
}

impl Runs<'_> {
    /// Calls `each` with all runs, by ascending values. An error past a bound.
    pub fn visit(&self, each: &mut dyn FnMut(Run)) -> Result<(), Error> {
        let hart = &self.test.harts[self.hart];
        let (flow, mut open, mut count) = (Flow::of(&hart.program), vec![State::first(self.test, hart)], 0);
        while let Some(mut state) = open.pop() {
            match state.advance()? {
                Stop::Reads(location) => {
                    for &value in self.choices(&flow, &state, location).iter().rev() {
                        let mut next = state.clone();
                        next.supply(value)?;
                        if !self.breaks(&flow, &next) {
                            open.push(next);
                        }
                    }
                }
                Stop::End if self.breaks(&flow, &state) => {}
                Stop::End => each(state.run()),
            }
            count += 1;
            if count > MOST_STEPS {
                let hart = self.hart;
                let sentence = format!("hart P{hart} has too many runs with the values that its loads could return");
                return Err(Error::new(sentence));
            }
        }
        Ok(())
    }

    /// The values for the read that a hart has stopped at.
    fn choices(&self, flow: &Flow, state: &State, location: usize) -> &[u16] {
        let values = &self.values[location];
        match self.wanted {
            Wanted::Writes if !flow.is_used(state.at - 1) => &values[..1],
            _ => values,
        }
    }

    /// Whether the registers that hold their last values break the condition.
    fn breaks(&self, flow: &Flow, state: &State) -> bool {
        let Wanted::Meeting(condition) = self.wanted else { return false };
        let known = |place| match place {
            Place::Register(hart, register) if hart == self.hart && flow.is_settled(register, state.at) => {
                Some(state.get(register).value)
            }
            _ => None,
        };
        condition.holds(&known) == Some(false)
    }
}

impl<'a> State<'a> {
    fn first(test: &'a Test, hart: &'a Hart) -> State<'a> {
        let registers = hart.registers.map(|value| Held { value, sources: 0 });
        State { test, hart, at: 0, registers, control: 0, events: Vec::new() }
    }

    fn run(self) -> Run {
        Run { events: self.events, registers: self.registers.map(|held| held.value) }
    }

    /// Goes on to the next read or to the end.
    fn advance(&mut self) -> Result<Stop, Error> {
        let hart = self.hart;
        while let Some(instruction) = hart.program.get(self.at) {
            self.at += 1;
            match &instruction.action {
                Action::Nothing => {}
                Action::Compute { op, to, left, right } => {
                    let (left, right) = (self.source(*left), self.source(*right));
                    let value = Value::compute(*op, left.value, right.value)
                        .ok_or_else(|| Error::at(instruction.line, address_use(instruction)))?;
                    self.set(*to, Held { value, sources: left.sources | right.sources });
                }
                Action::Branch { comparison, left, right, to } => {
                    let (left, right) = (self.get(*left), self.get(*right));
                    self.control |= left.sources | right.sources;
                    let [left, right] = comparable(left.value, right.value)
                        .ok_or_else(|| Error::at(instruction.line, address_use(instruction)))?;
                    if comparison.holds(left, right) {
                        self.at = *to;
                    }
                }
                Action::Jump { to } => self.at = *to,
                Action::Fence { flags } => self.fence(EventKind::Fence, *flags)?,
                Action::FenceTso => self.fence(EventKind::FenceTso, 0)?,
                Action::Access(access) => {
                    let location = self.access(instruction, access)?;
                    if reads(access.kind) {
                        return Ok(Stop::Reads(location));
                    }
                }
            }
        }
        Ok(Stop::End)
    }

    fn get(&self, register: Register) -> Held {
        self.registers[register.index()]
    }

    /// x0 stays 0 and carries no dependency.
    fn set(&mut self, register: Register, held: Held) {
        if !register.is_zero() {
            self.registers[register.index()] = held;
        }
    }

    fn source(&self, source: Source) -> Held {
        match source {
            Source::Register(register) => self.get(register),
            Source::Number(number) => Held { value: Value::number(number), sources: 0 },
            Source::Location(location) => Held { value: Value::address(location), sources: 0 },
        }
    }

    fn add(&mut self, event: Event) -> Result<(), Error> {
        if self.events.len() == MOST_EVENTS {
            let line = self.hart.program[event.instruction].line;
            return Err(Error::at(line, "the hart has more than thirty events, and a test has at most thirty"));
        }
        self.events.push(event);
        Ok(())
    }

    fn fence(&mut self, kind: EventKind, flags: u8) -> Result<(), Error> {
        self.add(Event {
            kind,
            instruction: self.at - 1,
            location: 0,
            flags,
            address: 0,
            data: 0,
            control: 0,
            read: None,
            written: None,
            operand: 0,
        })
    }

    /// Adds the event of an access, and answers its location. What a read returns isn't known yet.
    fn access(&mut self, instruction: &Instruction, access: &Access) -> Result<usize, Error> {
        let (base, from) = (self.get(access.base), self.get(access.from));
        let location = self.location(instruction, access)?;
        if access.kind == AccessKind::Sc {
            self.check_pair(instruction, location)?;
        }
        let written = match access.kind {
            AccessKind::Store | AccessKind::Sc => Some(self.test.memory_value(from.value, instruction.line)?),
            _ => None,
        };
        self.add(Event {
            kind: EventKind::Access(access.kind),
            instruction: self.at - 1,
            location,
            flags: access.flags,
            address: base.sources,
            data: if writes(access.kind) { from.sources } else { 0 },
            control: self.control,
            read: None,
            written,
            operand: from.value.number,
        })?;
        if access.kind == AccessKind::Sc {
            // It has succeeded, and its result depends on itself alone.
            self.set(access.to, Held { value: Value::number(0), sources: self.last_bit() });
        }
        Ok(location)
    }

    /// The location of an access, whose address has to be one.
    fn location(&self, instruction: &Instruction, access: &Access) -> Result<usize, Error> {
        let base = self.get(access.base).value;
        let address = Value { number: base.number.wrapping_add(access.offset), ..base };
        match address {
            Value { location: Some(location), number: 0 } => Ok(location),
            _ => {
                let words = value_words(address, &self.test.locations);
                Err(Error::at(instruction.line, format!("`{}`: the address {words} is no location", instruction.text)))
            }
        }
    }

    /// An SC can only succeed behind an LR to its location.
    fn check_pair(&self, instruction: &Instruction, location: usize) -> Result<(), Error> {
        let paired = self.events.iter().rev().find_map(|event| match event.kind {
            EventKind::Access(AccessKind::Lr) => Some(event.location == location),
            EventKind::Access(AccessKind::Sc) => Some(false),
            _ => None,
        });
        if paired == Some(true) {
            return Ok(());
        }
        let sentence = format!("`{}`: it can't succeed without an LR to its location before it", instruction.text);
        Err(Error::at(instruction.line, sentence))
    }

    fn last_bit(&self) -> u32 {
        1 << (self.events.len() - 1)
    }

    /// Gives the read that it stopped at its value.
    fn supply(&mut self, value: u16) -> Result<(), Error> {
        let bit = self.last_bit();
        let instruction = &self.hart.program[self.at - 1];
        let Action::Access(access) = &instruction.action else { unreachable!("it stops at reads only") };
        let number = u64::from(value);
        let signed = sign_extended(number, access.width);
        let written = match access.kind {
            AccessKind::Amo(op) => Some(self.amo(op, access, signed, instruction.line)?),
            _ => None,
        };
        let event = self.events.last_mut().expect("it stopped at its event");
        (event.read, event.written) = (Some(value), written);
        let held = Value::number(if access.is_signed { signed } else { number });
        self.set(access.to, Held { value: held, sources: bit });
        Ok(())
    }

    /// What an AMO writes.
    fn amo(&self, op: AmoOp, access: &Access, read: u64, line: usize) -> Result<u16, Error> {
        let operand = self.get(access.from).value;
        if operand.location.is_some() {
            return self.test.memory_value(operand, line);
        }
        let is_unsigned = matches!(op, AmoOp::LargerUnsigned | AmoOp::SmallerUnsigned);
        let extended = if is_unsigned { truncated } else { sign_extended };
        let written = op.apply(extended(read, access.width), extended(operand.number, access.width));
        self.test.memory_value(Value::number(written), line)
    }
}

fn address_use(instruction: &Instruction) -> String {
    format!("`{}`: this isn't read with an address as operand", instruction.text)
}

/// Two numbers that compare as the values do. Of addresses only those of one location have an order, and none is 0.
fn comparable(left: Value, right: Value) -> Option<[u64; 2]> {
    match (left.location, right.location) {
        (one, other) if one == other => Some([left.number, right.number]),
        _ => None,
    }
}

/// Whether an access reads.
pub fn reads(kind: AccessKind) -> bool {
    matches!(kind, AccessKind::Load | AccessKind::Lr | AccessKind::Amo(_))
}

/// Whether an access writes.
pub fn writes(kind: AccessKind) -> bool {
    matches!(kind, AccessKind::Store | AccessKind::Sc | AccessKind::Amo(_))
}

#[cfg(test)]
mod tests {
    use super::*;
    use crate::litmus::read;

    /// The runs of the only hart of a test; its registers hold x5=1, x6=&x and x7=&y.
    fn runs(rows: &str, values: &[u16]) -> Result<Vec<Run>, Error> {
        let text = format!("RISCV a\n{{ 0:x5=1; 0:x6=x; 0:x7=y; }}\nP0 ;\n{rows}\nexists (true)");
        let (test, values, mut runs) = (read(&text)?, [values.to_vec(), values.to_vec()], Vec::new());
        let wanted = Wanted::Meeting(&test.question.condition);
        Runs { test: &test, hart: 0, values: &values, wanted }.visit(&mut |run| runs.push(run))?;
        Ok(runs)
    }

    /// The only run where each read returns 1.
    fn run(rows: &str) -> Run {
        runs(rows, &[1]).unwrap().remove(0)
    }

    fn masks(run: &Run) -> Vec<(u32, u32, u32)> {
        run.events.iter().map(|event| (event.address, event.data, event.control)).collect()
    }

    fn sentence(rows: &str) -> String {
        runs(rows, &[0, 1]).unwrap_err().sentence
    }

    #[test]
    fn a_condition_spares_runs_and_so_do_reads_that_no_write_depends_on() {
        let loads: String = (8..24).map(|register| format!("lw x{register},0(x6) ;\n")).collect();
        let stated: Vec<String> = (8..24).map(|register| format!("0:x{register}={}", register % 2)).collect();
        let condition = stated.join(" /\\ ");
        let text = format!("RISCV a\n{{ 0:x6=x; }}\nP0 ;\n{loads}sw x8,0(x6) ;\nexists ({condition})");
        let (test, values) = (read(&text).unwrap(), [vec![0, 1, 2]]);
        let count = |wanted| {
            let mut count = 0;
            Runs { test: &test, hart: 0, values: &values, wanted }.visit(&mut |_| count += 1).map(|()| count)
        };
        assert_eq!(count(Wanted::Meeting(&test.question.condition)), Ok(1));
        assert_eq!(count(Wanted::Writes), Ok(3));
        assert!(count(Wanted::Meeting(&Condition::Always(true))).is_err());
    }

    #[test]
    fn dependencies_go_through_registers() {
        let address = run("lw x8,0(x6) ; xor x9,x8,x8 ; add x10,x9,x7 ; lw x11,0(x10) ;");
        assert_eq!(masks(&address), [(0, 0, 0), (1, 0, 0)]);
        let data = run("lw x8,0(x6) ; lw x9,0(x7) ; addi x9,x9,1 ; or x8,x8,x9 ; sw x8,0(x7) ;");
        assert_eq!(masks(&data)[2], (0, 3, 0));
        assert_eq!(data.events[2].written, Some(3));
    }

    #[test]
    fn a_register_that_is_written_anew_carries_no_more() {
        let run = run("lw x8,0(x6) ; mv x9,x8 ; li x8,2 ; sw x8,0(x7) ; sw x9,0(x7) ;");
        assert_eq!(masks(&run), [(0, 0, 0), (0, 0, 0), (0, 1, 0)]);
    }

    #[test]
    fn x0_carries_nothing() {
        let run = run("lw x0,0(x6) ; add x8,x0,x5 ; sw x8,0(x7) ; sw x0,0(x7) ; bne x0,x5,L ; L: sw x5,0(x6) ;");
        assert!(masks(&run).iter().all(|&masks| masks == (0, 0, 0)));
        assert_eq!(run.events[2].written, Some(0));
    }

    #[test]
    fn a_branch_orders_all_that_follows_and_the_path_is_that_of_the_values() {
        let rows = "lw x8,0(x6) ; beqz x8,L ; sw x5,0(x7) ; L: fence r,w ; lw x9,0(x7) ; sw x5,0(x6) ;";
        let runs = runs(rows, &[0, 1]).unwrap();
        let counts: Vec<usize> = runs.iter().map(|run| run.events.len()).collect();
        assert_eq!(counts, [4, 4, 5, 5]);
        assert_eq!(masks(&runs[2]), [(0, 0, 0), (0, 0, 1), (0, 0, 0), (0, 0, 1), (0, 0, 1)]);
    }

    #[test]
    fn the_result_of_an_sc_depends_on_it_alone() {
        let run = run("lr.w x8,(x6) ; sc.w x9,x8,(x6) ; sw x9,0(x7) ; lw x10,0(x7) ;");
        assert_eq!(masks(&run), [(0, 0, 0), (0, 1, 0), (0, 2, 0), (0, 0, 0)]);
        assert_eq!(run.registers[9], Value::number(0));
    }

    #[test]
    fn an_amo_writes_what_its_operation_makes() {
        let written = |rows: &str| runs(rows, &[7]).unwrap()[0].events[0].written;
        assert_eq!(written("amoadd.w x8,x5,(x6) ;"), Some(8));
        assert_eq!(written("amoswap.w x8,x0,(x6) ;"), Some(0));
        assert_eq!(written("amomax.w x8,x5,(x6) ;"), Some(7));
        assert_eq!(written("li x9,-1 ; amomin.w x8,x5,(x6) ;"), Some(1));
        assert_eq!(written("li x9,-1 ; amoand.w x8,x9,(x6) ;"), Some(7));
        assert_eq!(sentence("li x9,-1 ; amoor.w x8,x9,(x6) ;"), "the value 4294967295 in memory is above 65535");
    }

    #[test]
    fn narrow_loads_extend_their_sign() {
        let held = |rows: &str| runs(rows, &[0xff]).unwrap()[0].registers[8].number;
        assert_eq!((held("lb x8,0(x6) ;"), held("lbu x8,0(x6) ;"), held("lh x8,0(x6) ;")), (u64::MAX, 0xff, 0xff));
        let stored = run("li x9,-1 ; sh x9,0(x6) ;");
        assert_eq!(stored.events[0].written, Some(0xffff));
    }

    #[test]
    fn what_cannot_be_followed_is_said() {
        assert_eq!(
            sentence("lw x8,0(x6) ; add x9,x6,x8 ; lw x10,0(x9) ;"),
            "`lw x10, 0(x9)`: the address x+1 is no location"
        );
        assert!(sentence("sc.w x8,x5,(x6) ;").contains("without an LR"));
        assert!(sentence("lr.w x8,(x7) ; sc.w x8,x5,(x6) ;").contains("without an LR"));
        assert!(sentence("lr.w x8,(x6) ; sc.w x8,x5,(x6) ; sc.w x8,x5,(x6) ;").contains("without an LR"));
        assert!(sentence(&"lw x8,0(x6) ;".repeat(20)).contains("too many runs"));
        assert!(sentence(&"sw x5,0(x6) ;".repeat(31)).contains("more than thirty events"));
    }
}
