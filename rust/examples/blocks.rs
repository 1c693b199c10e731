//! Makes tests: standard input has a line for each call of the table builder, standard output gets a block for each table, or
//! three where it has more than 16 events.
//!
//!     table HARTS LOCATIONS               begins a table
//!     tso                                 its model is RVTSO
//!     load HART LOCATION READ             store HART LOCATION WRITTEN
//!     lr HART LOCATION READ               sc HART LOCATION WRITTEN
//!     amo HART LOCATION READ WRITTEN
//!     amo HART LOCATION READ OPERATION OPERAND
//!                                         an operation is add, and, or, xor, larger or smaller
//!     fence HART BEFORE AFTER             as in `fence rw, w`: none, r, w or rw
//!     fence.tso HART
//!     annotate EVENT ANNOTATION           acquire-rcpc, acquire-rcsc, release-rcpc or release-rcsc
//!     address EVENT ON                    likewise data, control
//!     initial LOCATION VALUE              final LOCATION VALUE
//!
//!     cargo run --offline --example blocks <TABLES >SUITE

use cogthunder::{Accesses, Annotation, Operation, Table};
use std::error::Error;
use std::io::{self, Write};
use std::process::ExitCode;
use std::str::FromStr;

fn main() -> ExitCode {
    match run() {
        Ok(()) => ExitCode::SUCCESS,
        Err(error) => {
            eprintln!("blocks: {error}");
            ExitCode::FAILURE
        }
    }
}

/// Writes nothing unless every table has its test.
fn run() -> Result<(), Box<dyn Error>> {
    let mut suite = Vec::new();
    for (number, table) in tables(&io::read_to_string(io::stdin())?)?.iter().enumerate() {
        suite.extend(table.test().map_err(|refusal| format!("table {number} is {refusal}"))?);
    }
    Ok(io::stdout().write_all(&suite)?)
}

fn tables(text: &str) -> Result<Vec<Table>, String> {
    let mut tables = Vec::new();
    for (number, line) in (1..).zip(text.lines()) {
        let words: Vec<&str> = line.split(' ').collect();
        call(&mut tables, &words).ok_or_else(|| format!("line {number} is no call: {line}"))?;
    }
    Ok(tables)
}

/// Begins a table, or makes a call for the one that was begun last. None if the words are no call.
fn call(tables: &mut Vec<Table>, words: &[&str]) -> Option<()> {
    if let ["table", harts, locations] = words {
        tables.push(Table::new(number(harts)?, number(locations)?));
        return Some(());
    }
    let table = tables.last_mut()?;
    add_event(table, words).map(|_| ()).or_else(|| say(table, words))
}

/// The number of the event that was added.
fn add_event(table: &mut Table, words: &[&str]) -> Option<u8> {
    Some(match words {
        ["load", hart, location, read] => table.load(number(hart)?, number(location)?, number(read)?),
        ["store", hart, location, written] => table.store(number(hart)?, number(location)?, number(written)?),
        ["lr", hart, location, read] => table.lr(number(hart)?, number(location)?, number(read)?),
        ["sc", hart, location, written] => table.sc(number(hart)?, number(location)?, number(written)?),
        ["amo", hart, location, read, written] => {
            table.amo(number(hart)?, number(location)?, number(read)?, number(written)?)
        }
        ["amo", hart, location, read, word, operand] => {
            table.amo_with(number(hart)?, number(location)?, number(read)?, operation(word)?, number(operand)?)
        }
        ["fence", hart, before, after] => table.fence(number(hart)?, accesses(before)?, accesses(after)?),
        ["fence.tso", hart] => table.fence_tso(number(hart)?),
        _ => return None,
    })
}

/// Something about an event, a location or the whole table.
fn say(table: &mut Table, words: &[&str]) -> Option<()> {
    match words {
        ["tso"] => table.tso(),
        ["annotate", event, word] => table.annotate(number(event)?, annotation(word)?),
        ["address", event, on] => table.address_dependency(number(event)?, number(on)?),
        ["data", event, on] => table.data_dependency(number(event)?, number(on)?),
        ["control", event, on] => table.control_dependency(number(event)?, number(on)?),
        ["initial", location, value] => table.initial_value(number(location)?, number(value)?),
        ["final", location, value] => table.final_value(number(location)?, number(value)?),
        _ => return None,
    }
    Some(())
}

fn number<T: FromStr>(word: &str) -> Option<T> {
    word.parse().ok()
}

fn operation(word: &str) -> Option<Operation> {
    Some(match word {
        "add" => Operation::Add,
        "and" => Operation::And,
        "or" => Operation::Or,
        "xor" => Operation::Xor,
        "larger" => Operation::Larger,
        "smaller" => Operation::Smaller,
        _ => return None,
    })
}

fn accesses(word: &str) -> Option<Accesses> {
    Some(match word {
        "none" => Accesses::None,
        "r" => Accesses::R,
        "w" => Accesses::W,
        "rw" => Accesses::RW,
        _ => return None,
    })
}

fn annotation(word: &str) -> Option<Annotation> {
    Some(match word {
        "acquire-rcpc" => Annotation::AcquireRcpc,
        "acquire-rcsc" => Annotation::AcquireRcsc,
        "release-rcpc" => Annotation::ReleaseRcpc,
        "release-rcsc" => Annotation::ReleaseRcsc,
        _ => return None,
    })
}
