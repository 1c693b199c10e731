//! The public litmus tests: the stated verdict of each by both of the library's engines, by its decision and by the list of its
//! outcomes, a witness of each allowed outcome by its verdict.

use cogthunder::{returns, verdict, Outcomes, Table, Unlisted, Verdict, Witnesses, EVENTS, LARGEST_ALLOWANCE};
use std::io::{stdin, BufRead};
use std::process::ExitCode;

/// Where a good block has its number of events.
const EVENTS_AT: usize = 7;

/// The kinds of events that read: loads, AMOs and LRs.
const READERS: [u8; 3] = [1, 3, 4];

/// A public test with the verdict that the literature states.
pub struct Test {
    pub stated: String,
    pub block: Vec<u8>,
    pub name: String,
}

/// Reads a line for each test: stated verdict, block in hex and name, parted by tabs.
pub fn tests() -> Vec<Test> {
    let test = |line: std::io::Result<String>| {
        let line = line.expect("standard input can be read");
        let fields: Vec<&str> = line.split('\t').collect();
        let [stated, block, name] = fields[..] else { panic!("a line has three fields") };
        Test { stated: stated.to_string(), block: bytes(block), name: name.to_string() }
    };
    stdin().lock().lines().map(test).collect()
}

pub fn run() -> ExitCode {
    let (mut allowed, mut forbidden, mut wrong) = (0, 0, 0);
    for Test { stated, block, name } in tests() {
        let found = outcome(&block);
        match found {
            Ok(Outcome::Allowed) if stated == "allowed" => allowed += 1,
            Ok(Outcome::Forbidden) if stated == "forbidden" => forbidden += 1,
            _ => {
                wrong += 1;
                println!("{name}: stated {stated}, but {found:?}");
            }
        }
    }
    println!(
        "litmus: {allowed} allowed, each with a first witness of both engines and of its decision that the verdict allows, and \
         among its test's outcomes; {forbidden} forbidden, each decided, walked until none was left, and not among them; {wrong} \
         not as stated"
    );
    if wrong == 0 && allowed + forbidden > 0 {
        ExitCode::SUCCESS
    } else {
        ExitCode::FAILURE
    }
}

#[derive(Debug)]
enum Outcome {
    Allowed,
    Forbidden,
    /// The engines and the decision have different first witnesses, the verdict doesn't allow theirs, or the list of outcomes says
    /// otherwise.
    Contradicted,
}

fn outcome(block: &[u8]) -> Result<Outcome, Unlisted> {
    let first = Witnesses::of(block)?.next();
    let is_listed = Outcomes::of(block, LARGEST_ALLOWANCE)?.any(|outcome| is_stated(block, &outcome));
    let others = [Witnesses::pruned(block)?, Witnesses::decided(block)?].map(|mut walk| walk.next());
    if others.iter().any(|other| *other != first) || first.is_some() != is_listed {
        return Ok(Outcome::Contradicted);
    }
    let Some(order) = first else {
        return Ok(Outcome::Forbidden);
    };
    let mut returned = [0; EVENTS];
    returns(block, &order, &mut returned)?;
    let returned = &returned[..usize::from(block[EVENTS_AT])];
    Ok(match verdict(block, returned, &order)? {
        Verdict::Allowed => Outcome::Allowed,
        Verdict::Broken(_) => Outcome::Contradicted,
    })
}

/// Whether an outcome has the values that a good block states: those of all reads, and of some locations.
fn is_stated(block: &[u8], outcome: &[u16]) -> bool {
    let table = Table::of_test(block).expect("the block is good");
    let events = &table.events[..usize::from(table.count)];
    let reads = events.iter().filter(|event| READERS.contains(&event.kind)).map(|event| event.read);
    let (read, ends) = outcome.split_at(outcome.len() - usize::from(table.locations));
    let mut stated = (0..ends.len()).filter(|location| table.stated >> location & 1 == 1);
    reads.eq(read.iter().copied()) && stated.all(|location| ends[location] == table.finals[location])
}

/// The bytes that pairs of hex digits give.
fn bytes(hex: &str) -> Vec<u8> {
    let byte = |at| u8::from_str_radix(&hex[at..at + 2], 16).expect("a block has two hex digits a byte");
    (0..hex.len()).step_by(2).map(byte).collect()
}
