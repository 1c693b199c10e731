//! Lists all witnesses of the test in a file: the global memory orders, by event numbers, that give the outcome. With --pruned
//! by the engine that gives up early, which visits fewer prefixes; with --decided by decisions, which visit none.
//!
//!     cargo run --offline --example witnesses -- ../samples/C1.block
//!     cargo run --offline --example witnesses -- --pruned ../samples/C1.block
//!     cargo run --offline --example witnesses -- --decided ../samples/C1.block

use cogthunder::{Refusal, Witnesses};
use std::error::Error;
use std::path::{Path, PathBuf};
use std::process::ExitCode;

/// How the witnesses are found, where that is said.
const WAYS: [&str; 2] = ["--pruned", "--decided"];

fn main() -> ExitCode {
    let mut arguments = std::env::args_os().skip(1).peekable();
    let way = arguments.next_if(|word| WAYS.iter().any(|way| word == way)).unwrap_or_default();
    let Some(path) = arguments.next().map(PathBuf::from) else {
        eprintln!("usage: witnesses [--pruned | --decided] TEST-FILE");
        return ExitCode::FAILURE;
    };
    match list(&path, way.to_str()) {
        Ok(()) => ExitCode::SUCCESS,
        Err(error) => {
            eprintln!("{}: {error}", path.display());
            ExitCode::FAILURE
        }
    }
}

fn witnesses<'a>(test: &'a [u8], way: Option<&str>) -> Result<Witnesses<'a>, Refusal> {
    match way {
        Some("--pruned") => Witnesses::pruned(test),
        Some("--decided") => Witnesses::decided(test),
        _ => Witnesses::of(test),
    }
}

fn list(path: &Path, way: Option<&str>) -> Result<(), Box<dyn Error>> {
    let test = std::fs::read(path)?;
    let mut witnesses = witnesses(&test, way)?;
    let mut count = 0;
    for order in &mut witnesses {
        let events: Vec<String> = order.iter().map(u8::to_string).collect();
        println!("{}", events.join(" "));
        count += 1;
    }
    let outcome = if count == 0 { "forbidden" } else { "allowed" };
    println!("{outcome}: {count} witnesses, {} prefixes visited", witnesses.visited());
    Ok(())
}
