//! The reference program of the RVWMO bench. Its commands are listed in the README.

use oracle::{
    advice_calls, candidates, decide_calls, generate, outcome_calls, readings, runs, stream, suite,
    tests, texts, walks, writes,
};
use std::io::{self, Read, Write};
use std::process::ExitCode;

const USAGE: &str = "usage: oracle COMMAND
where COMMAND is one of make-readings, readings, make-candidates, list-candidates, candidates,
make-walks, walks, make-writes, writes, make-tests, tests, make-texts, texts, make-runs, runs,
make-outcome_calls, outcome_calls, make-advice_calls, advice_calls, make-decide_calls,
decide_calls, suite";

fn main() -> ExitCode {
    let command = std::env::args().nth(1).unwrap_or_default();
    match run(&command) {
        Ok(()) => ExitCode::SUCCESS,
        Err(message) => {
            eprintln!("oracle: {message}");
            ExitCode::FAILURE
        }
    }
}

fn run(command: &str) -> Result<(), String> {
    match command {
        "make-readings" => print(&generate::readings::make_readings()),
        "readings" => answer(readings::print_readings),
        "make-candidates" => print(&generate::candidates::make_candidates().stream),
        "list-candidates" => print(generate::candidates::list_candidates().as_bytes()),
        "candidates" => answer(candidates::print_candidates),
        "make-walks" => print(&generate::walks::make_walks()),
        "walks" => answer(walks::print_walks),
        "make-writes" => print(&generate::writes::make_writes()),
        "writes" => answer(writes::print_writes),
        "make-tests" => print(&generate::suites::make_tests()),
        "tests" => answer(tests::print_tests),
        "make-texts" => print(&generate::text_calls::make_texts()),
        "texts" => answer(texts::print_texts),
        "make-runs" => print(&generate::runs::make_runs()),
        "runs" => answer(runs::print_runs),
        "make-outcome_calls" => print(&generate::outcome_calls::make_outcome_calls()),
        "outcome_calls" => answer(outcome_calls::print_outcome_calls),
        "make-advice_calls" => print(&generate::advice_calls::make_advice_calls()),
        "advice_calls" => answer(advice_calls::print_advice_calls),
        "make-decide_calls" => print(&generate::decide_calls::make_decide_calls()),
        "decide_calls" => answer(decide_calls::print_decide_calls),
        "suite" => print(suite::print_suite(&standard_input()?).as_bytes()),
        _ => Err(USAGE.to_string()),
    }
}

/// Answers a stream on standard input with lines on standard output.
fn answer(lines: fn(&[u8]) -> Result<String, stream::Malformed>) -> Result<(), String> {
    let lines = lines(&standard_input()?).map_err(|_| "the input isn't such a stream")?;
    print(lines.as_bytes())
}

fn standard_input() -> Result<Vec<u8>, String> {
    let mut bytes = Vec::new();
    io::stdin().read_to_end(&mut bytes).map_err(|error| error.to_string())?;
    Ok(bytes)
}

fn print(bytes: &[u8]) -> Result<(), String> {
    io::stdout().write_all(bytes).map_err(|error| error.to_string())
}
