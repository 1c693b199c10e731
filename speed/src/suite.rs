//! The suite program in plain Rust, and the time of both suite programs on the same blocks.

use crate::plain::{self, Answer};
use crate::table::{BLOCK, EVENTS};
use std::fs::File;
use std::io::{Read, Seek, SeekFrom, Write};
use std::process::{Command, Stdio};
use std::time::Instant;

/// The word after the program's name that makes this program the suite program.
pub const COMMAND: &str = "suite";

const ALLOWANCE: u64 = 1_000_000;
const RUNS: usize = 5;

fn line(k: usize, block: &[u8]) -> String {
    let mut out = [0; EVENTS];
    match plain::search(block, &[], &mut out, ALLOWANCE) {
        Ok(Answer::Found { len, visited }) => {
            let order: Vec<String> = out[..len].iter().map(u8::to_string).collect();
            format!("block {k}: allowed, {visited} visited, order {}", order.join(" "))
        }
        Ok(Answer::NoneLeft { visited }) => format!("block {k}: forbidden, {visited} visited"),
        Ok(Answer::Spent { visited, .. }) => format!("block {k}: undecided, {visited} visited"),
        Err(refusal) => format!("block {k}: refused {}", refusal.line),
    }
}

/// Prints a line for each block of standard input, as soon as it is done.
pub fn run() {
    let mut input = std::io::stdin().lock();
    let mut block = [0; BLOCK];
    let mut k = 0;
    while input.read_exact(&mut block).is_ok() {
        println!("{}", line(k, &block));
        k += 1;
    }
    println!("{k} blocks");
}

/// Milliseconds of a program on the blocks in `file`, least of some runs, and what it printed.
fn least(program: &mut Command, file: &mut File) -> (f64, Vec<u8>) {
    let mut best = f64::MAX;
    let mut printed = Vec::new();
    for _ in 0..RUNS {
        file.seek(SeekFrom::Start(0)).expect("the file of blocks can be read again");
        let input = file.try_clone().expect("the file of blocks is open");
        let begin = Instant::now();
        let output = program.stdin(Stdio::from(input)).stdout(Stdio::piped()).output().expect("the program runs");
        best = best.min(begin.elapsed().as_secs_f64() * 1e3);
        printed = output.stdout;
    }
    (best, printed)
}

/// Times the proved suite program, at `path`, beside this one.
pub fn time(path: &str, blocks: &[u8], count: usize) {
    let name = std::env::temp_dir().join(format!("suite-{}", std::process::id()));
    let mut file =
        File::options().create(true).truncate(true).read(true).write(true).open(&name).expect("a file for the blocks");
    file.write_all(blocks).expect("room for the blocks");
    let (p, proved) = least(&mut Command::new(path), &mut file);
    let own = std::env::current_exe().expect("this program has a path");
    let (q, plain) = least(Command::new(own).arg(COMMAND), &mut file);
    std::fs::remove_file(&name).expect("the file was there");
    assert!(proved == plain, "the two suite programs print the same");
    println!("{count} blocks through the suite programs, ms: proved {p:.0}, Rust {q:.0}, ratio {:.2}", p / q);
}
