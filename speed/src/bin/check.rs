//! Times the check of 40,000 blocks: the proved form by additions, the proved form by weights that it replaced, and a plain
//! loop by weights, in turn, so that all three meet the same machine.

use std::hint::black_box;
use std::time::Instant;

const BLOCK: usize = 512;
const COVERED: usize = 508;
const BLOCKS: usize = 40_000;
const RUNS: usize = 301;

type Block = [u8; BLOCK];
type Check = fn(&Block) -> u32;

mod proved {
    use super::Block;

    #[link(name = "check_speed", kind = "static")]
    extern "C" {
        fn check_by_additions(block: *const u8) -> u32;
        fn check_by_weights(block: *const u8) -> u32;
    }

    pub fn by_additions(block: &Block) -> u32 {
        // It reads one whole block.
        unsafe { check_by_additions(block.as_ptr()) }
    }

    pub fn by_weights(block: &Block) -> u32 {
        // It reads one whole block.
        unsafe { check_by_weights(block.as_ptr()) }
    }
}

/// Not inlined, as the proved ones aren't.
#[inline(never)]
fn plain_by_weights(block: &Block) -> u32 {
    let mut sum = 0;
    for (weight, &byte) in (1..).zip(&block[..COVERED]) {
        sum += weight * u32::from(byte);
    }
    sum
}

const FORMS: [(&str, Check); 3] = [
    ("proved, additions", proved::by_additions),
    ("proved, weights (before)", proved::by_weights),
    ("plain Rust, weights", plain_by_weights),
];

/// Bytes of no pattern, the same in each run; the first block has the largest check there is.
fn blocks() -> Vec<Block> {
    let mut x: u64 = 1;
    let mut byte = || {
        x ^= x << 13;
        x ^= x >> 7;
        x ^= x << 17;
        x as u8
    };
    let mut all = vec![[u8::MAX; BLOCK]; BLOCKS];
    all.iter_mut().skip(1).flatten().for_each(|b| *b = byte());
    all
}

/// Milliseconds of the checks of all blocks.
fn time(check: Check, blocks: &[Block]) -> f64 {
    let begin = Instant::now();
    for block in blocks {
        black_box(check(black_box(block)));
    }
    begin.elapsed().as_secs_f64() * 1e3
}

fn main() {
    let blocks = blocks();
    for block in &blocks {
        let [sum, before, plain] = FORMS.map(|(_, check)| check(block));
        assert!(sum == before && sum == plain, "the three forms give one check");
    }
    let mut times = FORMS.map(|_| Vec::with_capacity(RUNS));
    for _ in 0..RUNS {
        for ((_, check), taken) in FORMS.iter().zip(&mut times) {
            taken.push(time(*check, &blocks));
        }
    }
    times.iter_mut().for_each(|taken| taken.sort_by(f64::total_cmp));
    let [.., rust] = &times;
    println!("the check of {BLOCKS} blocks, ms, {RUNS} runs of each; the ratio is to plain Rust");
    println!("{:<28}{:>8}{:>8}{:>8}{:>8}", "form", "least", "ratio", "median", "ratio");
    for ((name, _), taken) in FORMS.iter().zip(&times) {
        let (least, median) = (taken[0], taken[RUNS / 2]);
        println!("{name:<28}{least:>8.2}{:>8.2}{median:>8.2}{:>8.2}", least / rust[0], median / rust[RUNS / 2]);
    }
}
