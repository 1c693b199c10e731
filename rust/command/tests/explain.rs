//! The subcommand `explain` as it is called.

mod common;

use common::{folder, repository, run, sample};

/// What is printed behind the verdict.
fn why(file: &str) -> Vec<String> {
    why_of(&["explain", file])
}

fn why_of(words: &[&str]) -> Vec<String> {
    let (out, err, status) = run(words);
    assert_eq!((err.as_str(), status), ("", 0), "{words:?}");
    let is_verdict = |line: &str| line.starts_with("allowed") || line.starts_with("forbidden");
    let lines = out.lines().skip_while(|line| !is_verdict(line)).skip(1);
    lines.map(str::to_string).collect()
}

#[test]
fn a_forbidden_outcome_has_a_chain() {
    let lines = [
        "there is one way in which the loads could get their values and the writes be ordered",
        "",
        "where (3) reads y=1 from (2), (5) reads x=0 initially:",
        "  (0) before (2)  ppo: rule 4 (a fence between)",
        "  (2) before (3)  rf: (3) reads y=1, which (2) writes",
        "  (3) before (5)  ppo: rule 4 (a fence between)",
        "  (5) before (0)  fr: (5) reads x=0, which (0) overwrites by x=1",
        "  so (0) would have to come before itself",
    ];
    assert_eq!(why(&sample("MP+fence.rw.rws")), lines);
    assert_eq!(why(&repository("samples/C2.block")), lines);
}

/// MP is allowed in RVWMO. A block of RVTSO says the same without the option.
#[test]
fn the_rules_are_those_of_the_model() {
    let lines = why_of(&["explain", "--model", "rvtso", &sample("MP")]);
    let chain = [
        "where (2) reads y=1 from (1), (3) reads x=0 initially:",
        "  (0) before (1)  ppo: rule 6 (a release after)",
        "  (1) before (2)  rf: (2) reads y=1, which (1) writes",
        "  (2) before (3)  ppo: rule 5 (an acquire before)",
        "  (3) before (0)  fr: (3) reads x=0, which (0) overwrites by x=1",
        "  so (0) would have to come before itself",
    ];
    assert_eq!(lines[2..], chain);
    let block = folder("explain-model").join("MP.block").to_str().unwrap().to_string();
    assert_eq!(run(&["convert", "--model", "rvtso", &sample("MP"), "-o", &block]).2, 0);
    assert_eq!(why(&block), lines);
    let (out, _, _) = run(&["explain", &block]);
    assert!(out.starts_with("MP.block\nmodel RVTSO\n"), "{out}");
}

#[test]
fn a_parted_pair_is_named() {
    let last = why(&sample("C7")).pop().unwrap();
    assert_eq!(last, "  the LR (0) and its SC (1) are parted: (2) of another hart writes between them");
}

#[test]
fn ways_that_share_a_chain_are_told_together() {
    let lines = [
        "there are 2 ways in which the loads could get their values and the writes be ordered",
        "in all of them (0) reads x=0 initially, (1) reads x=0 initially",
        "",
        "none of them can be:",
        "  (0) before (1)  fr: (0) reads x=0, which (1) overwrites by x=1",
        "  (1) before (0)  fr: (1) reads x=0, which (0) overwrites by x=1",
        "  so (0) would have to come before itself",
    ];
    assert_eq!(why(&sample("counter-lost")), lines);
}

#[test]
fn an_allowed_outcome_has_an_order_in_words() {
    let lines = [
        "because the global memory order can be, first to last:",
        "  (5) P1 reads z=1, forwarded from (4) of its own hart, which comes later",
        "  (6) P1 reads x=0, the initial value",
        "  (0) P0 writes x=1",
        "  (2) P0 writes y=1",
        "  (3) P1 reads y=1, which (2) has written",
        "  (4) P1 writes z=1",
        "program order has these the other way round, and no rule preserves that:",
    ];
    assert_eq!(why(&sample("PPOCA"))[..8], lines);
}

#[test]
fn a_text_is_explained_too() {
    let lines = why(&repository("samples/text/counter-lost.text"));
    assert!(
        lines.contains(&"  (0) before (1)  fr: (0) reads x0=7, which (1) overwrites by x0=8".to_string()),
        "{lines:?}"
    );
    assert!(why(&repository("samples/text/MP.text")).contains(&"  (1) before (0)".to_string()));
}

#[test]
fn what_nothing_gives_is_said_and_many_ways_are_counted() {
    let folder = folder("explain");
    let write = |name: &str, text: &str| {
        let file = folder.join(name).to_str().unwrap().to_string();
        std::fs::write(&file, text).unwrap();
        file
    };
    let columns = "P0 | P1 ;\nsw x5,0(x6) | lw x8,0(x6) ;\n";
    let file = write("none", &format!("RISCV a\n{{ 0:x5=1; 0:x6=x; 1:x6=x; }}\n{columns}exists 1:x8=7"));
    assert_eq!(why(&file), ["because there is no way in which the loads could get their values"]);
    let text: String = (0..5).map(|value| format!("2 0 0 0 0 0 0 0 {value} 0 0\n")).collect();
    let file = write("many", &format!("{text}\n0\nnot x0=4\n"));
    let lines = why(&file);
    assert!(lines[0].contains("in 96 ways; more than 64 aren't explained"), "{lines:?}");
    let stores = "2 0 0 0 0 0 0 0 1 0 0\n2 0 0 0 0 0 0 0 2 0 0\n";
    let loads = "6 0 0 15 0 0 0 0 0 0 0\n1 0 0 0 0 0 0 0 0 0 0\n".repeat(13);
    let file = write("more", &format!("{stores}{loads}\n0\nx0=0\n"));
    let lines = ["it isn't explained: there are more than 1000000 choices of values to look at"];
    assert_eq!(why(&file), lines);
}
