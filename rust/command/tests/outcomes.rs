//! The subcommand `outcomes`.

mod common;

use common::{fed, folder, repository, run, sample};

/// What is printed of a file, without the name of its test.
fn listed(words: &[&str]) -> Vec<String> {
    let (out, err, status) = run(&[&["outcomes"], words].concat());
    assert_eq!((err.as_str(), status), ("", 0));
    out.lines().skip(1).map(str::to_string).collect()
}

#[test]
fn the_outcomes_of_a_litmus_test_are_a_table() {
    let lines = [
        " 0:x8  1:x8",
        "    0     0  meets the condition",
        "    0     1",
        "    1     0",
        "    1     1",
        "4 outcomes; 1 meets the condition",
    ];
    assert_eq!(listed(&[&sample("SB")]), lines);
    let fences = listed(&[&sample("SB+fence.rw.rws")]);
    assert_eq!(fences[1..], ["    0     1", "    1     0", "    1     1", "3 outcomes; none meets the condition"]);
    let all = listed(&["--all", &sample("SB")]);
    assert_eq!(all[..2], [" 0:x8  1:x8  x  y", "    0     0  1  1  meets the condition"]);
}

#[test]
fn blocks_and_texts_name_their_events() {
    let lines = [
        " (2) y  (3) x  x  y",
        "     0      0  1  1",
        "     0      1  1  1",
        "     1      0  1  1  has the stated values",
        "     1      1  1  1",
        "4 outcomes; 1 has the stated values",
    ];
    assert_eq!(listed(&[&repository("samples/C1.block")]), lines);
    let text = [" r0  r1  x0", "  7   8   9", "  8   7   9", "2 outcomes; none meets the condition"];
    assert_eq!(listed(&[&repository("samples/text/counter-lost.text")]), text);
}

#[test]
fn the_model_is_said_where_it_is_not_rvwmo() {
    let rvtso = listed(&["--model", "rvtso", &sample("MP")]);
    assert_eq!(
        (rvtso[0].as_str(), rvtso.last().unwrap().as_str()),
        ("model RVTSO", "3 outcomes; none meets the condition")
    );
    assert_eq!(listed(&[&sample("MP")]).last().unwrap(), "4 outcomes; 1 meets the condition");
    assert_eq!(listed(&[&repository("samples/C1-tso.block")])[0], "model RVTSO");
}

/// A test in which hart 1 stores what it read, and branches on it.
const PASSED_ON: &str = "RISCV passed-on
{ x=0; y=0; 0:x5=2; 0:x6=x; 1:x6=x; 1:x7=y; }
 P0          | P1          ;
 sw x5,0(x6) | lw x8,0(x6) ;
             | addi x9,x8,1 ;
             | beqz x8,L ;
             | sw x9,0(x7) ;
             | L: ;
exists (1:x8=2 /\\ y=0)
";

#[test]
fn where_writes_depend_on_reads_the_outcomes_of_all_tables_are_gathered() {
    let (out, _, status) = fed(&["outcomes", "-"], PASSED_ON.as_bytes());
    let lines = ["passed-on", " 1:x8  y", "    0  0", "    2  3", "2 outcomes; none meets the condition", ""];
    assert_eq!((out, status), (lines.join("\n"), 0));
}

#[test]
fn runs_with_an_sc_are_those_where_it_succeeds() {
    let last = |name: &str| listed(&[&sample(name)]).last().unwrap().clone();
    assert_eq!(last("C7"), "2 outcomes; none meets the condition (in runs where each SC succeeds)");
}

#[test]
fn a_bound_that_is_too_small_is_said() {
    let undecided =
        "undecided: a table has more than 63 clean prefixes (raise the bound by --visit, or ask for fewer events)";
    assert_eq!(listed(&["--visit", "63", &sample("MP")]), [undecided]);
    assert_eq!(listed(&["--visit", "64", &sample("MP")]).len(), 6);
}

#[test]
fn what_cannot_be_read_is_said_and_the_rest_is_listed() {
    let file = folder("outcomes").join("none.litmus");
    let (out, err, status) = run(&["outcomes", file.to_str().unwrap(), &sample("MP")]);
    assert!(out.starts_with("MP\n") && err.contains("none.litmus: "));
    assert_eq!(status, 2);
}

/// The states of herd's log, which are decided one by one.
#[test]
fn the_outcomes_of_all_samples_are_the_states_that_are_decided_one_by_one() {
    let files = std::fs::read_dir(repository("samples/litmus")).expect("the folder is there");
    let mut count = 0;
    for file in files.map(|file| file.expect("it is read").path()) {
        let file = file.to_str().expect("a path in UTF-8");
        for model in ["rvwmo", "rvtso"] {
            let (log, _, _) = run(&["decide", "--herd", "--model", model, file]);
            let states: usize = log.lines().nth(1).unwrap().strip_prefix("States ").unwrap().parse().unwrap();
            let positive = log.lines().find_map(|line| line.strip_prefix("Positive: ")).unwrap();
            let positive: usize = positive.split(' ').next().unwrap().parse().unwrap();
            let lines = listed(&["--model", model, file]);
            let meeting = lines.iter().filter(|line| line.ends_with("  meets the condition")).count();
            let outcomes: usize = lines.last().unwrap().split(' ').next().unwrap().parse().unwrap();
            assert_eq!((outcomes, meeting), (states, positive), "{file} in {model}");
            count += 1;
        }
    }
    assert!(count > 100);
}
