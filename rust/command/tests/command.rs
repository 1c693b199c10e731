//! The program as it is called: what it prints, and its exit status.

mod common;

use cogthunder::Table;
use common::{cogthunder, fed, folder, printed, repository, run, sample};

#[test]
fn a_line_for_each_test_and_a_summary() {
    let (out, err, status) = run(&["decide", &sample("MP"), &sample("MP+fence.rw.rws")]);
    assert_eq!(out, "MP: allowed\nMP+fence.rw.rws: forbidden\n2 tests: 1 allowed, 1 forbidden; 2 of 2 as expected\n");
    assert_eq!((err.as_str(), status), ("", 0));
}

#[test]
fn an_unexpected_verdict_has_status_1() {
    let (out, _, status) = run(&["decide", "--expect", "forbidden", &sample("MP")]);
    assert!(out.starts_with("MP: allowed, but expected to be forbidden\n"), "{out}");
    assert_eq!(status, 1);
    assert_eq!(run(&["decide", "--expect", "forbidden", &sample("MP+fence.rw.rws")]).2, 0);
    assert_eq!(run(&["decide", "--expect", "allowed", &repository("samples/C2.block")]).2, 1);
}

#[test]
fn blocks_and_suites_are_decided_too() {
    let (out, err, status) = run(&["decide", &repository("samples/suite")]);
    assert!(out.starts_with("suite block 0: allowed\n"), "{out}");
    assert_eq!((err.lines().count(), status), (2, 2), "{err}");
    assert!(err.contains("block 2 is refused 4: the edition"), "{err}");
    assert_eq!(
        run(&["decide", &repository("samples/C1.block")]).0,
        "C1.block: allowed\n1 test: 1 allowed, 0 forbidden\n"
    );
}

#[test]
fn a_witness_is_shown_on_demand() {
    let (out, _, _) = run(&["decide", "-v", &sample("C1")]);
    let lines = [
        "C1: allowed",
        "    1 table",
        "    (1) P0 sw t1, 0(s1)  W y=1",
        "    (2) P1 lw a2, 0(s1)  R y=1 from (1)",
        "    (3) P1 lw a3, 0(s0)  R x=0 initially",
        "    (0) P0 sw t1, 0(s0)  W x=1",
        "1 test: 1 allowed, 0 forbidden; 1 of 1 as expected",
        "",
    ];
    assert_eq!(out, lines.join("\n"));
}

/// Four harts store to their locations and load all four, in up to 20 events; with more than 10^18 clean orders.
fn free_accesses(last: u16) -> Vec<u8> {
    let mut table = Table::new(4, 4);
    for hart in 0..4 {
        table.store(hart, hart, 1);
        for location in 0..4 {
            table.load(hart, location, if (hart, location) == (3, 3) { last } else { (location == hart).into() });
        }
    }
    table.test().expect("the table is good")
}

#[test]
fn only_a_text_can_be_undecided() {
    let text = repository("samples/text/MP.text");
    let (out, _, status) = run(&["decide", "--visit", "26", &text]);
    let undecided = "MP.text: undecided, 26 prefixes visited (raise the bound by --visit, or ask for fewer events)\n";
    assert!(out.starts_with(undecided), "{out}");
    assert_eq!(status, 0);
    assert!(run(&["decide", "--visit", "27", &text]).0.starts_with("MP.text: allowed\n"));
    for file in [sample("C1"), repository("samples/C1.block")] {
        let (out, _, status) = run(&["decide", "--visit", "0", &file]);
        assert!(out.contains(": allowed\n") && status == 0, "{out}");
    }
    let file = folder("many-orders").join("free.block").to_str().unwrap().to_string();
    for (last, verdict) in [(1, "allowed"), (0, "forbidden"), (9, "forbidden")] {
        std::fs::write(&file, free_accesses(last)).unwrap();
        let (out, _, _) = run(&["decide", &file]);
        assert!(out.starts_with(&format!("free.block: {verdict}\n")), "{last}: {out}");
    }
}

#[test]
fn the_log_has_the_form_of_herd() {
    let (out, _, _) = run(&["decide", "--herd", &sample("MP+fence.w.w+addr")]);
    let lines = [
        "Test MP+fence.w.w+addr Allowed",
        "States 3",
        "1:x6=0; 1:x10=0;",
        "1:x6=0; 1:x10=1;",
        "1:x6=1; 1:x10=1;",
        "No",
        "Witnesses",
        "Positive: 0 Negative: 3",
        "Condition exists (1:x6=1 /\\ 1:x10=0)",
        "Observation MP+fence.w.w+addr Never 0 3",
        "",
        "",
    ];
    assert_eq!(out, lines.join("\n"));
}

#[test]
fn the_table_is_shown_as_it_was_understood() {
    let (out, _, _) = run(&["show", &sample("PPOCA")]);
    let lines = [
        "PPOCA",
        "initially x=0; y=0; z=0",
        "",
        " P0                      | P1",
        "-------------------------+---------------------------------------------------------------",
        " (0) sw x6, 0(x5)  W x=1 | (3) lw x6, 0(x5)    R y=1",
        " (1) fence w, w          | (4) sw x8, 0(x7)    W z=1, control from (3)",
        " (2) sw x6, 0(x7)  W y=1 | (5) lw x9, 0(x7)    R z=1, control from (3)",
        "                         | (6) lw x13, 0(x12)  R x=0, address from (5), control from (3)",
        "",
        "exists (1:x6=1 /\\ 1:x9=1 /\\ 1:x13=0)",
    ];
    assert!(out.starts_with(&lines.join("\n")), "{out}");
    assert!(
        out.contains("\nan order that gives it, first to last:\n  (5) P1 lw x9, 0(x7)    R z=1 from (4)\n"),
        "{out}"
    );
}

#[test]
fn a_litmus_test_becomes_a_block_and_a_block_a_litmus_test() {
    let folder = folder("convert");
    let [block, litmus] = ["C9.block", "C9.litmus"].map(|name| folder.join(name).to_str().unwrap().to_string());
    assert_eq!(run(&["convert", &sample("C9"), "-o", &block]).2, 0);
    let stored = std::fs::read(repository("samples/C9.block")).unwrap();
    assert_eq!(std::fs::read(&block).unwrap(), stored);
    assert_eq!(run(&["convert", &block, "--output", &litmus]).2, 0);
    let again = cogthunder().args(["convert", &litmus]).output().unwrap();
    assert_eq!(again.stdout, stored);
}

/// What a file expects is of RVWMO, where both are allowed.
#[test]
fn litmus_tests_are_decided_in_the_model_that_is_asked_for() {
    let (out, err, status) = run(&["decide", "--model", "rvtso", &sample("MP"), &sample("SB")]);
    assert_eq!(out, "MP: forbidden\nSB: allowed\n2 tests: 1 allowed, 1 forbidden\n");
    assert_eq!((err.as_str(), status), ("", 0));
    assert_eq!(run(&["decide", "--model", "rvtso", "--expect", "allowed", &sample("MP")]).2, 1);
    let (out, _, _) = run(&["decide", "--model", "rvwmo", &sample("MP")]);
    assert_eq!(out, "MP: allowed\n1 test: 1 allowed, 0 forbidden; 1 of 1 as expected\n");
    let (out, _, _) = run(&["decide", "--model", "rvtso", "--herd", &sample("MP")]);
    assert!(out.contains("States 3\n") && out.contains("Observation MP Never 0 3\n"), "{out}");
}

#[test]
fn a_block_states_its_model() {
    let block = folder("model").join("MP.block").to_str().unwrap().to_string();
    assert_eq!(run(&["convert", "--model", "rvtso", &sample("MP"), "-o", &block]).2, 0);
    assert_eq!(std::fs::read(&block).unwrap()[9], 1);
    for words in [&["decide", &block][..], &["decide", "--model", "rvtso", &block]] {
        assert!(run(words).0.starts_with("MP.block: forbidden\n"));
    }
    assert!(run(&["show", &block]).0.starts_with("MP.block\nmodel RVTSO\ninitially x=0; y=0\n"));
    for (words, sentence) in [
        (&["decide", "--model", "rvwmo", &block][..], "the test states the model RVTSO, and not RVWMO"),
        (&["convert", &block], "the test is of the model RVTSO, which a litmus file can't state"),
    ] {
        let (_, err, status) = run(words);
        assert_eq!((err.as_str(), status), (format!("cogthunder: {block}: {sentence}\n").as_str(), 2));
    }
}

#[test]
fn standard_input_is_read() {
    let (out, _, status) = fed(&["decide", "-"], &std::fs::read(sample("SB")).unwrap());
    assert!(out.starts_with("SB: allowed\n"), "{out}");
    assert_eq!(status, 0);
}

#[test]
fn what_cannot_be_done_is_one_sentence_with_status_2() {
    let block = repository("samples/C1.block");
    let states = format!("{block}: the test states the model RVWMO, and not RVTSO");
    let refusals: [(&[&str], &str); 13] = [
        (&[], "a subcommand is missing"),
        (&["decode"], "there is no subcommand `decode`"),
        (&["decide", "--fast", "x"], "there is no option `--fast` here"),
        (&["decide", "no such file"], "no such file: there is no such file"),
        (&["decide", "."], ".: this is a directory, and not a file"),
        (&["show", "."], ".: this is a directory, and not a file"),
        (&["convert", "."], ".: this is a directory, and not a file"),
        (&["explain", "."], ".: this is a directory, and not a file"),
        (&["step", "."], ".: this is a directory, and not a file"),
        (&["advise", "."], ".: this is a directory, and not a file"),
        (&["report", "."], ".: this is a directory, and not a file"),
        (&["step", &block], &states),
        (&["show", "--model", "rvtso", &block], &states),
    ];
    for (words, sentence) in refusals {
        let (_, err, status) = run(words);
        assert!(err.starts_with(&format!("cogthunder: {sentence}")), "{words:?}: {err}");
        assert_eq!((err.lines().count(), status), (1, 2), "{words:?}: {err}");
    }
}

#[test]
fn a_closed_pipe_is_one_sentence_with_status_2() {
    let file = sample("MP");
    let commands: [&[&str]; 8] = [
        &["--help"],
        &["decide", &file],
        &["show", &file],
        &["show", "--svg", &file],
        &["explain", &file],
        &["step", &file],
        &["advise", &file],
        &["report", &file],
    ];
    for words in commands {
        let (reader, writer) = std::io::pipe().expect("a pipe");
        drop(reader);
        let (_, err, status) = printed(&cogthunder().args(words).stdout(writer).output().expect("the program runs"));
        assert_eq!((err.as_str(), status), ("cogthunder: standard output: the pipe is closed\n", 2), "{words:?}");
    }
}

#[test]
fn a_file_that_cannot_be_read_does_not_stop_the_others() {
    let (out, err, status) = run(&["decide", "no such file", &sample("MP")]);
    assert!(out.starts_with("MP: allowed\n1 test: 1 allowed, 0 forbidden, 1 not read"), "{out}");
    assert_eq!((err.lines().count(), status), (1, 2));
}
