//! The subcommand `step`, fed through a pipe.

mod common;

use common::{fed, folder, run, sample};

/// What `step` prints behind the table.
fn stepped(test: &str, input: &str) -> (Vec<String>, String, i32) {
    let (out, err, status) = fed(&["step", test], input.as_bytes());
    let lines = out.lines().skip_while(|line| !line.starts_with("memory: "));
    (lines.map(str::to_string).collect(), err, status)
}

#[test]
fn a_run_is_shown_step_by_step() {
    let (out, err, status) = fed(&["step", &sample("SB")], b"0 0\n\n  1\tquit 1\n");
    let lines = [
        "SB",
        "model RVTSO",
        "initially x=0; y=0",
        "",
        " P0                      | P1",
        "-------------------------+-------------------------",
        " (0) sw x6, 0(x5)  W x=1 | (2) sw x6, 0(x5)  W y=1",
        " (1) lw x8, 0(x7)  R y=0 | (3) lw x8, 0(x7)  R x=0",
        "",
        "memory: x=0 initially; y=0 initially",
        "buffer of P0: empty",
        "buffer of P1: empty",
        "order: empty",
        "steps:",
        "  0  P0 issues (0) sw x6, 0(x5): W x=1",
        "  1  P1 issues (2) sw x6, 0(x5): W y=1",
        "0  P0 issues (0) sw x6, 0(x5): W x=1",
        "0  P0 issues (1) lw x8, 0(x7): R y=0 initially",
        "memory: x=0 initially; y=0 initially",
        "buffer of P0: (0) W x=1",
        "buffer of P1: empty",
        "order: 1",
        "steps:",
        "  1  P1 issues (2) sw x6, 0(x5): W y=1",
        "  4  P0 drains (0) sw x6, 0(x5): W x=1",
    ];
    // The blank line shows the machine again; what stands behind quit isn't read.
    let again = [&lines[18..], &["1  P1 issues (2) sw x6, 0(x5): W y=1", ""]].concat();
    assert_eq!(out, format!("{}\n{}", lines.join("\n"), again.join("\n")));
    assert_eq!((err.as_str(), status), ("", 0));
}

#[test]
fn a_complete_run_has_the_stated_outcome_or_another() {
    let (lines, _, status) = stepped(&sample("SB"), "0 0 1 1 4 5");
    let end = ["memory: x=1 from (0); y=1 from (2)", "buffer of P0: empty", "buffer of P1: empty", "order: 1 3 0 2"];
    let stated = "the run is complete, and has the stated outcome";
    assert_eq!(lines[lines.len() - 5..], [&end[..], &[stated]].concat());
    assert_eq!(status, 0);
    let (lines, _, status) = stepped(&sample("SB"), "0 4 0 1 1 5");
    let other = "the run is complete, and has another outcome: event 3 doesn't read its stated value";
    assert_eq!((lines.last().unwrap().as_str(), status), (other, 0));
}

#[test]
fn steps_are_taken_back() {
    let (lines, _, status) = stepped(&sample("SB"), "0 0\nundo\nundo");
    let first = &lines[..7];
    assert_eq!(&lines[lines.len() - 7..], first);
    assert!(lines.contains(&"back before 0  P0 issues (1) lw x8, 0(x7): R y=0 initially".to_string()));
    assert_eq!(status, 0);
    let (_, err, status) = stepped(&sample("SB"), "undo 0 undo");
    assert_eq!((err.as_str(), status), ("cogthunder: there is no step to take back\n", 2));
}

#[test]
fn a_run_is_saved_and_replayed() {
    let folder = folder("saved-run");
    let saved = folder.join("run").to_str().expect("the path is a text").to_string();
    let (first, _, status) = fed(&["step", &sample("SB"), "-o", &saved], b"0 0 undo 1\n4 1\nquit");
    assert_eq!(status, 0);
    let run = std::fs::read(&saved).expect("the steps are written");
    assert_eq!(run, b"0 1 4 1\n");
    let (again, err, status) = fed(&["step", &sample("SB")], &run);
    assert_eq!((err.as_str(), status), ("", 0));
    let behind = |out: &str| out.rsplit("memory: ").next().map(str::to_string);
    assert_eq!(behind(&again), behind(&first));
}

#[test]
fn a_step_that_is_not_taken_leaves_the_machine_where_it_is() {
    let (lines, err, status) = stepped(&sample("SB"), "4 0 2 x -1 256 8 0 0 4");
    let sentences = [
        "the machine doesn't take step 4 now",
        "the machine doesn't take step 2 now",
        "`x` is no step from 0 to 7, undo or quit",
        "`-1` is no step from 0 to 7, undo or quit",
        "`256` is no step from 0 to 7, undo or quit",
        "`8` is no step from 0 to 7, undo or quit",
        "the machine doesn't take step 0 now",
    ];
    assert_eq!(err, sentences.map(|sentence| format!("cogthunder: {sentence}\n")).concat());
    assert!(lines.contains(&"order: 1 0".to_string()), "{lines:?}");
    assert_eq!(status, 2);
}

/// C7: an LR and its SC, and another hart's store of the location.
#[test]
fn an_sc_that_cannot_drain_ends_the_run() {
    let (lines, _, status) = stepped(&sample("C7"), "0 0 1 5");
    let stuck = "no step is left, and the run isn't complete: an SC can't drain any more";
    assert_eq!((lines.last().unwrap().as_str(), status), (stuck, 0));
    assert!(lines.contains(&"buffer of P0: (1) W x=1".to_string()), "{lines:?}");
}

/// A block has no instructions, and the values of a fence are none.
#[test]
fn a_block_of_rvtso_takes_steps_too() {
    let block = folder("step").join("C2.block").to_str().unwrap().to_string();
    assert_eq!(run(&["convert", "--model", "rvtso", &sample("C2"), "-o", &block]).2, 0);
    let (lines, err, status) = stepped(&block, "0 0 0 4 4 1 1 1");
    for line in
        ["0  P0 issues (1) fence rw, rw", "4  P0 drains (0) store: W x=1", "1  P1 issues (3) load: R y=1 from (2)"]
    {
        assert!(lines.contains(&line.to_string()), "{line}: {lines:?}");
    }
    assert_eq!((err.as_str(), status), ("", 0));
    assert!(lines.last().unwrap().starts_with("the run is complete, and has another outcome: event 5"), "{lines:?}");
}
