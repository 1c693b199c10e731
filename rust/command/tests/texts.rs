//! Tests as texts of numbers.

mod common;

use common::{folder, repository, run, sample};

fn text(name: &str) -> String {
    repository(&format!("samples/text/{name}.text"))
}

#[test]
fn texts_are_decided() {
    let (out, err, status) = run(&["decide", &text("MP"), &text("counter-lost"), &text("SB-or")]);
    let lines = [
        "MP.text: allowed",
        "counter-lost.text: forbidden",
        "SB-or.text: allowed",
        "3 tests: 2 allowed, 1 forbidden",
        "",
    ];
    assert_eq!((out, err.as_str(), status), (lines.join("\n"), "", 0));
}

#[test]
fn a_witness_is_shown_with_what_each_load_returns() {
    let (out, _, _) = run(&["show", &text("SB-or")]);
    let lines = [
        "SB-or.text",
        "initially x0=0; x1=0",
        "",
        " P0                       | P1",
        "--------------------------+-------------------",
        " (0) store         W x0=1 | (3) store  W x1=1",
        " (1) fence rw, rw         | (4) load   R x0=1",
        " (2) load          R x1=1 |",
        "",
        "finally x0=1",
        "exists ( ( r2=0 and r4=0 ) or ( r2=1 and x0=1 ) )",
        "allowed, 9 prefixes visited",
        "an order that gives it, first to last:",
        "  (0) P0 store         W x0=1",
        "  (3) P1 store         W x1=1",
        "  (2) P0 load          R x1=1 from (3)",
        "  (4) P1 load          R x0=1 from (0)",
        "",
    ];
    assert_eq!(out, lines.join("\n"));
}

#[test]
fn a_forbidden_text_is_shown_without_values() {
    let (out, _, _) = run(&["show", &text("counter-lost")]);
    assert!(out.contains(" (0) amoadd 1  R x0=?, W x0=? | (1) amoadd 1  R x0=?, W x0=?\n"), "{out}");
    assert!(out.ends_with("exists not x0=9\nforbidden, 4 prefixes visited\n"), "{out}");
}

#[test]
fn texts_are_converted_both_ways() {
    let folder = folder("texts");
    let [made, litmus] = ["C9.text", "C9.litmus"].map(|name| folder.join(name).to_str().unwrap().to_string());
    assert_eq!(run(&["convert", &sample("C9"), "--to", "text", "-o", &made]).2, 0);
    assert_eq!(run(&["convert", &made, "--to", "litmus", "-o", &litmus]).2, 0);
    let stored = std::fs::read(repository("samples/C9.block")).unwrap();
    for file in [&made, &litmus] {
        let block = folder.join("C9.block").to_str().unwrap().to_string();
        assert_eq!(run(&["convert", file, "--to", "block", "-o", &block]).2, 0);
        assert_eq!(std::fs::read(&block).unwrap(), stored, "{file}");
    }
}

#[test]
fn a_text_is_of_rvwmo() {
    let file = text("MP");
    let sentence = format!("cogthunder: {file}: a text is of the model RVWMO, and not RVTSO\n");
    let subcommands: [&[&str]; 5] = [&["decide"], &["show"], &["explain"], &["convert", "--to", "litmus"], &["report"]];
    for words in subcommands {
        assert_eq!(run(&[words, &["--model", "rvwmo", &file]].concat()).2, 0, "{words:?}");
        let (_, err, status) = run(&[words, &["--model", "rvtso", &file]].concat());
        assert_eq!((err.as_str(), status), (sentence.as_str(), 2), "{words:?}");
    }
    let (out, err, status) = run(&["step", &file]);
    assert_eq!((out.as_str(), err, status), ("", sentence, 2));
    let (out, err, status) = run(&["convert", "--model", "rvtso", "--to", "text", &sample("MP")]);
    assert!(err.ends_with(": the test is of the model RVTSO, which a text can't state\n"), "{err}");
    assert_eq!((out.as_str(), status), ("", 2));
}

#[test]
fn a_condition_of_a_text_is_one_over_registers() {
    let (out, _, _) = run(&["convert", &text("SB-or"), "--to", "litmus"]);
    assert!(out.ends_with("exists (((0:x8=0 /\\ 1:x8=0) \\/ (0:x8=1 /\\ x=1)))\n"), "{out}");
    let (_, err, status) = run(&["convert", &text("SB-or")]);
    assert!(err.contains("SB-or.text:8: the condition leaves several choices of values"), "{err}");
    assert_eq!((err.lines().count(), status), (1, 2));
}

#[test]
fn a_text_that_is_refused_is_one_sentence_with_its_line() {
    let folder = folder("refused-texts");
    let good = std::fs::read_to_string(text("MP")).unwrap();
    let bad = [
        (good.replace("r2=1", "r2=01"), ":7: refused 19 at byte 99"),
        (good.replace("1 1 1 0", "9 1 1 0"), ":3: refused 7 at record 2"),
        (good.replace("r2=1", "r1=1"), ": refused 23"),
        (good.trim_end().to_string(), ":7: refused 19 at byte 110"),
        ("1".to_string(), ":1: refused 19 at byte 1"),
        (good.repeat(30), ": refused 1"),
    ];
    for (number, (text, sentence)) in bad.iter().enumerate() {
        let file = folder.join(format!("{number}.text")).to_str().unwrap().to_string();
        std::fs::write(&file, text).unwrap();
        for subcommand in ["decide", "show", "convert"] {
            let (_, err, status) = run(&[subcommand, &file]);
            assert!(err.starts_with(&format!("cogthunder: {file}{sentence}")), "{err}");
            assert_eq!((err.lines().count(), status), (1, 2), "{err}");
        }
    }
}
