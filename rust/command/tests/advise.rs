//! The subcommand `advise`: its words, and the tests that it writes.

mod common;

use common::{fed, folder, repository, run, sample};
use std::path::PathBuf;

/// A file of a test's own, by name.
fn file(folder: &std::path::Path, name: &str, text: &str) -> String {
    let file = folder.join(name);
    std::fs::write(&file, text).expect("the file can be written");
    file.to_str().expect("a path in UTF-8").to_string()
}

/// What `advise` says of a litmus test with these columns, and its status.
fn advised(columns: &str) -> (String, i32) {
    let harts = "0:x5=1; 0:x6=x; 0:x7=y; 1:x5=1; 1:x6=x; 1:x7=y;";
    let (out, err, status) = fed(&["advise", "-"], format!("RISCV a\n{{ {harts} }}\nP0 | P1 ;\n{columns}").as_bytes());
    assert_eq!(err, "");
    (out, status)
}

fn litmus_files() -> Vec<PathBuf> {
    let folder = std::fs::read_dir(repository("samples/litmus")).expect("there is such a folder");
    folder.map(|entry| entry.expect("it can be read").path()).collect()
}

#[test]
fn the_fences_that_message_passing_lacks_are_named_and_put_in() {
    let written = folder("advise-mp").join("MP.litmus");
    let written = written.to_str().unwrap();
    let (out, err, status) = run(&["advise", &sample("MP"), "-o", written]);
    let lines = [
        "MP: 2 fences are missing, and with no fewer the outcome is forbidden:",
        "  P0 between (0) sw x6, 0(x5) and (1) sw x6, 0(x7)",
        "  P1 between (2) lw x6, 0(x5) and (3) lw x8, 0(x7)",
        "",
    ];
    assert_eq!((out, err.as_str(), status), (lines.join("\n"), "", 0));
    let before = std::fs::read_to_string(sample("MP")).unwrap().replace("Sometimes", "Never");
    let row = "lw x6,0(x5) ;\n";
    let after = before.replace(row, &format!("{row} fence rw,rw | fence rw,rw ;\n"));
    assert_eq!(std::fs::read_to_string(written).unwrap(), after);
    let (out, _, status) = run(&["decide", written]);
    assert_eq!((out.as_str(), status), ("MP: forbidden\n1 test: 0 allowed, 1 forbidden; 1 of 1 as expected\n", 0));
}

/// C2 is C1 with these two fences.
#[test]
fn the_block_of_c1_becomes_that_of_c2() {
    let written = folder("advise-block").join("C2.block");
    let (c1, written) = (repository("samples/C1.block"), written.to_str().unwrap());
    let (out, _, status) = run(&["advise", &c1, "-o", written]);
    assert!(out.ends_with(
        ":\n  P0 between (0) store W x=1 and (1) store W y=1\n  P1 between (2) load R y=1 and (3) load R x=0\n"
    ));
    assert_eq!(status, 0);
    assert_eq!(std::fs::read(written).unwrap(), std::fs::read(repository("samples/C2.block")).unwrap());
}

/// Every litmus file is as it was expected to be before, or forbidden afterwards; and every verdict is what decide gives.
#[test]
fn each_mended_test_is_forbidden() {
    let written = folder("advise-all").join("mended.litmus");
    let written = written.to_str().unwrap();
    let (mut mended, mut as_it_is, mut no_help) = (0, 0, 0);
    for file in litmus_files() {
        let file = file.to_str().unwrap();
        let (out, err, status) = run(&["advise", file, "-o", written]);
        assert_eq!(err, "", "{file}");
        let (decided, _, _) = run(&["decide", file]);
        let is_forbidden = decided.contains(": forbidden");
        assert_eq!(out.contains(": forbidden as it is"), is_forbidden, "{file}: {out}");
        if status == 1 {
            assert!(out.contains("fences don't help"), "{file}: {out}");
            no_help += 1;
            continue;
        }
        assert_eq!(status, 0, "{file}: {out}");
        let (out, _, status) = run(&["decide", "--expect", "forbidden", written]);
        assert_eq!(status, 0, "{file}: {out}");
        assert_eq!(run(&["decide", written]).2, 0, "{file} expects what it isn't");
        *(if is_forbidden { &mut as_it_is } else { &mut mended }) += 1;
    }
    assert!(mended >= 20 && as_it_is >= 20 && no_help >= 3, "{mended}, {as_it_is}, {no_help}");
}

#[test]
fn fences_are_tried_on_all_tables_of_a_test() {
    // The last load is free, so that there are several tables.
    let rows = "sw x5,0(x6) | lw x8,0(x7) ;\nsw x5,0(x7) | lw x9,0(x6) ;\n | lw x10,0(x6) ;\n";
    let (out, status) = advised(&format!("{rows}exists (1:x8=1 /\\ 1:x9=0)"));
    let places =
        "  P0 between (0) sw x5, 0(x6) and (1) sw x5, 0(x7)\n  P1 between (2) lw x8, 0(x7) and (3) lw x9, 0(x6)\n";
    let head = "a: 2 fences are missing, and with no fewer the outcome is forbidden:\n";
    assert_eq!((out, status), (format!("{head}{places}"), 0));
    let (out, status) = advised(&format!("{rows}exists 1:x8=1"));
    assert_eq!(
        (out.as_str(), status),
        ("a: allowed, and fences don't help: it is allowed with one in each of 3 places\n", 1)
    );
    let (out, status) = advised(&format!("{rows}exists 1:x8=7"));
    assert_eq!((out.as_str(), status), ("a: forbidden as it is, so that no fence is missing\n", 0));
}

/// The branch is taken or not, so that the load behind it isn't in every table.
#[test]
fn a_fence_is_put_behind_its_access_whatever_branches_follow() {
    let folder = folder("advise-branches");
    let rows = [
        " P0          | P1           ;",
        " sw x5,0(x6) | lw x8,0(x7)  ;",
        " fence w,w   | beq x8,x0,L  ;",
        " sw x5,0(x7) | lw x9,0(x6)  ;",
        "             | L:           ;",
        "             | lw x10,0(x6) ;",
        "exists (1:x8=1 /\\ 1:x10=0)\n",
    ];
    let text = &format!("RISCV a\n{{ 0:x5=1; 0:x6=x; 0:x7=y; 1:x6=x; 1:x7=y; }}\n{}", rows.join("\n"));
    let written = folder.join("mended.litmus");
    let (out, err, status) = run(&["advise", &file(&folder, "a.litmus", text), "-o", written.to_str().unwrap()]);
    assert_eq!((err.as_str(), status), ("", 0), "{out}");
    assert!(out.ends_with("\n  P1 between (3) lw x8, 0(x7) and (4) lw x9, 0(x6)\n"), "{out}");
    let mended = text.replace("lw x8,0(x7)  ;\n", "lw x8,0(x7)  ;\n             | fence rw,rw  ;\n");
    assert_eq!(std::fs::read_to_string(&written).unwrap(), mended);
    assert!(run(&["decide", written.to_str().unwrap()]).0.starts_with("a: forbidden\n"));
}

#[test]
fn a_test_with_clear_fences_is_asked_about_those() {
    let rows = |first: &str, second: &str| {
        format!("sw x5,0(x6) | lw x8,0(x7) ;\n{first} | {second} ;\nsw x5,0(x7) | lw x9,0(x6) ;\nexists (1:x8=1 /\\ 1:x9=0)")
    };
    let (out, _) = advised(&rows("fence 0,0", "fence 0,0"));
    assert!(out.contains("\n  P1 between (3) lw x8, 0(x7) and (5) lw x9, 0(x6)\n"), "{out}");
    let (out, _) = advised(&rows("fence w,w", "fence 0,0"));
    assert!(out.starts_with("a: a fence is missing, and with it"), "{out}");
    let (out, status) = advised(&rows("fence 0,0", "nop"));
    assert!(out.contains("fences don't help: it is allowed with one in the only place") && status == 1, "{out}");
    let folder = folder("advise-own");
    let text = format!(
        "RISCV a\n{{ 0:x5=1; 0:x6=x; 0:x7=y; 1:x6=x; 1:x7=y; }}\nP0 | P1 ;\n{}",
        rows("fence 0,0", "fence 0,0")
    );
    let (test, written) = (file(&folder, "a.litmus", &text), folder.join("mended.litmus"));
    let (_, err, status) = run(&["advise", &test, "-o", written.to_str().unwrap()]);
    assert_eq!((err.as_str(), status), ("", 0));
    assert_eq!(std::fs::read_to_string(written).unwrap(), text.replace("fence 0,0", "fence rw,rw"));
    let (_, err, status) = run(&["advise", "--between", "0,2", &test]);
    assert!(err.contains("has fences with no sets of its own") && status == 2, "{err}");
}

#[test]
fn places_can_be_chosen_and_the_model_and_the_bound() {
    let (out, _, status) = run(&["advise", "--between", "0,1", &sample("MP")]);
    assert_eq!(
        (out.as_str(), status),
        ("MP: allowed, and fences don't help: it is allowed with one in the only place\n", 1)
    );
    let (out, _, status) = run(&["advise", "--between", "2,3", "--between", "0,1", &sample("MP")]);
    assert!(out.starts_with("MP: 2 fences are missing") && status == 0, "{out}");
    let (out, _, status) = run(&["advise", "--model", "rvtso", &sample("MP")]);
    assert_eq!((out.as_str(), status), ("MP: forbidden as it is, so that no fence is missing\n", 0));
    let (out, _, status) = run(&["advise", "--visit", "28", &sample("MP")]);
    let undecided = "MP: undecided (raise the bound by --visit, or ask for fewer events); tried with a fence here:\n";
    assert_eq!((out, status), (format!("{undecided}  P0 between (0) sw x6, 0(x5) and (1) sw x6, 0(x7)\n"), 1));
    let (out, _, status) = run(&["advise", "--visit", "0", &repository("samples/C1.block")]);
    assert!(out.starts_with("C1.block: undecided as it is (raise") && status == 1, "{out}");
}

#[test]
fn what_cannot_be_advised_on_is_said() {
    let folder = folder("advise-wrong");
    let many = format!("RISCV a\n{{ 0:x6=x; }}\nP0 ;\n{}exists (true)", " lw x5,0(x6) ;\n".repeat(10));
    let many = file(&folder, "many.litmus", &many);
    let text = file(&folder, "test.txt", "1 0 0 0 0 0 0 0 0 0 0\n\n0\nr0=0\n");
    let suite = repository("samples/suite");
    let errors: [(&[&str], String); 6] = [
        (
            &[&many],
            format!("{many}:14: a fence could be missing in 9 places, and at most 8 are tried (--between A,B chooses)"),
        ),
        (
            &["--between", "0,2", &many],
            format!("{many}:14: (0) and (2) aren't neighbouring accesses of a hart without a full fence between"),
        ),
        (
            &[&text],
            format!("{text}: advise takes litmus tests and blocks, and this is a text (convert makes one of those)"),
        ),
        (&[&suite], format!("{suite}: the file has 21 tests, and this takes one")),
        (&["."], ".: this is a directory, and not a file".to_string()),
        (&["--between", "1", "x"], "--between takes two event numbers, such as 0,1, and not `1`".to_string()),
    ];
    for (words, sentence) in errors {
        let (out, err, status) = run(&[&["advise"], words].concat());
        assert_eq!((out.as_str(), err, status), ("", format!("cogthunder: {sentence}\n"), 2));
    }
}

/// Thirty events leave no room, and nine fences can be too many.
#[test]
fn a_block_has_room_for_thirty_events_and_eight_fences() {
    let folder = folder("advise-room");
    let load = "1 0 0 0 0 0 0 0 0 0 0\n";
    let block = |name: &str, lines: &str| {
        let text = file(&folder, "a.txt", &format!("{lines}\n0\nr0=0\n"));
        let block = folder.join(name);
        assert_eq!(run(&["convert", &text, "--all", "-o", block.to_str().unwrap()]).2, 0);
        block.to_str().unwrap().to_string()
    };
    let full = block("full.block", &format!("{load}{load}{}", "7 0 0 0 0 0 0 0 0 0 0\n".repeat(28)));
    let (_, err, status) = run(&["advise", &full]);
    assert!(err.contains("has more than thirty events (--between A,B chooses)") && status == 2, "{err}");
    let nine = block("nine.block", &format!("{load}{}", "6 0 0 0 0 0 0 0 0 0 0\n".repeat(9)));
    let (_, err, status) = run(&["advise", &nine]);
    assert!(err.contains("the test has 9 fences with no sets, and at most 8 are tried") && status == 2, "{err}");
}
