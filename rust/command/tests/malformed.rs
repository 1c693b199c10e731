//! Malformed files: each gets one sentence with its file and line, and no panic.

mod common;

use common::{cogthunder, folder, printed};
use std::path::Path;

const GOOD: &str = r#"RISCV MP+fence.w.w+addr
"Fence.w.wdWW Rfe DpAddrdR Fre"
Result=Never
{
x=0; y=0;
0:x5=1; 0:x6=x; 0:x7=y;
1:x6=y; 1:x9=x;
}
 P0          | P1           ;
 sw x5,0(x6) | lw x5,0(x6)  ;
 fence w,w   | xor x7,x5,x5 ;
 sw x5,0(x7) | add x8,x9,x7 ;
             | lw x10,0(x8) ;
exists (1:x5=1 /\ 1:x10=0)"#;

/// What is put in the place of a part of the good file.
const GARBLED: [(&str, &str); 62] = [
    // Another architecture, or none.
    ("RISCV", "AArch64"),
    ("RISCV", "X86"),
    ("RISCV", "PPC"),
    ("RISCV", "C"),
    ("RISCV", "RISC-V"),
    ("RISCV", "riscv"),
    ("RISCV MP+fence.w.w+addr", "RISCV"),
    ("Result=Never", "Result=Perhaps"),
    ("Result=Never", "expected never"),
    ("DpAddrdR Fre\"", "DpAddrdR Fre"),
    // Registers that there aren't.
    ("lw x5,0(x6)  ;", "lw x32,0(x6) ;"),
    ("lw x5,0(x6)  ;", "lw r5,0(x6) ;"),
    ("lw x5,0(x6)  ;", "lw %rax,0(x6) ;"),
    ("lw x5,0(x6)  ;", "lw x5,0(W6) ;"),
    ("lw x5,0(x6)  ;", "lw a9,0(x6) ;"),
    ("1:x5=1", "1:x99=1"),
    ("1:x6=y", "1:f6=y"),
    ("1:x6=y", "7:x6=y"),
    ("1:x5=1", "2:x5=1"),
    ("0:x5=1", "0:x0=1"),
    // Instructions that there aren't, or that are out of the model.
    ("fence w,w  ", "fence.i    "),
    ("fence w,w  ", "fence o,w  "),
    ("fence w,w  ", "fence iorw,iorw"),
    ("fence w,w  ", "fence w    "),
    ("fence w,w  ", "fence a,b  "),
    ("fence w,w  ", "csrrw x5,x6,x7"),
    ("fence w,w  ", "dmb sy     "),
    ("fence w,w  ", "mov x1,x2  "),
    ("fence w,w  ", "jalr x1,x2 "),
    ("fence w,w  ", "ld x11,0(x6)"),
    ("fence w,w  ", "sc.w x11,x5,(x6)"),
    ("fence w,w  ", "lr.w.rl x11,(x6)"),
    ("fence w,w  ", "amoadd x11,x5,(x6)"),
    ("fence w,w  ", "amoadd.w x11,x5,8(x6)"),
    ("fence w,w  ", "lw x11,4(x6)"),
    ("fence w,w  ", "lw x11,0(x5)"),
    ("fence w,w  ", "sw x6,0(x7)"),
    ("fence w,w  ", "sw x5,0 x7 "),
    ("fence w,w  ", "mul x11,x6,x6"),
    ("fence w,w  ", "addi x11,x5,5000"),
    // Loops and labels.
    ("xor x7,x5,x5", "L: bne x5,x0,L"),
    ("xor x7,x5,x5", "j M"),
    ("xor x7,x5,x5", "L: L: nop"),
    // Values and addresses that a table can't have.
    ("0:x5=1", "0:x5=65536"),
    ("0:x5=1", "0:x5=-1"),
    ("x=0; y=0;", "x=70000;"),
    ("x=0; y=0;", "x=y;"),
    ("x=0; y=0;", "x=0; x=1;"),
    ("x=0; y=0;", "x=99999999999999999999;"),
    ("x=0; y=0;", "a;b;c;d;e;f;g;"),
    ("x=0; y=0;", "float x=0;"),
    // Rows and braces.
    ("P0          | P1", "P0          | P2"),
    ("sw x5,0(x7) | add", "sw x5,0(x7) | nop | add"),
    (";\n}", ";"),
    ("{", ""),
    // Conditions that aren't balanced, or name what there isn't.
    ("(1:x5=1", "((1:x5=1"),
    ("1:x10=0)", "1:x10=0))"),
    ("/\\", "/\\ /\\"),
    ("/\\", "and"),
    ("exists", "perhaps"),
    ("1:x10=0", "z=0"),
    ("1:x10=0", "1:x10"),
];

/// The malformed files, each with a name that says what is wrong.
fn malformed() -> Vec<(String, Vec<u8>)> {
    let mut files = Vec::new();
    for length in (0..GOOD.len()).step_by(9) {
        files.push((format!("cut-{length}"), GOOD.as_bytes()[..length].to_vec()));
    }
    for (number, (old, new)) in GARBLED.iter().enumerate() {
        assert!(GOOD.contains(old), "{old}");
        files.push((format!("garbled-{number}"), GOOD.replacen(old, new, 1).into_bytes()));
    }
    files.extend(huge().into_iter().map(|(name, bytes)| (name.to_string(), bytes)));
    files
}

/// Long files, and bytes that are no text.
fn huge() -> Vec<(&'static str, Vec<u8>)> {
    let with = |old: &str, new: String| GOOD.replacen(old, &new, 1).into_bytes();
    let row = " sw x5,0(x6) | lw x5,0(x6) ;\n";
    let five = "P0 | P1 | P2 | P3 | P4 ;\n lw x5,0(x6) | nop | nop | nop | nop ;\nexists (true)";
    let counts =
        "P0 ;\n amoadd.w x5,x6,(x7) ;\n".to_string() + &" amoadd.w x5,x5,(x7) ;\n".repeat(20) + "exists (true)";
    vec![
        ("zeros", vec![0; 10_000_000]),
        ("ones", vec![255; 10_000_000]),
        ("spaces", vec![b' '; 900_000]),
        ("letters", vec![b'a'; 10_000_000]),
        ("brackets", with("(1:x5", "(".repeat(900_000))),
        ("negations", with("(1:x5", "not ".repeat(200_000))),
        ("comments", with("{", "(*".repeat(400_000))),
        ("number", with("0:x5=1", format!("0:x5={}", "9".repeat(800_000)))),
        ("events", with(" fence w,w", row.repeat(31) + " fence w,w")),
        ("rows", with(" fence w,w", row.repeat(30_000) + " fence w,w")),
        ("harts", format!("RISCV a\n{{ 0:x6=x; }}\n{five}").into_bytes()),
        ("values", format!("RISCV a\n{{ 0:x6=1; 0:x7=x; }}\n{counts}").into_bytes()),
        ("latin-1", with("MP", "caf".to_string()).into_iter().chain(*b"\n\xe9").collect()),
        ("utf-16", GOOD.encode_utf16().flat_map(u16::to_le_bytes).collect()),
        ("text", b"1 0 0 0 0 0 0 0 0 0 0\n\n0\nr0=00\n".to_vec()),
        ("no memory", b"RISCV a\n{}\nP0 ;\n fence rw,rw ;\n j L ;\n L: ;\nexists (true)".to_vec()),
    ]
}

/// The sentence for a file is one line that begins with the program, the file and a line.
fn check(name: &str, file: &Path, subcommand: &str) {
    let file = file.to_str().expect("a path in UTF-8");
    let output = cogthunder().args([subcommand, file]).output().expect("the program runs");
    let (out, err, status) = printed(&output);
    assert_eq!(status, 2, "{name}: {out}{err}");
    assert_eq!(err.lines().count(), 1, "{name}: {err}");
    let rest = err.strip_prefix(&format!("cogthunder: {file}:")).unwrap_or_else(|| panic!("{name}: {err}"));
    let (line, sentence) = rest.split_once(": ").unwrap_or_else(|| panic!("{name}: {err}"));
    assert!(line.parse::<usize>().is_ok_and(|line| line >= 1), "{name}: {err}");
    assert!(sentence.len() > 10 && sentence.len() < 300, "{name}: {err}");
}

#[test]
fn the_good_file_is_good() {
    let file = folder("good").join("good.litmus");
    std::fs::write(&file, GOOD).expect("the file can be written");
    assert!(cogthunder().arg("decide").arg(&file).output().expect("the program runs").status.success());
}

#[test]
fn each_malformed_file_gets_one_sentence() {
    let folder = folder("malformed");
    let files = malformed();
    assert!(files.len() >= 100, "{} files", files.len());
    for (name, bytes) in files {
        let file = folder.join(&name);
        std::fs::write(&file, bytes).expect("the file can be written");
        for subcommand in ["decide", "show", "explain", "convert", "step", "advise", "report"] {
            check(&name, &file, subcommand);
        }
        std::fs::remove_file(&file).expect("the file can be removed");
    }
}
