//! Pictures as they are written.

mod common;

use common::{folder, repository, run, sample};

#[test]
fn a_picture_shows_events_arrows_and_a_legend() {
    let (svg, err, status) = run(&["show", "--svg", &sample("MP+fence.rw.rws")]);
    assert_eq!((err.as_str(), status), ("", 0));
    assert!(svg.starts_with("<svg xmlns=\"http://www.w3.org/2000/svg\" ") && svg.ends_with("</svg>\n"), "{svg}");
    let texts = ["(0) sw x6, 0(x5)", "W x=1", "(4) fence rw, rw", "rf y=1", "fr x=1", "ppo 4", "P1", "forbidden"];
    for text in [&texts[..], &["can't all be: (0) (2) (3) (5) (0)", "rf  reads-from, with the value"]].concat() {
        assert!(svg.contains(&format!(">{text}</text>")), "{text}: {svg}");
    }
    assert!(svg.contains("exists (1:x6=1 /\\ 1:x8=0)"));
}

#[test]
fn a_witness_has_its_order_and_its_edges() {
    let (svg, _, _) = run(&["show", "--svg", &sample("PPOCA")]);
    for text in ["ppo 9", "rf z=1", "fr x=1", "addr (5), ctrl (3)", "global memory order: (5) (6) (0) (2) (3) (4)"] {
        assert!(svg.contains(&format!(">{text}</text>")), "{text}: {svg}");
    }
}

#[test]
fn a_picture_is_of_the_model_that_is_asked_for() {
    for form in ["--svg", "--dot"] {
        let (picture, _, status) = run(&["show", form, "--model", "rvtso", &sample("MP")]);
        assert_eq!(status, 0);
        for text in ["model RVTSO", "ppo 5", "ppo 6", "can't all be: (0) (1) (2) (3) (0)"] {
            assert!(picture.contains(text), "{text}: {picture}");
        }
        assert!(!run(&["show", form, &sample("MP")]).0.contains("RVTSO"));
    }
}

#[test]
fn what_a_file_calls_things_is_escaped() {
    let folder = folder("pictures");
    let file = folder.join("odd").to_str().unwrap().to_string();
    std::fs::write(&file, "RISCV <\"&>\n{ 0:x6=x; }\nP0 ;\nlw x8,0(x6) ;\nexists (true)").unwrap();
    let (svg, _, status) = run(&["show", "--svg", &file]);
    assert!(status == 0 && svg.contains("&lt;&quot;&amp;&gt;") && !svg.contains("<\"&"), "{svg}");
    let (dot, _, status) = run(&["show", "--dot", &file]);
    assert!(status == 0 && dot.contains("label=\"<\\\"&>\\l"), "{dot}");
}

#[test]
fn a_picture_for_graphviz_has_the_same_edges() {
    let (dot, _, status) = run(&["show", "--dot", &repository("samples/C7.block")]);
    assert_eq!(status, 0);
    for line in
        ["e0 -> e1 [color=\"#999999\", weight=100];", "e0 -> e2 [label=\"fr x=2\"", "e2 -> e1 [label=\"co x=1\""]
    {
        assert!(dot.contains(line), "{line}: {dot}");
    }
}

#[test]
fn a_picture_is_written_to_a_file_and_of_one_test() {
    let folder = folder("picture-files");
    let file = folder.join("MP.svg").to_str().unwrap().to_string();
    assert_eq!(run(&["show", "--svg", &sample("MP"), "-o", &file]), (String::new(), String::new(), 0));
    assert!(std::fs::read_to_string(&file).unwrap().ends_with("</svg>\n"));
    let bad: [&[&str]; 3] = [
        &["show", "--svg", &sample("MP"), &sample("SB")],
        &["show", "--svg", &repository("samples/suite")],
        &["show", "--svg", &sample("MP"), "-o", folder.to_str().unwrap()],
    ];
    for words in bad {
        let (_, err, status) = run(words);
        assert_eq!((err.lines().count(), status), (1, 2), "{err}");
    }
}
