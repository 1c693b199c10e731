//! The page of `report`.

mod common;

use common::{folder, repository, run, sample};

fn report(files: &[&str]) -> (String, String, i32) {
    let page = folder(&format!("report-{}", files.len())).join("page.html").to_str().unwrap().to_string();
    let (out, err, status) = run(&[&["report"], files, &["-o", &page]].concat());
    assert_eq!(out, "");
    (std::fs::read_to_string(&page).unwrap(), err, status)
}

#[test]
fn a_page_has_all_tests() {
    let files = [sample("MP"), sample("MP+fence.rw.rws"), repository("samples/text/SB-or.text")];
    let (page, err, status) = report(&[&files[0], &files[1], &files[2]]);
    assert_eq!((err.as_str(), status), ("", 0));
    assert!(page.contains("<p>3 tests: 2 allowed, 1 forbidden; 2 of 2 as expected</p>"), "{page}");
    assert_eq!(page.matches("<tr class=\"allowed\" data-marks=\"allowed\"").count(), 2);
    assert_eq!(page.matches("<section ").count(), 3);
    assert_eq!(page.matches("<svg ").count(), 3);
    assert!(page.contains("so (0) would have to come before itself</pre>"));
    assert!(page.contains("because the global memory order can be"));
}

/// What a file expects is of RVWMO; a block of that model has no place on a page of RVTSO.
#[test]
fn a_page_is_of_the_model_that_is_asked_for() {
    let files = [sample("MP"), sample("SB"), sample("LB"), sample("C7"), repository("samples/C1.block")];
    let words: Vec<&str> = ["--model", "rvtso"].into_iter().chain(files.iter().map(String::as_str)).collect();
    let (page, err, status) = report(&words);
    assert!(page.contains("<p>4 tests: 1 allowed, 3 forbidden, 1 not read</p>"), "{page}");
    assert!(page.contains("model RVTSO\ninitially x=0; y=0\n") && page.contains("ppo: rule 5 (an acquire before)"));
    assert!(err.ends_with(": the test states the model RVWMO, and not RVTSO\n"), "{err}");
    assert_eq!((err.lines().count(), status), (1, 2));
}

#[test]
fn nothing_of_a_page_is_elsewhere() {
    let (page, _, _) = report(&[&sample("MP"), &sample("SB")]);
    let page = page.replace("http://www.w3.org/2000/svg", "");
    for word in ["http:", "https:", "src=", "url(", "@import", "<link"] {
        assert!(!page.contains(word), "{word}");
    }
    assert!(page.contains("default-src 'none'"));
}

#[test]
fn what_cannot_be_read_or_is_unexpected_is_marked() {
    let folder = folder("report-odd");
    let odd = folder.join("odd.litmus").to_str().unwrap().to_string();
    std::fs::write(&odd, "RISCV <b>&\nResult=Never\n{ 0:x6=x; }\nP0 ;\nlw x8,0(x6) ;\nexists (true)").unwrap();
    let (page, err, status) = report(&[&odd]);
    assert_eq!((err.as_str(), status), ("", 1));
    assert!(page.contains("data-marks=\"allowed unexpected\" data-name=\"&lt;b&gt;&amp;\""), "{page}");
    let (page, err, status) = report(&[&odd, "no <such> file", &sample("MP"), &sample("SB")]);
    assert_eq!((err.lines().count(), status), (1, 2), "{err}");
    assert!(page.contains("data-marks=\"unread\" data-name=\"no &lt;such&gt; file\""), "{page}");
    assert!(!page.contains("<b>") && !page.contains("<such>"));
}
