//! The page of `report`. Nothing in it is fetched from elsewhere, and the browser is told to fetch nothing.

use crate::svg::escaped;

/// What the page says of one test.
pub struct Entry {
    pub name: String,
    /// In words.
    pub verdict: String,
    /// The words that the filter looks for.
    pub marks: String,
    pub expected: String,
    pub events: usize,
    pub table: Vec<String>,
    /// As SVG; empty where there is none.
    pub picture: String,
    pub why: Vec<String>,
}

impl Entry {
    /// Of a file that isn't a test.
    pub fn unread(file: &str, sentence: &str) -> Entry {
        Entry {
            name: file.to_string(),
            verdict: "not read".to_string(),
            marks: "unread".to_string(),
            expected: String::new(),
            events: 0,
            table: vec![sentence.to_string()],
            picture: String::new(),
            why: Vec::new(),
        }
    }
}

const HEAD: &str = r#"<!DOCTYPE html>
<html lang="en">
<head>
<meta charset="utf-8">
<meta http-equiv="Content-Security-Policy" content="default-src 'none'; style-src 'unsafe-inline'; script-src 'unsafe-inline'">
<meta name="viewport" content="width=device-width">
<title>cogthunder: litmus tests</title>
<style>
body { font-family: sans-serif; margin: 2em; }
table { border-collapse: collapse; }
th, td { text-align: left; padding: 0.2em 1em 0.2em 0; border-bottom: 1px solid #ddd; }
tr.unexpected td, tr.unread td { background: #ffe0e0; }
section { border-top: 2px solid black; margin-top: 2em; }
pre { background: #f7f7f7; padding: 0.5em; overflow-x: auto; }
svg { max-width: 100%; height: auto; }
[hidden] { display: none; }
</style>
</head>
<body>
<h1>Litmus tests for the RISC-V memory models</h1>
"#;

const FILTERS: &str = r#"<p>
<label>verdict <select id="verdict">
<option value="">all</option>
<option>allowed</option>
<option>forbidden</option>
<option>undecided</option>
<option>unexpected</option>
<option>unread</option>
</select></label>
<label>name <input id="name" type="search"></label>
<span id="shown"></span> shown
</p>
"#;

/// The filters work on everything that has marks. They are in the address behind `#`, so that a filtered page can be linked.
const SCRIPT: &str = r##"<script>
(function () {
  "use strict";
  var verdict = document.getElementById("verdict");
  var name = document.getElementById("name");
  function apply() {
    var rows = 0;
    document.querySelectorAll("[data-marks]").forEach(function (part) {
      var marks = part.dataset.marks.split(" ");
      var isNamed = part.dataset.name.toLowerCase().includes(name.value.toLowerCase());
      part.hidden = !isNamed || (verdict.value !== "" && !marks.includes(verdict.value));
      rows += part.tagName === "TR" && !part.hidden ? 1 : 0;
    });
    document.getElementById("shown").textContent = rows;
  }
  function load() {
    var words = new URLSearchParams(location.hash.slice(1));
    if (words.has("verdict") || words.has("name")) {
      verdict.value = words.get("verdict") || "";
      name.value = words.get("name") || "";
    }
    apply();
  }
  function changed() {
    history.replaceState(null, "", "#" + new URLSearchParams({ verdict: verdict.value, name: name.value }));
    apply();
  }
  verdict.addEventListener("change", changed);
  name.addEventListener("input", changed);
  window.addEventListener("hashchange", load);
  load();
})();
</script>
"##;

/// The whole page.
pub fn page(summary: &str, entries: &[Entry]) -> String {
    let rows: String = entries.iter().enumerate().map(|(number, entry)| row(number, entry)).collect();
    let sections: String = entries.iter().enumerate().map(|(number, entry)| section(number, entry)).collect();
    format!(
        "{HEAD}<p>{}</p>\n{FILTERS}<table>\n<thead><tr><th>test</th><th>verdict</th><th>expected</th><th>events</th></tr>\
         </thead>\n<tbody>\n{rows}</tbody>\n</table>\n{sections}{SCRIPT}</body>\n</html>\n",
        escaped(summary)
    )
}

fn row(number: usize, entry: &Entry) -> String {
    let Entry { name, verdict, marks, expected, events, .. } = entry;
    format!(
        "<tr class=\"{marks}\" data-marks=\"{marks}\" data-name=\"{name}\"><td><a href=\"#test-{number}\">{name}</a></td>\
         <td>{}</td><td>{expected}</td><td>{events}</td></tr>\n",
        escaped(verdict),
        name = escaped(name)
    )
}

fn section(number: usize, entry: &Entry) -> String {
    let Entry { name, marks, table, picture, why, .. } = entry;
    let mut section = format!(
        "<section id=\"test-{number}\" data-marks=\"{marks}\" data-name=\"{name}\">\n<h2>{name}</h2>\n{}",
        lines(table),
        name = escaped(name)
    );
    section.push_str(picture);
    section.push_str(&lines(why));
    section.push_str("</section>\n");
    section
}

fn lines(lines: &[String]) -> String {
    if lines.is_empty() {
        return String::new();
    }
    format!("<pre>{}</pre>\n", lines.iter().map(|line| escaped(line)).collect::<Vec<String>>().join("\n"))
}
