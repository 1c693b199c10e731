//! A picture for graphviz.

use crate::drawing::{event_lines, Arrow, Drawing, Kind};
use crate::svg::colour;

/// The text of a dot file: a cluster for each hart.
pub fn dot(drawing: &Drawing) -> String {
    let case = &drawing.case;
    let mut captions = vec![drawing.title.clone()];
    captions.extend(drawing.captions.clone());
    let mut dot = format!(
        "digraph test {{\nlabel={};\nlabeljust=l;\nnode [shape=box, fontname=monospace, fontsize=11];\n\
         edge [fontname=monospace, fontsize=10];\n",
        label(&captions)
    );
    for hart in 0..case.table.harts {
        dot.push_str(&format!("subgraph cluster_{hart} {{\nlabel=\"P{hart}\";\ncolor=gray;\n"));
        let own: Vec<usize> = (0..case.texts.len()).filter(|&number| case.table.events[number].hart == hart).collect();
        for &number in &own {
            dot.push_str(&format!("e{number} [label={}];\n", label(&event_lines(case, number))));
        }
        for pair in own.windows(2) {
            dot.push_str(&format!(
                "e{} -> e{} [color=\"{}\", weight=100];\n",
                pair[0],
                pair[1],
                colour(Kind::ProgramOrder)
            ));
        }
        dot.push_str("}\n");
    }
    drawing.arrows.iter().for_each(|arrow| dot.push_str(&edge(arrow)));
    dot.push_str("}\n");
    dot
}

fn edge(arrow: &Arrow) -> String {
    let Arrow { from, to, kind, label: words } = arrow;
    let style = match kind {
        Kind::ProgramOrder | Kind::ReadsFrom => "solid",
        Kind::Preserved => "bold",
        Kind::FromRead => "dashed",
        Kind::Coherence => "dotted",
    };
    let (colour, words) = (colour(*kind), label(std::slice::from_ref(words)));
    format!("e{from} -> e{to} [label={words}, color=\"{colour}\", fontcolor=\"{colour}\", style={style}, constraint=false];\n")
}

/// Lines as a string of dot, each to the left.
fn label(lines: &[String]) -> String {
    let escaped = |line: &String| line.replace('\\', "\\\\").replace('"', "\\\"");
    match lines {
        [only] => format!("\"{}\"", escaped(only)),
        _ => format!("\"{}\"", lines.iter().map(|line| escaped(line) + "\\l").collect::<String>()),
    }
}
