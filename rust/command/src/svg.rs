//! A picture as SVG.

use crate::drawing::{Drawing, Kind};
use crate::layout::{Layout, Path, Point, Style, Text};

/// Half the width of an arrow's head, and its length.
const HEAD: (f64, f64) = (4.0, 9.0);
const FONT: &str = "DejaVu Sans Mono, Menlo, Consolas, Liberation Mono, monospace";
const SIZE: u32 = 12;
/// From a line's top to the letters' feet.
const FEET: f64 = 12.0;

/// The text of an SVG file.
pub fn svg(drawing: &Drawing) -> String {
    let layout = Layout::of(drawing);
    let (width, height) = (layout.width.ceil(), layout.height.ceil());
    let mut svg = format!(
        "<svg xmlns=\"http://www.w3.org/2000/svg\" width=\"{width}\" height=\"{height}\" \
         viewBox=\"0 0 {width} {height}\" font-family=\"{FONT}\" font-size=\"{SIZE}\">\n\
         <title>{}</title>\n<rect width=\"{width}\" height=\"{height}\" fill=\"white\"/>\n",
        escaped(&drawing.title)
    );
    for path in &layout.paths {
        svg.push_str(&arrow(path));
    }
    for rect in &layout.boxes {
        svg.push_str(&format!(
            "<rect x=\"{:.1}\" y=\"{:.1}\" width=\"{:.1}\" height=\"{:.1}\" rx=\"4\" fill=\"#f7f7f7\" stroke=\"black\"/>\n",
            rect.x, rect.y, rect.w, rect.h
        ));
    }
    for line in &layout.texts {
        svg.push_str(&text(line));
    }
    svg.push_str("</svg>\n");
    svg
}

/// Colours that differ in brightness too, and dashes, so that kinds can be told apart in print.
pub fn colour(kind: Kind) -> &'static str {
    match kind {
        Kind::ProgramOrder => "#999999",
        Kind::Preserved => "#000000",
        Kind::ReadsFrom => "#c00000",
        Kind::FromRead => "#b35900",
        Kind::Coherence => "#0044cc",
    }
}

fn dashes(kind: Kind) -> &'static str {
    match kind {
        Kind::ProgramOrder | Kind::Preserved | Kind::ReadsFrom => "",
        Kind::FromRead => " stroke-dasharray=\"7 4\"",
        Kind::Coherence => " stroke-dasharray=\"2 3\"",
    }
}

fn thickness(kind: Kind) -> f64 {
    match kind {
        Kind::ProgramOrder => 1.0,
        Kind::Preserved => 2.2,
        _ => 1.6,
    }
}

fn arrow(path: &Path) -> String {
    let points: Vec<String> = path.points.iter().map(point).collect();
    let colour = colour(path.kind);
    let mut svg = format!(
        "<polyline points=\"{}\" fill=\"none\" stroke=\"{colour}\" stroke-width=\"{}\"{}/>\n",
        points.join(" "),
        thickness(path.kind),
        dashes(path.kind)
    );
    if let [.., before, end] = path.points[..] {
        let head: Vec<String> = head(before, end).iter().map(point).collect();
        svg.push_str(&format!("<polygon points=\"{}\" fill=\"{colour}\"/>\n", head.join(" ")));
    }
    svg
}

fn point(point: &Point) -> String {
    format!("{:.1},{:.1}", point.0, point.1)
}

/// A triangle at the end of an arrow that comes from `before`.
fn head(before: Point, end: Point) -> [Point; 3] {
    let (x, y) = (end.0 - before.0, end.1 - before.1);
    let length = x.hypot(y).max(f64::MIN_POSITIVE);
    let (x, y) = (x / length, y / length);
    let base = (end.0 - x * HEAD.1, end.1 - y * HEAD.1);
    [end, (base.0 - y * HEAD.0, base.1 + x * HEAD.0), (base.0 + y * HEAD.0, base.1 - x * HEAD.0)]
}

/// A label has a white ground, so that it can be read on lines.
fn text(text: &Text) -> String {
    let rect = text.rect;
    let (x, y, words) = (rect.x, rect.y + FEET, escaped(&text.text));
    match text.style {
        Style::Plain => format!("<text x=\"{x:.1}\" y=\"{y:.1}\" xml:space=\"preserve\">{words}</text>\n"),
        Style::Title => format!("<text x=\"{x:.1}\" y=\"{y:.1}\" font-weight=\"bold\">{words}</text>\n"),
        Style::Label(kind) => format!(
            "<rect x=\"{:.1}\" y=\"{:.1}\" width=\"{:.1}\" height=\"{:.1}\" fill=\"white\"/>\n\
             <text x=\"{x:.1}\" y=\"{y:.1}\" fill=\"{}\">{words}</text>\n",
            rect.x,
            rect.y,
            rect.w,
            rect.h,
            colour(kind)
        ),
    }
}

/// A text as XML has it. Letters that XML doesn't have become question marks.
pub fn escaped(text: &str) -> String {
    text.chars()
        .map(|c| match c {
            '&' => "&amp;".to_string(),
            '<' => "&lt;".to_string(),
            '>' => "&gt;".to_string(),
            '"' => "&quot;".to_string(),
            c if c.is_control() || c == '\u{fffe}' || c == '\u{ffff}' => "?".to_string(),
            c => c.to_string(),
        })
        .collect()
}
