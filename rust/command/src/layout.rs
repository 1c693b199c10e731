//! Where everything of a picture stands. Widths are those of a font with letters of one width.

use crate::drawing::{event_lines, Arrow, Drawing, Kind};
use crate::routes::{along, Columns};

/// A letter's width at the size that is used, with some room, and a line's height.
pub const LETTER: f64 = 7.4;
pub const LINE: f64 = 16.0;
/// Between a box and its text.
const INNER: f64 = 6.0;
/// Between two rows: a label fits in.
const ROW_GAP: f64 = 32.0;
const TOP: f64 = 84.0;
/// From the heads of the columns to the first row: an arrow fits between.
const HEADS: f64 = 48.0;
const SIDE: f64 = 20.0;
/// Between columns, at first and at most: it grows until every label has its place.
const FIRST_GAP: f64 = 130.0;
const WIDEST_GAP: f64 = 370.0;
const GAP_STEP: f64 = 30.0;
/// A label is moved up or down at most so many half lines.
const MOST_MOVED: i32 = 400;
/// Captions are at least this wide before they are broken.
const CAPTION: usize = 60;

pub type Point = (f64, f64);

/// A rectangle.
#[derive(Clone, Copy, PartialEq, Debug)]
pub struct Rect {
    pub x: f64,
    pub y: f64,
    pub w: f64,
    pub h: f64,
}

impl Rect {
    /// Whether two have a point in common.
    pub fn meets(&self, other: &Rect) -> bool {
        self.x < other.x + other.w
            && other.x < self.x + self.w
            && self.y < other.y + other.h
            && other.y < self.y + self.h
    }

    fn holds(&self, point: Point) -> bool {
        self.meets(&Rect { x: point.0, y: point.1, w: 1.0, h: 1.0 })
    }

    fn around(text: &str, middle: Point) -> Rect {
        let w = text.chars().count() as f64 * LETTER;
        Rect { x: middle.0 - w / 2.0, y: middle.1 - LINE / 2.0, w, h: LINE }
    }
}

/// What a text is.
#[derive(Clone, Copy, PartialEq, Eq, Debug)]
pub enum Style {
    Title,
    Plain,
    Label(Kind),
}

/// A line of text and the room that it takes.
#[derive(Clone, Debug)]
pub struct Text {
    pub rect: Rect,
    pub text: String,
    pub style: Style,
}

/// An arrow as a list of points.
#[derive(Clone, Debug)]
pub struct Path {
    pub points: Vec<Point>,
    pub kind: Kind,
}

/// A picture with all its places.
pub struct Layout {
    pub width: f64,
    pub height: f64,
    pub boxes: Vec<Rect>,
    pub texts: Vec<Text>,
    pub paths: Vec<Path>,
}

impl Layout {
    /// Lays a drawing out: the columns are moved apart until all labels have room.
    pub fn of(drawing: &Drawing) -> Layout {
        let mut gap = FIRST_GAP;
        loop {
            let (layout, is_good) = Layout::with_gap(drawing, gap);
            if is_good || gap >= WIDEST_GAP {
                return layout;
            }
            gap += GAP_STEP;
        }
    }

    /// With columns so far apart, and whether all labels have room.
    fn with_gap(drawing: &Drawing, gap: f64) -> (Layout, bool) {
        let mut layout = Layout { width: 0.0, height: 0.0, boxes: Vec::new(), texts: Vec::new(), paths: Vec::new() };
        let columns = layout.place_events(drawing, gap);
        layout.program_order(drawing);
        let routes = columns.routes(&drawing.arrows, &layout.boxes);
        let mut is_good = routes.iter().flatten().all(|point| point.0 >= 0.0 && point.0 <= layout.width);
        for (k, arrow) in drawing.arrows.iter().enumerate() {
            is_good &= layout.label(arrow, k, &routes);
        }
        let paths = drawing.arrows.iter().zip(routes);
        layout.paths.extend(paths.map(|(arrow, points)| Path { points, kind: arrow.kind }));
        layout.captions(drawing);
        (layout, is_good)
    }

    fn text(&mut self, text: impl Into<String>, x: f64, y: f64, style: Style) {
        let text = text.into();
        let rect = Rect { x, y, w: text.chars().count() as f64 * LETTER, h: LINE };
        self.width = self.width.max(rect.x + rect.w + SIDE);
        self.texts.push(Text { rect, text, style });
    }

    /// The columns with their heads and boxes.
    fn place_events(&mut self, drawing: &Drawing, gap: f64) -> Columns {
        let (case, count) = (&drawing.case, drawing.case.texts.len());
        let lines: Vec<Vec<String>> = (0..count).map(|number| event_lines(case, number)).collect();
        let hart_of = |number: usize| usize::from(case.table.events[number].hart);
        let row_of = |number: usize| (0..number).filter(|&other| hart_of(other) == hart_of(number)).count();
        let rows = (0..count).map(|number| row_of(number) + 1).max().unwrap_or(0);
        let height = |row: usize| {
            let most = (0..count).filter(|&number| row_of(number) == row).map(|number| lines[number].len()).max();
            most.unwrap_or(0) as f64 * LINE + 2.0 * INNER
        };
        let tops: Vec<f64> =
            (0..=rows).map(|row| TOP + (0..row).map(|row| height(row) + ROW_GAP).sum::<f64>()).collect();
        let mut columns =
            Columns { of_event: (0..count).map(hart_of).collect(), sides: Vec::new(), rows: tops.clone() };
        let mut x = SIDE + gap;
        for hart in 0..usize::from(case.table.harts) {
            let own: Vec<usize> = (0..count).filter(|&number| hart_of(number) == hart).collect();
            let longest = own.iter().flat_map(|&number| &lines[number]).map(|line| line.chars().count()).max();
            let width = longest.unwrap_or(2) as f64 * LETTER + 2.0 * INNER;
            self.text(format!("P{hart}"), x + width / 2.0 - LETTER, TOP - HEADS, Style::Title);
            columns.sides.push((x, x + width));
            x += width + gap;
        }
        for (number, lines) in lines.iter().enumerate() {
            let (left, right) = columns.sides[hart_of(number)];
            let (y, h) = (tops[row_of(number)], lines.len() as f64 * LINE + 2.0 * INNER);
            self.boxes.push(Rect { x: left, y, w: right - left, h });
            for (k, line) in lines.iter().enumerate() {
                self.text(line.clone(), left + INNER, y + INNER + k as f64 * LINE, Style::Plain);
            }
        }
        self.width = self.width.max(x + SIDE);
        self.height = *tops.last().unwrap_or(&TOP);
        self.text(drawing.title.clone(), SIDE, 10.0, Style::Title);
        columns
    }

    /// From each event down to the next of its hart.
    fn program_order(&mut self, drawing: &Drawing) {
        let events = &drawing.case.table.events[..drawing.case.texts.len()];
        for (number, event) in events.iter().enumerate() {
            let next = (number + 1..events.len()).find(|&next| events[next].hart == event.hart);
            let Some(next) = next else { continue };
            let (from, to) = (self.boxes[number], self.boxes[next]);
            let x = from.x + from.w / 2.0;
            let points = vec![(x, from.y + from.h), (x, to.y)];
            self.paths.push(Path { points, kind: Kind::ProgramOrder });
        }
    }

    /// Puts a label at a free place along its arrow, where there is one on no other arrow. False if none is free; it then
    /// stands as near as it can.
    fn label(&mut self, arrow: &Arrow, k: usize, routes: &[Vec<Point>]) -> bool {
        let places = (0..=16).flat_map(|k| [0.5 + f64::from(k) * 0.025, 0.5 - f64::from(k) * 0.025]);
        let rects: Vec<Rect> = places.map(|place| Rect::around(&arrow.label, along(&routes[k], place))).collect();
        let free: Vec<Rect> = rects.iter().copied().filter(|rect| self.is_free(rect)).collect();
        let others = || routes.iter().enumerate().filter(|&(other, _)| other != k).flat_map(|(_, points)| points);
        let is_clear = |rect: &&Rect| !others().any(|&point| rect.holds(point));
        let best = free.iter().find(is_clear).or(free.first()).copied();
        let rect = best.unwrap_or_else(|| self.nearest(rects[0]));
        self.texts.push(Text { rect, text: arrow.label.clone(), style: Style::Label(arrow.kind) });
        best.is_some()
    }

    /// A free place above or below.
    fn nearest(&self, rect: Rect) -> Rect {
        let moved = |k: i32| [k, -k].map(|k| Rect { y: rect.y + f64::from(k) * LINE / 2.0, ..rect });
        (1..MOST_MOVED).flat_map(moved).find(|rect| self.is_free(rect)).unwrap_or(rect)
    }

    fn is_free(&self, rect: &Rect) -> bool {
        const ROOM: f64 = 2.0;
        let wide = Rect { x: rect.x - ROOM, y: rect.y - ROOM, w: rect.w + 2.0 * ROOM, h: rect.h + 2.0 * ROOM };
        let is_inside = wide.x >= 0.0 && wide.x + wide.w <= self.width && wide.y >= 0.0;
        is_inside && !self.boxes.iter().chain(self.texts.iter().map(|text| &text.rect)).any(|other| wide.meets(other))
    }

    /// The lines below, and the legend of the kinds that are drawn.
    fn captions(&mut self, drawing: &Drawing) {
        let most = CAPTION.max(((self.width - 2.0 * SIDE) / LETTER) as usize);
        let lowest = self.texts.iter().map(|text| text.rect.y + text.rect.h + 4.0).fold(self.height, f64::max);
        let lines = drawing.captions.iter().flat_map(|caption| broken(caption, most));
        self.height = lowest;
        for line in lines {
            let y = self.height;
            self.text(line, SIDE, y, Style::Plain);
            self.height += LINE;
        }
        self.height += LINE / 2.0;
        for kind in Kind::ALL {
            if self.paths.iter().any(|path| path.kind == kind) {
                let y = self.height;
                let points = vec![(SIDE, y + LINE / 2.0), (SIDE + 50.0, y + LINE / 2.0)];
                self.paths.push(Path { points, kind });
                self.text(format!("{:3} {}", kind.name(), kind.words()), SIDE + 60.0, y, Style::Plain);
                self.height += LINE;
            }
        }
        self.height += LINE / 2.0;
    }
}

/// A caption in lines of at most so many letters, broken at spaces.
fn broken(caption: &str, most: usize) -> Vec<String> {
    let mut lines = vec![String::new()];
    for word in caption.split(' ') {
        let last = lines.last().map_or(0, |line| line.chars().count());
        if last > 0 && last + 1 + word.chars().count() > most {
            lines.push(String::new());
        }
        let line = lines.last_mut().expect("there is a line");
        if !line.is_empty() {
            line.push(' ');
        }
        line.push_str(word);
    }
    lines
}

#[cfg(test)]
#[path = "layout_tests.rs"]
mod tests;
