//! How arrows go from box to box: beside a column, from a column to the next, or between the rows past other columns.

use crate::drawing::Arrow;
use crate::layout::{Point, Rect};

/// Points of a curve.
const SAMPLES: u32 = 24;
/// Between two arrows at the side of a box.
const APART: f64 = 11.0;
/// Between two lanes of a corridor.
const LANE: f64 = 7.0;
/// How far an arrow beside a column goes out: for one row, for each more, and for each other between the same events.
const BULGE: f64 = 34.0;
const BULGE_ROW: f64 = 15.0;
const BULGE_MORE: f64 = 30.0;
const MOST_ROWS: usize = 7;
/// A corridor's height above a row.
const CORRIDOR: f64 = 16.0;

/// Where the columns are.
pub struct Columns {
    /// The column of each event.
    pub of_event: Vec<usize>,
    /// The left and right side of each.
    pub sides: Vec<(f64, f64)>,
    /// The top of each row, and the end of the last.
    pub rows: Vec<f64>,
}

impl Columns {
    /// The points of each arrow.
    pub fn routes(&self, arrows: &[Arrow], boxes: &[Rect]) -> Vec<Vec<Point>> {
        let mut lanes = vec![0; self.rows.len()];
        (0..arrows.len()).map(|k| self.route(k, arrows, boxes, &mut lanes)).collect()
    }

    fn column(&self, event: u8) -> usize {
        self.of_event[usize::from(event)]
    }

    /// Whether an arrow is at the left side of its event's column, at the event's end of it.
    fn is_left(&self, event: u8, other: u8) -> bool {
        let (column, other) = (self.column(event), self.column(other));
        if column == other {
            column < self.sides.len() / 2
        } else {
            other < column
        }
    }

    /// Where an arrow meets the box of one of its events: those at one side are spread over it.
    fn end(&self, k: usize, event: u8, arrows: &[Arrow], boxes: &[Rect]) -> Point {
        let other = |arrow: &Arrow| if arrow.from == event { arrow.to } else { arrow.from };
        let is_left = self.is_left(event, other(&arrows[k]));
        let is_here =
            |arrow: &Arrow| [arrow.from, arrow.to].contains(&event) && self.is_left(event, other(arrow)) == is_left;
        let mut here: Vec<usize> = (0..arrows.len()).filter(|&k| is_here(&arrows[k])).collect();
        here.sort_by_key(|&k| boxes[usize::from(other(&arrows[k]))].y as i64);
        let place = here.iter().position(|&other| other == k).unwrap_or(0) as f64;
        let rect = boxes[usize::from(event)];
        let apart = APART.min((rect.h - 4.0) / here.len() as f64);
        let y = rect.y + rect.h / 2.0 + (place - (here.len() as f64 - 1.0) / 2.0) * apart;
        (if is_left { rect.x } else { rect.x + rect.w }, y)
    }

    fn route(&self, k: usize, arrows: &[Arrow], boxes: &[Rect], lanes: &mut [usize]) -> Vec<Point> {
        let arrow = &arrows[k];
        let (from, to) = (self.end(k, arrow.from, arrows, boxes), self.end(k, arrow.to, arrows, boxes));
        let (first, last) = (self.column(arrow.from), self.column(arrow.to));
        match first.abs_diff(last) {
            0 => {
                let pair = |arrow: &Arrow| (arrow.from.min(arrow.to), arrow.from.max(arrow.to));
                let others = arrows[..k].iter().filter(|other| pair(other) == pair(arrow)).count();
                let between = self.rows.iter().filter(|&&y| y > from.1.min(to.1) && y < from.1.max(to.1)).count();
                let out = BULGE + between.min(MOST_ROWS) as f64 * BULGE_ROW + others as f64 * BULGE_MORE;
                let out = if self.is_left(arrow.from, arrow.to) { -out } else { out };
                curve([from, (from.0 + out * 4.0 / 3.0, from.1), (to.0 + out * 4.0 / 3.0, to.1), to])
            }
            1 => swing(from, to),
            _ => {
                let middle = (from.1 + to.1) / 2.0;
                let nearest =
                    |&a: &usize, &b: &usize| (self.rows[a] - middle).abs().total_cmp(&(self.rows[b] - middle).abs());
                let row = (0..self.rows.len()).min_by(nearest).unwrap_or(0);
                let y = self.rows[row] - CORRIDOR + [0.0, LANE, -LANE][lanes[row] % 3];
                lanes[row] += 1;
                let near = |column: usize, is_left: bool| {
                    let (left, right) = self.sides[column];
                    (if is_left { left - APART } else { right + APART }, y)
                };
                let goes_right = first < last;
                let next = if goes_right { first + 1 } else { first - 1 };
                let before = if goes_right { last - 1 } else { last + 1 };
                let mut points = swing(from, near(next, goes_right));
                points.extend(swing(near(before, !goes_right), to));
                points
            }
        }
    }
}

/// From one side to another, level at both ends.
fn swing(from: Point, to: Point) -> Vec<Point> {
    let half = (to.0 - from.0) / 2.0;
    curve([from, (from.0 + half, from.1), (to.0 - half, to.1), to])
}

fn curve(p: [Point; 4]) -> Vec<Point> {
    let at = |k: u32| {
        let t = f64::from(k) / f64::from(SAMPLES);
        let s = 1.0 - t;
        let weights = [s * s * s, 3.0 * s * s * t, 3.0 * s * t * t, t * t * t];
        let sum = |value: fn(&Point) -> f64| p.iter().zip(weights).map(|(point, weight)| value(point) * weight).sum();
        (sum(|point| point.0), sum(|point| point.1))
    };
    (0..=SAMPLES).map(at).collect()
}

/// The point at a part of the way along points.
pub fn along(points: &[Point], part: f64) -> Point {
    let length = |pair: &[Point]| (pair[1].0 - pair[0].0).hypot(pair[1].1 - pair[0].1);
    let mut left = points.windows(2).map(length).sum::<f64>() * part;
    for pair in points.windows(2) {
        let own = length(pair);
        if own > 0.0 && left <= own {
            let part = left / own;
            return (pair[0].0 + (pair[1].0 - pair[0].0) * part, pair[0].1 + (pair[1].1 - pair[0].1) * part);
        }
        left -= own;
    }
    points.last().copied().unwrap_or_default()
}
