//! A dashed arrow from one box to another.

use super::point::Point;
use super::sheet::{colour, Sheet, BOX};
use crate::judged::Id;

/// How long its head is.
const HEAD: f64 = 11.0;
/// How far an arrow may bend to the side, the best first where all else is alike.
const BENDS: [f64; 12] = [
    50.0, -50.0, 80.0, -80.0, 110.0, -110.0, 150.0, -150.0, 200.0, -200.0, 270.0, -270.0,
];
/// About half of a label.
const LABEL: Point = Point::new(15.0, 8.0);

pub struct Arrow {
    op: Id,
    start: Point,
    /// Where it bends to.
    bend: Point,
    tip: Point,
}

impl Arrow {
    /// The arrow of a move between the middles of two boxes, bent so that it runs into
    /// as few boxes, and its name into as few other names, as can be.
    pub fn new(op: Id, from: Point, to: Point, boxes: &[Point], arrows: &[Arrow]) -> Arrow {
        let mut best = Arrow::bent(op, from, to, BENDS[0]);
        let mut least = best.trouble(boxes, arrows);
        for far in &BENDS[1..] {
            let arrow = Arrow::bent(op, from, to, *far);
            let trouble = arrow.trouble(boxes, arrows);
            if trouble < least {
                (best, least) = (arrow, trouble);
            }
        }
        best
    }

    fn bent(op: Id, from: Point, to: Point, far: f64) -> Arrow {
        let middle = from.plus(to).times(0.5);
        let bend = middle.plus(to.minus(from).unit().turned().times(far));
        Arrow {
            op,
            start: leaving(from, bend),
            bend,
            tip: leaving(to, bend),
        }
    }

    /// The point at a part of the way from its start to its tip.
    fn at(&self, part: f64) -> Point {
        let rest = 1.0 - part;
        let ends = self
            .start
            .times(rest * rest)
            .plus(self.tip.times(part * part));
        ends.plus(self.bend.times(2.0 * rest * part))
    }

    /// How much it runs into boxes and names, and off the sheet.
    fn trouble(&self, boxes: &[Point], arrows: &[Arrow]) -> usize {
        let half = BOX.times(0.5);
        let way = (1..16).map(|part| self.at(f64::from(part) / 16.0));
        let met = way.filter(|at| boxes.iter().any(|other| at.is_near(*other, half)));
        let name = self.at(0.5);
        let covered = boxes
            .iter()
            .any(|other| name.is_near(*other, half.plus(LABEL)));
        let names = arrows
            .iter()
            .filter(|other| name.is_near(other.at(0.5), LABEL.times(2.0)));
        let outside = name.x < 2.0 * LABEL.x || name.y < LABEL.y;
        met.count() + 4 * usize::from(covered) + 4 * names.count() + 40 * usize::from(outside)
    }

    pub fn draw(&self, sheet: &mut Sheet) {
        let along = self.tip.minus(self.bend).unit();
        let neck = self.tip.minus(along.times(HEAD));
        let aside = along.turned().times(5.0);
        sheet.curve(self.start, self.bend, neck, colour(self.op.replica));
        let head = [self.tip, neck.plus(aside), neck.minus(aside)];
        sheet.triangle(head, colour(self.op.replica));
    }

    /// The name of its op, over its middle.
    pub fn label(&self, sheet: &mut Sheet) {
        sheet.label(self.at(0.5), &self.op.to_string(), colour(self.op.replica));
    }
}

/// Where a line from the middle of a box to some point leaves the box.
fn leaving(middle: Point, to: Point) -> Point {
    let way = to.minus(middle);
    let (across, down) = (BOX.x / 2.0 / way.x.abs(), BOX.y / 2.0 / way.y.abs());
    middle.plus(way.times(across.min(down).min(1.0)))
}
