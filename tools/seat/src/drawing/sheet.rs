//! What is drawn on: lines, boxes and words in SVG. All that is written there are
//! numbers and words of this program.

use super::point::Point;
use outline::Replica;
use std::fmt::Write;

/// The box of a node.
pub const BOX: Point = Point::new(62.0, 34.0);
pub const MARGIN: f64 = 40.0;
/// From one line of text to the next.
pub const LINE: f64 = 24.0;
/// About what a letter takes.
const LETTER: f64 = 7.0;

pub const INK: &str = "#1f2328";
pub const FAINT: &str = "#6e7781";
pub const RULE: &str = "#8c959f";
pub const LOST: &str = "#cf222e";
const FILL: &str = "#f6f8fa";
const PAPER: &str = "#ffffff";

/// The colour of a seat.
pub fn colour(replica: Replica) -> &'static str {
    match replica.number() {
        1 => "#0969da",
        2 => "#1a7f37",
        3 => "#8250df",
        4 => "#bc4c00",
        5 => "#bf3989",
        6 => "#0a7d91",
        7 => "#9a6700",
        _ => "#57606a",
    }
}

#[derive(Default)]
pub struct Sheet {
    svg: String,
    /// How far the drawing goes to the right and down.
    reach: Point,
}

impl Sheet {
    fn reach(&mut self, to: Point) {
        self.reach.x = self.reach.x.max(to.x);
        self.reach.y = self.reach.y.max(to.y);
    }

    /// Where the next text below all else begins.
    pub fn below(&self) -> Point {
        Point::new(MARGIN, self.reach.y + 1.5 * LINE)
    }

    pub fn line(&mut self, from: Point, to: Point, colour: &str, width: f64) {
        let _ = writeln!(
            self.svg,
            r#"<path d="M{from}L{to}" stroke="{colour}" stroke-width="{width}"/>"#
        );
    }

    /// A dashed line that bends to a point.
    pub fn curve(&mut self, from: Point, bend: Point, to: Point, colour: &str) {
        let _ = writeln!(
            self.svg,
            r#"<path d="M{from}Q{bend} {to}" fill="none" stroke="{colour}" stroke-width="1.8" stroke-dasharray="5 4"/>"#
        );
    }

    pub fn triangle(&mut self, [a, b, c]: [Point; 3], colour: &str) {
        let _ = writeln!(self.svg, r#"<path d="M{a}L{b}L{c}Z" fill="{colour}"/>"#);
    }

    pub fn dot(&mut self, Point { x, y }: Point, colour: &str) {
        let _ = writeln!(
            self.svg,
            r#"<circle cx="{x:.1}" cy="{y:.1}" r="5" fill="{colour}"/>"#
        );
    }

    /// A box around this point, with a name in it.
    pub fn node(&mut self, at: Point, name: &str, ink: &str) {
        let Point { x, y } = at.minus(BOX.times(0.5));
        let _ = writeln!(
            self.svg,
            r#"<rect x="{x:.1}" y="{y:.1}" width="{}" height="{}" rx="8" fill="{FILL}" stroke="{RULE}" stroke-width="1.5"/>"#,
            BOX.x, BOX.y
        );
        let look = r#"font-size="14" text-anchor="middle" font-weight="bold""#;
        self.words(at.plus(Point::new(0.0, 5.0)), name, ink, look);
        self.reach(at.plus(BOX.times(0.5)));
    }

    /// Words around this point, over what was drawn there.
    pub fn label(&mut self, at: Point, words: &str, ink: &str) {
        let halo = format!(
            r#"font-size="12" text-anchor="middle" stroke="{PAPER}" stroke-width="4" paint-order="stroke""#
        );
        self.words(at.plus(Point::new(0.0, 4.0)), words, ink, &halo);
        self.reach(at.plus(Point::new(LETTER * words.len() as f64 / 2.0, 10.0)));
    }

    /// Words from this point on.
    pub fn text(&mut self, at: Point, words: &str, ink: &str) {
        self.words(at, words, ink, r#"font-size="13""#);
        self.reach(at.plus(Point::new(LETTER * words.len() as f64, 0.0)));
    }

    fn words(&mut self, Point { x, y }: Point, words: &str, ink: &str, look: &str) {
        let _ = writeln!(
            self.svg,
            r#"<text x="{x:.1}" y="{y:.1}" fill="{ink}" {look}>{words}</text>"#
        );
    }

    /// The whole, with what it says to those who cannot see it.
    pub fn framed(self, title: &str, about: &str) -> String {
        let size = self.reach.plus(Point::new(MARGIN, MARGIN));
        let (width, height) = (size.x.ceil(), size.y.ceil());
        format!(
            r#"<svg xmlns="http://www.w3.org/2000/svg" viewBox="0 0 {width} {height}" width="{width}" height="{height}" role="img" font-family="Helvetica, Arial, sans-serif">
<title>{title}</title>
<desc>{about}</desc>
<rect width="{width}" height="{height}" fill="{PAPER}"/>
{}</svg>
"#,
            self.svg
        )
    }
}
