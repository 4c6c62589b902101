//! Points and ways on the sheet, in pixels to the right and down.

use std::fmt;

#[derive(Clone, Copy, Default)]
pub struct Point {
    pub x: f64,
    pub y: f64,
}

impl Point {
    pub const fn new(x: f64, y: f64) -> Point {
        Point { x, y }
    }

    pub fn plus(self, other: Point) -> Point {
        Point::new(self.x + other.x, self.y + other.y)
    }

    pub fn minus(self, other: Point) -> Point {
        self.plus(other.times(-1.0))
    }

    pub fn times(self, by: f64) -> Point {
        Point::new(self.x * by, self.y * by)
    }

    /// The same way, of length 1.
    pub fn unit(self) -> Point {
        // Two nodes never stand in one place.
        self.times(1.0 / self.x.hypot(self.y).max(1.0))
    }

    /// Whether it is less far from another than this, both ways.
    pub fn is_near(self, other: Point, than: Point) -> bool {
        (self.x - other.x).abs() < than.x && (self.y - other.y).abs() < than.y
    }

    /// A quarter turn.
    pub fn turned(self) -> Point {
        Point::new(-self.y, self.x)
    }
}

impl fmt::Display for Point {
    /// As a path has it.
    fn fmt(&self, f: &mut fmt::Formatter<'_>) -> fmt::Result {
        write!(f, "{:.1} {:.1}", self.x, self.y)
    }
}
