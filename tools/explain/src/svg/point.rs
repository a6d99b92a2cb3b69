//! Points of a picture.

#[derive(Clone, Copy, Debug, Default, PartialEq)]
pub struct Point {
    pub x: f64,
    pub y: f64,
}

/// The point so far to the right and so far down.
pub const fn at(x: f64, y: f64) -> Point {
    Point { x, y }
}

impl Point {
    pub fn plus(self, other: Point) -> Point {
        at(self.x + other.x, self.y + other.y)
    }

    pub fn minus(self, other: Point) -> Point {
        at(self.x - other.x, self.y - other.y)
    }

    pub fn times(self, by: f64) -> Point {
        at(self.x * by, self.y * by)
    }

    pub fn dot(self, other: Point) -> f64 {
        self.x * other.x + self.y * other.y
    }

    /// Twice the area between two directions; its sign says on which side the other lies.
    pub fn cross(self, other: Point) -> f64 {
        self.x * other.y - self.y * other.x
    }

    pub fn length(self) -> f64 {
        self.x.hypot(self.y)
    }

    /// The same direction, one long; to the right where there is none.
    pub fn unit(self) -> Point {
        match self.length() > 0.0 {
            true => self.times(1.0 / self.length()),
            false => at(1.0, 0.0),
        }
    }

    /// Turned about the origin by an angle.
    pub fn turned(self, angle: f64) -> Point {
        let (sin, cos) = angle.sin_cos();
        at(cos * self.x - sin * self.y, sin * self.x + cos * self.y)
    }

    /// Turned by a quarter.
    pub fn across(self) -> Point {
        at(-self.y, self.x)
    }
}
