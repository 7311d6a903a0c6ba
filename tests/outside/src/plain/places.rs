//! "Places", and request 2026-04: positions known to a radius, inside and outside of shapes.

use std::fmt;

#[derive(Clone, Copy, Debug, PartialEq, Eq)]
pub struct Position {
    pub x: i64,
    pub y: i64,
}

/// 2026-04: "Tablets in the nacelle report an error of e metres." The session may be at any
/// point of the error circle about the position; an error left out is 0.
#[derive(Clone, Copy, Debug, PartialEq, Eq)]
pub struct Reported {
    pub position: Position,
    pub error: i64,
}

/// 2026-04: "The place test now has three outcomes."
#[derive(Clone, Copy, Debug, PartialEq, Eq)]
pub enum PlaceOutcome {
    Inside,
    Outside,
    Unsure,
}

#[derive(Clone, Copy, Debug, PartialEq, Eq)]
pub enum Shape {
    Circle { centre: Position, radius: i64 },
    Box { low: Position, high: Position },
}

#[derive(Clone, Copy, Debug, PartialEq, Eq)]
pub enum Side {
    Inside(Shape),
    Outside(Shape),
}

impl Side {
    /// "An unknown position is neither." 2026-04: "An unsure position satisfies neither side
    /// of an `at` rule."
    pub fn holds(self, reported: Option<Reported>) -> bool {
        let outcome = reported.map(|reported| self.shape().outcome(reported));
        match self {
            Side::Inside(_) => outcome == Some(PlaceOutcome::Inside),
            Side::Outside(_) => outcome == Some(PlaceOutcome::Outside),
        }
    }

    pub fn shape(self) -> Shape {
        match self {
            Side::Inside(shape) | Side::Outside(shape) => shape,
        }
    }
}

impl Shape {
    /// 2026-04: "Every point of the error circle must agree with a sure outcome."
    pub fn outcome(self, reported: Reported) -> PlaceOutcome {
        if self.holds_the_whole_of(reported) {
            PlaceOutcome::Inside
        } else if self.is_clear_of(reported) {
            PlaceOutcome::Outside
        } else {
            PlaceOutcome::Unsure
        }
    }

    /// In a circle the point of the error circle that is farthest from the centre decides, in
    /// a box the two corners of the square about the error circle.
    fn holds_the_whole_of(self, Reported { position, error }: Reported) -> bool {
        match self {
            Shape::Circle { centre, radius } => {
                distance_rounded_up(centre, position) + error <= radius
            }
            Shape::Box { .. } => [-error, error].into_iter().all(|reach| {
                self.contains(Position { x: position.x + reach, y: position.y + reach })
            }),
        }
    }

    /// Whether the shape's nearest point is not in the error circle. With e = 0 that is "where
    /// the position is not within".
    fn is_clear_of(self, Reported { position, error }: Reported) -> bool {
        match self {
            Shape::Circle { centre, radius } => {
                distance_rounded_up(centre, position) > radius + error
            }
            Shape::Box { low, high } => {
                let nearest = Position {
                    x: position.x.clamp(low.x, high.x),
                    y: position.y.clamp(low.y, high.y),
                };
                distance_rounded_up(nearest, position) > error
            }
        }
    }

    /// The test of a single point.
    pub fn contains(self, position: Position) -> bool {
        match self {
            Shape::Circle { centre, radius } => {
                let across = position.x - centre.x;
                let along = position.y - centre.y;
                across * across + along * along <= radius * radius
            }
            Shape::Box { low, high } => {
                low.x <= position.x
                    && position.x <= high.x
                    && low.y <= position.y
                    && position.y <= high.y
            }
        }
    }

    /// "box a > c or b > d" is refused.
    pub fn makes_sense(self) -> bool {
        match self {
            Shape::Circle { .. } => true,
            Shape::Box { low, high } => low.x <= high.x && low.y <= high.y,
        }
    }
}

/// The least whole number that is not below the distance: a whole number is below the one just
/// where it is below the other, so that no comparison is changed. It lies between the longer
/// way along an axis and both ways together.
fn distance_rounded_up(one: Position, other: Position) -> i64 {
    let across = i128::from(one.x - other.x).abs();
    let along = i128::from(one.y - other.y).abs();
    let square = across * across + along * along;
    let (mut low, mut high) = (across.max(along), across + along);
    while low < high {
        let middle = (low + high) / 2;
        if middle * middle < square {
            low = middle + 1;
        } else {
            high = middle;
        }
    }
    low as i64
}

impl fmt::Display for Position {
    fn fmt(&self, out: &mut fmt::Formatter<'_>) -> fmt::Result {
        write!(out, "{} {}", self.x, self.y)
    }
}

/// 2026-04: "left out means 0"
impl fmt::Display for Reported {
    fn fmt(&self, out: &mut fmt::Formatter<'_>) -> fmt::Result {
        match self.error {
            0 => write!(out, "{}", self.position),
            error => write!(out, "{} {error}", self.position),
        }
    }
}

impl fmt::Display for Shape {
    fn fmt(&self, out: &mut fmt::Formatter<'_>) -> fmt::Result {
        match self {
            Shape::Circle { centre, radius } => write!(out, "(circle {centre} {radius})"),
            Shape::Box { low, high } => write!(out, "(box {low} {high})"),
        }
    }
}

impl fmt::Display for Side {
    fn fmt(&self, out: &mut fmt::Formatter<'_>) -> fmt::Result {
        match self {
            Side::Inside(shape) => write!(out, "(inside {shape})"),
            Side::Outside(shape) => write!(out, "(outside {shape})"),
        }
    }
}
