//! Reported positions: errors, and the points at which an outcome of the place test changes.

use super::random::Random;
use super::rule_lists::metre;
use crate::plain::places::{Position, Reported, Shape};
use crate::plain::ranges::ERRORS;

/// Often 0, often small, now and then the largest.
pub fn drawn_error(random: &mut Random) -> i64 {
    match random.below(20) {
        0..=7 => 0,
        8..=15 => random.between(1, 6),
        16 => random.between(1, 60),
        17 => *ERRORS.end(),
        18 => *ERRORS.end() - 1,
        _ => random.between(1, *ERRORS.end()),
    }
}

/// On the border of an outcome for the shape, or beside it.
pub fn near_a_border(random: &mut Random, shape: Shape) -> Reported {
    let error = error_for(random, shape);
    let Position { x, y } = *random.pick(&border_points(shape, error));
    let across = *random.pick(&[0, 0, 0, 1, -1]);
    let along = *random.pick(&[0, 0, 0, 1, -1]);
    Reported { position: Position { x: metre(x + across), y: metre(y + along) }, error }
}

/// Now and then one at which the shape can just hold the error circle, or just not.
fn error_for(random: &mut Random, shape: Shape) -> i64 {
    if random.percent(15) {
        let error = largest_error_within(shape) + random.between(-1, 1);
        error.clamp(*ERRORS.start(), *ERRORS.end())
    } else {
        drawn_error(random)
    }
}

/// The largest error with which a position can be sure to be inside, as far as it is whole.
pub fn largest_error_within(shape: Shape) -> i64 {
    match shape {
        Shape::Circle { radius, .. } => radius,
        Shape::Box { low, high } => (high.x - low.x).min(high.y - low.y) / 2,
    }
}

/// The middle of the shape, and points where the outcome with this error changes or would
/// change with none.
pub fn border_points(shape: Shape, error: i64) -> Vec<Position> {
    match shape {
        Shape::Circle { centre, radius } => circle_border_points(centre, radius, error),
        Shape::Box { low, high } => box_border_points(low, high, error),
    }
}

/// Three fifths and four fifths of a distance are at it where both are whole.
fn circle_border_points(centre: Position, radius: i64, error: i64) -> Vec<Position> {
    let mut offsets = vec![(0, 0)];
    for reach in [radius - error, radius, radius + error] {
        offsets.extend([(reach, 0), (-reach, 0), (0, reach), (0, -reach)]);
        offsets.extend([(reach * 3 / 5, reach * 4 / 5), (-reach * 4 / 5, reach * 3 / 5)]);
        offsets.push((reach / 2, -reach / 2));
    }
    let points = offsets.into_iter();
    points.map(|(across, along)| Position { x: centre.x + across, y: centre.y + along }).collect()
}

/// About the sides, both ways; and about the corners, at the error from them along an axis, in
/// between, and at three fifths and four fifths of it.
fn box_border_points(low: Position, high: Position, error: i64) -> Vec<Position> {
    let middle = Position { x: (low.x + high.x) / 2, y: (low.y + high.y) / 2 };
    let mut points = vec![middle];
    for reach in [-error, 0, error] {
        points.extend([low.x + reach, high.x + reach].map(|x| Position { x, ..middle }));
        points.extend([low.y + reach, high.y + reach].map(|y| Position { y, ..middle }));
    }
    let offsets = [
        (0, 0),
        (error, error),
        (-error, -error),
        (-error, 0),
        (0, -error),
        (-error * 3 / 5, -error * 4 / 5),
        (-error * 4 / 5, -error * 3 / 5),
    ];
    for (into, up) in offsets {
        points.extend([(low.x + into, low.y + up), (high.x - into, low.y + up)].map(position));
        points.extend([(low.x + into, high.y - up), (high.x - into, high.y - up)].map(position));
    }
    points
}

fn position((x, y): (i64, i64)) -> Position {
    Position { x, y }
}
