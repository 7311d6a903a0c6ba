//! The kinds of cases that positions with an error bring (2026-04).

use crate::counts::Kind;
use crate::plain::places::{PlaceOutcome, Position, Reported, Shape};
use crate::plain::rules::Rule;
use crate::plain::state::{Session, State};
use crate::plain::step_text::read_step;
use crate::plain::steps::{Action, Step};

const OUTCOME: &str = "place test with an error";
const MOVE: &str = "error of a move, the line or step refused";
const PLACE: &str = "error of a place, the line refused";

const CIRCLE_INSIDE: &str = "inside a circle";
const CIRCLE_OUTSIDE: &str = "outside a circle";
const CIRCLE_UNSURE: &str = "unsure in a circle";
const CIRCLE_AT_INNER_BORDER: &str = "circle, d = q - e";
const CIRCLE_AT_OUTER_BORDER: &str = "circle, d = q + e";
const CIRCLE_ERROR_EQUAL: &str = "circle, e = q, inside";
const CIRCLE_ERROR_ABOVE: &str = "circle, e above q";
const BOX_INSIDE: &str = "inside a box";
const BOX_OUTSIDE: &str = "outside a box";
const BOX_UNSURE_WITHIN: &str = "unsure within a box";
const BOX_UNSURE_AT_A_SIDE: &str = "unsure beside a side of a box";
const BOX_UNSURE_AT_A_CORNER: &str = "unsure beside a corner of a box";
const BOX_AT_INNER_BORDER: &str = "box, e within a side";
const BOX_AT_OUTER_BORDER: &str = "box, e away from a side";
const BOX_AT_A_CORNER: &str = "box, e away from a corner";
const BOX_BEYOND_A_CORNER: &str = "box, e or less along both axes and outside at a corner";
const BOX_NARROW: &str = "box narrower than 2e";

const OUTCOMES: [&str; 17] = [
    CIRCLE_INSIDE,
    CIRCLE_OUTSIDE,
    CIRCLE_UNSURE,
    CIRCLE_AT_INNER_BORDER,
    CIRCLE_AT_OUTER_BORDER,
    CIRCLE_ERROR_EQUAL,
    CIRCLE_ERROR_ABOVE,
    BOX_INSIDE,
    BOX_OUTSIDE,
    BOX_UNSURE_WITHIN,
    BOX_UNSURE_AT_A_SIDE,
    BOX_UNSURE_AT_A_CORNER,
    BOX_AT_INNER_BORDER,
    BOX_AT_OUTER_BORDER,
    BOX_AT_A_CORNER,
    BOX_BEYOND_A_CORNER,
    BOX_NARROW,
];

const WRITTEN_0: &str = "written 0";
const LEADING_ZERO: &str = "leading zero";
const MINUS: &str = "minus";
const ELEVEN_DIGITS: &str = "eleven digits";
const TEN_DIGITS: &str = "ten digits";
const ONE_TOO_LARGE: &str = "1001";
const IN_ITS_RANGE: &str = "in its range";

const NO_NUMBERS: [&str; 4] = [WRITTEN_0, LEADING_ZERO, MINUS, ELEVEN_DIGITS];
const TOO_LARGE: [&str; 2] = [ONE_TOO_LARGE, TEN_DIGITS];

pub fn place_kinds_to_meet() -> Vec<Kind> {
    let mut kinds: Vec<Kind> = OUTCOMES.map(|name| (OUTCOME, name, 0)).to_vec();
    for name in NO_NUMBERS {
        kinds.extend([(MOVE, name, 10), (PLACE, name, 10)]);
    }
    for name in TOO_LARGE {
        kinds.extend([(MOVE, name, 20), (PLACE, name, 11)]);
    }
    kinds.extend([15, 16].map(|number| (PLACE, IN_ITS_RANGE, number)));
    kinds
}

/// The outcomes of a reported position for the shapes of the `at` rules.
pub fn outcome_kinds(rules: &[Rule], reported: Reported) -> Vec<Kind> {
    if reported.error == 0 {
        return Vec::new();
    }
    let shapes = rules.iter().filter_map(|rule| match rule {
        Rule::At { side, .. } => Some(side.shape()),
        _ => None,
    });
    let names = shapes.flat_map(|shape| match shape {
        Shape::Circle { centre, radius } => circle_names(shape, centre, radius, reported),
        Shape::Box { low, high } => box_names(shape, low, high, reported),
    });
    names.map(|name| (OUTCOME, name, 0)).collect()
}

fn circle_names(
    shape: Shape,
    centre: Position,
    radius: i64,
    reported: Reported,
) -> Vec<&'static str> {
    let Reported { position, error } = reported;
    let outcome = shape.outcome(reported);
    let (across, along) = (position.x - centre.x, position.y - centre.y);
    let is_at = |reach: i64| across * across + along * along == reach * reach;
    let mut names = vec![match outcome {
        PlaceOutcome::Inside => CIRCLE_INSIDE,
        PlaceOutcome::Outside => CIRCLE_OUTSIDE,
        PlaceOutcome::Unsure => CIRCLE_UNSURE,
    }];
    let others = [
        (CIRCLE_AT_INNER_BORDER, error < radius && is_at(radius - error)),
        (CIRCLE_AT_OUTER_BORDER, is_at(radius + error)),
        (CIRCLE_ERROR_EQUAL, error == radius && outcome == PlaceOutcome::Inside),
        (CIRCLE_ERROR_ABOVE, error > radius && outcome == PlaceOutcome::Unsure),
    ];
    names.extend(others.iter().filter(|(_, is_met)| *is_met).map(|&(name, _)| name));
    names
}

fn box_names(shape: Shape, low: Position, high: Position, reported: Reported) -> Vec<&'static str> {
    let Reported { position, error } = reported;
    let across = beyond(low.x, position.x, high.x);
    let along = beyond(low.y, position.y, high.y);
    let is_at_a_corner = across > 0 && along > 0;
    let outcome = shape.outcome(reported);
    let mut names = vec![match outcome {
        PlaceOutcome::Inside => BOX_INSIDE,
        PlaceOutcome::Outside => BOX_OUTSIDE,
        PlaceOutcome::Unsure if is_at_a_corner => BOX_UNSURE_AT_A_CORNER,
        PlaceOutcome::Unsure if shape.contains(position) => BOX_UNSURE_WITHIN,
        PlaceOutcome::Unsure => BOX_UNSURE_AT_A_SIDE,
    }];
    let others = [
        (BOX_AT_INNER_BORDER, outcome == PlaceOutcome::Inside && across.max(along) == -error),
        (BOX_AT_OUTER_BORDER, !is_at_a_corner && across.max(along) == error),
        (BOX_AT_A_CORNER, is_at_a_corner && across * across + along * along == error * error),
        (
            BOX_BEYOND_A_CORNER,
            is_at_a_corner && across.max(along) <= error && outcome == PlaceOutcome::Outside,
        ),
        (BOX_NARROW, (high.x - low.x).min(high.y - low.y) < 2 * error),
    ];
    names.extend(others.iter().filter(|(_, is_met)| *is_met).map(|&(name, _)| name));
    names
}

/// How far a value is beyond the nearer end; below 0 it is so far within.
fn beyond(low: i64, value: i64, high: i64) -> i64 {
    (low - value).max(value - high)
}

/// A step that is refused for its error alone, and how that is written.
pub fn refused_move_kind(action: &Action, number: u64) -> Option<Kind> {
    match *action {
        Action::Move { session, reported: Reported { position, error } } if number == 20 => {
            let without_error = Action::Move { session, reported: Reported { position, error: 0 } };
            let name = written_as(&error.to_string())?;
            without_error.is_in_range().then_some((MOVE, name, number))
        }
        _ => None,
    }
}

/// A refused line of a text that has a move or place whose other numbers are good.
pub fn refused_line_kind(line: &[u8], number: u64) -> Option<Kind> {
    let line = std::str::from_utf8(line).ok()?;
    let (start, error) = line.strip_suffix(')')?.rsplit_once(' ')?;
    let (group, others) = match start.split_once(' ')? {
        ("(move", others) => (MOVE, others),
        ("(place", others) => (PLACE, others),
        _ => return None,
    };
    let Step { action: without_error, .. } =
        read_step(Some(format!("(move {others})").as_bytes()))?;
    let is_good = matches!(without_error, Action::Move { reported: Reported { error: 0, .. }, .. })
        && without_error.is_in_range();
    is_good.then_some((group, written_as(error)?, number))
}

fn written_as(error: &str) -> Option<&'static str> {
    let digits = error.strip_prefix('-').unwrap_or(error);
    if digits.is_empty() || !digits.bytes().all(|byte| byte.is_ascii_digit()) {
        return None;
    }
    Some(match error {
        "0" => WRITTEN_0,
        "1001" => ONE_TOO_LARGE,
        "1000" => IN_ITS_RANGE,
        _ if error.starts_with('-') => MINUS,
        _ if error.starts_with('0') => LEADING_ZERO,
        _ => match error.len() {
            1..=3 => IN_ITS_RANGE,
            10 => TEN_DIGITS,
            11 => ELEVEN_DIGITS,
            _ => return None,
        },
    })
}

pub fn has_an_error(state: &State) -> bool {
    let mut positions = state.sessions.values().filter_map(|session| session.position);
    positions.any(|reported| reported.error > 0)
}

/// The same state with every position known exactly.
pub fn without_errors(mut state: State) -> State {
    for Session { position, .. } in state.sessions.values_mut() {
        if let Some(reported) = position {
            reported.error = 0;
        }
    }
    state
}
