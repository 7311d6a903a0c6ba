//! Positions with an error (2026-04): the borders of the outcomes, and errors as they are written.

use super::input;
use super::sweeps::{grid, sweep, Sweep};
use crate::compare::{Compared, Comparison};
use crate::generate::place_damage::WRITTEN_ERRORS;
use crate::generate::places::{border_points, largest_error_within};
use crate::plain::places::{Position, Reported, Shape, Side};
use crate::plain::ranges::{ERRORS, METRES};

/// For these each position of a grid is tried with each small error.
const SMALL_CIRCLES: [(i64, i64, i64); 4] = [(0, 0, 1), (0, 0, 3), (0, 0, 5), (2, -1, 4)];
const SMALL_BOXES: [(i64, i64, i64, i64); 6] =
    [(0, 0, 0, 0), (-3, -2, 4, 5), (-4, -4, 4, 4), (-6, 0, 6, 0), (-1, -6, 1, 6), (-8, -8, -5, -4)];
const GRID: i64 = 9;
const LARGEST_SMALL_ERROR: i64 = 6;

/// For these the points about the borders are tried: the largest radius and error, radii about
/// the largest error, centres at the ends of the grid.
const CIRCLES: [(i64, i64, i64); 12] = [
    (0, 0, 5),
    (0, 0, 25),
    (-7, 11, 500),
    (0, 0, 999),
    (0, 0, 1000),
    (0, 0, 1001),
    (3, -4, 2000),
    (0, 0, 100_000),
    (99_998, 3, 100_000),
    (1_000_000, -1_000_000, 100_000),
    (-1_000_000, -1_000_000, 100_000),
    (1_000_000, 1_000_000, 1),
];
const BOXES: [(i64, i64, i64, i64); 13] = [
    (-5, -5, 5, 5),
    (-10, 3, 15, 23),
    (7, 7, 7, 7),
    (-1000, -1000, 1000, 1000),
    (-1000, -999, 1000, 1000),
    (-1001, -1001, 1001, 1001),
    (-1000, -20, 1000, 20),
    (-1_000_000, -1_000_000, 1_000_000, 1_000_000),
    (-999_000, -999_000, 999_000, 999_000),
    (-999_001, -998_999, 998_999, 999_001),
    (1_000_000, 1_000_000, 1_000_000, 1_000_000),
    (-1_000_000, -1_000_000, -1_000_000, 1_000_000),
    (-1_000_000, 0, 0, 0),
];
const NUDGES: [(i64, i64); 5] = [(0, 0), (1, 0), (-1, 0), (0, 1), (0, -1)];

/// One for each shape: a role inside it and a role outside of it.
pub fn error_sweeps() -> Vec<Sweep> {
    let small = shapes(&SMALL_CIRCLES, &SMALL_BOXES).into_iter();
    let small = small.map(|shape| sweep_of(shape, small_reports()));
    let others = shapes(&CIRCLES, &BOXES).into_iter();
    small.chain(others.map(|shape| sweep_of(shape, border_reports(shape, &NUDGES)))).collect()
}

fn shapes(circles: &[(i64, i64, i64)], boxes: &[(i64, i64, i64, i64)]) -> Vec<Shape> {
    let circles =
        circles.iter().map(|&(x, y, radius)| Shape::Circle { centre: Position { x, y }, radius });
    let boxes = boxes.iter().map(|&(left, bottom, right, top)| Shape::Box {
        low: Position { x: left, y: bottom },
        high: Position { x: right, y: top },
    });
    circles.chain(boxes).collect()
}

fn sweep_of(shape: Shape, reports: Vec<Reported>) -> Sweep {
    let moves = reports.into_iter().map(|reported| format!("(move 0 {reported})\n"));
    sweep("at", &[Side::Inside(shape), Side::Outside(shape)], moves)
}

/// At each position the error grows and then is small again.
fn small_reports() -> Vec<Reported> {
    let errors = (0..=LARGEST_SMALL_ERROR).chain([1]);
    let positions = grid(&Vec::from_iter(-GRID..=GRID)).into_iter();
    positions
        .flat_map(|(x, y)| {
            errors.clone().map(move |error| Reported { position: Position { x, y }, error })
        })
        .collect()
}

fn border_reports(shape: Shape, nudges: &[(i64, i64)]) -> Vec<Reported> {
    let mut reports = Vec::new();
    for error in errors_for(shape) {
        for Position { x, y } in border_points(shape, error) {
            let positions =
                nudges.iter().map(|(across, along)| Position { x: x + across, y: y + along });
            let on_the_grid = positions.filter(is_on_the_grid);
            reports.extend(on_the_grid.map(|position| Reported { position, error }));
        }
    }
    reports
}

fn is_on_the_grid(position: &Position) -> bool {
    METRES.contains(&position.x) && METRES.contains(&position.y)
}

/// None, small ones, those about the largest that the shape can hold, and the largest; 5 and
/// its multiples have whole three and four fifths.
fn errors_for(shape: Shape) -> Vec<i64> {
    let within = largest_error_within(shape);
    let mut errors = vec![0, 1, 2, 5, 10, 995, 999, 1000];
    errors.extend([within - 1, within, within + 1]);
    errors.retain(|error| ERRORS.contains(error));
    errors.sort_unstable();
    errors.dedup();
    errors
}

/// The positions about the borders in a saved state, with a role that the side is for active:
/// 17, or the same bytes again.
pub fn compare_saved_reports(comparison: &mut Comparison) -> Compared {
    for shape in shapes(&CIRCLES, &BOXES) {
        for side in [Side::Inside(shape), Side::Outside(shape)] {
            let rules = format!("(rule 1 (at 1 {side}))\n");
            for reported in border_reports(shape, &NUDGES[..2]) {
                let saved = format!(
                    "(now 5)\n(assigned 1 1)\n(open 1 1)\n(place 1 {reported})\n(active 1 1)\n"
                );
                comparison.check_state(rules.as_bytes(), saved.as_bytes())?;
            }
        }
    }
    Ok(())
}

/// Session 1 is open and has a position with an error, session 2 is open without one.
const SAVED: &str =
    "(now 5)\n(assigned 1 1)\n(open 1 1)\n(place 1 3 4 2)\n(active 1 1)\n(open 2 1)\n";
/// Kept by the saved position, and by no error above 2.
const INSIDE: &[u8] = b"(rule 1 (at 1 (inside (circle 0 0 7))))\n";
/// Lines after which a place may stand well or badly.
const LINES_BEFORE: [&str; 5] = [
    "(now 5)\n",
    "(now 5)\n(open 1 1)\n",
    "(now 5)\n(open 1 1)\n(place 1 3 4)\n",
    "(now 5)\n(open 1 1)\n(place 1 3 4 5)\n",
    "(now 5)\n(assigned 1 1)\n(open 1 1)\n(active 1 1)\n",
];
/// Lines after a place: none, good ones, one that is no form, one that breaks a rule.
const LINES_AFTER: [&str; 4] =
    ["", "(open 2 1)\n(place 2 0 0 9)\n", "(place 2 0 0 0)\n", "(open 2 1)\n(place 2 9 9)\n"];
/// Good, outside their ranges, and no numbers.
const SESSIONS: [&str; 5] = ["1", "3", "32", "01", "-1"];
const METRES_WRITTEN: [&str; 5] = ["3 4", "-3 4", "3 1000001", "3 -0", "03 4"];

/// Which cause counts: 10, 20, 23 of a step and 10, 11, 15, 16, 17 of a saved text.
pub fn compare_written_errors(comparison: &mut Comparison) -> Compared {
    for session in SESSIONS {
        for metres in METRES_WRITTEN {
            for error in WRITTEN_ERRORS {
                let numbers = format!("{session} {metres}{error}");
                compare_move(comparison, &format!("(move {numbers})\n"))?;
                compare_place(comparison, &format!("(place {numbers})\n"))?;
            }
        }
    }
    Ok(())
}

/// In the middle of a list, so that the state after it is seen as well.
fn compare_move(comparison: &mut Comparison, line: &str) -> Compared {
    let steps = format!("(finish 0)\n{line}(activate 1 1)\n(move 1 0 0 7)\n(activate 1 1)\n");
    comparison.respond(&input(INSIDE, format!("(open 1 1)\n{steps}").as_bytes()))?;
    comparison.run_steps(INSIDE, SAVED.as_bytes(), steps.as_bytes())?;
    comparison.run_steps(b"", SAVED.as_bytes(), line.as_bytes())
}

fn compare_place(comparison: &mut Comparison, line: &str) -> Compared {
    for before in LINES_BEFORE {
        for after in LINES_AFTER {
            let saved = format!("{before}{line}{after}");
            comparison.check_state(b"", saved.as_bytes())?;
        }
    }
    let active = format!("(now 5)\n(assigned 1 1)\n(open 1 1)\n{line}(active 1 1)\n");
    comparison.check_state(INSIDE, active.as_bytes())
}
