//! Positions known only to a radius (2026-04): worked cases of the request's words, and the place
//! test beside the points of the error circle.

use outside::generate::places::{border_points, largest_error_within};
use outside::generate::random::Random;
use outside::plain::places::PlaceOutcome::{Inside, Outside, Unsure};
use outside::plain::places::{PlaceOutcome, Position, Reported, Shape, Side};
use outside::plain::ranges::{ERRORS, METRES, RADII};
use worked::answers;

mod worked;

fn position(x: i64, y: i64) -> Position {
    Position { x, y }
}

fn circle(x: i64, y: i64, radius: i64) -> Shape {
    Shape::Circle { centre: position(x, y), radius }
}

fn rectangle(left: i64, bottom: i64, right: i64, top: i64) -> Shape {
    Shape::Box { low: position(left, bottom), high: position(right, top) }
}

fn outcome(shape: Shape, x: i64, y: i64, error: i64) -> PlaceOutcome {
    shape.outcome(Reported { position: position(x, y), error })
}

/// Each position and error has the outcome beside it.
fn check_outcomes(shape: Shape, expected: &[((i64, i64, i64), PlaceOutcome)]) {
    for &((x, y, error), expected) in expected {
        assert_eq!(outcome(shape, x, y, error), expected, "{shape} {x} {y} {error}");
    }
}

/// Each step has the answer beside it.
fn check_answers(rules: &[&str], steps: &[(&str, &str)]) {
    let (steps, expected): (Vec<&str>, Vec<&str>) = steps.iter().copied().unzip();
    assert_eq!(answers(rules, &steps), expected);
}

/// "inside where e ≤ q and d² ≤ (q - e)², outside where d² > (q + e)², else unsure"
#[test]
fn a_circle_at_its_borders() {
    check_outcomes(
        circle(0, 0, 10),
        &[
            ((3, 4, 5), Inside),
            ((5, 0, 5), Inside),
            ((3, 4, 6), Unsure),
            ((4, 4, 5), Unsure),
            ((6, 0, 5), Unsure),
            ((9, 12, 5), Unsure),
            ((15, 0, 5), Unsure),
            ((9, 12, 4), Outside),
            ((9, 13, 5), Outside),
            ((16, 0, 5), Outside),
            ((-15, 1, 5), Outside),
        ],
    );
}

#[test]
fn a_circle_and_an_error_about_its_radius() {
    check_outcomes(
        circle(-7, 7, 10),
        &[
            ((-7, 7, 9), Inside),
            ((-6, 7, 9), Inside),
            ((-6, 8, 9), Unsure),
            ((-7, 7, 10), Inside),
            ((-6, 7, 10), Unsure),
            ((-7, 7, 11), Unsure),
            ((-7, 7, 1000), Unsure),
            ((13, 7, 10), Unsure),
            ((14, 7, 10), Outside),
            ((14, 7, 11), Unsure),
            ((15, 7, 11), Outside),
        ],
    );
}

/// "inside where it is e or more within all four sides"
#[test]
fn a_box_from_within() {
    check_outcomes(
        rectangle(-10, 5, 10, 17),
        &[
            ((0, 11, 6), Inside),
            ((0, 11, 7), Unsure),
            ((4, 11, 6), Inside),
            ((5, 11, 6), Unsure),
            ((-4, 11, 6), Inside),
            ((-5, 11, 6), Unsure),
            ((0, 10, 6), Unsure),
            ((0, 12, 6), Unsure),
            ((-10, 5, 0), Inside),
            ((-10, 5, 1), Unsure),
            ((-9, 6, 1), Inside),
        ],
    );
}

/// "outside where the squared distance to the box exceeds e² (with e = 0: where the position is
/// not within)"
#[test]
fn a_box_from_outside() {
    check_outcomes(
        rectangle(-10, 5, 10, 17),
        &[
            ((15, 11, 5), Unsure),
            ((16, 11, 5), Outside),
            ((15, 11, 4), Outside),
            ((0, 0, 5), Unsure),
            ((0, -1, 5), Outside),
            ((13, 21, 5), Unsure),
            ((14, 20, 5), Unsure),
            ((14, 21, 5), Outside),
            ((13, 22, 5), Outside),
            ((-13, 1, 5), Unsure),
            ((-14, 1, 5), Outside),
            ((-15, 0, 7), Outside),
            ((-15, 0, 8), Unsure),
            ((11, 17, 0), Outside),
            ((10, 17, 0), Inside),
        ],
    );
}

/// A box that is narrower than the error circle is wide holds none.
#[test]
fn a_narrow_box() {
    check_outcomes(
        rectangle(-100, 0, 100, 9),
        &[
            ((0, 4, 4), Inside),
            ((0, 5, 4), Inside),
            ((0, 4, 5), Unsure),
            ((0, 5, 5), Unsure),
            ((0, 14, 5), Unsure),
            ((0, 15, 5), Outside),
        ],
    );
    check_outcomes(
        rectangle(3, 3, 3, 3),
        &[
            ((3, 3, 0), Inside),
            ((3, 3, 1), Unsure),
            ((3, 4, 1), Unsure),
            ((4, 4, 1), Outside),
            ((603, 803, 1000), Unsure),
            ((603, 804, 1000), Outside),
        ],
    );
}

#[test]
fn the_largest_numbers() {
    check_outcomes(
        circle(1_000_000, -1_000_000, 100_000),
        &[
            ((901_000, -1_000_000, 1000), Inside),
            ((900_999, -1_000_000, 1000), Unsure),
            ((940_600, -920_800, 1000), Inside),
            ((940_600, -920_799, 1000), Unsure),
            ((899_000, -1_000_000, 1000), Unsure),
            ((898_999, -1_000_000, 1000), Outside),
            ((939_400, -919_200, 1000), Unsure),
            ((939_400, -919_199, 1000), Outside),
            ((-1_000_000, 1_000_000, 1000), Outside),
        ],
    );
    check_outcomes(
        rectangle(-1_000_000, -1_000_000, 1_000_000, 1_000_000),
        &[
            ((999_000, -999_000, 1000), Inside),
            ((999_001, 0, 1000), Unsure),
            ((1_000_000, 1_000_000, 1), Unsure),
            ((1_000_000, 1_000_000, 0), Inside),
        ],
    );
}

/// "An unsure position satisfies neither side", and an unknown one is neither.
#[test]
fn an_unsure_position_is_on_neither_side() {
    let shapes = [circle(0, 0, 10), rectangle(-10, -10, 10, 10)];
    for shape in shapes {
        let sides = [Side::Inside(shape), Side::Outside(shape)];
        let hold = |x, error| {
            let reported = Reported { position: position(x, 0), error };
            sides.map(|side| side.holds(Some(reported)))
        };
        assert_eq!(hold(6, 4), [true, false]);
        assert_eq!(hold(6, 5), [false, false]);
        assert_eq!(hold(15, 5), [false, false]);
        assert_eq!(hold(16, 5), [false, true]);
        assert_eq!(sides.map(|side| side.holds(None)), [false, false]);
    }
}

const SMALLEST: i64 = -11;
const LARGEST: i64 = 11;
const MOST_ERROR: i64 = 7;

/// Shapes that lie on a small grid of positions.
fn small_shapes() -> Vec<Shape> {
    let circles = (1..=7).map(|radius| circle(0, 0, radius));
    let boxes = [
        rectangle(0, 0, 0, 0),
        rectangle(-3, -2, 4, 5),
        rectangle(-4, -4, 4, 4),
        rectangle(-8, -7, 8, 8),
        rectangle(-6, 1, 6, 1),
        rectangle(-1, -5, 0, 5),
        rectangle(2, -7, 5, -3),
    ];
    circles.chain([circle(2, -1, 4)]).chain(boxes).collect()
}

/// Every shape with every position of the grid.
fn for_each_small_place(mut check: impl FnMut(Shape, i64, i64)) {
    for shape in small_shapes() {
        for x in SMALLEST..=LARGEST {
            for y in SMALLEST..=LARGEST {
                check(shape, x, y);
            }
        }
    }
}

/// "Every point of the error circle must agree with a sure outcome": its points at some scales
/// are all within or all not; and where the outcome is unsure, points of both kinds are found.
#[test]
fn each_point_of_the_error_circle_agrees_with_a_sure_outcome() {
    const SCALES: i64 = 4;
    const SCALES_SEARCHED: i64 = 40;
    let mut met = [0; 3];
    for_each_small_place(|shape, x, y| {
        for error in 0..=MOST_ERROR {
            let expected = outcome(shape, x, y, error);
            let found = |scale| points_within_and_not(shape, x, y, error, scale);
            let what = format!("{shape} {x} {y} {error}");
            match expected {
                Inside => {
                    assert!((1..=SCALES).all(|scale| found(scale) == (true, false)), "{what}")
                }
                Outside => {
                    assert!((1..=SCALES).all(|scale| found(scale) == (false, true)), "{what}")
                }
                Unsure => {
                    let mut scales = 1..=SCALES_SEARCHED;
                    assert!(scales.any(|scale| found(scale) == (true, true)), "{what}");
                }
            }
            met[expected as usize] += 1;
        }
    });
    assert!(met.iter().all(|&times| times > 1000), "{met:?}");
}

/// Whether the error circle, `scale` times as large, has a point with whole coordinates within
/// the shape that is as large, and one that is not.
fn points_within_and_not(shape: Shape, x: i64, y: i64, error: i64, scale: i64) -> (bool, bool) {
    let (mut within, mut not_within) = (false, false);
    let reach = scale * error;
    for across in -reach..=reach {
        for along in -reach..=reach {
            if across * across + along * along <= reach * reach {
                let is_within =
                    is_within_scaled(shape, scale * x + across, scale * y + along, scale);
                within |= is_within;
                not_within |= !is_within;
            }
        }
    }
    (within, not_within)
}

/// The test of document 01, of a point in the shape `scale` times as large.
fn is_within_scaled(shape: Shape, x: i64, y: i64, scale: i64) -> bool {
    match shape {
        Shape::Circle { centre, radius } => {
            let (dx, dy) = (x - scale * centre.x, y - scale * centre.y);
            dx * dx + dy * dy <= (scale * radius) * (scale * radius)
        }
        Shape::Box { low, high } => {
            scale * low.x <= x && x <= scale * high.x && scale * low.y <= y && y <= scale * high.y
        }
    }
}

/// With e = 0 a position is inside where it was, and outside where it was not.
#[test]
fn without_an_error_the_test_is_the_old_one() {
    let is_old = |shape: Shape, x: i64, y: i64| {
        let old = if is_within_scaled(shape, x, y, 1) { Inside } else { Outside };
        assert_eq!(outcome(shape, x, y, 0), old, "{shape} {x} {y}");
    };
    for_each_small_place(is_old);
    for_each_drawn_place(|shape, x, y| is_old(shape, x, y));
}

/// As the error grows, a sure outcome stays or becomes unsure, and an unsure one stays.
#[test]
fn a_larger_error_makes_nothing_sure() {
    let grows = |shape: Shape, x: i64, y: i64, errors: &[i64]| {
        let outcomes: Vec<PlaceOutcome> =
            errors.iter().map(|&error| outcome(shape, x, y, error)).collect();
        for (pair, error) in outcomes.windows(2).zip(errors) {
            let is_good = pair[0] == pair[1] || pair[1] == Unsure;
            assert!(is_good, "{shape} {x} {y} {error}: {pair:?}");
        }
    };
    let small: Vec<i64> = (0..=30).collect();
    for_each_small_place(|shape, x, y| grows(shape, x, y, &small));
    let every: Vec<i64> = ERRORS.collect();
    let mut drawn = 0;
    for_each_drawn_place(|shape, x, y| {
        drawn += 1;
        if drawn % 40 == 0 {
            grows(shape, x, y, &every);
        }
    });
}

/// The gate counts by a distance that is rounded up, by the corners of the square about the
/// error circle and by the nearest point of a box; here are the request's own formulas.
#[test]
fn the_formulas_of_the_request() {
    let agrees = |shape: Shape, x: i64, y: i64, error: i64| {
        let expected = by_the_formulas(shape, x, y, error);
        assert_eq!(outcome(shape, x, y, error), expected, "{shape} {x} {y} {error}");
        expected
    };
    for_each_small_place(|shape, x, y| {
        for error in 0..=MOST_ERROR {
            agrees(shape, x, y, error);
        }
    });
    let mut met = [0; 3];
    let mut random = Random::new(2026);
    for_each_drawn_place(|shape, x, y| {
        for error in [0, 1, 999, 1000, random.between(*ERRORS.start(), *ERRORS.end())] {
            met[agrees(shape, x, y, error) as usize] += 1;
        }
    });
    assert!(met.iter().all(|&times| times > 1000), "{met:?}");
}

fn by_the_formulas(shape: Shape, x: i64, y: i64, e: i64) -> PlaceOutcome {
    let (is_inside, is_outside) = match shape {
        Shape::Circle { centre, radius: q } => {
            let (dx, dy) = (x - centre.x, y - centre.y);
            let d2 = dx * dx + dy * dy;
            (e <= q && d2 <= (q - e) * (q - e), d2 > (q + e) * (q + e))
        }
        Shape::Box { low, high } => {
            let within = [x - low.x, high.x - x, y - low.y, high.y - y];
            let dx = (low.x - x).max(x - high.x).max(0);
            let dy = (low.y - y).max(y - high.y).max(0);
            (within.iter().all(|&metres| metres >= e), dx * dx + dy * dy > e * e)
        }
    };
    match (is_inside, is_outside) {
        (true, false) => Inside,
        (false, true) => Outside,
        (false, false) => Unsure,
        (true, true) => panic!("inside and outside of {shape} at {x} {y} {e}"),
    }
}

/// Shapes of any size, with positions about the borders of their outcomes and elsewhere.
fn for_each_drawn_place(mut check: impl FnMut(Shape, i64, i64)) {
    const SHAPES: usize = 300;
    let mut random = Random::new(4);
    for _ in 0..SHAPES {
        let shape = drawn_shape(&mut random);
        let errors = [0, 1, 5, 1000, largest_error_within(shape).min(1000)];
        for Position { x, y } in errors.iter().flat_map(|&error| border_points(shape, error)) {
            let (across, along) = (random.between(-1, 1), random.between(-1, 1));
            check(shape, x, y);
            check(shape, x + across, y + along);
        }
        let mut metre = || random.between(*METRES.start(), *METRES.end());
        check(shape, metre(), metre());
    }
}

fn drawn_shape(random: &mut Random) -> Shape {
    let (low, high) = (*METRES.start(), *METRES.end());
    let (x, y) = match random.below(3) {
        0 => (low, high),
        _ => (random.between(low, high), random.between(low, high)),
    };
    let longest = *random.pick(&[3, 60, 2100, 2_000_000]);
    if random.percent(50) {
        circle(x, y, random.between(1, longest.min(*RADII.end())))
    } else {
        let (across, up) = (random.between(0, longest), random.between(0, longest));
        rectangle(x, y, (x + across).min(high), (y + up).min(high))
    }
}

#[test]
fn an_unsure_position_opens_neither_role() {
    check_answers(
        &["(at 1 (inside (circle 0 0 10)))", "(at 2 (outside (circle 0 0 10)))"],
        &[
            ("(assign 5 1)", "(yes 0 0)"),
            ("(assign 5 2)", "(yes 0 0)"),
            ("(open 0 5)", "(yes 0 0)"),
            ("(move 0 3 4 6)", "(yes 2 0)"),
            ("(activate 0 1)", "(no 30 1 1)"),
            ("(activate 0 2)", "(no 30 2 1)"),
            ("(move 0 3 4 5)", "(yes 2 0)"),
            ("(activate 0 1)", "(yes 1 0)"),
            ("(activate 0 2)", "(no 30 2 1)"),
            ("(move 0 9 12 5)", "(yes 2 1)"),
            ("(activate 0 1)", "(no 30 1 1)"),
            ("(activate 0 2)", "(no 30 2 1)"),
            ("(move 0 9 12 4)", "(yes 2 0)"),
            ("(activate 0 2)", "(yes 1 0)"),
            ("(move 0 9 12)", "(yes 2 0)"),
            ("(move 0 9 12 5)", "(yes 2 1)"),
        ],
    );
}

/// The error of a position ends what another role needs, and no more.
#[test]
fn a_growing_error_ends_a_chain_and_a_smaller_one_lets_it_begin_again() {
    check_answers(
        &["(needs 2 1)", "(at 1 (inside (box 0 0 100 40)))", "(at 3 (outside (box 0 0 100 40)))"],
        &[
            ("(assign 5 1)", "(yes 0 0)"),
            ("(assign 6 2)", "(yes 0 0)"),
            ("(assign 6 3)", "(yes 0 0)"),
            ("(open 0 5)", "(yes 0 0)"),
            ("(open 1 6)", "(yes 0 0)"),
            ("(move 0 50 20 20)", "(yes 3 0)"),
            ("(move 1 103 44 4)", "(yes 3 0)"),
            ("(activate 0 1)", "(yes 1 0)"),
            ("(activate 1 2)", "(yes 1 0)"),
            ("(activate 1 3)", "(yes 1 0)"),
            ("(move 0 50 20 21)", "(yes 3 2)"),
            ("(activate 0 1)", "(no 30 2 1)"),
            ("(move 1 103 44 5)", "(yes 3 1)"),
            ("(move 0 50 20 19)", "(yes 3 0)"),
            ("(activate 0 1)", "(yes 1 0)"),
            ("(activate 1 2)", "(yes 1 0)"),
            ("(activate 1 3)", "(no 30 3 1)"),
            ("(lost 0)", "(yes 3 2)"),
        ],
    );
}

/// 20 comes before 23, and a refused move leaves the error that was there.
#[test]
fn errors_at_the_ends_of_their_range() {
    check_answers(
        &["(at 1 (inside (circle 0 0 1000)))"],
        &[
            ("(assign 5 1)", "(yes 0 0)"),
            ("(move 0 0 0 1000)", "(no 23 0 0)"),
            ("(move 0 0 0 1001)", "(no 20 0 0)"),
            ("(open 0 5)", "(yes 0 0)"),
            ("(move 0 0 0 1000)", "(yes 1 0)"),
            ("(activate 0 1)", "(yes 1 0)"),
            ("(move 0 0 0 1001)", "(no 20 0 0)"),
            ("(move 0 0 0 4294967297)", "(no 20 0 0)"),
            ("(move 0 0 0 9999999999)", "(no 20 0 0)"),
            ("(activate 0 1)", "(no 24 0 0)"),
            ("(move 0 999 0 1)", "(yes 1 0)"),
            ("(move 0 1000 0 1)", "(yes 1 1)"),
        ],
    );
}

#[test]
fn a_written_0_makes_the_input_bad() {
    let rules = ["(at 1 (inside (circle 0 0 5)))"];
    for error in ["0", "00", "01", "-1", "10000000000", "1 1"] {
        let step = format!("(move 0 3 4 {error})");
        assert_eq!(answers(&rules, &["(open 0 5)", &step]), ["(bad 10 4)"], "{error}");
    }
}
