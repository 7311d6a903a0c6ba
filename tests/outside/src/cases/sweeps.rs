//! A role for each term or shape, tried at many times or positions.

use crate::generate::random::Random;
use crate::plain::calendar::{Date, SECONDS_OF_DAY};
use crate::plain::ranges::{METRES, TIMES};
use std::fmt::Display;

pub struct Sweep {
    pub rules: Vec<u8>,
    pub state: Vec<u8>,
    /// The steps, in pieces that are not too long to be read.
    pub pieces: Vec<Vec<u8>>,
}

const TERMS: [&str; 32] = [
    "(dates 20000101 20000101)",
    "(dates 20991231 20991231)",
    "(dates 20000101 20991231)",
    "(dates 20000228 20000301)",
    "(dates 20240229 20240229)",
    "(dates 20500101 20501231)",
    "(week 1 5 0700 1900)",
    "(week 5 5 2200 0600)",
    "(week 6 2 0000 2400)",
    "(week 7 7 2359 0001)",
    "(week 3 3 0000 0001)",
    "(week 1 7 2359 2400)",
    "(week 7 1 1200 1159)",
    "(months 1 1)",
    "(months 2 2)",
    "(months 12 12)",
    "(months 12 1)",
    "(months 11 2)",
    "(months 3 10)",
    "(months 6 5)",
    "(nth 1 1)",
    "(nth 2 1)",
    "(nth 3 6)",
    "(nth 4 4)",
    "(nth 5 7)",
    "(nth 5 1)",
    "(every 1 20000101)",
    "(every 2 20000229)",
    "(every 7 20260608)",
    "(every 365 20000101)",
    "(every 366 20040229)",
    "(every 1000 20130131)",
];

const SIDES: [&str; 32] = [
    "(inside (circle 0 0 1))",
    "(inside (circle 0 0 2))",
    "(inside (circle 0 0 5))",
    "(outside (circle 0 0 5))",
    "(inside (circle 3 -2 4))",
    "(outside (circle -3 2 6))",
    "(inside (circle 7 7 7))",
    "(outside (circle -7 7 8))",
    "(inside (circle 100000 0 100000))",
    "(outside (circle 0 -100000 100000))",
    "(inside (circle 99998 3 100000))",
    "(inside (circle 1000000 1000000 100000))",
    "(outside (circle -1000000 -1000000 100000))",
    "(inside (circle 1000000 -1000000 1))",
    "(outside (circle -1000000 1000000 1))",
    "(inside (circle 0 0 100000))",
    "(inside (box 0 0 0 0))",
    "(outside (box 0 0 0 0))",
    "(inside (box -3 -2 4 5))",
    "(outside (box -3 -2 4 5))",
    "(inside (box -8 0 8 0))",
    "(outside (box 0 -8 0 8))",
    "(inside (box -5 -5 -1 -1))",
    "(outside (box 1 1 5 5))",
    "(inside (box -1000000 -1000000 1000000 1000000))",
    "(outside (box -1000000 -1000000 1000000 1000000))",
    "(inside (box -1000000 -1000000 -1000000 -1000000))",
    "(inside (box 1000000 1000000 1000000 1000000))",
    "(outside (box -999999 -999999 999999 999999))",
    "(inside (box 0 -1000000 1000000 1000000))",
    "(outside (box -1000000 0 1000000 1000000))",
    "(inside (box -7 -7 7 7))",
];

const RANDOM_TIMES: usize = 1500;
const EVENTS_OF_A_PIECE: usize = 100;

pub fn calendar_sweep() -> Sweep {
    let times = times();
    sweep("during", &TERMS, times.iter().map(|time| format!("(clock {time})\n")))
}

pub fn place_sweep() -> Sweep {
    let moves = positions().into_iter().map(|(x, y)| format!("(move 0 {x} {y})\n"));
    sweep("at", &SIDES, moves)
}

/// At each event the roles that may stay do, and all others are tried.
pub fn sweep(family: &str, fields: &[impl Display], events: impl Iterator<Item = String>) -> Sweep {
    let roles = 0..fields.len();
    let numbered = fields.iter().enumerate();
    let rules =
        numbered.map(|(role, field)| format!("(rule {} ({family} {role} {field}))\n", role + 1));
    let assigned = roles.clone().map(|role| format!("(assigned 0 {role})\n"));
    let tries: String = roles.map(|role| format!("(activate 0 {role})\n")).collect();
    let state = format!("(now 0)\n{}(open 0 0)\n", assigned.collect::<String>());
    let steps: Vec<String> = events.map(|event| event + &tries).collect();
    let pieces = steps.chunks(EVENTS_OF_A_PIECE).map(|piece| piece.concat().into_bytes());
    Sweep {
        rules: rules.collect::<String>().into_bytes(),
        state: state.into_bytes(),
        pieces: pieces.collect(),
    }
}

/// The start of each month with the second before it, the leap days, and
/// some times of no note; ascending.
fn times() -> Vec<i64> {
    let mut times = vec![*TIMES.start(), *TIMES.end()];
    for year in 2000..=2099 {
        for month in 1..=12 {
            let start = Date { year, month, day_of_month: 1 }.day() * SECONDS_OF_DAY;
            times.extend([start - 1, start]);
        }
        let february_end = Date { year, month: 2, day_of_month: 28 }.day() * SECONDS_OF_DAY;
        times.extend([february_end, february_end + SECONDS_OF_DAY]);
    }
    let mut random = Random::new(0);
    times.extend((0..RANDOM_TIMES).map(|_| random.between(*TIMES.start(), *TIMES.end())));
    times.extend(minutes_of_a_week());
    times.retain(|time| TIMES.contains(time));
    times.sort_unstable();
    times
}

/// Each hour of the week of 2026-06-08, with the minute before and after it.
fn minutes_of_a_week() -> impl Iterator<Item = i64> {
    let monday = 9655 * SECONDS_OF_DAY;
    (0..7 * 24)
        .flat_map(move |hour| [-60, -1, 0, 59, 60].map(|second| monday + hour * 3600 + second))
}

/// A grid about the origin, and the ends of the ranges.
fn positions() -> Vec<(i64, i64)> {
    let mut positions = grid(&Vec::from_iter(-9..=9));
    let (start, end) = (*METRES.start(), *METRES.end());
    positions.extend(grid(&[
        start,
        start + 1,
        -100_000,
        -1,
        0,
        1,
        99_999,
        100_000,
        100_001,
        end - 1,
        end,
    ]));
    positions.extend([(60_000, 80_000), (60_000, 80_001), (-80_000, 60_000), (-80_001, 60_000)]);
    positions
}

pub fn grid(values: &[i64]) -> Vec<(i64, i64)> {
    values.iter().flat_map(|&x| values.iter().map(move |&y| (x, y))).collect()
}
