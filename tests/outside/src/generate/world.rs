//! The numbers that rules and steps of one case draw from.

use super::random::Random;
use crate::plain::calendar::{Date, SECONDS_OF_DAY};
use crate::plain::ranges::{OBJECTS, PERMISSIONS, ROLES, SESSIONS, TIMES, USERS};
use std::ops::RangeInclusive;

pub struct World {
    pub users: Vec<i64>,
    pub roles: Vec<i64>,
    pub permissions: Vec<i64>,
    pub sessions: Vec<i64>,
    pub objects: Vec<i64>,
    /// Terms are drawn near this time.
    pub start: i64,
}

impl World {
    pub fn new(random: &mut Random) -> World {
        if random.percent(80) {
            World::dense(random)
        } else {
            World::wide(random)
        }
    }

    /// Few of each, so that rules bite.
    pub fn dense(random: &mut Random) -> World {
        World {
            users: few(random, USERS),
            roles: few(random, ROLES),
            permissions: few(random, PERMISSIONS),
            sessions: few(random, SESSIONS),
            objects: few(random, OBJECTS),
            start: start(random),
        }
    }

    pub fn wide(random: &mut Random) -> World {
        World {
            users: USERS.collect(),
            roles: ROLES.collect(),
            permissions: PERMISSIONS.collect(),
            sessions: SESSIONS.collect(),
            objects: OBJECTS.collect(),
            start: start(random),
        }
    }

    pub fn is_wide(&self) -> bool {
        self.users.len() == USERS.count()
    }

    pub fn two_roles(&self, random: &mut Random) -> (i64, i64) {
        two(random, &self.roles)
    }

    pub fn two_permissions(&self, random: &mut Random) -> (i64, i64) {
        two(random, &self.permissions)
    }
}

fn two(random: &mut Random, numbers: &[i64]) -> (i64, i64) {
    let first = random.below(numbers.len());
    let second = (first + 1 + random.below(numbers.len() - 1)) % numbers.len();
    (numbers[first], numbers[second])
}

/// Distinct numbers; now and then the ends of the range are among them.
fn few(random: &mut Random, range: RangeInclusive<i64>) -> Vec<i64> {
    let wanted = 2 + random.below(4);
    let mut numbers = Vec::new();
    if random.percent(30) {
        numbers.extend([*range.start(), *range.end()]);
    }
    while numbers.len() < wanted {
        let number = random.between(*range.start(), *range.end());
        if !numbers.contains(&number) {
            numbers.push(number);
        }
    }
    numbers.sort_unstable();
    numbers
}

fn start(random: &mut Random) -> i64 {
    match random.below(6) {
        0 => 0,
        1 => TIMES.end() - random.between(0, 3 * SECONDS_OF_DAY),
        2 => near_a_year_end(random),
        3 => near_the_end_of_february(random),
        _ => random.between(0, *TIMES.end()),
    }
}

fn near_a_year_end(random: &mut Random) -> i64 {
    let year = random.between(2001, 2099);
    let day = Date { year, month: 1, day_of_month: 1 }.day();
    day * SECONDS_OF_DAY + random.between(-SECONDS_OF_DAY, SECONDS_OF_DAY)
}

fn near_the_end_of_february(random: &mut Random) -> i64 {
    let year = random.between(2000, 2099);
    let day = Date { year, month: 2, day_of_month: 28 }.day();
    day * SECONDS_OF_DAY + random.between(0, 2 * SECONDS_OF_DAY)
}
