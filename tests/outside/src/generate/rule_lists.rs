//! Accepted rule lists of every family, 0 to 128 rules, with and without right lines.

use super::random::Random;
use super::rights::some_rights;
use super::world::World;
use crate::plain::calendar::{minute_of_day, weekday, Date, Term, SECONDS_OF_DAY};
use crate::plain::places::{Position, Shape, Side};
use crate::plain::ranges::{METRES, RADII, TIMES};
use crate::plain::rules::{Rule, RuleList};

pub const FAMILIES: usize = 12;
pub const BEFORE: usize = 0;
pub const MAX_USERS: usize = 1;
pub const MAX_ROLES: usize = 2;
pub const MAX_ACTIVE: usize = 4;
pub const NEEDS: usize = 7;
const DURING: usize = 8;
const AT: usize = 9;
const LAST_DAY: i64 = 36_524;
const MINUTES_OF_DAY: i64 = 1440;

pub fn rule_list(random: &mut Random, world: &World) -> RuleList {
    let rules = some_rules(random, world);
    RuleList { rights: some_rights(random, world), rules }
}

pub fn some_rules(random: &mut Random, world: &World) -> Vec<Rule> {
    if random.percent(30) {
        chain(random, world)
    } else {
        mixed(random, world)
    }
}

/// Each role needs the one before, and the first can end by itself; with a few
/// other rules in between.
fn chain(random: &mut Random, world: &World) -> Vec<Rule> {
    let role = world.roles[0];
    let first = if random.percent(40) {
        Rule::During { role, term: term(random, world.start) }
    } else {
        Rule::At { role, side: side(random) }
    };
    let links = world.roles.windows(2).take(8);
    let mut rules: Vec<Rule> =
        links.map(|pair| Rule::Needs { role: pair[1], needed: pair[0] }).collect();
    rules.insert(random.below(rules.len() + 1), first);
    for _ in 0..random.below(3) {
        let family = random.below(FAMILIES);
        insert_rule(random, world, &mut rules, family);
    }
    rules
}

/// A rule of the family goes to any place.
pub fn insert_rule(random: &mut Random, world: &World, rules: &mut Vec<Rule>, family: usize) {
    let place = random.below(rules.len() + 1);
    rules.insert(place, rule(random, world, family));
}

fn mixed(random: &mut Random, world: &World) -> Vec<Rule> {
    let families = families(random);
    rules_of(random, world, &families)
}

/// Rules of these families alone, 0 to 128 of them.
pub fn rules_of(random: &mut Random, world: &World, families: &[usize]) -> Vec<Rule> {
    let length = length(random);
    let rules = (0..length).map(|_| {
        let family = *random.pick(families);
        rule(random, world, family)
    });
    rules.collect()
}

/// Every family, those that end active roles, or a few, so that a short list
/// has rules that meet.
fn families(random: &mut Random) -> Vec<usize> {
    match random.below(10) {
        0..=2 => (0..FAMILIES).collect(),
        3..=5 => vec![NEEDS, NEEDS, DURING, AT],
        _ => {
            let length = 1 + random.below(4);
            (0..length).map(|_| random.below(FAMILIES)).collect()
        }
    }
}

fn length(random: &mut Random) -> usize {
    match random.below(100) {
        0..=4 => 0,
        5..=74 => 1 + random.below(7),
        75..=89 => 8 + random.below(23),
        90..=96 => 31 + random.below(98),
        _ => 128,
    }
}

pub fn any_rule(random: &mut Random, world: &World) -> Rule {
    let family = random.below(FAMILIES);
    rule(random, world, family)
}

fn rule(random: &mut Random, world: &World, family: usize) -> Rule {
    let (role, other) = world.two_roles(random);
    let (permission, other_permission) = world.two_permissions(random);
    match family {
        BEFORE => Rule::Before { role, required: other },
        MAX_USERS => Rule::MaxUsers { role, limit: limit(random, 64) },
        MAX_ROLES => Rule::MaxRoles { limit: limit(random, 32) },
        3 => Rule::MaxPermissions { role, limit: limit(random, 32) },
        MAX_ACTIVE => Rule::MaxActive { limit: limit(random, 32) },
        5 => Rule::Apart { role, other },
        6 => Rule::ApartActive { role, other },
        NEEDS => needs(random, role, other),
        DURING => Rule::During { role, term: term(random, world.start) },
        AT => Rule::At { role, side: side(random) },
        10 => Rule::TwoHands { permission, other: other_permission },
        _ => Rule::SameHand { permission, other: other_permission },
    }
}

/// Mostly of a lower role, so that chains are more frequent than circles.
fn needs(random: &mut Random, one: i64, other: i64) -> Rule {
    if random.percent(80) {
        Rule::Needs { role: one.max(other), needed: one.min(other) }
    } else {
        Rule::Needs { role: one, needed: other }
    }
}

fn limit(random: &mut Random, most: i64) -> i64 {
    match random.below(20) {
        0 => 0,
        1 => most,
        2..=4 => random.between(0, most),
        _ => random.between(1, 3),
    }
}

fn term(random: &mut Random, time: i64) -> Term {
    let day = time / SECONDS_OF_DAY;
    match random.below(5) {
        0 => {
            let first = (day + random.between(-3, 2)).clamp(0, LAST_DAY);
            let last = (first + random.between(0, 4)).min(LAST_DAY);
            Term::Dates { first: Date::of_day(first), last: Date::of_day(last) }
        }
        1 => week(random, time),
        2 => {
            let month = Date::of_day(day).month;
            let first = wrapped(month + random.between(-1, 1), 12);
            Term::Months { first, last: wrapped(first + random.between(0, 11), 12) }
        }
        3 => nth(random, day),
        _ => every(random, day),
    }
}

fn week(random: &mut Random, time: i64) -> Term {
    let first = wrapped(weekday(time / SECONDS_OF_DAY) + random.between(-2, 1), 7);
    let last = wrapped(first + random.between(0, 6), 7);
    let near = minute_of_day(time);
    loop {
        let from = match random.below(4) {
            0 => 0,
            1 => random.between(0, MINUTES_OF_DAY - 1),
            _ => (near + random.between(-90, 30)).clamp(0, MINUTES_OF_DAY - 1),
        };
        let until = match random.below(4) {
            0 => MINUTES_OF_DAY,
            1 => random.between(1, MINUTES_OF_DAY),
            _ => (near + random.between(-30, 120)).clamp(1, MINUTES_OF_DAY),
        };
        if from != until {
            return Term::Week { first, last, from, until };
        }
    }
}

fn nth(random: &mut Random, day: i64) -> Term {
    let near = (day + random.between(-1, 2)).clamp(0, LAST_DAY);
    Term::Nth { week: (Date::of_day(near).day_of_month - 1) / 7 + 1, weekday: weekday(near) }
}

fn every(random: &mut Random, day: i64) -> Term {
    let interval = match random.below(5) {
        0 => random.between(1, 1000),
        1 => 1000,
        _ => random.between(1, 4),
    };
    let start = day + random.between(-2, 2) - interval * random.between(0, 3);
    Term::Every { interval, start: Date::of_day(start.clamp(0, LAST_DAY)) }
}

/// The number from 1 to `last` that is the same modulo `last`.
fn wrapped(number: i64, last: i64) -> i64 {
    (number - 1).rem_euclid(last) + 1
}

fn side(random: &mut Random) -> Side {
    let shape = if random.percent(50) { circle(random) } else { rectangle(random) };
    if random.percent(65) {
        Side::Inside(shape)
    } else {
        Side::Outside(shape)
    }
}

fn circle(random: &mut Random) -> Shape {
    let radius = match random.below(6) {
        0 => random.between(*RADII.start(), *RADII.end()),
        1 => *RADII.end(),
        _ => random.between(1, 60),
    };
    Shape::Circle { centre: centre(random), radius }
}

fn rectangle(random: &mut Random) -> Shape {
    let low = centre(random);
    let side = if random.percent(15) { 2_000_000 } else { random.between(0, 80) };
    let high = Position {
        x: metre(low.x + random.between(0, side)),
        y: metre(low.y + random.between(0, side)),
    };
    Shape::Box { low, high }
}

fn centre(random: &mut Random) -> Position {
    match random.below(8) {
        0 => Position { x: *METRES.start(), y: *METRES.end() },
        1 => Position {
            x: random.between(*METRES.start(), *METRES.end()),
            y: random.between(*METRES.start(), *METRES.end()),
        },
        _ => Position { x: random.between(-20, 20), y: random.between(-20, 20) },
    }
}

pub fn metre(value: i64) -> i64 {
    value.clamp(*METRES.start(), *METRES.end())
}

/// A time at, just before or just after which the term may change.
pub fn time_at_an_edge(random: &mut Random, term: &Term, now: i64) -> i64 {
    let day = now / SECONDS_OF_DAY + random.between(0, 2);
    let second = match *term {
        Term::Week { from, until, .. } => {
            day * SECONDS_OF_DAY + 60 * *random.pick(&[from, until, 0])
        }
        Term::Dates { first, last } => {
            SECONDS_OF_DAY * *random.pick(&[first.day(), last.day(), last.day() + 1])
        }
        Term::Every { interval, start } => {
            let past = (day - start.day()).max(0) / interval;
            SECONDS_OF_DAY * (start.day() + (past + random.between(0, 1)) * interval)
        }
        Term::Months { .. } => {
            SECONDS_OF_DAY * (day + 31 - Date::of_day(day).day_of_month + random.between(-2, 2))
        }
        Term::Nth { .. } => day * SECONDS_OF_DAY,
    };
    (second + random.between(-1, 1)).clamp(*TIMES.start(), *TIMES.end())
}
