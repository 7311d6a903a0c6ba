//! Damaged policies of GEMRBAC-DSL (2026-06).

use super::damage::{
    at_any_byte, at_any_word, bit_flipped, byte_deleted, byte_inserted, byte_replaced, cut_short,
    digit_replaced, eleven_digits, empty, empty_line, leading_zero, line_doubled, line_dropped,
    line_moved_to_the_front, lines_swapped, lines_that_start, minus, no_last_line_feed,
    number_at_an_edge, number_by_one, number_dropped, number_repeated, numbers, replaced,
    space_doubled, ten_digits, Damage,
};
use super::random::Random;
use std::ops::Range;

/// Each with the numbers that it must earn now and then; 0 stands for none: the policies are
/// accepted, and mean something else.
pub const POLICY_DAMAGES: [(&str, Damage, &[u64]); 40] = [
    ("bit flipped", bit_flipped, &[55]),
    ("byte replaced", byte_replaced, &[55]),
    ("byte inserted", byte_inserted, &[55]),
    ("byte deleted", byte_deleted, &[55]),
    ("byte doubled", byte_doubled, &[55]),
    ("semicolon left out", semicolon_left_out, &[55]),
    ("semicolon doubled", semicolon_doubled, &[55]),
    ("line feed left out", line_feed_left_out, &[55]),
    ("no last line feed", no_last_line_feed, &[55]),
    ("carriage return before a line feed", carriage_return, &[55]),
    ("empty line", empty_line, &[55]),
    ("space left out", space_left_out, &[55]),
    ("space doubled", space_doubled, &[55]),
    ("colon left out", colon_left_out, &[55]),
    ("counted from 0", counted_from_0, &[11]),
    ("line number skipped", line_number_skipped, &[12]),
    ("line number repeated", line_number_repeated, &[12]),
    ("number just past its range", just_past_its_range, &[11]),
    ("number at an edge", number_at_an_edge, &[0, 11, 12]),
    ("number by one", number_by_one, &[0, 12]),
    ("number of the line repeated", number_repeated, &[0, 13]),
    ("digit replaced", digit_replaced, &[0, 12]),
    ("ten digits", ten_digits, &[11]),
    ("eleven digits", eleven_digits, &[55]),
    ("leading zero", leading_zero, &[55]),
    ("minus", minus, &[55]),
    ("number dropped", number_dropped, &[55]),
    ("roles equal", roles_equal, &[13]),
    ("roles swapped", roles_swapped, &[0]),
    ("limit and role swapped", limit_and_role_swapped, &[0, 11]),
    ("word replaced", word_replaced, &[55]),
    ("policy outside the five", outside_the_five, &[55]),
    ("line of our own", line_of_our_own, &[55]),
    ("line dropped", line_dropped, &[0, 12]),
    ("line doubled", line_doubled, &[12]),
    ("lines swapped", lines_swapped, &[12]),
    ("line moved to the front", line_moved_to_the_front, &[12]),
    ("line of the preamble", line_of_the_preamble, &[55]),
    ("cut short", cut_short, &[55]),
    ("empty", empty, &[0]),
];

/// Policies of the source that no rule of ours is like, or that leave out or add a part; and those
/// that have roles by a name.
pub const OUTSIDE_THE_FIVE: [&str; 29] = [
    "assign-role trainee prerequisite participant",
    "assign-permission p4 prerequisite p2",
    "assign-permission r4 prerequisite r2",
    "maxActiveRoles = 2 only-for-role r4",
    "maxUsers = 3",
    "maxUsers = 3 only-for-role assistant",
    "maxUsers = 3 only-for-role 4",
    "maxPermissions = 3",
    "maxPermissions = 3 only-for-role r4",
    "maxRoles-User = 5 only-for-user u3",
    "maxRoles-Permission = 5",
    "maxRoles-Permission = 5 only-for-permission p2",
    "enable trainee if active admin deactivation-dependency",
    "enable r4 if active r2",
    "enable r4 if active r2, after 2 hour",
    "enable r4 if active r2, after 2 hour deactivation-dependency",
    "trigger-role-hierarchy r4",
    "trigger-permission-hierarchy p4",
    "conflicting-roles-assignment r4, r2",
    "conflicting-users-assignment u4, u2 on role r3",
    "conflicting-roles-activation r4, r2",
    "conflicting-roles-activation r4, r2 on-same-object",
    "bounded-permissions p4, p2 role-BoD",
    "bounded-permissions p4, p2 subject-BoD",
    "role r4 can-delegate r4 to roles r2 as total, grant for 2 week, multistep 2",
    "role r4 can-revoke-delegation PL8 from roles r2 as weak, nonCascading",
    "role-context enable r4 @time [12 Feb 2016, 8 Jun 2016]",
    "role-context enable r4 @location 100 meters inside geofence Zone1",
    "permission-context enable p4 @location geofence Zone1",
];

/// Lines of the source that stand before its policies.
pub const PREAMBLE: [&str; 6] = [
    "policies:",
    "users: u1, u2;",
    "roles: r2, r4;",
    "permissions: p1;",
    "role-hierarchy: none;",
    "geofences: none;",
];

/// Lines of our own texts.
pub const OUR_OWN: [&str; 5] =
    ["(rule 1 (before 4 2))", "(rule 1 (max-roles 5))", "(right assign 30)", "(steps)", "(now 0)"];

/// Almost lines: a part is missing, doubled, moved or written otherwise.
pub const BADLY_WRITTEN: [&str; 52] = [
    "",
    ";",
    "PL1",
    "PL1:",
    "PL1:;",
    "PL1: ;",
    "PL1: maxRoles-User = 5",
    "PL1: maxRoles-User = 5;;",
    "PL1: maxRoles-User = 5; ",
    "PL1: maxRoles-User = 5 ;",
    "PL1: maxRoles-User = 5;\r",
    "PL1: maxRoles-User = 5.",
    "PL1: maxRoles-User = ;",
    "PL1: maxRoles-User =;",
    "PL1: maxRoles-User =5;",
    "PL1: maxRoles-User= 5;",
    "PL1: maxRoles-User=5;",
    "PL1: maxRoles-User 5;",
    "PL1: maxRoles-User : 5;",
    "PL1: maxRoles-User = r5;",
    "PL1: maxRoles-User = five;",
    "PL1: maxRoles-User = 5 5;",
    "PL1: maxRoles-User\t= 5;",
    "PL1: maxRoles-user = 5;",
    "PL1: maxRoles = 5;",
    "PL1: max-roles 5;",
    "PL1: (max-roles 5);",
    "PL1:maxRoles-User = 5;",
    "PL1:  maxRoles-User = 5;",
    " PL1: maxRoles-User = 5;",
    "PL1 : maxRoles-User = 5;",
    "PL 1: maxRoles-User = 5;",
    "PL1 maxRoles-User = 5;",
    "PL: maxRoles-User = 5;",
    "PL1:: maxRoles-User = 5;",
    "pl1: maxRoles-User = 5;",
    "L1: maxRoles-User = 5;",
    "1: maxRoles-User = 5;",
    "maxRoles-User = 5;",
    "PL1: maxRoles-User = 5; PL2: maxActiveRoles = 2;",
    "PL1: maxRoles-User = 5;PL2: maxActiveRoles = 2;",
    "PL1: assign-role 4 prerequisite 2;",
    "PL1: assign-role R4 prerequisite R2;",
    "PL1: assign-role r 4 prerequisite r 2;",
    "PL1: assign-role r4 r2;",
    "PL1: assign-role r4, r3 prerequisite r2;",
    "PL1: prerequisite r2 assign-role r4;",
    "PL1: maxUsers = r4 only-for-role 3;",
    "PL1: only-for-role r4 maxUsers = 3;",
    "PL1: enable r4 if r2 active deactivation-dependency;",
    "PL1: enable r4 if active r2 deactivation-dependency deactivation-dependency;",
    "PL1: maxRoles-User = \u{665};",
];

const WORDS: [&str; 17] = [
    "PL",
    "pl",
    "r",
    "p",
    "assign-role",
    "prerequisite",
    "maxUsers",
    "maxusers",
    "maxPermissions",
    "only-for-role",
    "maxRoles-User",
    "maxActiveRoles",
    "enable",
    "if",
    "active",
    "deactivation-dependency",
    "activation-dependency",
];

fn byte_doubled(random: &mut Random, text: &[u8]) -> Vec<u8> {
    let mut damaged = text.to_vec();
    if !text.is_empty() {
        let index = random.below(text.len());
        damaged.insert(index, text[index]);
    }
    damaged
}

fn semicolon_left_out(random: &mut Random, text: &[u8]) -> Vec<u8> {
    at_any_byte(random, text, b';', b"")
}

fn semicolon_doubled(random: &mut Random, text: &[u8]) -> Vec<u8> {
    at_any_byte(random, text, b';', b";;")
}

fn line_feed_left_out(random: &mut Random, text: &[u8]) -> Vec<u8> {
    at_any_byte(random, text, b'\n', b"")
}

fn carriage_return(random: &mut Random, text: &[u8]) -> Vec<u8> {
    at_any_byte(random, text, b'\n', b"\r\n")
}

fn space_left_out(random: &mut Random, text: &[u8]) -> Vec<u8> {
    at_any_byte(random, text, b' ', b"")
}

fn colon_left_out(random: &mut Random, text: &[u8]) -> Vec<u8> {
    at_any_byte(random, text, b':', b"")
}

fn counted_from_0(_: &mut Random, text: &[u8]) -> Vec<u8> {
    counted_on(text, &line_numbers(text), -1)
}

/// The numbers of the lines from one on are too high by one.
fn line_number_skipped(random: &mut Random, text: &[u8]) -> Vec<u8> {
    let numbers = line_numbers(text);
    let first = random.below(numbers.len() + 1);
    counted_on(text, &numbers[first..], 1)
}

/// The numbers of the lines from one on, which is not the first, are too low by one.
fn line_number_repeated(random: &mut Random, text: &[u8]) -> Vec<u8> {
    let numbers = line_numbers(text);
    let first = 1 + random.below(numbers.len().max(1));
    counted_on(text, numbers.get(first..).unwrap_or_default(), -1)
}

fn counted_on(text: &[u8], numbers: &[Range<usize>], by: i64) -> Vec<u8> {
    let from_the_last = numbers.iter().rev();
    from_the_last.fold(text.to_vec(), |text, number| {
        let digits = String::from_utf8_lossy(&text[number.clone()]).into_owned();
        let counted = digits.parse().unwrap_or(0) + by;
        replaced(&text, number.clone(), counted.to_string().as_bytes())
    })
}

fn line_numbers(text: &[u8]) -> Vec<Range<usize>> {
    let numbers = numbers(text).into_iter();
    numbers.filter(|number| text[..number.start].ends_with(b"PL")).collect()
}

fn just_past_its_range(random: &mut Random, text: &[u8]) -> Vec<u8> {
    let numbers = numbers(text);
    let Some(number) = random.pick_any(&Vec::from_iter(&numbers)) else { return text.to_vec() };
    let before = &text[..number.start];
    let past: &[u8] = if before.ends_with(b"PL") {
        b"129"
    } else if before.ends_with(b" r") {
        b"32"
    } else if before.ends_with(b"maxUsers = ") {
        b"65"
    } else {
        b"33"
    };
    replaced(text, number.clone(), past)
}

fn roles_equal(random: &mut Random, text: &[u8]) -> Vec<u8> {
    match random.pick_any(&Vec::from_iter(&two_roles(text))) {
        Some((earlier, later)) => replaced(text, later.clone(), &text[earlier.clone()]),
        None => text.to_vec(),
    }
}

fn roles_swapped(random: &mut Random, text: &[u8]) -> Vec<u8> {
    one_pair_swapped(random, text, &two_roles(text))
}

fn limit_and_role_swapped(random: &mut Random, text: &[u8]) -> Vec<u8> {
    one_pair_swapped(random, text, &pairs(text, b"maxUsers = ", b" only-for-role r"))
}

/// The roles of each line that has two.
fn two_roles(text: &[u8]) -> Vec<Pair> {
    pairs(text, b" r", b" r")
}

type Pair = (Range<usize>, Range<usize>);

/// Two numbers of a line, one right after the other, that stand behind these bytes.
fn pairs(text: &[u8], before_one: &[u8], before_other: &[u8]) -> Vec<Pair> {
    let numbers = numbers(text);
    let neighbours = numbers.windows(2).map(|two| (two[0].clone(), two[1].clone()));
    let is_wanted = |(one, other): &Pair| {
        let between = &text[one.end..other.start];
        let is_one_line = !between.contains(&b'\n');
        text[..one.start].ends_with(before_one) && between.ends_with(before_other) && is_one_line
    };
    neighbours.filter(is_wanted).collect()
}

fn one_pair_swapped(random: &mut Random, text: &[u8], pairs: &[Pair]) -> Vec<u8> {
    let Some((one, other)) = random.pick_any(&Vec::from_iter(pairs)) else { return text.to_vec() };
    let between = &text[one.end..other.start];
    let swapped = [&text[other.clone()], between, &text[one.clone()]].concat();
    replaced(text, one.start..other.end, &swapped)
}

fn word_replaced(random: &mut Random, text: &[u8]) -> Vec<u8> {
    at_any_word(random, text, &WORDS)
}

/// A line keeps its number and becomes another policy of the source.
fn outside_the_five(random: &mut Random, text: &[u8]) -> Vec<u8> {
    let numbers = line_numbers(text);
    let Some(number) = random.pick_any(&Vec::from_iter(&numbers)) else { return text.to_vec() };
    let end = text[number.end..].iter().position(|&byte| byte == b'\n');
    let end = end.map_or(text.len(), |length| number.end + length);
    let body = format!(": {};", random.pick(&OUTSIDE_THE_FIVE));
    replaced(text, number.end..end, body.as_bytes())
}

fn line_of_our_own(random: &mut Random, text: &[u8]) -> Vec<u8> {
    another_line(random, text, &OUR_OWN)
}

fn line_of_the_preamble(random: &mut Random, text: &[u8]) -> Vec<u8> {
    another_line(random, text, &PREAMBLE)
}

/// One of these takes the place of a line.
fn another_line(random: &mut Random, text: &[u8], others: &[&str]) -> Vec<u8> {
    match random.pick_any(&Vec::from_iter(&lines_that_start(text, b""))) {
        Some(line) => replaced(text, line.clone(), random.pick(others).as_bytes()),
        None => text.to_vec(),
    }
}
