//! Damaged texts: inputs, rule lists, saved states and steps alike.

use super::loan_damage::{loan_added, loan_changed};
use super::place_damage::{error_dropped, error_written, place_repeated};
use super::random::Random;
use super::right_damage::{
    acting_added, acting_changed, acting_dropped, right_added, right_changed, right_moved,
    right_repeated,
};
use std::ops::Range;

pub type Damage = fn(&mut Random, &[u8]) -> Vec<u8>;

pub const DAMAGES: [(&str, Damage); 38] = [
    ("bit flipped", bit_flipped),
    ("byte replaced", byte_replaced),
    ("byte inserted", byte_inserted),
    ("byte deleted", byte_deleted),
    ("line dropped", line_dropped),
    ("line doubled", line_doubled),
    ("lines swapped", lines_swapped),
    ("line moved to the front", line_moved_to_the_front),
    ("empty line", empty_line),
    ("space doubled", space_doubled),
    ("leading zero", leading_zero),
    ("minus", minus),
    ("minus dropped", minus_dropped),
    ("number at an edge", number_at_an_edge),
    ("number by one", number_by_one),
    ("number of the line repeated", number_repeated),
    ("digit replaced", digit_replaced),
    ("ten digits", ten_digits),
    ("eleven digits", eleven_digits),
    ("number dropped", number_dropped),
    ("word replaced", word_replaced),
    ("no last line feed", no_last_line_feed),
    ("cut short", cut_short),
    ("empty", empty),
    ("(steps) missing", steps_line_missing),
    ("(steps) added", steps_line_added),
    ("loan changed", loan_changed),
    ("loan added", loan_added),
    ("error of a place written", error_written),
    ("error of a place dropped", error_dropped),
    ("place repeated", place_repeated),
    ("right line added", right_added),
    ("right line repeated", right_repeated),
    ("right line moved", right_moved),
    ("right line changed", right_changed),
    ("by added", acting_added),
    ("by changed", acting_changed),
    ("by dropped", acting_dropped),
];

/// Values at and just past the ends of the ranges.
pub const EDGE_VALUES: [u64; 40] = [
    0,
    1,
    2,
    4,
    5,
    6,
    7,
    8,
    11,
    12,
    13,
    30,
    31,
    32,
    33,
    59,
    60,
    62,
    63,
    64,
    65,
    99,
    100,
    127,
    128,
    129,
    999,
    1000,
    1001,
    2359,
    2400,
    99_999,
    100_000,
    100_001,
    999_999,
    1_000_000,
    1_000_001,
    3_155_759_999,
    3_155_760_000,
    9_999_999_999,
];

const WORDS: [&str; 45] = [
    "rule",
    "before",
    "max-users",
    "max-roles",
    "max-permissions",
    "max-active",
    "apart",
    "apart-active",
    "needs",
    "during",
    "at",
    "inside",
    "outside",
    "circle",
    "box",
    "dates",
    "week",
    "months",
    "nth",
    "every",
    "two-hands",
    "same-hand",
    "now",
    "assigned",
    "granted",
    "place",
    "active",
    "did",
    "assign",
    "grant",
    "take",
    "open",
    "activate",
    "access",
    "finish",
    "close",
    "move",
    "lost",
    "clock",
    "loan",
    "lend",
    "recall",
    "withdraw",
    "right",
    "by",
];

/// The runs of bytes that the test accepts.
pub fn runs(text: &[u8], belongs: impl Fn(u8) -> bool) -> Vec<Range<usize>> {
    let mut found: Vec<Range<usize>> = Vec::new();
    for (index, &byte) in text.iter().enumerate() {
        match found.last_mut() {
            _ if !belongs(byte) => {}
            Some(run) if run.end == index => run.end += 1,
            _ => found.push(index..index + 1),
        }
    }
    found
}

pub fn numbers(text: &[u8]) -> Vec<Range<usize>> {
    runs(text, |byte| byte.is_ascii_digit())
}

pub fn lines_that_start(text: &[u8], start: &[u8]) -> Vec<Range<usize>> {
    let lines = runs(text, |byte| byte != b'\n');
    lines.into_iter().filter(|line| text[line.clone()].starts_with(start)).collect()
}

pub fn replaced(text: &[u8], range: Range<usize>, with: &[u8]) -> Vec<u8> {
    [&text[..range.start], with, &text[range.end..]].concat()
}

/// Where the byte stands, at one place of all, other bytes stand instead.
pub fn at_any_byte(random: &mut Random, text: &[u8], byte: u8, with: &[u8]) -> Vec<u8> {
    let places: Vec<usize> = (0..text.len()).filter(|&index| text[index] == byte).collect();
    match random.pick_any(&places) {
        Some(place) => replaced(text, place..place + 1, with),
        None => text.to_vec(),
    }
}

pub fn at_any_number(
    random: &mut Random,
    text: &[u8],
    change: impl Fn(&mut Random, &[u8]) -> Vec<u8>,
) -> Vec<u8> {
    let numbers = numbers(text);
    if numbers.is_empty() {
        return text.to_vec();
    }
    let number = random.pick(&numbers).clone();
    let changed = change(random, &text[number.clone()]);
    replaced(text, number, &changed)
}

fn with_lines(
    random: &mut Random,
    text: &[u8],
    change: impl Fn(&mut Random, &mut Vec<&[u8]>),
) -> Vec<u8> {
    let mut lines: Vec<&[u8]> = text.split_inclusive(|&byte| byte == b'\n').collect();
    if !lines.is_empty() {
        change(random, &mut lines);
    }
    lines.concat()
}

pub fn bit_flipped(random: &mut Random, text: &[u8]) -> Vec<u8> {
    let mut damaged = text.to_vec();
    if !text.is_empty() {
        damaged[random.below(text.len())] ^= 1 << random.below(8);
    }
    damaged
}

pub fn byte_replaced(random: &mut Random, text: &[u8]) -> Vec<u8> {
    let mut damaged = text.to_vec();
    if !text.is_empty() {
        damaged[random.below(text.len())] = any_byte(random);
    }
    damaged
}

pub fn byte_inserted(random: &mut Random, text: &[u8]) -> Vec<u8> {
    let mut damaged = text.to_vec();
    damaged.insert(random.below(text.len() + 1), any_byte(random));
    damaged
}

/// Half of the time a byte that stands in texts.
fn any_byte(random: &mut Random) -> u8 {
    if random.percent(50) {
        *random.pick(b"()- \n\r\t0123456789amz")
    } else {
        random.below(256) as u8
    }
}

pub fn byte_deleted(random: &mut Random, text: &[u8]) -> Vec<u8> {
    let mut damaged = text.to_vec();
    if !text.is_empty() {
        damaged.remove(random.below(text.len()));
    }
    damaged
}

pub fn line_dropped(random: &mut Random, text: &[u8]) -> Vec<u8> {
    with_lines(random, text, |random, lines| {
        lines.remove(random.below(lines.len()));
    })
}

pub fn line_doubled(random: &mut Random, text: &[u8]) -> Vec<u8> {
    with_lines(random, text, |random, lines| {
        let line = random.below(lines.len());
        lines.insert(line, lines[line]);
    })
}

pub fn lines_swapped(random: &mut Random, text: &[u8]) -> Vec<u8> {
    with_lines(random, text, |random, lines| {
        let (one, other) = (random.below(lines.len()), random.below(lines.len()));
        lines.swap(one, other);
    })
}

pub fn line_moved_to_the_front(random: &mut Random, text: &[u8]) -> Vec<u8> {
    with_lines(random, text, |random, lines| {
        let line = lines.remove(random.below(lines.len()));
        lines.insert(0, line);
    })
}

pub fn empty_line(random: &mut Random, text: &[u8]) -> Vec<u8> {
    with_lines(random, text, |random, lines| lines.insert(random.below(lines.len() + 1), b"\n"))
}

pub fn space_doubled(random: &mut Random, text: &[u8]) -> Vec<u8> {
    at_any_byte(random, text, b' ', b"  ")
}

pub fn leading_zero(random: &mut Random, text: &[u8]) -> Vec<u8> {
    at_any_number(random, text, |_, digits| [b"0", digits].concat())
}

pub fn minus(random: &mut Random, text: &[u8]) -> Vec<u8> {
    at_any_number(random, text, |_, digits| [b"-", digits].concat())
}

fn minus_dropped(random: &mut Random, text: &[u8]) -> Vec<u8> {
    at_any_byte(random, text, b'-', b"")
}

pub fn number_at_an_edge(random: &mut Random, text: &[u8]) -> Vec<u8> {
    at_any_number(random, text, |random, _| random.pick(&EDGE_VALUES).to_string().into_bytes())
}

pub fn number_by_one(random: &mut Random, text: &[u8]) -> Vec<u8> {
    at_any_number(random, text, |random, digits| {
        let value: u64 = String::from_utf8_lossy(digits).parse().unwrap_or(0);
        let near = if random.percent(50) { value + 1 } else { value.saturating_sub(1) };
        format!("{near:0width$}", width = digits.len()).into_bytes()
    })
}

/// A number of a line takes the place of another number of the same line.
pub fn number_repeated(random: &mut Random, text: &[u8]) -> Vec<u8> {
    let numbers = numbers(text);
    if numbers.len() < 2 {
        return text.to_vec();
    }
    let second = 1 + random.below(numbers.len() - 1);
    let (earlier, later) = (numbers[second - 1].clone(), numbers[second].clone());
    if text[earlier.end..later.start].contains(&b'\n') {
        return text.to_vec();
    }
    replaced(text, later, &text[earlier])
}

pub fn digit_replaced(random: &mut Random, text: &[u8]) -> Vec<u8> {
    at_any_number(random, text, |random, digits| {
        let mut digits = digits.to_vec();
        let index = random.below(digits.len());
        digits[index] = b'0' + random.below(10) as u8;
        digits
    })
}

pub fn ten_digits(random: &mut Random, text: &[u8]) -> Vec<u8> {
    at_any_number(random, text, |random, _| some_digits(random, 10))
}

pub fn eleven_digits(random: &mut Random, text: &[u8]) -> Vec<u8> {
    at_any_number(random, text, |random, _| some_digits(random, 11))
}

fn some_digits(random: &mut Random, length: usize) -> Vec<u8> {
    let first = b'1' + random.below(9) as u8;
    let rest = (1..length).map(|_| b'0' + random.below(10) as u8);
    std::iter::once(first).chain(rest).collect()
}

pub fn number_dropped(random: &mut Random, text: &[u8]) -> Vec<u8> {
    let numbers = numbers(text);
    match random.pick_any(&Vec::from_iter(&numbers)) {
        Some(number) if number.start > 0 => replaced(text, number.start - 1..number.end, b""),
        _ => text.to_vec(),
    }
}

fn word_replaced(random: &mut Random, text: &[u8]) -> Vec<u8> {
    at_any_word(random, text, &WORDS)
}

/// A word becomes one of these.
pub fn at_any_word(random: &mut Random, text: &[u8], others: &[&str]) -> Vec<u8> {
    let words = runs(text, |byte| byte.is_ascii_alphabetic() || byte == b'-');
    match random.pick_any(&Vec::from_iter(&words)) {
        Some(word) => replaced(text, word.clone(), random.pick(others).as_bytes()),
        None => text.to_vec(),
    }
}

pub fn no_last_line_feed(_: &mut Random, text: &[u8]) -> Vec<u8> {
    text.strip_suffix(b"\n").unwrap_or(text).to_vec()
}

pub fn cut_short(random: &mut Random, text: &[u8]) -> Vec<u8> {
    text[..random.below(text.len() + 1)].to_vec()
}

pub fn empty(_: &mut Random, _: &[u8]) -> Vec<u8> {
    Vec::new()
}

fn steps_line_missing(random: &mut Random, text: &[u8]) -> Vec<u8> {
    with_lines(random, text, |_, lines| lines.retain(|line| *line != b"(steps)\n"))
}

fn steps_line_added(random: &mut Random, text: &[u8]) -> Vec<u8> {
    with_lines(random, text, |random, lines| {
        lines.insert(random.below(lines.len() + 1), b"(steps)\n");
    })
}
