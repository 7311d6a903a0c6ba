//! Damaged right lines and steps with `by` (2026-05).

use super::damage::{lines_that_start, replaced, runs};
use super::random::Random;
use std::ops::Range;

/// The kinds of a right line in their order, then words that are none.
pub const KINDS_WRITTEN: [&str; 10] =
    ["assign", "withdraw", "grant", "take", "lend", "recall", "clock", "by", "Assign", "rule"];

/// As a permission or a session may be written, well or badly.
pub const NUMBERS_WRITTEN: [&str; 19] = [
    "0",
    "1",
    "30",
    "31",
    "32",
    "33",
    "255",
    "4294967296",
    "9999999999",
    "10000000000",
    "18446744073709551616",
    "00",
    "05",
    "-1",
    "-0",
    "+1",
    "",
    "4 4",
    " 4",
];

/// `by` as it may stand before a step, which takes the place of the `#`: once well, then badly.
pub const ACTING_WRITTEN: [&str; 13] = [
    "(by 4 #)",
    "(by 4 #",
    "(by 4 #))",
    "(by 4 # )",
    "(by 4  #)",
    "(by  4 #)",
    "(by 4#)",
    "(by #)",
    "(by # 4)",
    "(by 4 # #)",
    "(by 4)",
    "(By 4 #)",
    "(4 #)",
];

/// A right line of any kind stands at any place before the steps.
pub fn right_added(random: &mut Random, text: &[u8]) -> Vec<u8> {
    let kind = *random.pick(&KINDS_WRITTEN);
    let number = *random.pick(&NUMBERS_WRITTEN[..9]);
    let lines = runs(text, |byte| byte != b'\n').into_iter();
    let list = lines.take_while(|line| &text[line.clone()] != b"(steps)");
    let mut places: Vec<usize> = list.map(|line| line.start).collect();
    places.push(places.last().map_or(0, |last| line_end(text, *last)));
    let place = *random.pick(&places);
    replaced(text, place..place, format!("(right {kind} {number})\n").as_bytes())
}

/// A right line stands once more right after itself or behind all of them: "second of its kind".
pub fn right_repeated(random: &mut Random, text: &[u8]) -> Vec<u8> {
    let rights = lines_that_start(text, b"(right ");
    let Some(right) = random.pick_any(&Vec::from_iter(&rights)) else { return text.to_vec() };
    let last = rights.last().expect("there is a right line");
    let after = if random.percent(50) { right } else { last };
    let place = line_end(text, after.start);
    let again = [&text[right.clone()], b"\n"].concat();
    replaced(text, place..place, &again)
}

/// A right line goes to the place of another line: "out of order or after a rule".
pub fn right_moved(random: &mut Random, text: &[u8]) -> Vec<u8> {
    let rights = lines_that_start(text, b"(right ");
    let Some(right) = random.pick_any(&Vec::from_iter(&rights)) else { return text.to_vec() };
    let line = [&text[right.clone()], b"\n"].concat();
    let without = replaced(text, right.start..line_end(text, right.start), b"");
    let others = runs(&without, |byte| byte != b'\n');
    let mut places: Vec<usize> = others.iter().map(|other| other.start).collect();
    places.push(without.len());
    let near = 8.min(places.len());
    let place = *random.pick(&places[..near]);
    replaced(&without, place..place, &line)
}

/// The kind or the permission of a right line is another.
pub fn right_changed(random: &mut Random, text: &[u8]) -> Vec<u8> {
    let rights = lines_that_start(text, b"(right ");
    let Some(right) = random.pick_any(&Vec::from_iter(&rights)) else { return text.to_vec() };
    let line = String::from_utf8_lossy(&text[right.clone()]).into_owned();
    let [_, kind, number] = line.trim_end_matches(')').splitn(3, ' ').collect::<Vec<_>>()[..]
    else {
        return text.to_vec();
    };
    let changed = if random.percent(50) {
        format!("(right {} {number})", random.pick(&KINDS_WRITTEN))
    } else {
        format!("(right {kind} {})", random.pick(&NUMBERS_WRITTEN))
    };
    replaced(text, right.clone(), changed.as_bytes())
}

/// `by` before a step of any kind, one that has it included.
pub fn acting_added(random: &mut Random, text: &[u8]) -> Vec<u8> {
    let Some(step) = any_step(random, text) else { return text.to_vec() };
    let session = random.below(34);
    let acting = [format!("(by {session} ").as_bytes(), &text[step.clone()], b")"].concat();
    replaced(text, step, &acting)
}

/// The session before a step is another, or what stands about it is not well written.
pub fn acting_changed(random: &mut Random, text: &[u8]) -> Vec<u8> {
    let acting = lines_that_start(text, b"(by ");
    let Some(step) = random.pick_any(&Vec::from_iter(&acting)) else { return text.to_vec() };
    let line = String::from_utf8_lossy(&text[step.clone()]).into_owned();
    let Some((_, action)) = line.trim_end_matches(')').split_once(" (") else {
        return text.to_vec();
    };
    let changed = if random.percent(50) {
        format!("(by {} ({action}))", random.pick(&NUMBERS_WRITTEN))
    } else {
        random.pick(&ACTING_WRITTEN).replace('#', &format!("({action})"))
    };
    replaced(text, step.clone(), changed.as_bytes())
}

/// A step with `by` loses it.
pub fn acting_dropped(random: &mut Random, text: &[u8]) -> Vec<u8> {
    let acting = lines_that_start(text, b"(by ");
    let Some(step) = random.pick_any(&Vec::from_iter(&acting)) else { return text.to_vec() };
    let line = &text[step.clone()];
    let Some(start) = (1..line.len()).find(|&index| line[index] == b'(') else {
        return text.to_vec();
    };
    let action = line[start..].strip_suffix(b")").unwrap_or(&line[start..]);
    replaced(text, step.clone(), action)
}

/// A line after `(steps)`, or any line of a text that has no such line.
fn any_step(random: &mut Random, text: &[u8]) -> Option<Range<usize>> {
    let lines = runs(text, |byte| byte != b'\n');
    let steps_line = lines.iter().position(|line| &text[line.clone()] == b"(steps)");
    let steps = &lines[steps_line.map_or(0, |place| place + 1)..];
    random.pick_any(&Vec::from_iter(steps)).cloned()
}

/// The byte after the line feed of the line that starts here.
fn line_end(text: &[u8], start: usize) -> usize {
    let length = text[start..].iter().position(|&byte| byte == b'\n');
    length.map_or(text.len(), |length| start + length + 1)
}
