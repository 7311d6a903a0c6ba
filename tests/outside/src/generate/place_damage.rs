//! Damaged moves and places: the fourth number (2026-04) written, dropped, or written anew.

use super::damage::{replaced, runs};
use super::random::Random;
use std::ops::Range;

/// As an error may be written, well or badly, with the space before it.
pub const WRITTEN_ERRORS: [&str; 26] = [
    "",
    " 0",
    " 00",
    " 01",
    " 07",
    " 1",
    " 2",
    " 5",
    " 999",
    " 1000",
    " 1001",
    " 01000",
    " 1025",
    " 9999",
    " 65537",
    " 1000000",
    " 4294967297",
    " 9999999999",
    " 10000000000",
    " 18446744073709551617",
    " -1",
    " -0",
    " +1",
    " 1 1",
    "  1",
    " 1 ",
];

/// Another error takes the place of that of a move or place, or of none.
pub fn error_written(random: &mut Random, text: &[u8]) -> Vec<u8> {
    let Some(place) = any_place(random, text) else { return text.to_vec() };
    let written = *random.pick(&WRITTEN_ERRORS);
    replaced(text, place.error, written.as_bytes())
}

/// A move or place loses its error.
pub fn error_dropped(random: &mut Random, text: &[u8]) -> Vec<u8> {
    let mut places = places(text);
    places.retain(|place| !place.error.is_empty());
    match random.pick_any(&Vec::from_iter(&places)) {
        Some(place) => replaced(text, place.error.clone(), b""),
        None => text.to_vec(),
    }
}

/// A move or place stands once more after itself, with another error: "twice", "whatever its
/// other numbers".
pub fn place_repeated(random: &mut Random, text: &[u8]) -> Vec<u8> {
    let Some(place) = any_place(random, text) else { return text.to_vec() };
    let start = &text[place.line.start..place.error.start];
    let written = *random.pick(&["", " 1", " 7", " 1000"]);
    let again = [start, written.as_bytes(), b")\n"].concat();
    let after = (place.line.end + 1).min(text.len());
    replaced(text, after..after, &again)
}

struct Place {
    line: Range<usize>,
    /// The fourth number with the space before it, or nothing before the closing parenthesis.
    error: Range<usize>,
}

fn any_place(random: &mut Random, text: &[u8]) -> Option<Place> {
    let mut places = places(text);
    (!places.is_empty()).then(|| places.swap_remove(random.below(places.len())))
}

fn places(text: &[u8]) -> Vec<Place> {
    runs(text, |byte| byte != b'\n').into_iter().filter_map(|line| place(text, line)).collect()
}

/// The line with where its error stands, if it is a move or place with three numbers or more.
fn place(text: &[u8], line: Range<usize>) -> Option<Place> {
    let bytes = &text[line.clone()];
    if !bytes.starts_with(b"(move ") && !bytes.starts_with(b"(place ") {
        return None;
    }
    let end = line.end - usize::from(bytes.ends_with(b")"));
    let spaces = line.clone().filter(|&index| text[index] == b' ');
    match Vec::from_iter(spaces)[..] {
        [_, _, _] => Some(Place { line, error: end..end }),
        [_, _, _, before_error, ..] => Some(Place { line, error: before_error..end }),
        _ => None,
    }
}
