//! Every number of every form, set to every value at an edge.

use super::damage::{numbers, replaced, EDGE_VALUES};

pub const RULE_LINES: [&str; 27] = [
    "(rule 1 (before 3 4))\n",
    "(rule 1 (max-users 3 4))\n",
    "(rule 1 (max-roles 3))\n",
    "(rule 1 (max-permissions 3 4))\n",
    "(rule 1 (max-active 3))\n",
    "(rule 1 (apart 3 4))\n",
    "(rule 1 (apart-active 3 4))\n",
    "(rule 1 (needs 3 4))\n",
    "(rule 1 (during 3 (dates 20240229 20240301)))\n",
    "(rule 1 (during 3 (week 1 5 0700 1900)))\n",
    "(rule 1 (during 3 (week 6 2 2200 0600)))\n",
    "(rule 1 (during 3 (months 11 2)))\n",
    "(rule 1 (during 3 (nth 2 1)))\n",
    "(rule 1 (during 3 (every 14 20260608)))\n",
    "(rule 1 (at 3 (inside (circle 10 20 30))))\n",
    "(rule 1 (at 3 (outside (circle -10 -20 30))))\n",
    "(rule 1 (at 3 (inside (box 10 20 30 40))))\n",
    "(rule 1 (at 3 (outside (box -40 -30 -20 -10))))\n",
    "(rule 1 (at 3 (inside (box -10 -20 30 40))))\n",
    "(rule 1 (two-hands 3 4))\n",
    "(rule 1 (same-hand 3 4))\n",
    "(right assign 3)\n",
    "(right withdraw 4)\n",
    "(right grant 5)\n",
    "(right take 6)\n",
    "(right lend 7)\n",
    "(right recall 8)\n",
];

/// All the forms of a saved state, and those that it may leave out.
pub const SAVED_TEXT: &str =
    "(now 5)\n(assigned 2 3)\n(assigned 6 4)\n(granted 3 7)\n(granted 4 8)\n\
    (loan 2 6 3 7)\n(loan 6 7 4 100)\n(open 1 2)\n(place 1 10 -20)\n(active 1 3)\n(open 9 6)\n\
    (place 9 -10 20 30)\n(active 9 3)\n(active 9 4)\n(did 5 7 2)\n(did 5 8 2)\n";

pub const STEP_LINES: [&str; 27] = [
    "(assign 1 2)\n",
    "(withdraw 1 2)\n",
    "(grant 1 2)\n",
    "(take 1 2)\n",
    "(open 1 2)\n",
    "(activate 1 2)\n",
    "(deactivate 1 2)\n",
    "(access 1 2 3)\n",
    "(finish 1)\n",
    "(close 1)\n",
    "(move 1 10 20)\n",
    "(move 1 -10 -20)\n",
    "(move 1 10 20 30)\n",
    "(move 9 -10 -20 5)\n",
    "(lost 1)\n",
    "(clock 100)\n",
    "(lend 1 2 3 4)\n",
    "(lend 2 7 3 100)\n",
    "(recall 1 2 3)\n",
    "(recall 2 6 3)\n",
    "(by 1 (assign 1 2))\n",
    "(by 9 (withdraw 1 2))\n",
    "(by 1 (grant 1 2))\n",
    "(by 9 (take 4 8))\n",
    "(by 1 (lend 2 7 3 100))\n",
    "(by 9 (recall 2 6 3))\n",
    "(by 2 (recall 1 2 3))\n",
];

/// The text with each of its numbers set to each value in turn.
pub fn number_edges(text: &str) -> Vec<Vec<u8>> {
    let text = text.as_bytes();
    let mut edges = Vec::new();
    for number in numbers(text) {
        let digits = &text[number.clone()];
        edges.extend(values(digits).iter().map(|value| replaced(text, number.clone(), value)));
    }
    edges
}

/// The text with each two of its numbers set to each two of a few values, most
/// of them bad: which cause counts, and which line.
pub fn two_number_edges(text: &str) -> Vec<Vec<u8>> {
    const VALUES: [&[u8]; 7] = [b"1", b"4", b"32", b"129", b"-1", b"01", b"12345678901"];
    let text = text.as_bytes();
    let numbers = numbers(text);
    let mut edges = Vec::new();
    for (index, later) in numbers.iter().enumerate() {
        for value in VALUES {
            let changed = replaced(text, later.clone(), value);
            for earlier in &numbers[..index] {
                edges.extend(VALUES.map(|value| replaced(&changed, earlier.clone(), value)));
            }
        }
    }
    edges
}

/// Each line with each of its numbers set to each value in turn, inserted at
/// each place of the text.
pub fn lines_inserted(text: &str) -> Vec<Vec<u8>> {
    let lines: Vec<&[u8]> = text.as_bytes().split_inclusive(|&byte| byte == b'\n').collect();
    let mut texts = Vec::new();
    for inserted in text.split_inclusive('\n').flat_map(number_edges) {
        for place in 0..=lines.len() {
            texts.push(
                [lines[..place].concat(), inserted.clone(), lines[place..].concat()].concat(),
            );
        }
    }
    texts
}

fn values(digits: &[u8]) -> Vec<Vec<u8>> {
    let mut values: Vec<Vec<u8>> =
        EDGE_VALUES.iter().map(|value| value.to_string().into_bytes()).collect();
    let written: [&[u8]; 8] = [b"", b"-", b"-0", b"-1", b"00", b"01", b"+1", b"12345678901"];
    values.extend(written.iter().map(|value| value.to_vec()));
    values.push([b"0", digits].concat());
    values.push([b"-", digits].concat());
    values.push([digits, b" "].concat());
    match digits.len() {
        4 => values.extend(clocks()),
        8 => values.extend(dates()),
        _ => {}
    }
    values
}

fn clocks() -> impl Iterator<Item = Vec<u8>> {
    (0..=9999).map(|value| format!("{value:04}").into_bytes())
}

fn dates() -> impl Iterator<Item = Vec<u8>> {
    let years = [0, 1999, 2000, 2001, 2004, 2023, 2024, 2096, 2099, 2100, 9999];
    let months = years.into_iter().flat_map(|year| (0..=13).map(move |month| (year, month)));
    let days = months.flat_map(|(year, month)| (0..=32).map(move |day| (year, month, day)));
    days.map(|(year, month, day)| format!("{year:04}{month:02}{day:02}").into_bytes())
}
