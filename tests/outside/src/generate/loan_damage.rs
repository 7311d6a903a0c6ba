//! Damaged loans of a saved state.

use super::damage::{at_any_number, lines_that_start, numbers, replaced, runs};
use super::random::Random;

/// A number of a saved loan becomes another of the lines that loans stand on, or one beside it.
pub fn loan_changed(random: &mut Random, text: &[u8]) -> Vec<u8> {
    let loans = lines_that_start(text, b"(loan ");
    let Some(loan) = random.pick_any(&Vec::from_iter(&loans)) else { return text.to_vec() };
    let value = number_of_a_loan(random, text);
    let changed = at_any_number(random, &text[loan.clone()], |_, _| value.to_string().into_bytes());
    replaced(text, loan.clone(), &changed)
}

/// A loan of an assigned role, or one that is there with another end; most of the time where its
/// key puts it.
pub fn loan_added(random: &mut Random, text: &[u8]) -> Vec<u8> {
    let Some(key) = key_of_a_loan(random, text) else { return text.to_vec() };
    let until = if random.percent(50) { 3_155_759_999 } else { number_of_a_loan(random, text) };
    let place = if random.percent(90) { place_of_a_loan(text, &key) } else { text.len() };
    let [lender, borrower, role] = key;
    let added = format!("(loan {lender} {borrower} {role} {until})\n");
    replaced(text, place..place, added.as_bytes())
}

fn key_of_a_loan(random: &mut Random, text: &[u8]) -> Option<[u64; 3]> {
    let start: &[u8] = if random.percent(20) { b"(loan " } else { b"(assigned " };
    let line = random.pick_any(&Vec::from_iter(&lines_that_start(text, start)))?.clone();
    match values(&text[line])[..] {
        [lender, borrower, role, _] => Some([lender, borrower, role]),
        [lender, role] => Some([lender, any_borrower(random, text, role), role]),
        _ => None,
    }
}

/// Any user, or one who may hold the role already.
fn any_borrower(random: &mut Random, text: &[u8], role: u64) -> u64 {
    let loans = lines_that_start(text, b"(loan ").into_iter().map(|loan| values(&text[loan]));
    let borrowers: Vec<u64> =
        loans.filter(|loan| loan.get(2) == Some(&role)).map(|loan| loan[1]).collect();
    match random.below(4) {
        0 => number_of_a_loan(random, text),
        1 if !borrowers.is_empty() => *random.pick(&borrowers),
        _ => random.below(64) as u64,
    }
}

/// Before the first loan that is not below the key, or else before the sessions.
fn place_of_a_loan(text: &[u8], key: &[u64]) -> usize {
    let mut lines = runs(text, |byte| byte != b'\n').into_iter();
    let next = lines.find(|line| match &text[line.clone()] {
        [b'(', b'o' | b'd', ..] => true,
        loan @ [b'(', b'l', ..] => &values(loan)[..] >= key,
        _ => false,
    });
    next.map_or(text.len(), |line| line.start)
}

/// A number of the time, of an assigned role or of a loan, or one beside it.
fn number_of_a_loan(random: &mut Random, text: &[u8]) -> u64 {
    let starts: [&[u8]; 3] = [b"(now ", b"(assigned ", b"(loan "];
    let lines = lines_that_start(text, *random.pick(&starts));
    let Some(line) = random.pick_any(&Vec::from_iter(&lines)) else { return 0 };
    let value = random.pick_any(&values(&text[line.clone()])).unwrap_or(0);
    match random.below(3) {
        0 => value.saturating_sub(1),
        1 => value,
        _ => value + 1,
    }
}

fn values(line: &[u8]) -> Vec<u64> {
    let digits = numbers(line).into_iter().map(|number| String::from_utf8_lossy(&line[number]));
    digits.map(|digits| digits.parse().unwrap_or(0)).collect()
}
