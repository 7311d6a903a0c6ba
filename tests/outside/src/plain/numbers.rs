//! Numbers as they are written, and whether each is in its range.

use super::calendar::Date;
use super::form::Form;
use super::places::{Position, Reported};
use super::ranges::{ERRORS, METRES, YEARS};
use std::ops::RangeInclusive;

const MOST_DIGITS: usize = 10;

/// "no leading zeros", "at most 10 digits"
pub fn whole(form: &Form) -> Option<i64> {
    whole_word(form.word()?)
}

/// "a minus only before x, y and box ends, never before 0"
pub fn signed(form: &Form) -> Option<i64> {
    let word = form.word()?;
    match word.strip_prefix('-') {
        Some("0") => None,
        Some(digits) => whole_word(digits).map(|value| -value),
        None => whole_word(word),
    }
}

/// What stands after x and y. 2026-04: "left out means 0, and a written 0 is 10"
pub fn error(fields: &[Form]) -> Option<i64> {
    match fields {
        [] => Some(0),
        [error] => whole(error).filter(|&error| error != 0),
        _ => None,
    }
}

fn whole_word(word: &str) -> Option<i64> {
    let leading_zero = word.len() > 1 && word.starts_with('0');
    let length_is_good = (1..=MOST_DIGITS).contains(&word.len());
    (length_is_good && !leading_zero).then(|| digits_word(word)).flatten()
}

fn fixed(form: &Form, length: usize) -> Option<i64> {
    form.word().filter(|word| word.len() == length).and_then(digits_word)
}

fn digits_word(word: &str) -> Option<i64> {
    let only_digits = word.bytes().all(|byte| byte.is_ascii_digit());
    only_digits.then(|| word.parse().expect("at most 10 digits"))
}

/// Reads the numbers of one line. None is a 10; a number outside its range is
/// only remembered, since the whole line must be a form before 11 is asked.
#[derive(Default)]
pub struct Numbers {
    pub outside: bool,
}

impl Numbers {
    pub fn whole(&mut self, form: &Form, range: RangeInclusive<i64>) -> Option<i64> {
        whole(form).map(|value| self.ranged(value, range))
    }

    pub fn position(&mut self, x: &Form, y: &Form) -> Option<Position> {
        let (x, y) = (signed(x)?, signed(y)?);
        Some(Position { x: self.ranged(x, METRES), y: self.ranged(y, METRES) })
    }

    pub fn reported(&mut self, x: &Form, y: &Form, after: &[Form]) -> Option<Reported> {
        let position = self.position(x, y)?;
        Some(Reported { position, error: self.ranged(error(after)?, ERRORS) })
    }

    pub fn date(&mut self, form: &Form) -> Option<Date> {
        let digits = fixed(form, 8)?;
        let year = self.ranged(digits / 10_000, YEARS);
        Some(Date { year, month: digits / 100 % 100, day_of_month: digits % 100 })
    }

    /// hhmm as a minute of the day
    pub fn clock(&mut self, form: &Form, range: RangeInclusive<i64>) -> Option<i64> {
        let digits = self.ranged(fixed(form, 4)?, range);
        let minutes = self.ranged(digits % 100, 0..=59);
        Some(digits / 100 * 60 + minutes)
    }

    fn ranged(&mut self, value: i64, range: RangeInclusive<i64>) -> i64 {
        self.outside |= !range.contains(&value);
        value
    }
}
