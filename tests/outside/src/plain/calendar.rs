//! "Calendar", and request 2026-03: which terms hold at a time.

use std::fmt;

pub const SECONDS_OF_DAY: i64 = 86_400;

#[derive(Clone, Debug, PartialEq, Eq)]
pub enum Term {
    Dates {
        first: Date,
        last: Date,
    },
    /// `from` and `until` are minutes of the day; `until` may be 1440 (2400).
    Week {
        first: i64,
        last: i64,
        from: i64,
        until: i64,
    },
    Months {
        first: i64,
        last: i64,
    },
    Nth {
        week: i64,
        weekday: i64,
    },
    Every {
        interval: i64,
        start: Date,
    },
}

/// As it is written, so it may name no day at all.
#[derive(Clone, Copy, Debug, PartialEq, Eq)]
pub struct Date {
    pub year: i64,
    pub month: i64,
    pub day_of_month: i64,
}

impl Term {
    pub fn holds(&self, time: i64) -> bool {
        let day = time / SECONDS_OF_DAY;
        match *self {
            Term::Dates { first, last } => first.day() <= day && day <= last.day(),
            Term::Week { first, last, from, until } => {
                let minute = minute_of_day(time);
                between_going_past(first, weekday_tested(day, from, minute, until), last)
                    && minute_between(from, minute, until)
            }
            Term::Months { first, last } => {
                between_going_past(first, Date::of_day(day).month, last)
            }
            Term::Nth { week, weekday: wanted } => {
                weekday(day) == wanted && (Date::of_day(day).day_of_month - 1) / 7 + 1 == week
            }
            Term::Every { interval, start } => {
                day >= start.day() && (day - start.day()) % interval == 0
            }
        }
    }

    /// "no such date, A after B, h = k"
    pub fn makes_sense(&self) -> bool {
        match *self {
            Term::Dates { first, last } => {
                first.exists() && last.exists() && first.day() <= last.day()
            }
            Term::Week { from, until, .. } => from != until,
            Term::Months { .. } | Term::Nth { .. } => true,
            Term::Every { start, .. } => start.exists(),
        }
    }
}

pub fn weekday(day: i64) -> i64 {
    (day + 5) % 7 + 1
}

/// 2026-03: "In `week a b h k` with h > k, minutes before k are tested against the weekday
/// before." The day before day 0 is -1, a Friday.
fn weekday_tested(day: i64, from: i64, minute: i64, until: i64) -> i64 {
    if from > until && minute < until {
        weekday(day - 1)
    } else {
        weekday(day)
    }
}

pub fn minute_of_day(time: i64) -> i64 {
    time % SECONDS_OF_DAY / 60
}

/// "from a to b, going past" the last "where a > b"
fn between_going_past(first: i64, value: i64, last: i64) -> bool {
    if first <= last {
        first <= value && value <= last
    } else {
        first <= value || value <= last
    }
}

fn minute_between(from: i64, minute: i64, until: i64) -> bool {
    if from > until {
        minute >= from || minute < until
    } else {
        from <= minute && minute < until
    }
}

impl Date {
    /// Found by counting up, a year and then a month at a time.
    pub fn of_day(day: i64) -> Date {
        let mut left = day;
        let mut year = 2000;
        while left >= days_of_year(year) {
            left -= days_of_year(year);
            year += 1;
        }
        let mut month = 1;
        while left >= days_of_month(year, month) {
            left -= days_of_month(year, month);
            month += 1;
        }
        Date { year, month, day_of_month: left + 1 }
    }

    pub fn day(self) -> i64 {
        let years: i64 = (2000..self.year).map(days_of_year).sum();
        let months: i64 = (1..self.month).map(|month| days_of_month(self.year, month)).sum();
        years + months + self.day_of_month - 1
    }

    pub fn exists(self) -> bool {
        (1..=12).contains(&self.month)
            && (1..=days_of_month(self.year, self.month)).contains(&self.day_of_month)
    }
}

fn is_leap(year: i64) -> bool {
    year % 4 == 0 && (year % 100 != 0 || year % 400 == 0)
}

fn days_of_year(year: i64) -> i64 {
    if is_leap(year) {
        366
    } else {
        365
    }
}

fn days_of_month(year: i64, month: i64) -> i64 {
    match month {
        2 if is_leap(year) => 29,
        2 => 28,
        4 | 6 | 9 | 11 => 30,
        _ => 31,
    }
}

impl fmt::Display for Term {
    fn fmt(&self, out: &mut fmt::Formatter<'_>) -> fmt::Result {
        match *self {
            Term::Dates { first, last } => write!(out, "(dates {first} {last})"),
            Term::Week { first, last, from, until } => {
                write!(out, "(week {first} {last} {} {})", Clock(from), Clock(until))
            }
            Term::Months { first, last } => write!(out, "(months {first} {last})"),
            Term::Nth { week, weekday } => write!(out, "(nth {week} {weekday})"),
            Term::Every { interval, start } => write!(out, "(every {interval} {start})"),
        }
    }
}

impl fmt::Display for Date {
    fn fmt(&self, out: &mut fmt::Formatter<'_>) -> fmt::Result {
        write!(out, "{:04}{:02}{:02}", self.year, self.month, self.day_of_month)
    }
}

/// A minute of the day written as hhmm.
struct Clock(i64);

impl fmt::Display for Clock {
    fn fmt(&self, out: &mut fmt::Formatter<'_>) -> fmt::Result {
        write!(out, "{:02}{:02}", self.0 / 60, self.0 % 60)
    }
}
