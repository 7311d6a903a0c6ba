//! The edges of the scope document on calendar and places.

use outside::plain::calendar::{weekday, Date, Term, SECONDS_OF_DAY};
use outside::plain::places::{Position, Reported, Shape, Side};
use outside::plain::ranges::TIMES;

const MONDAY: i64 = 9655;

fn date(year: i64, month: i64, day_of_month: i64) -> Date {
    Date { year, month, day_of_month }
}

fn week(first: i64, last: i64, from: i64, until: i64) -> Term {
    Term::Week { first, last, from, until }
}

fn at(day: i64, hour: i64, minute: i64) -> i64 {
    day * SECONDS_OF_DAY + hour * 3600 + minute * 60
}

#[test]
fn days_and_weekdays() {
    assert_eq!(weekday(0), 6);
    assert_eq!(date(2000, 2, 29).day(), 59);
    assert_eq!(weekday(59), 2);
    assert_eq!(date(2026, 6, 8).day(), MONDAY);
    assert_eq!(weekday(MONDAY), 1);
    assert_eq!(weekday(TIMES.end() / SECONDS_OF_DAY), 4);
    assert_eq!(date(2099, 12, 31).day(), TIMES.end() / SECONDS_OF_DAY);
}

#[test]
fn days_before_each_month_of_a_common_year() {
    let before = [0, 31, 59, 90, 120, 151, 181, 212, 243, 273, 304, 334];
    let start = date(2001, 1, 1).day();
    for (days, month) in before.into_iter().zip(1..) {
        assert_eq!(date(2001, month, 1).day() - start, days);
    }
}

/// Request 2026-02: "months counted from March, (153 × m + 2) / 5 rounded down, m from
/// 0 to 11. January and February count with the year before." The plain gate itself
/// counts by the lengths of the months.
#[test]
fn days_before_a_month_by_the_formula() {
    for day in 0..=TIMES.end() / SECONDS_OF_DAY {
        let Date { year, month, day_of_month } = Date::of_day(day);
        let (counted_with, m) = if month < 3 { (year - 1, month + 9) } else { (year, month - 3) };
        let before_month = (153 * m + 2) / 5;
        assert_eq!(first_of_march(counted_with) + before_month + day_of_month - 1, day);
    }
}

/// From March to December 1999 had 306 days.
fn first_of_march(year: i64) -> i64 {
    if year == 1999 {
        -306
    } else {
        date(year, 3, 1).day()
    }
}

#[test]
fn each_day_has_one_date() {
    for day in 0..=TIMES.end() / SECONDS_OF_DAY {
        let date = Date::of_day(day);
        assert!(date.exists());
        assert_eq!(date.day(), day);
    }
}

#[test]
fn dates_that_do_not_exist() {
    for (year, month, day_of_month) in
        [(2001, 2, 29), (2024, 2, 30), (2026, 4, 31), (2026, 0, 1), (2026, 13, 1), (2026, 1, 0)]
    {
        assert!(!date(year, month, day_of_month).exists());
    }
    assert!(date(2000, 2, 29).exists());
}

#[test]
fn a_week_term_on_a_monday() {
    let term = week(1, 5, 7 * 60, 19 * 60);
    assert!(!term.holds(at(MONDAY, 6, 59) + 59));
    assert!(term.holds(at(MONDAY, 7, 0)));
    assert!(term.holds(at(MONDAY, 18, 59) + 59));
    assert!(!term.holds(at(MONDAY, 19, 0)));
    assert!(!term.holds(at(MONDAY + 5, 7, 0)));
}

/// Request 2026-03: "`week 5 5 2200 0600` thus holds on Saturday at 01:00 and fails on
/// Friday at 01:00."
#[test]
fn a_week_term_past_midnight_has_the_weekday_on_which_it_begins() {
    let term = week(5, 5, 22 * 60, 6 * 60);
    let friday = MONDAY + 4;
    assert!(!term.holds(at(friday, 1, 0)));
    assert!(!term.holds(at(friday, 6, 0)));
    assert!(term.holds(at(friday, 22, 0)));
    assert!(term.holds(at(friday + 1, 1, 0)));
    assert!(!term.holds(at(friday + 1, 6, 0)));
    assert!(!term.holds(at(friday + 1, 22, 0)));
    let term = week(7, 7, 22 * 60, 6 * 60);
    assert!(term.holds(at(MONDAY, 1, 0)));
    assert!(!term.holds(at(MONDAY, 22, 0)));
}

/// "At t below one day": day 0 is a Saturday, and Friday's shift began before the range.
#[test]
fn a_shift_that_began_on_the_day_before_day_0() {
    let term = week(5, 5, 22 * 60, 6 * 60);
    assert!(term.holds(0));
    assert!(term.holds(at(0, 5, 59) + 59));
    assert!(!term.holds(at(0, 6, 0)));
    assert!(!week(6, 6, 22 * 60, 6 * 60).holds(0));
}

/// "A shift belongs to the day it begins": each minute of a month, from day 0 on, beside
/// the shifts that are drawn on a line.
#[test]
fn a_week_term_holds_in_the_shifts_that_begin_on_its_weekdays() {
    let hours = [(0, 1), (0, 1440), (420, 1140), (1320, 360), (1439, 1), (720, 719)];
    for (first, last) in (1..=7).flat_map(|first| (1..=7).map(move |last| (first, last))) {
        for (from, until) in hours {
            let term = week(first, last, from, until);
            let drawn = shifts(first, last, from, until);
            for (minute, in_shift) in drawn.into_iter().enumerate() {
                assert_eq!(term.holds(60 * minute as i64 + 59), in_shift, "{term} {minute}");
            }
        }
    }
}

/// Whether each minute of 31 days is in a shift; the first of them may have begun on the
/// day before.
fn shifts(first: i64, last: i64, from: i64, until: i64) -> Vec<bool> {
    let mut minutes = vec![false; 31 * 1440];
    let end = if from < until { until } else { 1440 + until };
    for day in -1..31 {
        if (weekday(day) - first).rem_euclid(7) <= (last - first).rem_euclid(7) {
            let shift = day * 1440 + from..day * 1440 + end;
            for minute in shift.filter(|&minute| minute >= 0 && minute < 31 * 1440) {
                minutes[minute as usize] = true;
            }
        }
    }
    minutes
}

#[test]
fn weekdays_and_months_go_past_the_last() {
    let saturday_to_monday = week(6, 1, 0, 1440);
    let held: Vec<bool> =
        (0..7).map(|past| saturday_to_monday.holds(at(MONDAY + past, 23, 59))).collect();
    assert_eq!(held, [true, false, false, false, false, true, true]);
    let winter = Term::Months { first: 11, last: 2 };
    let held: Vec<i64> = (1..=12)
        .filter(|&month| winter.holds(date(2026, month, 28).day() * SECONDS_OF_DAY))
        .collect();
    assert_eq!(held, [1, 2, 11, 12]);
}

#[test]
fn nth_weekdays() {
    assert!(Term::Nth { week: 2, weekday: 1 }.holds(at(MONDAY, 0, 0)));
    assert!(!Term::Nth { week: 1, weekday: 1 }.holds(at(MONDAY, 0, 0)));
    assert!(Term::Nth { week: 1, weekday: 1 }.holds(at(MONDAY - 7, 0, 0)));
    assert!(Term::Nth { week: 5, weekday: 1 }.holds(at(MONDAY + 21, 0, 0)));
}

#[test]
fn every_so_many_days_from_a_date_on() {
    let term = Term::Every { interval: 14, start: date(2026, 6, 8) };
    let held: Vec<i64> = (-14..=28).filter(|past| term.holds(at(MONDAY + past, 12, 0))).collect();
    assert_eq!(held, [0, 14, 28]);
}

#[test]
fn dates_with_both_ends() {
    let term = Term::Dates { first: date(2026, 6, 8), last: date(2026, 6, 9) };
    assert!(!term.holds(at(MONDAY, 0, 0) - 1));
    assert!(term.holds(at(MONDAY, 0, 0)));
    assert!(term.holds(at(MONDAY + 2, 0, 0) - 1));
    assert!(!term.holds(at(MONDAY + 2, 0, 0)));
}

#[test]
fn shapes_hold_their_edges() {
    let circle = Shape::Circle { centre: Position { x: 0, y: 0 }, radius: 5 };
    assert!(circle.contains(Position { x: 3, y: 4 }));
    assert!(!circle.contains(Position { x: 4, y: 4 }));
    let rectangle = Shape::Box { low: Position { x: -1, y: 2 }, high: Position { x: 3, y: 4 } };
    assert!(rectangle.contains(Position { x: -1, y: 4 }));
    assert!(!rectangle.contains(Position { x: -2, y: 4 }));
    assert!(!rectangle.contains(Position { x: 3, y: 5 }));
}

#[test]
fn an_unknown_position_is_neither() {
    let shape = Shape::Circle { centre: Position { x: 0, y: 0 }, radius: 5 };
    assert!(!Side::Inside(shape).holds(None));
    assert!(!Side::Outside(shape).holds(None));
    let reported = Reported { position: Position { x: 6, y: 0 }, error: 0 };
    assert!(Side::Outside(shape).holds(Some(reported)));
}
