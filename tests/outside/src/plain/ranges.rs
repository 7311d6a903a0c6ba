//! "Ranges", and the limits that stand beside the forms.

use std::ops::RangeInclusive;

pub const USERS: RangeInclusive<i64> = 0..=63;
pub const ROLES: RangeInclusive<i64> = 0..=31;
pub const PERMISSIONS: RangeInclusive<i64> = 0..=31;
pub const SESSIONS: RangeInclusive<i64> = 0..=31;
pub const OBJECTS: RangeInclusive<i64> = 0..=31;
pub const TIMES: RangeInclusive<i64> = 0..=3_155_759_999;
pub const METRES: RangeInclusive<i64> = -1_000_000..=1_000_000;
/// 2026-04: "1 to 1000; left out means 0"
pub const ERRORS: RangeInclusive<i64> = 0..=1000;
pub const RADII: RangeInclusive<i64> = 1..=100_000;
pub const RULE_NUMBERS: RangeInclusive<i64> = 1..=128;
pub const USER_LIMITS: RangeInclusive<i64> = 0..=64;
pub const OTHER_LIMITS: RangeInclusive<i64> = 0..=32;
pub const YEARS: RangeInclusive<i64> = 2000..=2099;
pub const MONTHS: RangeInclusive<i64> = 1..=12;
pub const WEEKDAYS: RangeInclusive<i64> = 1..=7;
pub const WEEKS_OF_MONTH: RangeInclusive<i64> = 1..=5;
pub const INTERVALS: RangeInclusive<i64> = 1..=1000;
pub const MOST_LOANS: usize = 32;
pub const LONGEST_INPUT: usize = 65_536;
