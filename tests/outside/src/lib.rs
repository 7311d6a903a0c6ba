//! A second reading of the scope document and of requests 2026-01 to 2026-07: a gate in plain
//! Rust, which takes nothing from the proved one, and what is needed to compare the two.

pub mod cases;
pub mod compare;
pub mod counts;
pub mod generate;
pub mod joined_kinds;
pub mod place_kinds;
pub mod plain;
pub mod policy_kinds;
pub mod right_kinds;
pub mod vectors;
