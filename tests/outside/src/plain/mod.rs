//! The plain gate. Its parts stand in the order of the scope document.

pub mod calendar;
pub mod form;
pub mod gate;
pub mod joined;
pub mod largest;
pub mod numbers;
pub mod own_steps;
pub mod places;
pub mod policies;
pub mod program;
pub mod ranges;
pub mod rights;
pub mod rule_text;
pub mod rules;
pub mod selected;
pub mod state;
pub mod state_text;
pub mod step_text;
pub mod steps;
