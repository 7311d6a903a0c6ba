//! What is compared: rule lists, states and steps that make sense together,
//! and texts that are damaged.

pub mod damage;
pub mod edges;
pub mod joined;
mod loan_damage;
pub mod loans;
pub mod place_damage;
pub mod places;
pub mod policies;
pub mod policy_damage;
pub mod random;
pub mod right_damage;
pub mod rights;
pub mod rule_lists;
pub mod safety;
pub mod states;
pub mod step_lists;
pub mod world;
