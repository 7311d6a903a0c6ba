//! 2026-05, what is said of one user: his own steps, and when he has none of the rights.

use super::rights::{RightKind, Rights};
use super::state::State;
use super::steps::{Action, Step};

/// "all six kinds have rights"
pub fn has_every_right_line(rights: &Rights) -> bool {
    RightKind::ALL.iter().all(|kind| rights.contains_key(kind))
}

/// "no role that a user holds carries any of their permissions"
pub fn holds_no_right(rights: &Rights, state: &State, user: i64) -> bool {
    let roles = state.roles_held_by(user);
    !roles.iter().any(|&role| rights.values().any(|&permission| state.carries(role, permission)))
}

/// "His own steps are open for himself, steps in sessions that are his, finish, clock, and the
/// six kinds with one of his sessions acting or none."
pub fn is_own_step(state: &State, user: i64, step: &Step) -> bool {
    let is_his = |session| state.is_open_for(session, user);
    match step.action {
        Action::Open { user: opened_for, .. } => opened_for == user,
        Action::Activate { session, .. }
        | Action::Deactivate { session, .. }
        | Action::Access { session, .. }
        | Action::Close { session }
        | Action::Move { session, .. }
        | Action::Lost { session } => is_his(session),
        Action::Finish { .. } | Action::Clock { .. } => true,
        Action::Assign { .. }
        | Action::Withdraw { .. }
        | Action::Grant { .. }
        | Action::Take { .. }
        | Action::Lend { .. }
        | Action::Recall { .. } => step.acting.is_none_or(is_his),
    }
}
