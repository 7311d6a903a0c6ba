//! Loans that can run in a state.

use super::random::Random;
use crate::plain::calendar::SECONDS_OF_DAY;
use crate::plain::ranges::{MOST_LOANS, TIMES, USERS};
use crate::plain::state::State;

/// Tries for each loan that is wanted.
const TRIES: usize = 4;

/// None, a few, or nearly as many as can run.
pub fn add_some_loans(random: &mut Random, users: &[i64], state: &mut State) {
    let all_users = Vec::from_iter(USERS);
    let (borrowers, wanted) = match random.below(10) {
        0..=3 => (users, 0),
        4..=8 => (users, 1 + random.below(6)),
        _ => (&all_users[..], MOST_LOANS - random.below(2)),
    };
    add_loans(random, borrowers, wanted, state);
}

/// A few more than can run, where any role is assigned.
pub fn with_too_many_loans(random: &mut Random, state: &State) -> State {
    let mut state = state.clone();
    let wanted = MOST_LOANS + 1 + random.below(4);
    add_loans(random, &Vec::from_iter(USERS), wanted, &mut state);
    state
}

/// Loans of assigned roles to users who do not hold them, as many as are wanted where the tries
/// find them.
fn add_loans(random: &mut Random, borrowers: &[i64], wanted: usize, state: &mut State) {
    let assigned = Vec::from_iter(state.assigned.iter().copied());
    for _ in 0..TRIES * wanted {
        let Some((lender, role)) = random.pick_any(&assigned) else { return };
        let borrower = *random.pick(borrowers);
        let until = loan_end(random, state.time);
        if state.loans.len() < wanted && !state.is_held(borrower, role) && until > state.time {
            state.loans.insert((lender, borrower, role), until);
        }
    }
}

/// Later than now, but where now is the last second.
pub fn loan_end(random: &mut Random, now: i64) -> i64 {
    let until = match random.below(8) {
        0 => now + 1,
        1..=2 => now + random.between(1, 120),
        3 => now + random.between(1, 60) * 60,
        4..=5 => now + random.between(1, 3 * SECONDS_OF_DAY),
        6 => *TIMES.end(),
        _ => random.between(now, *TIMES.end()),
    };
    until.min(*TIMES.end())
}
