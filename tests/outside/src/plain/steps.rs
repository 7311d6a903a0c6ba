//! The steps of the table: what makes one refused before 30, and its target.

use super::places::Reported;
use super::ranges::{
    ERRORS, METRES, MOST_LOANS, OBJECTS, PERMISSIONS, ROLES, SESSIONS, TIMES, USERS,
};
use super::rights::{RightKind, Rights};
use super::state::{Session, State};

/// What is to be done, and by which session where `by` stands (2026-05).
#[derive(Clone, Debug, PartialEq, Eq)]
pub struct Step {
    pub acting: Option<i64>,
    pub action: Action,
}

/// The numbers are as written: any of them may be outside its range.
#[derive(Clone, Debug, PartialEq, Eq)]
pub enum Action {
    Assign { user: i64, role: i64 },
    Withdraw { user: i64, role: i64 },
    Grant { role: i64, permission: i64 },
    Take { role: i64, permission: i64 },
    Open { session: i64, user: i64 },
    Activate { session: i64, role: i64 },
    Deactivate { session: i64, role: i64 },
    Access { session: i64, permission: i64, object: i64 },
    Finish { object: i64 },
    Close { session: i64 },
    Move { session: i64, reported: Reported },
    Lost { session: i64 },
    Clock { time: i64 },
    Lend { lender: i64, borrower: i64, role: i64, until: i64 },
    Recall { lender: i64, borrower: i64, role: i64 },
}

impl From<Action> for Step {
    fn from(action: Action) -> Step {
        Step { acting: None, action }
    }
}

impl Step {
    /// The first check before 30 that refuses the step. 2026-05: 53 and 54 are "both after 20,
    /// in that order".
    pub fn refusal(&self, rights: &Rights, state: &State) -> Option<u64> {
        if !self.is_in_range() {
            Some(20)
        } else if self.acting.is_some_and(|session| !state.is_open(session)) {
            Some(53)
        } else if self.lacks_its_right(rights, state) {
            Some(54)
        } else {
            self.action.refusal(state)
        }
    }

    /// "`by` before any other step ... is 10 in a text and 20 handed in"
    pub fn is_in_range(&self) -> bool {
        let acting_is_good = self.acting.is_none_or(|session| {
            SESSIONS.contains(&session) && self.action.right_kind().is_some()
        });
        acting_is_good && self.action.is_in_range()
    }

    /// "the step then needs an acting session with an active role that carries permission 30",
    /// and "a step of a kind with a right and no `by` counts as lacking it".
    fn lacks_its_right(&self, rights: &Rights, state: &State) -> bool {
        match (self.permission_needed(rights), self.acting) {
            (None, _) => false,
            (Some(_), None) => true,
            (Some(permission), Some(session)) => !state.is_carried_in(session, permission),
        }
    }

    pub fn permission_needed(&self, rights: &Rights) -> Option<i64> {
        rights.get(&self.action.right_kind()?).copied()
    }
}

impl Action {
    /// The kind as a right line names it, for the six kinds that can have one.
    pub fn right_kind(&self) -> Option<RightKind> {
        RightKind::named(self.name())
    }

    pub fn is_event(&self) -> bool {
        matches!(
            self,
            Action::Close { .. }
                | Action::Move { .. }
                | Action::Lost { .. }
                | Action::Clock { .. }
                | Action::Recall { .. }
        )
    }

    pub fn is_in_range(&self) -> bool {
        match *self {
            Action::Assign { user, role } | Action::Withdraw { user, role } => {
                USERS.contains(&user) && ROLES.contains(&role)
            }
            Action::Grant { role, permission } | Action::Take { role, permission } => {
                ROLES.contains(&role) && PERMISSIONS.contains(&permission)
            }
            Action::Open { session, user } => SESSIONS.contains(&session) && USERS.contains(&user),
            Action::Activate { session, role } | Action::Deactivate { session, role } => {
                SESSIONS.contains(&session) && ROLES.contains(&role)
            }
            Action::Access { session, permission, object } => {
                SESSIONS.contains(&session)
                    && PERMISSIONS.contains(&permission)
                    && OBJECTS.contains(&object)
            }
            Action::Finish { object } => OBJECTS.contains(&object),
            Action::Close { session } | Action::Lost { session } => SESSIONS.contains(&session),
            Action::Move { session, reported: Reported { position, error } } => {
                SESSIONS.contains(&session)
                    && METRES.contains(&position.x)
                    && METRES.contains(&position.y)
                    && ERRORS.contains(&error)
            }
            Action::Clock { time } => TIMES.contains(&time),
            Action::Lend { lender, borrower, role, until } => {
                are_loan_numbers(lender, borrower, role) && TIMES.contains(&until)
            }
            Action::Recall { lender, borrower, role } => are_loan_numbers(lender, borrower, role),
        }
    }

    /// The first check of its row before 30 that refuses it, "in the order given".
    fn refusal(&self, state: &State) -> Option<u64> {
        let checks: &[(u64, bool)] = match *self {
            Action::Assign { user, role } => &[(24, state.is_held(user, role))],
            Action::Withdraw { user, role } => &[
                (25, !state.is_assigned(user, role)),
                (27, state.is_active_for(user, role) || state.is_lent_out_by(user, role)),
            ],
            Action::Grant { role, permission } => &[(24, state.carries(role, permission))],
            Action::Take { role, permission } => &[(25, !state.carries(role, permission))],
            Action::Open { session, .. } => &[(22, state.is_open(session))],
            Action::Activate { session, role } => &[
                (23, !state.is_open(session)),
                (24, state.is_active(session, role)),
                (26, !state.is_held_in(session, role)),
            ],
            Action::Deactivate { session, role } => {
                &[(23, !state.is_open(session)), (25, !state.is_active(session, role))]
            }
            Action::Access { session, permission, .. } => {
                &[(23, !state.is_open(session)), (28, !state.is_carried_in(session, permission))]
            }
            Action::Finish { .. } => &[],
            Action::Close { session } | Action::Move { session, .. } | Action::Lost { session } => {
                &[(23, !state.is_open(session))]
            }
            Action::Clock { time } => &[(21, time < state.time)],
            Action::Lend { lender, borrower, role, until } => {
                &lend_checks(state, lender, borrower, role, until)
            }
            Action::Recall { lender, borrower, role } => {
                &[(25, !state.loans.contains_key(&(lender, borrower, role)))]
            }
        };
        checks.iter().find(|(_, refuses)| *refuses).map(|&(number, _)| number)
    }

    /// "the target: the state as if allowed"
    pub fn target(&self, state: &State) -> State {
        let mut target = state.clone();
        match *self {
            Action::Assign { user, role } => drop(target.assigned.insert((user, role))),
            Action::Withdraw { user, role } => drop(target.assigned.remove(&(user, role))),
            Action::Grant { role, permission } => drop(target.granted.insert((role, permission))),
            Action::Take { role, permission } => drop(target.granted.remove(&(role, permission))),
            Action::Open { session, user } => {
                target.sessions.insert(session, Session { user, position: None });
            }
            Action::Activate { session, role } => drop(target.active.insert((session, role))),
            Action::Deactivate { session, role } => drop(target.active.remove(&(session, role))),
            Action::Access { session, permission, object } => {
                let user = target.sessions[&session].user;
                target.did.insert((object, permission, user));
            }
            Action::Finish { object } => target.did.retain(|&(other, _, _)| other != object),
            Action::Close { session } => {
                target.sessions.remove(&session);
                target.active.retain(|&(other, _)| other != session);
            }
            Action::Move { session, reported } => {
                set_position(&mut target, session, Some(reported))
            }
            Action::Lost { session } => set_position(&mut target, session, None),
            Action::Clock { time } => {
                target.time = time;
                end_loans(&mut target, |_, until| until <= time);
            }
            Action::Lend { lender, borrower, role, until } => {
                target.loans.insert((lender, borrower, role), until);
            }
            Action::Recall { lender, borrower, role } => {
                end_loans(&mut target, |loan, _| loan == (lender, borrower, role));
            }
        }
        target
    }

    pub fn name(&self) -> &'static str {
        match self {
            Action::Assign { .. } => "assign",
            Action::Withdraw { .. } => "withdraw",
            Action::Grant { .. } => "grant",
            Action::Take { .. } => "take",
            Action::Open { .. } => "open",
            Action::Activate { .. } => "activate",
            Action::Deactivate { .. } => "deactivate",
            Action::Access { .. } => "access",
            Action::Finish { .. } => "finish",
            Action::Close { .. } => "close",
            Action::Move { .. } => "move",
            Action::Lost { .. } => "lost",
            Action::Clock { .. } => "clock",
            Action::Lend { .. } => "lend",
            Action::Recall { .. } => "recall",
        }
    }
}

fn are_loan_numbers(lender: i64, borrower: i64, role: i64) -> bool {
    USERS.contains(&lender) && USERS.contains(&borrower) && ROLES.contains(&role)
}

/// 2026-01: "lend checks 20, 50, 24, 52, 51, 30"
fn lend_checks(
    state: &State,
    lender: i64,
    borrower: i64,
    role: i64,
    until: i64,
) -> [(u64, bool); 4] {
    [
        (50, !state.is_assigned(lender, role)),
        (24, state.is_held(borrower, role)),
        (52, until <= state.time),
        (51, state.loans.len() >= MOST_LOANS),
    ]
}

/// 2026-01: recall and clock "themselves close every active role not held"
fn end_loans(target: &mut State, ends: impl Fn((i64, i64, i64), i64) -> bool) {
    target.loans.retain(|&loan, &mut until| !ends(loan, until));
    let active = target.active.iter().copied();
    target.active = active.filter(|&(session, role)| target.is_held_in(session, role)).collect();
}

fn set_position(target: &mut State, session: i64, position: Option<Reported>) {
    target.sessions.get_mut(&session).expect("the session is open").position = position;
}
