//! "The state": sets of pairs and triples, in the order in which they are saved.

use super::places::Reported;
use super::ranges::USERS;
use std::collections::{BTreeMap, BTreeSet};

#[derive(Clone, Debug, Default, PartialEq, Eq)]
pub struct State {
    pub time: i64,
    /// (user, role)
    pub assigned: BTreeSet<(i64, i64)>,
    /// (role, permission)
    pub granted: BTreeSet<(i64, i64)>,
    /// (lender, borrower, role), and until when.
    pub loans: BTreeMap<(i64, i64, i64), i64>,
    /// The open sessions.
    pub sessions: BTreeMap<i64, Session>,
    /// (session, role)
    pub active: BTreeSet<(i64, i64)>,
    /// (object, permission, user)
    pub did: BTreeSet<(i64, i64, i64)>,
}

#[derive(Clone, Debug, PartialEq, Eq)]
pub struct Session {
    pub user: i64,
    pub position: Option<Reported>,
}

impl State {
    pub fn fresh() -> State {
        State::default()
    }

    pub fn is_assigned(&self, user: i64, role: i64) -> bool {
        self.assigned.contains(&(user, role))
    }

    pub fn is_on_loan_to(&self, borrower: i64, role: i64) -> bool {
        self.loans.keys().any(|&(_, other, lent)| other == borrower && lent == role)
    }

    pub fn is_lent_out_by(&self, lender: i64, role: i64) -> bool {
        self.loans.keys().any(|&(other, _, lent)| other == lender && lent == role)
    }

    /// 2026-01: "A role is held when assigned or on loan"
    pub fn is_held(&self, user: i64, role: i64) -> bool {
        self.is_assigned(user, role) || self.is_on_loan_to(user, role)
    }

    pub fn roles_held_by(&self, user: i64) -> BTreeSet<i64> {
        let assigned = self.assigned.range((user, 0)..(user + 1, 0)).map(|&(_, role)| role);
        let loans = self.loans.keys().filter(|&&(_, borrower, _)| borrower == user);
        assigned.chain(loans.map(|&(_, _, role)| role)).collect()
    }

    pub fn users_holding(&self, role: i64) -> usize {
        USERS.filter(|&user| self.is_held(user, role)).count()
    }

    pub fn carries(&self, role: i64, permission: i64) -> bool {
        self.granted.contains(&(role, permission))
    }

    pub fn permissions_of(&self, role: i64) -> usize {
        self.granted.range((role, 0)..(role + 1, 0)).count()
    }

    pub fn is_open(&self, session: i64) -> bool {
        self.sessions.contains_key(&session)
    }

    pub fn is_open_for(&self, session: i64, user: i64) -> bool {
        self.sessions.get(&session).is_some_and(|session| session.user == user)
    }

    pub fn active_in(&self, session: i64) -> impl Iterator<Item = i64> + '_ {
        self.active.range((session, 0)..(session + 1, 0)).map(|&(_, role)| role)
    }

    pub fn is_active(&self, session: i64, role: i64) -> bool {
        self.active.contains(&(session, role))
    }

    /// Whether a role active in the session carries the permission.
    pub fn is_carried_in(&self, session: i64, permission: i64) -> bool {
        self.active_in(session).any(|role| self.carries(role, permission))
    }

    pub fn is_active_anywhere(&self, role: i64) -> bool {
        self.sessions.keys().any(|&session| self.is_active(session, role))
    }

    /// "over all his sessions"
    pub fn is_active_for(&self, user: i64, role: i64) -> bool {
        self.sessions
            .iter()
            .any(|(&number, session)| session.user == user && self.is_active(number, role))
    }

    /// Whether the session is open and its user holds the role.
    pub fn is_held_in(&self, session: i64, role: i64) -> bool {
        self.sessions.get(&session).is_some_and(|session| self.is_held(session.user, role))
    }

    /// The users who did the permission on the object.
    pub fn hands(&self, object: i64, permission: i64) -> BTreeSet<i64> {
        let of_permission = (object, permission, 0)..(object, permission + 1, 0);
        self.did.range(of_permission).map(|&(_, _, user)| user).collect()
    }
}
