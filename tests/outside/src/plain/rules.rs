//! "Rules": the full test of one rule over a state. 2026-01: "max-users, max-roles
//! and apart read held, before reads assigned only".

use super::calendar::Term;
use super::places::{Shape, Side};
use super::ranges::{OBJECTS, SESSIONS, USERS};
use super::rights::Rights;
use super::state::State;
use std::fmt;
use std::ops::RangeInclusive;

/// Right lines, then rules.
#[derive(Clone, Debug, Default, PartialEq, Eq)]
pub struct RuleList {
    pub rights: Rights,
    pub rules: Vec<Rule>,
}

#[derive(Clone, Debug, PartialEq, Eq)]
pub enum Rule {
    Before { role: i64, required: i64 },
    MaxUsers { role: i64, limit: i64 },
    MaxRoles { limit: i64 },
    MaxPermissions { role: i64, limit: i64 },
    MaxActive { limit: i64 },
    Apart { role: i64, other: i64 },
    ApartActive { role: i64, other: i64 },
    Needs { role: i64, needed: i64 },
    During { role: i64, term: Term },
    At { role: i64, side: Side },
    TwoHands { permission: i64, other: i64 },
    SameHand { permission: i64, other: i64 },
}

impl Rule {
    pub fn holds(&self, state: &State) -> bool {
        match *self {
            Rule::Before { role, required } => each(USERS, |user| {
                !state.is_assigned(user, role) || state.is_assigned(user, required)
            }),
            Rule::MaxUsers { role, limit } => keeps(state.users_holding(role), limit),
            Rule::MaxRoles { limit } => {
                each(USERS, |user| keeps(state.roles_held_by(user).len(), limit))
            }
            Rule::MaxPermissions { role, limit } => keeps(state.permissions_of(role), limit),
            Rule::MaxActive { limit } => {
                each(SESSIONS, |session| keeps(state.active_in(session).count(), limit))
            }
            Rule::Apart { role, other } => {
                each(USERS, |user| !(state.is_held(user, role) && state.is_held(user, other)))
            }
            Rule::ApartActive { role, other } => each(USERS, |user| {
                !(state.is_active_for(user, role) && state.is_active_for(user, other))
            }),
            Rule::Needs { role, needed } => {
                !state.is_active_anywhere(role) || state.is_active_anywhere(needed)
            }
            Rule::During { role, ref term } => {
                !state.is_active_anywhere(role) || term.holds(state.time)
            }
            Rule::At { role, side } => state.sessions.iter().all(|(&number, session)| {
                !state.is_active(number, role) || side.holds(session.position)
            }),
            Rule::TwoHands { permission, other } => each(OBJECTS, |object| {
                state.hands(object, permission).is_disjoint(&state.hands(object, other))
            }),
            Rule::SameHand { permission, other } => each(OBJECTS, |object| {
                let either = &state.hands(object, permission) | &state.hands(object, other);
                either.len() <= 1
            }),
        }
    }

    /// "same role or permission twice in a rule"
    pub fn names_one_twice(&self) -> bool {
        match *self {
            Rule::Before { role: one, required: other }
            | Rule::Apart { role: one, other }
            | Rule::ApartActive { role: one, other }
            | Rule::Needs { role: one, needed: other }
            | Rule::TwoHands { permission: one, other }
            | Rule::SameHand { permission: one, other } => one == other,
            _ => false,
        }
    }

    pub fn makes_sense(&self) -> bool {
        match self {
            Rule::During { term, .. } => term.makes_sense(),
            Rule::At { side, .. } => side.shape().makes_sense(),
            _ => true,
        }
    }

    /// The family, and for a term or a side its kind as well.
    pub fn family(&self) -> &'static str {
        match self {
            Rule::Before { .. } => "before",
            Rule::MaxUsers { .. } => "max-users",
            Rule::MaxRoles { .. } => "max-roles",
            Rule::MaxPermissions { .. } => "max-permissions",
            Rule::MaxActive { .. } => "max-active",
            Rule::Apart { .. } => "apart",
            Rule::ApartActive { .. } => "apart-active",
            Rule::Needs { .. } => "needs",
            Rule::During { term, .. } => match term {
                Term::Dates { .. } => "during dates",
                Term::Week { .. } => "during week",
                Term::Months { .. } => "during months",
                Term::Nth { .. } => "during nth",
                Term::Every { .. } => "during every",
            },
            Rule::At { side, .. } => match side {
                Side::Inside(Shape::Circle { .. }) => "at inside circle",
                Side::Inside(Shape::Box { .. }) => "at inside box",
                Side::Outside(Shape::Circle { .. }) => "at outside circle",
                Side::Outside(Shape::Box { .. }) => "at outside box",
            },
            Rule::TwoHands { .. } => "two-hands",
            Rule::SameHand { .. } => "same-hand",
        }
    }
}

fn each(mut range: RangeInclusive<i64>, holds: impl Fn(i64) -> bool) -> bool {
    range.all(holds)
}

/// "A count equal to n keeps its limit."
fn keeps(count: usize, limit: i64) -> bool {
    count as i64 <= limit
}

/// The numbers of the broken rules, the lowest first.
pub fn broken_rules(rules: &[Rule], state: &State) -> Vec<u64> {
    let numbered = rules.iter().zip(1..);
    numbered.filter(|(rule, _)| !rule.holds(state)).map(|(_, number)| number).collect()
}

pub fn every_rule_holds(rules: &[Rule], state: &State) -> bool {
    rules.iter().all(|rule| rule.holds(state))
}

impl fmt::Display for Rule {
    fn fmt(&self, out: &mut fmt::Formatter<'_>) -> fmt::Result {
        match self {
            Rule::Before { role, required } => write!(out, "(before {role} {required})"),
            Rule::MaxUsers { role, limit } => write!(out, "(max-users {role} {limit})"),
            Rule::MaxRoles { limit } => write!(out, "(max-roles {limit})"),
            Rule::MaxPermissions { role, limit } => write!(out, "(max-permissions {role} {limit})"),
            Rule::MaxActive { limit } => write!(out, "(max-active {limit})"),
            Rule::Apart { role, other } => write!(out, "(apart {role} {other})"),
            Rule::ApartActive { role, other } => write!(out, "(apart-active {role} {other})"),
            Rule::Needs { role, needed } => write!(out, "(needs {role} {needed})"),
            Rule::During { role, term } => write!(out, "(during {role} {term})"),
            Rule::At { role, side } => write!(out, "(at {role} {side})"),
            Rule::TwoHands { permission, other } => write!(out, "(two-hands {permission} {other})"),
            Rule::SameHand { permission, other } => write!(out, "(same-hand {permission} {other})"),
        }
    }
}
