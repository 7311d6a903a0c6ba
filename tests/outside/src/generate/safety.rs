//! Cases of what 2026-05 says of a user without rights, and of each of its hypotheses left out.

use super::random::Random;
use super::rights::{all_rights, put_in_charge};
use super::rule_lists::some_rules;
use super::states::{drawn_state, grown_state};
use super::step_lists::{own_step_list, step_list};
use super::world::World;
use crate::plain::own_steps::holds_no_right;
use crate::plain::rights::{RightKind, Rights};
use crate::plain::rules::RuleList;
use crate::plain::state::State;
use crate::plain::steps::Step;

/// The hypothesis that a case leaves out, if any.
#[derive(Clone, Copy, Debug, PartialEq, Eq)]
pub enum LeftOut {
    Nothing,
    /// "all six kinds have rights"
    RightOf(RightKind),
    /// "no role that a user holds carries any of their permissions"
    NoRoleCarries,
    /// "his own steps"
    OwnSteps,
}

/// The rules are not what a case is about: a few let more steps through.
const MOST_RULES: usize = 8;

pub struct Case {
    pub list: RuleList,
    pub user: i64,
    pub start: State,
    pub steps: Vec<Step>,
    pub end: State,
}

impl Case {
    /// "changes what anyone is assigned or what any role carries"
    pub fn changes(&self) -> bool {
        self.start.assigned != self.end.assigned || self.start.granted != self.end.granted
    }
}

/// None where the seed gives no user whom the case can be about.
pub fn safety_case(random: &mut Random, left_out: LeftOut) -> Option<Case> {
    let world = World::dense(random);
    let rights = all_rights(random, &world);
    let mut list = RuleList { rights, rules: some_rules(random, &world) };
    let mut state = if random.percent(40) {
        grown_state(random, &world, &list.rules)
    } else {
        drawn_state(random, &world)
    };
    take_rights_from(*random.pick(&world.users), &list.rights, &mut state);
    put_in_charge(random, &world, &list.rights, &mut state);
    list.rules.truncate(MOST_RULES);
    list.rules.retain(|rule| rule.holds(&state));
    let length = random.below(40);
    let (_, start) = step_list(random, &world, &list, &state, length);
    let user = some_user(random, &world, &list.rights, &start, left_out)?;
    if let LeftOut::RightOf(kind) = left_out {
        list.rights.remove(&kind);
    }
    let length = 10 + random.below(60);
    let (steps, end) = if left_out == LeftOut::OwnSteps {
        step_list(random, &world, &list, &start, length)
    } else {
        own_step_list(random, &world, &list, &start, user, length)
    };
    Some(Case { list, user, start, steps, end })
}

/// No role that the user holds carries a permission of the rights any more.
fn take_rights_from(user: i64, rights: &Rights, state: &mut State) {
    let held = state.roles_held_by(user);
    let is_right = |permission: i64| rights.values().any(|&needed| needed == permission);
    state.granted.retain(|&(role, permission)| !(held.contains(&role) && is_right(permission)));
}

/// A user who has no right, or just one who has.
fn some_user(
    random: &mut Random,
    world: &World,
    rights: &Rights,
    state: &State,
    left_out: LeftOut,
) -> Option<i64> {
    let wanted = left_out != LeftOut::NoRoleCarries;
    let users = world.users.iter().copied();
    let users: Vec<i64> =
        users.filter(|&user| holds_no_right(rights, state, user) == wanted).collect();
    random.pick_any(&users)
}
