//! States drawn at random, not reached by steps.

use super::loans::add_some_loans;
use super::places::drawn_error;
use super::random::Random;
use super::step_lists;
use super::world::World;
use crate::plain::places::{Position, Reported};
use crate::plain::ranges::{ERRORS, METRES, OBJECTS, PERMISSIONS, ROLES, SESSIONS, TIMES, USERS};
use crate::plain::rights::Rights;
use crate::plain::rules::{Rule, RuleList};
use crate::plain::state::{Session, State};

/// The state after some steps from a fresh one, without rights: under them nothing can be
/// assigned in a fresh state.
pub fn grown_state(random: &mut Random, world: &World, rules: &[Rule]) -> State {
    let length = 20 + random.below(80);
    let list = RuleList { rights: Rights::new(), rules: rules.to_vec() };
    step_lists::step_list(random, world, &list, &State::fresh(), length).1
}

/// Each line that could be there is there with the same chance, but for the loans.
pub fn drawn_state(random: &mut Random, world: &World) -> State {
    let chance = 1 + random.below(if world.is_wide() { 3 } else { 100 });
    let mut state = State { time: world.start, ..State::fresh() };
    for &role in &world.roles {
        let users = world.users.iter().filter(|_| random.percent(chance));
        state.assigned.extend(users.map(|&user| (user, role)));
        let permissions = world.permissions.iter().filter(|_| random.percent(chance));
        state.granted.extend(permissions.map(|&permission| (role, permission)));
    }
    add_some_loans(random, &world.users, &mut state);
    for &session in &world.sessions {
        if random.percent(chance.max(50)) {
            let user = *random.pick(&world.users);
            let position = random.percent(60).then(|| drawn_report(random));
            state.sessions.insert(session, Session { user, position });
            let roles = state.roles_held_by(user).into_iter();
            let active = roles.filter(|_| random.percent(chance));
            state.active.extend(active.map(|role| (session, role)));
        }
    }
    for &object in &world.objects {
        for &permission in &world.permissions {
            let users = world.users.iter().filter(|_| random.percent(chance));
            state.did.extend(users.map(|&user| (object, permission, user)));
        }
    }
    state
}

/// The longest saved state: every user holds every role, one of them all by loans, which have
/// longer lines than assigned roles.
pub fn fullest_state() -> State {
    let (lender, borrower) = (*USERS.end(), *USERS.end() - 1);
    let corner = Position { x: *METRES.start(), y: *METRES.start() };
    let position = Some(Reported { position: corner, error: *ERRORS.end() });
    let user_of = |session| if session % 2 == 0 { lender } else { borrower };
    State {
        time: *TIMES.end() - 1,
        assigned: pairs(USERS.count(), ROLES.count())
            .filter(|&(user, _)| user != borrower)
            .collect(),
        granted: pairs(ROLES.count(), PERMISSIONS.count()).collect(),
        loans: ROLES.map(|role| ((lender, borrower, role), *TIMES.end())).collect(),
        sessions: SESSIONS
            .map(|session| (session, Session { user: user_of(session), position }))
            .collect(),
        active: pairs(SESSIONS.count(), ROLES.count()).collect(),
        did: pairs(OBJECTS.count(), PERMISSIONS.count())
            .flat_map(|(object, permission)| USERS.map(move |user| (object, permission, user)))
            .collect(),
    }
}

fn pairs(first: usize, second: usize) -> impl Iterator<Item = (i64, i64)> {
    (0..first as i64).flat_map(move |one| (0..second as i64).map(move |other| (one, other)))
}

fn drawn_report(random: &mut Random) -> Reported {
    let reach = if random.percent(80) { 30 } else { *METRES.end() };
    let position = Position { x: random.between(-reach, reach), y: random.between(-reach, reach) };
    Reported { position, error: drawn_error(random) }
}
