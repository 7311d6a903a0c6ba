//! Right lines (2026-05), and somebody who has the rights.

use super::random::Random;
use super::world::World;
use crate::plain::rights::{RightKind, Rights};
use crate::plain::state::{Session, State};

/// None, all, or some; two kinds may need the same permission.
pub fn some_rights(random: &mut Random, world: &World) -> Rights {
    let chance = *random.pick(&[0, 0, 0, 0, 15, 40, 60, 85, 100, 100]);
    let kinds = RightKind::ALL.into_iter().filter(|_| random.percent(chance));
    let kinds = Vec::from_iter(kinds);
    with_permissions(random, world, &kinds)
}

pub fn all_rights(random: &mut Random, world: &World) -> Rights {
    with_permissions(random, world, &RightKind::ALL)
}

fn with_permissions(random: &mut Random, world: &World, kinds: &[RightKind]) -> Rights {
    kinds.iter().map(|&kind| (kind, *random.pick(&world.permissions))).collect()
}

/// A user of the world works in a role that carries the permissions of most rights.
pub fn put_in_charge(random: &mut Random, world: &World, rights: &Rights, state: &mut State) {
    let (session, role) = (*random.pick(&world.sessions), *random.pick(&world.roles));
    let user = *random.pick(&world.users);
    let user = state.sessions.entry(session).or_insert(Session { user, position: None }).user;
    if !state.is_held(user, role) {
        state.assigned.insert((user, role));
    }
    state.active.insert((session, role));
    let carried = rights.values().filter(|_| random.percent(80));
    state.granted.extend(carried.map(|&permission| (role, permission)));
}
