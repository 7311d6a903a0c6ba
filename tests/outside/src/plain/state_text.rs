//! The saved state as a text.

use super::form::{lines, read_form, Bad, Form};
use super::numbers::Numbers;
use super::places::Reported;
use super::ranges::{MOST_LOANS, OBJECTS, PERMISSIONS, ROLES, SESSIONS, TIMES, USERS};
use super::rules::{broken_rules, Rule};
use super::state::{Session, State};
use std::fmt;

/// Lines first, "then 17".
pub fn read_state(rules: &[Rule], text: &[u8]) -> Result<State, Bad> {
    let state = read_lines(text)?;
    match broken_rules(rules, &state).first() {
        Some(&rule) => Err(Bad { number: 17, place: rule }),
        None => Ok(state),
    }
}

pub fn write_state(state: &State) -> Vec<u8> {
    let mut saved = vec![Saved::Now { time: state.time }];
    saved.extend(state.assigned.iter().map(|&(user, role)| Saved::Assigned { user, role }));
    let granted = state.granted.iter();
    saved.extend(granted.map(|&(role, permission)| Saved::Granted { role, permission }));
    saved.extend(state.loans.iter().map(|(&(lender, borrower, role), &until)| Saved::Loan {
        lender,
        borrower,
        role,
        until,
    }));
    for (&session, Session { user, position }) in &state.sessions {
        saved.push(Saved::Open { session, user: *user });
        saved.extend(position.map(|reported| Saved::Place { session, reported }));
        saved.extend(state.active_in(session).map(|role| Saved::Active { session, role }));
    }
    let did = state.did.iter();
    saved.extend(did.map(|&(object, permission, user)| Saved::Did { object, permission, user }));
    saved.iter().map(|line| format!("{line}\n")).collect::<String>().into_bytes()
}

#[derive(Clone, Copy)]
enum Saved {
    Now { time: i64 },
    Assigned { user: i64, role: i64 },
    Granted { role: i64, permission: i64 },
    Loan { lender: i64, borrower: i64, role: i64, until: i64 },
    Open { session: i64, user: i64 },
    Place { session: i64, reported: Reported },
    Active { session: i64, role: i64 },
    Did { object: i64, permission: i64, user: i64 },
}

fn read_lines(text: &[u8]) -> Result<State, Bad> {
    let mut state = State::fresh();
    let mut last_key = None;
    for (line, place) in lines(text).zip(1..) {
        let saved = read_line(line, last_key, &state).map_err(|number| Bad { number, place })?;
        last_key = Some(saved.key());
        saved.add_to(&mut state);
    }
    match last_key {
        Some(_) => Ok(state),
        None => Err(Bad { number: 10, place: 1 }),
    }
}

/// "For each text line in order ... 10, 11, 15, 16"; 2026-01: 51 "looked for after 16"
fn read_line(line: Option<&[u8]>, last_key: Option<Key>, state: &State) -> Result<Saved, u64> {
    let mut numbers = Numbers::default();
    let form = read_form(line).ok_or(10u64)?;
    let saved = read_saved(&form, &mut numbers).ok_or(10u64)?;
    let is_next = match last_key {
        None => matches!(saved, Saved::Now { .. }),
        Some(last_key) => saved.key() > last_key,
    };
    if numbers.outside {
        Err(11)
    } else if !is_next {
        Err(15)
    } else if !saved.stands_on(state) {
        Err(16)
    } else if saved.is_one_loan_too_many(state) {
        Err(51)
    } else {
        Ok(saved)
    }
}

fn read_saved(form: &Form, numbers: &mut Numbers) -> Option<Saved> {
    Some(match form.list()? {
        [Form::Word("now"), time] => Saved::Now { time: numbers.whole(time, TIMES)? },
        [Form::Word("assigned"), user, role] => {
            Saved::Assigned { user: numbers.whole(user, USERS)?, role: numbers.whole(role, ROLES)? }
        }
        [Form::Word("granted"), role, permission] => Saved::Granted {
            role: numbers.whole(role, ROLES)?,
            permission: numbers.whole(permission, PERMISSIONS)?,
        },
        [Form::Word("loan"), lender, borrower, role, until] => Saved::Loan {
            lender: numbers.whole(lender, USERS)?,
            borrower: numbers.whole(borrower, USERS)?,
            role: numbers.whole(role, ROLES)?,
            until: numbers.whole(until, TIMES)?,
        },
        [Form::Word("open"), session, user] => Saved::Open {
            session: numbers.whole(session, SESSIONS)?,
            user: numbers.whole(user, USERS)?,
        },
        [Form::Word("place"), session, x, y, after @ ..] => Saved::Place {
            session: numbers.whole(session, SESSIONS)?,
            reported: numbers.reported(x, y, after)?,
        },
        [Form::Word("active"), session, role] => Saved::Active {
            session: numbers.whole(session, SESSIONS)?,
            role: numbers.whole(role, ROLES)?,
        },
        [Form::Word("did"), object, permission, user] => Saved::Did {
            object: numbers.whole(object, OBJECTS)?,
            permission: numbers.whole(permission, PERMISSIONS)?,
            user: numbers.whole(user, USERS)?,
        },
        _ => return None,
    })
}

/// Orders the lines. What there is at most one of, a session's user, position and error
/// and a loan's end, is no part of it: a second such line is "out of order or twice".
type Key = (u8, i64, i64, i64);

impl Saved {
    fn key(&self) -> Key {
        match *self {
            Saved::Now { .. } => (0, 0, 0, 0),
            Saved::Assigned { user, role } => (1, user, role, 0),
            Saved::Granted { role, permission } => (2, role, permission, 0),
            Saved::Loan { lender, borrower, role, .. } => (3, lender, borrower, role),
            Saved::Open { session, .. } => (4, session, 0, 0),
            Saved::Place { session, .. } => (4, session, 1, 0),
            Saved::Active { session, role } => (4, session, 2, role),
            Saved::Did { object, permission, user } => (5, object, permission, user),
        }
    }

    /// "place or active without its open, or role not assigned" is refused, where
    /// assigned is held by 2026-01; so is a loan "where u isn't assigned r, v already
    /// holds r or t is not later than now".
    fn stands_on(&self, state: &State) -> bool {
        match *self {
            Saved::Loan { lender, borrower, role, until } => {
                state.is_assigned(lender, role)
                    && !state.is_held(borrower, role)
                    && until > state.time
            }
            Saved::Place { session, .. } => state.is_open(session),
            Saved::Active { session, role } => state.is_held_in(session, role),
            _ => true,
        }
    }

    /// 2026-01: "a thirty-third is 51"
    fn is_one_loan_too_many(&self, state: &State) -> bool {
        matches!(self, Saved::Loan { .. }) && state.loans.len() >= MOST_LOANS
    }

    fn add_to(self, state: &mut State) {
        match self {
            Saved::Now { time } => state.time = time,
            Saved::Assigned { user, role } => drop(state.assigned.insert((user, role))),
            Saved::Granted { role, permission } => drop(state.granted.insert((role, permission))),
            Saved::Loan { lender, borrower, role, until } => {
                state.loans.insert((lender, borrower, role), until);
            }
            Saved::Open { session, user } => {
                state.sessions.insert(session, Session { user, position: None });
            }
            Saved::Place { session, reported } => {
                let opened = state.sessions.get_mut(&session).expect("the session is open");
                opened.position = Some(reported);
            }
            Saved::Active { session, role } => drop(state.active.insert((session, role))),
            Saved::Did { object, permission, user } => {
                state.did.insert((object, permission, user));
            }
        }
    }
}

impl fmt::Display for Saved {
    fn fmt(&self, out: &mut fmt::Formatter<'_>) -> fmt::Result {
        match self {
            Saved::Now { time } => write!(out, "(now {time})"),
            Saved::Assigned { user, role } => write!(out, "(assigned {user} {role})"),
            Saved::Granted { role, permission } => write!(out, "(granted {role} {permission})"),
            Saved::Loan { lender, borrower, role, until } => {
                write!(out, "(loan {lender} {borrower} {role} {until})")
            }
            Saved::Open { session, user } => write!(out, "(open {session} {user})"),
            Saved::Place { session, reported } => write!(out, "(place {session} {reported})"),
            Saved::Active { session, role } => write!(out, "(active {session} {role})"),
            Saved::Did { object, permission, user } => {
                write!(out, "(did {object} {permission} {user})")
            }
        }
    }
}
