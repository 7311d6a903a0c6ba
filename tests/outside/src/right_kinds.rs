//! The kinds of cases that rights and acting sessions bring (2026-05).

use crate::counts::{Kind, NOT_REFUSED};
use crate::plain::gate::{decide, Answer, Outcome};
use crate::plain::ranges::SESSIONS;
use crate::plain::rights::{RightKind, Rights};
use crate::plain::rule_text::read_rules;
use crate::plain::rules::RuleList;
use crate::plain::state::State;
use crate::plain::step_text::read_step;
use crate::plain::steps::{Action, Step};

const RIGHT_LINES: &str = "rule list read with right lines";
const RIGHT_LINE: &str = "rule list read with the right line of";
const RIGHTS_ALONE: &str = "rule list read with right lines and no rule";
const REFUSED_RIGHT: &str = "right line refused,";
const REFUSED_ACTING: &str = "line with by refused,";

const NUMBER_OF_LINES: &str = "in all";
const ANOTHER_WORD: &str = "of no such kind";
const PERMISSION_LEFT_OUT: &str = "permission left out";
const SECOND_OF_ITS_KIND: &str = "second of its kind";
const OUT_OF_ORDER: &str = "out of order";
const AFTER_A_RULE: &str = "after a rule";
const FIRST_LINE: &str = "as the first line";
const LEADING_ZERO: &str = "leading zero";
const MINUS: &str = "minus";
const ELEVEN_DIGITS: &str = "eleven digits";

const BADLY_WRITTEN: [&str; 3] = [LEADING_ZERO, MINUS, ELEVEN_DIGITS];
const PLACES_OF_12: [&str; 3] = [SECOND_OF_ITS_KIND, OUT_OF_ORDER, AFTER_A_RULE];

const ANOTHER_KIND: &str = "before another kind";
const ANOTHER_BY: &str = "before another by";
const NO_STEP: &str = "without a step";
const NO_SESSION: &str = "without a session";
const NOT_CLOSED: &str = "not closed";

const GRANTED_BY_RIGHT: &str = "granted by an acting session, right line, step";
const GRANTED_WITHOUT_LINE: &str = "granted by an acting session, no right line, step";
const GRANTED_WITHOUT_BY: &str = "granted without by under other right lines, step";
const RIGHT_LOST: &str = "the acting session loses its right by its own step";
const NOT_OPEN_WITH_LINE: &str = "53, right line, step";
const NOT_OPEN_WITHOUT_LINE: &str = "53, no right line, step";
const LACKING: &str = "54";
const LACKING_HIDES: &str = "54 of a step that would else be";
const OUTSIDE: &str = "20 of the acting session alone, step";
const OUTSIDE_FIRST: &str = "20 of a step whose acting session";

const OWN_STEP: &str = "own step of a user without rights granted";
const OWN_STEP_REFUSED: &str = "own step of a user without rights refused,";

const NO_ACTING_SESSION: &str = "no acting session";
const NO_ROLE_ACTIVE: &str = "no role active in the acting session";
const NONE_CARRIES: &str = "roles active and none carries the permission";
const HELD_NOT_ACTIVE: &str = "a role that the user holds carries it and is active nowhere";
const ACTIVE_ELSEWHERE: &str = "a role that carries it is active in another of his sessions";
const ACTIVE_FOR_ANOTHER: &str = "a role that carries it is active for another user alone";
const OTHER_RIGHT: &str = "an active role carries the permission of another right";

const CAUSES_OF_54: [&str; 7] = [
    NO_ACTING_SESSION,
    NO_ROLE_ACTIVE,
    NONE_CARRIES,
    HELD_NOT_ACTIVE,
    ACTIVE_ELSEWHERE,
    ACTIVE_FOR_ANOTHER,
    OTHER_RIGHT,
];
/// What the six kinds are refused with after 54.
const HIDDEN: [u64; 7] = [24, 25, 27, 30, 50, 51, 52];
/// What a user without rights can still be granted.
const OWN_STEPS: [&str; 9] =
    ["open", "activate", "deactivate", "access", "finish", "close", "move", "lost", "clock"];
const GRANTED: &str = "granted";
const REFUSED: &str = "refused with";
const IS_NOT_OPEN: &str = "is not open";
const LACKS_THE_RIGHT: &str = "lacks the right";

pub fn right_kinds_to_meet() -> Vec<Kind> {
    let mut kinds: Vec<Kind> = vec![(RIGHTS_ALONE, "", 0), (LACKING_HIDES, GRANTED, 0)];
    kinds.extend((1..=6).map(|number| (RIGHT_LINES, NUMBER_OF_LINES, number)));
    for kind in RightKind::ALL {
        let groups = [
            RIGHT_LINE,
            GRANTED_BY_RIGHT,
            GRANTED_WITHOUT_LINE,
            GRANTED_WITHOUT_BY,
            NOT_OPEN_WITH_LINE,
            NOT_OPEN_WITHOUT_LINE,
            OUTSIDE,
        ];
        kinds.extend(groups.map(|group| (group, kind.name(), 0)));
    }
    kinds.extend(["take", "recall"].map(|name| (RIGHT_LOST, name, 0)));
    kinds.extend([ANOTHER_WORD, PERMISSION_LEFT_OUT].map(|name| (REFUSED_RIGHT, name, 10)));
    kinds.extend(BADLY_WRITTEN.map(|name| (REFUSED_RIGHT, name, 10)));
    kinds.push((REFUSED_RIGHT, FIRST_LINE, 11));
    for place in PLACES_OF_12 {
        kinds.extend([11, 12].map(|number| (REFUSED_RIGHT, place, number)));
    }
    let acting = [ANOTHER_KIND, ANOTHER_BY, NO_STEP, NO_SESSION, NOT_CLOSED];
    kinds.extend(acting.map(|name| (REFUSED_ACTING, name, 10)));
    kinds.extend(BADLY_WRITTEN.map(|name| (REFUSED_ACTING, name, 10)));
    kinds.extend(CAUSES_OF_54.map(|name| (LACKING, name, 0)));
    kinds.extend(HIDDEN.map(|number| (LACKING_HIDES, REFUSED, number)));
    kinds.extend([IS_NOT_OPEN, LACKS_THE_RIGHT].map(|name| (OUTSIDE_FIRST, name, 0)));
    kinds.extend(OWN_STEPS.map(|name| (OWN_STEP, name, 0)));
    kinds.extend(RightKind::ALL.map(|kind| (OWN_STEP_REFUSED, kind.name(), 54)));
    kinds
}

/// What an accepted rule list shows.
pub fn list_kinds(list: &RuleList) -> Vec<Kind> {
    if list.rights.is_empty() {
        return Vec::new();
    }
    let mut kinds = vec![(RIGHT_LINES, NUMBER_OF_LINES, list.rights.len() as u64)];
    kinds.extend(list.rights.keys().map(|kind| (RIGHT_LINE, kind.name(), 0)));
    if list.rules.is_empty() {
        kinds.push((RIGHTS_ALONE, "", 0));
    }
    kinds
}

/// A refused right line: the lines before it are good.
pub fn refused_right_kind(before: &[u8], line: &[u8], number: u64) -> Option<Kind> {
    let line = std::str::from_utf8(line).ok()?.strip_prefix("(right ")?.strip_suffix(')')?;
    let (kind, permission) = line.split_once(' ').unwrap_or((line, ""));
    let name = match (number, RightKind::named(kind)) {
        (10, None) if is_plain(permission) && is_word(kind) => ANOTHER_WORD,
        (10, Some(_)) if permission.is_empty() => PERMISSION_LEFT_OUT,
        (10, Some(_)) => badly_written(permission)?,
        (11 | 12, Some(kind)) => place_of_right(&read_rules(before).ok()?, kind)?,
        _ => return None,
    };
    Some((REFUSED_RIGHT, name, number))
}

/// Where the right line stands, if there is but one thing to say of it.
fn place_of_right(list: &RuleList, kind: RightKind) -> Option<&'static str> {
    let is_second = list.rights.contains_key(&kind);
    let is_late = list.rights.keys().any(|&earlier| earlier > kind);
    match (is_second, is_late, !list.rules.is_empty()) {
        (true, false, false) => Some(SECOND_OF_ITS_KIND),
        (false, true, false) => Some(OUT_OF_ORDER),
        (false, false, true) => Some(AFTER_A_RULE),
        (false, false, false) if list.rights.is_empty() => Some(FIRST_LINE),
        _ => None,
    }
}

/// A line with `by` that is no form.
pub fn refused_acting_kind(line: &[u8]) -> Option<Kind> {
    let line = std::str::from_utf8(line).ok()?;
    let rest = line.strip_prefix("(by ")?;
    let is_step = |text: &str| read_step(Some(text.as_bytes())).is_some();
    let name = match rest.strip_suffix(')').and_then(|rest| rest.split_once(' ')) {
        _ if is_step(&format!("{line})")) => NOT_CLOSED,
        _ if rest.strip_suffix(')').is_some_and(is_plain) => NO_STEP,
        _ if is_step(&format!("(by 0 {rest}")) => NO_SESSION,
        Some((session, step)) if is_plain(session) && is_step(step) => {
            if step.starts_with("(by ") {
                ANOTHER_BY
            } else {
                ANOTHER_KIND
            }
        }
        Some((session, step)) if is_step(&format!("(by 0 {step})")) => badly_written(session)?,
        _ => return None,
    };
    Some((REFUSED_ACTING, name, 10))
}

fn is_word(text: &str) -> bool {
    !text.is_empty() && text.bytes().all(|byte| byte.is_ascii_lowercase())
}

/// A number as it should be written.
fn is_plain(text: &str) -> bool {
    read_step(Some(format!("(finish {text})").as_bytes())).is_some()
}

fn badly_written(number: &str) -> Option<&'static str> {
    let digits = number.strip_prefix('-').unwrap_or(number);
    if digits.is_empty() || !digits.bytes().all(|byte| byte.is_ascii_digit()) {
        return None;
    }
    match number.as_bytes() {
        [b'-', ..] => Some(MINUS),
        [b'0', _, ..] => Some(LEADING_ZERO),
        _ if number.len() == 11 => Some(ELEVEN_DIGITS),
        _ => None,
    }
}

/// What a step of the six kinds met. The state is the one after it: of a refused step the one
/// before it too.
pub fn acting_kinds(list: &RuleList, step: &Step, number: u64, outcome: &Outcome) -> Vec<Kind> {
    let Some(kind) = step.action.right_kind() else { return Vec::new() };
    let (rights, state, name) = (&list.rights, &outcome.state, kind.name());
    let needed = step.permission_needed(rights);
    match (number, step.acting, needed) {
        (NOT_REFUSED, Some(session), Some(permission)) => {
            let mut kinds = vec![(GRANTED_BY_RIGHT, name, 0)];
            if !state.is_carried_in(session, permission) {
                kinds.push((RIGHT_LOST, name, 0));
            }
            kinds
        }
        (NOT_REFUSED, Some(_), None) => vec![(GRANTED_WITHOUT_LINE, name, 0)],
        (NOT_REFUSED, None, _) if !rights.is_empty() => vec![(GRANTED_WITHOUT_BY, name, 0)],
        (20, Some(session), needed) => outside_kinds(step, session, needed, state),
        (53, _, Some(_)) => vec![(NOT_OPEN_WITH_LINE, name, 0)],
        (53, _, None) => vec![(NOT_OPEN_WITHOUT_LINE, name, 0)],
        (54, acting, Some(permission)) => {
            let mut kinds = causes_of_54(rights, state, acting, permission);
            kinds.push(hidden_kind(list, state, &step.action));
            kinds
        }
        _ => Vec::new(),
    }
}

fn outside_kinds(step: &Step, session: i64, needed: Option<i64>, state: &State) -> Vec<Kind> {
    if !SESSIONS.contains(&session) {
        let is_alone = step.action.is_in_range();
        return is_alone.then_some((OUTSIDE, step.action.name(), 0)).into_iter().collect();
    }
    if !state.is_open(session) {
        return vec![(OUTSIDE_FIRST, IS_NOT_OPEN, 0)];
    }
    let lacks = needed.is_some_and(|permission| !state.is_carried_in(session, permission));
    lacks.then_some((OUTSIDE_FIRST, LACKS_THE_RIGHT, 0)).into_iter().collect()
}

fn causes_of_54(rights: &Rights, state: &State, acting: Option<i64>, permission: i64) -> Vec<Kind> {
    let Some(session) = acting else { return vec![(LACKING, NO_ACTING_SESSION, 0)] };
    let user = state.sessions[&session].user;
    let held = state.roles_held_by(user);
    let mut carrying = held.iter().filter(|&&role| state.carries(role, permission));
    let is_held = carrying.clone().next().is_some();
    let is_active_for_him = carrying.any(|&role| state.is_active_for(user, role));
    let is_active_at_all =
        state.sessions.keys().any(|&other| state.is_carried_in(other, permission));
    let other_right = rights.values().any(|&other| state.is_carried_in(session, other));
    let has_active_roles = state.active_in(session).next().is_some();
    let causes = [
        (NO_ROLE_ACTIVE, !has_active_roles),
        (NONE_CARRIES, has_active_roles),
        (HELD_NOT_ACTIVE, is_held && !is_active_for_him),
        (ACTIVE_ELSEWHERE, is_active_for_him),
        (ACTIVE_FOR_ANOTHER, is_active_at_all && !is_active_for_him),
        (OTHER_RIGHT, other_right),
    ];
    causes.iter().filter(|(_, is_met)| *is_met).map(|&(name, _)| (LACKING, name, 0)).collect()
}

/// What the step would be answered without rights and acting session.
fn hidden_kind(list: &RuleList, state: &State, action: &Action) -> Kind {
    let without = RuleList { rights: Rights::new(), rules: list.rules.clone() };
    let step = Step::from(action.clone());
    match decide(&without, state, &step).answer {
        Answer::Yes { .. } => (LACKING_HIDES, GRANTED, 0),
        Answer::No { number, .. } => (LACKING_HIDES, REFUSED, number),
    }
}

pub fn own_step_kind(step: &Step, outcome: &Outcome) -> Kind {
    match outcome.answer {
        Answer::Yes { .. } => (OWN_STEP, step.action.name(), 0),
        Answer::No { number, .. } => (OWN_STEP_REFUSED, step.action.name(), number),
    }
}
