//! Steps and answers as texts.

use super::form::{lines, read_form, Bad, Form};
use super::gate::Answer;
use super::numbers::{error, signed, whole};
use super::places::{Position, Reported};
use super::steps::{Action, Step};
use std::fmt;

pub fn read_steps(text: &[u8]) -> Result<Vec<Step>, Bad> {
    let numbered = lines(text).zip(1..);
    numbered.map(|(line, place)| read_step(line).ok_or(Bad { number: 10, place })).collect()
}

pub fn write_steps(steps: &[Step]) -> Vec<u8> {
    steps.iter().map(|step| format!("{step}\n")).collect::<String>().into_bytes()
}

pub fn write_answers(answers: &[Answer]) -> Vec<u8> {
    answers.iter().map(|answer| format!("{answer}\n")).collect::<String>().into_bytes()
}

/// Ranges are the step's own matter: 20 is an answer.
pub fn read_step(line: Option<&[u8]>) -> Option<Step> {
    let form = read_form(line)?;
    match form.list()? {
        [Form::Word("by"), session, action] => read_acting(session, action),
        _ => read_action(&form).map(Step::from),
    }
}

/// 2026-05: "`by` before any other step, or before another `by`, is 10 in a text"
fn read_acting(session: &Form, action: &Form) -> Option<Step> {
    let action = read_action(action).filter(|action| action.right_kind().is_some())?;
    Some(Step { acting: Some(whole(session)?), action })
}

fn read_action(form: &Form) -> Option<Action> {
    let (Form::Word(kind), fields) = form.list()?.split_first()? else { return None };
    if let ("move", [session, x, y, after @ ..]) = (*kind, fields) {
        let position = Position { x: signed(x)?, y: signed(y)? };
        let reported = Reported { position, error: error(after)? };
        return Some(Action::Move { session: whole(session)?, reported });
    }
    let fields: Vec<i64> = fields.iter().map(whole).collect::<Option<_>>()?;
    read_action_of(kind, &fields)
}

fn read_action_of(kind: &str, fields: &[i64]) -> Option<Action> {
    Some(match (kind, fields) {
        ("assign", &[user, role]) => Action::Assign { user, role },
        ("withdraw", &[user, role]) => Action::Withdraw { user, role },
        ("grant", &[role, permission]) => Action::Grant { role, permission },
        ("take", &[role, permission]) => Action::Take { role, permission },
        ("open", &[session, user]) => Action::Open { session, user },
        ("activate", &[session, role]) => Action::Activate { session, role },
        ("deactivate", &[session, role]) => Action::Deactivate { session, role },
        ("access", &[session, permission, object]) => {
            Action::Access { session, permission, object }
        }
        ("finish", &[object]) => Action::Finish { object },
        ("close", &[session]) => Action::Close { session },
        ("lost", &[session]) => Action::Lost { session },
        ("clock", &[time]) => Action::Clock { time },
        ("lend", &[lender, borrower, role, until]) => {
            Action::Lend { lender, borrower, role, until }
        }
        ("recall", &[lender, borrower, role]) => Action::Recall { lender, borrower, role },
        _ => return None,
    })
}

impl fmt::Display for Step {
    fn fmt(&self, out: &mut fmt::Formatter<'_>) -> fmt::Result {
        match self.acting {
            Some(session) => write!(out, "(by {session} {})", self.action),
            None => write!(out, "{}", self.action),
        }
    }
}

impl fmt::Display for Action {
    fn fmt(&self, out: &mut fmt::Formatter<'_>) -> fmt::Result {
        let name = self.name();
        match self {
            Action::Assign { user, role } | Action::Withdraw { user, role } => {
                write!(out, "({name} {user} {role})")
            }
            Action::Grant { role, permission } | Action::Take { role, permission } => {
                write!(out, "({name} {role} {permission})")
            }
            Action::Open { session, user } => write!(out, "({name} {session} {user})"),
            Action::Activate { session, role } | Action::Deactivate { session, role } => {
                write!(out, "({name} {session} {role})")
            }
            Action::Access { session, permission, object } => {
                write!(out, "({name} {session} {permission} {object})")
            }
            Action::Finish { object } => write!(out, "({name} {object})"),
            Action::Close { session } | Action::Lost { session } => {
                write!(out, "({name} {session})")
            }
            Action::Move { session, reported } => write!(out, "({name} {session} {reported})"),
            Action::Clock { time } => write!(out, "({name} {time})"),
            Action::Lend { lender, borrower, role, until } => {
                write!(out, "({name} {lender} {borrower} {role} {until})")
            }
            Action::Recall { lender, borrower, role } => {
                write!(out, "({name} {lender} {borrower} {role})")
            }
        }
    }
}
