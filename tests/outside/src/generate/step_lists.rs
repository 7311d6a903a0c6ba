//! Steps that make sense in the state they meet, most of the time.

use super::loans::loan_end;
use super::places::{drawn_error, near_a_border};
use super::random::Random;
use super::rule_lists::time_at_an_edge;
use super::world::World;
use crate::plain::calendar::{Term, SECONDS_OF_DAY};
use crate::plain::gate::{decide, Answer};
use crate::plain::own_steps::is_own_step;
use crate::plain::places::{Position, Reported, Side};
use crate::plain::ranges::{ERRORS, TIMES};
use crate::plain::rights::Rights;
use crate::plain::rules::{Rule, RuleList};
use crate::plain::state::State;
use crate::plain::steps::{Action, Step};

/// The steps, and the state that they lead to.
pub fn step_list(
    random: &mut Random,
    world: &World,
    list: &RuleList,
    start: &State,
    length: usize,
) -> (Vec<Step>, State) {
    let mut source = Source { random, world, list, state: start.clone() };
    let steps = (0..length).map(|_| source.next()).collect();
    (steps, source.state)
}

/// A user's own steps (2026-05), and the state that they lead to.
pub fn own_step_list(
    random: &mut Random,
    world: &World,
    list: &RuleList,
    start: &State,
    user: i64,
    length: usize,
) -> (Vec<Step>, State) {
    let mut source = Source { random, world, list, state: start.clone() };
    let steps = (0..length).map(|_| source.next_of(user)).collect();
    (steps, source.state)
}

/// Tries for a step that is a user's own.
const TRIES: usize = 40;

struct Source<'case> {
    random: &'case mut Random,
    world: &'case World,
    list: &'case RuleList,
    state: State,
}

#[derive(Clone, Copy)]
enum Kind {
    Assign,
    Withdraw,
    Grant,
    Take,
    Open,
    Activate,
    Deactivate,
    Access,
    Finish,
    Close,
    Move,
    Lost,
    Clock,
    Lend,
    Recall,
}

/// How often each kind comes: requests that build up more often than events
/// that end.
const KINDS: [(Kind, usize); 15] = [
    (Kind::Assign, 12),
    (Kind::Withdraw, 4),
    (Kind::Grant, 6),
    (Kind::Take, 2),
    (Kind::Open, 9),
    (Kind::Activate, 34),
    (Kind::Deactivate, 4),
    (Kind::Access, 9),
    (Kind::Finish, 2),
    (Kind::Close, 2),
    (Kind::Move, 8),
    (Kind::Lost, 2),
    (Kind::Clock, 4),
    (Kind::Lend, 8),
    (Kind::Recall, 3),
];

impl Source<'_> {
    fn next(&mut self) -> Step {
        let action = self.choose();
        let step = Step { acting: self.acting(&action), action };
        self.state = decide(self.list, &self.state, &step).state;
        step
    }

    fn next_of(&mut self, user: i64) -> Step {
        let own = (0..TRIES).find_map(|_| self.own_step(user));
        let step = own.unwrap_or(Step::from(Action::Clock { time: self.state.time }));
        self.state = decide(self.list, &self.state, &step).state;
        step
    }

    fn own_step(&mut self, user: i64) -> Option<Step> {
        let action = self.choose();
        let session = self.session_of(user);
        let acts = action.right_kind().is_some() && self.random.percent(80);
        let acting = session.filter(|_| acts);
        let step = Step { acting, action: self.turned_own(action, user, session) };
        is_own_step(&self.state, user, &step).then_some(step)
    }

    fn session_of(&mut self, user: i64) -> Option<i64> {
        let sessions = self.state.sessions.keys().copied();
        let own: Vec<i64> =
            sessions.filter(|&session| self.state.is_open_for(session, user)).collect();
        self.random.pick_any(&own)
    }

    /// Opened for the user, and in the session, where that is asked for.
    fn turned_own(&mut self, action: Action, user: i64, session: Option<i64>) -> Action {
        match (action, session) {
            (Action::Open { session, .. }, _) => Action::Open { session, user },
            (Action::Activate { role, .. }, Some(session)) => {
                let held = Vec::from_iter(self.state.roles_held_by(user));
                let role = self.random.pick_any(&held).unwrap_or(role);
                Action::Activate { session, role }
            }
            (Action::Access { permission, object, .. }, Some(session)) => {
                Action::Access { session, permission, object }
            }
            (Action::Move { reported, .. }, Some(session)) => Action::Move { session, reported },
            (action, _) => action,
        }
    }

    /// Mostly a session that has the right, where the kind has one and there is such a session.
    fn acting(&mut self, action: &Action) -> Option<i64> {
        let kind = action.right_kind()?;
        if self.random.percent(2) {
            return Some(*self.random.pick(&[32, 33, 64, 4_294_967_296, 9_999_999_999]));
        }
        let with_right = match self.list.rights.get(&kind) {
            Some(&permission) => self.sessions_that_carry(permission),
            None => Vec::new(),
        };
        match self.random.below(10) {
            0 => Some(*self.random.pick(&self.world.sessions)),
            1 => self.open_session(),
            2 => None,
            _ => self.random.pick_any(&with_right),
        }
    }

    fn sessions_that_carry(&self, permission: i64) -> Vec<i64> {
        let sessions = self.state.sessions.keys().copied();
        sessions.filter(|&session| self.state.is_carried_in(session, permission)).collect()
    }

    fn choose(&mut self) -> Action {
        let start = self.world.start;
        if self.state.time < start && self.random.percent(10) {
            return Action::Clock { time: start };
        }
        let likely = if self.random.percent(82) { self.likely_of_some_kind() } else { None };
        let step = likely.unwrap_or_else(|| self.any_of_some_kind());
        if self.random.percent(2) {
            self.with_a_number_outside(step)
        } else {
            step
        }
    }

    /// While no role is active, none of the steps that would end one.
    fn likely_of_some_kind(&mut self) -> Option<Action> {
        (0..8).find_map(|_| match self.kind() {
            kind if ends_roles(kind) && self.state.active.is_empty() => None,
            kind => self.likely(kind),
        })
    }

    fn any_of_some_kind(&mut self) -> Action {
        let kind = self.kind();
        self.any(kind)
    }

    fn kind(&mut self) -> Kind {
        let total: usize = KINDS.iter().map(|(_, weight)| weight).sum();
        let mut left = self.random.below(total);
        for (kind, weight) in KINDS {
            if left < weight {
                return kind;
            }
            left -= weight;
        }
        unreachable!("the weights add up to the total")
    }

    /// A step that no check before 30 refuses, where one is found.
    fn likely(&mut self, kind: Kind) -> Option<Action> {
        match kind {
            Kind::Withdraw => self.held_assignment(),
            Kind::Take => {
                let granted = self.random.pick_any(&Vec::from_iter(&self.state.granted));
                granted.map(|&(role, permission)| Action::Take { role, permission })
            }
            Kind::Activate => self.new_activation(),
            Kind::Deactivate => {
                let active = self.random.pick_any(&Vec::from_iter(&self.state.active));
                active.map(|&(session, role)| Action::Deactivate { session, role })
            }
            Kind::Access => self.carried_access(),
            Kind::Close => self.open_session().map(|session| Action::Close { session }),
            Kind::Lost => self.open_session().map(|session| Action::Lost { session }),
            Kind::Move => {
                let session = self.open_session()?;
                Some(Action::Move { session, reported: self.report_of(session) })
            }
            Kind::Open => self.new_session(),
            Kind::Lend => self.new_loan(),
            Kind::Recall => self.running_loan(),
            _ => self.not_refused(kind),
        }
    }

    /// Of a few steps of the kind, one that is not refused before 30.
    fn not_refused(&mut self, kind: Kind) -> Option<Action> {
        let steps = (0..6).map(|_| Step::from(self.any(kind)));
        let steps = Vec::from_iter(steps);
        let is_good = |step: &Step| step.refusal(&Rights::new(), &self.state).is_none();
        steps.into_iter().find(is_good).map(|step| step.action)
    }

    fn held_assignment(&mut self) -> Option<Action> {
        let held = Vec::from_iter(&self.state.assigned);
        let &(user, role) = self.random.pick_any(&held)?;
        Some(Action::Withdraw { user, role })
    }

    /// A user who holds a role is chosen more often than another.
    fn new_session(&mut self) -> Option<Action> {
        let step = self.not_refused(Kind::Open)?;
        let Action::Open { session, .. } = step else { return Some(step) };
        let holders: Vec<i64> = if self.random.percent(60) || self.state.loans.is_empty() {
            self.state.assigned.iter().map(|&(user, _)| user).collect()
        } else {
            self.state.loans.keys().map(|&(_, borrower, _)| borrower).collect()
        };
        let holder = self.random.pick_any(&holders).map(|user| Action::Open { session, user });
        Some(holder.unwrap_or(step))
    }

    /// One whose role is active is chosen more often than another.
    fn running_loan(&mut self) -> Option<Action> {
        let mut loans = Vec::from_iter(self.state.loans.keys().copied());
        if self.random.percent(60) {
            loans.retain(|&(_, borrower, role)| self.state.is_active_for(borrower, role));
        }
        let (lender, borrower, role) = self.random.pick_any(&loans)?;
        Some(Action::Recall { lender, borrower, role })
    }

    /// An assigned role, for a user of the world who does not hold it; now and then too late.
    fn new_loan(&mut self) -> Option<Action> {
        let assigned = Vec::from_iter(&self.state.assigned);
        let &(lender, role) = self.random.pick_any(&assigned)?;
        let users = self.world.users.iter().copied();
        let others: Vec<i64> = users.filter(|&user| !self.state.is_held(user, role)).collect();
        let borrower = self.random.pick_any(&others)?;
        let until = if self.random.percent(10) {
            self.until()
        } else {
            loan_end(self.random, self.state.time)
        };
        Some(Action::Lend { lender, borrower, role, until })
    }

    fn open_session(&mut self) -> Option<i64> {
        let open: Vec<i64> = self.state.sessions.keys().copied().collect();
        self.random.pick_any(&open)
    }

    /// One that is granted, where a few tries find it.
    fn new_activation(&mut self) -> Option<Action> {
        let steps = (0..4).filter_map(|_| self.possible_activation().map(Step::from));
        let steps = Vec::from_iter(steps);
        let is_granted = |step: &&Step| {
            matches!(decide(self.list, &self.state, step).answer, Answer::Yes { .. })
        };
        steps.iter().find(is_granted).or(steps.first()).map(|step| step.action.clone())
    }

    fn possible_activation(&mut self) -> Option<Action> {
        let session = self.open_session()?;
        let user = self.state.sessions[&session].user;
        let held = self.state.roles_held_by(user).into_iter();
        let roles: Vec<i64> = held.filter(|&role| !self.state.is_active(session, role)).collect();
        self.random.pick_any(&roles).map(|role| Action::Activate { session, role })
    }

    fn carried_access(&mut self) -> Option<Action> {
        let active = Vec::from_iter(&self.state.active);
        let &(session, role) = self.random.pick_any(&active)?;
        let granted = self.state.granted.range((role, 0)..(role + 1, 0));
        let permissions: Vec<i64> = granted.map(|&(_, permission)| permission).collect();
        let permission = self.random.pick_any(&permissions)?;
        let object = *self.random.pick(&self.world.objects);
        Some(Action::Access { session, permission, object })
    }

    /// A step of the kind with any numbers of the world.
    fn any(&mut self, kind: Kind) -> Action {
        let world = self.world;
        let user = *self.random.pick(&world.users);
        let other = *self.random.pick(&world.users);
        let role = *self.random.pick(&world.roles);
        let permission = *self.random.pick(&world.permissions);
        let session = *self.random.pick(&world.sessions);
        let object = *self.random.pick(&world.objects);
        match kind {
            Kind::Assign => Action::Assign { user, role },
            Kind::Withdraw => Action::Withdraw { user, role },
            Kind::Grant => Action::Grant { role, permission },
            Kind::Take => Action::Take { role, permission },
            Kind::Open => Action::Open { session, user },
            Kind::Activate => Action::Activate { session, role },
            Kind::Deactivate => Action::Deactivate { session, role },
            Kind::Access => Action::Access { session, permission, object },
            Kind::Finish => Action::Finish { object },
            Kind::Close => Action::Close { session },
            Kind::Move => Action::Move { session, reported: self.report() },
            Kind::Lost => Action::Lost { session },
            Kind::Clock => Action::Clock { time: self.time() },
            Kind::Lend => Action::Lend { lender: user, borrower: other, role, until: self.until() },
            Kind::Recall => Action::Recall { lender: user, borrower: other, role },
        }
    }

    /// Half of the time one that has come already.
    fn until(&mut self) -> i64 {
        let now = self.state.time;
        match self.random.below(4) {
            0 => now,
            1 => (now - 1).max(*TIMES.start()),
            _ => loan_end(self.random, now),
        }
    }

    fn time(&mut self) -> i64 {
        let now = self.state.time;
        let ends = Vec::from_iter(self.state.loans.values().copied());
        if !ends.is_empty() && self.random.percent(40) {
            let end = *self.random.pick(&ends) + self.random.between(-1, 1);
            return end.min(*TIMES.end());
        }
        let terms: Vec<_> = self.list.rules.iter().filter_map(term_of).collect();
        let time = match self.random.below(20) {
            0 => now - 1,
            1 => now,
            2..=3 => now + self.random.between(1, 3600),
            4 => now + self.random.between(1, 3 * SECONDS_OF_DAY),
            5..=16 if !terms.is_empty() => {
                let term = *self.random.pick(&terms);
                time_at_an_edge(self.random, term, now)
            }
            _ => now + self.random.between(0, 60) * 60,
        };
        time.clamp(*TIMES.start(), *TIMES.end())
    }

    /// Now and then where the session is, with another error.
    fn report_of(&mut self, session: i64) -> Reported {
        match self.state.sessions[&session].position {
            Some(Reported { position, .. }) if self.random.percent(20) => {
                Reported { position, error: drawn_error(self.random) }
            }
            _ => self.report(),
        }
    }

    /// Half of the time one at which more of the `at` rules hold than at others.
    fn report(&mut self) -> Reported {
        let tries = if self.random.percent(50) { 5 } else { 1 };
        let reports: Vec<Reported> = (0..tries).map(|_| self.any_report()).collect();
        let sides: Vec<Side> = self.list.rules.iter().filter_map(side_of).collect();
        let kept =
            |report: &Reported| sides.iter().filter(|side| side.holds(Some(*report))).count();
        reports.into_iter().max_by_key(kept).expect("there is a try")
    }

    fn any_report(&mut self) -> Reported {
        let sides: Vec<Side> = self.list.rules.iter().filter_map(side_of).collect();
        if let Some(side) = self.random.pick_any(&sides) {
            if self.random.percent(85) {
                return near_a_border(self.random, side.shape());
            }
        }
        let position =
            Position { x: self.random.between(-30, 30), y: self.random.between(-30, 30) };
        Reported { position, error: drawn_error(self.random) }
    }

    fn with_a_number_outside(&mut self, step: Action) -> Action {
        let outside = *self.random.pick(&[64, 65, 100, 4_294_967_296, 9_999_999_999]);
        match step {
            Action::Assign { user, .. } => Action::Assign { user, role: outside },
            Action::Withdraw { role, .. } => Action::Withdraw { user: outside, role },
            Action::Grant { role, .. } => Action::Grant { role, permission: outside },
            Action::Take { permission, .. } => Action::Take { role: outside, permission },
            Action::Open { session, .. } => Action::Open { session, user: outside },
            Action::Activate { role, .. } => Action::Activate { session: outside, role },
            Action::Deactivate { session, .. } => Action::Deactivate { session, role: outside },
            Action::Access { session, permission, .. } => {
                Action::Access { session, permission, object: outside }
            }
            Action::Finish { .. } => Action::Finish { object: outside },
            Action::Close { .. } => Action::Close { session: outside },
            Action::Lost { .. } => Action::Lost { session: outside },
            Action::Move { session, reported } => {
                Action::Move { session, reported: self.report_with_a_number_outside(reported) }
            }
            Action::Clock { .. } => {
                Action::Clock { time: *self.random.pick(&[TIMES.end() + 1, 9_999_999_999]) }
            }
            Action::Lend { lender, borrower, role, .. } => {
                let until = *self.random.pick(&[TIMES.end() + 1, 9_999_999_999]);
                Action::Lend { lender, borrower, role, until }
            }
            Action::Recall { lender, role, .. } => {
                Action::Recall { lender, borrower: outside, role }
            }
        }
    }

    /// Some are in their range if only their lowest bits are looked at.
    fn report_with_a_number_outside(&mut self, reported: Reported) -> Reported {
        if self.random.percent(40) {
            let x = *self.random.pick(&[-1_000_001, 1_000_001, 9_999_999_999]);
            let position = Position { x, ..reported.position };
            return Reported { position, ..reported };
        }
        let largest = *ERRORS.end();
        let outside = [largest + 1, largest + 1, 65_537, 4_294_967_297, 9_999_999_999];
        Reported { error: *self.random.pick(&outside), ..reported }
    }
}

fn term_of(rule: &Rule) -> Option<&Term> {
    match rule {
        Rule::During { term, .. } => Some(term),
        _ => None,
    }
}

fn side_of(rule: &Rule) -> Option<Side> {
    match rule {
        Rule::At { side, .. } => Some(*side),
        _ => None,
    }
}

fn ends_roles(kind: Kind) -> bool {
    matches!(
        kind,
        Kind::Withdraw
            | Kind::Take
            | Kind::Deactivate
            | Kind::Close
            | Kind::Lost
            | Kind::Clock
            | Kind::Recall
    )
}
