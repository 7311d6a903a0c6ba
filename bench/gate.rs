// A gate after document 01 and request 2026-01 to compare with, in two ways: PLAIN tests every rule over the whole state at each step, else
// only the rules that the step selects are tested. It changes one state that is lent to it. It shares no code with crates/; the number of an
// answer has the form of `Answer::word`.
use std::process;

// ---- what goes in

pub const LAST_TIME: u64 = 3_155_759_999;

// A date is held as its day. The lists of gates.rs use weeks only.
#[allow(dead_code)]
#[derive(Clone, Copy)]
pub enum Term {
    Dates(u64, u64),
    Week(Week),
    Months(u64, u64),
    Nth(u64, u64),
    Every(u64, u64),
}

// hhmm as a number.
#[derive(Clone, Copy)]
pub struct Week {
    pub first: u64,
    pub last: u64,
    pub start: u64,
    pub end: u64,
}

#[derive(Clone, Copy)]
pub enum Shape {
    Circle { x: i64, y: i64, radius: i64 },
    Box { left: i64, bottom: i64, right: i64, top: i64 },
}

#[derive(Clone, Copy)]
pub enum Rule {
    Before(usize, usize),
    MaxUsers(usize, u32),
    MaxRoles(u32),
    MaxPermissions(usize, u32),
    MaxActive(u32),
    Apart(usize, usize),
    ApartActive(usize, usize),
    Needs(usize, usize),
    During(usize, Term),
    At(usize, bool, Shape),
    TwoHands(usize, usize),
    SameHand(usize, usize),
}

// The kinds of step, in the table's order.
pub const ASSIGN: u64 = 0;
pub const WITHDRAW: u64 = 1;
pub const GRANT: u64 = 2;
pub const TAKE: u64 = 3;
pub const OPEN: u64 = 4;
pub const ACTIVATE: u64 = 5;
pub const DEACTIVATE: u64 = 6;
pub const ACCESS: u64 = 7;
pub const FINISH: u64 = 8;
pub const CLOSE: u64 = 9;
pub const MOVE: u64 = 10;
pub const LOST: u64 = 11;
pub const CLOCK: u64 = 12;
pub const LEND: u64 = 13;
pub const RECALL: u64 = 14;

#[derive(Clone, Copy, Default)]
pub struct Step {
    pub kind: u64,
    pub first: u64,
    pub second: u64,
    pub third: u64,
    pub fourth: u64,
    pub x: i64,
    pub y: i64,
}

// Whole metres; the error is 0 where none is reported.
#[derive(Clone, Copy)]
pub struct Position {
    pub x: i32,
    pub y: i32,
    pub error: u32,
}

#[derive(Clone, Copy, Default)]
pub struct Session {
    // None where the session is closed.
    pub user: Option<usize>,
    pub position: Option<Position>,
    pub active: u32,
}

pub const MOST_LOANS: usize = 32;

#[derive(Clone, Copy)]
pub struct Loan {
    pub lender: usize,
    pub borrower: usize,
    pub role: usize,
    pub until: u64,
}

impl Loan {
    fn key(&self) -> (usize, usize, usize) {
        (self.lender, self.borrower, self.role)
    }
}

pub struct State {
    pub time: u64,
    pub assigned: [u32; 64],
    // "A role is held when assigned or on loan".
    pub held: [u32; 64],
    pub granted: [u32; 32],
    // In ascending order of their keys.
    pub loans: Vec<Loan>,
    pub sessions: [Session; 32],
    pub did: [[u64; 32]; 32],
}

impl State {
    pub fn fresh() -> State {
        State {
            time: 0,
            assigned: [0; 64],
            held: [0; 64],
            granted: [0; 32],
            loans: Vec::new(),
            sessions: [Session::default(); 32],
            did: [[0; 32]; 32],
        }
    }
}

pub fn has(set: u32, member: usize) -> bool {
    set >> member & 1 == 1
}

pub fn on_grid(metres: i64) -> bool {
    (-1_000_000..=1_000_000).contains(&metres)
}

// ---- a step

// The answer as one number: number, rule, selected, ended.
fn packed(number: u64, rule: u64, selected: u64, ended: u64) -> u64 {
    number + rule * 64 + selected * 16_384 + ended * 4_194_304
}

fn refused(number: u64) -> u64 {
    packed(number, 0, 0, 0)
}

pub fn step<const PLAIN: bool>(state: &mut State, rules: &[Rule], step: &Step) -> u64 {
    if !in_range(step) {
        return refused(20);
    }
    let kind = step.kind;
    let (first, second, third) = (step.first as usize, step.second as usize, step.third as usize);
    let mut gate = Gate::<PLAIN> { state, rules, kind };
    match kind {
        ASSIGN => gate.assign(first, second),
        WITHDRAW => gate.withdraw(first, second),
        GRANT => gate.grant(first, second),
        TAKE => gate.take(first, second),
        OPEN => gate.open(first, second),
        ACTIVATE => gate.activate(first, second),
        DEACTIVATE => gate.deactivate(first, second),
        ACCESS => gate.access(first, second, third),
        FINISH => gate.finish(first),
        CLOSE => gate.session_event(first, |session| *session = Session::default()),
        MOVE => gate.session_event(first, |session| session.position = Some(position_of(step))),
        LOST => gate.session_event(first, |session| session.position = None),
        CLOCK => gate.clock(step.first),
        LEND => gate.lend(Loan { lender: first, borrower: second, role: third, until: step.fourth }),
        _ => gate.recall((first, second, third)),
    }
}

// Inlined, for the call costs a step without rules a tenth of its speed; so is `event`.
#[inline(always)]
fn in_range(step: &Step) -> bool {
    let Step { kind, first, second, third, fourth, x, y } = *step;
    match kind {
        ASSIGN | WITHDRAW => first < 64 && second < 32,
        GRANT | TAKE | ACTIVATE | DEACTIVATE => first < 32 && second < 32,
        OPEN => first < 32 && second < 64,
        ACCESS => first < 32 && second < 32 && third < 32,
        FINISH | CLOSE | LOST => first < 32,
        MOVE => first < 32 && on_grid(x) && on_grid(y) && fourth <= 1000,
        CLOCK => first <= LAST_TIME,
        LEND => first < 64 && second < 64 && third < 32 && fourth <= LAST_TIME,
        RECALL => first < 64 && second < 64 && third < 32,
        _ => false,
    }
}

struct Gate<'a, const PLAIN: bool> {
    state: &'a mut State,
    rules: &'a [Rule],
    kind: u64,
}

// 'State and steps', and the request: each kind with its checks in their order.
impl<const PLAIN: bool> Gate<'_, PLAIN> {
    fn assign(&mut self, user: usize, role: usize) -> u64 {
        if has(self.state.held[user], role) {
            return refused(24);
        }
        self.state.assign(user, role);
        self.request(role, 0, |state| state.withdraw(user, role))
    }

    fn withdraw(&mut self, user: usize, role: usize) -> u64 {
        if !has(self.state.assigned[user], role) {
            return refused(25);
        }
        if self.state.sessions.iter().any(|session| session.user == Some(user) && has(session.active, role)) {
            return refused(27);
        }
        if self.state.loans.iter().any(|loan| loan.lender == user && loan.role == role) {
            return refused(27);
        }
        self.state.withdraw(user, role);
        self.request(role, 0, |state| state.assign(user, role))
    }

    fn grant(&mut self, role: usize, permission: usize) -> u64 {
        if has(self.state.granted[role], permission) {
            return refused(24);
        }
        self.state.granted[role] |= 1 << permission;
        self.request(role, 0, |state| state.granted[role] &= !(1 << permission))
    }

    fn take(&mut self, role: usize, permission: usize) -> u64 {
        if !has(self.state.granted[role], permission) {
            return refused(25);
        }
        self.state.granted[role] &= !(1 << permission);
        self.unselecting()
    }

    fn open(&mut self, session: usize, user: usize) -> u64 {
        if self.state.sessions[session].user.is_some() {
            return refused(22);
        }
        self.state.sessions[session] = Session { user: Some(user), position: None, active: 0 };
        self.unselecting()
    }

    fn activate(&mut self, session: usize, role: usize) -> u64 {
        let Some(user) = self.state.sessions[session].user else {
            return refused(23);
        };
        if has(self.state.sessions[session].active, role) {
            return refused(24);
        }
        if !has(self.state.held[user], role) {
            return refused(26);
        }
        self.state.sessions[session].active |= 1 << role;
        self.request(role, 0, |state| state.sessions[session].active &= !(1 << role))
    }

    // The pair (session, role) was active before and is not after.
    fn deactivate(&mut self, session: usize, role: usize) -> u64 {
        if self.state.sessions[session].user.is_none() {
            return refused(23);
        }
        if !has(self.state.sessions[session].active, role) {
            return refused(25);
        }
        self.state.sessions[session].active &= !(1 << role);
        self.request(role, 1, |state| state.sessions[session].active |= 1 << role)
    }

    fn access(&mut self, session: usize, permission: usize, object: usize) -> u64 {
        let Some(user) = self.state.sessions[session].user else {
            return refused(23);
        };
        let active = self.state.sessions[session].active;
        if !(0..32).any(|role| has(active, role) && has(self.state.granted[role], permission)) {
            return refused(28);
        }
        let old = self.state.did[object][permission];
        self.state.did[object][permission] = old | 1 << user;
        self.request(permission, 0, |state| state.did[object][permission] = old)
    }

    fn finish(&mut self, object: usize) -> u64 {
        self.state.did[object] = [0; 32];
        self.unselecting()
    }

    fn session_event(&mut self, session: usize, change: impl FnOnce(&mut Session)) -> u64 {
        if self.state.sessions[session].user.is_none() {
            return refused(23);
        }
        self.event(|state| change(&mut state.sessions[session]))
    }

    fn clock(&mut self, time: u64) -> u64 {
        if time < self.state.time {
            return refused(21);
        }
        self.event(|state| {
            state.time = time;
            state.end_loans(|loan| loan.until <= time);
        })
    }

    fn lend(&mut self, loan: Loan) -> u64 {
        let Loan { lender, borrower, role, until } = loan;
        if !has(self.state.assigned[lender], role) {
            return refused(50);
        }
        if has(self.state.held[borrower], role) {
            return refused(24);
        }
        if until <= self.state.time {
            return refused(52);
        }
        if self.state.loans.len() == MOST_LOANS {
            return refused(51);
        }
        let place = self.state.loans.partition_point(|other| other.key() < loan.key());
        self.state.loans.insert(place, loan);
        self.state.held[borrower] |= 1 << role;
        self.request(role, 0, |state| {
            state.loans.remove(place);
            state.held[borrower] &= !(1 << role);
        })
    }

    fn recall(&mut self, key: (usize, usize, usize)) -> u64 {
        if self.state.loans.binary_search_by_key(&key, Loan::key).is_err() {
            return refused(25);
        }
        self.event(|state| state.end_loans(|loan| loan.key() == key))
    }

    // A request whose target is made; `named` is the role or permission that the rules go by.
    fn request(&mut self, named: usize, ended: u64, undo: impl FnOnce(&mut State)) -> u64 {
        let (broken, selected) = judge::<PLAIN>(self.state, self.rules, self.kind, named);
        let Some(rule) = broken else {
            return packed(0, 0, selected, ended);
        };
        undo(self.state);
        packed(30, rule, selected, 0)
    }

    // A request that selects no rule; the plain gate tests them all the same.
    fn unselecting(&self) -> u64 {
        expect_kept::<PLAIN>(self.state, self.rules, "a request that selects no rule breaks one");
        packed(0, 0, 0, 0)
    }

    #[inline(always)]
    fn event(&mut self, change: impl FnOnce(&mut State)) -> u64 {
        let before = self.state.active_pairs();
        change(self.state);
        let selected = settle::<PLAIN>(self.state, self.rules, self.kind);
        packed(0, 0, selected, (before - self.state.active_pairs()) as u64)
    }
}

// The lowest broken rule, and the number selected.
fn judge<const PLAIN: bool>(state: &State, rules: &[Rule], kind: u64, named: usize) -> (Option<u64>, u64) {
    if PLAIN {
        let broken = rules.iter().position(|rule| !state.keeps(rule));
        let selected = rules.iter().filter(|rule| selects(kind, named, rule)).count();
        return (broken.map(|i| i as u64 + 1), selected as u64);
    }
    let mut broken = None;
    let mut selected = 0;
    for (i, rule) in rules.iter().enumerate() {
        if selects(kind, named, rule) {
            selected += 1;
            if broken.is_none() && !state.keeps(rule) {
                broken = Some(i as u64 + 1);
            }
        }
    }
    (broken, selected)
}

// Rules end roles until nothing changes; the number selected. `needs`, `during` and `at` let a pair stay in a part wherever they let it stay
// in a smaller one, so what is left contains every other part; no other family is broken by fewer active pairs. Inlined, for the call costs
// the selecting gate 3 to 5 % of its speed.
#[inline(always)]
fn settle<const PLAIN: bool>(state: &mut State, rules: &[Rule], kind: u64) -> u64 {
    let mut selected;
    loop {
        let mut some = false;
        selected = 0;
        for rule in rules {
            let is_selected = selects(kind, 0, rule);
            selected += is_selected as u64;
            if PLAIN || is_selected {
                some |= state.end_by(rule);
            }
        }
        if !some {
            break;
        }
    }
    expect_kept::<PLAIN>(state, rules, "no part under which every rule holds");
    selected
}

fn expect_kept<const PLAIN: bool>(state: &State, rules: &[Rule], otherwise: &str) {
    if PLAIN && !rules.iter().all(|rule| state.keeps(rule)) {
        println!("{otherwise}");
        process::exit(1);
    }
}

// The table's last column; "Lend selects max-users r, max-roles and apart naming r; recall selects all needs." Lines of their own for these two
// keep the match as quick as it was.
fn selects(kind: u64, named: usize, rule: &Rule) -> bool {
    match (kind, rule) {
        (ASSIGN, Rule::Before(r, _)) | (ASSIGN, Rule::MaxUsers(r, _)) => *r == named,
        (ASSIGN, Rule::MaxRoles(_)) => true,
        (ASSIGN, Rule::Apart(r, q)) => *r == named || *q == named,
        (LEND, Rule::MaxUsers(r, _)) => *r == named,
        (LEND, Rule::MaxRoles(_)) => true,
        (LEND, Rule::Apart(r, q)) => *r == named || *q == named,
        (WITHDRAW, Rule::Before(_, q)) => *q == named,
        (GRANT, Rule::MaxPermissions(r, _)) => *r == named,
        (ACTIVATE, Rule::MaxActive(_)) => true,
        (ACTIVATE, Rule::ApartActive(r, q)) => *r == named || *q == named,
        (ACTIVATE, Rule::Needs(r, _)) | (ACTIVATE, Rule::During(r, _)) | (ACTIVATE, Rule::At(r, _, _)) => *r == named,
        (DEACTIVATE, Rule::Needs(_, q)) => *q == named,
        (ACCESS, Rule::TwoHands(p, q)) | (ACCESS, Rule::SameHand(p, q)) => *p == named || *q == named,
        (CLOSE..=CLOCK, Rule::Needs(_, _)) => true,
        (RECALL, Rule::Needs(_, _)) => true,
        (MOVE | LOST, Rule::At(_, _, _)) => true,
        (CLOCK, Rule::During(_, _)) => true,
        _ => false,
    }
}

// ---- changes of the state

impl State {
    pub fn assign(&mut self, user: usize, role: usize) {
        self.assigned[user] |= 1 << role;
        self.held[user] |= 1 << role;
    }

    // Who is assigned a role has it from nobody on loan.
    fn withdraw(&mut self, user: usize, role: usize) {
        self.assigned[user] &= !(1 << role);
        self.held[user] &= !(1 << role);
    }

    // Some loans end, and every active role that is then not held is closed. Where none ends, all active roles are held as they were.
    fn end_loans(&mut self, is_ending: impl Fn(&Loan) -> bool) {
        let held = &mut self.held;
        let count = self.loans.len();
        self.loans.retain(|loan| {
            let ends = is_ending(loan);
            if ends {
                held[loan.borrower] &= !(1 << loan.role);
            }
            !ends
        });
        if self.loans.len() == count {
            return;
        }
        for session in &mut self.sessions {
            if let Some(user) = session.user {
                session.active &= held[user];
            }
        }
    }
}

// ---- a rule over the whole state

impl State {
    fn keeps(&self, rule: &Rule) -> bool {
        match *rule {
            Rule::Before(r, q) => self.assigned.iter().all(|&roles| !has(roles, r) || has(roles, q)),
            Rule::MaxUsers(r, n) => self.held.iter().filter(|&&roles| has(roles, r)).count() as u32 <= n,
            Rule::MaxRoles(n) => self.held.iter().all(|roles| roles.count_ones() <= n),
            Rule::MaxPermissions(r, n) => self.granted[r].count_ones() <= n,
            Rule::MaxActive(n) => self.sessions.iter().all(|session| session.active.count_ones() <= n),
            Rule::Apart(r, q) => self.held.iter().all(|&roles| !(has(roles, r) && has(roles, q))),
            Rule::ApartActive(r, q) => self.users_with_active(r) & self.users_with_active(q) == 0,
            Rule::Needs(r, q) => {
                let roles = self.active_anywhere();
                !has(roles, r) || has(roles, q)
            }
            Rule::During(r, ref term) => term_holds(term, self.time) || !has(self.active_anywhere(), r),
            Rule::At(r, inside, ref shape) => self
                .sessions
                .iter()
                .all(|session| !has(session.active, r) || side_holds(inside, shape, session.position)),
            Rule::TwoHands(p, q) => self.did.iter().all(|users| users[p] & users[q] == 0),
            Rule::SameHand(p, q) => self.did.iter().all(|users| (users[p] | users[q]).count_ones() <= 1),
        }
    }

    // One rule's say in an event: the pairs that it does not let stay end. True where one did.
    fn end_by(&mut self, rule: &Rule) -> bool {
        match *rule {
            Rule::Needs(r, q) => {
                let roles = self.active_anywhere();
                has(roles, r) && !has(roles, q) && self.end_role(r)
            }
            Rule::During(r, ref term) => !term_holds(term, self.time) && self.end_role(r),
            Rule::At(r, inside, ref shape) => {
                let mut some = false;
                for session in &mut self.sessions {
                    if has(session.active, r) && !side_holds(inside, shape, session.position) {
                        session.active &= !(1 << r);
                        some = true;
                    }
                }
                some
            }
            _ => false,
        }
    }

    fn end_role(&mut self, role: usize) -> bool {
        let mut some = false;
        for session in &mut self.sessions {
            some |= has(session.active, role);
            session.active &= !(1 << role);
        }
        some
    }

    fn active_anywhere(&self) -> u32 {
        self.sessions.iter().fold(0, |roles, session| roles | session.active)
    }

    fn active_pairs(&self) -> u32 {
        self.sessions.iter().map(|session| session.active.count_ones()).sum()
    }

    fn users_with_active(&self, role: usize) -> u64 {
        let mut users = 0;
        for session in &self.sessions {
            if let Some(user) = session.user {
                if has(session.active, role) {
                    users |= 1u64 << user;
                }
            }
        }
        users
    }
}

fn position_of(step: &Step) -> Position {
    Position { x: step.x as i32, y: step.y as i32, error: step.fourth as u32 }
}

// 'Places': "An unknown position is neither"; 2026-04: nor is an unsure one.
fn side_holds(inside: bool, shape: &Shape, position: Option<Position>) -> bool {
    let Some(Position { x: px, y: py, error }) = position else {
        return false;
    };
    let (px, py, error) = (px as i64, py as i64, error as i64);
    match *shape {
        Shape::Circle { x, y, radius } => {
            let distance = (px - x) * (px - x) + (py - y) * (py - y);
            if inside {
                error <= radius && distance <= (radius - error) * (radius - error)
            } else {
                distance > (radius + error) * (radius + error)
            }
        }
        Shape::Box { left, bottom, right, top } if inside => {
            left + error <= px && px + error <= right && bottom + error <= py && py + error <= top
        }
        Shape::Box { left, bottom, right, top } => {
            let (dx, dy) = (px - px.clamp(left, right), py - py.clamp(bottom, top));
            dx * dx + dy * dy > error * error
        }
    }
}

// ---- 'Calendar'

fn term_holds(term: &Term, time: u64) -> bool {
    let day = time / 86_400;
    match *term {
        Term::Dates(first, last) => first <= day && day <= last,
        Term::Week(ref week) => week_holds(week, time),
        Term::Months(first, last) => going_round(first, last, month_and_day(day).0),
        Term::Nth(number, on) => weekday(day) == on && (month_and_day(day).1 - 1) / 7 + 1 == number,
        Term::Every(number, first) => day >= first && (day - first) % number == 0,
    }
}

// 2026-03: "a shift belongs to the day it begins". Six days on is the weekday before.
fn week_holds(week: &Week, time: u64) -> bool {
    let minute = time % 86_400 / 60;
    let day = time / 86_400;
    let start = week.start / 100 * 60 + week.start % 100;
    let end = week.end / 100 * 60 + week.end % 100;
    let (begun, on_minute) = if week.start > week.end && minute < end {
        (day + 6, true)
    } else {
        (day, minute >= start && (week.start > week.end || minute < end))
    };
    on_minute && going_round(week.first, week.last, weekday(begun))
}

// From first to last, going past the end where first > last.
fn going_round(first: u64, last: u64, value: u64) -> bool {
    if first <= last {
        first <= value && value <= last
    } else {
        value >= first || value <= last
    }
}

fn weekday(day: u64) -> u64 {
    (day + 5) % 7 + 1
}

fn month_and_day(day: u64) -> (u64, u64) {
    let (cycle, within) = (day / 1461, day % 1461);
    let year = cycle * 4 + if within < 366 { 0 } else { (within - 1) / 365 };
    let of_year = day - days_before_year(year);
    let month = (0..12).rev().find(|&month| days_before_month(year, month) <= of_year).unwrap_or(0);
    (month as u64 + 1, of_year - days_before_month(year, month) + 1)
}

// Years are counted from 2000, which is a leap year as every fourth after it.
pub fn days_before_year(year: u64) -> u64 {
    year * 365 + (year + 3) / 4
}

// Months are counted from 0; 12 gives the whole year.
pub fn days_before_month(year: u64, month: usize) -> u64 {
    const COMMON: [u64; 13] = [0, 31, 59, 90, 120, 151, 181, 212, 243, 273, 304, 334, 365];
    COMMON[month] + (year % 4 == 0 && month >= 2) as u64
}
