// The texts of document 01 in Rust, to compare with: rules and steps read, run on the selecting gate of gate.rs and answered; a saved state
// read under no rules and written. No code is shared with crates/.
//
//     texts steps|saved TIMES < text
//
// does it so often and prints a checksum of what was written and its length, as crates/text_speed does.
mod checksum;
mod gate;

use gate::{
    has, on_grid, Position, Rule, Session, Shape, State, Step, Term, Week, ACCESS, ACTIVATE, ASSIGN, CLOCK, CLOSE, DEACTIVATE, FINISH, GRANT,
    LAST_TIME, LOST, MOVE, OPEN, TAKE, WITHDRAW,
};
use std::hint::black_box;
use std::io::Read;
use std::{env, process};

const MOST_BYTES: usize = 65_536;
const ROOM: usize = 1_048_576;

fn main() {
    let words: Vec<String> = env::args().collect();
    let [_, kind, times] = &words[..] else {
        println!("texts steps|saved TIMES < text");
        process::exit(2);
    };
    let mut input = Vec::new();
    std::io::stdin().read_to_end(&mut input).unwrap();
    let mut out = cleared();
    for _ in 0..times.parse().unwrap() {
        if kind == "steps" {
            respond(black_box(&input), &mut out);
        } else {
            let state = read_state(black_box(&input)).unwrap_or_else(|_| State::fresh());
            write_state(black_box(&state), &mut out);
        }
        black_box(&out);
    }
    println!("{} {}", out.iter().fold(0, |sum, &byte| checksum::added(sum, byte as u64)), out.len());
}

// Room that is cleared once and then written over each time, as in crates/text_speed.
fn cleared() -> Vec<u8> {
    let mut out = Vec::with_capacity(ROOM);
    out.resize(ROOM, 0);
    black_box(&mut out).clear();
    out
}

// ---- "One form a line, single spaces, line feed after each"

// The rest of a text.
#[derive(Clone, Copy)]
struct Text<'a> {
    rest: &'a [u8],
}

impl<'a> Text<'a> {
    fn literal(&mut self, bytes: &[u8]) -> Option<()> {
        self.rest = self.rest.strip_prefix(bytes)?;
        Some(())
    }

    // The letters and minuses up to a space or a bracket.
    fn word(&mut self) -> &'a [u8] {
        let length = self.rest.iter().position(|&byte| !(byte.is_ascii_lowercase() || byte == b'-')).unwrap_or(self.rest.len());
        let (word, rest) = self.rest.split_at(length);
        self.rest = rest;
        word
    }

    // "no leading zeros ..; at most 10 digits"
    fn number(&mut self) -> Option<i64> {
        let count = self.rest.iter().take(10).take_while(|byte| byte.is_ascii_digit()).count();
        let count = if self.rest.first() == Some(&b'0') { 1 } else { count };
        if count == 0 { None } else { self.digits(count) }
    }

    // "a minus only before x, y and box ends, never before 0"
    fn signed(&mut self) -> Option<i64> {
        if self.rest.first() != Some(&b'-') {
            return self.number();
        }
        self.rest = &self.rest[1..];
        let amount = self.number()?;
        if amount == 0 { None } else { Some(-amount) }
    }

    // yyyymmdd and hhmm
    fn digits(&mut self, count: usize) -> Option<i64> {
        let bytes = self.rest.get(..count)?;
        let mut value = 0;
        for byte in bytes {
            if !byte.is_ascii_digit() {
                return None;
            }
            value = value * 10 + (byte - b'0') as i64;
        }
        self.rest = &self.rest[count..];
        Some(value)
    }

    // Numbers after a space each.
    fn spaced<const N: usize>(&mut self, read: impl Fn(&mut Self) -> Option<i64>) -> Option<[i64; N]> {
        let mut values = [0; N];
        for value in &mut values {
            self.literal(b" ")?;
            *value = read(self)?;
        }
        Some(values)
    }

    fn numbers<const N: usize>(&mut self) -> Option<[i64; N]> {
        self.spaced(Text::number)
    }

    fn signed_numbers<const N: usize>(&mut self) -> Option<[i64; N]> {
        self.spaced(Text::signed)
    }

    fn fixed_numbers<const N: usize>(&mut self, count: usize) -> Option<[i64; N]> {
        self.spaced(|text| text.digits(count))
    }
}

fn within(value: i64, low: i64, high: i64) -> bool {
    low <= value && value <= high
}

// ---- rules

// A line's own number and its rule, or the refusal of what stands in it: 11, or 13 and 14, between which 12 has its place.
enum Judged {
    Rule(Rule),
    Late(u64),
    OutOfRange,
}

fn two_roles(r: i64, q: i64, rule: fn(usize, usize) -> Rule) -> Judged {
    if !(within(r, 0, 31) && within(q, 0, 31)) {
        return Judged::OutOfRange;
    }
    if r == q {
        return Judged::Late(13);
    }
    Judged::Rule(rule(r as usize, q as usize))
}

fn limited(r: i64, n: i64, most: i64, rule: fn(usize, u32) -> Rule) -> Judged {
    if within(r, 0, 31) && within(n, 0, most) {
        Judged::Rule(rule(r as usize, n as u32))
    } else {
        Judged::OutOfRange
    }
}

// None where the line is no form.
fn rule_line(text: &mut Text) -> Option<(i64, Judged)> {
    text.literal(b"(rule ")?;
    let number = text.number()?;
    text.literal(b" (")?;
    let judged = match text.word() {
        b"before" => pair(text, Rule::Before)?,
        b"max-users" => {
            let [r, n] = text.numbers()?;
            limited(r, n, 64, Rule::MaxUsers)
        }
        b"max-roles" => {
            let [n] = text.numbers()?;
            limited(0, n, 32, |_, n| Rule::MaxRoles(n))
        }
        b"max-permissions" => {
            let [r, n] = text.numbers()?;
            limited(r, n, 32, Rule::MaxPermissions)
        }
        b"max-active" => {
            let [n] = text.numbers()?;
            limited(0, n, 32, |_, n| Rule::MaxActive(n))
        }
        b"apart" => pair(text, Rule::Apart)?,
        b"apart-active" => pair(text, Rule::ApartActive)?,
        b"needs" => pair(text, Rule::Needs)?,
        b"during" => during(text)?,
        b"at" => at(text)?,
        b"two-hands" => pair(text, Rule::TwoHands)?,
        b"same-hand" => pair(text, Rule::SameHand)?,
        _ => return None,
    };
    text.literal(b"))\n")?;
    let judged = if within(number, 1, 128) { judged } else { Judged::OutOfRange };
    Some((number, judged))
}

fn pair(text: &mut Text, rule: fn(usize, usize) -> Rule) -> Option<Judged> {
    let [r, q] = text.numbers()?;
    Some(two_roles(r, q, rule))
}

fn during(text: &mut Text) -> Option<Judged> {
    let [r] = text.numbers()?;
    text.literal(b" (")?;
    let (in_range, term) = term(text)?;
    text.literal(b")")?;
    if !(in_range && within(r, 0, 31)) {
        return Some(Judged::OutOfRange);
    }
    Some(term.map_or(Judged::Late(14), |term| Judged::Rule(Rule::During(r as usize, term))))
}

// Whether its numbers are in range, and the term where 14 does not refuse it.
fn term(text: &mut Text) -> Option<(bool, Option<Term>)> {
    let read = match text.word() {
        b"dates" => {
            let [a, b] = text.fixed_numbers(8)?;
            let days = day_of(a).zip(day_of(b)).filter(|(a, b)| a <= b);
            (is_date(a) && is_date(b), days.map(|(a, b)| Term::Dates(a, b)))
        }
        b"week" => {
            let [a, b] = text.numbers()?;
            let [h, k] = text.fixed_numbers(4)?;
            let in_range = within(a, 1, 7) && within(b, 1, 7) && within(h, 0, 2359) && within(k, 1, 2400) && h % 100 < 60 && k % 100 < 60;
            let week = Week { first: a as u64, last: b as u64, start: h as u64, end: k as u64 };
            (in_range, if h == k { None } else { Some(Term::Week(week)) })
        }
        b"months" => {
            let [a, b] = text.numbers()?;
            (within(a, 1, 12) && within(b, 1, 12), Some(Term::Months(a as u64, b as u64)))
        }
        b"nth" => {
            let [k, d] = text.numbers()?;
            (within(k, 1, 5) && within(d, 1, 7), Some(Term::Nth(k as u64, d as u64)))
        }
        b"every" => {
            let [n] = text.numbers()?;
            let [a] = text.fixed_numbers(8)?;
            (within(n, 1, 1000) && is_date(a), day_of(a).map(|a| Term::Every(n as u64, a)))
        }
        _ => return None,
    };
    Some(read)
}

// yyyymmdd of the years 2000 to 2099
fn is_date(date: i64) -> bool {
    within(date, 20_000_000, 20_999_999)
}

// None where there is no such date.
fn day_of(date: i64) -> Option<u64> {
    let (month, day) = (date / 100 % 100, (date % 100) as u64);
    if !(is_date(date) && within(month, 1, 12)) {
        return None;
    }
    let year = (date / 10_000 - 2000) as u64;
    let before = gate::days_before_month(year, month as usize - 1);
    if day < 1 || day > gate::days_before_month(year, month as usize) - before {
        return None;
    }
    Some(gate::days_before_year(year) + before + day - 1)
}

fn at(text: &mut Text) -> Option<Judged> {
    let [r] = text.numbers()?;
    text.literal(b" (")?;
    let inside = match text.word() {
        b"inside" => true,
        b"outside" => false,
        _ => return None,
    };
    text.literal(b" (")?;
    let (in_range, sound, shape) = match text.word() {
        b"circle" => {
            let [x, y] = text.signed_numbers()?;
            let [radius] = text.numbers()?;
            (on_grid(x) && on_grid(y) && within(radius, 1, 100_000), true, Shape::Circle { x, y, radius })
        }
        b"box" => {
            let [left, bottom, right, top] = text.signed_numbers()?;
            let in_range = on_grid(left) && on_grid(bottom) && on_grid(right) && on_grid(top);
            (in_range, left <= right && bottom <= top, Shape::Box { left, bottom, right, top })
        }
        _ => return None,
    };
    text.literal(b"))")?;
    if !(in_range && within(r, 0, 31)) {
        return Some(Judged::OutOfRange);
    }
    Some(if sound { Judged::Rule(Rule::At(r as usize, inside, shape)) } else { Judged::Late(14) })
}

// The good lines at the front of a text, with the refusal of the next, 10 where the text ends there.
fn read_rules(text: &mut Text) -> (Vec<Rule>, u64) {
    let mut rules = Vec::with_capacity(128);
    loop {
        let mut line = *text;
        let Some((number, judged)) = rule_line(&mut line) else {
            return (rules, 10);
        };
        let refusal = match judged {
            Judged::OutOfRange => 11,
            _ if number != rules.len() as i64 + 1 => 12,
            Judged::Late(refusal) => refusal,
            Judged::Rule(rule) => {
                rules.push(rule);
                *text = line;
                continue;
            }
        };
        return (rules, refusal);
    }
}

// ---- steps

// None where the line is no form; a number out of range is for the gate to refuse.
fn step_line(text: &mut Text) -> Option<Step> {
    text.literal(b"(")?;
    let mut step = Step::default();
    let (kind, count) = match text.word() {
        b"assign" => (ASSIGN, 2),
        b"withdraw" => (WITHDRAW, 2),
        b"grant" => (GRANT, 2),
        b"take" => (TAKE, 2),
        b"open" => (OPEN, 2),
        b"activate" => (ACTIVATE, 2),
        b"deactivate" => (DEACTIVATE, 2),
        b"access" => (ACCESS, 3),
        b"finish" => (FINISH, 1),
        b"close" => (CLOSE, 1),
        b"move" => (MOVE, 1),
        b"lost" => (LOST, 1),
        b"clock" => (CLOCK, 1),
        _ => return None,
    };
    step.kind = kind;
    let [first] = text.numbers()?;
    step.first = first as u64;
    if count > 1 {
        let [second] = text.numbers()?;
        step.second = second as u64;
    }
    if count > 2 {
        let [third] = text.numbers()?;
        step.third = third as u64;
    }
    if kind == MOVE {
        [step.x, step.y] = text.signed_numbers()?;
    }
    text.literal(b")\n")?;
    Some(step)
}

fn put_number(value: u64, out: &mut Vec<u8>) {
    let mut digits = [0; 20];
    let mut start = digits.len();
    let mut rest = value;
    loop {
        start -= 1;
        digits[start] = b'0' + (rest % 10) as u8;
        rest /= 10;
        if rest == 0 {
            break;
        }
    }
    out.extend_from_slice(&digits[start..]);
}

fn put_line(word: &[u8], values: &[u64], out: &mut Vec<u8>) {
    out.push(b'(');
    out.extend_from_slice(word);
    for &value in values {
        out.push(b' ');
        put_number(value, out);
    }
    out.extend_from_slice(b")\n");
}

// "rules, `(steps)`, steps": the answers, or only what is bad.
fn respond(input: &[u8], out: &mut Vec<u8>) {
    out.clear();
    if input.len() > MOST_BYTES {
        return put_line(b"bad", &[19, 0], out);
    }
    let mut text = Text { rest: input };
    let (rules, refusal) = read_rules(&mut text);
    if text.literal(b"(steps)\n").is_none() {
        return put_line(b"bad", &[refusal, rules.len() as u64 + 1], out);
    }
    let mut steps = Vec::new();
    while !text.rest.is_empty() {
        let Some(step) = step_line(&mut text) else {
            return put_line(b"bad", &[10, (rules.len() + steps.len()) as u64 + 2], out);
        };
        steps.push(step);
    }
    let mut state = State::fresh();
    for step in &steps {
        let answer = gate::step::<false>(&mut state, &rules, step);
        let (number, rule, selected, ended) = (answer % 64, answer / 64 % 256, answer / 16_384 % 256, answer / 4_194_304);
        if number == 0 {
            put_line(b"yes", &[selected, ended], out);
        } else {
            put_line(b"no", &[number, rule, selected], out);
        }
    }
}

// ---- saved states

// A line's rank among all that can be, or its refusal: 10, 11, then 15, then 16. A good line goes into the state.
fn saved_line(text: &mut Text, next: usize, state: &mut State) -> Result<usize, u64> {
    let (form, values) = saved_form(text).ok_or(10u64)?;
    if !is_saved_in_range(form, values) {
        return Err(11);
    }
    let rank = saved_rank(form, values.map(|value| value as usize));
    if if next == 0 { rank != 0 } else { rank < next } {
        return Err(15);
    }
    put_saved(form, values, state).ok_or(16u64)?;
    Ok(rank)
}

fn is_saved_in_range(form: u64, [a, b, c]: [i64; 3]) -> bool {
    match form {
        0 => within(a, 0, LAST_TIME as i64),
        1 => within(a, 0, 63) && within(b, 0, 31),
        2 | 5 => within(a, 0, 31) && within(b, 0, 31),
        3 => within(a, 0, 31) && within(b, 0, 63),
        4 => within(a, 0, 31) && on_grid(b) && on_grid(c),
        _ => within(a, 0, 31) && within(b, 0, 31) && within(c, 0, 63),
    }
}

// Of each session one line opens it, one places it, and 32 are for its roles.
fn saved_rank(form: u64, [a, b, c]: [usize; 3]) -> usize {
    match form {
        0 => 0,
        1 => 1 + a * 32 + b,
        2 => 2049 + a * 32 + b,
        3 => 3073 + a * 34,
        4 => 3073 + a * 34 + 1,
        5 => 3073 + a * 34 + 2 + b,
        _ => 4161 + (a * 32 + b) * 64 + c,
    }
}

// None where the line does not rest on those before it.
fn put_saved(form: u64, [a, b, c]: [i64; 3], state: &mut State) -> Option<()> {
    let (i, j, k) = (a as usize, b as usize, c as usize);
    match form {
        0 => state.time = a as u64,
        1 => state.assign(i, j),
        2 => state.granted[i] |= 1 << j,
        3 => state.sessions[i] = Session { user: Some(j), ..Session::default() },
        4 => {
            state.sessions[i].user?;
            state.sessions[i].position = Some(Position { x: b as i32, y: c as i32, error: 0 });
        }
        5 => {
            let user = state.sessions[i].user?;
            if !has(state.held[user], j) {
                return None;
            }
            state.sessions[i].active |= 1 << j;
        }
        _ => state.did[i][j] |= 1 << k,
    }
    Some(())
}

fn saved_form(text: &mut Text) -> Option<(u64, [i64; 3])> {
    text.literal(b"(")?;
    let (form, count) = match text.word() {
        b"now" => (0, 1),
        b"assigned" => (1, 2),
        b"granted" => (2, 2),
        b"open" => (3, 2),
        b"place" => (4, 1),
        b"active" => (5, 2),
        b"did" => (6, 3),
        _ => return None,
    };
    let mut values = [0; 3];
    for value in &mut values[..count] {
        [*value] = text.numbers()?;
    }
    if form == 4 {
        [values[1], values[2]] = text.signed_numbers()?;
    }
    text.literal(b")\n")?;
    Some((form, values))
}

// A state, or the number of the refusal and its line.
fn read_state(input: &[u8]) -> Result<State, (u64, usize)> {
    let mut text = Text { rest: input };
    let mut state = State::fresh();
    let mut next = 0;
    let mut line = 1;
    if input.is_empty() {
        return Err((10, 1));
    }
    while !text.rest.is_empty() {
        next = saved_line(&mut text, next, &mut state).map_err(|number| (number, line))? + 1;
        line += 1;
    }
    Ok(state)
}

fn write_state(state: &State, out: &mut Vec<u8>) {
    out.clear();
    put_line(b"now", &[state.time], out);
    for (i, &roles) in state.assigned.iter().enumerate() {
        put_set(b"assigned", &[i as u64], roles as u64, out);
    }
    for (i, &permissions) in state.granted.iter().enumerate() {
        put_set(b"granted", &[i as u64], permissions as u64, out);
    }
    for (i, session) in state.sessions.iter().enumerate() {
        let Some(user) = session.user else {
            continue;
        };
        put_line(b"open", &[i as u64, user as u64], out);
        if let Some(Position { x, y, .. }) = session.position {
            out.extend_from_slice(b"(place ");
            put_number(i as u64, out);
            put_signed(x as i64, out);
            put_signed(y as i64, out);
            out.extend_from_slice(b")\n");
        }
        put_set(b"active", &[i as u64], session.active as u64, out);
    }
    for (o, sets) in state.did.iter().enumerate() {
        for (p, &users) in sets.iter().enumerate() {
            put_set(b"did", &[o as u64, p as u64], users, out);
        }
    }
}

fn put_signed(value: i64, out: &mut Vec<u8>) {
    out.extend_from_slice(if value < 0 { b" -" } else { b" " });
    put_number(value.unsigned_abs(), out);
}

// A line for each member, which stands after the numbers that are the same in all.
fn put_set(word: &[u8], first: &[u64], set: u64, out: &mut Vec<u8>) {
    let mut values = [0; 3];
    values[..first.len()].copy_from_slice(first);
    let mut rest = set;
    while rest != 0 {
        values[first.len()] = rest.trailing_zeros() as u64;
        put_line(word, &values[..first.len() + 1], out);
        rest &= rest - 1;
    }
}
