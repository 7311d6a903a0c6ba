// Lists of rules and steps run on the gate of gate.rs in batches from a fresh state.
//
//     gates LIST BATCHES plain|selecting|generate
//
// prints the checksum of all answers; `generate` only makes the list, so that the time of making can be taken off. crates/enforcement_speed
// makes the same lists by the same generator.
mod checksum;
mod gate;

use checksum::added;
use gate::{
    Rule, Shape, State, Step, Term, Week, ACCESS, ACTIVATE, ASSIGN, CLOCK, CLOSE, DEACTIVATE, FINISH, GRANT, LEND, LOST, MOVE, OPEN, RECALL, TAKE,
    WITHDRAW,
};
use std::hint::black_box;
use std::{env, process};

const BATCH: usize = 256;
const HEAVY: u64 = 4;
const WITH_LOANS: u64 = 5;

fn main() {
    let words: Vec<String> = env::args().collect();
    let [_, list, batches, mode] = &words[..] else {
        println!("gates LIST BATCHES plain|selecting|generate");
        process::exit(2);
    };
    println!("{}", sum_of(list.parse().unwrap(), batches.parse().unwrap(), mode));
}

// Steps and answers are cleared before each batch, as in crates/enforcement_speed.
fn sum_of(list: u64, batches: u64, mode: &str) -> u64 {
    let rules = rules_of(list);
    let mut state = State::fresh();
    let mut seed = 99 + list;
    let mut sum = 0;
    for number in 0..batches {
        let mut steps = [Step::default(); BATCH];
        let mut answers = [0; BATCH];
        black_box((&mut steps, &mut answers));
        fill(list, number, &mut seed, &mut steps);
        match mode {
            "plain" => run(&steps, &mut answers, |step| gate::step::<true>(&mut state, &rules, step)),
            "selecting" => run(&steps, &mut answers, |step| gate::step::<false>(&mut state, &rules, step)),
            _ => run(&steps, &mut answers, |step| step.kind + step.first + step.second),
        }
        sum = answers.iter().fold(sum, |sum, &answer| added(sum, answer));
    }
    sum
}

fn run(steps: &[Step; BATCH], answers: &mut [u64; BATCH], mut answer: impl FnMut(&Step) -> u64) {
    for i in 0..BATCH {
        answers[i] = answer(&steps[i]);
    }
}

// ---- the generator

fn draw(seed: u64) -> u64 {
    (seed % 2_147_483_648 * 1_103_515_245 + 12_345) % 2_147_483_648
}

// The high bits of what was drawn: the low ones of such a generator repeat early.
fn part(drawn: u64) -> u64 {
    drawn / 2048
}

// ---- the steps

fn fill(list: u64, number: u64, seed: &mut u64, steps: &mut [Step; BATCH]) {
    for i in 0..BATCH {
        let a = draw(*seed);
        let b = draw(a);
        let c = draw(b);
        let d = draw(c);
        *seed = d;
        steps[i] = step_of(list, number * BATCH as u64 + i as u64, [a, b, c, d].map(part));
    }
}

// Of users one past the last too, so that 20 is met; of times some before the present one, so that 21 and 52 are.
fn step_of(list: u64, index: u64, [a, b, c, d]: [u64; 4]) -> Step {
    let kind = match list {
        HEAVY => heavy_kind(a % 64),
        WITH_LOANS => kind_with_loans(a % 80),
        _ => mixed_kind(a % 64),
    };
    if kind == LEND || kind == RECALL {
        return loan_step(kind, index, [b, c, d]);
    }
    let first = match kind {
        ASSIGN | WITHDRAW => assigned_user(list, b),
        CLOCK => index * 1000 + b % 40_000,
        _ => b % 32,
    };
    let second = if kind == OPEN { c % 65 } else { c % 32 };
    Step { kind, first, second, third: d % 32, fourth: 0, x: coordinate(c), y: coordinate(d) }
}

// lend and recall: the users from 48 on, who are assigned none, borrow eight roles, each user a role from the same lender every time. So a
// loan is often granted, and a recall often names one.
fn loan_step(kind: u64, index: u64, [b, c, d]: [u64; 3]) -> Step {
    Step {
        kind,
        first: (c % 17 + d % 8) % 8,
        second: 48 + c % 17,
        third: d % 8 * 4,
        fourth: index * 1000 + b % 1_000_000,
        x: coordinate(c),
        y: coordinate(d),
    }
}

fn assigned_user(list: u64, drawn: u64) -> u64 {
    if list == WITH_LOANS {
        return drawn % 48;
    }
    drawn % 65
}

fn coordinate(drawn: u64) -> i64 {
    [-900, -650, -400, -150, 100, 350, 600, 850][(drawn % 8) as usize]
}

fn mixed_kind(weight: u64) -> u64 {
    match weight {
        0..=10 => ASSIGN,
        11..=14 => WITHDRAW,
        15..=20 => GRANT,
        21..=24 => TAKE,
        25..=30 => OPEN,
        31..=42 => ACTIVATE,
        43..=46 => DEACTIVATE,
        47..=54 => ACCESS,
        55 => FINISH,
        56..=57 => CLOSE,
        58..=60 => MOVE,
        61 => LOST,
        _ => CLOCK,
    }
}

// The mixed kinds, and one step in five lends or recalls.
fn kind_with_loans(weight: u64) -> u64 {
    match weight {
        0..=63 => mixed_kind(weight),
        64..=71 => LEND,
        _ => RECALL,
    }
}

// Only kinds that select rules by their family, whatever role they name, and open.
fn heavy_kind(weight: u64) -> u64 {
    match weight {
        0..=14 => ASSIGN,
        15..=22 => OPEN,
        23..=44 => ACTIVATE,
        45..=46 => CLOSE,
        47..=56 => MOVE,
        57..=58 => LOST,
        _ => CLOCK,
    }
}

// ---- the rules

fn rules_of(list: u64) -> Vec<Rule> {
    let mut seed = 2000 + list;
    let mut rules = Vec::new();
    for index in 0..rule_count(list) {
        let a = draw(seed);
        let b = draw(a);
        let c = draw(b);
        seed = c;
        let first = part(a) % 32;
        let second = (first + 1 + part(b) % 31) % 32;
        rules.push(rule_of(family_of(list, index), first as usize, second as usize, part(c)));
    }
    rules
}

fn rule_count(list: u64) -> u64 {
    match list {
        0 => 0,
        1 => 8,
        2 => 32,
        _ => 128,
    }
}

fn family_of(list: u64, index: u64) -> u64 {
    if list == HEAVY {
        return [3, 5, 8, 9, 10][(index % 5) as usize];
    }
    index % 12 + 1
}

fn rule_of(family: u64, r: usize, q: usize, number: u64) -> Rule {
    let n = number as u32;
    match family {
        1 => Rule::Before(r, q),
        2 => Rule::MaxUsers(r, 30 + n % 35),
        3 => Rule::MaxRoles(16 + n % 17),
        4 => Rule::MaxPermissions(r, 12 + n % 21),
        5 => Rule::MaxActive(6 + n % 27),
        6 => Rule::Apart(r, q),
        7 => Rule::ApartActive(r, q),
        8 => Rule::Needs(r, q),
        9 => Rule::During(r, Term::Week(week_of(number))),
        10 => at_of(r, number),
        11 => Rule::TwoHands(r, q),
        _ => Rule::SameHand(r, q),
    }
}

// Six days of the week, and an interval of the day that often goes past midnight.
fn week_of(number: u64) -> Week {
    Week {
        first: number % 7 + 1,
        last: (number + 5) % 7 + 1,
        start: number / 49 % 24 * 100,
        end: (number / 49 % 24 + 14) % 24 * 100 + 30,
    }
}

fn at_of(r: usize, number: u64) -> Rule {
    let more = (number % 300) as i64;
    match number % 4 {
        0 => Rule::At(r, true, Shape::Circle { x: 100, y: -100, radius: 700 + more }),
        1 => Rule::At(r, false, Shape::Circle { x: -200, y: 50, radius: 200 + more }),
        2 => Rule::At(r, true, Shape::Box { left: -900, bottom: -800, right: 850, top: 950 }),
        _ => Rule::At(r, false, Shape::Box { left: -300, bottom: -200, right: 300, top: 250 }),
    }
}
