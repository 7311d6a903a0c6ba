//! Pairs of rule lists that are to be joined (2026-07).

use super::damage::number_by_one;
use super::random::Random;
use super::rule_lists::{any_rule, rule_list, some_rules};
use super::world::World;
use crate::plain::places::Side;
use crate::plain::ranges::RULE_NUMBERS;
use crate::plain::rights::{RightKind, Rights};
use crate::plain::rule_text::read_rules;
use crate::plain::rules::{Rule, RuleList};

const MOST_RULES: usize = *RULE_NUMBERS.end() as usize;
/// Different rules in both lists: a few, and about as many as a joined list can have.
const STOCKS: [usize; 12] = [1, 2, 5, 20, 64, 126, 127, 128, 129, 130, 160, 256];

/// Drawn by themselves, one made of the other, or both out of one stock of rules.
pub fn pair_of_lists(random: &mut Random, world: &World) -> [RuleList; 2] {
    let [first, second] = match random.below(10) {
        0..=1 => return [rule_list(random, world), rule_list(random, world)],
        2..=6 => made_of_each_other(random, world),
        7..=8 => out_of_one_stock(random),
        _ => about_the_most(random),
    };
    let [rights, other_rights] = pair_of_rights(random, world);
    [RuleList { rights, rules: first }, RuleList { rights: other_rights, rules: second }]
}

/// The second has rules of the first, as they are and changed a little, others among them, and
/// rules that it has twice; in their order or in another.
fn made_of_each_other(random: &mut Random, world: &World) -> [Vec<Rule>; 2] {
    let mut first = some_rules(random, world);
    let mut second = Vec::new();
    for rule in &first {
        match random.below(10) {
            0..=4 => second.push(rule.clone()),
            5..=6 => second.push(almost(random, rule)),
            7 => second.push(any_rule(random, world)),
            _ => {}
        }
    }
    if random.percent(50) {
        shuffle(random, &mut second);
    }
    for rules in [&mut first, &mut second] {
        if random.percent(40) {
            double_some(random, rules);
        }
        rules.truncate(MOST_RULES);
    }
    if random.percent(50) {
        [first, second]
    } else {
        [second, first]
    }
}

/// Each rule drawn by itself, so that most stand twice and more where the stock is small.
fn out_of_one_stock(random: &mut Random) -> [Vec<Rule>; 2] {
    let size = *random.pick(&STOCKS);
    let stock = different_rules(random, size);
    [(); 2].map(|()| {
        let length = *random.pick(&[0, 1, 3, 30, 64, 100, 127, MOST_RULES]);
        (0..length).map(|_| random.pick(&stock).clone()).collect()
    })
}

/// Both have each rule of theirs once: the first those from the start of the stock on, the second
/// those up to its end, so that just the whole stock is joined.
fn about_the_most(random: &mut Random) -> [Vec<Rule>; 2] {
    let size = MOST_RULES - 2 + random.below(5);
    let stock = different_rules(random, size);
    let of_first = (size / 2 + random.below(size / 2 + 1)).min(MOST_RULES);
    let of_second = (size - of_first + random.below(of_first + 1)).min(MOST_RULES);
    let mut second = stock[size - of_second..].to_vec();
    if random.percent(50) {
        shuffle(random, &mut second);
    }
    [stock[..of_first].to_vec(), second]
}

fn different_rules(random: &mut Random, size: usize) -> Vec<Rule> {
    let world = World::wide(random);
    let mut rules: Vec<Rule> = Vec::new();
    while rules.len() < size {
        let rule = any_rule(random, &world);
        if !rules.contains(&rule) {
            rules.push(rule);
        }
    }
    rules
}

/// The rule with its two numbers swapped or its side turned round, or with a number by one higher
/// or lower; where that is no rule, or the rule has none of these, the rule itself.
fn almost(random: &mut Random, rule: &Rule) -> Rule {
    if random.percent(50) {
        return turned_round(rule);
    }
    let line = number_by_one(random, format!("(rule 1 {rule})\n").as_bytes());
    read_rules(&line).map_or(rule.clone(), |list| list.rules[0].clone())
}

fn turned_round(rule: &Rule) -> Rule {
    match *rule {
        Rule::Before { role, required } => Rule::Before { role: required, required: role },
        Rule::Apart { role, other } => Rule::Apart { role: other, other: role },
        Rule::ApartActive { role, other } => Rule::ApartActive { role: other, other: role },
        Rule::Needs { role, needed } => Rule::Needs { role: needed, needed: role },
        Rule::TwoHands { permission, other } => {
            Rule::TwoHands { permission: other, other: permission }
        }
        Rule::SameHand { permission, other } => {
            Rule::SameHand { permission: other, other: permission }
        }
        Rule::At { role, side: Side::Inside(shape) } => {
            Rule::At { role, side: Side::Outside(shape) }
        }
        Rule::At { role, side: Side::Outside(shape) } => {
            Rule::At { role, side: Side::Inside(shape) }
        }
        ref other => other.clone(),
    }
}

fn shuffle(random: &mut Random, rules: &mut [Rule]) {
    for end in (1..rules.len()).rev() {
        rules.swap(random.below(end + 1), end);
    }
}

/// Some rules stand once more, at any place.
fn double_some(random: &mut Random, rules: &mut Vec<Rule>) {
    if rules.is_empty() {
        return;
    }
    for _ in 0..1 + random.below(3) {
        let rule = random.pick(rules).clone();
        let place = random.below(rules.len() + 1);
        rules.insert(place, rule);
    }
}

/// Of each kind no line, a line of one list, equal lines, and now and then two that differ.
fn pair_of_rights(random: &mut Random, world: &World) -> [Rights; 2] {
    let mut rights = [Rights::new(), Rights::new()];
    if random.percent(40) {
        return rights;
    }
    let differs = *random.pick(&[0, 0, 5, 30]);
    for kind in RightKind::ALL {
        let permission = *random.pick(&world.permissions);
        let other = *random.pick(&world.permissions);
        let of_second = if random.percent(differs) { other } else { permission };
        let chosen = random.below(4);
        if chosen & 1 == 1 {
            rights[0].insert(kind, permission);
        }
        if chosen & 2 == 2 {
            rights[1].insert(kind, of_second);
        }
    }
    rights
}
