//! Two rule lists joined (2026-07), worked out from the words of the request.

use outside::compare::expected::{accepted_pair, accepted_state, joined_list, Refused};
use outside::generate::edges::RULE_LINES;
use outside::generate::joined::pair_of_lists;
use outside::generate::policies::numbered_rules;
use outside::generate::random::Random;
use outside::generate::states::drawn_state;
use outside::generate::world::World;
use outside::plain::rule_text::write_rules;
use outside::plain::rules::every_rule_holds;
use outside::plain::state_text::write_state;
use pitch_gate::{Text, RULES_MOST};

const KINDS: [&str; 6] = ["assign", "withdraw", "grant", "take", "lend", "recall"];
const DESK: &str = "(right assign 30)\n\
    (right grant 28)\n\
    (rule 1 (max-roles 5))\n\
    (rule 2 (apart 1 2))\n\
    (rule 3 (during 2 (week 1 5 0700 1900)))\n";
const HUB: &str = "(right withdraw 29)\n\
    (right grant 28)\n\
    (right lend 30)\n\
    (rule 1 (apart 1 2))\n\
    (rule 2 (needs 2 1))\n\
    (rule 3 (apart 2 1))\n\
    (rule 4 (needs 2 1))\n\
    (rule 5 (max-roles 5))\n\
    (rule 6 (max-roles 6))\n";

/// Pairs of rules that are almost equal.
const DIFFERENT: [(&str, &str); 33] = [
    ("(apart 1 2)", "(apart 2 1)"),
    ("(apart-active 1 2)", "(apart-active 2 1)"),
    ("(two-hands 1 2)", "(two-hands 2 1)"),
    ("(same-hand 1 2)", "(same-hand 2 1)"),
    ("(before 1 2)", "(before 2 1)"),
    ("(needs 1 2)", "(needs 2 1)"),
    ("(apart 1 2)", "(apart-active 1 2)"),
    ("(two-hands 1 2)", "(same-hand 1 2)"),
    ("(max-users 1 2)", "(max-permissions 1 2)"),
    ("(max-users 1 2)", "(max-users 2 1)"),
    ("(max-users 1 2)", "(max-users 1 3)"),
    ("(max-roles 2)", "(max-active 2)"),
    ("(during 1 (dates 20260101 20261231))", "(during 2 (dates 20260101 20261231))"),
    ("(during 1 (dates 20260101 20261231))", "(during 1 (dates 20260102 20261231))"),
    ("(during 1 (dates 20260101 20261231))", "(during 1 (dates 20260101 20261230))"),
    ("(during 1 (week 1 5 0700 1900))", "(during 1 (week 2 5 0700 1900))"),
    ("(during 1 (week 1 5 0700 1900))", "(during 1 (week 1 4 0700 1900))"),
    ("(during 1 (week 1 5 0700 1900))", "(during 1 (week 1 5 0701 1900))"),
    ("(during 1 (week 1 5 0700 1900))", "(during 1 (week 1 5 0700 1901))"),
    ("(during 1 (months 1 2))", "(during 1 (months 1 3))"),
    ("(during 1 (months 1 2))", "(during 1 (nth 1 2))"),
    ("(during 1 (nth 1 2))", "(during 1 (nth 2 2))"),
    ("(during 1 (every 14 20260608))", "(during 1 (every 15 20260608))"),
    ("(during 1 (every 14 20260608))", "(during 1 (every 14 20260609))"),
    ("(at 1 (inside (circle 0 0 5)))", "(at 1 (outside (circle 0 0 5)))"),
    ("(at 1 (inside (circle 3 0 5)))", "(at 1 (inside (circle -3 0 5)))"),
    ("(at 1 (inside (circle 0 3 5)))", "(at 1 (inside (circle 0 4 5)))"),
    ("(at 1 (inside (circle 0 0 5)))", "(at 1 (inside (circle 0 0 6)))"),
    ("(at 1 (inside (box 0 0 5 5)))", "(at 1 (outside (box 0 0 5 5)))"),
    ("(at 1 (inside (box 0 0 5 5)))", "(at 1 (inside (box 1 0 5 5)))"),
    ("(at 1 (inside (box 0 0 5 5)))", "(at 1 (inside (box 0 1 5 5)))"),
    ("(at 1 (inside (box 0 0 5 5)))", "(at 1 (inside (box 0 0 6 5)))"),
    ("(at 1 (inside (box 0 0 5 5)))", "(at 1 (inside (box 0 0 5 6)))"),
];

/// A refusal of a joining: its number, the text that it is about, and the line.
type Told = (u64, Text, u64);

fn join(first: &str, second: &str) -> Result<String, Told> {
    let lists = accepted_pair(first.as_bytes(), second.as_bytes());
    let joined = lists.and_then(|lists| joined_list(&lists));
    joined
        .map(|list| shown(write_rules(&list)))
        .map_err(|Refused { number, text, place }| (number, text, place))
}

fn shown(text: Vec<u8>) -> String {
    String::from_utf8(text).unwrap()
}

fn refused_second(number: u64, line: u64) -> Result<String, Told> {
    Err((number, Text::SecondRules, line))
}

fn refused_first(number: u64, line: u64) -> Result<String, Told> {
    Err((number, Text::Rules, line))
}

/// Lists of rules alone, given without their numbers.
fn check_rules(first: &[&str], second: &[&str], joined: &[&str]) {
    let [first, second, joined] = [first, second, joined].map(numbered_rules);
    assert_eq!(join(&first, &second), Ok(joined), "{first}and\n{second}");
}

/// So many rules, each another, counted on from this one.
fn different(from: usize, length: usize) -> Vec<String> {
    let rules =
        (from..from + length).map(|index| format!("(max-users {} {})", index % 32, index / 32));
    rules.collect()
}

fn numbered(rules: &[String]) -> String {
    numbered_rules(&rules.iter().map(String::as_str).collect::<Vec<_>>())
}

#[test]
fn desk_list_and_hub_list() {
    let joined = "(right assign 30)\n\
        (right withdraw 29)\n\
        (right grant 28)\n\
        (right lend 30)\n\
        (rule 1 (max-roles 5))\n\
        (rule 2 (apart 1 2))\n\
        (rule 3 (during 2 (week 1 5 0700 1900)))\n\
        (rule 4 (needs 2 1))\n\
        (rule 5 (apart 2 1))\n\
        (rule 6 (max-roles 6))\n";
    assert_eq!(join(DESK, HUB), Ok(joined.to_string()));
    let other_way = "(right assign 30)\n\
        (right withdraw 29)\n\
        (right grant 28)\n\
        (right lend 30)\n\
        (rule 1 (apart 1 2))\n\
        (rule 2 (needs 2 1))\n\
        (rule 3 (apart 2 1))\n\
        (rule 4 (needs 2 1))\n\
        (rule 5 (max-roles 5))\n\
        (rule 6 (max-roles 6))\n\
        (rule 7 (during 2 (week 1 5 0700 1900)))\n";
    assert_eq!(join(HUB, DESK), Ok(other_way.to_string()));
}

#[test]
fn a_list_with_itself_and_with_the_empty_list() {
    for list in [DESK, "", "(right take 0)\n", "(rule 1 (max-active 2))\n"] {
        assert_eq!(join(list, list).as_deref(), Ok(list));
        assert_eq!(join(list, "").as_deref(), Ok(list));
        assert_eq!(join("", list).as_deref(), Ok(list));
    }
    assert_eq!(join(HUB, HUB).as_deref(), Ok(HUB));
    assert_eq!(join(HUB, "").as_deref(), Ok(HUB));
}

/// "their rule numbers aside"
#[test]
fn an_equal_rule_under_another_number() {
    let [one, other, third] = ["(max-roles 5)", "(max-active 2)", "(needs 2 1)"];
    check_rules(&[one, other], &[other], &[one, other]);
    check_rules(&[one, other], &[other, one], &[one, other]);
    check_rules(&[other, one], &[one, other], &[other, one]);
    check_rules(&[one], &[other, one, third], &[one, other, third]);
    check_rules(&[one, other], &[third, other], &[one, other, third]);
    check_rules(&[one, other, third], &[other], &[one, other, third]);
}

/// "in turn", "renumbered"
#[test]
fn rules_of_the_second_follow_in_their_order() {
    let [one, other, third] = ["(max-roles 5)", "(max-active 2)", "(needs 2 1)"];
    check_rules(&[one], &[other, third], &[one, other, third]);
    check_rules(&[one], &[third, other], &[one, third, other]);
    check_rules(&[], &[third, one, other], &[third, one, other]);
}

#[test]
fn doubles_of_the_first_stay_and_those_of_the_second_go() {
    let [one, other] = ["(max-roles 5)", "(max-active 2)"];
    check_rules(&[one, one], &[], &[one, one]);
    check_rules(&[one, one], &[one], &[one, one]);
    check_rules(&[one, other, one], &[other, one, one], &[one, other, one]);
    check_rules(&[], &[one, one], &[one]);
    check_rules(&[], &[one, other, one, other], &[one, other]);
    check_rules(&[other], &[one, one, one], &[other, one]);
    check_rules(&[other, other], &[one, other, one], &[other, other, one]);
}

/// "`apart 1 2` and `apart 2 1` are two", and so is every pair whose lines differ at all.
#[test]
fn rules_that_differ_at_all_are_two() {
    for (one, other) in DIFFERENT {
        check_rules(&[one], &[other], &[one, other]);
        check_rules(&[other], &[one], &[other, one]);
        check_rules(&[one, other], &[other, one], &[one, other]);
    }
}

#[test]
fn every_form_of_a_rule() {
    let lines = RULE_LINES.into_iter().filter_map(|line| line.strip_prefix("(rule 1 "));
    let rules: Vec<&str> = lines.filter_map(|rule| rule.strip_suffix(")\n")).collect();
    assert_eq!(rules.len(), 21);
    check_rules(&[], &rules, &rules);
    check_rules(&rules, &rules, &rules);
    for (index, rule) in rules.iter().enumerate() {
        check_rules(&rules, &[rule], &rules);
        check_rules(&[rule], &[rule, rule], &[rule]);
        let others: Vec<&str> = rules.iter().copied().filter(|other| other != rule).collect();
        check_rules(&others, &rules, &[&others[..], &rules[index..=index]].concat());
    }
}

/// "Right lines of either list are kept, equal ones once": each choice beside each other, in the
/// order of the kinds.
#[test]
fn right_lines_of_either_list() {
    let line = |place: usize| format!("(right {} {})\n", KINDS[place], 10 + place);
    let chosen = |choice: usize| {
        (0..6).filter(|place| choice >> place & 1 == 1).map(line).collect::<String>()
    };
    for first in 0..64 {
        for second in 0..64 {
            let joined = chosen(first | second);
            assert_eq!(join(&chosen(first), &chosen(second)), Ok(joined));
        }
    }
}

/// Two kinds may need one permission: only lines of one kind are compared.
#[test]
fn right_lines_of_other_kinds_with_one_permission() {
    let joined = "(right assign 7)\n(right recall 7)\n".to_string();
    assert_eq!(join("(right assign 7)\n", "(right recall 7)\n"), Ok(joined.clone()));
    assert_eq!(join("(right recall 7)\n", "(right assign 7)\n"), Ok(joined));
}

/// "58 two right lines of one kind with different permissions", with the second's line.
#[test]
fn right_lines_that_differ() {
    for kind in KINDS {
        let [one, other] = [30, 31].map(|permission| format!("(right {kind} {permission})\n"));
        assert_eq!(join(&one, &other), refused_second(58, 1));
        assert_eq!(join(&other, &one), refused_second(58, 1));
    }
    let lines = |permissions: [usize; 6]| {
        let lines = KINDS.iter().zip(permissions);
        lines.map(|(kind, permission)| format!("(right {kind} {permission})\n")).collect::<String>()
    };
    for place in 0..6 {
        let mut permissions = [0, 1, 2, 3, 4, 5];
        permissions[place] = 31;
        let line = place as u64 + 1;
        assert_eq!(join(&lines([0, 1, 2, 3, 4, 5]), &lines(permissions)), refused_second(58, line));
        permissions[5] = 30;
        assert_eq!(join(&lines([0, 1, 2, 3, 4, 5]), &lines(permissions)), refused_second(58, line));
    }
    let first = "(right take 3)\n(right recall 5)\n";
    assert_eq!(join(first, "(right assign 9)\n(right take 9)\n"), refused_second(58, 2));
    assert_eq!(join(first, "(right recall 9)\n"), refused_second(58, 1));
    assert_eq!(join(first, "(right take 3)\n(right recall 9)\n"), refused_second(58, 2));
    assert_eq!(join(first, "(right take 5)\n(right recall 3)\n"), refused_second(58, 1));
}

/// "57 more than 128 rules": those that are joined count, not those of both lists.
#[test]
fn as_many_rules_as_can_be_joined() {
    let first = different(0, 128);
    assert_eq!(join(&numbered(&first), &numbered(&first)), Ok(numbered(&first)));
    for of_first in [0, 1, 64, 127, 128] {
        let (one, other) = (different(0, of_first), different(of_first, 128 - of_first));
        assert_eq!(join(&numbered(&one), &numbered(&other)), Ok(numbered(&first)));
        assert_eq!(join(&numbered(&one), &numbered(&first)), Ok(numbered(&first)));
        let others = [&first[of_first..], &first[..of_first]].concat();
        assert_eq!(join(&numbered(&first), &numbered(&others)), Ok(numbered(&first)));
    }
    let doubled = vec!["(max-roles 5)"; 128];
    check_rules(&doubled, &doubled, &doubled);
    check_rules(&[], &doubled, &["(max-roles 5)"]);
    check_rules(&doubled[..127], &["(max-roles 5)", "(max-roles 6)"], &{
        let mut joined = doubled.clone();
        joined[127] = "(max-roles 6)";
        joined
    });
}

/// The line of the second list whose rule would be rule 129.
#[test]
fn one_rule_too_many() {
    let first = different(0, 128);
    for place in 0..128 {
        let mut second = first.clone();
        second[place] = "(max-roles 5)".to_string();
        let line = place as u64 + 1;
        assert_eq!(join(&numbered(&first), &numbered(&second)), refused_second(57, line));
        let rights = "(right assign 1)\n(right take 2)\n".to_string();
        let behind = rights + &numbered(&second[..=place]);
        assert_eq!(join(&numbered(&first), &behind), refused_second(57, line + 2));
    }
    for of_first in 1..=128 {
        let (one, other) = (different(0, of_first), different(of_first, 128));
        let line = 129 - of_first as u64;
        assert_eq!(join(&numbered(&one), &numbered(&other)), refused_second(57, line));
    }
    let doubled = numbered_rules(&["(max-roles 5)"; 128]);
    let second = numbered_rules(&["(max-roles 5)", "(max-roles 6)", "(max-roles 7)"]);
    assert_eq!(join(&doubled, &second), refused_second(57, 2));
}

/// "order 40, 58, 57"
#[test]
fn right_lines_that_differ_come_before_too_many_rules() {
    let first = "(right recall 1)\n".to_string() + &numbered(&different(0, 128));
    let rules = numbered(&different(128, 128));
    let second = |rights: &str| rights.to_string() + &rules;
    assert_eq!(join(&first, &second("")), refused_second(57, 1));
    assert_eq!(join(&first, &second("(right recall 1)\n")), refused_second(57, 2));
    assert_eq!(join(&first, &second("(right recall 2)\n")), refused_second(58, 1));
    assert_eq!(
        join(&first, &second("(right assign 2)\n(right recall 2)\n")),
        refused_second(58, 2)
    );
}

/// Of a text 10 to 14 stand where 40 does: before 58 and 57, the first list's before the second's,
/// whichever line they are of.
#[test]
fn bad_texts_in_order() {
    let full = "(right assign 1)\n".to_string() + &numbered(&different(0, 127));
    let starts = ["", "(right assign 1)\n", "(right assign 2)\n(rule 1 (max-roles 5))\n", &full];
    let bad_lines = [
        (10, "(rule # (max-roles 5)"),
        (11, "(rule # (max-roles 33))"),
        (12, "(rule 120 (max-roles 5))"),
        (13, "(rule # (apart 4 4))"),
        (14, "(rule # (at 4 (inside (box 5 0 0 5))))"),
    ];
    let bad = |start: &str, line: &str| {
        let number = start.matches("(rule ").count() + 1;
        format!("{start}{}\n", line.replace('#', &number.to_string()))
    };
    for start in starts {
        let line = start.lines().count() as u64 + 1;
        for (number, bad_line) in bad_lines {
            for other in starts {
                let [good, text] = [other.to_string(), bad(start, bad_line)];
                assert_eq!(join(&text, &good), refused_first(number, line));
                assert_eq!(join(&good, &text), refused_second(number, line));
                for (_, other_line) in bad_lines {
                    assert_eq!(join(&text, &bad(other, other_line)), refused_first(number, line));
                }
            }
        }
    }
}

#[test]
fn bad_lines_after_what_could_not_be_joined() {
    let first = "(right assign 1)\n".to_string() + &numbered(&different(0, 128));
    assert_eq!(join(&first, "(right assign 2)\n"), refused_second(58, 1));
    assert_eq!(join(&first, "(right assign 2)\n(right assign 2)\n"), refused_second(12, 2));
    assert_eq!(join(&first, "(rule 1 (max-roles 5))\n"), refused_second(57, 1));
    assert_eq!(join(&first, "(rule 1 (max-roles 5))\n\n"), refused_second(10, 2));
    let longer = numbered(&different(0, 129));
    assert_eq!(join(&longer, ""), refused_first(11, 129));
    assert_eq!(join("", &longer), refused_second(11, 129));
}

/// The request's words over lines alone, which are never read as rules: what stands behind a rule's
/// number is compared byte for byte.
fn join_lines(first: &str, second: &str) -> Result<String, (u64, u64)> {
    let [mut rights, mut bodies] = [Vec::new(), Vec::new()];
    for line in first.lines() {
        match line.strip_prefix("(rule ") {
            Some(rest) => bodies.push(rest.split_once(' ').unwrap().1),
            None => rights.push(line),
        }
    }
    let mut too_many = None;
    for (line, place) in second.lines().zip(1..) {
        let kind = |line: &str| line.split(' ').nth(1).map(str::to_string);
        match line.strip_prefix("(rule ").map(|rest| rest.split_once(' ').unwrap().1) {
            Some(body) if !bodies.contains(&body) => bodies.push(body),
            None if !rights.contains(&line) => {
                if rights.iter().any(|other| kind(other) == kind(line)) {
                    return Err((58, place));
                }
                rights.push(line);
            }
            _ => {}
        }
        if bodies.len() > 128 {
            too_many = too_many.or(Some((57, place)));
        }
    }
    let order =
        |line: &&str| KINDS.iter().position(|kind| line.starts_with(&format!("(right {kind} ")));
    rights.sort_by_key(order);
    let rights = rights.iter().map(|line| format!("{line}\n"));
    let rules = bodies.iter().zip(1..).map(|(body, number)| format!("(rule {number} {body}\n"));
    too_many.map_or_else(|| Ok(rights.chain(rules).collect()), Err)
}

#[test]
fn joined_by_rules_as_by_lines() {
    let mut met = [0; 3];
    for seed in 0..600 {
        let mut random = Random::new(seed);
        let world = World::new(&mut random);
        let [first, second] =
            pair_of_lists(&mut random, &world).map(|list| shown(write_rules(&list)));
        let by_lines = join_lines(&first, &second);
        let by_rules = join(&first, &second).map_err(|(number, text, line)| {
            assert_eq!(text, Text::SecondRules);
            (number, line)
        });
        assert_eq!(by_rules, by_lines, "seed {seed}");
        met[match by_lines {
            Ok(_) => 0,
            Err((57, _)) => 1,
            Err(_) => 2,
        }] += 1;
    }
    assert!(met.iter().all(|times| *times > 20), "{met:?}");
}

/// "A state obeys the joined list just if it obeys both."
#[test]
fn a_state_obeys_the_joined_list_just_if_it_obeys_both() {
    let mut met = [0; 4];
    for seed in 0..600 {
        let mut random = Random::new(seed);
        let world = World::dense(&mut random);
        let lists = pair_of_lists(&mut random, &world);
        let Ok(joined) = joined_list(&lists) else { continue };
        let state = drawn_state(&mut random, &world);
        let [first, second] =
            [&lists[0], &lists[1]].map(|list| every_rule_holds(&list.rules, &state));
        assert_eq!(every_rule_holds(&joined.rules, &state), first && second, "seed {seed}");
        met[usize::from(first) + 2 * usize::from(second)] += 1;
        let saved = write_state(&state);
        let place = |rules: &[u8]| accepted_state(rules, &saved).err().map(|refused| refused.place);
        let [under_first, under_joined] =
            [&lists[0], &joined].map(|list| place(&write_rules(list)));
        assert!(first || under_first == under_joined, "seed {seed}");
        let of_first = lists[0].rules.len() as u64;
        assert!(!first || under_joined.is_none_or(|rule| rule > of_first), "seed {seed}");
    }
    assert!(met.iter().all(|times| *times > 20), "{met:?}");
}

/// A state of the desk's that breaks a rule of the hub's: 17 with the number in the joined list.
#[test]
fn a_state_under_the_joined_list() {
    let joined = join(DESK, HUB).unwrap();
    let under = |rules: &str, state: &str| {
        let read = accepted_state(rules.as_bytes(), state.as_bytes());
        read.map(drop).map_err(|Refused { number, text, place }| (number, text, place))
    };
    // Day 9655 is a Monday; 10:00.
    let needing = "(now 834228000)\n(assigned 5 2)\n(open 0 5)\n(active 0 2)\n";
    assert_eq!(under(DESK, needing), Ok(()));
    assert_eq!(under(HUB, needing), Err((17, Text::State, 2)));
    assert_eq!(under(&joined, needing), Err((17, Text::State, 4)));
    let both = "(now 834228000)\n(assigned 5 1)\n(assigned 5 2)\n";
    assert_eq!(under(DESK, both), Err((17, Text::State, 2)));
    assert_eq!(under(HUB, both), Err((17, Text::State, 1)));
    assert_eq!(under(&joined, both), Err((17, Text::State, 2)));
    let helped = "(now 834228000)\n(assigned 5 2)\n(assigned 6 1)\n\
        (open 0 5)\n(active 0 2)\n(open 1 6)\n(active 1 1)\n";
    for rules in [DESK, HUB, &joined] {
        assert_eq!(under(rules, helped), Ok(()));
    }
    let evening = helped.replace("834228000", "834267600");
    assert_eq!(under(DESK, &evening), Err((17, Text::State, 3)));
    assert_eq!(under(HUB, &evening), Ok(()));
    assert_eq!(under(&joined, &evening), Err((17, Text::State, 3)));
}

/// No joined list is longer, so that the space that the wrapper lends holds every one.
#[test]
fn the_longest_joined_list() {
    let longest = "(at 31 (outside (box -1000000 -1000000 -1000000 -1000000)))";
    let first = numbered_rules(&[longest; 128]);
    let rights: String = KINDS.iter().map(|kind| format!("(right {kind} 31)\n")).collect();
    let joined = join(&first, &rights).unwrap();
    assert_eq!(joined, rights + &first);
    assert_eq!(joined.len(), RULES_MOST);
}
