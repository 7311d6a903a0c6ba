//! Policies of GEMRBAC-DSL (2026-06), worked out from the words of the request.

use outside::compare::expected::{accepted_rules, written_policies};
use outside::generate::policies::{list_of_policies, numbered_policies, numbered_rules};
use outside::generate::policy_damage::{BADLY_WRITTEN, OUR_OWN, OUTSIDE_THE_FIVE, PREAMBLE};
use outside::generate::random::Random;
use outside::generate::world::World;
use outside::plain::form::Bad;
use outside::plain::policies::{read_policies, write_policies};
use outside::plain::rule_text::{read_rules, write_rules};
use pitch_gate::{Text, POLICIES_MOST};

const POLICIES: &str = "PL1: assign-role r4 prerequisite r2;\n\
    PL2: maxUsers = 3 only-for-role r4;\n\
    PL3: maxRoles-User = 5;\n\
    PL4: maxActiveRoles = 2;\n\
    PL5: enable r4 if active r2 deactivation-dependency;\n";
const RULES: &str = "(rule 1 (before 4 2))\n\
    (rule 2 (max-users 4 3))\n\
    (rule 3 (max-roles 5))\n\
    (rule 4 (max-active 2))\n\
    (rule 5 (needs 4 2))\n";
/// The rules that have no line: one of each other family.
const OTHER_RULES: [&str; 7] = [
    "(max-permissions 4 3)",
    "(apart 4 2)",
    "(apart-active 4 2)",
    "(during 4 (week 1 5 0700 1900))",
    "(at 4 (inside (circle 0 0 500)))",
    "(two-hands 4 2)",
    "(same-hand 4 2)",
];

/// A refusal: its number, and the line or the rule.
type Refused = (u64, u64);

fn to_rules(policies: &str) -> Result<String, Refused> {
    let read = read_policies(policies.as_bytes());
    read.map(|list| shown(write_rules(&list))).map_err(refused)
}

fn to_policies(rules: &str) -> Result<String, Refused> {
    let list = read_rules(rules.as_bytes()).expect("a rule list that is accepted");
    write_policies(&list).map(shown).map_err(refused)
}

fn shown(text: Vec<u8>) -> String {
    String::from_utf8(text).unwrap()
}

fn refused(Bad { number, place }: Bad) -> Refused {
    (number, place)
}

/// A first policy and the rule that it is, either way.
fn check_pair(body: &str, rule: &str) {
    let (policies, rules) = (format!("PL1: {body};\n"), format!("(rule 1 {rule})\n"));
    assert_eq!(to_rules(&policies), Ok(rules.clone()));
    assert_eq!(to_policies(&rules), Ok(policies));
}

/// The number that a line earns, alone and behind two others.
fn number_of(line: &str) -> u64 {
    let (number, place) = to_rules(&format!("{line}\n")).expect_err(line);
    assert_eq!(place, 1, "{line}");
    let third = line.replace("PL1:", "PL3:");
    let policies = format!("PL1: maxRoles-User = 0;\nPL2: maxActiveRoles = 0;\n{third}\n");
    assert_eq!(to_rules(&policies), Err((number, 3)), "{line}");
    number
}

/// So many policies that are the same but for their numbers.
fn repeated(body: &str, length: usize) -> String {
    numbered_policies(&vec![body; length])
}

#[test]
fn the_five_lines_are_the_five_rules() {
    assert_eq!(to_rules(POLICIES), Ok(RULES.to_string()));
    assert_eq!(to_policies(RULES), Ok(POLICIES.to_string()));
}

#[test]
fn an_empty_text_is_the_empty_list() {
    assert_eq!(to_rules(""), Ok(String::new()));
    assert_eq!(to_policies(""), Ok(String::new()));
}

/// Which role, limit or kind stands where.
#[test]
fn each_number_has_its_place() {
    check_pair("assign-role r2 prerequisite r4", "(before 2 4)");
    check_pair("enable r2 if active r4 deactivation-dependency", "(needs 2 4)");
    check_pair("maxUsers = 4 only-for-role r3", "(max-users 3 4)");
    check_pair("maxUsers = 4 only-for-role r4", "(max-users 4 4)");
    check_pair("maxRoles-User = 2", "(max-roles 2)");
    check_pair("maxActiveRoles = 5", "(max-active 5)");
}

#[test]
fn numbers_at_the_ends_of_their_ranges() {
    check_pair("assign-role r0 prerequisite r31", "(before 0 31)");
    check_pair("assign-role r31 prerequisite r0", "(before 31 0)");
    check_pair("enable r0 if active r31 deactivation-dependency", "(needs 0 31)");
    check_pair("enable r31 if active r0 deactivation-dependency", "(needs 31 0)");
    check_pair("maxUsers = 0 only-for-role r0", "(max-users 0 0)");
    check_pair("maxUsers = 64 only-for-role r31", "(max-users 31 64)");
    check_pair("maxRoles-User = 0", "(max-roles 0)");
    check_pair("maxRoles-User = 32", "(max-roles 32)");
    check_pair("maxActiveRoles = 0", "(max-active 0)");
    check_pair("maxActiveRoles = 32", "(max-active 32)");
}

/// "A list of these five kinds survives either journey."
#[test]
fn a_list_of_the_five_kinds_survives_either_journey() {
    let mut lengths = Vec::new();
    for seed in 0..300 {
        let mut random = Random::new(seed);
        let world = World::new(&mut random);
        let list = list_of_policies(&mut random, &world);
        let policies = write_policies(&list).unwrap();
        assert_eq!(read_policies(&policies).as_ref(), Ok(&list));
        let rules = shown(write_rules(&list));
        assert_eq!(to_policies(&rules).and_then(|policies| to_rules(&policies)), Ok(rules));
        lengths.push(list.rules.len());
    }
    assert!(lengths.contains(&0) && lengths.contains(&128), "{lengths:?}");
}

/// "counted as ours are": from 1, by ones, to 128.
#[test]
fn the_129th_line_is_outside_the_range() {
    for body in ["maxActiveRoles = 2", "enable r4 if active r2 deactivation-dependency"] {
        assert!(to_rules(&repeated(body, 128)).is_ok());
        assert_eq!(to_rules(&repeated(body, 129)), Err((11, 129)));
        assert_eq!(to_rules(&repeated(body, 130)), Err((11, 129)));
    }
    let rules = numbered_rules(&["(max-active 2)"; 128]);
    assert_eq!(to_policies(&rules), Ok(repeated("maxActiveRoles = 2", 128)));
    assert_eq!(number_of("PL0: maxActiveRoles = 2;"), 11);
    assert_eq!(number_of("PL129: maxActiveRoles = 2;"), 11);
    assert_eq!(to_rules("PL0: maxRoles-User = 5;\nPL1: maxActiveRoles = 2;\n"), Err((11, 1)));
}

#[test]
fn lines_outside_the_subset() {
    for body in OUTSIDE_THE_FIVE {
        assert_eq!(number_of(&format!("PL1: {body};")), 55);
    }
    for line in PREAMBLE.into_iter().chain(OUR_OWN) {
        assert_eq!(number_of(line), 55);
    }
    for line in BADLY_WRITTEN {
        assert_eq!(number_of(line), 55, "{line}");
    }
}

/// "a missing line feed too"
#[test]
fn a_line_without_its_line_feed() {
    assert_eq!(to_rules("PL1: maxRoles-User = 5;"), Err((55, 1)));
    assert_eq!(to_rules(POLICIES.trim_end()), Err((55, 5)));
    let joined = POLICIES.replacen(";\n", ";", 1);
    assert_eq!(to_rules(&joined), Err((55, 1)));
    for end in 0..POLICIES.len() {
        let cut = &POLICIES[..end];
        let lines = cut.matches('\n').count() as u64;
        let is_whole = cut.is_empty() || cut.ends_with('\n');
        let expected = if is_whole { None } else { Some((55, lines + 1)) };
        assert_eq!(to_rules(cut).err(), expected, "{cut}");
    }
}

#[test]
fn bytes_that_are_no_text() {
    for byte in [0, 0x7f, 0x80, 0xa5, 0xff] {
        let policies = [b"PL1: maxRoles-User = ", &[byte][..], b";\n"].concat();
        assert_eq!(read_policies(&policies), Err(Bad { number: 55, place: 1 }));
    }
}

/// "no leading zeros", "at most 10 digits", and no sign: each number of each line.
#[test]
fn numbers_as_they_are_written() {
    let lines = [
        "PL#: maxRoles-User = 5;",
        "PL1: assign-role r# prerequisite r2;",
        "PL1: assign-role r4 prerequisite r#;",
        "PL1: maxUsers = # only-for-role r4;",
        "PL1: maxUsers = 3 only-for-role r#;",
        "PL1: maxRoles-User = #;",
        "PL1: maxActiveRoles = #;",
        "PL1: enable r# if active r2 deactivation-dependency;",
        "PL1: enable r4 if active r# deactivation-dependency;",
    ];
    for line in lines {
        for number in ["", "00", "01", "001", "-1", "-0", "+1", "1.", "0x1", "10000000000", "1 "] {
            assert_eq!(number_of(&line.replace('#', number)), 55, "{line} with {number:?}");
        }
        for number in ["129", "255", "256", "4294967296", "4294967297", "9999999999"] {
            assert_eq!(number_of(&line.replace('#', number)), 11, "{line} with {number}");
        }
    }
}

#[test]
fn numbers_just_past_their_ranges() {
    for line in [
        "PL1: assign-role r32 prerequisite r2;",
        "PL1: assign-role r4 prerequisite r32;",
        "PL1: maxUsers = 65 only-for-role r4;",
        "PL1: maxUsers = 3 only-for-role r32;",
        "PL1: maxRoles-User = 33;",
        "PL1: maxActiveRoles = 33;",
        "PL1: enable r32 if active r2 deactivation-dependency;",
        "PL1: enable r4 if active r32 deactivation-dependency;",
    ] {
        assert_eq!(number_of(line), 11, "{line}");
    }
}

#[test]
fn a_number_that_is_not_the_next() {
    let first = "PL1: maxRoles-User = 5;\n";
    let after = |line: &str| to_rules(&format!("{first}{line};\n")).unwrap_err();
    assert_eq!(after("PL1: maxActiveRoles = 2"), (12, 2));
    assert_eq!(after("PL3: maxActiveRoles = 2"), (12, 2));
    assert_eq!(after("PL128: maxActiveRoles = 2"), (12, 2));
    assert_eq!(to_rules("PL2: maxActiveRoles = 2;\n"), Err((12, 1)));
    let swapped = "PL2: maxActiveRoles = 2;\nPL1: maxRoles-User = 5;\n";
    assert_eq!(to_rules(swapped), Err((12, 1)));
}

#[test]
fn the_same_role_twice() {
    for role in [0, 4, 31] {
        let prerequisite = format!("PL1: assign-role r{role} prerequisite r{role};");
        assert_eq!(number_of(&prerequisite), 13);
        let enable = format!("PL1: enable r{role} if active r{role} deactivation-dependency;");
        assert_eq!(number_of(&enable), 13);
    }
}

/// "55 .., 11 .., 12, 13": each line has two causes or three.
#[test]
fn the_causes_of_one_line_in_order() {
    let first = |line: &str| to_rules(&format!("{line}\n")).unwrap_err();
    for line in [
        "PL0: maxRoles-User = 5",
        "PL2: maxRoles-User = 5",
        "PL1: assign-role r32 prerequisite r02;",
        "PL1: assign-role r4 prerequisite r4",
        "PL2: enable r32 if active r32;",
    ] {
        assert_eq!(first(line), (55, 1), "{line}");
    }
    for line in [
        "PL2: maxRoles-User = 33;",
        "PL2: maxUsers = 65 only-for-role r4;",
        "PL2: maxUsers = 3 only-for-role r32;",
        "PL2: assign-role r4 prerequisite r32;",
        "PL1: assign-role r32 prerequisite r32;",
        "PL129: assign-role r4 prerequisite r4;",
        "PL0: enable r4 if active r4 deactivation-dependency;",
        "PL2: enable r32 if active r32 deactivation-dependency;",
    ] {
        assert_eq!(first(line), (11, 1), "{line}");
    }
    for line in [
        "PL2: assign-role r4 prerequisite r4;",
        "PL128: enable r0 if active r0 deactivation-dependency;",
    ] {
        assert_eq!(first(line), (12, 1), "{line}");
    }
}

/// Two bad lines, each with each number, a good one before and between them.
#[test]
fn the_first_bad_line_counts() {
    let bad = [
        (55, "PL#: maxUsers = 3;"),
        (11, "PL#: maxActiveRoles = 33;"),
        (12, "PL9: maxActiveRoles = 2;"),
        (13, "PL#: assign-role r4 prerequisite r4;"),
    ];
    let good = "PL#: maxRoles-User = 5;";
    for (number, first) in bad {
        for (_, second) in bad {
            let lines = [good, first, good, second].into_iter().zip(1..);
            let policies: String =
                lines.map(|(line, place)| line.replace('#', &place.to_string()) + "\n").collect();
            assert_eq!(to_rules(&policies), Err((number, 2)), "{policies}");
        }
    }
}

/// "56 on writing, with the lowest rule that has no such line"
#[test]
fn rules_without_a_line() {
    for rule in OTHER_RULES {
        assert_eq!(to_policies(&numbered_rules(&[rule])), Err((56, 1)), "{rule}");
        for place in 0..128 {
            let mut rules = ["(max-roles 5)"; 128];
            rules[place] = rule;
            assert_eq!(to_policies(&numbered_rules(&rules)), Err((56, place as u64 + 1)));
            rules[127] = "(apart 1 2)";
            assert_eq!(to_policies(&numbered_rules(&rules)), Err((56, place as u64 + 1)));
        }
    }
}

/// "a right line gives 56 with rule 0"
#[test]
fn right_lines_have_no_line() {
    for kind in ["assign", "withdraw", "grant", "take", "lend", "recall"] {
        let right = format!("(right {kind} 30)\n");
        assert_eq!(to_policies(&right), Err((56, 0)));
        assert_eq!(to_policies(&(right.clone() + RULES)), Err((56, 0)));
        assert_eq!(to_policies(&(right + "(rule 1 (apart 4 2))\n")), Err((56, 0)));
    }
}

/// Of a text 10 to 14 stand where 40 does: before 56, whichever line they are of.
#[test]
fn a_refused_rule_list_comes_before_56() {
    let second = |line: &str| {
        let rules = format!("(rule 1 (apart 4 2))\n{line}\n");
        let written = accepted_rules(rules.as_bytes()).and_then(|list| written_policies(&list));
        written.map_err(|refusal| (refusal.number, refusal.text, refusal.place)).unwrap_err()
    };
    assert_eq!(second("(rule 2 (max-roles 5)"), (10, Text::Rules, 2));
    assert_eq!(second("PL2: maxRoles-User = 5;"), (10, Text::Rules, 2));
    assert_eq!(second("(rule 2 (max-roles 33))"), (11, Text::Rules, 2));
    assert_eq!(second("(rule 3 (max-roles 5))"), (12, Text::Rules, 2));
    assert_eq!(second("(right assign 30)"), (12, Text::Rules, 2));
    assert_eq!(second("(rule 2 (needs 4 4))"), (13, Text::Rules, 2));
    assert_eq!(second("(rule 2 (during 4 (dates 20260608 20260607)))"), (14, Text::Rules, 2));
    assert_eq!(second("(rule 2 (max-roles 5))"), (56, Text::Rules, 1));
}

/// No line is longer, so that the space that the wrapper lends holds every list.
#[test]
fn the_longest_policies() {
    let longest = "enable r31 if active r30 deactivation-dependency";
    assert_eq!(repeated(longest, 128).len(), POLICIES_MOST);
    for body in [
        "assign-role r31 prerequisite r30",
        "maxUsers = 64 only-for-role r31",
        "maxRoles-User = 32",
        "maxActiveRoles = 32",
    ] {
        assert!(body.len() < longest.len());
    }
}
