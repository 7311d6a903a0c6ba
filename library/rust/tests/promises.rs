//! What each function promises, on texts whose answers were worked out from documents 01 and 02. Needs nothing but this folder and the archive:
//! from a copy of it, `PITCH_GATE_LIBRARY=FOLDER cargo test`, where FOLDER has libpitch_gate.a.

use pitch_gate::*;

const LISTING: &[u8] = b"(rule 1 (needs 2 1))\n(rule 2 (apart 1 3))\n(steps)\n(assign 5 1)\n(assign 5 3)\n(assign 6 2)\n\
    (open 0 5)\n(open 1 6)\n(activate 1 2)\n(activate 0 1)\n(activate 1 2)\n(deactivate 0 1)\n(close 0)\n(clock 0)\n";
const LISTING_ANSWERS: &[u8] =
    b"(yes 1 0)\n(no 30 2 1)\n(yes 0 0)\n(yes 0 0)\n(yes 0 0)\n(no 30 1 1)\n(yes 0 0)\n(yes 1 0)\n\
    (no 30 1 1)\n(yes 1 2)\n(yes 1 0)\n";
const LISTING_STATE: &[u8] = b"(now 0)\n(assigned 5 1)\n(assigned 6 2)\n(open 1 6)\n";

const RULES: &[u8] = b"(rule 1 (needs 2 1))\n(rule 2 (apart 1 3))\n";
const BAD_RULES: &[u8] = b"(rule 1 (needs 2 1))\n(rule 2 (apart 3 3))\n";
const RIGHTS: &[u8] =
    b"(right assign 30)\n(right withdraw 30)\n(right grant 31)\n(right take 31)\n(right lend 29)\n(right recall 29)\n";
const FRESH: &[u8] = b"(now 0)\n";
const STATE: &[u8] = b"(now 0)\n(assigned 5 1)\n";
const BREAKING_STATE: &[u8] = b"(now 0)\n(assigned 5 1)\n(assigned 5 3)\n";
/// The five lines of the subset, and the rules that they are.
const POLICIES: &[u8] =
    b"PL1: assign-role r4 prerequisite r2;\nPL2: maxUsers = 3 only-for-role r4;\nPL3: maxRoles-User = 5;\n\
    PL4: maxActiveRoles = 2;\nPL5: enable r4 if active r2 deactivation-dependency;\n";
const POLICY_RULES: &[u8] =
    b"(rule 1 (before 4 2))\n(rule 2 (max-users 4 3))\n(rule 3 (max-roles 5))\n(rule 4 (max-active 2))\n(rule 5 (needs 4 2))\n";
const UNTOUCHED: u8 = 0xa5;

/// Rule lists that are refused, with the number and the line.
const REFUSED_RULES: [(&[u8], u64, u64); 11] = [
    (b"(rule 1 (needs 2 1))", 10, 1),
    (b"(right clock 3)\n", 10, 1),
    (b"(rule 1 (needs 2 32))\n", 11, 1),
    (b"(right assign 32)\n", 11, 1),
    (b"(rule 1 (needs 2 1))\n(rule 3 (apart 1 3))\n", 12, 2),
    (b"(right assign 3)\n(right assign 4)\n", 12, 2),
    (b"(right take 3)\n(right grant 3)\n", 12, 2),
    (b"(right assign 3)\n(rule 1 (needs 2 1))\n(right take 3)\n", 12, 3),
    (b"(right assign 3)\n(rule 2 (needs 2 1))\n", 12, 2),
    (BAD_RULES, 13, 2),
    (b"(rule 1 (during 2 (dates 20230229 20230301)))\n", 14, 1),
];

/// A refusal's number, text and place.
type Told = (u64, Text, u64);

fn told<T>(result: Result<T, Refusal>) -> Result<T, Told> {
    result.map_err(|refusal| (refusal.number, refusal.text, refusal.place))
}

/// The answers and the saved state of a run, or its refusal.
fn ran(rules: &[u8], state: &[u8], steps: &[u8]) -> Result<(Vec<u8>, Vec<u8>), Told> {
    told(run_steps(rules, state, steps).map(|ran| (ran.answers, ran.state)))
}

fn ran_into(rules: &[u8], state: &[u8], steps: &[u8], answers: &mut [u8], next: &mut [u8]) -> Result<(usize, usize), Told> {
    told(run_steps_into(rules, state, steps, answers, next).map(|lengths| (lengths.answers, lengths.state)))
}

fn space(length: usize) -> Vec<u8> {
    vec![UNTOUCHED; length]
}

fn is_untouched(space: &[u8]) -> bool {
    space.iter().all(|byte| *byte == UNTOUCHED)
}

/// The call is refused so in a space of this length, and every byte of it stays.
fn refuses(call: impl Fn(&[u8], &mut [u8]) -> Result<usize, Refusal>, text: &[u8], length: usize, expected: Told) {
    let mut lent = space(length);
    assert_eq!(told(call(text, &mut lent)), Err(expected), "{}", text.escape_ascii());
    assert!(is_untouched(&lent));
}

/// The call writes just this text, and leaves what is past it. A space of each smaller length is 18 with the length that is needed.
fn writes(call: impl Fn(&[u8], &mut [u8]) -> Result<usize, Refusal>, text: &[u8], expected: &[u8]) {
    for more in [0, 3] {
        let mut written = space(expected.len() + more);
        assert_eq!(told(call(text, &mut written)), Ok(expected.len()));
        assert!(written.strip_prefix(expected).is_some_and(is_untouched), "{}", written.escape_ascii());
    }
    for length in 0..expected.len() {
        refuses(&call, text, length, (18, Text::OutputSpace, expected.len() as u64));
    }
}

/// A list of rules in these families, numbered from 1.
fn numbered(families: impl IntoIterator<Item = String>) -> String {
    families.into_iter().zip(1..).map(|(family, number)| format!("(rule {number} {family})\n")).collect()
}

/// A family whose line no other is longer than, for a role of two digits.
fn longest_family(role: u64) -> String {
    format!("(at {role} (outside (box -1000000 -1000000 -1000000 -1000000)))")
}

fn longest_rights(kinds: &[&str]) -> String {
    kinds.iter().map(|kind| format!("(right {kind} 31)\n")).collect()
}

/// Rules and steps of an input as the program takes it.
fn parts(input: &[u8]) -> (&[u8], &[u8]) {
    const LINE: &[u8] = b"(steps)\n";
    let place = input.windows(LINE.len()).position(|window| window == LINE).expect("the input has a line (steps)");
    (&input[..place], &input[place + LINE.len()..])
}

#[test]
fn respond_answers_the_listing() {
    assert_eq!(respond(LISTING).unwrap(), LISTING_ANSWERS);
}

#[test]
fn respond_writes_a_bad_input_as_its_output() {
    assert_eq!(respond(b"").unwrap(), b"(bad 10 1)\n");
    assert_eq!(respond(&[BAD_RULES, b"(steps)\n"].concat()).unwrap(), b"(bad 13 2)\n");
    assert_eq!(respond(&vec![b'?'; INPUT_MOST]).unwrap(), b"(bad 10 1)\n");
    assert_eq!(respond(&vec![b'?'; INPUT_MOST + 1]).unwrap(), b"(bad 19 0)\n");
}

#[test]
fn respond_into_writes_the_output_and_no_more() {
    writes(respond_into, LISTING, LISTING_ANSWERS);
}

#[test]
fn check_rules_accepts_and_refuses() {
    assert_eq!(told(check_rules(b"")), Ok(()));
    assert_eq!(told(check_rules(RULES)), Ok(()));
    assert_eq!(told(check_rules(RIGHTS)), Ok(()));
    for (rules, number, line) in REFUSED_RULES {
        assert_eq!(told(check_rules(rules)), Err((number, Text::Rules, line)));
    }
}

#[test]
fn copy_rules_writes_the_same_bytes() {
    assert_eq!(copy_rules(b"").unwrap(), b"");
    assert_eq!(copy_rules(RULES).unwrap(), RULES);
    assert_eq!(copy_rules(RIGHTS).unwrap(), RIGHTS);
    assert_eq!(copy_rules(&[RIGHTS, RULES].concat()).unwrap(), [RIGHTS, RULES].concat());
    writes(copy_rules_into, RULES, RULES);
}

#[test]
fn copy_rules_into_leaves_every_byte_on_a_refusal() {
    for length in [BAD_RULES.len(), 0] {
        refuses(copy_rules_into, BAD_RULES, length, (13, Text::Rules, 2));
    }
}

#[test]
fn a_space_of_the_length_that_18_names_is_enough() {
    let (rules, steps) = parts(LISTING);
    let mut lengths = (0, 0);
    let mut refusals = 0;
    loop {
        let (mut answers, mut next) = (space(lengths.0), space(lengths.1));
        match ran_into(rules, FRESH, steps, &mut answers, &mut next) {
            Err((18, Text::OutputSpace, bytes)) => lengths.0 = bytes as usize,
            Err((18, Text::StateSpace, bytes)) => lengths.1 = bytes as usize,
            other => {
                assert_eq!(other, Ok(lengths));
                break;
            }
        }
        refusals += 1;
    }
    assert_eq!((refusals, lengths), (2, (LISTING_ANSWERS.len(), LISTING_STATE.len())));
}

#[test]
fn the_longest_rule_list_fills_its_space() {
    let kinds = ["assign", "withdraw", "grant", "take", "lend", "recall"];
    let rules = longest_rights(&kinds) + &numbered((0..128).map(|_| longest_family(31)));
    assert_eq!(rules.len(), RULES_MOST);
    assert_eq!(copy_rules(rules.as_bytes()).unwrap(), rules.as_bytes());
    refuses(copy_rules_into, rules.as_bytes(), RULES_MOST - 1, (18, Text::OutputSpace, RULES_MOST as u64));
}

#[test]
fn policies_and_rules_come_back_byte_for_byte() {
    let pairs: [(&[u8], &[u8]); 6] = [
        (b"", b""),
        (POLICIES, POLICY_RULES),
        (
            b"PL1: assign-role r0 prerequisite r31;\nPL2: assign-role r31 prerequisite r0;\n",
            b"(rule 1 (before 0 31))\n(rule 2 (before 31 0))\n",
        ),
        (
            b"PL1: maxUsers = 0 only-for-role r31;\nPL2: maxUsers = 64 only-for-role r0;\n",
            b"(rule 1 (max-users 31 0))\n(rule 2 (max-users 0 64))\n",
        ),
        (
            b"PL1: maxActiveRoles = 32;\nPL2: maxRoles-User = 32;\nPL3: maxActiveRoles = 0;\nPL4: maxRoles-User = 0;\n",
            b"(rule 1 (max-active 32))\n(rule 2 (max-roles 32))\n(rule 3 (max-active 0))\n(rule 4 (max-roles 0))\n",
        ),
        (
            b"PL1: enable r31 if active r0 deactivation-dependency;\nPL2: enable r31 if active r0 deactivation-dependency;\n",
            b"(rule 1 (needs 31 0))\n(rule 2 (needs 31 0))\n",
        ),
    ];
    for (policies, rules) in pairs {
        assert_eq!(rules_from_policies(policies).unwrap(), rules);
        assert_eq!(policies_from_rules(rules).unwrap(), policies);
        writes(rules_from_policies_into, policies, rules);
        writes(policies_from_rules_into, rules, policies);
        assert_eq!(told(check_rules(rules)), Ok(()));
    }
}

#[test]
fn the_longest_policies_fill_their_space() {
    let policies: String =
        (1..=128).map(|number| format!("PL{number}: enable r31 if active r30 deactivation-dependency;\n")).collect();
    let rules: String = (1..=128).map(|number| format!("(rule {number} (needs 31 30))\n")).collect();
    assert_eq!(policies.len(), POLICIES_MOST);
    assert_eq!(rules_from_policies(policies.as_bytes()).unwrap(), rules.as_bytes());
    assert_eq!(policies_from_rules(rules.as_bytes()).unwrap(), policies.as_bytes());
    let short = (18, Text::OutputSpace, POLICIES_MOST as u64);
    refuses(policies_from_rules_into, rules.as_bytes(), POLICIES_MOST - 1, short);
    let one_more = policies + "PL129: maxActiveRoles = 2;\n";
    refuses(rules_from_policies_into, one_more.as_bytes(), RULES_MOST, (11, Text::Policies, 129));
}

#[test]
fn policies_are_refused_with_their_first_bad_line() {
    let refused: [(&[u8], u64, u64); 16] = [
        (b"PL1: maxActiveRoles = 2;\nPL2: maxActiveRoles = 2\n", 55, 2),
        (b"PL1: maxActiveRoles = 2;\nPL2: maxActiveRoles = 2;", 55, 2),
        (b"PL0: maxActiveRoles = 2;\n", 11, 1),
        (b"PL1: maxActiveRoles = 33;\n", 11, 1),
        (b"PL1: maxActiveRoles = 9999999999;\n", 11, 1),
        (b"PL1: maxActiveRoles = 2;\nPL2: maxRoles-User = 33;\n", 11, 2),
        (b"PL1: maxUsers = 65 only-for-role r4;\n", 11, 1),
        (b"PL1: maxUsers = 3 only-for-role r32;\n", 11, 1),
        (b"PL1: assign-role r32 prerequisite r2;\n", 11, 1),
        (b"PL1: enable r4 if active r32 deactivation-dependency;\n", 11, 1),
        (b"PL2: maxActiveRoles = 2;\n", 12, 1),
        (b"PL1: maxActiveRoles = 2;\nPL1: maxActiveRoles = 2;\n", 12, 2),
        (b"PL1: maxActiveRoles = 2;\nPL3: maxActiveRoles = 2;\n", 12, 2),
        (b"PL1: assign-role r4 prerequisite r4;\n", 13, 1),
        (b"PL1: maxActiveRoles = 2;\nPL2: enable r4 if active r4 deactivation-dependency;\n", 13, 2),
        (b"PL1: assign-role r4 prerequisite r4;\nPL1\n", 13, 1),
    ];
    for (policies, number, line) in refused {
        for length in [RULES_MOST, 0] {
            refuses(rules_from_policies_into, policies, length, (number, Text::Policies, line));
        }
    }
}

/// Of one line 55 comes first, then 11, 12 and 13.
#[test]
fn a_policy_line_is_refused_in_order() {
    let refused: [(&[u8], u64); 4] = [
        (b"PL0: assign-role r32 prerequisite r32\n", 55),
        (b"PL2: assign-role r32 prerequisite r32;\n", 11),
        (b"PL129: assign-role r4 prerequisite r4;\n", 11),
        (b"PL2: assign-role r4 prerequisite r4;\n", 12),
    ];
    for (policies, number) in refused {
        refuses(rules_from_policies_into, policies, RULES_MOST, (number, Text::Policies, 1));
    }
}

#[test]
fn a_line_outside_the_subset_is_refused() {
    let outside: [&str; 31] = [
        "",
        "PL1:",
        "(rule 1 (max-active 2))",
        "(right assign 3)",
        "policies:",
        "roles: r2, r4;",
        "PL1: assign-role trainee prerequisite participant;",
        "PL1: assign-permission p4 prerequisite p2;",
        "PL1: maxUsers = 3;",
        "PL1: maxUsers = 3 only-for-role 4;",
        "PL1: maxPermissions = 3 only-for-role r4;",
        "PL1: maxRoles-User = 5 only-for-user u5;",
        "PL1: maxRoles-Permission = 5;",
        "PL1: enable r4 if active r2;",
        "PL1: enable r4 if active r2, after 2 hour deactivation-dependency;",
        "PL1: conflicting-roles-assignment r4, r2;",
        "maxActiveRoles = 2;",
        "P1: maxActiveRoles = 2;",
        "pl1: maxActiveRoles = 2;",
        "PL 1: maxActiveRoles = 2;",
        "PL01: maxActiveRoles = 2;",
        "PL1: maxActiveRoles = 02;",
        "PL1: maxActiveRoles = -2;",
        "PL1: maxActiveRoles = 10000000000;",
        "PL1: maxActiveRoles=2;",
        "PL1:  maxActiveRoles = 2;",
        "PL1: maxActiveRoles = 2 ;",
        "PL1: maxActiveRoles = 2; ",
        " PL1: maxActiveRoles = 2;",
        "PL1: maxActiveRoles = 2;\r",
        "PL1: maxActiveRoles = 2; PL2: maxActiveRoles = 2;",
    ];
    for line in outside {
        let policies = format!("{line}\n");
        refuses(rules_from_policies_into, policies.as_bytes(), RULES_MOST, (55, Text::Policies, 1));
    }
}

#[test]
fn a_refused_rule_list_is_written_as_no_policies() {
    for (rules, number, line) in REFUSED_RULES {
        refuses(policies_from_rules_into, rules, POLICIES_MOST, (number, Text::Rules, line));
    }
    let bad_after_a_rule_without_a_line = b"(rule 1 (apart 1 3))\n(rule 2 (needs 3 3))\n";
    refuses(policies_from_rules_into, bad_after_a_rule_without_a_line, 0, (13, Text::Rules, 2));
}

#[test]
fn a_rule_without_a_policy_line_is_refused() {
    let families = [
        "max-permissions 4 1",
        "apart 2 5",
        "apart-active 2 5",
        "during 1 (week 1 5 0700 1900)",
        "at 1 (inside (circle 4200 -1300 150))",
        "two-hands 1 2",
        "same-hand 1 2",
    ];
    for family in families {
        let rules = format!("(rule 1 (needs 2 1))\n(rule 2 ({family}))\n(rule 3 (apart 1 3))\n");
        for length in [POLICIES_MOST, 0] {
            refuses(policies_from_rules_into, rules.as_bytes(), length, (56, Text::Rules, 2));
        }
    }
}

#[test]
fn a_right_line_comes_before_any_rule_without_a_policy_line() {
    for rules in [b"", POLICY_RULES, RULES] {
        for rights in [RIGHTS, b"(right recall 3)\n"] {
            refuses(policies_from_rules_into, &[rights, rules].concat(), 0, (56, Text::Rules, 0));
        }
    }
}

/// Two lists are joined to just this one, and in a space that is too short to nothing.
fn joins(first: &[u8], second: &[u8], expected: &[u8]) {
    assert_eq!(told(join_rules(first, second)).as_deref(), Ok(expected), "{}", second.escape_ascii());
    assert_eq!(told(check_rules(expected)), Ok(()));
    writes(|second, joined| join_rules_into(first, second, joined), second, expected);
}

/// Two lists are refused so, whether the space is long enough or empty, and every byte of it stays.
fn refuses_to_join(first: &[u8], second: &[u8], expected: Told) {
    for length in [RULES_MOST, 0] {
        refuses(|second, joined| join_rules_into(first, second, joined), second, length, expected);
    }
}

#[test]
fn joined_rules_are_the_first_list_and_what_the_second_adds() {
    joins(b"", b"", b"");
    joins(RULES, b"", RULES);
    joins(b"", RULES, RULES);
    let others = b"(rule 1 (apart 1 3))\n(rule 2 (max-active 2))\n(rule 3 (during 2 (week 1 5 0700 1900)))\n";
    joins(
        RULES,
        others,
        b"(rule 1 (needs 2 1))\n(rule 2 (apart 1 3))\n(rule 3 (max-active 2))\n(rule 4 (during 2 (week 1 5 0700 1900)))\n",
    );
    joins(
        others,
        RULES,
        b"(rule 1 (apart 1 3))\n(rule 2 (max-active 2))\n(rule 3 (during 2 (week 1 5 0700 1900)))\n(rule 4 (needs 2 1))\n",
    );
}

#[test]
fn a_list_joined_with_itself_is_itself() {
    let doubled = b"(rule 1 (needs 2 1))\n(rule 2 (apart 1 3))\n(rule 3 (needs 2 1))\n";
    for list in [RULES, RIGHTS, POLICY_RULES, doubled, &[RIGHTS, RULES].concat()] {
        joins(list, list, list);
    }
}

/// Lines that differ in anything but the rule's number stay apart, whatever they mean.
#[test]
fn rules_are_equal_when_their_lines_are() {
    let families = [
        "(needs 1 2)",
        "(needs 2 1)",
        "(before 2 1)",
        "(apart 2 1)",
        "(apart 1 2)",
        "(apart-active 1 2)",
        "(two-hands 1 2)",
        "(same-hand 1 2)",
        "(max-users 1 2)",
        "(max-permissions 1 2)",
        "(max-permissions 1 3)",
        "(max-roles 2)",
        "(max-active 2)",
        "(during 1 (week 1 5 0700 1900))",
        "(during 1 (week 1 5 0700 1901))",
        "(during 2 (week 1 5 0700 1900))",
        "(during 1 (months 1 5))",
        "(during 1 (nth 1 5))",
        "(during 1 (dates 20260608 20260609))",
        "(during 1 (every 1 20260608))",
        "(at 1 (inside (circle 0 0 5)))",
        "(at 1 (outside (circle 0 0 5)))",
        "(at 1 (inside (circle 0 0 6)))",
        "(at 1 (inside (box 0 0 5 5)))",
        "(at 1 (inside (box -5 0 5 5)))",
    ];
    for first in families {
        for second in families {
            let joined = if first == second { vec![first] } else { vec![first, second] };
            let [first, second, joined] =
                [&[first][..], &[second], &joined].map(|list| numbered(list.iter().map(|family| family.to_string())));
            joins(first.as_bytes(), second.as_bytes(), joined.as_bytes());
        }
    }
}

#[test]
fn doubles_stay_in_the_first_list_and_are_joined_once_from_the_second() {
    let doubled = b"(rule 1 (needs 2 1))\n(rule 2 (apart 1 3))\n(rule 3 (needs 2 1))\n";
    joins(doubled, b"", doubled);
    joins(b"", doubled, RULES);
    joins(doubled, b"(rule 1 (max-active 2))\n", &[&doubled[..], b"(rule 4 (max-active 2))\n"].concat());
    joins(b"(rule 1 (max-active 2))\n", doubled, b"(rule 1 (max-active 2))\n(rule 2 (needs 2 1))\n(rule 3 (apart 1 3))\n");
}

#[test]
fn right_lines_of_either_list_are_kept_in_the_order_of_their_kinds() {
    joins(
        b"(right withdraw 30)\n(right lend 29)\n(rule 1 (needs 2 1))\n",
        b"(right assign 3)\n(right withdraw 30)\n(right recall 3)\n(rule 1 (apart 1 3))\n",
        b"(right assign 3)\n(right withdraw 30)\n(right lend 29)\n(right recall 3)\n(rule 1 (needs 2 1))\n(rule 2 (apart 1 3))\n",
    );
    joins(RIGHTS, RULES, &[RIGHTS, RULES].concat());
    joins(RULES, RIGHTS, &[RIGHTS, RULES].concat());
    joins(b"(right take 3)\n", b"(right grant 3)\n", b"(right grant 3)\n(right take 3)\n");
}

#[test]
fn a_refused_list_is_not_joined() {
    for (rules, number, line) in REFUSED_RULES {
        refuses_to_join(rules, RULES, (number, Text::Rules, line));
        refuses_to_join(RULES, rules, (number, Text::SecondRules, line));
        refuses_to_join(b"", rules, (number, Text::SecondRules, line));
        refuses_to_join(rules, b"nothing\n", (number, Text::Rules, line));
    }
}

/// So many rules that no two are equal.
fn different_rules(count: u64) -> Vec<String> {
    (0..count).map(|number| format!("(max-permissions {} {})", number / 32, number % 32)).collect()
}

#[test]
fn joined_lists_have_at_most_128_rules() {
    let rules = different_rules(130);
    let list = |from: usize, to: usize| numbered(rules[from..to].iter().cloned()).into_bytes();
    for (first, second) in [(128, 0), (100, 30), (0, 0), (127, 127), (1, 1)] {
        assert_eq!(told(join_rules(&list(0, first), &list(second, 128))), Ok(list(0, 128)));
    }
    refuses_to_join(&list(0, 128), &list(128, 129), (57, Text::SecondRules, 1));
    refuses_to_join(&list(0, 128), &list(126, 130), (57, Text::SecondRules, 3));
    refuses_to_join(&list(0, 127), &list(127, 129), (57, Text::SecondRules, 2));
    refuses_to_join(&list(0, 1), &list(1, 129), (57, Text::SecondRules, 128));
    let with_rights = [RIGHTS, &list(126, 130)].concat();
    refuses_to_join(&list(0, 128), &with_rights, (57, Text::SecondRules, 9));
}

#[test]
fn right_lines_of_one_kind_must_not_differ() {
    refuses_to_join(b"(right assign 3)\n", b"(right assign 4)\n", (58, Text::SecondRules, 1));
    refuses_to_join(RIGHTS, b"(right assign 30)\n(right take 30)\n(right lend 30)\n", (58, Text::SecondRules, 2));
    refuses_to_join(b"(right recall 3)\n", RIGHTS, (58, Text::SecondRules, 6));
}

/// 10 to 14 of the first list, of the second, 58, 57, 18.
#[test]
fn lists_are_refused_in_order() {
    let rules = numbered(different_rules(128));
    let first = ["(right assign 3)\n", &rules].concat();
    let second = b"(right assign 4)\n(rule 1 (needs 2 1))\n";
    refuses_to_join(BAD_RULES, BAD_RULES, (13, Text::Rules, 2));
    let bad = [&second[..], b"(rule 2 (apart 3 3))\n"].concat();
    refuses_to_join(first.as_bytes(), &bad, (13, Text::SecondRules, 3));
    refuses_to_join(first.as_bytes(), second, (58, Text::SecondRules, 1));
    refuses_to_join(rules.as_bytes(), second, (57, Text::SecondRules, 2));
}

/// Rules that stand twice stay only in the first list, so that it has most of the longest lines.
#[test]
fn the_longest_joined_list_fills_its_space() {
    let roles = 10..31;
    let doubles = 128 - roles.clone().count();
    let many = (0..doubles).map(|_| longest_family(31));
    let first = longest_rights(&["withdraw", "lend"]) + &numbered(many.clone());
    let second =
        longest_rights(&["assign", "grant", "take", "lend", "recall"]) + &numbered(roles.clone().map(longest_family));
    let kinds = ["assign", "withdraw", "grant", "take", "lend", "recall"];
    let joined = longest_rights(&kinds) + &numbered(many.chain(roles.map(longest_family)));
    assert_eq!(joined.len(), RULES_MOST);
    assert_eq!(join_rules(first.as_bytes(), second.as_bytes()).unwrap(), joined.as_bytes());
    let join = |second: &[u8], space: &mut [u8]| join_rules_into(first.as_bytes(), second, space);
    refuses(join, second.as_bytes(), RULES_MOST - 1, (18, Text::OutputSpace, RULES_MOST as u64));
}

#[test]
fn a_state_obeys_the_joined_list_just_if_it_obeys_both() {
    let others = b"(rule 1 (apart 1 3))\n(rule 2 (max-roles 1))\n";
    let joined = join_rules(RULES, others).unwrap();
    let states: [(&[u8], Result<(), u64>); 4] = [
        (STATE, Ok(())),
        (b"(now 0)\n(assigned 5 1)\n(assigned 5 2)\n", Err(3)),
        (b"(now 0)\n(assigned 6 2)\n(open 0 6)\n(active 0 2)\n", Err(1)),
        (BREAKING_STATE, Err(2)),
    ];
    for (state, expected) in states {
        let both = obeys(RULES, state) && obeys(others, state);
        assert_eq!(both, expected.is_ok());
        assert_eq!(told(check_state(&joined, state)), expected.map_err(|rule| (17, Text::State, rule)));
    }
}

fn obeys(rules: &[u8], state: &[u8]) -> bool {
    check_state(rules, state).is_ok()
}

/// A right line of either list asks for its permission under the joined one, whatever the saved state has.
#[test]
fn right_lines_of_either_list_bind_the_steps() {
    let joined = join_rules(b"(right assign 30)\n", b"(right grant 31)\n").unwrap();
    let steps = b"(assign 6 2)\n(grant 2 1)\n(by 0 (assign 6 2))\n(by 0 (grant 2 1))\n(withdraw 6 2)\n(take 2 1)\n";
    let answers = b"(no 54 0 0)\n(no 54 0 0)\n(yes 0 0)\n(yes 0 0)\n(yes 0 0)\n(yes 0 0)\n";
    assert_eq!(ran(&joined, SAVED_RIGHTS, steps), Ok((answers.to_vec(), SAVED_RIGHTS.to_vec())));
}

#[test]
fn the_version_is_the_library_s() {
    assert_eq!(version(), VERSION);
    let [major, minor, third] = [10_000, 100, 1].map(|unit| VERSION / unit % 100);
    assert_eq!(format!("{major}.{minor}.{third}"), env!("CARGO_PKG_VERSION"));
}

#[test]
fn check_state_accepts_and_refuses() {
    assert_eq!(told(check_state(RULES, FRESH)), Ok(()));
    assert_eq!(told(check_state(RULES, STATE)), Ok(()));
    assert_eq!(told(check_state(b"", BREAKING_STATE)), Ok(()));
    assert_eq!(told(check_state(BAD_RULES, b"")), Err((13, Text::Rules, 2)));
    let refused: [(&[u8], u64, u64); 10] = [
        (b"", 10, 1),
        (b"(now 0)\n(assigned 64 1)\n", 11, 2),
        (b"(assigned 5 1)\n", 15, 1),
        (b"(now 0)\n(assigned 5 3)\n(loan 5 6 3 60)\n(loan 5 6 3 90)\n", 15, 4),
        (b"(now 0)\n(open 0 5)\n(active 0 1)\n", 16, 3),
        (b"(now 0)\n(assigned 5 3)\n(loan 6 8 3 60)\n", 16, 3),
        (b"(now 0)\n(assigned 5 3)\n(assigned 6 3)\n(loan 5 6 3 60)\n", 16, 4),
        (b"(now 60)\n(assigned 5 3)\n(loan 5 6 3 60)\n", 16, 3),
        (BREAKING_STATE, 17, 2),
        (b"(now 0)\n(assigned 5 3)\n(assigned 6 1)\n(loan 5 6 3 60)\n", 17, 2),
    ];
    for (state, number, place) in refused {
        assert_eq!(told(check_state(RULES, state)), Err((number, Text::State, place)));
    }
}

#[test]
fn copy_state_into_writes_the_same_bytes() {
    let mut copy = space(STATE.len() + 3);
    assert_eq!(told(copy_state_into(RULES, STATE, &mut copy)), Ok(STATE.len()));
    assert_eq!(copy.strip_prefix(STATE), Some(&[UNTOUCHED; 3][..]));
    assert_eq!(copy_state(RULES, STATE).unwrap(), STATE);
}

#[test]
fn copy_state_into_leaves_every_byte_on_a_refusal() {
    let refused: [(&[u8], &[u8], usize, Told); 4] = [
        (BAD_RULES, STATE, STATE.len(), (13, Text::Rules, 2)),
        (RULES, b"(now 0)", STATE.len(), (10, Text::State, 1)),
        (RULES, BREAKING_STATE, 0, (17, Text::State, 2)),
        (RULES, STATE, STATE.len() - 1, (18, Text::StateSpace, STATE.len() as u64)),
    ];
    for (rules, state, length, expected) in refused {
        let mut copy = space(length);
        assert_eq!(told(copy_state_into(rules, state, &mut copy)), Err(expected));
        assert!(is_untouched(&copy));
    }
}

#[test]
fn fresh_state_is_written_or_refused() {
    assert_eq!(fresh_state().unwrap(), FRESH);
    let mut state = space(FRESH.len() + 3);
    assert_eq!(told(fresh_state_into(&mut state)), Ok(FRESH.len()));
    assert_eq!(state.strip_prefix(FRESH), Some(&[UNTOUCHED; 3][..]));
    for length in 0..FRESH.len() {
        let mut short = space(length);
        assert_eq!(told(fresh_state_into(&mut short)), Err((18, Text::StateSpace, 8)));
        assert!(is_untouched(&short));
    }
}

#[test]
fn run_steps_answers_the_listing() {
    let (rules, steps) = parts(LISTING);
    assert_eq!(ran(rules, FRESH, steps), Ok((LISTING_ANSWERS.to_vec(), LISTING_STATE.to_vec())));
}

#[test]
fn run_steps_without_steps_hands_the_state_back() {
    assert_eq!(ran(RULES, STATE, b""), Ok((vec![], STATE.to_vec())));
}

#[test]
fn run_steps_lends_a_role_until_its_time_or_its_recall() {
    let start = b"(now 0)\n(assigned 5 3)\n(granted 3 2)\n(open 0 6)\n";
    let lent = b"(now 0)\n(assigned 5 3)\n(granted 3 2)\n(loan 5 6 3 60)\n(open 0 6)\n(active 0 3)\n(did 7 2 6)\n";
    let borrowing = b"(activate 0 3)\n(lend 5 6 3 60)\n(activate 0 3)\n(access 0 2 7)\n";
    let borrowed = b"(no 26 0 0)\n(yes 0 0)\n(yes 0 0)\n(yes 0 0)\n";
    assert_eq!(ran(b"", start, borrowing), Ok((borrowed.to_vec(), lent.to_vec())));
    let reached = b"(now 60)\n(assigned 5 3)\n(granted 3 2)\n(open 0 6)\n(did 7 2 6)\n";
    assert_eq!(ran(b"", lent, b"(clock 59)\n(clock 60)\n"), Ok((b"(yes 0 0)\n(yes 0 1)\n".to_vec(), reached.to_vec())));
    let recalled = b"(now 0)\n(assigned 5 3)\n(granted 3 2)\n(open 0 6)\n(did 7 2 6)\n";
    let twice = b"(recall 5 6 3)\n(recall 5 6 3)\n";
    assert_eq!(ran(b"", lent, twice), Ok((b"(yes 0 1)\n(no 25 0 0)\n".to_vec(), recalled.to_vec())));
}

#[test]
fn run_steps_answers_what_cannot_be_lent_or_taken_from_a_lender() {
    let state = b"(now 60)\n(assigned 5 3)\n(assigned 8 1)\n";
    let asked: [(&str, &str); 11] = [
        ("(lend 6 8 3 90)", "(no 50 0 0)"),
        ("(lend 5 5 3 90)", "(no 24 0 0)"),
        ("(lend 5 6 3 60)", "(no 52 0 0)"),
        ("(lend 5 6 3 3155760000)", "(no 20 0 0)"),
        ("(lend 5 8 3 90)", "(no 30 2 1)"),
        ("(lend 5 6 3 90)", "(yes 1 0)"),
        ("(assign 6 3)", "(no 24 0 0)"),
        ("(assign 6 1)", "(no 30 2 1)"),
        ("(withdraw 5 3)", "(no 27 0 0)"),
        ("(recall 5 6 3)", "(yes 1 0)"),
        ("(withdraw 5 3)", "(yes 0 0)"),
    ];
    let steps: String = asked.iter().map(|(step, _)| format!("{step}\n")).collect();
    let answers: String = asked.iter().map(|(_, answer)| format!("{answer}\n")).collect();
    assert_eq!(ran(RULES, state, steps.as_bytes()), Ok((answers.into_bytes(), b"(now 60)\n(assigned 8 1)\n".to_vec())));
}

/// User 8 has every right by role 6, which is active in session 0 and not in session 1.
const SAVED_RIGHTS: &[u8] =
    b"(now 0)\n(assigned 5 2)\n(assigned 8 6)\n(granted 6 29)\n(granted 6 30)\n(granted 6 31)\n(open 0 8)\n\
    (active 0 6)\n(open 1 8)\n(open 2 5)\n";

#[test]
fn run_steps_asks_for_the_right_of_the_acting_session() {
    let asked: [(&str, &str); 15] = [
        ("(assign 6 2)", "(no 54 0 0)"),
        ("(by 1 (assign 6 2))", "(no 54 0 0)"),
        ("(by 2 (assign 6 2))", "(no 54 0 0)"),
        ("(by 3 (assign 6 2))", "(no 53 0 0)"),
        ("(by 32 (assign 6 2))", "(no 20 0 0)"),
        ("(by 9999999999 (assign 6 2))", "(no 20 0 0)"),
        ("(by 0 (assign 64 2))", "(no 20 0 0)"),
        ("(by 0 (assign 5 2))", "(no 24 0 0)"),
        ("(by 0 (assign 6 2))", "(yes 0 0)"),
        ("(by 0 (grant 2 1))", "(yes 0 0)"),
        ("(by 0 (lend 5 7 2 60))", "(yes 0 0)"),
        ("(by 0 (recall 5 7 2))", "(yes 0 0)"),
        ("(by 0 (withdraw 5 2))", "(yes 0 0)"),
        ("(by 0 (take 6 31))", "(yes 0 0)"),
        ("(by 0 (grant 6 31))", "(no 54 0 0)"),
    ];
    let steps: String = asked.iter().map(|(step, _)| format!("{step}\n")).collect();
    let answers: String = asked.iter().map(|(_, answer)| format!("{answer}\n")).collect();
    let next = b"(now 0)\n(assigned 6 2)\n(assigned 8 6)\n(granted 2 1)\n(granted 6 29)\n(granted 6 30)\n(open 0 8)\n(active 0 6)\n\
        (open 1 8)\n(open 2 5)\n";
    assert_eq!(ran(RIGHTS, SAVED_RIGHTS, steps.as_bytes()), Ok((answers.into_bytes(), next.to_vec())));
}

#[test]
fn run_steps_without_right_lines_takes_any_open_acting_session() {
    let steps = b"(by 0 (assign 6 2))\n(by 1 (grant 2 1))\n(by 3 (assign 7 2))\n(assign 7 2)\n";
    let next = b"(now 0)\n(assigned 5 2)\n(assigned 6 2)\n(assigned 7 2)\n(assigned 8 6)\n(granted 2 1)\n(granted 6 29)\n(granted 6 30)\n\
        (granted 6 31)\n(open 0 8)\n(active 0 6)\n(open 1 8)\n(open 2 5)\n";
    let answers = b"(yes 0 0)\n(yes 0 0)\n(no 53 0 0)\n(yes 0 0)\n";
    assert_eq!(ran(b"", SAVED_RIGHTS, steps), Ok((answers.to_vec(), next.to_vec())));
}

#[test]
fn run_steps_refuses_by_before_another_kind_or_another_by() {
    let bad: [&[u8]; 4] =
        [b"(by 0 (close 0))\n", b"(by 0 (by 0 (assign 6 2)))\n", b"(by 0 (assign 6 2)\n", b"(by 00 (assign 6 2))\n"];
    for steps in bad {
        assert_eq!(ran(RIGHTS, SAVED_RIGHTS, steps), Err((10, Text::Steps, 1)));
    }
}

/// User 5 has lent role 3 to so many others.
fn state_with_loans(loans: usize) -> Vec<u8> {
    let lines: String = (10..10 + loans).map(|borrower| format!("(loan 5 {borrower} 3 60)\n")).collect();
    format!("(now 0)\n(assigned 5 3)\n{lines}").into_bytes()
}

#[test]
fn a_thirty_third_loan_is_refused() {
    let full = state_with_loans(32);
    let mut copy = space(full.len());
    assert_eq!(told(copy_state_into(b"", &full, &mut copy)), Ok(full.len()));
    assert_eq!(copy, full);
    let mut short = space(full.len() - 1);
    assert_eq!(told(copy_state_into(b"", &full, &mut short)), Err((18, Text::StateSpace, full.len() as u64)));
    assert!(is_untouched(&short));
    assert_eq!(ran(b"", &full, b"(lend 5 9 3 60)\n"), Ok((b"(no 51 0 0)\n".to_vec(), full)));
    assert_eq!(told(check_state(b"", &state_with_loans(33))), Err((51, Text::State, 35)));
}

#[test]
fn run_steps_refuses_in_order() {
    let bad: &[u8] = b"nothing\n";
    assert_eq!(ran(bad, bad, &vec![b'?'; INPUT_MOST + 1]), Err((19, Text::Steps, 0)));
    assert_eq!(ran(bad, bad, bad), Err((10, Text::Rules, 1)));
    assert_eq!(ran(RULES, bad, bad), Err((10, Text::State, 1)));
    assert_eq!(ran(RULES, BREAKING_STATE, bad), Err((17, Text::State, 2)));
    assert_eq!(ran(RULES, STATE, b"(clock 1)\nnothing\n"), Err((10, Text::Steps, 2)));
}

#[test]
fn run_steps_takes_65536_bytes_of_steps() {
    let steps = |long, short| [b"(finish 31)\n".repeat(long), b"(finish 3)\n".repeat(short)].concat();
    let most = steps(5454, 8);
    assert_eq!(most.len(), INPUT_MOST);
    assert_eq!(run_steps(RULES, STATE, &most).unwrap().answers, b"(yes 0 0)\n".repeat(5462));
    let more = steps(5455, 7);
    assert_eq!(more.len(), INPUT_MOST + 1);
    assert_eq!(ran(RULES, STATE, &more), Err((19, Text::Steps, 0)));
}

#[test]
fn run_steps_into_leaves_what_is_past_the_texts() {
    let (rules, steps) = parts(LISTING);
    let (mut answers, mut next) = (space(LISTING_ANSWERS.len() + 3), space(LISTING_STATE.len() + 5));
    let expected = (LISTING_ANSWERS.len(), LISTING_STATE.len());
    assert_eq!(ran_into(rules, FRESH, steps, &mut answers, &mut next), Ok(expected));
    assert_eq!(answers.strip_prefix(LISTING_ANSWERS), Some(&[UNTOUCHED; 3][..]));
    assert_eq!(next.strip_prefix(LISTING_STATE), Some(&[UNTOUCHED; 5][..]));
}

#[test]
fn run_steps_into_leaves_every_byte_on_a_refusal() {
    let (rules, steps) = parts(LISTING);
    let (most, state) = (LISTING_ANSWERS.len(), LISTING_STATE.len());
    let refused = |rules: &[u8], from: &[u8], steps: &[u8], answers_length, next_length, expected| {
        let (mut answers, mut next) = (space(answers_length), space(next_length));
        assert_eq!(ran_into(rules, from, steps, &mut answers, &mut next), Err(expected));
        assert!(is_untouched(&answers) && is_untouched(&next));
    };
    refused(BAD_RULES, FRESH, steps, most, state, (13, Text::Rules, 2));
    refused(rules, b"(now 0)", steps, most, state, (10, Text::State, 1));
    refused(rules, FRESH, b"(nothing)\n", most, state, (10, Text::Steps, 1));
    refused(rules, FRESH, steps, most - 1, state, (18, Text::OutputSpace, most as u64));
    refused(rules, FRESH, steps, most, state - 1, (18, Text::StateSpace, state as u64));
    refused(rules, FRESH, steps, 0, 0, (18, Text::OutputSpace, most as u64));
}

/// A borrower is not assigned what he borrows: the longest text with 32 loans lacks as many of the lines that the space is long enough for.
#[test]
fn the_longest_state_fits_its_space() {
    let state = longest_state();
    assert_eq!(state.len(), STATE_MOST);
    let mut copy = space(STATE_MOST);
    assert_eq!(told(copy_state_into(b"", &state, &mut copy)), Ok(state.len()));
    assert!(copy.strip_prefix(&state[..]).is_some_and(is_untouched));
    let mut short = space(state.len() - 1);
    assert_eq!(told(copy_state_into(b"", &state, &mut short)), Err((18, Text::StateSpace, state.len() as u64)));
    assert!(is_untouched(&short));
}

/// Everything assigned or lent, granted, open, active and done, with the longest times, users, positions and errors.
fn longest_state() -> Vec<u8> {
    let mut text = String::from("(now 3155759998)\n");
    let pairs = |first, second| (0..first).flat_map(move |one| (0..second).map(move |other| (one, other)));
    let borrowers = 10..42;
    for (user, role) in pairs(64, 32).filter(|(user, role)| *role != 31 || !borrowers.contains(user)) {
        text += &format!("(assigned {user} {role})\n");
    }
    for (role, permission) in pairs(32, 32) {
        text += &format!("(granted {role} {permission})\n");
    }
    for borrower in borrowers {
        text += &format!("(loan 63 {borrower} 31 3155759999)\n");
    }
    for session in 0..32 {
        text += &format!("(open {session} 63)\n(place {session} -1000000 -1000000 1000)\n");
        for role in 0..32 {
            text += &format!("(active {session} {role})\n");
        }
    }
    for ((object, permission), user) in pairs(32, 32).flat_map(|pair| (0..64).map(move |user| (pair, user))) {
        text += &format!("(did {object} {permission} {user})\n");
    }
    text.into_bytes()
}

#[test]
fn a_refusal_names_its_cause() {
    assert_eq!(
        check_rules(BAD_RULES).unwrap_err().to_string(),
        "refused with 13 in the rule list, line 2: same role or permission twice in a rule"
    );
    assert_eq!(
        check_state(RULES, BREAKING_STATE).unwrap_err().to_string(),
        "refused with 17 in the saved state, rule 2: saved state breaks a rule"
    );
    assert_eq!(
        check_state(b"", &state_with_loans(33)).unwrap_err().to_string(),
        "refused with 51 in the saved state, line 35: 32 loans run; a thirty-third saved loan"
    );
    assert_eq!(
        fresh_state_into(&mut []).unwrap_err().to_string(),
        "refused with 18 in the space for the saved state, which needs 8 bytes: lent space shorter than the text or answers"
    );
    assert_eq!(
        check_rules(b"(right assign 3)\n(right assign 4)\n").unwrap_err().to_string(),
        "refused with 12 in the rule list, line 2: rule number not the next; right line second of its kind, out of order or after a rule"
    );
    assert_eq!(
        rules_from_policies(b"PL1: maxUsers = 3;\n").unwrap_err().to_string(),
        "refused with 55 in the policies, line 1: policy line outside the subset of GEMRBAC-DSL"
    );
    assert_eq!(
        policies_from_rules(RULES).unwrap_err().to_string(),
        "refused with 56 in the rule list, rule 2: rule or right line that has no policy line"
    );
    assert_eq!(
        policies_from_rules(RIGHTS).unwrap_err().to_string(),
        "refused with 56 in the rule list: rule or right line that has no policy line"
    );
    assert_eq!(
        join_rules(RULES, BAD_RULES).unwrap_err().to_string(),
        "refused with 13 in the second rule list, line 2: same role or permission twice in a rule"
    );
    assert_eq!(
        join_rules(numbered(different_rules(128)).as_bytes(), RULES).unwrap_err().to_string(),
        "refused with 57 in the second rule list, line 1: joined lists have more than 128 rules"
    );
    assert_eq!(
        join_rules(b"(right take 3)\n", RIGHTS).unwrap_err().to_string(),
        "refused with 58 in the second rule list, line 4: two right lines of one kind with different permissions in the lists to be joined"
    );
    assert_eq!(
        run_steps(RULES, STATE, b"(revoke 5 1)\n").unwrap_err().to_string(),
        "refused with 10 in the steps, line 1: line is no form of its text"
    );
}

#[test]
fn each_number_has_its_own_cause() {
    let causes: Vec<&str> = (0..100).filter_map(cause).collect();
    assert_eq!(causes.len(), 29);
    assert!(causes.iter().all(|one| causes.iter().filter(|other| *other == one).count() == 1));
    assert_eq!((cause(0), cause(29), cause(40)), (None, None, None));
}
