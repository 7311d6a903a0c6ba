//! The listing of the scope document, a worked case of each rule family and
//! each step, and the largest part.

use outside::plain::form::Bad;
use outside::plain::largest::{by_every_part, by_rounds};
use outside::plain::program::read_input;
use outside::plain::rule_text::read_rules;
use outside::plain::state_text::read_state;
use worked::answers;

mod worked;

#[test]
fn the_listing() {
    let rules = ["(needs 2 1)", "(apart 1 3)"];
    let steps = [
        "(assign 5 1)",
        "(assign 5 3)",
        "(assign 6 2)",
        "(open 0 5)",
        "(open 1 6)",
        "(activate 1 2)",
        "(activate 0 1)",
        "(activate 1 2)",
        "(deactivate 0 1)",
        "(close 0)",
        "(clock 0)",
    ];
    let expected = [
        "(yes 1 0)",
        "(no 30 2 1)",
        "(yes 0 0)",
        "(yes 0 0)",
        "(yes 0 0)",
        "(no 30 1 1)",
        "(yes 0 0)",
        "(yes 1 0)",
        "(no 30 1 1)",
        "(yes 1 2)",
        "(yes 1 0)",
    ];
    assert_eq!(answers(&rules, &steps), expected);
}

#[test]
fn refusals_of_each_step() {
    let steps = [
        ("(withdraw 1 2)", "(no 25 0 0)"),
        ("(assign 1 2)", "(yes 0 0)"),
        ("(assign 1 2)", "(no 24 0 0)"),
        ("(take 2 3)", "(no 25 0 0)"),
        ("(grant 2 3)", "(yes 0 0)"),
        ("(grant 2 3)", "(no 24 0 0)"),
        ("(activate 4 2)", "(no 23 0 0)"),
        ("(open 4 1)", "(yes 0 0)"),
        ("(open 4 0)", "(no 22 0 0)"),
        ("(activate 4 3)", "(no 26 0 0)"),
        ("(access 4 3 0)", "(no 28 0 0)"),
        ("(deactivate 4 2)", "(no 25 0 0)"),
        ("(activate 4 2)", "(yes 0 0)"),
        ("(activate 4 2)", "(no 24 0 0)"),
        ("(withdraw 1 2)", "(no 27 0 0)"),
        ("(access 4 3 0)", "(yes 0 0)"),
        ("(deactivate 4 2)", "(yes 0 1)"),
        ("(withdraw 1 2)", "(yes 0 0)"),
        ("(finish 0)", "(yes 0 0)"),
        ("(take 2 3)", "(yes 0 0)"),
        ("(lost 4)", "(yes 0 0)"),
        ("(close 4)", "(yes 0 0)"),
        ("(close 4)", "(no 23 0 0)"),
        ("(move 4 0 0)", "(no 23 0 0)"),
        ("(lost 4)", "(no 23 0 0)"),
        ("(access 4 3 0)", "(no 23 0 0)"),
        ("(deactivate 4 2)", "(no 23 0 0)"),
    ];
    let (written, expected): (Vec<_>, Vec<_>) = steps.into_iter().unzip();
    assert_eq!(answers(&[], &written), expected);
}

#[test]
fn numbers_outside_their_ranges() {
    let steps = [
        "(assign 64 0)",
        "(assign 0 32)",
        "(grant 0 32)",
        "(open 32 0)",
        "(access 0 0 32)",
        "(finish 32)",
        "(move 0 1000001 0)",
        "(move 0 0 -1000001)",
        "(clock 3155760000)",
        "(clock 9999999999)",
    ];
    assert_eq!(answers(&[], &steps), ["(no 20 0 0)"; 10]);
}

#[test]
fn time_goes_forward_only() {
    let steps = ["(clock 3155759999)", "(clock 3155759999)", "(clock 3155759998)"];
    assert_eq!(answers(&[], &steps), ["(yes 0 0)", "(yes 0 0)", "(no 21 0 0)"]);
}

#[test]
fn before_is_kept_by_assign_and_withdraw() {
    let steps = ["(assign 1 2)", "(assign 1 3)", "(assign 1 2)", "(withdraw 1 3)"];
    let expected = ["(no 30 1 1)", "(yes 0 0)", "(yes 1 0)", "(no 30 1 1)"];
    assert_eq!(answers(&["(before 2 3)"], &steps), expected);
}

#[test]
fn limits_are_kept_by_an_equal_count() {
    let rules = ["(max-users 1 1)", "(max-roles 1)", "(max-permissions 1 1)", "(max-active 0)"];
    let steps = [
        "(assign 0 1)",
        "(assign 5 1)",
        "(assign 0 2)",
        "(grant 1 0)",
        "(grant 1 1)",
        "(open 0 0)",
        "(activate 0 1)",
    ];
    let expected = [
        "(yes 2 0)",
        "(no 30 1 2)",
        "(no 30 2 1)",
        "(yes 1 0)",
        "(no 30 3 1)",
        "(yes 0 0)",
        "(no 30 4 1)",
    ];
    assert_eq!(answers(&rules, &steps), expected);
}

#[test]
fn apart_active_is_over_all_sessions_of_a_user() {
    let rules = ["(apart-active 1 2)"];
    let steps = [
        "(assign 0 1)",
        "(assign 0 2)",
        "(assign 7 2)",
        "(open 0 0)",
        "(open 1 0)",
        "(open 2 7)",
        "(activate 0 1)",
        "(activate 1 2)",
        "(activate 2 2)",
    ];
    assert_eq!(answers(&rules, &steps)[6..], ["(yes 1 0)", "(no 30 1 1)", "(yes 1 0)"]);
}

#[test]
fn the_lowest_broken_rule_is_named() {
    let rules = ["(max-roles 0)", "(max-users 1 0)", "(apart 1 2)"];
    assert_eq!(answers(&rules, &["(assign 0 1)"]), ["(no 30 1 3)"]);
}

#[test]
fn a_chain_of_needs_ends_with_the_term_of_its_first() {
    let rules = ["(needs 3 2)", "(needs 2 1)", "(during 1 (dates 20000101 20000101))"];
    let steps = [
        "(assign 0 1)",
        "(assign 0 2)",
        "(assign 0 3)",
        "(open 0 0)",
        "(activate 0 1)",
        "(activate 0 2)",
        "(activate 0 3)",
        "(clock 86399)",
        "(clock 86400)",
        "(activate 0 1)",
    ];
    let expected = ["(yes 1 0)", "(yes 1 0)", "(yes 1 0)", "(yes 3 0)", "(yes 3 3)", "(no 30 3 1)"];
    assert_eq!(answers(&rules, &steps)[4..], expected);
}

#[test]
fn at_looks_at_the_session() {
    let rules = ["(at 1 (inside (circle 0 0 5)))", "(at 2 (outside (box 0 0 9 9)))"];
    let steps = [
        "(assign 0 1)",
        "(assign 0 2)",
        "(open 0 0)",
        "(activate 0 1)",
        "(move 0 3 4)",
        "(activate 0 1)",
        "(activate 0 2)",
        "(move 0 4 4)",
        "(move 0 -1 0)",
        "(activate 0 1)",
        "(activate 0 2)",
        "(lost 0)",
    ];
    let expected = [
        "(no 30 1 1)",
        "(yes 2 0)",
        "(yes 1 0)",
        "(no 30 2 1)",
        "(yes 2 1)",
        "(yes 2 0)",
        "(yes 1 0)",
        "(yes 1 0)",
        "(yes 2 2)",
    ];
    assert_eq!(answers(&rules, &steps)[3..], expected);
}

#[test]
fn hands_on_one_object() {
    let rules = ["(two-hands 1 2)", "(same-hand 3 4)"];
    let mut steps: Vec<String> =
        (1..=4).map(|permission| format!("(grant 0 {permission})")).collect();
    steps.extend(
        [
            "(assign 5 0)",
            "(assign 6 0)",
            "(open 0 5)",
            "(open 1 6)",
            "(activate 0 0)",
            "(activate 1 0)",
            "(access 0 1 9)",
            "(access 0 2 9)",
            "(access 0 2 8)",
            "(access 1 2 9)",
            "(access 0 3 9)",
            "(access 0 4 9)",
            "(access 1 4 9)",
            "(finish 9)",
            "(access 1 4 9)",
            "(access 0 2 9)",
        ]
        .map(str::to_string),
    );
    let steps: Vec<&str> = steps.iter().map(String::as_str).collect();
    let expected = [
        "(yes 1 0)",
        "(no 30 1 1)",
        "(yes 1 0)",
        "(yes 1 0)",
        "(yes 1 0)",
        "(yes 1 0)",
        "(no 30 2 1)",
        "(yes 0 0)",
        "(yes 1 0)",
        "(yes 1 0)",
    ];
    assert_eq!(answers(&rules, &steps)[10..], expected);
}

/// Roles that need each other stay together: the largest part is not empty.
#[test]
fn a_circle_of_needs_stays() {
    let list = read_rules(
        b"(rule 1 (needs 1 2))\n(rule 2 (needs 2 1))\n(rule 3 (needs 4 5))\n(rule 4 (needs 3 4))\n",
    );
    let rules = list.unwrap().rules;
    let saved = b"(now 0)\n(assigned 0 1)\n(assigned 0 2)\n(assigned 0 3)\n(assigned 0 4)\n\
        (open 0 0)\n(active 0 1)\n(active 0 2)\n(active 0 3)\n(active 0 4)\n";
    let target = read_state(&[], saved).unwrap();
    let (kept, rounds) = by_rounds(&rules, &target);
    assert_eq!(Vec::from_iter(kept.clone()), [(0, 1), (0, 2)]);
    assert_eq!(rounds, 2);
    assert_eq!(by_every_part(&rules, &target), Some(kept));
}

/// In a state that breaks a rule there may be no part that contains the others.
#[test]
fn two_good_parts_of_which_none_contains_the_other() {
    let rules = read_rules(b"(rule 1 (max-active 1))\n").unwrap().rules;
    let saved =
        b"(now 0)\n(assigned 0 1)\n(assigned 0 2)\n(open 0 0)\n(active 0 1)\n(active 0 2)\n";
    let target = read_state(&[], saved).unwrap();
    assert_eq!(by_every_part(&rules, &target), None);
}

#[test]
fn input_without_its_parts() {
    let bad = |input: &[u8]| read_input(input).unwrap_err();
    assert_eq!(bad(b""), Bad { number: 10, place: 1 });
    assert_eq!(bad(b"(rule 1 (max-roles 1))\n"), Bad { number: 10, place: 2 });
    assert_eq!(bad(b"(steps)"), Bad { number: 10, place: 1 });
    assert_eq!(bad(b"(steps)\n(steps)\n"), Bad { number: 10, place: 2 });
    assert_eq!(bad(b"(steps)\n(finish 0)\n(finish 0)"), Bad { number: 10, place: 3 });
    assert_eq!(bad(&[b'x'; 65_537]), Bad { number: 19, place: 0 });
    assert_eq!(bad(&[b'x'; 65_536]), Bad { number: 10, place: 1 });
    assert!(read_input(b"(steps)\n").is_ok());
}
