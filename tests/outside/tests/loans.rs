//! Loans (2026-01): a worked case of lend and recall, of each number, and of each sentence that
//! reads held.

use outside::generate::states::fullest_state;
use outside::plain::rule_text::read_rules;
use outside::plain::state_text::{read_state, write_state};
use outside::plain::step_text::read_steps;
use worked::answers;

mod worked;

/// Each step has the answer beside it.
fn check(rules: &[&str], steps: &[(&str, &str)]) {
    let (steps, expected): (Vec<&str>, Vec<&str>) = steps.iter().copied().unzip();
    assert_eq!(answers(rules, &steps), expected);
}

#[test]
fn a_stand_in_until_a_set_time() {
    check(
        &[],
        &[
            ("(assign 5 1)", "(yes 0 0)"),
            ("(open 0 6)", "(yes 0 0)"),
            ("(activate 0 1)", "(no 26 0 0)"),
            ("(lend 5 6 1 100)", "(yes 0 0)"),
            ("(activate 0 1)", "(yes 0 0)"),
            ("(clock 99)", "(yes 0 0)"),
            ("(clock 99)", "(yes 0 0)"),
            ("(clock 100)", "(yes 0 1)"),
            ("(activate 0 1)", "(no 26 0 0)"),
            ("(recall 5 6 1)", "(no 25 0 0)"),
        ],
    );
}

#[test]
fn a_loan_is_recalled() {
    check(
        &[],
        &[
            ("(assign 5 1)", "(yes 0 0)"),
            ("(lend 5 6 1 100)", "(yes 0 0)"),
            ("(recall 6 5 1)", "(no 25 0 0)"),
            ("(recall 5 6 2)", "(no 25 0 0)"),
            ("(withdraw 5 1)", "(no 27 0 0)"),
            ("(withdraw 6 1)", "(no 25 0 0)"),
            ("(recall 5 6 1)", "(yes 0 0)"),
            ("(withdraw 5 1)", "(yes 0 0)"),
        ],
    );
}

#[test]
fn a_role_that_is_held_is_neither_assigned_nor_lent_again() {
    check(
        &[],
        &[
            ("(assign 5 1)", "(yes 0 0)"),
            ("(assign 7 1)", "(yes 0 0)"),
            ("(lend 5 6 1 100)", "(yes 0 0)"),
            ("(assign 6 1)", "(no 24 0 0)"),
            ("(lend 5 6 1 200)", "(no 24 0 0)"),
            ("(lend 7 6 1 100)", "(no 24 0 0)"),
            ("(lend 7 5 1 100)", "(no 24 0 0)"),
            ("(lend 7 7 1 100)", "(no 24 0 0)"),
        ],
    );
}

#[test]
fn what_is_borrowed_is_not_lent_on() {
    check(
        &[],
        &[
            ("(lend 5 6 1 100)", "(no 50 0 0)"),
            ("(assign 5 1)", "(yes 0 0)"),
            ("(lend 5 6 1 100)", "(yes 0 0)"),
            ("(lend 6 7 1 100)", "(no 50 0 0)"),
            ("(lend 6 6 1 100)", "(no 50 0 0)"),
        ],
    );
}

#[test]
fn a_loan_ends_later_than_now() {
    check(
        &[],
        &[
            ("(assign 5 1)", "(yes 0 0)"),
            ("(lend 5 6 1 0)", "(no 52 0 0)"),
            ("(lend 5 6 1 1)", "(yes 0 0)"),
            ("(clock 7)", "(yes 0 0)"),
            ("(lend 5 6 1 7)", "(no 52 0 0)"),
            ("(lend 5 6 1 3155760000)", "(no 20 0 0)"),
            ("(lend 5 6 1 3155759999)", "(yes 0 0)"),
        ],
    );
}

/// "lend checks 20, 50, 24, 52, 51, 30": each step has all causes from its number on.
#[test]
fn the_checks_of_lend_in_order() {
    let lends: Vec<String> = (1..=32).map(|user| format!("(lend 0 {user} 0 100)")).collect();
    let mut steps = vec![("(assign 0 0)", "(yes 1 0)"), ("(assign 40 9)", "(yes 1 0)")];
    steps.extend(lends.iter().map(|lend| (lend.as_str(), "(yes 1 0)")));
    steps.extend([
        ("(clock 50)", "(yes 0 0)"),
        ("(lend 39 40 32 50)", "(no 20 0 0)"),
        ("(lend 39 40 9 50)", "(no 50 0 0)"),
        ("(lend 40 40 9 50)", "(no 24 0 0)"),
        ("(lend 40 1 9 50)", "(no 52 0 0)"),
        ("(lend 40 1 9 51)", "(no 51 0 0)"),
        ("(recall 0 2 0)", "(yes 0 0)"),
        ("(lend 40 1 9 51)", "(no 30 1 1)"),
        ("(lend 40 39 9 51)", "(yes 1 0)"),
    ]);
    check(&["(max-roles 1)"], &steps);
}

/// The role is closed before the rules are looked at, and what needs it ends with it.
#[test]
fn recall_closes_the_role_in_every_session_of_the_borrower() {
    let rules = ["(needs 2 1)", "(needs 3 2)", "(at 1 (inside (circle 0 0 5)))"];
    check(
        &rules,
        &[
            ("(assign 5 1)", "(yes 0 0)"),
            ("(assign 6 2)", "(yes 0 0)"),
            ("(assign 7 3)", "(yes 0 0)"),
            ("(lend 5 6 1 100)", "(yes 0 0)"),
            ("(open 0 6)", "(yes 0 0)"),
            ("(open 1 6)", "(yes 0 0)"),
            ("(open 2 7)", "(yes 0 0)"),
            ("(move 0 0 0)", "(yes 3 0)"),
            ("(move 1 0 0)", "(yes 3 0)"),
            ("(activate 0 1)", "(yes 1 0)"),
            ("(activate 1 1)", "(yes 1 0)"),
            ("(activate 1 2)", "(yes 1 0)"),
            ("(activate 2 3)", "(yes 1 0)"),
            ("(recall 5 6 1)", "(yes 2 4)"),
        ],
    );
}

#[test]
fn limits_and_apart_read_held_and_before_reads_assigned() {
    let rules = ["(max-users 1 2)", "(max-roles 2)", "(apart 1 4)", "(before 1 2)"];
    check(
        &rules,
        &[
            ("(assign 5 2)", "(yes 1 0)"),
            ("(assign 5 1)", "(yes 4 0)"),
            ("(assign 6 3)", "(yes 1 0)"),
            ("(assign 7 4)", "(yes 2 0)"),
            ("(lend 5 7 1 100)", "(no 30 3 3)"),
            ("(lend 5 6 1 100)", "(yes 3 0)"),
            ("(lend 5 6 2 100)", "(no 30 2 1)"),
            ("(lend 5 8 1 100)", "(no 30 1 3)"),
            ("(recall 5 6 1)", "(yes 0 0)"),
            ("(lend 5 6 2 100)", "(yes 1 0)"),
            ("(assign 6 1)", "(no 30 2 4)"),
            ("(withdraw 6 3)", "(yes 0 0)"),
            ("(assign 6 1)", "(no 30 4 4)"),
        ],
    );
}

/// In a target with a role that nobody holds any more, the largest part is one of what is left.
#[test]
fn the_state_after_loans_have_ended() {
    let list = read_rules(b"(rule 1 (needs 2 1))\n").unwrap();
    let saved = b"(now 9)\n(assigned 5 1)\n(assigned 6 2)\n(loan 5 6 1 10)\n(loan 5 7 1 11)\n\
        (open 0 6)\n(place 0 3 4)\n(active 0 1)\n(active 0 2)\n(open 1 7)\n(active 1 1)\n";
    let after = |steps: &[u8]| {
        let state = read_state(&list.rules, saved).unwrap();
        let steps = read_steps(steps).unwrap();
        let (_, state) = outside::plain::gate::run(&list, state, &steps, &mut |_, _, _| {});
        String::from_utf8(write_state(&state)).unwrap()
    };
    assert_eq!(
        after(b"(clock 10)\n"),
        "(now 10)\n(assigned 5 1)\n(assigned 6 2)\n(loan 5 7 1 11)\n\
         (open 0 6)\n(place 0 3 4)\n(active 0 2)\n(open 1 7)\n(active 1 1)\n"
    );
    assert_eq!(
        after(b"(clock 11)\n"),
        "(now 11)\n(assigned 5 1)\n(assigned 6 2)\n(open 0 6)\n(place 0 3 4)\n(open 1 7)\n"
    );
    assert_eq!(after(b"(recall 5 6 1)\n(recall 5 7 1)\n(clock 11)\n"), after(b"(clock 11)\n"));
}

/// Every line that can be there beside the others, with the longest numbers.
#[test]
fn the_longest_saved_state() {
    let text = write_state(&fullest_state());
    assert_eq!(read_state(&[], &text), Ok(fullest_state()));
    let with_loans = 32 * ("(loan 63 62 31 3155759999)".len() - "(assigned 62 31)".len());
    let with_errors = 32 * " 1000".len();
    assert_eq!(text.len(), 997_501 + with_loans + with_errors);
}
