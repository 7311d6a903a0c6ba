//! 2026-05: "Suppose all six kinds have rights, and no role that a user holds carries any of
//! their permissions. Then no list of his own steps, from a state reached by the gate, changes
//! what anyone is assigned or what any role carries."

use outside::compare::expected::expected_run;
use outside::generate::random::Random;
use outside::generate::safety::{safety_case, Case, LeftOut};
use outside::plain::gate::{run, Answer};
use outside::plain::own_steps::{has_every_right_line, holds_no_right, is_own_step};
use outside::plain::rights::RightKind;
use outside::plain::rule_text::{read_rules, write_rules};
use outside::plain::state_text::{read_state, write_state};
use outside::plain::step_text::{read_steps, write_steps};

const SEEDS: u64 = 200;

/// The cases of the seeds that give one.
fn cases(left_out: LeftOut) -> impl Iterator<Item = Case> {
    (0..SEEDS).filter_map(move |seed| safety_case(&mut Random::new(seed), left_out))
}

fn changed(left_out: LeftOut) -> usize {
    cases(left_out).filter(Case::changes).count()
}

/// Each hypothesis is asked of the case itself, not of how it was made.
#[test]
fn own_steps_of_a_user_without_rights_change_nothing() {
    let (mut met, mut granted, mut refused) = (0, 0, 0);
    for case in cases(LeftOut::Nothing) {
        assert!(has_every_right_line(&case.list.rights));
        assert!(holds_no_right(&case.list.rights, &case.start, case.user));
        let mut state = case.start.clone();
        run(&case.list, case.start.clone(), &case.steps, &mut |list, step, outcome| {
            assert!(is_own_step(&state, case.user, step), "{step}");
            assert_eq!(outcome.state.assigned, case.start.assigned, "{step} under {list:?}");
            assert_eq!(outcome.state.granted, case.start.granted, "{step} under {list:?}");
            match outcome.answer {
                Answer::Yes { .. } => {
                    assert_eq!(step.action.right_kind(), None, "{step} under {list:?}");
                    granted += 1;
                }
                Answer::No { number: 54, .. } => refused += 1,
                Answer::No { .. } => {}
            }
            state = outcome.state.clone();
        });
        met += 1;
    }
    assert!(met > 50, "{met} cases");
    assert!(granted > 400 && refused > 1000, "{granted} granted, {refused} refused with 54");
}

/// "a state reached by the gate": the start of each case can be saved and read.
#[test]
fn the_cases_start_from_saved_texts() {
    for case in cases(LeftOut::Nothing).take(200) {
        let text = write_state(&case.start);
        assert_eq!(read_rules(&write_rules(&case.list)), Ok(case.list.clone()));
        assert_eq!(read_state(&case.list.rules, &text), Ok(case.start));
        assert_eq!(read_steps(&write_steps(&case.steps)), Ok(case.steps));
    }
}

/// Not hollow: the same lists of steps, drawn with one hypothesis left out, do change something.
#[test]
fn each_hypothesis_is_needed() {
    use RightKind::{Assign, Grant, Lend, Take, Withdraw};
    for kind in [Assign, Withdraw, Grant, Take, Lend] {
        let changed = changed(LeftOut::RightOf(kind));
        assert!(changed > 4, "{changed} cases without the right to {}", kind.name());
    }
    for left_out in [LeftOut::NoRoleCarries, LeftOut::OwnSteps] {
        let changed = changed(left_out);
        assert!(changed > 40, "{changed} cases with {left_out:?} left out");
    }
}

/// Beyond the request: a recall gives nobody a role, so without its right alone all stays too.
#[test]
fn without_the_right_to_recall_alone_nothing_changes() {
    assert_eq!(changed(LeftOut::RightOf(RightKind::Recall)), 0);
}

const RIGHTS: [&str; 6] = [
    "(right assign 30)\n",
    "(right withdraw 30)\n",
    "(right grant 31)\n",
    "(right take 31)\n",
    "(right lend 29)\n",
    "(right recall 29)\n",
];
/// User 8 has the rights by role 6, in session 0. User 5 holds role 2 and session 1.
const SAVED: &str = "(now 0)\n(assigned 5 2)\n(assigned 8 6)\n(granted 2 1)\n(granted 6 29)\n\
    (granted 6 30)\n(granted 6 31)\n(open 0 8)\n(active 0 6)\n(open 1 5)\n";
const USER: i64 = 5;

/// The lines of what is assigned and carried after the steps, and whether they were all user 5's.
fn after(rules: &str, state: &str, steps: &str) -> (Vec<String>, bool) {
    let mut is_own = true;
    let mut before = read_state(&[], state.as_bytes()).unwrap();
    let ran = expected_run(
        rules.as_bytes(),
        state.as_bytes(),
        steps.as_bytes(),
        &mut |_, step, outcome| {
            is_own &= is_own_step(&before, USER, step);
            before = outcome.state.clone();
        },
    );
    (carried_lines(&String::from_utf8(ran.unwrap().state).unwrap()), is_own)
}

fn carried_lines(state: &str) -> Vec<String> {
    let is_one = |line: &&str| line.starts_with("(assigned ") || line.starts_with("(granted ");
    state.lines().filter(is_one).map(str::to_string).collect()
}

fn has_no_right(rules: &str, state: &str) -> bool {
    let list = read_rules(rules.as_bytes()).unwrap();
    holds_no_right(&list.rights, &read_state(&[], state.as_bytes()).unwrap(), USER)
}

/// All that user 5 may try.
const OWN_STEPS: &str = "(activate 1 2)\n(by 1 (assign 5 6))\n(assign 5 6)\n(by 1 (grant 2 30))\n\
    (grant 2 30)\n(by 1 (take 6 30))\n(by 1 (withdraw 8 6))\n(by 1 (lend 8 5 6 100))\n\
    (lend 8 5 6 100)\n(by 1 (recall 8 5 6))\n(activate 1 6)\n(open 2 5)\n(by 2 (assign 5 6))\n\
    (access 1 1 7)\n(finish 7)\n(clock 50)\n(move 1 3 4)\n(lost 1)\n(close 1)\n";

#[test]
fn the_safety_example() {
    let rights = RIGHTS.concat();
    assert!(has_no_right(&rights, SAVED));
    assert_eq!(after(&rights, SAVED, OWN_STEPS), (carried_lines(SAVED), true));
}

/// Without the right to `lend` user 5 borrows the role, and then he may do the rest.
#[test]
fn one_kind_without_a_right() {
    for (kind, steps) in [
        (0, "(assign 5 6)\n"),
        (1, "(withdraw 5 2)\n"),
        (2, "(grant 2 30)\n"),
        (3, "(take 6 30)\n"),
        (4, "(lend 8 5 6 100)\n(activate 1 6)\n(by 1 (assign 5 3))\n"),
    ] {
        let mut rights = RIGHTS.to_vec();
        rights.remove(kind);
        let rights = rights.concat();
        assert!(has_no_right(&rights, SAVED));
        let (lines, is_own) = after(&rights, SAVED, steps);
        assert!(is_own && lines != carried_lines(SAVED), "{rights}");
    }
}

#[test]
fn a_role_of_his_carries_a_permission() {
    let rights = RIGHTS.concat();
    let state = SAVED.replace("(granted 2 1)\n", "(granted 2 1)\n(granted 2 30)\n");
    assert!(!has_no_right(&rights, &state));
    let (lines, is_own) = after(&rights, &state, "(activate 1 2)\n(by 1 (assign 5 6))\n");
    assert!(is_own && lines != carried_lines(&state));
}

/// A role is active in his session that he does not hold: no text has such a state (16).
#[test]
fn a_state_that_was_not_reached() {
    let list = read_rules(RIGHTS.concat().as_bytes()).unwrap();
    let mut state = read_state(&[], SAVED.as_bytes()).unwrap();
    state.active.insert((1, 6));
    assert!(has_every_right_line(&list.rights) && holds_no_right(&list.rights, &state, USER));
    let steps = read_steps(b"(by 1 (assign 5 6))\n").unwrap();
    assert!(is_own_step(&state, USER, &steps[0]));
    let (_, after) = run(&list, state.clone(), &steps, &mut |_, _, _| {});
    assert!(after.is_assigned(5, 6) && !state.is_assigned(5, 6));
    assert_eq!(read_state(&[], &write_state(&state)).unwrap_err().number, 16);
}

/// Another's session acts, or another opens the way for him.
#[test]
fn a_step_that_is_not_his_own() {
    let rights = RIGHTS.concat();
    assert!(has_no_right(&rights, SAVED));
    for steps in
        ["(by 0 (assign 5 6))\n", "(by 0 (lend 8 5 6 100))\n(activate 1 6)\n(by 1 (assign 5 3))\n"]
    {
        let (lines, is_own) = after(&rights, SAVED, steps);
        assert!(!is_own && lines != carried_lines(SAVED), "{steps}");
    }
}
