//! Who may change assignments (2026-05): a worked case of each sentence, and steps with `by`
//! beside the same steps without it.

use outside::compare::expected::expected_run;
use outside::generate::random::Random;
use outside::generate::rights::put_in_charge;
use outside::generate::rule_lists::rule_list;
use outside::generate::states::drawn_state;
use outside::generate::step_lists::step_list;
use outside::generate::world::World;
use outside::plain::gate::{decide, run, Answer};
use outside::plain::program::respond;
use outside::plain::rights::{RightKind, Rights};
use outside::plain::rules::RuleList;
use outside::plain::state::{Session, State};
use outside::plain::steps::{Action, Step};
use worked::answers;

mod worked;

const ALL: &str = "(right assign 30)\n(right withdraw 30)\n(right grant 31)\n(right take 31)\n\
    (right lend 29)\n(right recall 29)\n";
/// User 8 holds role 6, which carries the three permissions. It is active in his session 0 and
/// not in his session 1; in session 2 user 5 works in role 2, which carries another permission.
const SAVED: &str = "(now 0)\n(assigned 5 2)\n(assigned 8 6)\n(granted 2 1)\n(granted 6 29)\n\
    (granted 6 30)\n(granted 6 31)\n(open 0 8)\n(active 0 6)\n(open 1 8)\n(open 2 5)\n(active 2 2)\n";

/// Each step has the answer beside it; the saved state after them comes back.
fn check(rules: &str, state: &str, steps: &[(&str, &str)]) -> String {
    let (steps, expected): (Vec<&str>, Vec<&str>) = steps.iter().copied().unzip();
    let lines = |texts: &[&str]| texts.iter().map(|text| format!("{text}\n")).collect::<String>();
    let steps = lines(&steps);
    let ran = expected_run(rules.as_bytes(), state.as_bytes(), steps.as_bytes(), &mut |_, _, _| {});
    let ran = ran.unwrap();
    assert_eq!(String::from_utf8(ran.answers).unwrap(), lines(&expected));
    String::from_utf8(ran.state).unwrap()
}

/// "the step then needs an acting session with an active role that carries permission 30"
#[test]
fn each_kind_with_its_right() {
    let next = check(
        ALL,
        SAVED,
        &[
            ("(by 0 (assign 6 2))", "(yes 0 0)"),
            ("(by 0 (lend 5 7 2 100))", "(yes 0 0)"),
            ("(by 0 (recall 5 7 2))", "(yes 0 0)"),
            ("(by 0 (withdraw 6 2))", "(yes 0 0)"),
            ("(by 0 (grant 2 3))", "(yes 0 0)"),
            ("(by 0 (take 2 3))", "(yes 0 0)"),
        ],
    );
    assert_eq!(next, SAVED);
}

/// "A step of a kind with a right and no `by` counts as lacking it."
#[test]
fn each_kind_without_an_acting_session() {
    let next = check(
        ALL,
        SAVED,
        &[
            ("(assign 6 2)", "(no 54 0 0)"),
            ("(withdraw 5 2)", "(no 54 0 0)"),
            ("(grant 2 3)", "(no 54 0 0)"),
            ("(take 2 1)", "(no 54 0 0)"),
            ("(lend 5 7 2 100)", "(no 54 0 0)"),
            ("(recall 5 7 2)", "(no 54 0 0)"),
        ],
    );
    assert_eq!(next, SAVED);
}

#[test]
fn the_right_is_that_of_the_acting_session_and_of_its_active_roles() {
    check(
        ALL,
        SAVED,
        &[
            ("(by 1 (assign 6 2))", "(no 54 0 0)"),
            ("(by 2 (assign 6 2))", "(no 54 0 0)"),
            ("(by 3 (assign 6 2))", "(no 53 0 0)"),
            ("(deactivate 0 6)", "(yes 0 1)"),
            ("(by 0 (assign 6 2))", "(no 54 0 0)"),
            ("(activate 1 6)", "(yes 0 0)"),
            ("(by 0 (assign 6 2))", "(no 54 0 0)"),
            ("(by 1 (assign 6 2))", "(yes 0 0)"),
            ("(close 1)", "(yes 0 1)"),
            ("(by 1 (withdraw 6 2))", "(no 53 0 0)"),
        ],
    );
}

#[test]
fn the_permission_of_one_right_is_not_that_of_another() {
    let next = check(
        "(right assign 30)\n(right grant 31)\n",
        "(now 0)\n(assigned 8 6)\n(granted 6 30)\n(open 0 8)\n(active 0 6)\n",
        &[
            ("(by 0 (grant 6 31))", "(no 54 0 0)"),
            ("(by 0 (assign 5 2))", "(yes 0 0)"),
            ("(by 0 (take 6 30))", "(yes 0 0)"),
            ("(by 0 (assign 6 2))", "(no 54 0 0)"),
        ],
    );
    assert_eq!(next, "(now 0)\n(assigned 5 2)\n(assigned 8 6)\n(open 0 8)\n(active 0 6)\n");
}

/// "a kind without a right line works with or without `by`"; 53 "whenever `by` stands"
#[test]
fn a_kind_without_a_right_line() {
    let next = check(
        "(right withdraw 30)\n",
        "(now 0)\n(open 4 9)\n",
        &[
            ("(assign 5 2)", "(yes 0 0)"),
            ("(by 4 (assign 6 2))", "(yes 0 0)"),
            ("(by 5 (assign 7 2))", "(no 53 0 0)"),
            ("(by 4 (grant 2 1))", "(yes 0 0)"),
            ("(by 4 (withdraw 6 2))", "(no 54 0 0)"),
        ],
    );
    assert_eq!(next, "(now 0)\n(assigned 5 2)\n(assigned 6 2)\n(granted 2 1)\n(open 4 9)\n");
}

/// "both after 20, in that order": each step has all causes from its number on.
#[test]
fn the_checks_in_order() {
    check(
        ALL,
        SAVED,
        &[
            ("(by 32 (assign 64 2))", "(no 20 0 0)"),
            ("(by 32 (assign 8 6))", "(no 20 0 0)"),
            ("(by 9999999999 (assign 8 6))", "(no 20 0 0)"),
            ("(by 3 (assign 64 2))", "(no 20 0 0)"),
            ("(by 0 (assign 64 2))", "(no 20 0 0)"),
            ("(assign 64 2)", "(no 20 0 0)"),
            ("(by 3 (assign 8 6))", "(no 53 0 0)"),
            ("(by 31 (assign 8 6))", "(no 53 0 0)"),
            ("(by 1 (assign 8 6))", "(no 54 0 0)"),
            ("(assign 8 6)", "(no 54 0 0)"),
            ("(by 0 (assign 8 6))", "(no 24 0 0)"),
            ("(by 1 (withdraw 9 9))", "(no 54 0 0)"),
            ("(by 0 (withdraw 9 9))", "(no 25 0 0)"),
            ("(by 1 (withdraw 5 2))", "(no 54 0 0)"),
            ("(by 0 (withdraw 5 2))", "(no 27 0 0)"),
            ("(by 1 (lend 9 5 2 0))", "(no 54 0 0)"),
            ("(by 0 (lend 9 5 2 0))", "(no 50 0 0)"),
            ("(by 0 (lend 5 5 2 0))", "(no 24 0 0)"),
            ("(by 0 (lend 5 9 2 0))", "(no 52 0 0)"),
            ("(by 0 (recall 5 9 2))", "(no 25 0 0)"),
        ],
    );
}

#[test]
fn a_rule_is_looked_at_last() {
    check(
        "(right assign 30)\n(rule 1 (max-roles 1))\n(rule 2 (apart 2 6))\n",
        SAVED,
        &[
            ("(by 1 (assign 8 2))", "(no 54 0 0)"),
            ("(by 0 (assign 8 2))", "(no 30 1 2)"),
            ("(by 0 (assign 9 2))", "(yes 2 0)"),
        ],
    );
}

/// Where all six kinds have rights nothing can be assigned from a fresh state.
#[test]
fn a_fresh_state_stays_without_assignments() {
    let steps = "(steps)\n(assign 5 6)\n(grant 6 30)\n(open 0 5)\n(by 0 (assign 5 6))\n\
        (by 0 (grant 6 30))\n(activate 0 6)\n";
    let output = respond(format!("{ALL}{steps}").as_bytes(), &mut |_, _, _| {});
    let expected = "(no 54 0 0)\n(no 54 0 0)\n(yes 0 0)\n(no 54 0 0)\n(no 54 0 0)\n(no 26 0 0)\n";
    assert_eq!(String::from_utf8(output).unwrap(), expected);
}

/// The acting session's own role may end by the step: it was active when the step came.
#[test]
fn a_right_lost_by_its_own_step() {
    let lent = SAVED.replace("(open 0 8)\n", "(loan 8 9 6 100)\n(open 0 8)\n");
    check(
        ALL,
        &(lent + "(open 3 9)\n(active 3 6)\n"),
        &[
            ("(by 3 (assign 7 2))", "(yes 0 0)"),
            ("(by 3 (recall 8 9 6))", "(yes 0 1)"),
            ("(by 3 (assign 7 3))", "(no 54 0 0)"),
            ("(by 0 (take 6 31))", "(yes 0 0)"),
            ("(by 0 (grant 6 31))", "(no 54 0 0)"),
        ],
    );
}

/// "Acting leaves no trace in the object records."
#[test]
fn acting_leaves_no_trace_in_the_object_records() {
    let rules = ALL.to_string() + "(rule 1 (two-hands 30 1))\n(rule 2 (same-hand 31 29))\n";
    let next = check(
        &rules,
        SAVED,
        &[
            ("(by 0 (assign 8 2))", "(yes 0 0)"),
            ("(activate 0 2)", "(yes 0 0)"),
            ("(by 0 (grant 2 31))", "(yes 0 0)"),
            ("(access 0 1 7)", "(yes 1 0)"),
            ("(access 0 30 7)", "(no 30 1 1)"),
            ("(by 0 (assign 9 2))", "(yes 0 0)"),
        ],
    );
    let records = next.lines().filter(|line| line.starts_with("(did "));
    assert_eq!(Vec::from_iter(records), ["(did 7 1 8)"]);
}

/// "`by` before any other step, or before another `by`, is 10 in a text and 20 handed in."
#[test]
fn by_before_another_kind_handed_in() {
    let open = Session { user: 5, position: None };
    let state = State { sessions: [(4, open)].into(), ..State::fresh() };
    for action in
        [Action::Clock { time: 5 }, Action::Finish { object: 0 }, Action::Close { session: 4 }]
    {
        let step = Step { acting: Some(4), action };
        assert_eq!(step.refusal(&Rights::new(), &state), Some(20));
        assert_eq!(Step::from(step.action).refusal(&Rights::new(), &state), None);
    }
}

/// A list without right lines: `by` changes nothing but for 53.
#[test]
fn without_right_lines_by_is_but_53() {
    let steps = [
        "(assign 5 2)",
        "(lend 5 6 2 9)",
        "(recall 5 6 2)",
        "(grant 2 1)",
        "(take 2 1)",
        "(withdraw 5 2)",
    ];
    let rules = ["(max-roles 3)", "(needs 1 2)"];
    let by = |session: i64| {
        let steps = steps.map(|step| format!("(by {session} {step})"));
        let steps = ["(open 4 9)"].into_iter().chain(steps.iter().map(String::as_str));
        answers(&rules, &Vec::from_iter(steps))
    };
    let without = answers(&rules, &Vec::from_iter(["(open 4 9)"].into_iter().chain(steps)));
    assert_eq!(by(4), without);
    assert_eq!(by(5)[1..], ["(no 53 0 0)"; 6]);
    assert_eq!(by(32)[1..], ["(no 20 0 0)"; 6]);
}

/// Selected, ended and the next state of a step that passes 53 and 54 are those without `by`.
#[test]
fn a_step_by_somebody_is_the_step_without_by() {
    let mut met = [0; 6];
    for seed in 0..100 {
        let mut random = Random::new(seed);
        let world = World::new(&mut random);
        let mut list = rule_list(&mut random, &world);
        let mut start = drawn_state(&mut random, &world);
        put_in_charge(&mut random, &world, &list.rights, &mut start);
        list.rules.retain(|rule| rule.holds(&start));
        let without = RuleList { rights: Rights::new(), rules: list.rules.clone() };
        let (steps, _) = step_list(&mut random, &world, &list, &start, 40);
        let mut state = start.clone();
        run(&list, start, &steps, &mut |list, step, outcome| {
            let plain = decide(&without, &state, &Step::from(step.action.clone()));
            match outcome.answer {
                Answer::No { number: 20 | 53 | 54, rule, selected } => {
                    assert_eq!((rule, selected), (0, 0));
                    assert_eq!(outcome.state, state);
                }
                _ => {
                    assert_eq!(outcome.answer, plain.answer, "{step} under {list:?}");
                    assert_eq!(outcome.state, plain.state);
                    let kind = step.action.right_kind().filter(|_| step.acting.is_some());
                    if let Some(kind) = kind {
                        met[kind as usize] += 1;
                    }
                }
            }
            state = outcome.state.clone();
        });
    }
    assert!(met.iter().all(|&times| times > 20), "{met:?} by {:?}", RightKind::ALL);
}
