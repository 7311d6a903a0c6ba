//! Right lines and acting sessions at their edges (2026-05).

use super::input;
use crate::compare::{Compared, Comparison};
use crate::generate::edges::STEP_LINES;
use crate::generate::right_damage::{ACTING_WRITTEN, KINDS_WRITTEN, NUMBERS_WRITTEN};
use crate::plain::rights::RightKind;

const FRESH: &[u8] = b"(now 0)\n";
const RULE: &str = "(rule 1 (max-roles 3))\n";
const SECOND_RULE: &str = "(rule 2 (needs 2 1))\n";

/// Role 7 carries the permissions 20 to 25, the one of each right; role 8 carries none of them.
///
/// | session | user | who |
/// |---|---|---|
/// | 0 | 1 | role 7 is active |
/// | 1 | 1 | another session of his, role 8 is active |
/// | 2 | 2 | he holds role 7, nothing is active |
/// | 3 | 3 | he has role 7 on loan, and active |
/// | 4 | 4 | role 8 is active |
/// | 5 | | not open |
const SAVED: &str = "(now 10)\n(assigned 1 7)\n(assigned 1 8)\n(assigned 2 7)\n(assigned 4 8)\n\
    (assigned 5 2)\n(granted 7 20)\n(granted 7 21)\n(granted 7 22)\n(granted 7 23)\n\
    (granted 7 24)\n(granted 7 25)\n(granted 8 3)\n(loan 1 3 7 50)\n(loan 5 6 2 60)\n\
    (open 0 1)\n(active 0 7)\n(open 1 1)\n(active 1 8)\n(open 2 2)\n(open 3 3)\n(active 3 7)\n\
    (open 4 4)\n(active 4 8)\n(did 0 3 4)\n";
const FIRST_PERMISSION: usize = 20;

/// Of each kind one that is granted without rights, and those that are refused.
const ACTIONS: [&str; 22] = [
    "(assign 9 2)",
    "(assign 5 2)",
    "(assign 6 9)",
    "(assign 64 2)",
    "(withdraw 4 8)",
    "(withdraw 2 7)",
    "(withdraw 5 2)",
    "(withdraw 9 2)",
    "(grant 2 3)",
    "(grant 8 3)",
    "(grant 2 32)",
    "(take 8 3)",
    "(take 7 23)",
    "(take 8 4)",
    "(lend 5 9 2 60)",
    "(lend 9 5 2 60)",
    "(lend 5 6 2 60)",
    "(lend 5 9 2 10)",
    "(lend 5 9 2 3155760000)",
    "(recall 5 6 2)",
    "(recall 1 3 7)",
    "(recall 6 5 2)",
];
const ACTING: [&str; 9] = ["0", "1", "2", "3", "4", "5", "31", "32", "9999999999"];
/// Kept by the saved state; the second is broken where a role is given to some.
const RULES: [&str; 2] = ["", "(rule 1 (max-users 2 2))\n(rule 2 (apart 2 9))\n"];

pub fn compare_rights(comparison: &mut Comparison) -> Compared {
    compare_orders(comparison)?;
    compare_written_rights(comparison)?;
    compare_long_lists(comparison)?;
    compare_each_choice(comparison)?;
    compare_written_acting(comparison)?;
    compare_most_loans(comparison)
}

/// Every four lines of right lines and rules, in every order.
fn compare_orders(comparison: &mut Comparison) -> Compared {
    let mut lines = RightKind::ALL.map(|kind| format!("(right {} 4)\n", kind.name())).to_vec();
    lines.extend([RULE.to_string(), SECOND_RULE.to_string()]);
    for first in &lines {
        for second in &lines {
            for third in &lines {
                for fourth in lines.iter().map(String::as_str).chain([""]) {
                    let list = format!("{first}{second}{third}{fourth}");
                    compare_list(comparison, &list)?;
                }
            }
        }
    }
    Ok(())
}

/// Which cause counts: 10, 11 or 12.
fn compare_written_rights(comparison: &mut Comparison) -> Compared {
    let before = ["", "(right assign 5)\n", "(right grant 5)\n", "(right recall 5)\n", RULE];
    let after = ["", RULE, "(right recall 5)\n", "("];
    for kind in KINDS_WRITTEN {
        for number in NUMBERS_WRITTEN {
            for before in before {
                for after in after {
                    let right = format!("(right {kind} {number})\n");
                    compare_list(comparison, &format!("{before}{right}{after}"))?;
                }
            }
        }
    }
    let cut = [
        "(right assign)\n",
        "(right 5)\n",
        "(right)\n",
        "right\n",
        "(right assign 5",
        "(right assign 5)",
        "(right assign 5))\n",
        "(right (assign 5))\n",
        "(right (assign) 5)\n",
        "(right assign (5))\n",
    ];
    for line in cut {
        compare_list(comparison, line)?;
        compare_list(comparison, &format!("{RULE}{line}"))?;
    }
    Ok(())
}

fn compare_list(comparison: &mut Comparison, list: &str) -> Compared {
    let list = list.as_bytes();
    comparison.check_rules(list)?;
    comparison.check_state(list, FRESH)?;
    comparison.respond(&input(list, b"(assign 5 1)\n"))?;
    comparison.run_steps(list, FRESH, b"(finish 0)\n")
}

/// 128 rules are accepted after six right lines too, and 134 lines are not too many.
fn compare_long_lists(comparison: &mut Comparison) -> Compared {
    let rights = rights_of((1 << RightKind::ALL.len()) - 1);
    for length in [127, 128, 129, 130] {
        let rule = "(at 31 (outside (box -1000000 -1000000 -1000000 -1000000)))";
        let rules: String =
            (1..=length).map(|number| format!("(rule {number} {rule})\n")).collect();
        compare_list(comparison, &format!("{rights}{rules}"))?;
    }
    Ok(())
}

/// The right lines of the kinds that are chosen, each with its own permission.
pub fn rights_of(chosen: usize) -> String {
    let kinds = RightKind::ALL.into_iter().enumerate();
    let kinds = kinds.filter(|(place, _)| chosen >> place & 1 == 1);
    kinds
        .map(|(place, kind)| format!("(right {} {})\n", kind.name(), FIRST_PERMISSION + place))
        .collect()
}

/// Under each choice of right lines each action by each session and by none; then all of them
/// one after another.
fn compare_each_choice(comparison: &mut Comparison) -> Compared {
    let steps = ACTIONS.iter().flat_map(|action| {
        let acting = ACTING.iter().map(move |session| format!("(by {session} {action})\n"));
        acting.chain([format!("{action}\n")])
    });
    let steps: Vec<Vec<u8>> = steps.map(String::into_bytes).collect();
    for chosen in 0..1 << RightKind::ALL.len() {
        let rights = rights_of(chosen);
        for rules in RULES {
            let list = format!("{rights}{rules}").into_bytes();
            for step in &steps {
                comparison.run_steps(&list, SAVED.as_bytes(), step)?;
            }
            comparison.run_steps(&list, SAVED.as_bytes(), &steps.concat())?;
            comparison.run_in_pieces(&list, SAVED.as_bytes(), &steps)?;
        }
    }
    Ok(())
}

/// `by` before every kind of step, and as it may be badly written.
fn compare_written_acting(comparison: &mut Comparison) -> Compared {
    let lists = [rights_of(0), rights_of(63)];
    for step in STEP_LINES {
        let step = step.trim_end();
        let sessions = NUMBERS_WRITTEN.map(|session| format!("(by {session} {step})\n"));
        let forms = ACTING_WRITTEN.map(|form| format!("{}\n", form.replace('#', step)));
        for line in sessions.into_iter().chain(forms) {
            let steps = format!("(open 30 9)\n{line}(finish 0)\n");
            for list in &lists {
                comparison.respond(&input(list.as_bytes(), steps.as_bytes()))?;
                comparison.run_steps(list.as_bytes(), SAVED.as_bytes(), steps.as_bytes())?;
            }
        }
    }
    Ok(())
}

/// 54 comes before 51.
fn compare_most_loans(comparison: &mut Comparison) -> Compared {
    for number in [31, 32] {
        let borrowers = 10..10 + number;
        let loans: String =
            borrowers.map(|borrower| format!("(loan 5 {borrower} 2 60)\n")).collect();
        let state = format!(
            "(now 10)\n(assigned 1 7)\n(assigned 5 2)\n(granted 7 24)\n{loans}(open 0 1)\n\
             (active 0 7)\n(open 4 5)\n"
        );
        for rights in ["", "(right lend 24)\n", "(right lend 25)\n"] {
            for acting in ["", "0", "4", "5", "32"] {
                let lend = "(lend 5 9 2 60)";
                let step = match acting {
                    "" => format!("{lend}\n"),
                    session => format!("(by {session} {lend})\n"),
                };
                comparison.run_steps(rights.as_bytes(), state.as_bytes(), step.as_bytes())?;
            }
        }
    }
    Ok(())
}
