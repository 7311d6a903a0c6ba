//! Loans at their edges: the checks of a lend, saved loans, and clocks about the end of a loan.

use crate::compare::{Compared, Comparison};

/// User 0 lends role 0 to others than user 1.
const ASSIGNED: &str =
    "(now 100)\n(assigned 0 0)\n(assigned 0 3)\n(assigned 1 1)\n(assigned 1 4)\n";
const LENDERS: [i64; 4] = [0, 1, 2, 64];
const BORROWERS: [i64; 6] = [0, 1, 2, 50, 63, 64];
const LENT: [i64; 3] = [0, 1, 32];
const ENDS: [i64; 6] = [0, 99, 100, 101, 3_155_759_999, 3_155_760_000];
/// All are kept while 31 loans run; one more loan breaks some, and none the last.
const RULES: [&str; 5] = [
    "",
    "(rule 1 (max-users 0 32))\n",
    "(rule 1 (max-roles 2))\n",
    "(rule 1 (apart 1 0))\n",
    "(rule 1 (before 0 3))\n",
];
/// Lines after a saved loan: none, good ones, one that is refused with 11 and one with 16.
const LATER_LINES: [&str; 4] =
    ["", "(open 0 2)\n(active 0 0)\n", "(open 0 64)\n", "(open 0 2)\n(active 0 1)\n"];

pub fn compare_loans(comparison: &mut Comparison) -> Compared {
    for numbers in loan_numbers() {
        compare_lend(comparison, &format!("(lend {numbers})\n"))?;
        compare_saved(comparison, &format!("(loan {numbers})\n"))?;
    }
    compare_ends(comparison)
}

/// Each choice of the four numbers of a loan, as they are written.
fn loan_numbers() -> Vec<String> {
    let mut numbers = Vec::new();
    for lender in LENDERS {
        for borrower in BORROWERS {
            for role in LENT {
                numbers.extend(ENDS.map(|until| format!("{lender} {borrower} {role} {until}")));
            }
        }
    }
    numbers
}

/// Loans to the users from 2 on.
fn state_with_loans(number: usize) -> String {
    let loans = (2..2 + number).map(|borrower| format!("(loan 0 {borrower} 0 200)\n"));
    ASSIGNED.to_string() + &loans.collect::<String>()
}

/// "lend checks 20, 50, 24, 52, 51, 30"
fn compare_lend(comparison: &mut Comparison, lend: &str) -> Compared {
    for number in [31, 32] {
        let state = state_with_loans(number);
        for rules in RULES {
            comparison.run_steps(rules.as_bytes(), state.as_bytes(), lend.as_bytes())?;
        }
    }
    Ok(())
}

/// "51 with its line, looked for after 16", before a later line and before 17.
fn compare_saved(comparison: &mut Comparison, loan: &str) -> Compared {
    for number in [0, 31, 32] {
        let state = state_with_loans(number) + loan;
        for later in LATER_LINES {
            let state = state.clone() + later;
            comparison.check_state(b"", state.as_bytes())?;
            comparison.check_state(b"(rule 1 (max-users 0 1))\n", state.as_bytes())?;
        }
        for rules in RULES {
            comparison.check_state(rules.as_bytes(), state.as_bytes())?;
        }
    }
    Ok(())
}

/// "A loan ends when the clock reaches t": two loans of a role that others need, and every clock
/// about their ends.
fn compare_ends(comparison: &mut Comparison) -> Compared {
    let rules = b"(rule 1 (needs 3 2))\n(rule 2 (needs 2 0))\n";
    for until in 101..=104 {
        let state = format!(
            "(now 100)\n(assigned 0 0)\n(assigned 5 2)\n(assigned 6 3)\n(loan 0 5 0 {until})\n\
             (loan 0 6 0 102)\n(open 0 5)\n(active 0 0)\n(active 0 2)\n(open 1 6)\n\
             (active 1 3)\n(open 2 6)\n(active 2 0)\n"
        );
        for time in 99..=105 {
            let clock = format!("(clock {time})\n");
            let steps = [
                &clock,
                &clock,
                "(activate 0 0)\n",
                "(recall 0 6 0)\n",
                "(recall 0 5 0)\n",
                "(activate 0 0)\n",
                "(withdraw 0 0)\n",
            ];
            let pieces = steps.map(|step: &str| step.as_bytes().to_vec());
            comparison.run_in_pieces(rules, state.as_bytes(), &pieces)?;
        }
    }
    Ok(())
}
