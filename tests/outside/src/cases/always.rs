//! The cases of every run: edges of numbers, longest inputs, the fullest state.

use super::joined::compare_joins;
use super::loans::compare_loans;
use super::places::{compare_saved_reports, compare_written_errors, error_sweeps};
use super::policies::compare_policies;
use super::rights::compare_rights;
use super::sweeps::{calendar_sweep, place_sweep, Sweep};
use super::vectors::compare_vectors;
use super::{input, STEPS_LINE};
use crate::compare::{Compared, Comparison};
use crate::generate::edges::{
    lines_inserted, number_edges, two_number_edges, RULE_LINES, SAVED_TEXT, STEP_LINES,
};
use crate::generate::states::fullest_state;
use crate::plain::ranges::LONGEST_INPUT;
use crate::plain::state_text::write_state;

const FRESH: &[u8] = b"(now 0)\n";
/// Before a line that has the number 1 too, so that 12 meets what comes before and after it.
const FIRST_RULE: &[u8] = b"(rule 1 (max-roles 0))\n";

pub fn compare_always(comparison: &mut Comparison) -> Compared {
    comparison.fresh_state()?;
    compare_vectors(comparison)?;
    compare_number_edges(comparison)?;
    compare_long_rule_lists(comparison)?;
    compare_long_inputs(comparison)?;
    compare_long_steps(comparison)?;
    compare_fullest_state(comparison)?;
    compare_loans(comparison)?;
    compare_rights(comparison)?;
    compare_policies(comparison)?;
    compare_joins(comparison)?;
    compare_sweep(comparison, calendar_sweep())?;
    compare_sweep(comparison, place_sweep())?;
    compare_written_errors(comparison)?;
    compare_saved_reports(comparison)?;
    error_sweeps().into_iter().try_for_each(|sweep| compare_sweep(comparison, sweep))
}

fn compare_number_edges(comparison: &mut Comparison) -> Compared {
    for line in RULE_LINES {
        for rules in edges(line) {
            comparison.check_rules(&rules)?;
            comparison.check_rules(&[FIRST_RULE, &rules].concat())?;
            comparison.respond(&input(&rules, b""))?;
        }
    }
    for saved in edges(SAVED_TEXT).chain(lines_inserted(SAVED_TEXT)) {
        comparison.check_state(b"", &saved)?;
    }
    for line in STEP_LINES {
        for steps in edges(line) {
            comparison.respond(&input(b"", &steps))?;
            comparison.run_steps(b"", FRESH, &steps)?;
            comparison.run_steps(b"", SAVED_TEXT.as_bytes(), &steps)?;
        }
    }
    Ok(())
}

/// Each number at its edges, and each two of them.
pub fn edges(text: &str) -> impl Iterator<Item = Vec<u8>> {
    number_edges(text).into_iter().chain(two_number_edges(text))
}

/// 128 rules are accepted, the 129th is refused.
fn compare_long_rule_lists(comparison: &mut Comparison) -> Compared {
    for length in [127, 128, 129, 130] {
        let lines = (1..=length).map(|number| format!("(rule {number} (max-active 0))\n"));
        let rules = lines.collect::<String>().into_bytes();
        comparison.check_rules(&rules)?;
        comparison.check_state(&rules, FRESH)?;
        comparison.respond(&input(&rules, b"(clock 5)\n"))?;
    }
    Ok(())
}

/// 65,536 bytes are read, one more is refused, whatever it says.
fn compare_long_inputs(comparison: &mut Comparison) -> Compared {
    let start = b"(rule 1 (max-roles 3))\n(steps)\n";
    for length in [LONGEST_INPUT - 1, LONGEST_INPUT, LONGEST_INPUT + 1, 2 * LONGEST_INPUT] {
        comparison.respond(&padded(start, length))?;
        comparison.respond(&vec![b'('; length])?;
        comparison.respond(&vec![b'\n'; length])?;
        comparison.respond(&[padded(start, length - 1), b"(".to_vec()].concat())?;
    }
    let shortest_steps = b"(lost 0)\n".repeat((LONGEST_INPUT - STEPS_LINE.len()) / 9);
    comparison.respond(&input(b"", &shortest_steps))
}

/// The steps handed to a run have the same limit, and it is asked first.
fn compare_long_steps(comparison: &mut Comparison) -> Compared {
    for length in [LONGEST_INPUT - 1, LONGEST_INPUT, LONGEST_INPUT + 1] {
        comparison.run_steps(b"", FRESH, &padded(b"", length))?;
        comparison.run_steps(b"(", FRESH, &padded(b"", length))?;
        comparison.run_steps(b"", b"(", &vec![b'('; length])?;
    }
    Ok(())
}

/// Steps are added until the text has the length.
fn padded(start: &[u8], length: usize) -> Vec<u8> {
    let (shorter, longer) = (b"(finish 0)\n", b"(finish 10)\n");
    let left = length - start.len();
    let longer_lines = left % shorter.len();
    let shorter_lines = (left - longer_lines * longer.len()) / shorter.len();
    [start, &longer.repeat(longer_lines)[..], &shorter.repeat(shorter_lines)[..]].concat()
}

/// A count equal to the highest limit keeps it, one below does not.
fn compare_fullest_state(comparison: &mut Comparison) -> Compared {
    let state = write_state(&fullest_state());
    let kept = b"(rule 1 (max-users 3 64))\n(rule 2 (max-roles 32))\n\
        (rule 3 (max-permissions 3 32))\n(rule 4 (max-active 32))\n(rule 5 (needs 1 2))\n";
    let broken = [
        "(max-users 31 63)",
        "(max-roles 31)",
        "(max-permissions 0 31)",
        "(max-active 31)",
        "(two-hands 0 31)",
        "(same-hand 31 0)",
        "(apart 0 31)",
        "(apart-active 31 0)",
    ];
    for rule in broken {
        comparison.check_state(format!("(rule 1 {rule})\n").as_bytes(), &state)?;
    }
    comparison.check_state(kept, &state)?;
    let steps = b"(close 31)\n(withdraw 63 2)\n(take 31 31)\n(finish 31)\n(deactivate 0 2)\n\
        (move 7 -1000000 1000000)\n(move 8 -1000000 1000000 999)\n(lost 9)\n\
        (recall 63 62 9)\n(lend 61 62 9 3155759999)\n\
        (lend 60 62 8 3155759999)\n(clock 3155759999)\n(open 31 62)\n(activate 31 31)\n";
    comparison.run_steps(kept, &state, b"")?;
    comparison.run_steps(kept, &state, steps)?;
    let rights = b"(right assign 31)\n(right withdraw 31)\n(right grant 31)\n(right take 31)\n\
        (right lend 31)\n(right recall 31)\n";
    let acting = b"(recall 63 62 9)\n(by 31 (recall 63 62 9))\n(by 30 (take 31 31))\n\
        (by 29 (lend 61 62 9 3155759999))\n(by 28 (grant 31 31))\n(by 27 (withdraw 0 2))\n\
        (close 31)\n(by 31 (recall 63 62 8))\n(by 0 (assign 62 8))\n";
    comparison.run_steps(&[&rights[..], kept].concat(), &state, acting)
}

fn compare_sweep(comparison: &mut Comparison, sweep: Sweep) -> Compared {
    comparison.run_in_pieces(&sweep.rules, &sweep.state, &sweep.pieces)
}
