//! The vectors as cases: whole, and one step after another with the state handed over.

use crate::compare::expected::accepted_state;
use crate::compare::{Compared, Comparison};
use crate::plain::step_text::read_steps;
use crate::vectors::{parts, text, vectors};

pub fn compare_vectors(comparison: &mut Comparison) -> Compared {
    for path in vectors("program", "in") {
        let input = text(&path, "in");
        comparison.respond(&input)?;
        if let Some((rules, steps)) = parts(&input) {
            compare_run(comparison, rules, b"(now 0)\n", steps)?;
        }
    }
    for path in vectors("handover", "rules") {
        let [rules, state, steps] = ["rules", "state", "steps"].map(|end| text(&path, end));
        comparison.check_state(&rules, &state)?;
        compare_run(comparison, &rules, &state, &steps)?;
    }
    for path in vectors("policies", "policies") {
        comparison.rules_from_policies(&text(&path, "policies"))?;
    }
    for path in vectors("policies", "rules") {
        comparison.policies_from_rules(&text(&path, "rules"))?;
    }
    for path in vectors("joined", "first") {
        comparison.join_rules(&text(&path, "first"), &text(&path, "second"))?;
    }
    Ok(())
}

fn compare_run(comparison: &mut Comparison, rules: &[u8], state: &[u8], steps: &[u8]) -> Compared {
    comparison.run_steps(rules, state, steps)?;
    if accepted_state(rules, state).is_err() || read_steps(steps).is_err() {
        return Ok(());
    }
    let lines = steps.split_inclusive(|&byte| byte == b'\n').map(<[u8]>::to_vec);
    comparison.run_in_pieces(rules, state, &Vec::from_iter(lines))
}
