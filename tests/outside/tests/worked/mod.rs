//! Worked cases: rules without their numbers and steps, and the answers to them.

use outside::generate::policies::numbered_rules;
use outside::plain::program::respond;

/// The answers, one form after another.
pub fn answers(rules: &[&str], steps: &[&str]) -> Vec<String> {
    let rules = numbered_rules(rules);
    let steps: String = steps.iter().map(|step| format!("{step}\n")).collect();
    let input = format!("{rules}(steps)\n{steps}");
    let output = String::from_utf8(respond(input.as_bytes(), &mut |_, _, _| {})).unwrap();
    output.lines().map(str::to_string).collect()
}
