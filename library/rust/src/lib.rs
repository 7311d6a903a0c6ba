//! The pitch access gate: rule lists, saved states and steps in, answers and saved states out. Rule lists in GEMRBAC-DSL, here called
//! policies, are turned into the gate's own and back, and two rule lists are joined into one.
//!
//! library/FORMATS.md has the texts, library/include/pitch_gate.h how a hub uses them: when it gives a clock, what it stores before it
//! acts, what it sends after a restart. Every call is a function of the bytes that it is lent and of nothing else. What it answers is
//! proved of the library that it calls; this crate lends it slices and turns its report into a [`Result`].
//!
//! `Ok` says that the texts were read and the results written, and nothing of any step: whether a step was granted stands in its answer
//! line. A [`Refusal`] has run no step: take it as no to every one of them.
//!
//! Each function promises, whatever bytes the texts hold: it ends and does not panic; where nothing is refused it writes the whole text
//! from the first byte of the lent space on, returns its length and leaves the bytes past it as they were; on a refusal every lent byte
//! stays as it was.
//!
//! Without the feature `alloc` the crate needs nothing but `core`: the functions whose names end in `_into` write to lent spaces.
//!
#![cfg_attr(
    feature = "alloc",
    doc = r#"```
let rules = b"(rule 1 (apart 1 3))\n";
let ran = pitch_gate::run_steps(rules, &pitch_gate::fresh_state()?, b"(assign 5 1)\n(assign 5 3)\n")?;
assert_eq!(ran.answers, b"(yes 1 0)\n(no 30 1 1)\n");
assert_eq!(ran.state, b"(now 0)\n(assigned 5 1)\n");
assert_eq!(pitch_gate::rules_from_policies(b"PL1: maxActiveRoles = 2;\n")?, b"(rule 1 (max-active 2))\n");
let joined = pitch_gate::join_rules(rules, b"(rule 1 (max-active 2))\n(rule 2 (apart 1 3))\n")?;
assert_eq!(joined, b"(rule 1 (apart 1 3))\n(rule 2 (max-active 2))\n");
# Ok::<(), pitch_gate::Refusal>(())
```"#
)]
#![no_std]

#[cfg(feature = "alloc")]
extern crate alloc;

#[cfg(feature = "alloc")]
mod owned;
mod raw;
mod refusal;
mod room;

#[cfg(feature = "alloc")]
pub use owned::{
    copy_rules, copy_state, fresh_state, join_rules, policies_from_rules, respond, rules_from_policies, run_steps, Ran,
};
pub use refusal::{cause, Refusal, Text};
pub use room::{ANSWER_MOST, FRESH_MOST, INPUT_MOST, OUTPUT_MOST, POLICIES_MOST, RULES_MOST, STACK_MOST, STATE_MOST};

use raw::{FromText, Report};

/// The version that this crate was written for: 10,000 times the major version, 100 times the minor one, and the third number.
pub const VERSION: u64 = 20_400;

/// The version of the library that is linked, as [`VERSION`] is of this crate.
pub fn version() -> u64 {
    // SAFETY: the function takes nothing.
    unsafe { raw::pitch_gate_version() }
}

/// The bytes that [`run_steps_into`] wrote into each of its spaces.
#[derive(Clone, Copy, Debug, PartialEq, Eq)]
#[non_exhaustive]
pub struct Lengths {
    pub answers: usize,
    pub state: usize,
}

/// Reads a rule list, a saved state and steps, runs the steps from that state, and writes an answer line for each step into `answers` and
/// the saved state after the last into `next`.
///
/// A step answered `(no number rule selected)` is no refusal of the call.
///
/// Refused, in this order: steps above [`INPUT_MOST`] bytes (19), the rule list (10 to 14), the saved state (10, 11, 15, 16, 51; then
/// 17), the steps (10), `answers` too short (18; with [`OUTPUT_MOST`] bytes never), `next` too short (18; with [`STATE_MOST`] bytes never).
pub fn run_steps_into(
    rules: &[u8],
    state: &[u8],
    steps: &[u8],
    answers: &mut [u8],
    next: &mut [u8],
) -> Result<Lengths, Refusal> {
    let mut report = Report::default();
    // SAFETY: each pointer and length is one slice's; the spaces are borrowed alone, so they overlap nothing else lent.
    let number = unsafe {
        raw::pitch_gate_run_steps(
            rules.as_ptr(),
            rules.len(),
            state.as_ptr(),
            state.len(),
            steps.as_ptr(),
            steps.len(),
            answers.as_mut_ptr(),
            answers.len(),
            next.as_mut_ptr(),
            next.len(),
            &mut report,
        )
    };
    report.refused(number)?;
    Ok(Lengths { answers: report.output(), state: report.state() })
}

/// Writes the saved text of the fresh state, `(now 0)` and its line feed, and returns its length. Refused: `state` shorter than
/// [`FRESH_MOST`] (18).
pub fn fresh_state_into(state: &mut [u8]) -> Result<usize, Refusal> {
    let mut report = Report::default();
    // SAFETY: the pointer and the length are one slice's, borrowed alone.
    let number = unsafe { raw::pitch_gate_fresh_state(state.as_mut_ptr(), state.len(), &mut report) };
    report.refused(number)?;
    Ok(report.state())
}

/// Whether a rule list is accepted. Refused: its first bad line (10 to 14).
pub fn check_rules(rules: &[u8]) -> Result<(), Refusal> {
    let mut report = Report::default();
    // SAFETY: the pointer and the length are one slice's.
    let number = unsafe { raw::pitch_gate_check_rules(rules.as_ptr(), rules.len(), &mut report) };
    report.refused(number)
}

/// Reads a rule list as [`check_rules`] does, writes the list that was read and returns its length. They are the same bytes.
///
/// Refused after all that [`check_rules`] refuses: `copy` too short (18).
pub fn copy_rules_into(rules: &[u8], copy: &mut [u8]) -> Result<usize, Refusal> {
    from_text(raw::pitch_gate_copy_rules, rules, copy)
}

/// Reads policies, writes them as a rule list and returns its length. [`policies_from_rules_into`] makes the same bytes of it again.
///
/// Refused, in this order: the first bad line of the policies (55, 11, 12, 13), `rules` too short (18; with [`RULES_MOST`] bytes never).
pub fn rules_from_policies_into(policies: &[u8], rules: &mut [u8]) -> Result<usize, Refusal> {
    from_text(raw::pitch_gate_rules_from_policies, policies, rules)
}

/// Reads a rule list, writes it as policies and returns their length. [`rules_from_policies_into`] makes the same bytes of them again.
///
/// Refused, in this order: the rule list (10 to 14), the lowest rule that has no policy line, or 0 where the list has a right line (56),
/// `policies` too short (18; with [`POLICIES_MOST`] bytes never).
pub fn policies_from_rules_into(rules: &[u8], policies: &mut [u8]) -> Result<usize, Refusal> {
    from_text(raw::pitch_gate_policies_from_rules, rules, policies)
}

/// Reads two rule lists, writes the joined list and returns its length. The joined list has the right lines of either, equal ones once; the
/// rules of the first with their numbers; then, in turn and renumbered, each rule of the second that, its number aside, equals none
/// already there. A saved state obeys the joined list just if it obeys both.
///
/// Refused, in this order: the first list (10 to 14, with [`Text::Rules`]), the second (10 to 14, with [`Text::SecondRules`]), the second's
/// first right line that has another permission than the first's line of its kind (58), the second's rule that would be the joined list's
/// 129th (57), `joined` too short (18; with [`RULES_MOST`] bytes never).
pub fn join_rules_into(first: &[u8], second: &[u8], joined: &mut [u8]) -> Result<usize, Refusal> {
    let mut report = Report::default();
    // SAFETY: each pointer and length is one slice's; the space is borrowed alone, so it overlaps nothing else lent.
    let number = unsafe {
        raw::pitch_gate_join_rules(
            first.as_ptr(),
            first.len(),
            second.as_ptr(),
            second.len(),
            joined.as_mut_ptr(),
            joined.len(),
            &mut report,
        )
    };
    report.refused(number)?;
    Ok(report.output())
}

/// Whether a saved state is accepted under a rule list.
///
/// Refused, in this order: the rule list (10 to 14), the saved state's first bad line (10, 11, 15, 16, 51), the lowest rule that it
/// breaks (17).
pub fn check_state(rules: &[u8], state: &[u8]) -> Result<(), Refusal> {
    let mut report = Report::default();
    // SAFETY: each pointer and length is one slice's.
    let number =
        unsafe { raw::pitch_gate_check_state(rules.as_ptr(), rules.len(), state.as_ptr(), state.len(), &mut report) };
    report.refused(number)
}

/// Reads a saved state as [`check_state`] does, writes the state that was read and returns its length. They are the same bytes.
///
/// Refused after all that [`check_state`] refuses: `copy` too short (18).
pub fn copy_state_into(rules: &[u8], state: &[u8], copy: &mut [u8]) -> Result<usize, Refusal> {
    let mut report = Report::default();
    // SAFETY: each pointer and length is one slice's; the space is borrowed alone, so it overlaps nothing else lent.
    let number = unsafe {
        raw::pitch_gate_copy_state(
            rules.as_ptr(),
            rules.len(),
            state.as_ptr(),
            state.len(),
            copy.as_mut_ptr(),
            copy.len(),
            &mut report,
        )
    };
    report.refused(number)?;
    Ok(report.state())
}

/// Writes what the program `gate` prints for an input of rules, `(steps)` and steps: an answer line for each step, or only
/// `(bad number line)`. Returns its length. Refused: `output` too short (18; with [`OUTPUT_MOST`] bytes never).
pub fn respond_into(input: &[u8], output: &mut [u8]) -> Result<usize, Refusal> {
    from_text(raw::pitch_gate_respond, input, output)
}

/// Calls one of the library's functions that read a text and write another, and returns the length of what it wrote.
fn from_text(call: FromText, text: &[u8], space: &mut [u8]) -> Result<usize, Refusal> {
    let mut report = Report::default();
    // SAFETY: the call is the library's; each pointer and length is one slice's; the space is borrowed alone, so it overlaps nothing else
    // lent.
    let number = unsafe { call(text.as_ptr(), text.len(), space.as_mut_ptr(), space.len(), &mut report) };
    report.refused(number)?;
    Ok(report.output())
}
