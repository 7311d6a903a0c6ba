//! The library's C functions, as library/include/pitch_gate.h declares them, and the report that each call fills.

use crate::refusal::{Refusal, Text};

/// `struct pitch_gate_report`.
#[repr(C)]
#[derive(Default)]
pub struct Report {
    text: u64,
    place: u64,
    output: u64,
    state: u64,
}

impl Report {
    /// The call's refusal, from the number that it returned.
    pub fn refused(&self, number: u64) -> Result<(), Refusal> {
        match number {
            0 => Ok(()),
            _ => Err(Refusal { number, text: Text::of_report(self.text), place: self.place }),
        }
    }

    /// Bytes of a text that was written to a slice: a `usize`.
    pub fn output(&self) -> usize {
        self.output as usize
    }

    pub fn state(&self) -> usize {
        self.state as usize
    }
}

/// The functions that read one text and write another.
pub type FromText = unsafe extern "C" fn(*const u8, usize, *mut u8, usize, *mut Report) -> u64;

extern "C" {
    pub fn pitch_gate_version() -> u64;

    pub fn pitch_gate_respond(
        input: *const u8,
        input_length: usize,
        output: *mut u8,
        output_length: usize,
        report: *mut Report,
    ) -> u64;

    pub fn pitch_gate_check_rules(rules: *const u8, rules_length: usize, report: *mut Report) -> u64;

    pub fn pitch_gate_copy_rules(
        rules: *const u8,
        rules_length: usize,
        copy: *mut u8,
        copy_length: usize,
        report: *mut Report,
    ) -> u64;

    pub fn pitch_gate_rules_from_policies(
        policies: *const u8,
        policies_length: usize,
        rules: *mut u8,
        rules_length: usize,
        report: *mut Report,
    ) -> u64;

    pub fn pitch_gate_policies_from_rules(
        rules: *const u8,
        rules_length: usize,
        policies: *mut u8,
        policies_length: usize,
        report: *mut Report,
    ) -> u64;

    pub fn pitch_gate_join_rules(
        first: *const u8,
        first_length: usize,
        second: *const u8,
        second_length: usize,
        joined: *mut u8,
        joined_length: usize,
        report: *mut Report,
    ) -> u64;

    pub fn pitch_gate_check_state(
        rules: *const u8,
        rules_length: usize,
        state: *const u8,
        state_length: usize,
        report: *mut Report,
    ) -> u64;

    pub fn pitch_gate_copy_state(
        rules: *const u8,
        rules_length: usize,
        state: *const u8,
        state_length: usize,
        copy: *mut u8,
        copy_length: usize,
        report: *mut Report,
    ) -> u64;

    pub fn pitch_gate_fresh_state(state: *mut u8, state_length: usize, report: *mut Report) -> u64;

    pub fn pitch_gate_run_steps(
        rules: *const u8,
        rules_length: usize,
        state: *const u8,
        state_length: usize,
        steps: *const u8,
        steps_length: usize,
        answers: *mut u8,
        answers_length: usize,
        next: *mut u8,
        next_length: usize,
        report: *mut Report,
    ) -> u64;
}
