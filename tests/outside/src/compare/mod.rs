//! The library against the plain gate, byte for byte.

pub mod expected;
mod joined;
mod policies;
mod space;

use crate::counts::{
    Counts, INPUT, OUTPUT_SPACE, POLICIES, RULES, SECOND_RULES, STATE, STATE_SPACE, STEPS_TEXT,
};
use crate::generate::random::Random;
use crate::plain::form::Bad;
use crate::plain::gate;
use crate::plain::program;
use crate::plain::rules::{Rule, RuleList};
use crate::plain::state::State;
use crate::plain::state_text::{read_state, write_state};
use crate::plain::step_text::{read_steps, write_answers};
use expected::{accepted_state, expected_run, no_room, Refused, Run};
use pitch_gate::{Refusal, Text};
use space::Space;
use std::fmt::Debug;

/// What the plain gate expects and the library gave, with the texts handed in.
pub struct Difference {
    pub call: &'static str,
    pub texts: Vec<Vec<u8>>,
    pub expected: String,
    pub found: String,
}

pub type Compared = Result<(), Box<Difference>>;

type Read = Result<(RuleList, State), Refused>;

pub struct Comparison {
    pub counts: Counts,
    /// Fills the lent spaces.
    random: Random,
}

impl Comparison {
    pub fn new(seed: u64) -> Comparison {
        Comparison { counts: Counts::default(), random: Random::new(seed) }
    }

    pub fn respond(&mut self, input: &[u8]) -> Compared {
        match program::read_input(input) {
            Ok((list, _)) => {
                self.counts.accepted("respond");
                self.counts.list_read(&list);
            }
            Err(Bad { number, place }) => {
                self.counts.refused("respond", INPUT, number);
                self.note_line(input, place, number);
            }
        }
        let counts = &mut self.counts;
        let output = program::respond(input, &mut |list, step, outcome| {
            counts.step(list, step, outcome);
        });
        let found = told(pitch_gate::respond(input));
        self.same("respond", &[input], &Ok(Shown(&output)), &shown(&found))?;
        for room in rooms(output.len()) {
            let mut space = self.space(room);
            let expected = no_room(room, output.len(), Text::OutputSpace);
            let found = told(pitch_gate::respond_into(input, &mut space.bytes));
            self.note_refusal("respond", &[], expected.err());
            self.same("respond_into", &[input], &expected, &found)?;
            self.same_space("respond_into", &[input], &space, expected.is_ok(), &output)?;
        }
        Ok(())
    }

    /// Both calls that read a rule list alone: an accepted one comes back byte for byte.
    pub fn check_rules(&mut self, rules: &[u8]) -> Compared {
        let read = expected::accepted_rules(rules);
        self.note_list(rules, &read);
        let checked = read.map(drop);
        self.note("check_rules", &[], checked.err());
        self.same("check_rules", &[rules], &checked, &told(pitch_gate::check_rules(rules)))?;
        for room in rooms(rules.len()) {
            let mut space = self.space(room);
            let expected = checked.and(no_room(room, rules.len(), Text::OutputSpace));
            self.note("copy_rules", &[], expected.err());
            let found = told(pitch_gate::copy_rules_into(rules, &mut space.bytes));
            self.same("copy_rules_into", &[rules], &expected, &found)?;
            self.same_space("copy_rules_into", &[rules], &space, expected.is_ok(), rules)?;
        }
        Ok(())
    }

    /// Both calls that read a saved state and run no step.
    pub fn check_state(&mut self, rules: &[u8], state: &[u8]) -> Compared {
        let texts = [rules, state];
        let list = expected::accepted_rules(rules).unwrap_or_default().rules;
        let read = accepted_state(rules, state);
        let checked = read.as_ref().map(drop).map_err(|refusal| *refusal);
        self.note("check_state", &list, checked.err());
        self.note_state(&list, state, &read);
        self.same("check_state", &texts, &checked, &told(pitch_gate::check_state(rules, state)))?;
        let copy = read.map_or(state.to_vec(), |(_, state)| write_state(&state));
        for room in rooms(copy.len()) {
            let mut space = self.space(room);
            let expected = checked.and(no_room(room, copy.len(), Text::StateSpace));
            self.note("copy_state", &list, expected.err());
            let found = told(pitch_gate::copy_state_into(rules, state, &mut space.bytes));
            self.same("copy_state_into", &texts, &expected, &found)?;
            self.same_space("copy_state_into", &texts, &space, expected.is_ok(), &copy)?;
        }
        Ok(())
    }

    pub fn fresh_state(&mut self) -> Compared {
        let fresh = b"(now 0)\n";
        let found = told(pitch_gate::fresh_state());
        self.same("fresh_state", &[], &Ok(Shown(fresh)), &shown(&found))?;
        for room in rooms(fresh.len()) {
            let mut space = self.space(room);
            let expected = no_room(room, fresh.len(), Text::StateSpace);
            self.note("fresh_state", &[], expected.err());
            let found = told(pitch_gate::fresh_state_into(&mut space.bytes));
            self.same("fresh_state_into", &[], &expected, &found)?;
            self.same_space("fresh_state_into", &[], &space, expected.is_ok(), fresh)?;
        }
        Ok(())
    }

    pub fn run_steps(&mut self, rules: &[u8], state: &[u8], steps: &[u8]) -> Compared {
        let texts = [rules, state, steps];
        let counts = &mut self.counts;
        let expected = expected_run(rules, state, steps, &mut |list, step, outcome| {
            counts.step(list, step, outcome);
        });
        let refusal = expected.as_ref().err().copied();
        self.note("run_steps", &expected::accepted_rules(rules).unwrap_or_default().rules, refusal);
        if let Some(Refused { number, text: Text::Steps, place }) = refusal {
            self.note_line(steps, place, number);
        }
        let found = told(pitch_gate::run_steps(rules, state, steps).map(Run::from));
        self.same("run_steps", &texts, &expected, &found)?;
        let (answers, next) = match &expected {
            Ok(run) => (run.answers.len(), run.state.len()),
            Err(_) => (10, 10),
        };
        let rooms = [(answers, next), (answers + 9, next + 9), (0, 0), (answers, next - 1)];
        let answers_short = answers.checked_sub(1).map(|short| (short, next));
        for (answers, next) in rooms.into_iter().chain(answers_short) {
            self.run_steps_into(texts, &expected, answers, next)?;
        }
        Ok(())
    }

    fn run_steps_into(
        &mut self,
        texts: [&[u8]; 3],
        run: &Result<Run, Refused>,
        answers_room: usize,
        next_room: usize,
    ) -> Compared {
        let mut answers = self.space(answers_room);
        let mut next = self.space(next_room);
        let expected = run.as_ref().map_err(|refusal| *refusal).and_then(|run| {
            Ok((
                no_room(answers_room, run.answers.len(), Text::OutputSpace)?,
                no_room(next_room, run.state.len(), Text::StateSpace)?,
            ))
        });
        self.note_refusal("run_steps", &[], expected.err().filter(|refusal| refusal.number == 18));
        let [rules, state, steps] = texts;
        let (answers_bytes, next_bytes) = (&mut answers.bytes, &mut next.bytes);
        let found =
            told(pitch_gate::run_steps_into(rules, state, steps, answers_bytes, next_bytes))
                .map(|lengths| (lengths.answers, lengths.state));
        self.same("run_steps_into", &texts, &expected, &found)?;
        let nothing = Run::default();
        let run = run.as_ref().unwrap_or(&nothing);
        let call = "run_steps_into";
        self.same_space(call, &texts, &answers, expected.is_ok(), &run.answers)?;
        self.same_space(call, &texts, &next, expected.is_ok(), &run.state)
    }

    /// The library gets the steps in pieces, with the state handed over as a
    /// text; the plain gate runs on. Compared after each piece.
    pub fn run_in_pieces(&mut self, rules: &[u8], start: &[u8], pieces: &[Vec<u8>]) -> Compared {
        let (list, mut state) = accepted_state(rules, start).expect("the start obeys the rules");
        let mut handed_over = start.to_vec();
        for piece in pieces {
            let steps = read_steps(piece).expect("a piece is whole lines");
            let counts = &mut self.counts;
            let (answers, next) = gate::run(&list, state, &steps, &mut |list, step, outcome| {
                counts.step(list, step, outcome);
            });
            let run = Run { answers: write_answers(&answers), state: write_state(&next) };
            let texts: [&[u8]; 3] = [rules, &handed_over, piece];
            let found = told(pitch_gate::run_steps(rules, &handed_over, piece).map(Run::from));
            self.counts.accepted("run_steps of a piece");
            self.same("run_steps of a piece", &texts, &Ok(run.clone()), &found)?;
            handed_over = run.state;
            state = next;
            self.counts.handed_over(&state);
        }
        Ok(())
    }

    fn space(&mut self, length: usize) -> Space {
        Space::new(&mut self.random, length)
    }

    fn note(&mut self, call: &'static str, rules: &[Rule], refusal: Option<Refused>) {
        match refusal {
            None => self.counts.accepted(call),
            refusal => self.note_refusal(call, rules, refusal),
        }
    }

    fn note_list(&mut self, text: &[u8], read: &Result<RuleList, Refused>) {
        match read {
            Ok(list) => self.counts.list_read(list),
            Err(Refused { number, place, .. }) => self.note_line(text, *place, *number),
        }
    }

    fn note_line(&mut self, text: &[u8], place: u64, number: u64) {
        let (before, line) = parted(text, place);
        self.counts.refused_line(before, line, number);
    }

    /// What a saved state shows besides its refusal.
    fn note_state(&mut self, rules: &[Rule], text: &[u8], read: &Read) {
        match *read {
            Ok((_, ref state)) => self.counts.state_read(state),
            Err(Refused { number: 17, place, .. }) => {
                let state = read_state(&[], text).expect("its lines are good");
                self.counts.state_broken(&rules[place as usize - 1], state);
            }
            Err(Refused { number, text: Text::State, place }) => {
                self.note_line(text, place, number);
            }
            Err(_) => {}
        }
    }

    fn note_refusal(&mut self, call: &'static str, rules: &[Rule], refusal: Option<Refused>) {
        let Some(Refused { number, text, place }) = refusal else { return };
        self.counts.refused(call, name(text), number);
        if number == 17 {
            self.counts.saved_broken(&rules[place as usize - 1]);
        }
    }

    fn same<Value: PartialEq + Debug>(
        &mut self,
        call: &'static str,
        texts: &[&[u8]],
        expected: &Value,
        found: &Value,
    ) -> Compared {
        if expected == found {
            return Ok(());
        }
        Err(Box::new(Difference {
            call,
            texts: texts.iter().map(|text| text.to_vec()).collect(),
            expected: format!("{expected:?}"),
            found: format!("{found:?}"),
        }))
    }

    /// The text from the first byte on where it was written; every other byte
    /// as it was.
    fn same_space(
        &mut self,
        call: &'static str,
        texts: &[&[u8]],
        space: &Space,
        is_written: bool,
        text: &[u8],
    ) -> Compared {
        let expected = space.with(if is_written { text } else { b"" });
        self.counts.bytes += expected.len() as u64;
        self.same(call, texts, &Shown(&expected), &Shown(&space.bytes))
    }
}

fn told<Value>(result: Result<Value, Refusal>) -> Result<Value, Refused> {
    result.map_err(Refused::from)
}

fn shown(written: &Result<Vec<u8>, Refused>) -> Result<Shown<'_>, Refused> {
    written.as_deref().map(Shown).map_err(|refusal| *refusal)
}

/// What stands before a line of the text, and the line without its line feed; line 0 is none.
fn parted(text: &[u8], place: u64) -> (&[u8], &[u8]) {
    let Some(before) = place.checked_sub(1) else { return (b"", b"") };
    let mut lines = text.split_inclusive(|&byte| byte == b'\n');
    let start: usize = lines.by_ref().take(before as usize).map(<[u8]>::len).sum();
    let line = lines.next().unwrap_or_default();
    (&text[..start], line.strip_suffix(b"\n").unwrap_or(line))
}

/// As long as the text, longer, and one byte too short.
fn rooms(length: usize) -> impl Iterator<Item = usize> {
    [Some(length), Some(length + 7), length.checked_sub(1)].into_iter().flatten()
}

fn name(text: Text) -> &'static str {
    match text {
        Text::Rules => RULES,
        Text::State => STATE,
        Text::Steps => STEPS_TEXT,
        Text::OutputSpace => OUTPUT_SPACE,
        Text::StateSpace => STATE_SPACE,
        Text::Policies => POLICIES,
        Text::SecondRules => SECOND_RULES,
        other => panic!("a text that the documents do not have: {other}"),
    }
}

/// Bytes that a difference prints as text.
#[derive(PartialEq)]
struct Shown<'text>(&'text [u8]);

impl Debug for Shown<'_> {
    fn fmt(&self, out: &mut std::fmt::Formatter<'_>) -> std::fmt::Result {
        write!(out, "{}", String::from_utf8_lossy(self.0))
    }
}
