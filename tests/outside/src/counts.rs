//! How often each kind of case was met, and the kinds that must be met.

use crate::compare::expected::Refused;
use crate::generate::damage::DAMAGES;
use crate::joined_kinds::{
    both_refused_kind, joined_kinds_to_meet, joined_state_kinds, later_line_kind, pair_kinds,
};
use crate::place_kinds::{
    has_an_error, outcome_kinds, place_kinds_to_meet, refused_line_kind, refused_move_kind,
    without_errors,
};
use crate::plain::form::Bad;
use crate::plain::gate::{run, Answer, Outcome};
use crate::plain::ranges::MOST_LOANS;
use crate::plain::rules::{Rule, RuleList};
use crate::plain::selected::selects;
use crate::plain::state::State;
use crate::plain::steps::{Action, Step};
use crate::policy_kinds::{
    damage_kind, policy_kinds_to_meet, read_kinds, refused_kinds, without_a_line_kinds,
    written_kinds,
};
use crate::right_kinds::{
    acting_kinds, list_kinds, own_step_kind, refused_acting_kind, refused_right_kind,
    right_kinds_to_meet,
};
use std::collections::BTreeMap;

/// A group, a name in it, and a number where the kind has one.
pub type Kind = (&'static str, &'static str, u64);

#[derive(Default)]
pub struct Counts {
    kinds: BTreeMap<Kind, u64>,
    pub bytes: u64,
}

/// Stands for a granted step and for a call that refuses nothing.
pub const NOT_REFUSED: u64 = 0;

const ANSWER: &str = "answer";
const STEP: &str = "step";
const SELECTED: &str = "rule selected";
const BROKEN: &str = "lowest rule of a 30";
const SAVED_BROKEN: &str = "lowest rule of a 17";
const SEVERAL_BROKEN: &str = "30 with two broken rules or more";
const ENDED: &str = "event that ended two pairs or more";
const ENDED_SEARCHED: &str = "event that ended two pairs or more, every part looked at";
const ENDED_IN_ROUNDS: &str = "event that ended pairs in two rounds or more";
const DAMAGED: &str = "damaged text";
const ON_LOAN: &str = "role on loan and not assigned";
const BROKEN_BY_LOANS: &str = "lowest rule of a 30 that only loans break";
const LENT_OUT: &str = "27 with the role lent out and not active";
const MOST_LOANS_RUN: &str = "lend after which 32 loans run";
const LOAN_ENDED: &str = "event that ended loans";
const CLOSED: &str = "event that closed roles not held";
const CLOSED_THEN_ENDED: &str = "event that closed roles not held and then ended others";
const ENDED_UNSURE: &str = "event that ended roles at an unsure position";
const ACTIVATED_UNDER: &str = "activate granted at a position with an error, under";
const BROKEN_BY_ERRORS: &str = "lowest rule of a 30 that only errors break";
const SAVED_BROKEN_BY_ERRORS: &str = "lowest rule of a 17 that only errors break";
const ERRORS_READ: &str = "saved state with errors read";
const ERRORS_HANDED_OVER: &str = "state with errors handed over between pieces";

const EVENTS: [&str; 5] = ["close", "move", "lost", "clock", "recall"];
const EVENTS_THAT_END_LOANS: [&str; 2] = ["clock", "recall"];

const ASSIGN_REFUSED: &str = "assign refused with 24";
const LEND_REFUSED: &str = "lend refused with 24";
const ACTIVATED: &str = "activate granted";
const FAMILIES_OF_HELD_ROLES: [&str; 3] = ["max-users", "max-roles", "apart"];
const FAMILIES_OF_PLACES: [&str; 4] =
    ["at inside circle", "at inside box", "at outside circle", "at outside box"];
pub const FAMILIES: [&str; 19] = [
    "before",
    "max-users",
    "max-roles",
    "max-permissions",
    "max-active",
    "apart",
    "apart-active",
    "needs",
    "during dates",
    "during week",
    "during months",
    "during nth",
    "during every",
    "at inside circle",
    "at inside box",
    "at outside circle",
    "at outside box",
    "two-hands",
    "same-hand",
];

/// The column "Checks" of the table, with 20 before all; of lend and recall those of 2026-01; 53
/// and 54 of 2026-05 after 20.
const STEPS: [(&str, &[u64]); 15] = [
    ("assign", &[20, 53, 54, 24, 30]),
    ("withdraw", &[20, 53, 54, 25, 27, 30]),
    ("grant", &[20, 53, 54, 24, 30]),
    ("take", &[20, 53, 54, 25]),
    ("open", &[20, 22]),
    ("activate", &[20, 23, 24, 26, 30]),
    ("deactivate", &[20, 23, 25, 30]),
    ("access", &[20, 23, 28, 30]),
    ("finish", &[20]),
    ("close", &[20, 23]),
    ("move", &[20, 23]),
    ("lost", &[20, 23]),
    ("clock", &[20, 21]),
    ("lend", &[20, 53, 54, 50, 24, 52, 51, 30]),
    ("recall", &[20, 53, 54, 25]),
];

pub const INPUT: &str = "the input";
pub const RULES: &str = "the rule list";
pub const STATE: &str = "the saved state";
pub const STEPS_TEXT: &str = "the steps";
pub const OUTPUT_SPACE: &str = "the space for the output";
pub const STATE_SPACE: &str = "the space for the state";
pub const POLICIES: &str = "the policies";
pub const SECOND_RULES: &str = "the second rule list";
const NOTHING: &str = "";

/// The refusals of each call, by the text that they are about.
const CALLS: [(&str, &str, &[u64]); 34] = [
    ("respond", NOTHING, &[NOT_REFUSED]),
    ("respond", INPUT, &[10, 11, 12, 13, 14, 19]),
    ("respond", OUTPUT_SPACE, &[18]),
    ("check_rules", NOTHING, &[NOT_REFUSED]),
    ("check_rules", RULES, &[10, 11, 12, 13, 14]),
    ("copy_rules", NOTHING, &[NOT_REFUSED]),
    ("copy_rules", RULES, &[10, 11, 12, 13, 14]),
    ("copy_rules", OUTPUT_SPACE, &[18]),
    ("check_state", NOTHING, &[NOT_REFUSED]),
    ("check_state", RULES, &[10, 11, 12, 13, 14]),
    ("check_state", STATE, &[10, 11, 15, 16, 17, 51]),
    ("copy_state", NOTHING, &[NOT_REFUSED]),
    ("copy_state", RULES, &[10, 11, 12, 13, 14]),
    ("copy_state", STATE, &[10, 11, 15, 16, 17, 51]),
    ("copy_state", STATE_SPACE, &[18]),
    ("fresh_state", NOTHING, &[NOT_REFUSED]),
    ("fresh_state", STATE_SPACE, &[18]),
    ("run_steps", NOTHING, &[NOT_REFUSED]),
    ("run_steps", RULES, &[10, 11, 12, 13, 14]),
    ("run_steps", STATE, &[10, 11, 15, 16, 17, 51]),
    ("run_steps", STEPS_TEXT, &[10, 19]),
    ("run_steps", OUTPUT_SPACE, &[18]),
    ("run_steps", STATE_SPACE, &[18]),
    ("run_steps of a piece", NOTHING, &[NOT_REFUSED]),
    ("rules_from_policies", NOTHING, &[NOT_REFUSED]),
    ("rules_from_policies", POLICIES, &[55, 11, 12, 13]),
    ("rules_from_policies", OUTPUT_SPACE, &[18]),
    ("policies_from_rules", NOTHING, &[NOT_REFUSED]),
    ("policies_from_rules", RULES, &[10, 11, 12, 13, 14, 56]),
    ("policies_from_rules", OUTPUT_SPACE, &[18]),
    ("join_rules", NOTHING, &[NOT_REFUSED]),
    ("join_rules", RULES, &[10, 11, 12, 13, 14]),
    ("join_rules", SECOND_RULES, &[10, 11, 12, 13, 14, 57, 58]),
    ("join_rules", OUTPUT_SPACE, &[18]),
];

impl Counts {
    pub fn accepted(&mut self, call: &'static str) {
        self.add((call, NOTHING, NOT_REFUSED));
    }

    pub fn refused(&mut self, call: &'static str, text: &'static str, number: u64) {
        self.add((call, text, number));
    }

    pub fn damaged(&mut self, damage: &'static str) {
        self.add((DAMAGED, damage, 0));
    }

    pub fn saved_broken(&mut self, rule: &Rule) {
        self.add((SAVED_BROKEN, rule.family(), 0));
    }

    pub fn list_read(&mut self, list: &RuleList) {
        self.add_all(list_kinds(list));
    }

    /// The line of a text that earned the refusal, and the text before it.
    pub fn refused_line(&mut self, before: &[u8], line: &[u8], number: u64) {
        self.add_all(refused_line_kind(line, number));
        self.add_all(refused_right_kind(before, line, number));
        self.add_all(refused_acting_kind(line));
    }

    pub fn policies_read(&mut self, list: &RuleList) {
        self.add_all(read_kinds(list));
    }

    pub fn policies_refused(&mut self, policies: &[u8], place: u64, number: u64) {
        self.add_all(refused_kinds(policies, place, number));
    }

    /// A list written as policies, or refused with 56 and a rule.
    pub fn policies_written(&mut self, list: &RuleList, refused: Option<u64>) {
        match refused {
            None => self.add_all(written_kinds(list)),
            Some(rule) => self.add_all(without_a_line_kinds(list, rule)),
        }
    }

    pub fn policies_damaged(&mut self, damage: &'static str, number: u64) {
        self.add(damage_kind(damage, number));
    }

    /// Two accepted lists, joined or refused.
    pub fn pair_joined(&mut self, lists: &[RuleList; 2], joined: &Result<RuleList, Refused>) {
        self.add_all(pair_kinds(lists, joined));
    }

    pub fn both_refused(&mut self, number: u64) {
        self.add(both_refused_kind(number));
    }

    /// A bad line of the second list, whose lines before it cannot be joined.
    pub fn refused_after(&mut self, hidden: Bad, number: u64) {
        self.add(later_line_kind(hidden, number));
    }

    /// A saved state under two lists and under the joined one.
    pub fn state_joined(
        &mut self,
        either: [Option<Refused>; 2],
        joined: Option<Refused>,
        rules_of_first: usize,
    ) {
        self.add_all(joined_state_kinds(either, joined, rules_of_first));
    }

    /// A saved state that was read under the rules.
    pub fn state_read(&mut self, state: &State) {
        if has_an_error(state) {
            self.add((ERRORS_READ, NOTHING, 0));
        }
    }

    /// A saved state that was read and breaks the rule.
    pub fn state_broken(&mut self, rule: &Rule, state: State) {
        if rule.holds(&without_errors(state)) {
            self.add((SAVED_BROKEN_BY_ERRORS, rule.family(), 0));
        }
    }

    pub fn handed_over(&mut self, state: &State) {
        if has_an_error(state) {
            self.add((ERRORS_HANDED_OVER, NOTHING, 0));
        }
    }

    pub fn step(&mut self, list: &RuleList, step: &Step, outcome: &Outcome) {
        let (rules, action) = (&list.rules, &step.action);
        let number = match outcome.answer {
            Answer::Yes { .. } => NOT_REFUSED,
            Answer::No { number, .. } => number,
        };
        self.add((ANSWER, NOTHING, number));
        self.add((STEP, action.name(), number));
        self.add_all(acting_kinds(list, step, number, outcome));
        self.on_loan(action, number, &outcome.state);
        self.with_an_error(rules, action, number, &outcome.state);
        match outcome.answer {
            Answer::Yes { ended, .. } => self.ended(action, ended, outcome),
            Answer::No { number: 30, rule, .. } => {
                let target = action.target(&outcome.state);
                self.broken(&rules[rule as usize - 1], outcome.broken, target);
            }
            Answer::No { .. } => return,
        }
        for rule in rules.iter().filter(|rule| selects(action, rule)) {
            self.add((SELECTED, rule.family(), 0));
        }
    }

    /// What a step met that loans alone bring about.
    fn on_loan(&mut self, action: &Action, number: u64, state: &State) {
        let kind = match *action {
            Action::Assign { user, role } if number == 24 && !state.is_assigned(user, role) => {
                (ON_LOAN, ASSIGN_REFUSED, 0)
            }
            Action::Lend { borrower, role, .. }
                if number == 24 && !state.is_assigned(borrower, role) =>
            {
                (ON_LOAN, LEND_REFUSED, 0)
            }
            Action::Activate { session, role }
                if number == NOT_REFUSED
                    && !state.is_assigned(state.sessions[&session].user, role) =>
            {
                (ON_LOAN, ACTIVATED, 0)
            }
            Action::Withdraw { user, role } if number == 27 && !state.is_active_for(user, role) => {
                (LENT_OUT, NOTHING, 0)
            }
            Action::Lend { .. } if number == NOT_REFUSED && state.loans.len() == MOST_LOANS => {
                (MOST_LOANS_RUN, NOTHING, 0)
            }
            _ => return,
        };
        self.add(kind);
    }

    /// What a step met that errors alone bring about.
    fn with_an_error(&mut self, rules: &[Rule], action: &Action, number: u64, state: &State) {
        self.add_all(refused_move_kind(action, number));
        match *action {
            Action::Move { reported, .. } if number == NOT_REFUSED => {
                self.add_all(outcome_kinds(rules, reported));
            }
            Action::Activate { session, role: added } if number == NOT_REFUSED => {
                let position = state.sessions[&session].position;
                let is_of_it =
                    |rule: &&Rule| matches!(**rule, Rule::At { role, .. } if role == added);
                if position.is_some_and(|reported| reported.error > 0) {
                    let rules = rules.iter().filter(is_of_it);
                    self.add_all(rules.map(|rule| (ACTIVATED_UNDER, rule.family(), 0)));
                }
            }
            _ => {}
        }
    }

    /// A list of a user's own steps, none of which may change what is assigned or carried.
    pub fn own_steps(&mut self, list: &RuleList, start: &State, steps: &[Step]) {
        let counted = &mut self.kinds;
        run(list, start.clone(), steps, &mut |_, step, outcome| {
            let kind = own_step_kind(step, outcome);
            *counted.entry(kind).or_default() += 1;
        });
    }

    fn broken(&mut self, rule: &Rule, broken: usize, target: State) {
        self.add((BROKEN, rule.family(), 0));
        if broken >= 2 {
            self.add((SEVERAL_BROKEN, NOTHING, 0));
        }
        if rule.holds(&State { loans: BTreeMap::new(), ..target.clone() }) {
            self.add((BROKEN_BY_LOANS, rule.family(), 0));
        }
        if rule.holds(&without_errors(target)) {
            self.add((BROKEN_BY_ERRORS, rule.family(), 0));
        }
    }

    fn ended(&mut self, action: &Action, ended: u64, outcome: &Outcome) {
        if !action.is_event() {
            return;
        }
        self.ended_with_loans(action, outcome);
        if ended >= 2 {
            self.add((ENDED, action.name(), 0));
        }
        if ended >= 2 && outcome.ending.searched {
            self.add((ENDED_SEARCHED, action.name(), 0));
        }
        if outcome.ending.rounds >= 2 {
            self.add((ENDED_IN_ROUNDS, action.name(), 0));
        }
        if outcome.ending.unsure > 0 {
            self.add((ENDED_UNSURE, action.name(), 0));
        }
    }

    fn ended_with_loans(&mut self, action: &Action, outcome: &Outcome) {
        if outcome.ending.loans == 0 {
            return;
        }
        self.add((LOAN_ENDED, action.name(), 0));
        if outcome.ending.closed > 0 {
            self.add((CLOSED, action.name(), 0));
        }
        if outcome.ending.closed > 0 && outcome.ending.rounds > 0 {
            self.add((CLOSED_THEN_ENDED, action.name(), 0));
        }
    }

    fn add_all(&mut self, kinds: impl IntoIterator<Item = Kind>) {
        for kind in kinds {
            self.add(kind);
        }
    }

    fn add(&mut self, kind: Kind) {
        *self.kinds.entry(kind).or_default() += 1;
    }

    /// The kinds that can occur and were not met.
    pub fn missing(&self) -> Vec<String> {
        let kinds = kinds_to_meet();
        kinds.iter().filter(|kind| !self.kinds.contains_key(*kind)).map(written).collect()
    }

    pub fn lines(&self) -> Vec<String> {
        let kinds = self.kinds.iter();
        kinds.map(|(kind, count)| format!("{count:>12}  {}", written(kind))).collect()
    }
}

fn written((group, name, number): &Kind) -> String {
    match (*group, *number) {
        (ANSWER | STEP, NOT_REFUSED) => format!("{group} {name}: yes"),
        (_, 0) => format!("{group}: {}", if name.is_empty() { "met" } else { name }),
        (_, number) => format!("{group} {name}: {number}"),
    }
}

fn kinds_to_meet() -> Vec<Kind> {
    let met_alone = [SEVERAL_BROKEN, LENT_OUT, MOST_LOANS_RUN, ERRORS_READ, ERRORS_HANDED_OVER];
    let mut kinds: Vec<Kind> = met_alone.map(|group| (group, NOTHING, 0)).to_vec();
    for (call, text, numbers) in CALLS {
        kinds.extend(numbers.iter().map(|&number| (call, text, number)));
    }
    for (step, numbers) in STEPS {
        kinds.push((STEP, step, NOT_REFUSED));
        kinds.extend(numbers.iter().map(|&number| (STEP, step, number)));
    }
    for family in FAMILIES {
        kinds.extend([SELECTED, BROKEN, SAVED_BROKEN].map(|group| (group, family, 0)));
    }
    for event in EVENTS {
        kinds.extend([ENDED, ENDED_SEARCHED, ENDED_IN_ROUNDS].map(|group| (group, event, 0)));
    }
    for event in EVENTS_THAT_END_LOANS {
        kinds.extend([LOAN_ENDED, CLOSED, CLOSED_THEN_ENDED].map(|group| (group, event, 0)));
    }
    kinds.extend([ASSIGN_REFUSED, LEND_REFUSED, ACTIVATED].map(|name| (ON_LOAN, name, 0)));
    kinds.extend(FAMILIES_OF_HELD_ROLES.map(|family| (BROKEN_BY_LOANS, family, 0)));
    kinds.push((ENDED_UNSURE, "move", 0));
    for family in FAMILIES_OF_PLACES {
        let groups = [ACTIVATED_UNDER, BROKEN_BY_ERRORS, SAVED_BROKEN_BY_ERRORS];
        kinds.extend(groups.map(|group| (group, family, 0)));
    }
    kinds.extend(place_kinds_to_meet());
    kinds.extend(right_kinds_to_meet());
    kinds.extend(policy_kinds_to_meet());
    kinds.extend(joined_kinds_to_meet());
    kinds.extend(DAMAGES.iter().map(|&(damage, _)| (DAMAGED, damage, 0)));
    kinds
}
