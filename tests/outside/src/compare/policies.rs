//! Policies of GEMRBAC-DSL (2026-06) to rule lists and rule lists to policies.

use super::expected::{accepted_policies, accepted_rules, no_room, written_policies, Refused};
use super::{rooms, shown, told, Compared, Comparison, Shown};
use crate::plain::rule_text::write_rules;
use pitch_gate::{Refusal, Text};

type Written = Result<Vec<u8>, Refusal>;

/// One way from one language to the other, and the way back.
struct Journey {
    call: &'static str,
    call_into: &'static str,
    there_and_back: &'static str,
    written: fn(&[u8]) -> Written,
    into: fn(&[u8], &mut [u8]) -> Result<usize, Refusal>,
    back: fn(&[u8]) -> Written,
}

const TO_RULES: Journey = Journey {
    call: "rules_from_policies",
    call_into: "rules_from_policies_into",
    there_and_back: "policies_from_rules of rules_from_policies",
    written: pitch_gate::rules_from_policies,
    into: pitch_gate::rules_from_policies_into,
    back: pitch_gate::policies_from_rules,
};

const TO_POLICIES: Journey = Journey {
    call: "policies_from_rules",
    call_into: "policies_from_rules_into",
    there_and_back: "rules_from_policies of policies_from_rules",
    written: pitch_gate::policies_from_rules,
    into: pitch_gate::policies_from_rules_into,
    back: pitch_gate::rules_from_policies,
};

impl Comparison {
    pub fn rules_from_policies(&mut self, policies: &[u8]) -> Compared {
        let read = accepted_policies(policies);
        match &read {
            Ok(list) => self.counts.policies_read(list),
            Err(Refused { number, place, .. }) => {
                self.counts.policies_refused(policies, *place, *number);
            }
        }
        self.travel(&TO_RULES, policies, read.map(|list| write_rules(&list)))
    }

    pub fn policies_from_rules(&mut self, rules: &[u8]) -> Compared {
        let expected = accepted_rules(rules).and_then(|list| {
            let written = written_policies(&list);
            self.counts.policies_written(&list, written.as_ref().err().map(|bad| bad.place));
            written
        });
        self.travel(&TO_POLICIES, rules, expected)
    }

    /// The call that returns what it writes; then in a space just long enough, longer, one byte
    /// short, and empty. "A list of these five kinds survives either journey."
    fn travel(
        &mut self,
        journey: &Journey,
        text: &[u8],
        expected: Result<Vec<u8>, Refused>,
    ) -> Compared {
        let found = told((journey.written)(text));
        self.same(journey.call, &[text], &shown(&expected), &shown(&found))?;
        let written = expected.as_deref().unwrap_or(text);
        for room in rooms(written.len()).chain([0]) {
            let mut space = self.space(room);
            let length = expected.as_ref().map(Vec::len).map_err(|refusal| *refusal);
            let length = length.and_then(|length| no_room(room, length, Text::OutputSpace));
            self.note(journey.call, &[], length.err());
            let found = told((journey.into)(text, &mut space.bytes));
            self.same(journey.call_into, &[text], &length, &found)?;
            self.same_space(journey.call_into, &[text], &space, length.is_ok(), written)?;
        }
        if expected.is_err() {
            return Ok(());
        }
        let back = told((journey.back)(written));
        self.same(journey.there_and_back, &[text], &Ok(Shown(text)), &shown(&back))
    }
}
