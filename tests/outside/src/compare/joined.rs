//! Two rule lists joined (2026-07), and saved states under the joined list.

use super::expected::{accepted_pair, accepted_rules, joined_list, no_room, Refused};
use super::{parted, rooms, shown, told, Compared, Comparison, Shown};
use crate::plain::joined::join;
use crate::plain::rule_text::{read_rules, write_rules};
use crate::plain::rules::RuleList;
use pitch_gate::Text;

impl Comparison {
    /// The call that returns what it writes; then in a space just long enough, longer, one byte
    /// short, and empty.
    pub fn join_rules(&mut self, first: &[u8], second: &[u8]) -> Compared {
        let texts = [first, second];
        let expected = self.expected_join(first, second);
        let found = told(pitch_gate::join_rules(first, second));
        self.same("join_rules", &texts, &shown(&expected), &shown(&found))?;
        let both = texts.concat();
        let written = expected.as_deref().unwrap_or(&both);
        for room in rooms(written.len()).chain([0]) {
            let mut space = self.space(room);
            let length = expected.as_ref().map(Vec::len).map_err(|refusal| *refusal);
            let length = length.and_then(|length| no_room(room, length, Text::OutputSpace));
            self.note("join_rules", &[], length.err());
            let found = told(pitch_gate::join_rules_into(first, second, &mut space.bytes));
            self.same("join_rules_into", &texts, &length, &found)?;
            self.same_space("join_rules_into", &texts, &space, length.is_ok(), written)?;
        }
        Ok(())
    }

    fn expected_join(&mut self, first: &[u8], second: &[u8]) -> Result<Vec<u8>, Refused> {
        let lists = accepted_pair(first, second);
        let lists = lists.inspect_err(|refused| self.note_pair_refused(first, second, refused))?;
        let joined = joined_list(&lists);
        self.counts.pair_joined(&lists, &joined);
        joined.map(|list| write_rules(&list))
    }

    /// A bad text, and what would have been refused beside it.
    fn note_pair_refused(&mut self, first: &[u8], second: &[u8], refused: &Refused) {
        let Refused { number, text, place } = *refused;
        if text == Text::Rules {
            if read_rules(second).is_err() {
                self.counts.both_refused(number);
            }
            return;
        }
        let read = |text| read_rules(text).expect("the lines before the bad one are good");
        if let Err(hidden) = join(&read(first), &read(parted(second, place).0)) {
            self.counts.refused_after(hidden, number);
        }
    }

    /// By the words alone, of the library's own texts: a list joined with itself or with the empty
    /// one is itself, and a joined list gains nothing from either of its lists.
    pub fn join_again(&mut self, first: &[u8], second: &[u8]) -> Compared {
        let empty: &[u8] = b"";
        self.join_adds_nothing(first, first, first)?;
        self.join_adds_nothing(first, empty, first)?;
        if !has_doubles(&read_rules(first).expect("an accepted list")) {
            self.join_adds_nothing(empty, first, first)?;
        }
        let Ok(joined) = pitch_gate::join_rules(first, second) else { return Ok(()) };
        self.join_adds_nothing(&joined, first, &joined)?;
        self.join_adds_nothing(&joined, second, &joined)?;
        self.join_adds_nothing(first, &joined, &joined)
    }

    fn join_adds_nothing(&mut self, first: &[u8], second: &[u8], joined: &[u8]) -> Compared {
        let found = told(pitch_gate::join_rules(first, second));
        let call = "join_rules where nothing is new";
        self.same(call, &[first, second], &Ok(Shown(joined)), &shown(&found))
    }

    /// "A state obeys the joined list just if it obeys both." What the first list refuses, the
    /// joined one refuses alike, since its rules are the lowest; which rule of the second is the
    /// lowest broken one, the plain gate says.
    pub fn check_joined_state(&mut self, first: &[u8], second: &[u8], state: &[u8]) -> Compared {
        let Ok(joined) = pitch_gate::join_rules(first, second) else { return Ok(()) };
        self.check_state(&joined, state)?;
        let checked =
            [first, second, &joined].map(|rules| told(pitch_gate::check_state(rules, state)));
        let [under_first, under_second, under_joined] = checked;
        let (call, texts) = ("check_state under a joined list", [first, second, state]);
        if under_first.is_err() {
            self.same(call, &texts, &under_first, &under_joined)?;
        }
        let obeys_both = under_first.and(under_second).is_ok();
        self.same(call, &texts, &obeys_both, &under_joined.is_ok())?;
        let ran = told(pitch_gate::run_steps(&joined, state, b"")).map(drop);
        self.same("run_steps under a joined list", &texts, &under_joined, &ran)?;
        let rules_of_first = accepted_rules(first).map_or(0, |list| list.rules.len());
        let either = [under_first.err(), under_second.err()];
        self.counts.state_joined(either, under_joined.err(), rules_of_first);
        Ok(())
    }
}

fn has_doubles(list: &RuleList) -> bool {
    let rules = &list.rules;
    (0..rules.len()).any(|index| rules[..index].contains(&rules[index]))
}
