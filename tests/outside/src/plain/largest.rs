//! "the largest part of the target's active pairs under which every rule holds"

use super::places::PlaceOutcome;
use super::rules::{every_rule_holds, Rule};
use super::state::State;
use std::collections::BTreeSet;

type Pairs = BTreeSet<(i64, i64)>;

/// Bounds on the search over every part: pairs, and parts times rules.
const MOST_PAIRS_SEARCHED: usize = 10;
const MOST_TESTS_SEARCHED: usize = 20_000;

pub struct Largest {
    pub state: State,
    pub ending: Ending,
}

/// What an event ended, and how the largest part was found.
#[derive(Clone, Copy, Default)]
pub struct Ending {
    /// Loans that are no longer in the target.
    pub loans: usize,
    /// Pairs that are no longer in the target.
    pub closed: usize,
    /// Pairs that are in the target and were ended at a position that is unsure for an `at`
    /// rule of their role.
    pub unsure: usize,
    /// Rounds in which a pair was ended.
    pub rounds: usize,
    /// Every part was looked at.
    pub searched: bool,
}

/// Every part is contained in the whole target, so where that one is good
/// there is nothing to look for.
pub fn largest_part(rules: &[Rule], target: State) -> Largest {
    if every_rule_holds(rules, &target) {
        return Largest { state: target, ending: Ending::default() };
    }
    let (kept, rounds) = by_rounds(rules, &target);
    let searched = can_be_searched(rules, &target);
    if searched {
        let found = by_every_part(rules, &target);
        assert_eq!(found.as_ref(), Some(&kept), "largest part of {target:?} under {rules:?}");
    }
    let unsure = target.active.difference(&kept).filter(|&&pair| is_unsure(rules, &target, pair));
    let unsure = unsure.count();
    let state = with_active(&target, kept);
    assert!(every_rule_holds(rules, &state), "after the rounds on {target:?} under {rules:?}");
    Largest { state, ending: Ending { unsure, rounds, searched, ..Ending::default() } }
}

fn can_be_searched(rules: &[Rule], target: &State) -> bool {
    let pairs = target.active.len();
    pairs <= MOST_PAIRS_SEARCHED && rules.len() << pairs <= MOST_TESTS_SEARCHED
}

/// The good part that contains every other good part, if there is one.
pub fn by_every_part(rules: &[Rule], target: &State) -> Option<Pairs> {
    let pairs: Vec<(i64, i64)> = target.active.iter().copied().collect();
    let good: Vec<usize> = (0..1 << pairs.len())
        .filter(|&part| every_rule_holds(rules, &with_active(target, choose(&pairs, part))))
        .collect();
    let largest = *good.iter().max_by_key(|part| part.count_ones())?;
    let contains_every_other = good.iter().all(|part| part & !largest == 0);
    contains_every_other.then(|| choose(&pairs, largest))
}

fn choose(pairs: &[(i64, i64)], part: usize) -> Pairs {
    let chosen = pairs.iter().enumerate().filter(|(index, _)| part >> index & 1 == 1);
    chosen.map(|(_, &pair)| pair).collect()
}

/// Ends the pairs that cannot stay, again and again until none is left:
/// an ended role may have carried another. The number of rounds comes along.
pub fn by_rounds(rules: &[Rule], target: &State) -> (Pairs, usize) {
    let mut state = target.clone();
    for rounds in 0.. {
        let active = &state.active;
        let staying: Pairs =
            active.iter().copied().filter(|&pair| may_stay(rules, &state, pair)).collect();
        if staying.len() == active.len() {
            return (staying, rounds);
        }
        state.active = staying;
    }
    unreachable!("each round but the last ends a pair")
}

fn may_stay(rules: &[Rule], state: &State, (session, active): (i64, i64)) -> bool {
    rules.iter().all(|rule| match *rule {
        Rule::Needs { role, needed } if role == active => state.is_active_anywhere(needed),
        Rule::During { role, ref term } if role == active => term.holds(state.time),
        Rule::At { role, side } if role == active => side.holds(state.sessions[&session].position),
        _ => true,
    })
}

fn is_unsure(rules: &[Rule], state: &State, (session, active): (i64, i64)) -> bool {
    let Some(reported) = state.sessions[&session].position else { return false };
    rules.iter().any(|rule| {
        matches!(*rule, Rule::At { role, side }
            if role == active && side.shape().outcome(reported) == PlaceOutcome::Unsure)
    })
}

fn with_active(target: &State, active: Pairs) -> State {
    State { active, ..target.clone() }
}
