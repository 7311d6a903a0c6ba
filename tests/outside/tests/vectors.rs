//! Each vector through the plain gate: what its files expect.

use outside::compare::expected::{
    accepted_pair, accepted_policies, accepted_rules, expected_run, joined_list, no_room,
    written_policies, Refused,
};
use outside::plain::program::respond;
use outside::plain::rule_text::write_rules;
use outside::vectors::{text, vectors};
use pitch_gate::Text;
use std::path::Path;

#[test]
fn inputs_of_the_program() {
    let inputs = vectors("program", "in");
    assert!(inputs.len() > 150, "{} inputs", inputs.len());
    for path in inputs {
        let output = respond(&text(&path, "in"), &mut |_, _, _| {});
        assert_eq!(shown(&output), shown(&text(&path, "out")), "{}", path.display());
    }
}

#[test]
fn states_handed_over() {
    let calls = vectors("handover", "rules");
    assert!(calls.len() > 100, "{} calls", calls.len());
    for path in calls {
        let expected = if path.with_extension("refused").exists() {
            Err(shown(&text(&path, "refused")))
        } else {
            Ok((shown(&text(&path, "out")), shown(&text(&path, "next"))))
        };
        assert_eq!(handed_over(&path).map_err(written), expected, "{}", path.display());
    }
}

/// A pair gives each other; a text with a refusal is refused.
#[test]
fn policies_and_rules() {
    let [policies, lists] = ["policies", "rules"].map(|end| vectors("policies", end));
    assert!(policies.len() > 50 && lists.len() > 20, "{} and {}", policies.len(), lists.len());
    for path in policies {
        let rules = accepted_policies(&text(&path, "policies")).map(|list| write_rules(&list));
        check_turned(&path, rules, "rules", 0);
    }
    for path in lists {
        let list = accepted_rules(&text(&path, "rules"));
        let policies = list.and_then(|list| written_policies(&list));
        check_turned(&path, policies, "policies", 1);
    }
}

/// Two lists give the joined one, or are refused.
#[test]
fn joined_lists() {
    let pairs = vectors("joined", "first");
    assert!(pairs.len() > 50, "{} pairs", pairs.len());
    for path in pairs {
        let lists = accepted_pair(&text(&path, "first"), &text(&path, "second"));
        let joined = lists.and_then(|lists| joined_list(&lists));
        check_turned(&path, joined.map(|list| write_rules(&list)), "joined", 0);
    }
}

/// The text that is written has this ending; of two spaces its own is this one.
fn check_turned(path: &Path, turned: Result<Vec<u8>, Refused>, end: &str, space: usize) {
    let refused = path.with_extension("refused").exists();
    let expected = shown(&text(path, if refused { "refused" } else { end }));
    let lent = spaces(path).map(|lent| lent[space.min(lent.len() - 1)]);
    let found = turned.and_then(|text| {
        no_room(lent.unwrap_or(text.len()), text.len(), Text::OutputSpace)?;
        Ok(shown(&text))
    });
    let expected = if refused { Err(expected) } else { Ok(expected) };
    assert_eq!(found.map_err(written), expected, "{}", path.display());
}

/// The answers and the new saved state.
fn handed_over(path: &Path) -> Result<(String, String), Refused> {
    let [rules, state, steps] = ["rules", "state", "steps"].map(|end| text(path, end));
    let run = expected_run(&rules, &state, &steps, &mut |_, _, _| {})?;
    if let Some(lent) = spaces(path) {
        no_room(lent[0], run.answers.len(), Text::OutputSpace)?;
        no_room(lent[1], run.state.len(), Text::StateSpace)?;
    }
    Ok((shown(&run.answers), shown(&run.state)))
}

/// The bytes lent, where they matter: for the answers and for the state, for the rules and for the
/// policies, or for the joined list.
fn spaces(path: &Path) -> Option<Vec<usize>> {
    path.with_extension("spaces").exists().then(|| {
        let lengths = shown(&text(path, "spaces"));
        lengths.split_whitespace().map(|length| length.parse().unwrap()).collect()
    })
}

fn written(Refused { number, text, place }: Refused) -> String {
    let name = match text {
        Text::Rules => "rules",
        Text::State => "state",
        Text::Steps => "steps",
        Text::OutputSpace => "output-space",
        Text::StateSpace => "state-space",
        Text::Policies => "policies",
        Text::SecondRules => "second-rules",
        other => panic!("a text that the documents do not have: {other}"),
    };
    format!("(refused {name} {number} {place})\n")
}

fn shown(text: &[u8]) -> String {
    String::from_utf8_lossy(text).into_owned()
}
