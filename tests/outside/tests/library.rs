//! The library beside the rest of the repository: the header, the example day, the vectors.

use outside::vectors::{parts, vectors};
use pitch_gate::*;

const HEADER: &str = include_str!("../../../library/include/pitch_gate.h");
const DAY: &[u8] = include_bytes!("../../../library/examples/day.in");

#[test]
fn a_state_handed_over_gives_the_same_as_one_run() {
    let (rules, steps) = parts(DAY).unwrap();
    let fresh = fresh_state().unwrap();
    let whole = run_steps(rules, &fresh, steps).unwrap();
    let cuts =
        steps.iter().enumerate().filter(|(_, byte)| **byte == b'\n').map(|(place, _)| place + 1);
    for cut in cuts {
        let first = run_steps(rules, &fresh, &steps[..cut]).unwrap();
        let second = run_steps(rules, &first.state, &steps[cut..]).unwrap();
        assert_eq!([first.answers, second.answers].concat(), whole.answers);
        assert_eq!(second.state, whole.state);
    }
}

/// Each beginning of a saved text that ends with a line feed is accepted or refused for what it lacks, never noticed as cut.
#[test]
fn a_saved_text_that_is_cut_can_be_accepted() {
    let (rules, steps) = parts(DAY).unwrap();
    let state = run_steps(rules, &fresh_state().unwrap(), steps).unwrap().state;
    let cuts =
        state.iter().enumerate().filter(|(_, byte)| **byte == b'\n').map(|(place, _)| place + 1);
    let accepted = cuts.filter(|cut| check_state(b"", &state[..*cut]).is_ok()).count();
    assert_eq!(accepted, state.iter().filter(|byte| **byte == b'\n').count());
}

/// Each rule list and each saved state of the vectors: the same bytes, or the refusal that checking it gives.
#[test]
fn every_vector_comes_back_byte_for_byte() {
    let mut lists: Vec<Vec<u8>> = vec![];
    for path in vectors("handover", "rules") {
        let (rules, state) =
            (std::fs::read(&path).unwrap(), std::fs::read(path.with_extension("state")).unwrap());
        assert_eq!(copy_state(&rules, &state), check_state(&rules, &state).map(|()| state));
        lists.push(rules);
    }
    for path in vectors("program", "in") {
        let input = std::fs::read(path).unwrap();
        lists.push(parts(&input).map_or(&input[..], |(rules, _)| rules).to_vec());
    }
    let accepted = lists.iter().filter(|rules| check_rules(rules).is_ok()).count();
    assert!(
        accepted > 100 && lists.len() - accepted > 50,
        "{accepted} of {} accepted",
        lists.len()
    );
    for rules in lists {
        assert_eq!(copy_rules(&rules), check_rules(&rules).map(|()| rules));
    }
}

/// Each pair of policies and rules: the calls that return what they write give each other, and there is room for it.
#[test]
fn every_pair_survives_either_journey() {
    let mut pairs = 0;
    for path in
        vectors("policies", "policies").iter().filter(|path| path.with_extension("rules").exists())
    {
        let [policies, rules] =
            ["policies", "rules"].map(|end| std::fs::read(path.with_extension(end)).unwrap());
        assert_eq!(rules_from_policies(&policies), Ok(rules.clone()), "{}", path.display());
        assert!(policies.len() <= POLICIES_MOST && rules.len() <= RULES_MOST);
        assert_eq!(policies_from_rules(&rules), Ok(policies), "{}", path.display());
        pairs += 1;
    }
    assert!(pairs > 10, "{pairs} pairs");
}

/// Each pair of lists: the call that returns what it writes gives the joined list, and there is room for it. Joined once more with
/// either list it stays as it is.
#[test]
fn every_pair_of_lists_is_joined() {
    let mut pairs = 0;
    for path in vectors("joined", "joined") {
        let [first, second, joined] = ["first", "second", "joined"]
            .map(|end| std::fs::read(path.with_extension(end)).unwrap());
        assert!(joined.len() <= RULES_MOST);
        for (first, second) in [(&first, &second), (&joined, &first), (&joined, &second)] {
            assert_eq!(join_rules(first, second).as_ref(), Ok(&joined), "{}", path.display());
        }
        pairs += 1;
    }
    assert!(pairs > 20, "{pairs} pairs");
}

/// A call that takes more stack than the header says ends the test's process. The thread itself gets 16 KiB beside it.
#[test]
fn each_call_fits_the_stack() {
    let inputs: Vec<Vec<u8>> =
        vectors("program", "in").into_iter().map(|path| std::fs::read(path).unwrap()).collect();
    assert!(inputs.len() > 100, "{} inputs", inputs.len());
    let [policies, lists] = ["policies", "rules"].map(|end| vectors("policies", end));
    let pairs = vectors("joined", "first");
    let calls = move || {
        for path in &pairs {
            let [first, second] =
                ["first", "second"].map(|end| std::fs::read(path.with_extension(end)).unwrap());
            let _ = join_rules(&first, &second);
        }
        for path in &policies {
            let _ = rules_from_policies(&std::fs::read(path).unwrap());
        }
        for path in &lists {
            let _ = policies_from_rules(&std::fs::read(path).unwrap());
        }
        for input in &inputs {
            respond(input).unwrap();
            if let Some((rules, steps)) = parts(input) {
                let fresh = fresh_state().unwrap();
                let state = run_steps(rules, &fresh, steps).map_or(fresh, |ran| ran.state);
                let copied = copy_state_into(rules, &state, &mut vec![0; state.len()]);
                assert_eq!(copied.is_ok(), check_state(rules, &state).is_ok());
                assert_eq!(copy_rules(rules).is_ok(), check_rules(rules).is_ok());
            }
        }
    };
    std::thread::Builder::new()
        .stack_size(STACK_MOST + 16 * 1024)
        .spawn(calls)
        .unwrap()
        .join()
        .unwrap();
}

/// The header has the same causes, beside each number and in words, and the same sizes.
#[test]
fn the_header_says_the_same() {
    let beside = |number: u64, cause: &str| {
        HEADER.lines().any(|line| {
            line.contains(&format!(" = {number}")) && line.contains(&format!("/* {cause} */"))
        })
    };
    let in_words = |number: u64, cause: &str| {
        HEADER.contains(&format!("    case {number}: return \"{cause}\";\n"))
    };
    for number in 1..100 {
        if let Some(cause) = cause(number) {
            assert!(beside(number, cause) && in_words(number, cause), "{number}");
        }
    }
    let numbers = (1..100).filter(|number| cause(*number).is_some()).count();
    assert_eq!(HEADER.matches("    case ").count(), numbers + 1);
    for (name, bytes) in [
        ("INPUT_MOST", INPUT_MOST),
        ("RULES_MOST", RULES_MOST),
        ("POLICIES_MOST", POLICIES_MOST),
        ("STATE_MOST", STATE_MOST),
        ("OUTPUT_MOST", OUTPUT_MOST),
        ("ANSWER_MOST", ANSWER_MOST),
        ("FRESH_MOST", FRESH_MOST),
        ("STACK_MOST", STACK_MOST),
        ("VERSION", VERSION as usize),
    ] {
        let define = format!("#define PITCH_GATE_{name} {bytes}");
        assert!(
            HEADER.lines().any(|line| line.split(" /*").next().map(str::trim_end) == Some(&define)),
            "{define}"
        );
    }
}
