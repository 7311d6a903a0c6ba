//! What is refused in each text, and what is written.

use outside::plain::form::Bad;
use outside::plain::rights::RightKind;
use outside::plain::rule_text::{read_rules, write_rules};
use outside::plain::rules::RuleList;
use outside::plain::state_text::{read_state, write_state};
use outside::plain::step_text::{read_steps, write_steps};

/// The refusal's number for a first rule.
fn rule(text: &str) -> u64 {
    match read_rules(format!("(rule 1 {text})\n").as_bytes()) {
        Ok(_) => 0,
        Err(Bad { number, place }) => {
            assert_eq!(place, 1);
            number
        }
    }
}

/// The number and the line for a saved text under no rules.
fn saved(text: &str) -> (u64, u64) {
    match read_state(&[], text.as_bytes()) {
        Ok(state) => {
            assert_eq!(write_state(&state), text.as_bytes());
            (0, 0)
        }
        Err(Bad { number, place }) => (number, place),
    }
}

fn steps_are_read(text: &str) -> bool {
    read_steps(text.as_bytes()).is_ok_and(|steps| write_steps(&steps) == text.as_bytes())
}

#[test]
fn rule_lines_that_are_no_form() {
    for text in [
        "(apart 1  2)",
        "(apart 1 2 )",
        "( apart 1 2)",
        "(apart 01 2)",
        "(apart -1 2)",
        "(apart 1)",
        "(apart 1 2 3)",
        "(aparts 1 2)",
        "(max-roles 12345678901)",
        "(during 1 (week 1 5 700 1900))",
        "(during 1 (dates 2026060 20260608))",
        "(at 1 (inside (circle -0 0 5)))",
        "(at 1 (inside (circle 0 0 -5)))",
        "(at 1 (circle 0 0 5))",
        "(needs 1 (2))",
    ] {
        assert_eq!(rule(text), 10, "{text}");
    }
}

#[test]
fn rule_numbers_outside_their_ranges() {
    for text in [
        "(apart 32 2)",
        "(max-users 1 65)",
        "(max-roles 33)",
        "(two-hands 32 1)",
        "(during 1 (week 0 5 0700 1900))",
        "(during 1 (week 1 8 0700 1900))",
        "(during 1 (week 1 5 2400 1900))",
        "(during 1 (week 1 5 0760 1900))",
        "(during 1 (week 1 5 0700 0000))",
        "(during 1 (week 1 5 0700 2401))",
        "(during 1 (dates 19991231 20260608))",
        "(during 1 (dates 20260608 21000101))",
        "(during 1 (months 0 1))",
        "(during 1 (nth 6 1))",
        "(during 1 (every 0 20260608))",
        "(during 1 (every 1001 20260608))",
        "(at 1 (inside (circle 0 0 0)))",
        "(at 1 (inside (circle 0 1000001 5)))",
        "(at 1 (inside (box -1000001 0 0 0)))",
    ] {
        assert_eq!(rule(text), 11, "{text}");
    }
}

#[test]
fn rules_that_make_no_sense() {
    for text in ["(before 1 1)", "(needs 2 2)", "(apart-active 0 0)", "(same-hand 31 31)"] {
        assert_eq!(rule(text), 13, "{text}");
    }
    for text in [
        "(during 1 (dates 20010229 20260608))",
        "(during 1 (dates 20260608 20260607))",
        "(during 1 (every 7 20260631))",
        "(during 1 (every 7 20261301))",
        "(during 1 (week 1 5 0700 0700))",
        "(at 1 (inside (box 1 0 0 0)))",
        "(at 1 (outside (box 0 -1 0 -2)))",
    ] {
        assert_eq!(rule(text), 14, "{text}");
    }
}

#[test]
fn rules_at_the_ends_of_their_ranges() {
    let texts = [
        "(max-users 31 64)",
        "(max-permissions 0 32)",
        "(max-roles 0)",
        "(during 1 (week 7 1 0000 2400))",
        "(during 1 (week 1 1 2359 0001))",
        "(during 1 (dates 20000101 20991231))",
        "(during 1 (every 1000 20000229))",
        "(during 1 (nth 5 7))",
        "(during 1 (months 12 1))",
        "(at 1 (inside (circle -1000000 1000000 100000)))",
        "(at 1 (outside (box -1000000 -1000000 -1000000 1000000)))",
    ];
    for text in texts {
        let line = format!("(rule 1 {text})\n");
        assert_eq!(write_rules(&read_rules(line.as_bytes()).unwrap()), line.as_bytes());
    }
}

#[test]
fn rules_are_numbered_by_ones() {
    let first = "(rule 1 (max-roles 1))\n";
    let after = |line: &str| read_rules(format!("{first}{line}").as_bytes()).unwrap_err();
    assert_eq!(after("(rule 3 (max-roles 1))\n"), Bad { number: 12, place: 2 });
    assert_eq!(after("(rule 1 (apart 1 1))\n"), Bad { number: 12, place: 2 });
    assert_eq!(after("(rule 0 (max-roles 1))\n"), Bad { number: 11, place: 2 });
    assert_eq!(after("(rule 2 (max-roles 1))"), Bad { number: 10, place: 2 });
    assert_eq!(after("\n"), Bad { number: 10, place: 2 });
    assert_eq!(read_rules(b""), Ok(RuleList::default()));
}

#[test]
fn the_129th_rule_is_outside_the_range() {
    let lines = (1..=129).map(|number| format!("(rule {number} (max-roles 1))\n"));
    let text: String = lines.collect();
    assert_eq!(read_rules(text.as_bytes()), Err(Bad { number: 11, place: 129 }));
}

/// The refusal of the second line after a good first one, or 0.
fn second_line(first: &str, second: &str) -> u64 {
    match read_rules(format!("{first}\n{second}\n").as_bytes()) {
        Ok(_) => 0,
        Err(Bad { number, place }) => {
            assert_eq!(place, 2, "{first} {second}");
            number
        }
    }
}

/// 2026-05: "Before the rules a list may have `(right assign 30)`, one line a kind in that order"
#[test]
fn right_lines_that_are_read() {
    let all = "(right assign 31)\n(right withdraw 0)\n(right grant 5)\n(right take 5)\n\
        (right lend 30)\n(right recall 30)\n";
    for text in [
        "(right recall 0)\n".to_string(),
        "(right assign 30)\n(rule 1 (max-roles 1))\n".to_string(),
        "(right withdraw 3)\n(right lend 3)\n(rule 1 (max-roles 1))\n".to_string(),
        all.to_string(),
        format!("{all}(rule 1 (max-roles 1))\n(rule 2 (needs 1 2))\n"),
    ] {
        let list = read_rules(text.as_bytes()).unwrap();
        assert_eq!(String::from_utf8(write_rules(&list)).unwrap(), text);
    }
    let list = read_rules(all.as_bytes()).unwrap();
    assert_eq!(Vec::from_iter(list.rights.values().copied()), [31, 0, 5, 5, 30, 30]);
    assert_eq!(list.rules, []);
}

/// "`(right clock 3)` is 10: a right line has one of the six kinds."
#[test]
fn right_lines_that_are_no_form() {
    for text in [
        "(right clock 3)",
        "(right open 3)",
        "(right by 3)",
        "(right Assign 3)",
        "(right assigned 3)",
        "(right assign)",
        "(right 3)",
        "(right assign 3 3)",
        "(right assign 03)",
        "(right assign 00)",
        "(right assign -3)",
        "(right assign 12345678901)",
        "(right assign  3)",
        "(right assign 3 )",
        "(right assign (3))",
        "(right (assign 3))",
        "(right 1 (assign 3))",
        "(rights assign 3)",
        "right assign 3",
        "(right assign 3",
        " (right assign 3)",
    ] {
        let refusal = read_rules(format!("{text}\n").as_bytes());
        assert_eq!(refusal, Err(Bad { number: 10, place: 1 }), "{text}");
    }
    assert_eq!(read_rules(b"(right assign 3)"), Err(Bad { number: 10, place: 1 }));
    assert_eq!(second_line("(rule 1 (max-roles 1))", "(right clock 32)"), 10);
}

#[test]
fn right_lines_with_a_permission_outside_its_range() {
    for permission in ["32", "33", "4294967296", "9999999999"] {
        for kind in RightKind::ALL {
            let line = format!("(right {} {permission})\n", kind.name());
            assert_eq!(read_rules(line.as_bytes()), Err(Bad { number: 11, place: 1 }));
        }
    }
    assert_eq!(second_line("(right assign 3)", "(right assign 32)"), 11);
    assert_eq!(second_line("(right grant 3)", "(right assign 32)"), 11);
    assert_eq!(second_line("(rule 1 (max-roles 1))", "(right assign 32)"), 11);
}

/// "A right line that is second of its kind, out of order or after a rule is 12."
#[test]
fn right_lines_that_are_not_the_next() {
    for (place, kind) in RightKind::ALL.into_iter().enumerate() {
        let line = format!("(right {} 3)", kind.name());
        for (other_place, other) in RightKind::ALL.into_iter().enumerate() {
            let expected = if other_place > place { 0 } else { 12 };
            for permission in [3, 4] {
                let second = format!("(right {} {permission})", other.name());
                assert_eq!(second_line(&line, &second), expected, "{line} {second}");
            }
        }
        assert_eq!(second_line("(rule 1 (max-roles 1))", &line), 12, "{line}");
        assert_eq!(second_line(&line, "(rule 1 (max-roles 1))"), 0, "{line}");
    }
}

/// "`(right ..)` lines count as lines, and rules are still numbered from 1."
#[test]
fn rules_are_numbered_from_1_after_right_lines() {
    let after = |line: &str| {
        let text = format!("(right assign 3)\n(right take 3)\n{line}");
        read_rules(text.as_bytes()).unwrap_err()
    };
    assert_eq!(after("(rule 3 (max-roles 1))\n"), Bad { number: 12, place: 3 });
    assert_eq!(after("(rule 1 (apart 1 1))\n"), Bad { number: 13, place: 3 });
    let first = "(rule 1 (max-roles 1))\n";
    assert_eq!(after(&format!("{first}(rule 3 (max-roles 1))\n")), Bad { number: 12, place: 4 });
    assert_eq!(after(&format!("{first}(right recall 3)\n")), Bad { number: 12, place: 4 });
}

/// 128 rules and six right lines are 134 lines.
#[test]
fn the_longest_rule_list() {
    let rights = RightKind::ALL.map(|kind| format!("(right {} 31)\n", kind.name())).concat();
    let rule = "(at 31 (outside (box -1000000 -1000000 -1000000 -1000000)))";
    let rules = |length| (1..=length).map(|number| format!("(rule {number} {rule})\n"));
    let text = |length| rights.clone() + &rules(length).collect::<String>();
    let list = read_rules(text(128).as_bytes()).unwrap();
    assert_eq!((list.rights.len(), list.rules.len()), (6, 128));
    assert_eq!(text(128).len(), 8980 + 105);
    assert_eq!(read_rules(text(129).as_bytes()), Err(Bad { number: 11, place: 135 }));
}

#[test]
fn saved_states_that_are_read() {
    assert_eq!(saved("(now 0)\n"), (0, 0));
    assert_eq!(
        saved(
            "(now 3155759999)\n(assigned 0 31)\n(assigned 63 0)\n(granted 31 31)\n(open 0 0)\n\
             (active 0 31)\n(open 2 63)\n(place 2 -1000000 1000000)\n(active 2 0)\n(did 31 0 63)\n"
        ),
        (0, 0)
    );
}

#[test]
fn saved_lines_out_of_order_or_twice() {
    assert_eq!(saved(""), (10, 1));
    assert_eq!(saved("(assigned 1 1)\n"), (15, 1));
    assert_eq!(saved("(active 1 1)\n"), (15, 1));
    assert_eq!(saved("(assigned 64 1)\n"), (11, 1));
    assert_eq!(saved("(now 0)\n(now 0)\n"), (15, 2));
    assert_eq!(saved("(now 0)\n(assigned 1 1)\n(assigned 1 1)\n"), (15, 3));
    assert_eq!(saved("(now 0)\n(granted 1 1)\n(assigned 1 1)\n"), (15, 3));
    assert_eq!(saved("(now 0)\n(open 1 1)\n(open 1 2)\n"), (15, 3));
    assert_eq!(saved("(now 0)\n(open 1 1)\n(place 1 0 0)\n(place 1 1 1)\n"), (15, 4));
    assert_eq!(saved("(now 0)\n(did 0 0 1)\n(did 0 0 0)\n"), (15, 3));
    assert_eq!(saved("(now 0)\n(did 0 0 1)\n(open 1 2)\n"), (15, 3));
}

/// 2026-04: "`move` and `place` take a fourth number e, 1 to 1000; left out means 0, and a
/// written 0 is 10 in either text"
#[test]
fn saved_places_with_an_error() {
    let place = |numbers: &str| saved(&format!("(now 0)\n(open 1 1)\n(place {numbers})\n"));
    for numbers in ["1 3 4 1", "1 -3 -4 1000", "1 -1000000 1000000 999", "1 0 0 7"] {
        assert_eq!(place(numbers), (0, 0), "{numbers}");
    }
    for numbers in [
        "1 3 4 0",
        "1 3 4 00",
        "1 3 4 01",
        "1 3 4 01000",
        "1 3 4 -1",
        "1 3 4 -0",
        "1 3 4 +1",
        "1 3 4 10000000000",
        "1 3 4 5 5",
        "1 3 4 5 0",
        "1 3 4 ",
        "1 3 4  5",
        "1 3 4 (5)",
        "32 3 4 0",
        "1 3 1000001 0",
    ] {
        assert_eq!(place(numbers), (10, 3), "{numbers}");
    }
    for numbers in ["1 3 4 1001", "1 3 4 4294967297", "1 3 4 9999999999", "32 3 4 5", "0 3 4 1001"]
    {
        assert_eq!(place(numbers), (11, 3), "{numbers}");
    }
    assert_eq!(place("0 3 4 5"), (15, 3));
    assert_eq!(place("2 3 4 5"), (16, 3));
}

/// An error is no part of a line's key: two places of a session are one too many.
#[test]
fn saved_places_of_one_session_with_another_error() {
    let twice = |first: &str, second: &str| {
        saved(&format!("(now 0)\n(open 1 1)\n(place {first})\n(place {second})\n"))
    };
    assert_eq!(twice("1 3 4", "1 3 4 5"), (15, 4));
    assert_eq!(twice("1 3 4 5", "1 3 4"), (15, 4));
    assert_eq!(twice("1 3 4 5", "1 3 4 6"), (15, 4));
    assert_eq!(twice("1 3 4 5", "1 3 4 5"), (15, 4));
    assert_eq!(twice("1 3 4 5", "1 3 4 1001"), (11, 4));
    assert_eq!(twice("1 3 4 5", "1 3 4 0"), (10, 4));
    assert_eq!(saved("(now 0)\n(place 1 3 4 5)\n"), (16, 2));
    assert_eq!(saved("(place 1 3 4 5)\n"), (15, 1));
}

/// "An unsure position satisfies neither side of an `at` rule."
#[test]
fn a_saved_position_that_is_unsure_breaks_either_side() {
    let rules = b"(rule 1 (at 3 (inside (circle 0 0 10))))\n\
        (rule 2 (at 4 (outside (circle 0 0 10))))\n";
    let rules = read_rules(rules).unwrap().rules;
    let read = |place: &str, role: u64| {
        let text = format!(
            "(now 0)\n(assigned 0 3)\n(assigned 0 4)\n(open 0 0)\n(place {place})\n\
             (active 0 {role})\n"
        );
        read_state(&rules, text.as_bytes())
            .map(|state| assert_eq!(write_state(&state), text.as_bytes()))
    };
    let broken = |rule| Err(Bad { number: 17, place: rule });
    assert_eq!(read("0 6 0 4", 3), Ok(()));
    assert_eq!(read("0 6 0 5", 3), broken(1));
    assert_eq!(read("0 6 0 5", 4), broken(2));
    assert_eq!(read("0 15 0 4", 4), Ok(()));
    assert_eq!(read("0 15 0 5", 4), broken(2));
    assert_eq!(read("0 15 0 5", 3), broken(1));
}

#[test]
fn saved_lines_without_what_they_stand_on() {
    assert_eq!(saved("(now 0)\n(place 1 0 0)\n"), (16, 2));
    assert_eq!(saved("(now 0)\n(open 0 0)\n(active 1 0)\n"), (16, 3));
    assert_eq!(saved("(now 0)\n(assigned 1 0)\n(open 0 0)\n(active 0 0)\n"), (16, 4));
    assert_eq!(saved("(now 0)\n(open 0 0)\n(place 0 0 0"), (10, 3));
}

/// Saved loans of role 0 by user 0, to as many others.
fn saved_loans(number: usize) -> String {
    let loans = (1..=number).map(|borrower| format!("(loan 0 {borrower} 0 100)\n"));
    "(now 0)\n(assigned 0 0)\n".to_string() + &loans.collect::<String>()
}

#[test]
fn saved_loans_and_what_they_stand_on() {
    let start = "(now 9)\n(assigned 5 1)\n(assigned 7 1)\n(granted 1 1)\n(loan 5 6 1 10)\n";
    let after = |lines: &str| saved(&format!("{start}{lines}"));
    assert_eq!(after("(loan 5 8 1 3155759999)\n(open 0 6)\n(active 0 1)\n"), (0, 0));
    assert_eq!(after("(loan 5 8 1)\n"), (10, 6));
    assert_eq!(after("(loan 5 8 1 010)\n"), (10, 6));
    assert_eq!(after("(loan 64 8 1 10)\n"), (11, 6));
    assert_eq!(after("(loan 5 64 1 10)\n"), (11, 6));
    assert_eq!(after("(loan 5 8 32 10)\n"), (11, 6));
    assert_eq!(after("(loan 5 8 1 3155760000)\n"), (11, 6));
    assert_eq!(after("(loan 5 6 1 11)\n"), (15, 6));
    assert_eq!(after("(loan 4 6 1 1)\n"), (15, 6));
    assert_eq!(after("(granted 2 2)\n"), (15, 6));
    assert_eq!(after("(open 0 6)\n(loan 7 8 1 10)\n"), (15, 7));
    assert_eq!(after("(loan 6 8 1 10)\n"), (16, 6));
    assert_eq!(after("(loan 7 6 1 10)\n"), (16, 6));
    assert_eq!(after("(loan 7 7 1 10)\n"), (16, 6));
    assert_eq!(after("(loan 5 7 1 10)\n"), (16, 6));
    assert_eq!(after("(loan 5 8 1 9)\n"), (16, 6));
    assert_eq!(after("(open 0 8)\n(active 0 1)\n"), (16, 7));
}

#[test]
fn a_thirty_third_saved_loan() {
    assert_eq!(saved(&saved_loans(32)), (0, 0));
    assert_eq!(saved(&saved_loans(33)), (51, 35));
    assert_eq!(saved(&(saved_loans(33) + "(")), (51, 35));
    for (line, number) in [
        ("(loan 0 33 0)\n", 10),
        ("(loan 0 33 0 3155760000)\n", 11),
        ("(loan 0 5 0 0)\n", 15),
        ("(loan 0 33 0 0)\n", 16),
        ("(loan 1 33 0 100)\n", 16),
        ("(loan 0 33 0 1)\n", 51),
    ] {
        assert_eq!(saved(&(saved_loans(32) + line)), (number, 35), "{line}");
    }
    let rules = read_rules(b"(rule 1 (max-users 0 1))\n").unwrap().rules;
    let refusal = |number| read_state(&rules, saved_loans(number).as_bytes()).unwrap_err();
    assert_eq!(refusal(32), Bad { number: 17, place: 1 });
    assert_eq!(refusal(33), Bad { number: 51, place: 35 });
}

#[test]
fn a_saved_state_that_breaks_rules() {
    let rules = b"(rule 1 (max-roles 2))\n(rule 2 (max-users 1 0))\n(rule 3 (max-roles 0))\n";
    let rules = read_rules(rules).unwrap().rules;
    let state = read_state(&rules, b"(now 0)\n(assigned 0 1)\n");
    assert_eq!(state, Err(Bad { number: 17, place: 2 }));
}

#[test]
fn steps_have_no_ranges_in_their_text() {
    assert!(steps_are_read(""));
    assert!(steps_are_read("(clock 9999999999)\n(move 99 -9999999999 0)\n"));
    assert!(steps_are_read("(move 1 3 4 1)\n(move 1 3 4 1000)\n(move 99 3 4 9999999999)\n"));
    assert!(steps_are_read("(lend 64 64 32 9999999999)\n(recall 64 9999999999 32)\n"));
    for text in [
        "(clock 99999999999)\n",
        "(clock -1)\n",
        "(clock 00)\n",
        "(move -1 0 0)\n",
        "(move 1 -0 0)\n",
        "(move 1 3 4 0)\n",
        "(move 99 3 4 0)\n",
        "(move 1 3 4 00)\n",
        "(move 1 3 4 05)\n",
        "(move 1 3 4 -5)\n",
        "(move 1 3 4 -0)\n",
        "(move 1 3 4 10000000000)\n",
        "(move 1 3 4 5 5)\n",
        "(move 1 3 4  5)\n",
        "(move 1 3 4 5 )\n",
        "(place 1 3 4 5)\n",
        "(lost 1 5)\n",
        "(clock 1)",
        "(steps)\n",
        "(lost)\n",
        "(lost 1) \n",
        " (lost 1)\n",
        "(lost 1)\r\n",
        "(lend 1 2 3)\n",
        "(lend 1 2 3 4 5)\n",
        "(lend 1 2 3 -4)\n",
        "(recall 1 2)\n",
        "(recall 1 2 3 4)\n",
        "(loan 1 2 3 4)\n",
    ] {
        assert_eq!(read_steps(text.as_bytes()), Err(Bad { number: 10, place: 1 }), "{text}");
    }
}

/// 2026-05: "Steps are written `(by 4 (assign 5 2))`"
#[test]
fn steps_with_an_acting_session() {
    for step in [
        "(assign 5 2)",
        "(withdraw 5 2)",
        "(grant 2 3)",
        "(take 2 3)",
        "(lend 5 6 2 100)",
        "(recall 5 6 2)",
        "(assign 9999999999 32)",
    ] {
        assert!(steps_are_read(&format!("(by 4 {step})\n(by 0 {step})\n(by 31 {step})\n")));
        assert!(steps_are_read(&format!("(by 32 {step})\n(by 9999999999 {step})\n")));
    }
}

/// "`by` before any other step, or before another `by`, is 10 in a text"
#[test]
fn steps_with_by_that_are_no_form() {
    for text in [
        "(by 4 (open 0 5))",
        "(by 4 (activate 0 5))",
        "(by 4 (deactivate 0 5))",
        "(by 4 (access 0 1 2))",
        "(by 4 (finish 0))",
        "(by 4 (close 4))",
        "(by 4 (move 4 1 2))",
        "(by 4 (move 4 1 2 3))",
        "(by 4 (lost 4))",
        "(by 4 (clock 5))",
        "(by 4 (by 4 (assign 5 2)))",
        "(by 4 (by 5 (assign 5 2)))",
        "(by 32 (clock 5))",
        "(by 4 (right assign 5))",
        "(by 4)",
        "(by 4 ())",
        "(by)",
        "(by (assign 5 2))",
        "(by (assign 5 2) 4)",
        "(by 4 assign 5 2)",
        "(by 4 (assign 5))",
        "(by 4 (assign 5 2 3))",
        "(by 4 (assign 05 2))",
        "(by 4 (assign -5 2))",
        "(by 4 (move 4 -0 2))",
        "(by 04 (assign 5 2))",
        "(by 00 (assign 5 2))",
        "(by -4 (assign 5 2))",
        "(by +4 (assign 5 2))",
        "(by 12345678901 (assign 5 2))",
        "(by 4 5 (assign 5 2))",
        "(by 4 (assign 5 2) (assign 6 2))",
        "(by 4 (assign 5 2)",
        "(by 4 (assign 5 2)))",
        "(by 4  (assign 5 2))",
        "(by 4(assign 5 2))",
        "(by 4 (assign 5 2) )",
        "(By 4 (assign 5 2))",
        "(4 (assign 5 2))",
        "by 4 (assign 5 2)",
    ] {
        let refusal = read_steps(format!("{text}\n").as_bytes());
        assert_eq!(refusal, Err(Bad { number: 10, place: 1 }), "{text}");
    }
    assert_eq!(read_steps(b"(by 4 (assign 5 2))"), Err(Bad { number: 10, place: 1 }));
}
