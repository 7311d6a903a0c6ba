//! The rule list as a text.

use super::calendar::Term;
use super::form::{lines, read_form, Bad, Form};
use super::numbers::Numbers;
use super::places::{Shape, Side};
use super::ranges::{
    INTERVALS, MONTHS, OTHER_LIMITS, PERMISSIONS, RADII, ROLES, RULE_NUMBERS, USER_LIMITS,
    WEEKDAYS, WEEKS_OF_MONTH,
};
use super::rights::RightKind;
use super::rules::{Rule, RuleList};

enum Line {
    Right { kind: RightKind, permission: i64 },
    Rule { number: i64, rule: Rule },
}

pub fn read_rules(text: &[u8]) -> Result<RuleList, Bad> {
    read_list(text, add_line)
}

/// "the first bad line counts": no line after it is looked at.
pub fn read_list(
    text: &[u8],
    add: impl Fn(&mut RuleList, Option<&[u8]>) -> Result<(), u64>,
) -> Result<RuleList, Bad> {
    let mut list = RuleList::default();
    for (line, place) in lines(text).zip(1..) {
        add(&mut list, line).map_err(|number| Bad { number, place })?;
    }
    Ok(list)
}

/// "For each text line in order 10, 11, 12, 13, 14"
pub fn add_line(list: &mut RuleList, line: Option<&[u8]>) -> Result<(), u64> {
    let mut numbers = Numbers::default();
    let form = read_form(line).ok_or(10u64)?;
    let line = read_line(&form, &mut numbers).ok_or(10u64)?;
    if numbers.outside {
        return Err(11);
    }
    match line {
        Line::Right { kind, permission } => add_right(list, kind, permission),
        Line::Rule { number, rule } => add_rule(list, number, rule),
    }
}

/// 2026-05: "A right line that is second of its kind, out of order or after a rule is 12."
fn add_right(list: &mut RuleList, kind: RightKind, permission: i64) -> Result<(), u64> {
    let is_next = list.rights.keys().all(|&earlier| earlier < kind);
    if !is_next || !list.rules.is_empty() {
        return Err(12);
    }
    list.rights.insert(kind, permission);
    Ok(())
}

/// The rule is the next of the list, or refused with 12, 13 or 14.
pub fn add_rule(list: &mut RuleList, number: i64, rule: Rule) -> Result<(), u64> {
    let checks = [
        (12, number as usize != list.rules.len() + 1),
        (13, rule.names_one_twice()),
        (14, !rule.makes_sense()),
    ];
    match checks.iter().find(|(_, refuses)| *refuses) {
        Some(&(number, _)) => Err(number),
        None => {
            list.rules.push(rule);
            Ok(())
        }
    }
}

pub fn write_rules(list: &RuleList) -> Vec<u8> {
    let rights = list.rights.iter();
    let rights = rights.map(|(kind, permission)| format!("(right {} {permission})\n", kind.name()));
    let rules = list.rules.iter().enumerate();
    let rules = rules.map(|(index, rule)| format!("(rule {} {rule})\n", index + 1));
    rights.chain(rules).collect::<String>().into_bytes()
}

fn read_line(form: &Form, numbers: &mut Numbers) -> Option<Line> {
    match form.list()? {
        [Form::Word("right"), kind, permission] => Some(Line::Right {
            kind: RightKind::named(kind.word()?)?,
            permission: numbers.whole(permission, PERMISSIONS)?,
        }),
        [Form::Word("rule"), number, rule] => Some(Line::Rule {
            number: numbers.whole(number, RULE_NUMBERS)?,
            rule: read_rule(rule, numbers)?,
        }),
        _ => None,
    }
}

fn read_rule(form: &Form, numbers: &mut Numbers) -> Option<Rule> {
    let (Form::Word(family), fields) = form.list()?.split_first()? else { return None };
    match (*family, fields) {
        ("max-roles", [limit]) => {
            Some(Rule::MaxRoles { limit: numbers.whole(limit, OTHER_LIMITS)? })
        }
        ("max-active", [limit]) => {
            Some(Rule::MaxActive { limit: numbers.whole(limit, OTHER_LIMITS)? })
        }
        ("two-hands" | "same-hand", [permission, other]) => {
            let permission = numbers.whole(permission, PERMISSIONS)?;
            let other = numbers.whole(other, PERMISSIONS)?;
            match *family {
                "two-hands" => Some(Rule::TwoHands { permission, other }),
                _ => Some(Rule::SameHand { permission, other }),
            }
        }
        (family, [role, field]) => {
            let role = numbers.whole(role, ROLES)?;
            read_rule_of_role(family, role, field, numbers)
        }
        _ => None,
    }
}

fn read_rule_of_role(family: &str, role: i64, field: &Form, numbers: &mut Numbers) -> Option<Rule> {
    Some(match family {
        "max-users" => Rule::MaxUsers { role, limit: numbers.whole(field, USER_LIMITS)? },
        "max-permissions" => {
            Rule::MaxPermissions { role, limit: numbers.whole(field, OTHER_LIMITS)? }
        }
        "before" => Rule::Before { role, required: numbers.whole(field, ROLES)? },
        "apart" => Rule::Apart { role, other: numbers.whole(field, ROLES)? },
        "apart-active" => Rule::ApartActive { role, other: numbers.whole(field, ROLES)? },
        "needs" => Rule::Needs { role, needed: numbers.whole(field, ROLES)? },
        "during" => Rule::During { role, term: read_term(field, numbers)? },
        "at" => Rule::At { role, side: read_side(field, numbers)? },
        _ => return None,
    })
}

fn read_term(form: &Form, numbers: &mut Numbers) -> Option<Term> {
    Some(match form.list()? {
        [Form::Word("dates"), first, last] => {
            Term::Dates { first: numbers.date(first)?, last: numbers.date(last)? }
        }
        [Form::Word("week"), first, last, from, until] => Term::Week {
            first: numbers.whole(first, WEEKDAYS)?,
            last: numbers.whole(last, WEEKDAYS)?,
            from: numbers.clock(from, 0..=2359)?,
            until: numbers.clock(until, 1..=2400)?,
        },
        [Form::Word("months"), first, last] => Term::Months {
            first: numbers.whole(first, MONTHS)?,
            last: numbers.whole(last, MONTHS)?,
        },
        [Form::Word("nth"), week, weekday] => Term::Nth {
            week: numbers.whole(week, WEEKS_OF_MONTH)?,
            weekday: numbers.whole(weekday, WEEKDAYS)?,
        },
        [Form::Word("every"), interval, start] => Term::Every {
            interval: numbers.whole(interval, INTERVALS)?,
            start: numbers.date(start)?,
        },
        _ => return None,
    })
}

fn read_side(form: &Form, numbers: &mut Numbers) -> Option<Side> {
    match form.list()? {
        [Form::Word("inside"), shape] => read_shape(shape, numbers).map(Side::Inside),
        [Form::Word("outside"), shape] => read_shape(shape, numbers).map(Side::Outside),
        _ => None,
    }
}

fn read_shape(form: &Form, numbers: &mut Numbers) -> Option<Shape> {
    Some(match form.list()? {
        [Form::Word("circle"), x, y, radius] => {
            Shape::Circle { centre: numbers.position(x, y)?, radius: numbers.whole(radius, RADII)? }
        }
        [Form::Word("box"), left, bottom, right, top] => {
            Shape::Box { low: numbers.position(left, bottom)?, high: numbers.position(right, top)? }
        }
        _ => return None,
    })
}
