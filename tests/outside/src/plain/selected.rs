//! The last column of the table: the rules selected by a step.

use super::rules::Rule;
use super::steps::Action;

pub fn number_selected(rules: &[Rule], action: &Action) -> u64 {
    rules.iter().filter(|rule| selects(action, rule)).count() as u64
}

pub fn selects(action: &Action, rule: &Rule) -> bool {
    match *action {
        Action::Assign { role: given, .. } => {
            matches!(*rule, Rule::Before { role, .. } if role == given)
                || limits_who_holds(given, rule)
        }
        Action::Withdraw { role, .. } => {
            matches!(*rule, Rule::Before { required, .. } if required == role)
        }
        Action::Grant { role, .. } => {
            matches!(*rule, Rule::MaxPermissions { role: named, .. } if named == role)
        }
        Action::Take { .. } | Action::Open { .. } | Action::Finish { .. } => false,
        Action::Activate { role, .. } => selected_by_activate(role, rule),
        Action::Deactivate { role, .. } => {
            matches!(*rule, Rule::Needs { needed, .. } if needed == role)
        }
        Action::Access { permission: done, .. } => match *rule {
            Rule::TwoHands { permission, other } | Rule::SameHand { permission, other } => {
                done == permission || done == other
            }
            _ => false,
        },
        Action::Close { .. } => matches!(rule, Rule::Needs { .. }),
        Action::Move { .. } | Action::Lost { .. } => {
            matches!(rule, Rule::At { .. } | Rule::Needs { .. })
        }
        Action::Clock { .. } => matches!(rule, Rule::During { .. } | Rule::Needs { .. }),
        Action::Lend { role, .. } => limits_who_holds(role, rule),
        Action::Recall { .. } => matches!(rule, Rule::Needs { .. }),
    }
}

/// "max-users r, max-roles and apart naming r"
fn limits_who_holds(held: i64, rule: &Rule) -> bool {
    match *rule {
        Rule::MaxUsers { role, .. } => role == held,
        Rule::MaxRoles { .. } => true,
        Rule::Apart { role, other } => role == held || other == held,
        _ => false,
    }
}

fn selected_by_activate(added: i64, rule: &Rule) -> bool {
    match *rule {
        Rule::MaxActive { .. } => true,
        Rule::ApartActive { role, other } => role == added || other == added,
        Rule::Needs { role, .. } | Rule::During { role, .. } | Rule::At { role, .. } => {
            role == added
        }
        _ => false,
    }
}
