//! 2026-05, "Who may change assignments": the kinds of step that a right line can name.

use std::collections::BTreeMap;

/// "assign, withdraw, grant, take, lend and recall held by named roles", "one line a kind in
/// that order"
#[derive(Clone, Copy, Debug, PartialEq, Eq, PartialOrd, Ord)]
pub enum RightKind {
    Assign,
    Withdraw,
    Grant,
    Take,
    Lend,
    Recall,
}

/// The permission that each kind with a right line needs.
pub type Rights = BTreeMap<RightKind, i64>;

impl RightKind {
    pub const ALL: [RightKind; 6] = [
        RightKind::Assign,
        RightKind::Withdraw,
        RightKind::Grant,
        RightKind::Take,
        RightKind::Lend,
        RightKind::Recall,
    ];

    pub fn name(self) -> &'static str {
        match self {
            RightKind::Assign => "assign",
            RightKind::Withdraw => "withdraw",
            RightKind::Grant => "grant",
            RightKind::Take => "take",
            RightKind::Lend => "lend",
            RightKind::Recall => "recall",
        }
    }

    pub fn named(name: &str) -> Option<RightKind> {
        RightKind::ALL.into_iter().find(|kind| kind.name() == name)
    }
}
