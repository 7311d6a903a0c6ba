//! A refusal of a call: its number, the text that it is about, and the place in it.

use core::error::Error;
use core::fmt;

/// Why a call did nothing: it has run no step, so take it as no to every one of them. Every lent byte is as it was.
#[derive(Clone, Copy, Debug, PartialEq, Eq)]
#[non_exhaustive]
pub struct Refusal {
    /// 10 to 19, 51 or 55 to 58: [`cause`] has each in words.
    pub number: u64,
    pub text: Text,
    /// The line of that text, from 1; for 17 the rule; for 56 the rule, 0 for a right line; for 18 the bytes that the space needs; 0
    /// where there is none.
    pub place: u64,
}

/// What a refusal is about.
#[derive(Clone, Copy, Debug, PartialEq, Eq)]
#[non_exhaustive]
pub enum Text {
    /// The rule list; where two are joined, the first.
    Rules,
    State,
    Steps,
    /// The space lent for the answers, for the output of [`respond_into`](crate::respond_into), for a rule list or for policies.
    OutputSpace,
    /// The space lent for the saved state.
    StateSpace,
    Policies,
    /// The second of two rule lists that are joined.
    SecondRules,
    /// One that a later library reports and this crate does not know.
    Other(u64),
}

impl Text {
    pub(crate) fn of_report(text: u64) -> Text {
        match text {
            1 => Text::Rules,
            2 => Text::State,
            3 => Text::Steps,
            4 => Text::OutputSpace,
            5 => Text::StateSpace,
            6 => Text::Policies,
            7 => Text::SecondRules,
            other => Text::Other(other),
        }
    }
}

/// The cause of a number in words, of an answer's number (20 to 30, 50 to 54) too; none for a number without a cause.
pub fn cause(number: u64) -> Option<&'static str> {
    let cause = match number {
        10 => "line is no form of its text",
        11 => "number outside its range (rules, saved)",
        12 => "rule number not the next; right line second of its kind, out of order or after a rule",
        13 => "same role or permission twice in a rule",
        14 => "no such date, A after B, h = k, box a > c or b > d",
        15 => "saved line out of order or twice",
        16 => "place or active without its open, or role not held; a loan whose lender is not assigned the role, whose borrower holds it already, or whose time is not later than now",
        17 => "saved state breaks a rule",
        18 => "lent space shorter than the text or answers",
        19 => "program input too long",
        20 => "step's number, its kind's and its acting session's included, outside its range",
        21 => "t before the present time",
        22 => "session open",
        23 => "session not open",
        24 => "already held, granted, active in this session",
        25 => "not assigned, granted, active in this session, or no such loan",
        26 => "role not held by the session's user",
        27 => "role active in a session of the user, or lent out by him",
        28 => "no role active in the session carries the permission",
        30 => "a rule broken in the target",
        50 => "lender not assigned the role",
        51 => "32 loans run; a thirty-third saved loan",
        52 => "loan's time not later than now",
        53 => "acting session not open",
        54 => "right lacking: no acting session, or no role active in it carries the permission",
        55 => "policy line outside the subset of GEMRBAC-DSL",
        56 => "rule or right line that has no policy line",
        57 => "joined lists have more than 128 rules",
        58 => "two right lines of one kind with different permissions in the lists to be joined",
        _ => return None,
    };
    Some(cause)
}

impl fmt::Display for Text {
    fn fmt(&self, formatter: &mut fmt::Formatter<'_>) -> fmt::Result {
        match self {
            Text::Rules => formatter.write_str("the rule list"),
            Text::State => formatter.write_str("the saved state"),
            Text::Steps => formatter.write_str("the steps"),
            Text::OutputSpace => formatter.write_str("the space for the output"),
            Text::StateSpace => formatter.write_str("the space for the saved state"),
            Text::Policies => formatter.write_str("the policies"),
            Text::SecondRules => formatter.write_str("the second rule list"),
            Text::Other(text) => write!(formatter, "text {text}"),
        }
    }
}

/// For people: `refused with 13 in the rule list, line 2: same role or permission twice in a rule`.
impl fmt::Display for Refusal {
    fn fmt(&self, formatter: &mut fmt::Formatter<'_>) -> fmt::Result {
        let Refusal { number, text, place } = self;
        write!(formatter, "refused with {number} in {text}")?;
        match (number, place) {
            (_, 0) => {}
            (17 | 56, rule) => write!(formatter, ", rule {rule}")?,
            (18, bytes) => write!(formatter, ", which needs {bytes} bytes")?,
            (_, line) => write!(formatter, ", line {line}")?,
        }
        match cause(*number) {
            Some(cause) => write!(formatter, ": {cause}"),
            None => Ok(()),
        }
    }
}

impl Error for Refusal {}
