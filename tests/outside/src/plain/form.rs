//! "One form a line, single spaces, line feed after each."

/// A word, or forms in parentheses.
pub enum Form<'text> {
    Word(&'text str),
    List(Vec<Form<'text>>),
}

/// The refusal of a text: its number, and the line (for 17 and 56 the rule).
#[derive(Clone, Copy, Debug, PartialEq, Eq)]
pub struct Bad {
    pub number: u64,
    pub place: u64,
}

/// An `at` rule is the deepest form: rule, at, side, shape.
const DEEPEST: usize = 4;

/// The lines of a text; one without its line feed, which can only be the
/// last, is None.
pub fn lines(text: &[u8]) -> impl Iterator<Item = Option<&[u8]>> {
    text.split_inclusive(|&byte| byte == b'\n').map(|line| line.strip_suffix(b"\n"))
}

pub fn read_form(line: Option<&[u8]>) -> Option<Form<'_>> {
    let line = std::str::from_utf8(line?).ok()?;
    let (form, rest) = read_item(line, DEEPEST)?;
    rest.is_empty().then_some(form)
}

impl<'text> Form<'text> {
    pub fn list(&self) -> Option<&[Form<'text>]> {
        match self {
            Form::Word(_) => None,
            Form::List(items) => Some(items),
        }
    }

    pub fn word(&self) -> Option<&'text str> {
        match self {
            Form::Word(word) => Some(word),
            Form::List(_) => None,
        }
    }
}

/// An item, and the text after it.
type Read<'text> = Option<(Form<'text>, &'text str)>;

fn read_item(text: &str, depth: usize) -> Read<'_> {
    match text.strip_prefix('(') {
        Some(items) => read_list(items, depth.checked_sub(1)?),
        None => read_word(text),
    }
}

fn read_list(text: &str, depth: usize) -> Read<'_> {
    let mut items = Vec::new();
    let mut rest = text;
    loop {
        let (item, after) = read_item(rest, depth)?;
        items.push(item);
        if let Some(after) = after.strip_prefix(')') {
            return Some((Form::List(items), after));
        }
        rest = after.strip_prefix(' ')?;
    }
}

fn read_word(text: &str) -> Read<'_> {
    let end = text.find([' ', '(', ')']).unwrap_or(text.len());
    (end > 0).then(|| (Form::Word(&text[..end]), &text[end..]))
}
