//! How long the texts can be, from the lengths of their forms.

/// The most bytes that are read of an input of [`respond`](crate::respond) and of steps.
pub const INPUT_MOST: usize = 65_536;

/// Bytes that hold any output of [`respond`](crate::respond) and the answers to any steps: the shortest step, `(lost 0)`, has 9
/// bytes with its line feed.
pub const OUTPUT_MOST: usize = 131_072;
const _: () = assert!(INPUT_MOST / "(lost 0)\n".len() * ANSWER_MOST <= OUTPUT_MOST);

/// Bytes that hold any one answer. The longest is `(no 30 128 128)`: a list has at most 128 rules. A granted one is shorter:
/// at most 32 times 32 pairs end, `(yes 128 1024)`.
pub const ANSWER_MOST: usize = "(no 30 128 128)\n".len();

/// Bytes that hold any saved state: every line that its forms allow is there, with the longest times, users, positions and errors. No line
/// stands twice (15), there are at most 32 loans (51), and where a loan's line stands, that of the borrower's assigned role does not
/// (16): so no text is longer.
pub const STATE_MOST: usize = "(now 3155759999)\n".len()
    + every("(assigned  )\n", &[USERS, ROLES])
    + every("(granted  )\n", &[ROLES, PERMISSIONS])
    + LOANS * ("(loan 63   3155759999)\n".len() - "(assigned  )\n".len())
    + every("(open  63)\n", &[SESSIONS])
    + every("(place  -1000000 -1000000 1000)\n", &[SESSIONS])
    + every("(active  )\n", &[SESSIONS, ROLES])
    + every("(did   )\n", &[OBJECTS, PERMISSIONS, USERS]);

/// Bytes that hold any rule list, a joined one too: a right line of each kind, and 128 rules, each on the outside of a box at the corner of
/// the grid whose coordinates are longest.
pub const RULES_MOST: usize =
    RIGHT_LINES.len() + numbered("(rule  (at 31 (outside (box -1000000 -1000000 -1000000 -1000000))))\n");

/// The six right lines, with the longest permissions.
const RIGHT_LINES: &str =
    "(right assign 31)\n(right withdraw 31)\n(right grant 31)\n(right take 31)\n(right lend 31)\n(right recall 31)\n";

/// Bytes that hold any policies: 128 lines of the longest form.
pub const POLICIES_MOST: usize = numbered(DEPENDENCY);

/// The longest policy line, with two roles of two digits. The other four are shorter.
const DEPENDENCY: &str = "PL: enable r31 if active r30 deactivation-dependency;\n";
const _: () = assert!("PL: assign-role r31 prerequisite r30;\n".len() < DEPENDENCY.len());
const _: () = assert!("PL: maxUsers = 64 only-for-role r31;\n".len() < DEPENDENCY.len());
const _: () = assert!("PL: maxRoles-User = 32;\n".len() < DEPENDENCY.len());
const _: () = assert!("PL: maxActiveRoles = 32;\n".len() < DEPENDENCY.len());

/// Bytes of the fresh state.
pub const FRESH_MOST: usize = "(now 0)\n".len();

/// No call takes more bytes of stack, but for what memcpy and memset take.
pub const STACK_MOST: usize = 131_072;

const RULES: usize = 128;

const USERS: usize = 64;
const ROLES: usize = 32;
const PERMISSIONS: usize = 32;
const SESSIONS: usize = 32;
const OBJECTS: usize = 32;
const LOANS: usize = 32;

/// The bytes of a form's lines, one for each choice of a number below each of `counts`; the form is given without them.
const fn every(form: &str, counts: &[usize]) -> usize {
    let mut lines = 1;
    let mut index = 0;
    while index < counts.len() {
        lines *= counts[index];
        index += 1;
    }
    let mut bytes = lines * form.len();
    index = 0;
    while index < counts.len() {
        bytes += lines / counts[index] * digits_below(counts[index]);
        index += 1;
    }
    bytes
}

/// The bytes of 128 lines of a form, numbered from 1; the form is given without the number.
const fn numbered(form: &str) -> usize {
    RULES * form.len() + digits_below(RULES + 1) - "0".len()
}

/// The digits of all numbers below `count`, which is at most 1000.
const fn digits_below(count: usize) -> usize {
    if count <= 10 {
        count
    } else if count <= 100 {
        10 + 2 * (count - 10)
    } else {
        190 + 3 * (count - 100)
    }
}
