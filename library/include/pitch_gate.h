/* The pitch access gate as a library: rule lists, saved states and steps in, answers and saved states out.
 *
 * FORMATS.md, beside the folder of this header, has every text: the forms of rules, policies, saved states, steps and answers,
 * the ranges of their numbers, the order of saved lines, the epoch and the units. This header and that page are all that a
 * caller needs.
 *
 * A call decides nothing by itself
 *   A call returns a number: PITCH_GATE_CALL_COMPLETED (0), or why it refused. Completed says that the texts were read and
 *   the results written, and nothing of any step: whether a step was granted stands in its answer line, `(yes ..)` or
 *   `(no ..)`. So
 *
 *       if (pitch_gate_run_steps(..) == PITCH_GATE_CALL_COMPLETED) release();      WRONG: releases on every `no`
 *
 *   Read the answers, a line for each step. A refused call has run no step: take it as no to every one of them.
 *
 * How a hub uses it
 *   - It keeps the rule list and the saved state as texts. Each request is a call of pitch_gate_run_steps with both and one
 *     or more steps; the saved state that it writes goes into the next call.
 *   - It stores that state before it acts on a `(yes ..)`. Otherwise a loss of power between the two forgets the access,
 *     and with it who did what on which object.
 *   - After a restart it goes on from the state that it stored last, and its first step is a `(clock t)`. Before the first
 *     run ever it starts from pitch_gate_fresh_state.
 *   - Time stands still between clocks. Hours are looked at when a `(clock t)` comes and when a role is activated, and at no
 *     other time; a loan ends when a clock reaches its time, and not before. So give a clock at each start and end of hours, at
 *     the end of each loan, and one before each activation; more often does no harm. A time before the state's own is 21. A
 *     time too far ahead cannot be taken back.
 *   - A saved text that was cut is not noticed where it is cut after a line feed: each beginning of a saved text that ends
 *     so may be a saved text itself. Store its length or a checksum beside it.
 *   - After a handover only one end may go on from the state: the library cannot see that two did.
 *   - Where the rule list has right lines, `(by s ..)` names the session that acts. The library cannot see who sent a step: the
 *     hub writes the session of whoever asked, and lets nobody write another's. Under all six right lines nothing can be assigned
 *     from the fresh state: start from a saved state in which somebody has the rights.
 *   - Policies, rules in the language GEMRBAC-DSL, are for the desk. It makes the rule list of them once, by
 *     pitch_gate_rules_from_policies, and the hub gets that list: no other function reads policies.
 *   - Where the desk and the hub have had a rule list each, pitch_gate_join_rules makes the one list that both then run. A state that
 *     was saved under one of the two may break a rule of the other: try it under the joined list, by pitch_gate_check_state, before
 *     anybody goes on from it.
 *
 * What a call promises, whatever bytes the texts hold
 *   - It ends, and is a function of the bytes that it is lent: no heap, no threads, no global state, no input or output.
 *   - It fills every field of `report`, on a refusal too.
 *   - Completed, it has written each text whole, from the first byte of its space on; bytes past it stay.
 *   - Refused, it has left every byte of every lent space, and both lengths in `report` are 0.
 *   - It never writes what it is lent as `const`.
 *   That each function meets its contract is proved; the proof ends at the machine code, which is tested (tests/).
 *
 * What it assumes of its caller, and cannot see
 *   - Each pointer has as many bytes as its length says. Beside a length of 0 any pointer will do, a null pointer too: it is
 *     not read and not written (tests/library).
 *   - `report` is not null.
 *   - A lent space and `report` overlap nothing else that is lent to the same call. In particular `next` is not `state`: use
 *     two spaces and change them over. Where this is broken the call promises nothing at all, not even to write the lent
 *     bytes alone.
 *   - Nobody else writes the lent bytes during the call.
 *   Texts that are only read may overlap, and calls in different threads may read the same ones at the same time.
 *
 * Platform
 *   x86-64 Linux, the System V calling convention, 64-bit pointers; no instruction beyond the baseline of x86-64. Of its
 *   linker it needs memcpy and memset (a later build may need memmove and memcmp), and no other symbol. Less than 128 KiB of
 *   code and tables, no data that is written. Stack: PITCH_GATE_STACK_MOST. The archive is
 *   crates/pitch_gate/out/libpitch_gate.a, which `rt lib --cpu=x86-64`, run in crates/pitch_gate, proves and writes.
 *   Cost of a call, as measured with an older compiler on one core of a server (docs/SPEED.md says how): one step takes about
 *   10 microseconds with 7 rules and a saved state of 15 lines, 30 with 128 rules, and 6 milliseconds with 128 rules and a
 *   full saved state. Nearly all of it is reading and writing the texts; a further step in the same call takes less than a
 *   microsecond.
 *
 * Version
 *   PITCH_GATE_VERSION is 10,000 times the major version, 100 times the minor one, and the third number. With the same major
 *   version what works goes on working: a call on texts that were accepted answers the same, saved states and rule lists
 *   come back as they were, no function, field, number or text changes its meaning. A higher minor version may add functions,
 *   forms of lines, numbers and texts, and take more stack: treat a number that you do not know as a refusal. A higher third
 *   number changes nothing that is said here. So a caller may start where
 *   pitch_gate_version() / 10000 == PITCH_GATE_VERSION / 10000 and pitch_gate_version() >= PITCH_GATE_VERSION.
 *   The texts of version 1 are read, and mean what they meant but for one: a term (week a b h k) with h > k now belongs to the
 *   day on which the shift begins. Under such a rule a state that version 1 saved may be 17. All ends that share records take
 *   the same major version. Version 2.1 adds (move s x y e) and (place s x y e), a position known to e metres: both are 10 to
 *   2.0, so take 2.1 at every end before the first e is sent. Version 2.2 adds right lines, (right assign 30), and steps with an
 *   acting session, (by s (assign u r)), with the numbers 53 and 54: both lines are 10 to 2.1, so take 2.2 at every end before the
 *   first of them is sent. Version 2.3 adds pitch_gate_rules_from_policies and pitch_gate_policies_from_rules, with the numbers 55
 *   and 56. No text of 2.2 changes its meaning, and nothing new is sent between ends: policies are for the desk, rule lists and
 *   saved states stay as they are. So the desk alone may take 2.3. Version 2.4 adds pitch_gate_join_rules, with the numbers 57 and 58
 *   and the text 7. No text of 2.3 changes its meaning, and a joined list is a rule list like any other: whoever joins, alone, may
 *   take 2.4.
 */
#ifndef PITCH_GATE_H
#define PITCH_GATE_H

#include <stddef.h>
#include <stdint.h>

#ifdef __cplusplus
extern "C" {
#endif

#define PITCH_GATE_VERSION 20400 /* 2.4.0 */

/* The version of the archive that is linked, as PITCH_GATE_VERSION is of this header. */
uint64_t pitch_gate_version(void);

/* The number that a call returns, or that an answer line holds. Each refusal has one number, and each number one cause. */
enum pitch_gate_number {
    PITCH_GATE_CALL_COMPLETED = 0, /* no refusal of the call: read what it wrote */

    /* returned by the functions below */
    PITCH_GATE_NO_FORM = 10,                   /* line is no form of its text */
    PITCH_GATE_NUMBER_OUT_OF_RANGE = 11,       /* number outside its range (rules, saved) */
    PITCH_GATE_RULE_NOT_NEXT = 12,             /* rule number not the next; right line second of its kind, out of order or after a rule */
    PITCH_GATE_SAME_TWICE = 13,                /* same role or permission twice in a rule */
    PITCH_GATE_TERM_OR_SHAPE_UNSOUND = 14,     /* no such date, A after B, h = k, box a > c or b > d */
    PITCH_GATE_OUT_OF_ORDER = 15,              /* saved line out of order or twice */
    PITCH_GATE_EARLIER_LINE_MISSING = 16,      /* place or active without its open, or role not held; a loan whose lender is not assigned the role, whose borrower holds it already, or whose time is not later than now */
    PITCH_GATE_STATE_BREAKS_RULE = 17,         /* saved state breaks a rule */
    PITCH_GATE_SPACE_TOO_SHORT = 18,           /* lent space shorter than the text or answers */
    PITCH_GATE_INPUT_TOO_LONG = 19,            /* program input too long */

    /* in the answer to a step, `(no number rule selected)`; of these 51 alone is also returned, for a saved state */
    PITCH_GATE_STEP_OUT_OF_RANGE = 20,         /* step's number, its kind's and its acting session's included, outside its range */
    PITCH_GATE_TIME_PAST = 21,                 /* t before the present time */
    PITCH_GATE_SESSION_OPEN = 22,              /* session open */
    PITCH_GATE_SESSION_NOT_OPEN = 23,          /* session not open */
    PITCH_GATE_ALREADY_THERE = 24,             /* already held, granted, active in this session */
    PITCH_GATE_NOT_THERE = 25,                 /* not assigned, granted, active in this session, or no such loan */
    PITCH_GATE_NOT_ASSIGNED = 26,              /* role not held by the session's user */
    PITCH_GATE_ROLE_ACTIVE = 27,               /* role active in a session of the user, or lent out by him */
    PITCH_GATE_NOT_CARRIED = 28,               /* no role active in the session carries the permission */
    PITCH_GATE_RULE_BROKEN = 30,               /* a rule broken in the target */
    PITCH_GATE_LENDER_NOT_ASSIGNED = 50,       /* lender not assigned the role */
    PITCH_GATE_TOO_MANY_LOANS = 51,            /* 32 loans run; a thirty-third saved loan */
    PITCH_GATE_LOAN_NOT_LATER = 52,            /* loan's time not later than now */
    PITCH_GATE_ACTING_NOT_OPEN = 53,           /* acting session not open */
    PITCH_GATE_RIGHT_LACKING = 54,             /* right lacking: no acting session, or no role active in it carries the permission */

    /* returned by the two functions on policies, and by no other */
    PITCH_GATE_OUTSIDE_SUBSET = 55,            /* policy line outside the subset of GEMRBAC-DSL */
    PITCH_GATE_NO_POLICY_LINE = 56,            /* rule or right line that has no policy line */

    /* returned by pitch_gate_join_rules, and by no other function */
    PITCH_GATE_JOINED_TOO_LONG = 57,           /* joined lists have more than 128 rules */
    PITCH_GATE_RIGHTS_DIFFER = 58              /* two right lines of one kind with different permissions in the lists to be joined */
};

/* The cause of a number in words, for people and logs. */
static inline const char *pitch_gate_cause(uint64_t number)
{
    switch (number) {
    case 0: return "the call completed";
    case 10: return "line is no form of its text";
    case 11: return "number outside its range (rules, saved)";
    case 12: return "rule number not the next; right line second of its kind, out of order or after a rule";
    case 13: return "same role or permission twice in a rule";
    case 14: return "no such date, A after B, h = k, box a > c or b > d";
    case 15: return "saved line out of order or twice";
    case 16: return "place or active without its open, or role not held; a loan whose lender is not assigned the role, whose borrower holds it already, or whose time is not later than now";
    case 17: return "saved state breaks a rule";
    case 18: return "lent space shorter than the text or answers";
    case 19: return "program input too long";
    case 20: return "step's number, its kind's and its acting session's included, outside its range";
    case 21: return "t before the present time";
    case 22: return "session open";
    case 23: return "session not open";
    case 24: return "already held, granted, active in this session";
    case 25: return "not assigned, granted, active in this session, or no such loan";
    case 26: return "role not held by the session's user";
    case 27: return "role active in a session of the user, or lent out by him";
    case 28: return "no role active in the session carries the permission";
    case 30: return "a rule broken in the target";
    case 50: return "lender not assigned the role";
    case 51: return "32 loans run; a thirty-third saved loan";
    case 52: return "loan's time not later than now";
    case 53: return "acting session not open";
    case 54: return "right lacking: no acting session, or no role active in it carries the permission";
    case 55: return "policy line outside the subset of GEMRBAC-DSL";
    case 56: return "rule or right line that has no policy line";
    case 57: return "joined lists have more than 128 rules";
    case 58: return "two right lines of one kind with different permissions in the lists to be joined";
    default: return "a number that this header does not know";
    }
}

/* What a refusal is about. */
enum pitch_gate_text {
    PITCH_GATE_TEXT_NONE = 0,         /* the call completed */
    PITCH_GATE_TEXT_RULES = 1,        /* the rule list; where two are joined, the first */
    PITCH_GATE_TEXT_STATE = 2,        /* the saved state */
    PITCH_GATE_TEXT_STEPS = 3,        /* the steps */
    PITCH_GATE_TEXT_OUTPUT_SPACE = 4, /* the space lent for the answers, the output, a rule list or policies */
    PITCH_GATE_TEXT_STATE_SPACE = 5,  /* the space lent for the saved state */
    PITCH_GATE_TEXT_POLICIES = 6,     /* the policies */
    PITCH_GATE_TEXT_SECOND_RULES = 7  /* the second of two rule lists that are joined */
};

/* What each call fills in. */
struct pitch_gate_report {
    uint64_t text;   /* what the refusal is about: one of pitch_gate_text */
    uint64_t place;  /* the line of that text, from 1; for 17 the rule; for 56 the rule, 0 for a right line; for 18 the bytes that the
                        space needs; else 0 */
    uint64_t output; /* bytes written of the answers, the output, a rule list or policies */
    uint64_t state;  /* bytes written of the saved state */
};

#ifdef __cplusplus
static_assert(sizeof(struct pitch_gate_report) == 32, "the library fills four numbers of 64 bits");
#else
_Static_assert(sizeof(struct pitch_gate_report) == 32, "the library fills four numbers of 64 bits");
#endif

/* The most bytes that are read: the input of pitch_gate_respond, the steps of pitch_gate_run_steps. */
#define PITCH_GATE_INPUT_MOST 65536

/* No accepted text is longer. */
#define PITCH_GATE_RULES_MOST 9085    /* a rule list: six right lines and 128 boxes */
#define PITCH_GATE_POLICIES_MOST 7188 /* policies: 128 lines `PLn: enable r31 if active r30 deactivation-dependency;`, which is 128 times 54 bytes and the 276 digits of 1 to 128 */
#define PITCH_GATE_STATE_MOST 997981  /* a saved state: every role assigned or lent, 32 of them lent, the longest times, users, positions and errors */

/* Spaces that are always long enough; for a saved state PITCH_GATE_STATE_MOST, for a rule list, a joined one too,
 * PITCH_GATE_RULES_MOST, for policies PITCH_GATE_POLICIES_MOST. */
#define PITCH_GATE_OUTPUT_MOST 131072 /* the output of pitch_gate_respond, the answers of pitch_gate_run_steps */
#define PITCH_GATE_ANSWER_MOST 16     /* the answer to one step: `(no 30 128 128)` and its line feed */
#define PITCH_GATE_FRESH_MOST 8       /* the fresh state: `(now 0)` and its line feed */

/* No call takes more bytes of stack, but for what memcpy and memset take: tests/stack finds it in the archive. */
#define PITCH_GATE_STACK_MOST 131072

/* Reads a rule list, a saved state and steps, runs the steps from that state, and writes an answer line for each step,
 * `(yes selected ended)` or `(no number rule selected)`, and the saved state after the last.
 * Refused, in this order: 19 where the steps are above PITCH_GATE_INPUT_MOST bytes; what pitch_gate_check_state refuses; 10
 * of the steps with the first bad line; 18 where the space for the answers is too short (with PITCH_GATE_OUTPUT_MOST bytes
 * never); 18 where the space for the state is (with PITCH_GATE_STATE_MOST bytes never).
 * A step that is answered `no` is no refusal of the call. */
uint64_t pitch_gate_run_steps(const uint8_t *rules, size_t rules_length, const uint8_t *state, size_t state_length,
                              const uint8_t *steps, size_t steps_length, uint8_t *answers, size_t answers_length,
                              uint8_t *next, size_t next_length, struct pitch_gate_report *report);

/* Writes the fresh state, `(now 0)`. Refused: 18 where the space is shorter than PITCH_GATE_FRESH_MOST bytes. */
uint64_t pitch_gate_fresh_state(uint8_t *state, size_t state_length, struct pitch_gate_report *report);

/* Reads a rule list. Refused: 10 to 14 with the first bad line. */
uint64_t pitch_gate_check_rules(const uint8_t *rules, size_t rules_length, struct pitch_gate_report *report);

/* Reads a rule list and writes it again: the same bytes. Refused: what pitch_gate_check_rules refuses; then 18 where the space
 * is shorter than the list. */
uint64_t pitch_gate_copy_rules(const uint8_t *rules, size_t rules_length, uint8_t *copy, size_t copy_length,
                               struct pitch_gate_report *report);

/* Reads policies and writes them as a rule list: line n becomes rule n. The policies of that list, by
 * pitch_gate_policies_from_rules, are the same bytes.
 * Refused, in this order: 55, 11, 12 or 13 of the policies with their first bad line; 18 where the space for the rules is too short
 * (with PITCH_GATE_RULES_MOST bytes never). 55 stands in the place of 10. */
uint64_t pitch_gate_rules_from_policies(const uint8_t *policies, size_t policies_length, uint8_t *rules, size_t rules_length,
                                        struct pitch_gate_report *report);

/* Reads a rule list and writes it as policies: rule n becomes line n. The rule list of those policies, by
 * pitch_gate_rules_from_policies, is the same bytes.
 * Refused, in this order: what pitch_gate_check_rules refuses; 56 with the lowest rule that has no policy line, or with 0 where the
 * list has a right line; 18 where the space for the policies is too short (with PITCH_GATE_POLICIES_MOST bytes never). */
uint64_t pitch_gate_policies_from_rules(const uint8_t *rules, size_t rules_length, uint8_t *policies, size_t policies_length,
                                        struct pitch_gate_report *report);

/* Reads two rule lists and writes the joined one: the right lines of either, equal ones once; then the rules of the first, as they
 * are; then in turn each rule of the second that, its number aside, equals none already there, with the next number. Two rules are
 * equal when their lines are, number aside: (apart 1 2) and (apart 2 1) are two. A rule that stands twice in the first list stays
 * twice; one that stands twice in the second is joined once. A saved state obeys the joined list just if it obeys both.
 * Refused, in this order: 10 to 14 of the first list with its first bad line; 10 to 14 of the second with its first bad line; 58 with
 * the second's first right line that has another permission than the first's line of its kind; 57 with the second's line whose rule
 * would be the joined list's 129th; 18 where the space for the joined list is too short (with PITCH_GATE_RULES_MOST bytes never).
 * All that is refused with a line of the second list has the text PITCH_GATE_TEXT_SECOND_RULES. */
uint64_t pitch_gate_join_rules(const uint8_t *first, size_t first_length, const uint8_t *second, size_t second_length,
                               uint8_t *joined, size_t joined_length, struct pitch_gate_report *report);

/* Reads a rule list and a saved state under it. Refused, in this order: 10 to 14 of the rules; 10, 11, 15, 16 or 51 of the saved
 * state with its first bad line; 17 with the lowest rule that the state breaks. */
uint64_t pitch_gate_check_state(const uint8_t *rules, size_t rules_length, const uint8_t *state, size_t state_length,
                                struct pitch_gate_report *report);

/* Reads as pitch_gate_check_state, then writes the state that was read: the same bytes. Refused: what pitch_gate_check_state
 * refuses; then 18 where the space is shorter than the saved state. */
uint64_t pitch_gate_copy_state(const uint8_t *rules, size_t rules_length, const uint8_t *state, size_t state_length,
                               uint8_t *copy, size_t copy_length, struct pitch_gate_report *report);

/* The program `gate` as a function. Reads rules, `(steps)` and steps, runs the steps from a fresh state and writes what the
 * program prints: an answer line for each step, or only `(bad number line)`. A bad input is no refusal of the call: its line
 * is the output; so is `(bad 19 0)` for an input above PITCH_GATE_INPUT_MOST bytes.
 * Refused: 18 where the output is longer than the space (with PITCH_GATE_OUTPUT_MOST bytes never). */
uint64_t pitch_gate_respond(const uint8_t *input, size_t input_length, uint8_t *output, size_t output_length,
                            struct pitch_gate_report *report);

#ifdef __cplusplus
}
#endif

#endif
