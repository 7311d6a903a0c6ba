/* What library/include/pitch_gate.h says of pointers, versions, causes, policies and joined lists, tried on the archive.
 *
 * Each call that is lent a text or a space of 0 bytes is made four times: with a pointer to a byte, with a null pointer, with a pointer
 * to a page that can be neither read nor written, and with a pointer to no page at all. All four must give the same number, the same report
 * and the same bytes in every space. */
#include "pitch_gate.h"

#include <stdio.h>
#include <stdlib.h>
#include <string.h>
#include <sys/mman.h>

#define EMPTY_POINTERS 4

struct text {
    const char *bytes;
    size_t length;
};

#define TEXT(literal) {literal, sizeof(literal) - 1}

static const struct text rules = TEXT("(rule 1 (needs 2 1))\n(rule 2 (apart 1 3))\n");
static const struct text state = TEXT("(now 0)\n(assigned 5 1)\n");
static const struct text steps = TEXT("(assign 5 3)\n(assign 6 2)\n");
static const struct text input = TEXT("(rule 1 (needs 2 1))\n(steps)\n(assign 5 1)\n");
static const struct text policies = TEXT("PL1: maxUsers = 3 only-for-role r4;\nPL2: enable r4 if active r2 deactivation-dependency;\n");
static const struct text policy_rules = TEXT("(rule 1 (max-users 4 3))\n(rule 2 (needs 4 2))\n");

static const struct text other_rules = TEXT("(right assign 30)\n(rule 1 (apart 1 3))\n(rule 2 (max-active 2))\n");
static const struct text joined_rules =
    TEXT("(right assign 30)\n(rule 1 (needs 2 1))\n(rule 2 (apart 1 3))\n(rule 3 (max-active 2))\n");

/* What a call gave: every byte is compared. */
struct outcome {
    uint64_t number;
    struct pitch_gate_report report;
    uint8_t first[256];
    uint8_t second[256];
};

static uint8_t *empty_pointers[EMPTY_POINTERS];
static unsigned tried;

static void make_empty_pointers(void);
static void try_calls(void);
static void try_runs(void);
static void try_policies(void);
static void try_joining(void);
static void compare(const char *call, const struct outcome outcomes[EMPTY_POINTERS]);
static void expect(const char *what, int holds);

int main(void)
{
    make_empty_pointers();
    expect("the version of the archive", pitch_gate_version() == PITCH_GATE_VERSION);
    expect("the cause of 13", strcmp(pitch_gate_cause(PITCH_GATE_SAME_TWICE), "same role or permission twice in a rule") == 0);
    expect("the cause of 53", strcmp(pitch_gate_cause(PITCH_GATE_ACTING_NOT_OPEN), "acting session not open") == 0);
    expect("the cause of 55",
           strcmp(pitch_gate_cause(PITCH_GATE_OUTSIDE_SUBSET), "policy line outside the subset of GEMRBAC-DSL") == 0);
    expect("the cause of 56",
           strcmp(pitch_gate_cause(PITCH_GATE_NO_POLICY_LINE), "rule or right line that has no policy line") == 0);
    expect("the cause of 57", strcmp(pitch_gate_cause(PITCH_GATE_JOINED_TOO_LONG), "joined lists have more than 128 rules") == 0);
    expect("the cause of 58",
           strcmp(pitch_gate_cause(PITCH_GATE_RIGHTS_DIFFER),
                  "two right lines of one kind with different permissions in the lists to be joined") == 0);
    expect("the cause of no number", strcmp(pitch_gate_cause(29), "a number that this header does not know") == 0);
    try_calls();
    try_runs();
    try_policies();
    try_joining();
    printf("%u calls with an empty text or space, each with %d pointers\n", tried, EMPTY_POINTERS);
    return EXIT_SUCCESS;
}

static void make_empty_pointers(void)
{
    static uint8_t byte = 0xa5;
    void *page = mmap(NULL, 4096, PROT_NONE, MAP_PRIVATE | MAP_ANONYMOUS, -1, 0);
    expect("a page", page != MAP_FAILED);
    empty_pointers[0] = &byte;
    empty_pointers[1] = NULL;
    empty_pointers[2] = (uint8_t *)page + 100;
    empty_pointers[3] = (uint8_t *)1;
}

/* Where a length is 0 the pointer is one of the empty ones. */
static const uint8_t *read_from(struct text text, uint8_t *empty)
{
    return text.length == 0 ? empty : (const uint8_t *)text.bytes;
}

static uint8_t *write_to(uint8_t *space, size_t length, uint8_t *empty)
{
    return length == 0 ? empty : space;
}

static struct outcome fresh_outcome(void)
{
    struct outcome outcome;
    memset(&outcome, 0xa5, sizeof outcome);
    return outcome;
}

/* Each call over one or two texts, with its text, its space or both empty. */
static void try_calls(void)
{
    static const char *const names[] = {"respond",     "check_rules",         "copy_rules",          "check_state", "copy_state",
                                        "fresh_state", "rules_from_policies", "policies_from_rules", "join_rules"};
    enum { CALLS = sizeof names / sizeof names[0] };
    for (unsigned choice = 0; choice < 8; choice++) {
        const struct text none = {NULL, 0};
        const struct text a_rules = choice & 1 ? none : rules;
        const struct text a_state = choice & 2 ? none : state;
        const struct text an_input = choice & 1 ? none : input;
        const struct text some_policies = choice & 1 ? none : policies;
        const struct text their_rules = choice & 1 ? none : policy_rules;
        const struct text more_rules = choice & 2 ? none : other_rules;
        const size_t room = choice & 4 ? 0 : 256;
        struct outcome of[CALLS][EMPTY_POINTERS];
        for (int i = 0; i < EMPTY_POINTERS; i++) {
            uint8_t *const empty = empty_pointers[i];
            const uint8_t *const list = read_from(a_rules, empty);
            const uint8_t *const saved = read_from(a_state, empty);
            for (int call = 0; call < CALLS; call++) {
                of[call][i] = fresh_outcome();
            }
            of[0][i].number = pitch_gate_respond(read_from(an_input, empty), an_input.length,
                                                 write_to(of[0][i].first, room, empty), room, &of[0][i].report);
            of[1][i].number = pitch_gate_check_rules(list, a_rules.length, &of[1][i].report);
            of[2][i].number = pitch_gate_copy_rules(list, a_rules.length, write_to(of[2][i].first, room, empty), room,
                                                    &of[2][i].report);
            of[3][i].number = pitch_gate_check_state(list, a_rules.length, saved, a_state.length, &of[3][i].report);
            of[4][i].number = pitch_gate_copy_state(list, a_rules.length, saved, a_state.length,
                                                    write_to(of[4][i].first, room, empty), room, &of[4][i].report);
            of[5][i].number = pitch_gate_fresh_state(write_to(of[5][i].first, room, empty), room, &of[5][i].report);
            of[6][i].number = pitch_gate_rules_from_policies(read_from(some_policies, empty), some_policies.length,
                                                             write_to(of[6][i].first, room, empty), room, &of[6][i].report);
            of[7][i].number = pitch_gate_policies_from_rules(read_from(their_rules, empty), their_rules.length,
                                                             write_to(of[7][i].first, room, empty), room, &of[7][i].report);
            of[8][i].number = pitch_gate_join_rules(list, a_rules.length, read_from(more_rules, empty), more_rules.length,
                                                    write_to(of[8][i].first, room, empty), room, &of[8][i].report);
        }
        for (int call = 0; call < CALLS; call++) {
            compare(names[call], of[call]);
        }
    }
}

/* Each choice of empty texts and spaces of a run of steps. */
static void try_runs(void)
{
    for (unsigned choice = 0; choice < 32; choice++) {
        const struct text none = {NULL, 0};
        const struct text a_rules = choice & 1 ? none : rules;
        const struct text a_state = choice & 2 ? none : state;
        const struct text some_steps = choice & 4 ? none : steps;
        const size_t answers_room = choice & 8 ? 0 : 256;
        const size_t next_room = choice & 16 ? 0 : 256;
        struct outcome of[EMPTY_POINTERS];
        for (int i = 0; i < EMPTY_POINTERS; i++) {
            uint8_t *const empty = empty_pointers[i];
            of[i] = fresh_outcome();
            of[i].number = pitch_gate_run_steps(
                read_from(a_rules, empty), a_rules.length, read_from(a_state, empty), a_state.length,
                read_from(some_steps, empty), some_steps.length, write_to(of[i].first, answers_room, empty), answers_room,
                write_to(of[i].second, next_room, empty), next_room, &of[i].report);
        }
        compare("run_steps", of);
    }
}

static int is_text(const uint8_t *bytes, uint64_t length, struct text text)
{
    return length == text.length && memcmp(bytes, text.bytes, text.length) == 0;
}

/* Both journeys in spaces that are always long enough, and a refusal of each. */
static void try_policies(void)
{
    static uint8_t list[PITCH_GATE_RULES_MOST];
    static uint8_t lines[PITCH_GATE_POLICIES_MOST];
    struct pitch_gate_report report;
    uint64_t number;

    number = pitch_gate_rules_from_policies((const uint8_t *)policies.bytes, policies.length, list, sizeof list, &report);
    expect("rules from policies", number == PITCH_GATE_CALL_COMPLETED && report.state == 0);
    expect("the rules of policies", is_text(list, report.output, policy_rules));
    number = pitch_gate_policies_from_rules(list, policy_rules.length, lines, sizeof lines, &report);
    expect("policies from rules", number == PITCH_GATE_CALL_COMPLETED && report.state == 0);
    expect("the policies of rules", is_text(lines, report.output, policies));

    number = pitch_gate_rules_from_policies((const uint8_t *)rules.bytes, rules.length, list, sizeof list, &report);
    expect("a rule list read as policies", number == PITCH_GATE_OUTSIDE_SUBSET && report.text == PITCH_GATE_TEXT_POLICIES);
    expect("the line and the lengths of 55", report.place == 1 && report.output == 0 && report.state == 0);
    number = pitch_gate_policies_from_rules((const uint8_t *)rules.bytes, rules.length, lines, sizeof lines, &report);
    expect("a rule without a policy line", number == PITCH_GATE_NO_POLICY_LINE && report.text == PITCH_GATE_TEXT_RULES);
    expect("the rule and the lengths of 56", report.place == 2 && report.output == 0 && report.state == 0);
}

/* Two lists joined in a space that is always long enough, and a refusal of each of them and of the two. */
static void try_joining(void)
{
    static const struct text other_right = TEXT("(right assign 31)\n");
    static uint8_t list[PITCH_GATE_RULES_MOST];
    const uint8_t *const first = (const uint8_t *)rules.bytes;
    const uint8_t *const second = (const uint8_t *)other_rules.bytes;
    struct pitch_gate_report report;
    uint64_t number;

    number = pitch_gate_join_rules(first, rules.length, second, other_rules.length, list, sizeof list, &report);
    expect("two lists joined", number == PITCH_GATE_CALL_COMPLETED && report.text == PITCH_GATE_TEXT_NONE && report.place == 0);
    expect("the joined list", is_text(list, report.output, joined_rules) && report.state == 0);

    number = pitch_gate_join_rules(first, rules.length - 1, second, other_rules.length, list, sizeof list, &report);
    expect("a bad first list", number == PITCH_GATE_NO_FORM && report.text == PITCH_GATE_TEXT_RULES && report.place == 2);
    number = pitch_gate_join_rules(first, rules.length, second, other_rules.length - 1, list, sizeof list, &report);
    expect("a bad second list", number == PITCH_GATE_NO_FORM && report.text == PITCH_GATE_TEXT_SECOND_RULES && report.place == 3);
    number = pitch_gate_join_rules(second, other_rules.length, (const uint8_t *)other_right.bytes, other_right.length, list,
                                   sizeof list, &report);
    expect("rights that differ", number == PITCH_GATE_RIGHTS_DIFFER && report.text == PITCH_GATE_TEXT_SECOND_RULES);
    expect("the line and the lengths of 58", report.place == 1 && report.output == 0 && report.state == 0);
    expect("the list that a refusal leaves", is_text(list, joined_rules.length, joined_rules));
}

static void compare(const char *call, const struct outcome outcomes[EMPTY_POINTERS])
{
    for (int i = 1; i < EMPTY_POINTERS; i++) {
        expect(call, memcmp(&outcomes[0], &outcomes[i], sizeof outcomes[0]) == 0);
    }
    expect("the byte that a pointer is to", *empty_pointers[0] == 0xa5);
    tried += 1;
}

static void expect(const char *what, int holds)
{
    if (!holds) {
        fprintf(stderr, "differs: %s\n", what);
        exit(EXIT_FAILURE);
    }
}
