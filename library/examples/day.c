/* A day at the turbine through the library: the desk prepares it and saves its state, the hub cabinet goes on from the saved text.
 * library/examples/README.md says who is who and what each step means. From the repository's root:
 *
 *   mkdir -p target
 *   cc -std=c11 -I library/include library/examples/day.c crates/pitch_gate/out/libpitch_gate.a -o target/day &&
 *       target/day < library/examples/day.in
 */
#include "pitch_gate.h"

#include <stdio.h>
#include <stdlib.h>
#include <string.h>

enum { DESK_STEPS = 12 };

struct text {
    const uint8_t *bytes;
    size_t length;
};

static uint8_t input[PITCH_GATE_INPUT_MOST];
static uint8_t answers[PITCH_GATE_OUTPUT_MOST];
static uint8_t desk_state[PITCH_GATE_STATE_MOST];
static uint8_t hub_state[PITCH_GATE_STATE_MOST];

static struct text run(const char *place, struct text rules, struct text state, struct text steps, uint8_t *next);
static struct text first_lines(struct text text, size_t lines);
static struct text rest_after(struct text text, struct text part);
static struct text until_steps(struct text text);
static void print_beside(struct text steps, struct text answered);
static void stop(uint64_t number, const struct pitch_gate_report *report);

int main(void)
{
    const struct text whole = {input, fread(input, 1, sizeof input, stdin)};
    const struct text rules = until_steps(whole);
    const struct text steps_line = first_lines(rest_after(whole, rules), 1);
    const struct text steps = rest_after(whole, (struct text){whole.bytes, rules.length + steps_line.length});
    const struct text at_desk = first_lines(steps, DESK_STEPS);

    uint8_t fresh[PITCH_GATE_FRESH_MOST];
    struct pitch_gate_report report;
    const uint64_t number = pitch_gate_fresh_state(fresh, sizeof fresh, &report);
    if (number != PITCH_GATE_CALL_COMPLETED) {
        stop(number, &report);
    }
    const struct text start = {fresh, report.state};

    const struct text saved = run("at the desk", rules, start, at_desk, desk_state);
    run("in the hub", rules, saved, rest_after(steps, at_desk), hub_state);
    return EXIT_SUCCESS;
}

/* Runs the steps, prints each beside its answer, then the saved state, and returns it. A hub would store that state before it acts on
 * a `(yes ..)`. */
static struct text run(const char *place, struct text rules, struct text state, struct text steps, uint8_t *next)
{
    struct pitch_gate_report report;
    const uint64_t number =
        pitch_gate_run_steps(rules.bytes, rules.length, state.bytes, state.length, steps.bytes, steps.length, answers,
                             sizeof answers, next, PITCH_GATE_STATE_MOST, &report);
    if (number != PITCH_GATE_CALL_COMPLETED) {
        stop(number, &report);
    }
    const struct text saved = {next, report.state};
    printf("Steps %s:\n", place);
    print_beside(steps, (struct text){answers, report.output});
    printf("State saved %s:\n%.*s\n", place, (int)saved.length, (const char *)saved.bytes);
    return saved;
}

static void print_beside(struct text steps, struct text answered)
{
    while (steps.length > 0 && answered.length > 0) {
        const struct text step = first_lines(steps, 1);
        const struct text answer = first_lines(answered, 1);
        printf("%-20.*s %.*s", (int)step.length - 1, (const char *)step.bytes, (int)answer.length,
               (const char *)answer.bytes);
        steps = rest_after(steps, step);
        answered = rest_after(answered, answer);
    }
}

static struct text until_steps(struct text text)
{
    static const char line[] = "(steps)\n";
    const size_t line_length = sizeof line - 1;
    struct text rest = text;
    while (rest.length >= line_length && memcmp(rest.bytes, line, line_length) != 0) {
        rest = rest_after(rest, first_lines(rest, 1));
    }
    return (struct text){text.bytes, text.length - rest.length};
}

static struct text first_lines(struct text text, size_t lines)
{
    size_t length = 0;
    while (length < text.length && lines > 0) {
        if (text.bytes[length] == '\n') {
            lines -= 1;
        }
        length += 1;
    }
    return (struct text){text.bytes, length};
}

static struct text rest_after(struct text text, struct text part)
{
    return (struct text){text.bytes + part.length, text.length - part.length};
}

static void stop(uint64_t number, const struct pitch_gate_report *report)
{
    static const char *const texts[] = {"nothing",   "the rule list",      "the saved state",
                                        "the steps", "the output's space", "the state's space"};
    const char *const text = report->text < sizeof texts / sizeof texts[0] ? texts[report->text] : "another text";
    fprintf(stderr, "refused with %llu in %s at %llu: %s\n", (unsigned long long)number, text,
            (unsigned long long)report->place, pitch_gate_cause(number));
    exit(EXIT_FAILURE);
}
