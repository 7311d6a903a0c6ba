/* One call of the library for a few steps, over and over: rules, saved state and steps in, answers and the next saved state out.
 *
 *     calls RULES STATE STEPS TIMES
 *
 * does it so often on these files and prints a checksum of what was written last. Compiled with COUNT, and with memcpy and memmove wrapped
 * by the linker, it prints the bytes that they copied in one call instead. */
#include <stdio.h>
#include <stdlib.h>
#include <string.h>

#include "pitch_gate.h"

enum { ROOM = 1 << 20 };

struct text {
    uint8_t bytes[ROOM];
    size_t length;
};

static struct text rules, state, steps;
static uint8_t answers[PITCH_GATE_OUTPUT_MOST], next[PITCH_GATE_STATE_MOST];
static struct pitch_gate_report report;

#ifdef COUNT
static uint64_t copied;

void *__real_memcpy(void *to, const void *from, size_t length);
void *__real_memmove(void *to, const void *from, size_t length);

void *__wrap_memcpy(void *to, const void *from, size_t length)
{
    copied += length;
    return __real_memcpy(to, from, length);
}

void *__wrap_memmove(void *to, const void *from, size_t length)
{
    copied += length;
    return __real_memmove(to, from, length);
}
#endif

static void load(const char *path, struct text *text)
{
    FILE *file = fopen(path, "rb");
    if (!file) {
        fprintf(stderr, "calls: cannot read %s\n", path);
        exit(2);
    }
    text->length = fread(text->bytes, 1, ROOM, file);
    fclose(file);
}

static void call(void)
{
    uint64_t number = pitch_gate_run_steps(rules.bytes, rules.length, state.bytes, state.length, steps.bytes, steps.length,
                                           answers, sizeof answers, next, sizeof next, &report);
    if (number != PITCH_GATE_CALL_COMPLETED) {
        fprintf(stderr, "calls: refused by %llu\n", (unsigned long long)number);
        exit(2);
    }
}

/* As in checksum.rs. */
static uint64_t added(uint64_t sum, uint64_t entry)
{
    return (sum % 1099511627776 * 65599 + entry % 1099511627776) % 1099511627776;
}

int main(int count, char **words)
{
    if (count != 5) {
        fprintf(stderr, "calls RULES STATE STEPS TIMES\n");
        return 2;
    }
    load(words[1], &rules);
    load(words[2], &state);
    load(words[3], &steps);
    for (long i = atol(words[4]); i > 0; i--)
        call();
#ifdef COUNT
    copied = 0;
    call();
    printf("%llu\n", (unsigned long long)copied);
#else
    uint64_t sum = 0;
    for (size_t i = 0; i < report.output; i++)
        sum = added(sum, answers[i]);
    for (size_t i = 0; i < report.state; i++)
        sum = added(sum, next[i]);
    printf("%llu\n", (unsigned long long)sum);
#endif
    return 0;
}
