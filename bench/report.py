"""What was measured, as the table and the sentences of docs/SPEED.md."""
import math
import re
import textwrap
from typing import NamedTuple

import plot

PAGE = 'docs/SPEED.md'
PICTURE = 'docs/speed.svg'

RULE_COUNTS = [0, 8, 32, 128]
MIXED = [f'`run`, mixed list, {count} rules' for count in RULE_COUNTS]
HEAVY = '`run`, heavy list, 128 rules'
WITH_LOANS = '`run`, mixed list with loans, 128 rules'
# By their numbers in gates.rs.
LISTS = MIXED + [HEAVY, WITH_LOANS]

# "a mixed list of steps costs at most 1.6 times what a Rust gate with references that selects costs .., a list heavy in rules at most 1.0
# times .., and a Rust gate that tests every rule takes at least 5 and 4 times our time"
BARS = {MIXED[3]: 1.6, HEAVY: 1.0}
PLAIN_BARS = {MIXED[3]: 5, HEAVY: 4}
# "Texts: `respond` on a full input at most 2.5 times Rust, reading alone 3, a full saved state 4."
TEXT_BARS = [2.5, 3, 4]


class Found(NamedTuple):
    rounds: int
    processor: str
    compiler: str
    # Steps in a batch, and in a list.
    batch: int
    list_steps: int
    # Lists first, then the full input, the same only read, and the saved state.
    list_names: list
    text_names: list
    # How often each text is worked through in one run.
    text_times: list
    # The calls of the library for one step.
    call_names: list
    # Steps in the full input.
    input_steps: int
    # Of each work and side the seconds for one step, text or call.
    seconds: dict
    # Of some works and each side the most bytes held.
    memory: dict
    # Of each call and side the bytes that it copies.
    copied: dict
    # Of each work whether all its sides printed the same checksum.
    is_alike: dict


def printed(found):
    return '\n\n'.join(parts(found).values())


def write(found):
    page = read_page()
    for name, text in parts(found).items():
        page = re.sub(place(name), lambda match: match[1] + text + '\n' + match[2], page)
    with open(PAGE, 'w') as file:
        file.write(page)
    speeds = {side: [1 / found.seconds[name][side] for name in MIXED] for side in ('selecting', 'ours', 'plain')}
    with open(PICTURE, 'w') as file:
        file.write(plot.drawn(RULE_COUNTS, speeds))


def read_page():
    """The page, which has a place for each part."""
    with open(PAGE) as file:
        page = file.read()
    for name in PARTS:
        if len(re.findall(place(name), page)) != 1:
            raise SystemExit(f'{PAGE} has no place for {name}')
    return page


# The mark before a part and the one after it.
def place(name):
    return f'(?s)(<!-- {name}: written by bench/run -->\n).*?(<!-- end -->)'


# Without what stands in brackets.
def short(name):
    return name.split(' (')[0]


def paragraph(text):
    return textwrap.fill(text, 150, break_long_words=False, break_on_hyphens=False)


def parts(found):
    return {name: made(found) for name, made in PARTS.items()}


def table_part(found):
    return '\n\n'.join([paragraph(buffers(found)), paragraph(runs(found)), table(found)])


def buffers(found):
    return (f'Buffers are treated alike on each side. Steps and answers are cleared before each batch of {found.batch} steps. The space for what a '
            'text gives is cleared and written once before any time is taken, and then written over without clearing. No cache is cleared.')


def runs(found):
    times = ', '.join(map(str, found.text_times[:-1])) + f' and {found.text_times[-1]}'
    return (f'Each program was run {found.rounds} times, all in turn, {found.list_steps:,} steps a run, the texts {times} times. Shown is the '
            'best run by processor time, less the best run that only makes the list or works through the text once. Memory is the most that the whole '
            f'program held (VmHWM). Processor: {found.processor}. Rust: {found.compiler}, `-C opt-level=3`.')


def table(found):
    rows = [['work', 'unit', 'ours', 'Rust, selecting', 'Rust, plain', "ours to selecting's", "plain's to ours", 'checksums']]
    rows += [row(found, name, 'steps a second', lambda seconds: 1 / seconds) for name in found.list_names]
    rows += [row(found, name, 'ms', lambda seconds: seconds * 1e3) for name in found.text_names]
    for name, sides in found.memory.items():
        label = 'peak memory, ' + short(name)
        rows.append([label, 'MB'] + costs(sides, lambda held: held / 1e6, digits=2) + [''])
    return aligned(rows, range(2, 7))


# A table whose first row is its head; some columns hold numbers.
def aligned(rows, numbers):
    widths = [max(len(row[i]) for row in rows) for i in range(len(rows[0]))]
    line = ['-' * (width - 1) + ':' if i in numbers else '-' * width for i, width in enumerate(widths)]
    lines = []
    for cells in [rows[0], line] + rows[1:]:
        placed = [cell.rjust(width) if i in numbers else cell.ljust(width) for i, (cell, width) in enumerate(zip(cells, widths))]
        lines.append('| ' + ' | '.join(placed) + ' |')
    return '\n'.join(lines)


def row(found, name, unit, shown):
    return [name, unit] + costs(found.seconds[name], shown) + ['alike' if found.is_alike[name] else 'DIFFER']


# What each side costs, as it is shown, and the ratios of the costs.
def costs(sides, shown, digits=3):
    values = [rounded(shown(sides[side]), digits) if side in sides else '' for side in ('ours', 'selecting', 'plain')]
    pairs = [('ours', 'selecting'), ('plain', 'ours')]
    return values + [f'{sides[first] / sides[second]:.{digits - 1}f}' if first in sides else '' for first, second in pairs]


# So many digits count.
def rounded(value, digits=3):
    places = digits - 1 - math.floor(math.log10(value))
    return f'{round(value, places):,.{max(places, 0)}f}'


def bars(found):
    lines = []
    for name, most in BARS.items():
        ratio = ratio_of(found, name, 'ours', 'selecting')
        lines.append(f"- {name}: our time is {ratio:.2f} times the selecting gate's, at most {most} is wanted: {verdict(ratio <= most)}.")
    for name in BARS:
        ratio = ratio_of(found, name, 'plain', 'ours')
        lines.append(f"- {name}: the plain gate's time is {ratio:.2f} times ours, at least {PLAIN_BARS[name]} is wanted: {verdict(ratio >= PLAIN_BARS[name])}.")
    for name, most in zip(found.text_names, TEXT_BARS):
        ratio = ratio_of(found, name, 'ours', 'selecting')
        lines.append(f"- {name}: our time is {ratio:.2f} times Rust's, at most {most} is wanted: {verdict(ratio <= most)}.")
    return '\n'.join(lines)


def verdict(is_met):
    return 'met' if is_met else '**not met**'


def ratio_of(found, name, first, second):
    return found.seconds[name][first] / found.seconds[name][second]


def step_times(found):
    none, most, loans = [
        {side: found.seconds[name][side] * 1e9 for side in ('ours', 'selecting')} for name in (MIXED[0], MIXED[3], WITH_LOANS)]
    return paragraph(
        f'A mixed step takes us {none["ours"]:.0f} ns without rules and {most["ours"]:.0f} ns with {RULE_COUNTS[3]}; the selecting Rust gate takes '
        f'{none["selecting"]:.0f} and {most["selecting"]:.0f} ns. So we pay {none["ours"] - none["selecting"]:.0f} ns more at a step without rules, and '
        f'{most["ours"] - most["selecting"]:.0f} ns more with {RULE_COUNTS[3]}. With loans, and {RULE_COUNTS[3]} rules, a step takes us '
        f'{loans["ours"]:.0f} ns and the selecting Rust gate {loans["selecting"]:.0f} ns.')


def text_times(found):
    whole, once, saved = [found.seconds[name]['ours'] * 1e3 for name in found.text_names]
    steps = found.input_steps * found.seconds[MIXED[3]]['ours'] * 1e3
    return paragraph(
        f'A full input takes {rounded(whole)} ms. To read it once takes {rounded(once)} ms, and its steps are read twice; {found.input_steps:,} steps of the '
        f'mixed list take {rounded(steps)} ms through `run`. {whole - 2 * once - steps:.1f} ms are left for what `respond` does beyond that. A full saved state '
        f'takes {rounded(saved)} ms.')


def calls(found):
    sides = list(found.seconds[found.call_names[0]])
    rows = [['`pitch_gate_run_steps`', 'unit'] + sides + (['older to ours'] if len(sides) == 2 else [])]
    for name in found.call_names:
        for values, unit, scale in ((found.seconds[name], 'µs', 1e6), (found.copied[name], 'kB copied', 1e-3)):
            shown = [rounded(values[side] * scale) for side in sides]
            rows.append([name, unit] + shown + ([f'{values["older"] / values["ours"]:.2f}'] if len(sides) == 2 else []))
    return aligned(rows, range(2, len(rows[0])))


def behind(found):
    slower = [(name, ratio_of(found, name, 'ours', 'selecting')) for name in found.list_names + found.text_names]
    lines = ["Our time to Rust's, selecting, the largest first:", '']
    for name, ratio in sorted(slower, key=lambda pair: -pair[1]):
        lines.append(f'- {ratio:.2f}: {short(name)}')
    quicker = [str(count) for count, name in zip(RULE_COUNTS, MIXED) if ratio_of(found, name, 'plain', 'ours') < 1]
    lines += ['', f'The plain Rust gate is quicker than ours with this many rules: {", ".join(quicker)}.' if quicker
              else 'The plain Rust gate is nowhere quicker than ours.']
    return '\n'.join(lines)


# Each has its place in the page.
PARTS = {'table': table_part, 'bars': bars, 'steps': step_times, 'texts': text_times, 'calls': calls, 'behind': behind}
