"""Runs each work on each side and reports: see bench/run."""
import fcntl
import os
import subprocess
import sys
import time
from typing import NamedTuple

import report
import sample_texts

# So many rounds, or fewer where they take longer than these seconds; never fewer than three.
MOST_ROUNDS = 15
SECONDS = 80
BATCH = 256
# A multiple of 128 below 4096: how crates/enforcement_speed takes it.
BATCHES = 1024
FOLDER = 'target/bench'
OURS = {'lists': 'crates/enforcement_speed/out/enforcement_speed', 'texts': 'crates/text_speed/out/text_speed'}


class Command(NamedTuple):
    arguments: list
    # The file that is its standard input.
    path: str


# Two commands, or the seconds that they took.
class Side(NamedTuple):
    # Everything but the work that is measured: its time is taken off.
    idle: object
    full: object


class Work(NamedTuple):
    name: str
    # How often the work is done in one run: steps, or texts.
    count: int
    # 'ours', 'selecting' and, for lists, 'plain'; for calls 'ours' and, where there is one, 'older'
    sides: dict


def main():
    if sys.argv[1:] not in ([], ['--write']):
        sys.exit('bash bench/run [--write]')
    if sys.argv[1:]:
        report.read_page()
    for program in OURS.values():
        if not os.path.exists(program):
            sys.exit(f'{program} is missing: rt run < /dev/null in crates/{os.path.basename(program)}')
    load = os.getloadavg()[0]
    if load > 0.5:
        print(f'other work is running (load {load:.1f}): the numbers are not those of an idle machine', file=sys.stderr)
    found = everything()
    print(report.printed(found))
    if not all(found.is_alike.values()):
        sys.exit('CHECKSUMS DIFFER')
    print('\nall checksums agree')
    if sys.argv[1:]:
        report.write(found)


def everything():
    lists, texts, calls = list_works(), text_works(), call_works()
    rounds, seconds, is_alike = measured(lists + texts + calls)
    return report.Found(
        rounds=rounds, processor=processor(), compiler=os.environ['RUST_VERSION'], batch=BATCH, list_steps=BATCHES * BATCH,
        list_names=[work.name for work in lists], text_names=[work.name for work in texts], text_times=[work.count for work in texts],
        call_names=[work.name for work in calls], input_steps=sample_texts.full_input()[1], seconds=seconds, is_alike=is_alike,
        memory={work.name: peaks(work) for work in (lists[3], texts[0], texts[2])}, copied={work.name: copies(work) for work in calls})


def processor():
    with open('/proc/cpuinfo') as file:
        names = [line.split(':')[1].strip() for line in file if line.startswith('model name')]
    return names[0] if names else 'an unnamed processor'


# ---- the works

def list_works():
    works = []
    letter = chr(ord('@') + BATCHES // 128)
    for number, name in enumerate(report.LISTS):
        ours = [Command([OURS['lists']], stored(f'list_{number}{mode}', f'{number}{letter}{mode}')) for mode in 'gr']
        made, selecting, plain = [
            Command([f'{FOLDER}/gates', str(number), str(BATCHES), mode], os.devnull) for mode in ('generate', 'selecting', 'plain')]
        works.append(Work(name, BATCHES * BATCH, {'ours': Side(*ours), 'selecting': Side(made, selecting), 'plain': Side(made, plain)}))
    return works


def text_works():
    steps, step_count = sample_texts.full_input()
    saved, line_count = sample_texts.full_saved_state()
    full = f'{sample_texts.RULES} rules, {step_count:,} steps, {len(steps):,} bytes'
    # Without its last line feed all of the input is read, and nothing runs.
    return [
        text_work(f'`respond`, a full input ({full})', 'steps', steps, 32),
        text_work('`respond`, only reading (the same input with a bad last line)', 'steps', steps[:-1] + ' ', 62),
        text_work(f'`read_state` and `write_state`, a full saved state ({line_count:,} lines, {len(saved):,} bytes)', 'saved', saved, 8)]


# Once, and so many times more: reading the input and summing the output are then taken off. crates/text_speed takes up to 63 times.
def text_work(name, kind, text, times):
    letter = {'steps': 'r', 'saved': 's'}[kind]
    path = stored(f'{kind}_{times}.text', text)
    counts = 1, 1 + times
    ours = [Command([OURS['texts']], stored(f'{kind}_{times}_{count}', letter + chr(64 + count) + text)) for count in counts]
    rust = [Command([f'{FOLDER}/texts', kind, str(count)], path) for count in counts]
    return Work(name, times, {'ours': Side(*ours), 'selecting': Side(*rust)})


# A call of the library for one step, on our archive and, where there is one, on an older.
def call_works():
    return [
        call_work('one step, 7 rules, a saved state of 15 lines', 'small', sample_texts.small_call(), 4000),
        call_work(f'one step, {sample_texts.RULES} rules', 'fresh', sample_texts.fresh_call(), 1000),
        call_work(f'one step, {sample_texts.RULES} rules, a full saved state', 'full', sample_texts.full_call(), 4)]


def call_work(name, kind, texts, times):
    paths = [stored(f'call_{kind}.{part}', text) for part, text in zip(('rules', 'state', 'steps'), texts)]
    sides = {}
    for side in ('ours', 'older') if os.environ.get('OLDER') else ('ours',):
        sides[side] = Side(*[Command([f'{FOLDER}/calls_{side}'] + paths + [str(count)], os.devnull) for count in (1, 1 + times)])
    return Work(name, times, sides)


def copies(work):
    """The bytes that one call copies."""
    return {side: int(timed(Command([commands.idle.arguments[0].replace('calls_', 'copies_')] + commands.idle.arguments[1:], os.devnull))[0])
            for side, commands in work.sides.items()}


def stored(name, text):
    path = f'{FOLDER}/{name}'
    with open(path, 'w') as file:
        file.write(text)
    return path


# ---- times

def measured(works):
    """How many rounds there were; of each work and side the seconds for one step or text; of each work whether all sides printed the same."""
    best, printed = {}, {work.name: set() for work in works}
    rounds, start = 0, time.monotonic()
    # All works in each round, so that a disturbance of some seconds does not meet all runs of one.
    while rounds < 3 or rounds < MOST_ROUNDS and time.monotonic() - start < SECONDS:
        for work in works:
            for side, commands in work.sides.items():
                printed[work.name].add(improved(best, (work.name, side), commands))
        rounds += 1
    seconds = {work.name: {side: net(best, work, side) for side in work.sides} for work in works}
    return rounds, seconds, {name: len(outputs) == 1 for name, outputs in printed.items()}


def improved(best, key, commands):
    """One run more; what it prints with the work done."""
    _, idle = timed(commands.idle)
    output, full = timed(commands.full)
    old = best.get(key, Side(idle, full))
    best[key] = Side(min(idle, old.idle), min(full, old.full))
    return output


def net(best, work, side):
    taken = best[work.name, side].full - best[work.name, side].idle
    if taken <= 0:
        sys.exit(f'{work.name}: too short to be measured')
    return taken / work.count


def timed(command):
    """What a command prints, and the processor time that it took."""
    with open(command.path, 'rb') as text:
        child = subprocess.Popen(command.arguments, stdin=text, stdout=subprocess.PIPE)
    output = child.stdout.read()
    child.stdout.close()
    _, status, usage = os.wait4(child.pid, 0)
    child.returncode = os.waitstatus_to_exitcode(status)
    if status:
        sys.exit(f'{command.arguments} failed')
    return output, usage.ru_utime + usage.ru_stime


# ---- memory

def peaks(work):
    # The kernel counts some pages late.
    return {side: max(peak(commands.full) for _ in range(3)) for side, commands in work.sides.items()}


def peak(command):
    """The most bytes that a command held in memory. Its output is a pipe that is full, so that it waits there, with all its work done,
    until its peak has been read. (What wait4 says would count the memory of this program too, from which it was started.)"""
    reader, writer = os.pipe()
    os.write(writer, bytes(fcntl.fcntl(writer, fcntl.F_GETPIPE_SZ)))
    with open(command.path, 'rb') as text:
        child = subprocess.Popen(command.arguments, stdin=text, stdout=writer)
    os.close(writer)
    while not is_waiting(child.pid):
        time.sleep(0.01)
    with open(f'/proc/{child.pid}/status') as status:
        found = [int(line.split()[1]) * 1024 for line in status if line.startswith('VmHWM:')]
    while os.read(reader, 65536):
        pass
    os.close(reader)
    if child.wait() or not found:
        sys.exit(f'{command.arguments} failed')
    return found[0]


def is_waiting(process):
    """It sleeps, or has ended."""
    with open(f'/proc/{process}/stat') as stat:
        return stat.read().rsplit(')', 1)[1].split()[0] in 'SZ'


main()
