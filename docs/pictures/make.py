#!/usr/bin/env python3
"""Draws the pictures of docs/GUIDE.md as SVG files beside this script.

    docs/pictures/make.py            writes them
    docs/pictures/make.py --check    writes nothing; fails where a stored picture is not what the script draws

Whatever a picture shows of the gate's answers is asked of crates/gate/out/gate: which positions are inside, when a term holds, which
roles are active after each step of library/examples/day.in. `rt run < /dev/null` in crates/gate builds that program.
"""

import sys

sys.dont_write_bytecode = True

import pathlib
import re
import subprocess

from drawing import (
    BLUE, GREEN, GREY, INK, LINE, MONO, PALE, PALE_BLUE, PALE_GREEN, PALE_RED, RED, SAND,
    arrow, box, circle, dot, path, picture, rect, text, turned,
)

HERE = pathlib.Path(__file__).resolve().parent
ROOT = HERE.parent.parent
DAY = ROOT / "library/examples/day.in"


def main():
    pictures = {
        "places.svg": places(),
        "errors.svg": errors(),
        "week.svg": week(),
        "day.svg": day(),
        "step.svg": step(),
        "handover.svg": handover(),
    }
    if sys.argv[1:] == ["--check"]:
        differ = [name for name, drawn in pictures.items() if stored(name) != drawn]
        for name in differ:
            print(f"docs/pictures/{name} is not what docs/pictures/make.py draws")
        print(f"{len(pictures)} pictures, {len(differ)} differ")
        sys.exit(1 if differ else 0)
    for name, drawn in pictures.items():
        (HERE / name).write_text(drawn)


def stored(name):
    file = HERE / name
    return file.read_text() if file.exists() else None


# ---- the gate


def answers(rules, steps):
    """The program's answers, one for each step, each as its words."""
    text = "\n".join([*rules, "(steps)", *steps, ""])
    ran = subprocess.run([ROOT / "crates/gate/out/gate"], input=text.encode(), capture_output=True, check=True)
    lines = [line.strip("()").split() for line in ran.stdout.decode().splitlines()]
    if len(lines) != len(steps):
        sys.exit(f"{len(steps)} steps, {len(lines)} answers: {lines[:1]}")
    return lines


def opens(rule, moments):
    """For each moment, a list of steps, whether role 1 can be activated after it under the one rule."""
    steps, asked = ["(assign 5 1)", "(open 0 5)"], []
    for moment in moments:
        steps += [*moment, "(activate 0 1)"]
        asked.append(len(steps) - 1)
        steps.append("(deactivate 0 1)")
    found = answers([f"(rule 1 {rule})"], steps)
    return [found[index][0] == "yes" for index in asked]


# ---- a circle and a box


def places():
    in_circle = {(3, 4): "end", (4, 4): "start", (5, 0): "start"}
    in_box = {(3, 5): "end", (4, 5): "start", (-4, -2): "end"}
    parts = [text(24, 30, "Every whole metre asked of the gate: may role 1 be active there under this rule?", size=15)]
    parts += grid(24, 66, "(at 1 (inside (circle 0 0 5)))", in_circle)
    parts += grid(424, 66, "(at 1 (inside (box -4 -2 3 5)))", in_box)
    y = 488
    parts += [dot(32, y - 4, True), text(44, y, "inside; the edge belongs to it"), dot(264, y - 4, False), text(276, y, "outside")]
    parts.append(text(424, y, "A position that is not known is neither."))
    return picture(812, 508, "A circle and a box, with positions inside and outside", parts)


def grid(left, top, rule, named):
    """All positions around 0 0; those that are named have a label, on the side that is given."""
    reach, gap = 7, 24
    points = [(x, y) for y in range(reach, -reach - 1, -1) for x in range(-reach, reach + 1)]
    inside = dict(zip(points, opens(rule, [[f"(move 0 {x} {y})"] for x, y in points])))

    def place(x, y):
        return left + 8 + (x + reach) * gap, top + 36 + (reach - y) * gap

    (left_end, middle), (right_end, _) = place(-reach, 0), place(reach, 0)
    (centre, low), (_, high) = place(0, -reach), place(0, reach)
    parts = [text(left, top, rule, family=MONO, size=14), shape_of(rule, place, gap)]
    parts += [path([(left_end - 8, middle), (right_end + 8, middle)], LINE), path([(centre, low + 8), (centre, high - 8)], LINE)]
    parts += [dot(*place(x, y), inside[x, y]) for x, y in points]
    for (x, y), side in named.items():
        parts += label_of(*place(x, y), f"{x} {y} " + ("inside" if inside[x, y] else "outside"), side)
    return parts


ERROR = 2


def errors():
    in_circle = {(3, 0): "start", (4, -4): "start", (-6, 5): "start"}
    in_box = {(1, 3): "start", (-6, -1): "start", (5, 7): "start"}
    parts = [text(24, 30, f"Every whole metre asked of the gate: is a position known to {ERROR} metres inside, outside or unsure?", size=15)]
    parts += error_grid(24, 66, "(circle 0 0 5)", in_circle)
    parts += error_grid(474, 66, "(box -4 -2 3 5)", in_box)
    y = 540
    parts += [dot(32, y - 4, True), text(44, y, "inside: all of the error circle is"), dot(264, y - 4, False), text(276, y, "outside: none of it is")]
    parts += [unsure_dot(482, y - 4), text(494, y, "unsure, on neither side: some of it is and some is not")]
    return picture(912, 560, f"A circle and a box, and positions known to {ERROR} metres: inside, outside, unsure", parts)


def error_grid(left, top, shape, named):
    """All positions around 0 0 with the error; those that are named have their error circle and a label."""
    reach, gap = 8, 24
    points = [(x, y) for y in range(reach, -reach - 1, -1) for x in range(-reach, reach + 1)]
    steps = [[f"(move 0 {x} {y} {ERROR})"] for x, y in points]
    inside = dict(zip(points, opens(f"(at 1 (inside {shape}))", steps)))
    outside = dict(zip(points, opens(f"(at 1 (outside {shape}))", steps)))

    def place(x, y):
        return left + 8 + (x + reach) * gap, top + 36 + (reach - y) * gap

    def drawn(x, y):
        return dot(*place(x, y), inside[x, y]) if inside[x, y] or outside[x, y] else unsure_dot(*place(x, y))

    parts = [text(left, top, shape, family=MONO, size=14), shape_of(f"(at 1 {shape})", place, gap)]
    parts += [drawn(x, y) for x, y in points]
    for (x, y), side in named.items():
        outcome = "inside" if inside[x, y] else "outside" if outside[x, y] else "unsure"
        parts.append(circle(*place(x, y), ERROR * gap, "none", SAND, 2))
        parts += label_of(*place(x, y), f"{x} {y} {outcome}", side)
    return parts


def unsure_dot(x, y):
    return circle(x, y, 4, SAND, SAND, 1.2)


def label_of(x, y, words, side):
    """A ring around a position, and its label on a white ground: from the ring to the right, or up to the ring from the left."""
    width = 7.1 * len(words) + 6
    start = x + 12 if side == "start" else x - 12 - width
    return [
        circle(x, y, 8, "none", SAND, 2),
        rect(start, y - 9, width, 18, "white", SAND, 3),
        text(start + width / 2, y + 4.5, words, "middle", fill=INK, size=12),
    ]


def shape_of(rule, place, gap):
    numbers = [int(word) for word in re.findall(r"-?\d+", rule)[1:]]
    if "circle" in rule:
        (x, y), radius = place(*numbers[:2]), numbers[2] * gap
        return circle(x, y, radius, PALE_BLUE, BLUE)
    (left, low), (right, high) = place(*numbers[:2]), place(*numbers[2:])
    return rect(left, high, right - left, low - high, PALE_BLUE, BLUE)


# ---- a week


MONDAY = 834192000  # Monday 2026-06-08 00:00
DAYS = "Monday Tuesday Wednesday Thursday Friday Saturday Sunday".split()
HALF_HOUR = 1800


def week():
    left, day_width, top, row = 24, 104, 96, 74
    terms = {
        "(week 1 5 0700 1900)": "Monday to Friday, 07:00 to 19:00",
        "(week 5 5 2200 0600)": "past midnight: the shift that begins on Friday",
        "(week 7 1 2200 0600)": "past midnight and past Sunday: the shifts that begin on Sunday and on Monday",
        "(week 6 1 0000 2400)": "past Sunday: Saturday, Sunday and Monday, all day",
    }
    parts = [text(left, 30, "When a term holds, asked of the gate at every half hour of a week", size=15)]
    parts += [text(left + (index + 0.5) * day_width, top - 32, name, "middle", fill=GREY) for index, name in enumerate(DAYS)]
    for index, (term, words) in enumerate(terms.items()):
        y = top + row * index
        parts += [text(left, y, term, family=MONO), text(left + 8.2 * (len(term) + 1), y, words, fill=GREY)]
        parts += strip(left, y + 10, day_width, term)
    bottom = top + row * len(terms)
    parts.append(text(left, bottom, "A shift belongs to the day it begins: Saturday at 01:00 is in Friday's shift, and Friday at 01:00 is not."))
    return picture(left * 2 + 7 * day_width, bottom + 20, "When four week terms hold", parts)


def strip(left, y, day_width, term):
    """A week from Monday 00:00, dark where the term holds."""
    halves = [[f"(clock {MONDAY + HALF_HOUR * half})"] for half in range(7 * 48)]
    scale = day_width / 48
    parts = [rect(left, y, 7 * day_width, 26, PALE)]
    parts += [rect(left + start * scale, y, (end - start) * scale, 26, BLUE) for start, end in spans(opens(f"(during 1 {term})", halves))]
    parts += [path([(left + index * day_width, y - 4), (left + index * day_width, y + 30)], "#8a9097") for index in range(8)]
    return parts


def spans(flags):
    """The runs of true, each as its first index and the index past its last."""
    found, start = [], None
    for index, flag in enumerate([*flags, False]):
        if flag and start is None:
            start = index
        elif not flag and start is not None:
            found.append((start, index))
            start = None
    return found


# ---- a day as lanes


ROLES = {1: "on site", 2: "setter", 3: "acceptor"}
SESSIONS = {0: "Lena", 1: "Omar"}
COLOURS = {1: GREEN, 2: BLUE, 3: SAND}
# Where the lanes begin, how wide a step is, how high a lane.
LEFT, COLUMN, LANE = 150, 22, 26


def day():
    rules, _, listed = DAY.read_text().partition("(steps)\n")
    rules, steps = rules.splitlines(), listed.splitlines()
    found = answers(rules, steps)
    heads, lanes, right = 186, 250, LEFT + COLUMN * len(steps)
    parts = [text(24, 30, "library/examples/day.in: sessions, active roles and refusals, step by step", size=15)]
    y = lanes
    for session, user in SESSIONS.items():
        parts.append(text(24, y + 17, f"session {session}, {user}", weight="bold"))
        parts += lane(after_each(rules, steps, is_open, session), y, right, GREY, "open")
        y += LANE
        for role, name in ROLES.items():
            parts.append(text(36, y + 17, f"role {role}, {name}"))
            parts += lane(after_each(rules, steps, is_active, session, role), y, right, COLOURS[role], "active")
            y += LANE
        y += 12
    columns = refusals(found, heads + 4, y - 14)
    parts.append(text(24, y + 10, "Red: refused, and nothing changes. Below the step stand the number and, for 30, the rule.", fill=RED))
    parts.append(text(24, y + 30, "A bar begins with the step that opens the session or activates the role, and ends with the step that ends it."))
    drawn = [*columns, *parts, *day_heads(steps, found, heads), *times(steps, lanes - 14, right)]
    return picture(right + 24, y + 50, "A day at the turbine as lanes", drawn)


def day_heads(steps, found, y):
    parts = []
    for index, (line, answer) in enumerate(zip(steps, found)):
        x, colour = LEFT + COLUMN * (index + 0.5), RED if answer[0] == "no" else INK
        parts.append(turned(x + 4, y, line, colour))
        if answer[0] == "no":
            numbers = [f"no {answer[1]}"] + ([f"rule {answer[2]}"] if answer[1] == "30" else [])
            parts += [text(x, y + 18 + 13 * row, words, "middle", RED, 11, "bold", halo=True) for row, words in enumerate(numbers)]
    return parts


def times(steps, y, right):
    """The time of the day from each clock step on."""
    clocks = [(index, int(line.split()[1].strip(")"))) for index, line in enumerate(steps) if line.startswith("(clock")]
    shown = [(LEFT + COLUMN * (index + 0.5), f"{time % 86400 // 3600:02}:{time % 3600 // 60:02}") for index, time in clocks]
    parts = [text(24, y + 4, "time", weight="bold"), path([(shown[0][0], y), (right, y)], INK)]
    return parts + [path([(x, y - 5), (x, y + 5)], INK) + text(x + 4, y - 5, hour, size=12, halo=True) for x, hour in shown]


def refusals(found, top, bottom):
    refused = [index for index, answer in enumerate(found) if answer[0] == "no"]
    return [rect(LEFT + COLUMN * index, top, COLUMN, bottom - top, PALE_RED) for index in refused]


def lane(flags, y, right, colour, name):
    """A bar from the step after which something holds to the step after which it does not."""
    parts = [path([(LEFT, y + 12), (right, y + 12)], LINE, 1, "2 3")]
    for start, end in spans(flags):
        x, stop = LEFT + COLUMN * (start + 0.5), min(LEFT + COLUMN * (end + 0.5), right)
        parts += [rect(x, y + 3, stop - x, 18, colour, radius=3), text(x + 6, y + 16, name, fill="white", size=11)]
    return parts


def after_each(rules, steps, holds, *numbers):
    """Whether something holds after each step: asked by one step more, in a run of its own."""
    return [holds(rules, steps[: count + 1], *numbers) for count in range(len(steps))]


def is_open(rules, steps, session):
    return answers(rules, [*steps, f"(open {session} 0)"])[-1][:2] == ["no", "22"]


def is_active(rules, steps, session, role):
    return answers(rules, [*steps, f"(deactivate {session} {role})"])[-1][1] not in ("23", "25")


# ---- the way of a step


def step():
    left, right, wide, high = 40, 440, 270, 54
    middle, far = left + wide / 2, right + wide / 2
    tops = range(56, 56 + 5 * 86, 86)
    asked = [
        ["one line of the steps", "`(activate 0 2)`"],
        ["is every number in its range?"],
        ["has the acting session the right?", "53, 54, of six kinds of step"],
        ["do the step's own checks pass?", "21 to 28, 50 to 52, in the row's order"],
        ["select the rules", "that this kind of step looks at"],
    ]
    parts = [text(24, 30, "What happens to one step", size=15)]
    parts += [box(left, top, wide, high, lines) for top, lines in zip(tops, asked)]
    parts += [arrow([(middle, top - 32), (middle, top)]) for top in tops[1:]]
    for top, lines in ((tops[1], ["`(no 20 0 0)`"]), *((top, ["`(no NUMBER 0 0)`"]) for top in tops[2:4])):
        parts += [arrow([(left + wide, top + high / 2), (right, top + high / 2)], RED), text(left + wide + 10, top + 20, "no", fill=GREY)]
        parts.append(box(right, top, wide, high, [*lines, "nothing changes"], PALE_RED, RED))
        parts.append(text(middle + 10, top + high + 20, "yes", fill=GREY))
    fork, ends, last = tops[4] + high + 26, tops[4] + high + 72, tops[4] + high + 72 + 116
    parts += [arrow([(middle, fork - 26), (middle, ends)]), arrow([(middle, fork), (far, fork), (far, ends)])]
    parts.append(text(middle - 10, fork + 24, "a request", "end", fill=GREY))
    parts.append(text((middle + far) / 2, fork - 8, "an event: close, move, lost, clock, recall", "middle", fill=GREY))
    parts.append(box(left, ends, wide, high, ["would one of them be broken", "if the step were granted?"]))
    parts.append(box(right, ends, wide, high, ["it is applied; then roles end until", "they hold, and no more than that"]))
    parts += [arrow([(left + 60, ends + high), (left + 60, last)], RED), text(left + 70, ends + high + 24, "yes", fill=GREY)]
    parts.append(box(left, last, 190, high, ["`(no 30 RULE SELECTED)`", "nothing changes"], PALE_RED, RED))
    bend = [(left + wide - 40, ends + high), (left + wide - 40, ends + high + 34), (right - 60, ends + high + 34), (right - 60, last)]
    parts += [arrow(bend, GREEN), text(left + wide - 30, ends + high + 24, "no", fill=GREY)]
    parts += [arrow([(far, ends + high), (far, last)], GREEN)]
    parts.append(box(right - 120, last, wide + 120, high, ["`(yes SELECTED ENDED)`", "and the next state"], PALE_GREEN, GREEN))
    return picture(right + wide + 40, last + high + 24, "The way of a step", parts)


# ---- desk to hub


# Where the two ends stand, how wide each is, how high what it does.
DESK, HUB, WIDE, HIGH = 24, 520, 236, 64


def handover():
    shown = DAY.with_suffix(".shown").read_text()
    sections = dict(re.findall(r"^([A-Z][^\n:]*):\n((?:\([^\n]*\n)*)", shown, re.MULTILINE))
    parts = [text(24, 30, "The day of library/examples: from the desk to the hub and back", size=15)]
    for x, name in ((DESK, "desk"), (HUB, "hub cabinet")):
        parts += [text(x + WIDE / 2, 64, name, "middle", weight="bold"), rect(x, 74, WIDE, 366, "white", LINE, 6)]
    parts += [runs(DESK, 86, sections["Steps at the desk"]), waits(HUB, 86)]
    parts += sent(DESK + WIDE, HUB, 190, sections["State saved at the desk"])
    parts += [waits(DESK, 224), runs(HUB, 224, sections["Steps in the hub"])]
    parts += sent(HUB, DESK + WIDE, 328, sections["State saved in the hub"])
    parts += [box(DESK + 14, 362, WIDE - 28, HIGH, ["goes on"], PALE_BLUE, BLUE), waits(HUB, 362)]
    parts.append(text(24, 470, "Both ends have the same rule list. One end runs steps; the other waits for the saved state."))
    parts.append(text(24, 492, "The answers are those of a single gate that ran all the steps in one place."))
    return picture(HUB + WIDE + 24, 512, "From the desk to the hub and back", parts)


def runs(x, y, lines):
    kinds = list(dict.fromkeys(re.findall(r"^\((\w+)", lines, re.MULTILINE)))
    head = ", ".join(kinds) if len(kinds) < 5 else ", ".join(kinds[:3]) + " .."
    return box(x + 14, y, WIDE - 28, HIGH, [f"runs {len(lines.splitlines())} steps:", head], PALE_BLUE, BLUE)


def waits(x, y):
    return rect(x + 14, y, WIDE - 28, HIGH, "white", LINE, 4, "4 4") + text(x + WIDE / 2, y + HIGH / 2 + 4.5, "waits", "middle", fill=GREY)


def sent(start, end, y, lines):
    """A saved state on its way, with its first and its last line."""
    lines, middle = lines.splitlines(), (start + end) / 2
    parts = [arrow([(start, y), (end, y)], BLUE, 2), text(middle, y - 12, f"saved state, {len(lines)} lines", "middle", fill=BLUE, weight="bold")]
    shown = (lines[0], "..", lines[-1])
    return parts + [text(middle, y + 20 + 16 * row, line, "middle", size=12, family=MONO) for row, line in enumerate(shown)]


main()
