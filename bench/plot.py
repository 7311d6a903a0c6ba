"""Steps a second against rules, as an SVG."""
import math

WIDTH, HEIGHT = 760, 440
LEFT, RIGHT, TOP, BOTTOM = 80, 620, 50, 380

# Each side's name, its colour, and where its numbers stand: above or below the line.
SIDES = {'selecting': ('Rust, selecting', '#1b6ca8', -10), 'ours': ('ours, proved', '#c2410c', -10), 'plain': ('Rust, plain', '#4d7c0f', 20)}


def drawn(rules, speeds):
    """The speeds of each side, one for each number of rules."""
    scale = Scale(rules, [value for side in speeds.values() for value in side])
    lines = [
        f'<svg xmlns="http://www.w3.org/2000/svg" viewBox="0 0 {WIDTH} {HEIGHT}" width="{WIDTH}" height="{HEIGHT}" font-family="sans-serif" font-size="13">',
        '<title>Steps a second against the number of rules, mixed list</title>',
        f'<rect width="{WIDTH}" height="{HEIGHT}" fill="white"/>',
        label(LEFT, 26, 'Mixed list of steps: million steps a second against rules', 'start', size=15)]
    lines += axes(rules, scale)
    curves = [curve(rules, values, scale, *SIDES[side]) for side, values in speeds.items()]
    # Numbers stand over all lines.
    lines += [drawing for drawings, _ in curves for drawing in drawings] + [number for _, numbers in curves for number in numbers]
    return '\n'.join(lines + ['</svg>', ''])


class Scale:
    """Rules go to the right by their square roots, so that the short lists stand apart; speeds go up by powers of ten."""

    def __init__(self, rules, speeds):
        self.most = max(rules)
        self.low = math.log10(min(speeds) * 0.6)
        self.high = math.log10(max(speeds) * 1.4)

    def x(self, rules):
        return LEFT + 20 + (RIGHT - LEFT - 40) * math.sqrt(rules / self.most)

    def y(self, speed):
        return BOTTOM - (BOTTOM - TOP) * (math.log10(speed) - self.low) / (self.high - self.low)

    def marks(self):
        steps = [factor * 10 ** power for power in range(4, 9) for factor in (1, 2, 5)]
        return [step for step in steps if self.low <= math.log10(step) <= self.high]


def axes(rules, scale):
    lines = [f'<path d="M{LEFT} {TOP}V{BOTTOM}H{RIGHT}" fill="none" stroke="#333"/>']
    for mark in scale.marks():
        y = scale.y(mark)
        lines.append(f'<path d="M{LEFT} {y:.1f}H{RIGHT}" stroke="#ddd"/>')
        lines.append(label(LEFT - 8, y + 4, f'{mark / 1e6:g}', 'end'))
    for count in rules:
        x = scale.x(count)
        lines.append(f'<path d="M{x:.1f} {BOTTOM}v6" stroke="#333"/>')
        lines.append(label(x, BOTTOM + 22, str(count), 'middle'))
    lines.append(label((LEFT + RIGHT) / 2, BOTTOM + 46, 'rules in the list (square root scale)', 'middle'))
    middle = (TOP + BOTTOM) / 2
    lines.append(f'<g transform="rotate(-90 28 {middle})">' + label(28, middle, 'million steps a second (logarithmic scale)', 'middle') + '</g>')
    return lines


def curve(rules, values, scale, name, colour, offset):
    """The line with its points, and the labels."""
    points = [(scale.x(count), scale.y(value)) for count, value in zip(rules, values)]
    way = ' '.join(f'{x:.1f},{y:.1f}' for x, y in points)
    drawings = [f'<polyline points="{way}" fill="none" stroke="{colour}" stroke-width="2"/>']
    drawings += [f'<circle cx="{x:.1f}" cy="{y:.1f}" r="4" fill="{colour}"/>' for x, y in points]
    labels = [label(x, y + offset, f'{value / 1e6:.3g}', 'middle', colour) for (x, y), value in zip(points, values)]
    last_x, last_y = points[-1]
    return drawings, labels + [label(last_x + 26, last_y + 4, name, 'start', colour)]


def label(x, y, text, anchor, colour='#333', size=13):
    # A white rim keeps it readable over a line.
    rim = 'stroke="white" stroke-width="4" paint-order="stroke"'
    return f'<text x="{x:.1f}" y="{y:.1f}" text-anchor="{anchor}" fill="{colour}" font-size="{size}" {rim}>{text}</text>'
