"""The texts that are measured: a full input of rules and steps, and the saved state in which everything is set."""

MOST_BYTES = 65536
RULES = 128

# In 64 steps: as in the mixed list of gates.rs.
KINDS = sum([[kind] * weight for kind, weight in [
    ('assign', 11), ('withdraw', 4), ('grant', 6), ('take', 4), ('open', 6), ('activate', 12), ('deactivate', 4), ('access', 8),
    ('finish', 1), ('close', 2), ('move', 3), ('lost', 1), ('clock', 2)]], [])


def full_input():
    """Just as many bytes as the program takes, and the number of steps in them."""
    draw = Drawing(6)
    lines = [draw.rule(i) for i in range(RULES)] + ['(steps)\n']
    length, count = sum(map(len, lines)), 0
    while length < MOST_BYTES - 120:
        lines.append(draw.step(count))
        length, count = length + len(lines[-1]), count + 1
    # Lines of nine and ten bytes fill what is left.
    left = MOST_BYTES - length
    lines += ['(lost 1)\n'] * (left // 9 - left % 9) + ['(lost 10)\n'] * (left % 9)
    text = ''.join(lines)
    assert len(text) == MOST_BYTES
    return text, count + left // 9


def full_saved_state():
    """Every user is assigned every role, every role carries every permission, every session is open and placed with every role active,
    and every user did everything on every object. And the number of its lines."""
    lines = ['(now 3155759999)\n']
    lines += [f'(assigned {u} {r})\n' for u in range(64) for r in range(32)]
    lines += [f'(granted {r} {p})\n' for r in range(32) for p in range(32)]
    for s in range(32):
        lines += [f'(open {s} {s})\n', f'(place {s} {-1000000 + s} {1000000 - s})\n'] + [f'(active {s} {r})\n' for r in range(32)]
    lines += [f'(did {o} {p} {u})\n' for o in range(32) for p in range(32) for u in range(64)]
    return ''.join(lines), len(lines)


def small_call():
    """Seven rules, a saved state of fifteen lines under them, and one step."""
    rules = ['during 1 (week 1 5 0700 1900)', 'at 1 (inside (circle 4200 -1300 150))', 'at 2 (inside (circle 4200 -1300 150))', 'needs 2 1',
             'needs 3 1', 'two-hands 1 2', 'before 3 2']
    state = ['now 834217200', 'assigned 5 1', 'assigned 5 2', 'assigned 6 1', 'assigned 6 2', 'assigned 6 3', 'granted 2 1', 'granted 3 2',
             'open 0 5', 'place 0 4210 -1290', 'active 0 1', 'active 0 2', 'open 1 6', 'place 1 4195 -1310', 'active 1 1']
    return numbered(rules), ''.join(f'({line})\n' for line in state), '(access 0 1 7)\n'


def fresh_call():
    """The rules of the full input, a fresh state and one step."""
    draw = Drawing(6)
    return ''.join(draw.rule(i) for i in range(RULES)), '(now 0)\n', '(assign 5 1)\n'


def full_call():
    """As many rules as there may be that the full saved state keeps, that state, and an event that ends nothing."""
    rules = [f'max-users {r} 64' for r in range(32)] + [f'max-permissions {r} 32' for r in range(32)]
    rules += [f'{family} {r} {(r + 1) % 32}' for family in ('before', 'needs') for r in range(32)]
    return numbered(rules), full_saved_state()[0], '(clock 3155759999)\n'


def numbered(rules):
    return ''.join(f'(rule {i + 1} ({rule}))\n' for i, rule in enumerate(rules))


class Drawing:
    """Rules and steps drawn from a seed."""

    def __init__(self, seed):
        self.seed = seed

    def below(self, n):
        # The high bits of what was drawn: the low ones of such a generator repeat early.
        self.seed = (self.seed * 1103515245 + 12345) % 2147483648
        return self.seed // 2048 % n

    def rule(self, i):
        below, two = self.below, self.two
        families = [
            lambda: f'before {two()}', lambda: f'max-users {below(32)} {30 + below(35)}', lambda: f'max-roles {16 + below(17)}',
            lambda: f'max-permissions {below(32)} {12 + below(21)}', lambda: f'max-active {6 + below(27)}', lambda: f'apart {two()}',
            lambda: f'apart-active {two()}', lambda: f'needs {two()}', lambda: f'during {below(32)} ({self.term()})',
            lambda: f'at {below(32)} ({self.side()})', lambda: f'two-hands {two()}', lambda: f'same-hand {two()}']
        return f'(rule {i + 1} ({families[i % 12]()}))\n'

    def two(self):
        first = self.below(32)
        return f'{first} {(first + 1 + self.below(31)) % 32}'

    def term(self):
        below = self.below
        turn = below(5)
        if turn == 0:
            return 'dates ' + ' '.join(sorted([self.date(), self.date()]))
        if turn == 1:
            start = below(24)
            return f'week {1 + below(7)} {1 + below(7)} {start:02}00 {(start + 14) % 24:02}30'
        if turn == 2:
            return f'months {1 + below(12)} {1 + below(12)}'
        if turn == 3:
            return f'nth {1 + below(5)} {1 + below(7)}'
        return f'every {1 + below(10)} {self.date()}'

    def date(self):
        return f'20{self.below(100):02}{1 + self.below(12):02}{1 + self.below(28):02}'

    def side(self):
        below = self.below
        if below(2) == 0:
            shape = f'circle {below(400) - 200} {below(400) - 200} {200 + below(700)}'
        else:
            shape = f'box {-100 - below(900)} {-100 - below(900)} {100 + below(900)} {100 + below(900)}'
        return f'{["inside", "outside"][below(2)]} ({shape})'

    # Users and times go past what is in range or order, so that 20 and 21 are met.
    def step(self, i):
        below = self.below
        kind = KINDS[below(64)]
        if kind in ('assign', 'withdraw'):
            return f'({kind} {below(65)} {below(32)})\n'
        if kind == 'open':
            return f'(open {below(32)} {below(65)})\n'
        if kind == 'access':
            return f'(access {below(32)} {below(32)} {below(32)})\n'
        if kind in ('finish', 'close', 'lost'):
            return f'({kind} {below(32)})\n'
        if kind == 'move':
            return f'(move {below(32)} {below(2000) - 1000} {below(2000) - 1000})\n'
        if kind == 'clock':
            return f'(clock {i * 10000 + below(400000)})\n'
        return f'({kind} {below(32)} {below(32)})\n'
