"""Boxes, lines and words as SVG, in the colours of all pictures."""

INK, GREY, PALE, LINE = "#222222", "#666666", "#f1f3f5", "#c9ced3"
BLUE, GREEN, RED, SAND = "#1b6ca8", "#3f7d20", "#b3261e", "#a86f1b"
PALE_BLUE, PALE_GREEN, PALE_RED = "#dcebf6", "#e8f3e2", "#fbe9e7"
MONO = "monospace"


def picture(width, height, title, parts):
    head = (
        f'<svg xmlns="http://www.w3.org/2000/svg" viewBox="0 0 {width} {height}" width="{width}" height="{height}" '
        f'font-family="sans-serif" font-size="13" fill="{INK}">'
    )
    return "\n".join([head, f"<title>{title}</title>", f'<rect width="{width}" height="{height}" fill="white"/>', *parts, "</svg>", ""])


def number(value):
    return f"{value:.1f}".removesuffix(".0")


def text(x, y, words, anchor="start", fill=INK, size=13, weight=None, family=None, halo=False):
    words = words.replace("&", "&amp;").replace("<", "&lt;")
    more = f' font-weight="{weight}"' if weight else ""
    more += f' font-family="{family}"' if family else ""
    more += ' stroke="white" stroke-width="4" paint-order="stroke"' if halo else ""
    return f'<text x="{number(x)}" y="{number(y)}" text-anchor="{anchor}" fill="{fill}" font-size="{size}"{more}>{words}</text>'


def turned(x, y, words, fill):
    """The gate's own text, from below upwards."""
    return f'<text transform="translate({number(x)} {number(y)}) rotate(-90)" font-family="{MONO}" font-size="12" fill="{fill}">{words}</text>'


def rect(x, y, width, height, fill="none", stroke="none", radius=0, dash=None):
    more = f' stroke-dasharray="{dash}"' if dash else ""
    return (
        f'<rect x="{number(x)}" y="{number(y)}" width="{number(width)}" height="{number(height)}" rx="{radius}" '
        f'fill="{fill}" stroke="{stroke}"{more}/>'
    )


def path(points, stroke=INK, width=1, dash=None, fill="none"):
    drawn = "M" + "L".join(f"{number(x)} {number(y)}" for x, y in points)
    more = f' stroke-dasharray="{dash}"' if dash else ""
    return f'<path d="{drawn}" fill="{fill}" stroke="{stroke}" stroke-width="{width}"{more}/>'


def arrow(points, stroke=INK, width=1.4):
    """A line with a head at its last point; its last part runs straight across or straight down."""
    (before_x, before_y), (x, y) = points[-2], points[-1]
    along_x, along_y = sign(x - before_x), sign(y - before_y)
    base_x, base_y = x - 9 * along_x, y - 9 * along_y
    head = [(x, y), (base_x + 4 * along_y, base_y + 4 * along_x), (base_x - 4 * along_y, base_y - 4 * along_x), (x, y)]
    return path([*points[:-1], (base_x, base_y)], stroke, width) + path(head, stroke, 1, fill=stroke)


def sign(value):
    return (value > 0) - (value < 0)


def circle(x, y, radius, fill, stroke, width=1):
    return f'<circle cx="{number(x)}" cy="{number(y)}" r="{number(radius)}" fill="{fill}" stroke="{stroke}" stroke-width="{width}"/>'


def dot(x, y, is_full):
    return circle(x, y, 4, BLUE, BLUE, 1.2) if is_full else circle(x, y, 4, "white", GREY, 1.2)


def box(x, y, width, height, lines, fill=PALE, stroke=LINE, size=13):
    """A box with lines of text in its middle; a line in backquotes is printed as the gate's own text."""
    parts = [rect(x, y, width, height, fill, stroke, 4)]
    first = y + height / 2 - (len(lines) - 1) * 9 + 4.5
    for index, line in enumerate(lines):
        family = MONO if line.startswith("`") else None
        parts.append(text(x + width / 2, first + 18 * index, line.strip("`"), "middle", size=size, family=family))
    return "\n".join(parts)
