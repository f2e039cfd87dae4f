"""Makes a picture, as SVG, of a text that shows it in a terminal. The first line of the text is the picture's title; below it each sign stands at its place:

  ─ │ ┌ ┐ └ ┘ ├ ┤ ┬ ┴ ┼    lines; what they close, from a ┌ to its ┘, is a box and is filled
  ═ ║ ╔ ╗ ╚ ╝ ╟ ╢ ╤ ╧       the same, of a box that the picture is about, with lines that leave it
  ┄ ┆                       lines of what stands in contracts alone
  ━ ┿                       the span of a call, and where a line crosses one
  ► ◄ ▼ ▲                   the heads of arrows
  ○ ●                       events, the second a linearization point
  *words*                   in bold

All else is text, in one piece up to two spaces or a line."""

import glob
import os
import re
from html import escape

from layers import layers
from pages import is_kept
from rattle import text_of

LAYERS = "docs/pictures/layers.txt"
WIDE, HIGH, MARGIN, SIZE = 9, 19, 18, 14.9
LEFT, RIGHT, UP, DOWN = (-1, 0), (1, 0), (0, -1), (0, 1)
INK, PAPER, BOX, ABOUT, POINT, FAINT = "#1f2937", "#ffffff", "#eef2f7", "#fdf0d5", "#c2410c", "#64748b"
STYLES = {
    "line": f'stroke="{INK}" stroke-width="1.2"',
    "about": f'stroke="{POINT}" stroke-width="2"',
    "ghost": f'stroke="{FAINT}" stroke-width="1.2" stroke-dasharray="3 4"',
    "span": f'stroke="{INK}" stroke-width="4"',
}
ARMS = {
    "─": (LEFT, RIGHT), "│": (UP, DOWN), "┌": (RIGHT, DOWN), "┐": (LEFT, DOWN), "└": (RIGHT, UP), "┘": (LEFT, UP),
    "├": (UP, DOWN, RIGHT), "┤": (UP, DOWN, LEFT), "┬": (LEFT, RIGHT, DOWN), "┴": (LEFT, RIGHT, UP), "┼": (LEFT, RIGHT, UP, DOWN),
    "═": (LEFT, RIGHT), "║": (UP, DOWN), "╔": (RIGHT, DOWN), "╗": (LEFT, DOWN), "╚": (RIGHT, UP), "╝": (LEFT, UP),
    "┄": (LEFT, RIGHT), "┆": (UP, DOWN), "━": (LEFT, RIGHT),
}
STYLE = {**dict.fromkeys("─│┌┐└┘├┤┬┴┼", "line"), **dict.fromkeys("═║╔╗╚╝", "about"), **dict.fromkeys("┄┆", "ghost"), "━": "span"}
CROSSED = {
    "┿": {LEFT: "span", RIGHT: "span", UP: "line", DOWN: "line"},
    "╟": {UP: "about", DOWN: "about", RIGHT: "line"}, "╢": {UP: "about", DOWN: "about", LEFT: "line"},
    "╤": {LEFT: "about", RIGHT: "about", DOWN: "line"}, "╧": {LEFT: "about", RIGHT: "about", UP: "line"},
}
HEADS = {"►": LEFT, "◄": RIGHT, "▼": UP, "▲": DOWN}
DOTS = {"○": PAPER, "●": POINT}
CORNERS = {"┌": ("┐", "└", "┘"), "╔": ("╗", "╚", "╝")}
DRAWN = "".join([*ARMS, *CROSSED, *HEADS, *DOTS])
PIECE = re.compile(rf"\*[^*{DRAWN}]+\*|[^\s*{DRAWN}]+(?: [^\s*{DRAWN}]+)*")


class Grid:
    """The signs of a text, by column and row."""

    def __init__(self, lines):
        """Takes in the lines of a text."""
        self.lines = lines
        self.wide = max(len(it) for it in lines)

    def at(self, column, row):
        """Returns the sign at a place."""
        inside = 0 <= row < len(self.lines) and 0 <= column < len(self.lines[row])
        return self.lines[row][column] if inside else " "

    def places(self, signs):
        """Yields each place with one of these signs, and the sign."""
        for row, line in enumerate(self.lines):
            yield from ((column, row, sign) for column, sign in enumerate(line) if sign in signs)

    def arms(self, column, row):
        """Yields each direction in which a line goes from a place, with its style. A dot or a head takes the style of the line that comes to it."""
        sign = self.at(column, row)
        yield from CROSSED.get(sign, {}).items()
        yield from ((it, STYLE[sign]) for it in ARMS.get(sign, ()))
        for it in (LEFT, RIGHT, UP, DOWN) if sign in DOTS else (HEADS[sign],) if sign in HEADS else ():
            beside = self.at(column + it[0], row + it[1])
            if (-it[0], -it[1]) in ARMS.get(beside, ()):
                yield it, STYLE[beside]
            elif (-it[0], -it[1]) in CROSSED.get(beside, ()):
                yield it, CROSSED[beside][-it[0], -it[1]]

    def ends(self, column, row, step, sign, through):
        """Returns the place where a line from a corner comes to a sign, if nothing else than what leads on stands in between."""
        while True:
            column, row = column + step[0], row + step[1]
            found = self.at(column, row)
            if found == sign:
                return column, row
            if found not in through:
                return None

    def boxes(self):
        """Yields the corners of each box, the greatest first."""
        found = []
        for column, row, sign in self.places(CORNERS):
            right, below, last = CORNERS[sign]
            top = self.ends(column, row, RIGHT, right, "─┬┴┼═╤╧▼▲")
            side = self.ends(column, row, DOWN, below, "│├┤┼║╟╢►◄")
            if top and side and self.at(top[0], side[1]) == last:
                found.append((column, row, top[0], side[1], sign))
        return sorted(found, key=lambda it: -(it[2] - it[0]) * (it[3] - it[1]))


def middle(column, row):
    """Returns where the middle of a place is."""
    return MARGIN + (column + 0.5) * WIDE, MARGIN + (row + 0.5) * HIGH


def short(number):
    """Returns a number with a digit behind the point at the most."""
    return f"{number:.1f}".removesuffix(".0")


def boxes(grid):
    """Yields each box, filled."""
    for left, top, right, bottom, sign in grid.boxes():
        (x, y), (to_x, to_y) = middle(left, top), middle(right, bottom)
        yield f'<rect x="{short(x)}" y="{short(y)}" width="{short(to_x - x)}" height="{short(to_y - y)}" fill="{BOX if sign == "┌" else ABOUT}"/>'


def strokes(grid):
    """Yields a line for each row of arms that follow one another, of one style."""
    half = {}
    for column, row, _ in grid.places(DRAWN):
        for (x, y), style in grid.arms(column, row):
            across = 2 * column + (x > 0) if x else 2 * row + (y > 0)
            half.setdefault((style, bool(x), row if x else column), []).append(across)
    for (style, is_level, of), parts in sorted(half.items()):
        for first, last in runs(sorted(parts)):
            yield stroke(style, is_level, of, first, last)


def runs(numbers):
    """Returns the first and the last of each run of numbers without a gap."""
    found = []
    for it in numbers:
        if found and it - found[-1][1] <= 1:
            found[-1][1] = it
        else:
            found.append([it, it])
    return found


def stroke(style, is_level, of, first, last):
    """Returns a line from the half place `first` to the half place `last`."""
    size = WIDE if is_level else HIGH
    start, end = (MARGIN + it * size / 2 for it in (first, last + 1))
    across = MARGIN + (of + 0.5) * (HIGH if is_level else WIDE)
    path = f"M{short(start)} {short(across)}H{short(end)}" if is_level else f"M{short(across)} {short(start)}V{short(end)}"
    return f'<path d="{path}" fill="none" stroke-linecap="{"butt" if style == "span" else "square"}" {STYLES[style]}/>'


def marks(grid):
    """Yields the heads of arrows, and the dots of events."""
    for column, row, sign in grid.places([*HEADS, *DOTS]):
        x, y = middle(column, row)
        if sign in DOTS:
            yield f'<circle cx="{short(x)}" cy="{short(y)}" r="{6.5 if sign == "●" else 4.5}" fill="{DOTS[sign]}" stroke="{POINT if sign == "●" else INK}" stroke-width="1.8"/>'
            continue
        tail_x, tail_y = HEADS[sign]
        tip = (x - 5 * tail_x, y - 6 * tail_y)
        sides = [(x + 5 * tail_x + 4.5 * side * tail_y, y + 5 * tail_y + 4.5 * side * tail_x) for side in (1, -1)]
        yield f'<path d="M{" L".join(f"{short(at_x)} {short(at_y)}" for at_x, at_y in (tip, *sides))}Z" fill="{INK}"/>'


def words(grid):
    """Yields the pieces of text, each as wide as it is in the terminal."""
    for row, line in enumerate(grid.lines):
        for found in PIECE.finditer(line):
            is_bold = found[0].startswith("*") and found[0].endswith("*") and len(found[0]) > 2
            text = found[0].strip("*") if is_bold else found[0]
            x, y = MARGIN + (found.start() + is_bold) * WIDE, MARGIN + (row + 0.5) * HIGH + 0.34 * SIZE
            weight = ' font-weight="bold"' if is_bold else ""
            yield f'<text x="{short(x)}" y="{short(y)}" textLength="{len(text) * WIDE}" lengthAdjust="spacingAndGlyphs"{weight}>{escape(text)}</text>'


def svg_of(text):
    """Returns the picture of a text."""
    title, *lines = text.rstrip("\n").split("\n")
    grid = Grid(lines[1:])
    width, height = 2 * MARGIN + grid.wide * WIDE, 2 * MARGIN + len(grid.lines) * HIGH
    return "\n".join([
        f'<svg xmlns="http://www.w3.org/2000/svg" viewBox="0 0 {width} {height}" width="{width}" height="{height}" role="img">',
        f"<title>{escape(title)}</title>",
        f'<rect width="{width}" height="{height}" rx="6" fill="{PAPER}"/>',
        *boxes(grid), *strokes(grid), *marks(grid),
        f'<g font-family="DejaVu Sans Mono, Menlo, Consolas, monospace" font-size="{SIZE}" fill="{INK}">', *words(grid), "</g>",
        "</svg>",
    ]) + "\n"


def pictures():
    """Yields the path of each picture of docs/pictures/ with what it has to be: nothing where it has no text. The text of the layers, which is made too, comes first."""
    yield LAYERS, layers()
    for path in sorted({f"{it.rpartition('.')[0]}.svg" for it in glob.glob("docs/pictures/*")}):
        of = path.replace(".svg", ".txt")
        yield path, svg_of(text_of(of)) if os.path.exists(of) else ""


def out_of_date():
    """Yields a line for each picture that is not what its text says, or what crates.txt does."""
    for path, made in pictures():
        if not is_kept(path, made):
            yield f"{path} is not what {'crates.txt' if path == LAYERS else 'its text'} says: run .ci/draw, and look at it"
