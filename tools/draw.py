"""A book as a picture: source on the left, target on the right, the map between.

Unproved; see graph.py. A row is a line, as in the listing, so that no line of the
picture crosses a box. Rows stand in layers: a row without operands outermost, any
other further in than its operands. A row's value runs down a lane of its own at
the outer side, with a branch to each row that takes it.
"""

import html
import re
from typing import NamedTuple

from explain import calls, reads
from graph import MAX, fill, tag_of, word_text, words_text
from listing import Book

LINE = 26  # pixels from row to row
BOX = 20  # height of a box
LETTER = 7.3  # width of a letter
PAD = 6  # between a box and its text
INDENT = 16  # between layers
LANE = 8  # between lanes
EDGE = 14  # around the picture
GAP = 110  # between the graphs
TOP = 48  # above the first row
LONGEST = 72  # letters in a box
SHOWN = 6  # arrays below the picture

STYLE = """\
text { font: 12px monospace; fill: #222; }
.head { font-weight: bold; }
.note { fill: #777; }
.box { fill: #f4f4f4; stroke: #888; }
.read { fill: #cfe4ff; }
.call { fill: #d4efcf; }
.unmapped { fill: #fff; stroke-dasharray: 3 3; }
.root { stroke: #222; stroke-width: 2.5; }
.congruence { stroke: #222; stroke-width: 2.5; stroke-dasharray: 6 3; }
.lane { fill: none; stroke: #999; }
.tip { fill: #888; }
.map { fill: none; stroke: #c2410c; stroke-width: 0.8; }"""


class Row(NamedTuple):
    text: str
    note: str
    style: str  # classes of its box
    operands: tuple  # earlier rows


# What stands in the boxes

def operands(graph, row):
    """The earlier rows that a row names, its side list's too."""
    words = graph.rows[row]
    tag = tag_of(words, graph.size)
    if tag is None:
        return ()
    fields = words[1:]
    named = [fields[k] for k in tag.shape.operands]
    if tag.name == "Select":
        named += [x for pair in graph.pairs(*fields[2:]) or () for x in pair]
    if tag.name == "Call":
        named += graph.stretch(*fields[2:]) or ()
    return tuple(dict.fromkeys(x for x in named if x < row))


def cut(text, most=LONGEST):
    return text if len(text) <= most else text[:most - 2] + ".."


def row_text(graph, row):
    """A row as in its listing, but for the stretch of a list that it names."""
    words = graph.rows[row]
    tag = tag_of(words, graph.size)
    if tag is None:
        return f"{row}: words {words_text(words)}"
    form = re.sub(r" ?(bits|pairs|arguments) #\+#", "", tag.shape.form)
    return f"{row}: {tag.name} {fill(form, words[1:])}".rstrip()


def row_note(graph, row):
    return "" if graph.node(row)[0] == "Var" and graph.widths[row] else graph.note(row)


def joined(*notes):
    return cut("; ".join(note for note in notes if note))


def root_notes(roots, leading):
    """By row, what kind of root it is first, and its positions."""
    notes = {}
    for position, row in enumerate(roots):
        style, places = notes.setdefault(row, ("root" if position < leading else "congruence", []))
        places.append(position)
    return {row: (style, "root " + ", ".join(map(str, places)))
            for row, (style, places) in notes.items()}


def source_row(book, row, roots):
    image = book.image(row)
    style, root = roots.get(row, ("", ""))
    lost = "" if image < len(book.target.rows) else (
        "no image" if image == MAX else f"image {word_text(image)}, past the target")
    style = " ".join(filter(None, ["box", "unmapped" if lost else "", style]))
    return Row(row_text(book.source, row), joined(row_note(book.source, row), lost, root), style,
               operands(book.source, row))


def table_notes(book):
    """By target row, the table whose variable it is, and the entry."""
    notes = {}
    for entry in reads(book):
        notes.setdefault(entry.variable, (
            "read", f"array {entry.symbol} at {words_text(entry.rows)}"))
    functions = {entry.symbol for entry in calls(book)}
    for entry in calls(book):
        notes.setdefault(entry.variable, ("call", call_note(entry, functions)))
    return notes


def call_note(entry, functions):
    """What is called; its widths too where another function has its number and count."""
    function, rows = entry.symbol, words_text(entry.rows)
    widths = " " + function.widths_text() if any(map(function.namesake, functions)) else ""
    return f"function {function.number} of [{rows}]{widths}"


def target_row(book, row, roots, entries):
    style, root = roots.get(row, ("", ""))
    table, entry = entries.get(row, ("", ""))
    style = " ".join(filter(None, ["box", table, style]))
    return Row(row_text(book.target, row), joined(row_note(book.target, row), entry, root), style,
               operands(book.target, row))


def rows_of(book):
    """The rows of source and target, as they are drawn."""
    roots = root_notes(book.roots, len(book.roots))
    target_roots = root_notes(book.target_roots, len(book.roots))
    entries = table_notes(book)
    return ([source_row(book, row, roots) for row in range(len(book.source.rows))],
            [target_row(book, row, target_roots, entries)
             for row in range(len(book.target.rows))])


# Where it stands

def layers(rows):
    depth = []
    for row in rows:
        depth.append(1 + max((depth[operand] for operand in row.operands), default=-1))
    return depth


def users(rows):
    """By row, the rows that take it."""
    taken = [[] for _ in rows]
    for at, row in enumerate(rows):
        for operand in row.operands:
            taken[operand].append(at)
    return taken


def lanes(taken):
    """A lane for each row that is taken, so that no two overlap; short ones inside."""
    lane, ends = {}, []
    spans = [(after[-1] - row, row, after[-1]) for row, after in enumerate(taken) if after]
    for _, row, last in sorted(spans):
        for number, used in enumerate(ends):
            if all(last < first or row > end for first, end in used):
                break
        else:
            number = len(ends)
            ends.append([])
        ends[number].append((row, last))
        lane[row] = number
    return lane


class Side:
    """A graph's rows with their places. The source's lanes are left, the target's right."""

    def __init__(self, rows, left):
        self.rows, self.left = rows, left
        self.layer, self.taken = layers(rows), users(rows)
        self.lane = lanes(self.taken)
        self.widths = [box_width(row) for row in rows]
        self.outer = LANE * (len(set(self.lane.values())) + 2)
        boxes = [width + INDENT * layer for width, layer in zip(self.widths, self.layer)]
        self.width = self.outer + max(boxes, default=box_width(Row("no rows", "", "", ())))
        self.height = LINE * max(len(rows), 1)
        self.x = 0  # its left end

    def start(self, row):
        """The left edge of a row's box."""
        if self.left:
            return self.x + self.outer + INDENT * self.layer[row]
        return self.x + self.width - self.outer - INDENT * self.layer[row] - self.widths[row]

    def outer_edge(self, row):
        return self.start(row) + (0 if self.left else self.widths[row])

    def inner_edge(self, row):
        return self.start(row) + (self.widths[row] if self.left else 0)

    def lane_x(self, row):
        away = LANE * (self.lane[row] + 2)
        if self.left:
            return self.x + self.outer - away
        return self.x + self.width - self.outer + away


def box_width(row):
    letters = len(row.text) + (len(row.note) + 2 if row.note else 0)
    return round(letters * LETTER + 2 * PAD)


def middle(row):
    return TOP + LINE * row + BOX // 2


# Lines of SVG

def text_line(x, y, text, style=""):
    kind = f' class="{style}"' if style else ""
    return f'<text x="{x}" y="{y}"{kind}>{html.escape(text, quote=False)}</text>'


def box_lines(side, row):
    x, y, shown = side.start(row), middle(row), side.rows[row]
    yield (f'<rect x="{x}" y="{y - BOX // 2}" width="{side.widths[row]}" height="{BOX}" rx="3" '
           f'class="{shown.style}"/>')
    note = f'<tspan class="note">  {html.escape(shown.note, quote=False)}</tspan>'
    yield (f'<text x="{x + PAD}" y="{y + 4}" xml:space="preserve">'
           f'{html.escape(shown.text, quote=False)}{note if shown.note else ""}</text>')


def lane_lines(side, row):
    """A row's lane, down to the last row that takes it, and its branches."""
    if not side.taken[row]:
        return
    x, sign = side.lane_x(row), 1 if side.left else -1
    path = f"M{side.outer_edge(row)} {middle(row) + 4}H{x}V{middle(side.taken[row][-1]) - 4}"
    for user in side.taken[row]:
        path += f"M{x} {middle(user) - 4}H{side.outer_edge(user)}"
    yield f'<path d="{path}" class="lane"/>'
    for user in side.taken[row]:
        tip, y = side.outer_edge(user), middle(user) - 4
        yield f'<path d="M{tip} {y}L{tip - 6 * sign} {y - 3}V{y + 3}Z" class="tip"/>'
        if user != side.taken[row][-1]:
            yield f'<circle cx="{x}" cy="{y}" r="2" class="tip"/>'


def map_lines(book, source, target):
    """From each source row to its image: straight to the middle, then across."""
    left, right = source.x + source.width, target.x
    for row in range(len(source.rows)):
        image = book.image(row)
        if image < len(target.rows):
            yield (f'<path d="M{source.inner_edge(row)} {middle(row)}H{left}'
                   f'L{right} {middle(image)}H{target.inner_edge(image)}" class="map"/>')


LEGEND = (
    ("box", "red line: a source row and its image"),
    ("unmapped", "broken box: a source row without image"),
    ("read", "blue: the variable that a read from memory became"),
    ("call", "green: the variable that a call became"),
    ("root", "thick: a root, to be 1"),
    ("congruence",
     "thick and broken: a congruence root, equal indices or arguments give equal values"),
)


def legend(rows):
    """What the marks mean that the picture has."""
    styles = {style for row in rows for style in row.style.split()}
    return [text for style, text in LEGEND if style in styles]


def sort_notes(book):
    """The widths of the arrays that a second edition lists, the first few."""
    arrays = list(book.sorts.listed)
    return ([book.sorts.text(array) for array in arrays[:SHOWN]]
            + ([f".. and {len(arrays) - SHOWN} more"] if len(arrays) > SHOWN else []))


def draw(bodies):
    """The picture of a book's bodies."""
    book = Book(bodies)
    rows, target_rows = rows_of(book)
    source, target = Side(rows, True), Side(target_rows, False)
    source.x, target.x = EDGE, EDGE + source.width + GAP
    notes = legend(rows + target_rows) + sort_notes(book)
    width = max(target.x + target.width + EDGE,
                2 * EDGE + round(LETTER * max(map(len, notes), default=0)))
    bottom = TOP + max(source.height, target.height)
    height = bottom + 18 * len(notes) + EDGE
    lines = [f'<svg xmlns="http://www.w3.org/2000/svg" width="{width}" height="{height}" '
             f'viewBox="0 0 {width} {height}">',
             f"<style>\n{STYLE}\n</style>",
             f'<rect width="{width}" height="{height}" fill="#fff"/>']
    for side, name in ((source, "source"), (target, "target")):
        at = side.x + (side.outer if side.left else 0)
        lines += [text_line(at, EDGE + 16, name, "head")]
    lines += map_lines(book, source, target)
    for side in (source, target):
        for row in range(len(side.rows)):
            lines += lane_lines(side, row)
        for row in range(len(side.rows)):
            lines += box_lines(side, row)
    lines += [text_line(EDGE, bottom + 14 + 18 * at, note, "note") for at, note in enumerate(notes)]
    return "\n".join(lines + ["</svg>"]) + "\n"
