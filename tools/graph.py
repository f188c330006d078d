"""Rows of words as people write them: tags, forms, widths.

Unproved, as all of tools/. What is proved is the checker, which reads the
book's words itself; the widths here only serve comments and explanations.
"""

import re
from itertools import groupby
from typing import Callable, NamedTuple

MAX = 2**64 - 1
CEILING = 4096  # no row is wider
SOURCE_WORDS, TARGET_WORDS, SORT_WORDS = 5, 4, 3
CORE_TAGS = 37


class Shape(NamedTuple):
    """What the rows of some tags have in common."""

    form: str  # how the fields are written; each # is one, in order
    fields: str  # their names
    operands: tuple  # which fields name earlier rows
    width: Callable  # (graph, *fields) to the width, 0 where the rule gives none
    needs: str  # when a row is well formed


def const_width(graph, start, width):
    return width if start + width <= len(graph.bits) else 0


def same_width(graph, a, b):
    return graph.width_at(a) if graph.width_at(a) == graph.width_at(b) else 0


def compare_width(graph, a, b):
    return 1 if same_width(graph, a, b) else 0


def bool_width(graph, *rows):
    return 1 if all(graph.width_at(row) == 1 for row in rows) else 0


def extract_width(graph, high, low, a):
    return high - low + 1 if low <= high < graph.width_at(a) else 0


def concat_width(graph, a, b):
    widths = graph.width_at(a), graph.width_at(b)
    return sum(widths) if all(widths) else 0


def extend_width(graph, a, by):
    return graph.width_at(a) + by if graph.width_at(a) else 0


def ite_width(graph, c, t, e):
    return same_width(graph, t, e) if graph.width_at(c) == 1 else 0


def select_width(graph, array, index, start, count):
    sort, pairs = graph.sorts.of(array), graph.pairs(start, count)
    if sort is None or pairs is None:
        return 0
    indices, values = [index] + [x for x, _ in pairs], [v for _, v in pairs]
    good = (all(graph.width_at(x) == sort.index > 0 for x in indices)
            and all(graph.width_at(v) == sort.cell for v in values))
    return sort.cell if good else 0


def call_width(graph, function, width, start, count):
    arguments = graph.stretch(start, count)
    good = arguments is not None and all(graph.width_at(a) for a in arguments)
    return width if good else 0


VAR = Shape("#", "width", (), lambda graph, width: width, "a width of 1 to 4,096")
CONST = Shape("bits #+#", "start width", (), const_width,
              "a width of 1 to 4,096 and a stretch within the bit list")
BIN = Shape("# #", "a b", (0, 1), same_width, "two earlier rows of one width")
COMPARE = BIN._replace(width=compare_width)
BOOL = BIN._replace(width=bool_width, needs="two earlier rows of width 1")
CONCAT = BIN._replace(width=concat_width,
                      needs="two earlier rows, their widths' sum at most 4,096")
EXTRACT = Shape("high # low # of #", "high low a", (2,), extract_width,
                "low <= high < the width of an earlier row")
EXTEND = Shape("# by #", "a by", (0,), extend_width, "an earlier row, a sum of at most 4,096")
ITE = Shape("# # #", "c a b", (0, 1, 2), ite_width,
            "an earlier row of width 1 and two of one width")
NOT = Shape("#", "a", (0,), bool_width, "an earlier row of width 1")
UN = Shape("#", "a", (0,), lambda graph, a: graph.width_at(a), "an earlier row")
SELECT = Shape("array # index # pairs #+#", "array index start count", (1,), select_width,
               "an earlier index row of the array's index width, and pairs of an earlier index row "
               "of that width and an earlier value row of the array's cell width, at most 4,096")
CALL = Shape("function # width # arguments #+#", "function width start count", (), call_width,
             "a width of 1 to 4,096 and earlier rows as arguments")


class Tag(NamedTuple):
    name: str
    shape: Shape


def tags(names, shape):
    return [Tag(name, shape) for name in names.split()]


# The tags by number, 0 to 38; the last two stand in sources only.
TAGS = (
    tags("Var", VAR) + tags("Const", CONST)
    + tags("Add Sub Mul Udiv Urem And Or Xor Shl Lshr Ashr Rotr", BIN)
    + tags("Extract", EXTRACT) + tags("Concat", CONCAT)
    + tags("ZeroExt SignExt", EXTEND) + tags("Ite", ITE)
    + tags("Eq Ne Ult Ule Ugt Uge Slt Sle Sgt Sge", COMPARE)
    + tags("Not", NOT) + tags("BoolAnd BoolOr", BOOL) + tags("BvNot Neg", UN)
    + tags("Rotl Sdiv Srem", BIN) + tags("Select", SELECT) + tags("Call", CALL)
)


def known_tags(size):
    """The tags of rows of that many words."""
    return TAGS if size == SOURCE_WORDS else TAGS[:CORE_TAGS]


def tag_of(row, size):
    """The tag of a row, or None for words that are no good row."""
    known = known_tags(size)
    if len(row) != size or row[0] >= len(known):
        return None
    tag = known[row[0]]
    return None if any(row[1 + tag.shape.form.count("#"):]) else tag


def word_text(word):
    return "MAX" if word == MAX else str(word)


def words_text(words):
    return " ".join(map(word_text, words))


def fill(form, words):
    """A form with words for its fields."""
    words = iter(words)
    return re.sub("#", lambda _: word_text(next(words)), form)


def row_text(row, size):
    tag = tag_of(row, size)
    if tag is None:
        return "words " + words_text(row)
    return f"{tag.name} {fill(tag.shape.form, row[1:])}"


def counted(count, what):
    return f"{count} {what}" + ("" if count == 1 else "s")


def bits_text(width):
    return counted(width, "bit")


class Function(NamedTuple):
    """All that tells functions apart: one number at other widths is another function."""

    number: int
    count: int  # of arguments
    widths: tuple  # theirs, first to last; 0 where there is no good row
    result: int

    def text(self):
        """As `function 0 of 2 arguments (8, 16 bits) giving 8 bits`."""
        count = f"of {counted(self.count, 'argument')}" if self.count else "without arguments"
        return f"function {word_text(self.number)} {count} {self.widths_text()}"

    def widths_text(self):
        taken = f"({list_text(self.widths)}) " if self.widths else ""
        return f"{taken}giving {bits_text(self.result or '?')}"

    def known(self):
        """Whether every argument is there, and has a width as the result has."""
        return len(self.widths) == self.count and all(self.widths) and self.result > 0

    def namesake(self, other):
        """Whether the two differ in their widths alone."""
        return (self != other and self[:2] == other[:2]
                and self.known() and other.known())


def list_text(widths):
    """Some widths, three and more equal ones in a row told by their number."""
    runs = [(str(width or "?"), len(list(run))) for width, run in groupby(widths)]
    texts = [f"{many} times {width}" if many > 2 else ", ".join([width] * many)
             for width, many in runs]
    return shortened(texts) + (" bit" if widths == (1,) else " bits")


class Sort(NamedTuple):
    """The widths of an array."""

    index: int
    cell: int

    def text(self):
        return f"indices of {bits_text(self.index)}, cells of {bits_text(self.cell)}"


class Sorts:
    """The widths of the arrays, by a sort table or, without one, the same for all."""

    PLAIN = Sort(32, 8)  # without a table

    def __init__(self, entries=None):
        """The entries of a table, the last may be cut; None in a first edition."""
        self.second, self.entries = entries is not None, entries or []
        self.listed = {}
        for entry in self.entries:
            if len(entry) == SORT_WORDS:
                self.listed.setdefault(entry[0], Sort(*entry[1:]))

    def of(self, array):
        """The widths of an array, None where it is not listed."""
        return self.listed.get(array) if self.second else self.PLAIN

    def text(self, array):
        """An array with its widths, or that it has none."""
        name, sort = f"array {word_text(array)}", self.of(array)
        if sort is None:
            return f"{name} is not listed"
        return f"{name}: {sort.text()}" + ("" if self.second else ", as all in a first edition")

    def faults(self, place):
        """What is wrong with an entry: it is cut, does not rise by array, has a width of 0."""
        entry, before = self.entries[place], self.entries[place - 1] if place else None
        if len(entry) < SORT_WORDS:
            return ["an entry is three words"]
        lines = []
        if before and entry[0] <= before[0]:
            lines += [f"array {word_text(entry[0])} is not above array {word_text(before[0])}, "
                      "which stands before it"]
        return lines + [f"the {name} width is 0"
                        for name, width in zip(Sort._fields, entry[1:]) if width == 0]


class Graph:
    """The rows of a source or a target, each with its width."""

    def __init__(self, name, words, size, bits, side=(), sorts=Sorts()):
        self.name, self.size, self.bits, self.side, self.sorts = name, size, bits, side, sorts
        self.rows = [words[at:at + size] for at in range(0, len(words), size)]
        self.widths = []
        for row in self.rows:
            width = self.asked_width(row)
            self.widths.append(width if width <= CEILING else 0)

    def asked_width(self, row):
        """The width that a row would have, also above the ceiling; 0 where its rule gives none."""
        tag = tag_of(row, self.size)
        if tag is None:
            return 0
        return tag.shape.width(self, *row[1:1 + tag.shape.form.count("#")])

    def width_at(self, row):
        """The width of a row, 0 where there is none (yet)."""
        return self.widths[row] if row < len(self.widths) else 0

    def function(self, number, count, rows, result):
        """The function that is applied to some rows."""
        return Function(number, count, tuple(map(self.width_at, rows)), result)

    def stretch(self, start, count):
        """Words of the side list, or None where they end past it."""
        if count and start + count > len(self.side):
            return None
        return self.side[start:start + count] if count else ()

    def pairs(self, start, count):
        words = self.stretch(start, 2 * count)
        return words and tuple(zip(words[::2], words[1::2]))

    def node(self, row):
        """Name and fields of a row; no name where there is no good row."""
        words = self.rows[row] if row < len(self.rows) else ()
        tag = tag_of(words, self.size)
        return (tag.name if tag else None), tuple(words[1:])

    def constant(self, row):
        """The bits of a Const row, else None."""
        name, fields = self.node(row)
        return self.bits[fields[0]:sum(fields[:2])] if name == "Const" else None

    def text(self, row):
        return row_text(self.rows[row], self.size)

    def note(self, row):
        """What the fields do not show: width, constant, pairs, arguments."""
        if tag_of(self.rows[row], self.size) is None:
            return "no good row"
        if not self.widths[row]:
            return "ill-formed"
        return bits_text(self.widths[row]) + self.extra(row)

    def extra(self, row):
        name, fields = self.node(row)
        if name == "Const":
            return constant_text(self.constant(row))
        if name == "Select" and fields[3]:
            pairs = [f"{x} -> {v}" for x, v in self.pairs(*fields[2:])]
            return "; " + shortened(pairs)
        if name == "Call" and fields[3]:
            return " of " + shortened(map(str, self.stretch(*fields[2:])))
        return ""


def constant_text(bits):
    if len(bits) > 256 or max(bits) > 1:
        return ""
    value = int("".join(str(bit) for bit in reversed(bits)), 2)
    return f", value {value:#x}"


def shortened(texts):
    texts = list(texts)
    return ", ".join(texts[:6]) + (", .." if len(texts) > 6 else "")
