"""What an answer of verdict means, and the part of the book that it names.

Unproved; see graph.py. The answer is verdict's. The reasons given beside it are
worked out here, after the scope's rules, for a reader's help.
"""

from itertools import combinations
from typing import NamedTuple, Optional, Union

from graph import (CEILING, CORE_TAGS, MAX, TAGS, Function, bits_text, counted, fill, shortened,
                   tag_of, word_text, words_text)
from listing import (BITS, CALL, EDITIONS, FIRST, READ, SORT, Book, decode, edition_of, entry_text,
                     table_entries, unpack)

LIMIT = 65536  # bytes that verdict reads


# Rows and entries, a line each

def row_line(graph, row):
    if row >= len(graph.rows):
        return (f"{graph.name} row {word_text(row)}: there is none, "
                f"the {graph.name} has {counted(len(graph.rows), 'row')}")
    return f"{graph.name} row {row}: {graph.text(row)} ({graph.note(row)})"


def image_lines(book, row):
    """A source row and its image."""
    image = book.image(row)
    shown = "it has no image" if image == MAX else "its image, " + row_line(book.target, image)
    return [row_line(book.source, row), shown]


class Entry(NamedTuple):
    """A whole entry of the read table or the call table."""

    number: int
    line: str
    variable: int
    symbol: Union[int, Function]  # array, or function with its widths
    rows: tuple  # target rows: the index, the arguments
    constant: Optional[bytes] = None  # of a read's index

    @property
    def key(self):
        return self.symbol, self.rows


def table(name, form, words):
    """The entries of a table, each as a line and its words; the last may be cut."""
    return [(f"{name} entry {k}: {entry_text(form, entry)}", entry)
            for k, entry in enumerate(table_entries(form, words))]


def reads(book):
    return [Entry(k, line, words[0], words[1], words[2:], book.target.constant(words[2]))
            for k, (line, words) in enumerate(table("read", READ, book.reads)) if len(words) == 3]


def calls(book):
    return [Entry(k, line, words[0], *book.call(words))
            for k, (line, words) in enumerate(table("call", CALL, book.calls)) if len(words) == 4]


def owned(entries, variable):
    return [entry.line for entry in entries if entry.variable == variable]


def keyed(entries, key):
    return [entry.line for entry in entries if entry.key == key]


# Functions: by number, count and widths

NO_ROOT = "no root is due between two functions"


def by_function(entries):
    """The numbers of call entries by their function, in order."""
    numbers = {}
    for entry in entries:
        numbers.setdefault(entry.symbol, []).append(str(entry.number))
    return numbers


def applied(function, rows):
    taken = f", with the target rows [{shortened(map(word_text, rows))}]" if rows else ""
    return function.text() + taken


def of_function(function, numbers):
    """Which call entries are of a function."""
    verb = "entry {} is" if len(numbers) == 1 else "entries {} are"
    return f"call {verb.format(shortened(numbers))} of {function.text()}"


def namesakes(entries, function, so):
    """Lines on the entries of functions that differ from one in their widths alone."""
    return few([f"{of_function(other, numbers)}: other widths, another function, {so}"
                for other, numbers in by_function(entries).items() if function.namesake(other)])


def told_apart(entries):
    """Lines on the functions that have number and count in common."""
    alike = {}
    for entry in entries:
        alike.setdefault(entry.symbol[:2], []).append(entry)
    lines = []
    for group in alike.values():
        function, numbers = next(iter(by_function(group).items()))
        others = namesakes(group, function, NO_ROOT)
        lines += [of_function(function, numbers)] + others if others else []
    return few(lines)


def few(lines, most=7):
    """So many lines at most."""
    return lines if len(lines) <= most else lines[:most - 1] + [".. and others"]


# Graphs: 15, 16, 17, 28, 1, 2

def graph_of(book, which):
    return book.source if which == 1 else book.target


def row_count(book, place, detail):
    graph = graph_of(book, place)
    count = sum(map(len, graph.rows))
    return [f"the {graph.name} has {count} words, which is no multiple of {graph.size}"]


def bad_row(book, place, detail):
    graph = graph_of(book, detail)
    lines = [row_line(graph, place)]
    tag = graph.rows[place][0] if place < len(graph.rows) else MAX
    if tag >= (len(TAGS) if detail == 1 else CORE_TAGS):
        return lines + [f"{word_text(tag)} is no tag of a {graph.name} row"]
    used = counted(TAGS[tag].shape.form.count("#"), "field")
    return lines + [f"tag {tag}, {TAGS[tag].name}, has {used}; the others must be 0"]


def bad_bit(book, place, detail):
    graph = graph_of(book, detail)
    return [f"{graph.name} bits, position {place}: {words_text(graph.bits[place:place + 1])}"]


def sort_table(book, place, detail):
    entries = book.sorts.entries
    if place >= len(entries):
        return [f"sort entry {word_text(place)}: there is none"]
    return [f"sort entry {place}: {entry_text(SORT, entries[place])}"] + book.sorts.faults(place)


def ill_formed(graph, place):
    lines = [row_line(graph, place)]
    tag = tag_of(graph.rows[place], graph.size) if place < len(graph.rows) else None
    if tag is None:
        return lines
    fields = graph.rows[place][1:]
    lines += [f"{tag.name} needs {tag.shape.needs}"]
    if tag.name == "Select":
        lines += [array_line(graph.sorts, fields[0])]
    width = graph.asked_width(graph.rows[place])
    if width > CEILING:
        lines += [f"it would have {width:,} bits; no row may have more than {CEILING:,}"]
    named = [fields[k] for k in tag.shape.operands] + side_rows(graph, tag.name, fields)
    if None in named:
        return lines + [f"its stretch ends past the {len(graph.side)} words of its list"]
    return lines + [row_line(graph, row) if row < place
                    else f"{word_text(row)} is no earlier row" for row in named]


def array_line(sorts, array):
    """The widths of an array; where it is not listed, the arrays that are."""
    if sorts.of(array) is None:
        listed = shortened(map(word_text, sorts.listed))
        return sorts.text(array) + (f"; those that are: {listed}" if listed else "; none is")
    return sorts.text(array)


def side_rows(graph, name, fields):
    """The rows that a Select or a Call names in the side list; None where it ends."""
    if name not in ("Select", "Call"):
        return []
    count = fields[3] * 2 if name == "Select" else fields[3]
    rows = graph.stretch(fields[2], count)
    return [None] if rows is None else list(rows)


def ext(book, place, detail):
    return ill_formed(book.source, place)


def core(book, place, detail):
    return ill_formed(book.target, place)


# Map and tables: 3 to 6, 14

def map_length(book, place, detail):
    return [f"the source has {counted(place, 'row')}, the map {counted(detail, 'word')}"]


def matched_row(book, place, detail):
    return image_lines(book, place)


def entry_at(entries, place):
    return entries[place] if place < len(entries) else (f"entry {place}: there is none", ())


def read_table(book, place, detail):
    line, words = entry_at(table("read", READ, book.reads), place)
    if len(words) < 3:
        return [line, "an entry is three words"]
    variable, array, index = words
    return ([line] + read_widths(book, variable, array, index)
            + repeated(reads(book)[:place], reads(book)[place]))


def read_widths(book, variable, array, index):
    """What does not fit the array's widths."""
    line, sort, lines = array_line(book.sorts, array), book.sorts.of(array), []
    if sort is None:
        return [line]
    if book.target.node(variable) != ("Var", (sort.cell, 0, 0)):
        lines += [f"the variable must be a Var of {bits_text(sort.cell)}; "
                  + row_line(book.target, variable)]
    if book.target.width_at(index) != sort.index:
        lines += [f"the index must be a row of {bits_text(sort.index)}; "
                  + row_line(book.target, index)]
    return [line] + lines if lines else []


def call_table(book, place, detail):
    line, words = entry_at(table("call", CALL, book.calls), place)
    if len(words) < 4:
        return [line, "an entry is four words"]
    variable, _, start, count = words
    lines = [line]
    if book.target.node(variable)[0] != "Var":
        lines += ["the variable must be a Var; " + row_line(book.target, variable)]
    if start + count > len(book.arguments):
        lines += [f"the arguments end past the {len(book.arguments)} words of their list"]
    lines += ["an argument must be a row; " + row_line(book.target, row)
              for row in book.arguments[start:start + count] if row >= len(book.target.rows)]
    lines += ["the same variable: " + line for line in owned(reads(book), variable)]
    earlier, entry = calls(book)[:place], calls(book)[place]
    lines += repeated(earlier, entry)
    if keyed(earlier, entry.key):
        lines += ["the key: " + applied(*entry.key)]
    same_rows = [other for other in earlier if other.rows == entry.rows]
    return lines + namesakes(same_rows, entry.symbol, "not the same key")


def repeated(earlier, entry):
    """What an entry has in common with earlier ones."""
    return (["the same variable: " + line for line in owned(earlier, entry.variable)]
            + ["the same key: " + line for line in keyed(earlier, entry.key)])


def dead_entry(book, place, detail):
    return [row_line(book.target, place)] + owned(reads(book) + calls(book), place)


# Rows: 4, 7 to 11

def var_class(book, place, detail):
    image = book.image(place)
    others = [row_line(book.source, row) for row, other in enumerate(book.map[:place])
              if other == image and book.source.node(row)[0] == "Var"]
    others += owned(reads(book) + calls(book), image)
    return (image_lines(book, place) + ["it must be a Var of the same width, and nothing else's"]
            + ["also its: " + line for line in others])


def mapped(book, row):
    """A source row with its operands' images, as text."""
    tag = tag_of(book.source.rows[row], book.source.size)
    fields = list(book.source.rows[row][1:])
    for k in tag.shape.operands:
        fields[k] = book.image(fields[k])
    text = f"{tag.name} {fill(tag.shape.form, fields)}"
    return text + (", MAX being an operand without image" if MAX in fields else "")


def node_mismatch(book, place, detail):
    lines = image_lines(book, place)
    if book.source.node(place)[0]:
        lines += ["it must be " + mapped(book, place)]
    return lines


def chain_mismatch(book, place, detail):
    """The walk along a Select's pairs, down to where it fails."""
    lines, (name, fields) = image_lines(book, place), book.source.node(place)
    if name != "Select":
        return lines
    array, index = fields[:2]
    at = book.image(place)
    for k, (pair_index, value) in enumerate(book.source.pairs(*fields[2:]) or ()):
        lines += [f"pair {k}, index row {pair_index}, value row {value}:"]
        constants = book.source.constant(pair_index), book.source.constant(index)
        if None in constants:
            step, at = store_step(book, index, pair_index, value, at)
            lines += step
            if at is None:
                return lines
        elif constants[0] == constants[1]:
            return lines + [f"  equal constants end the walk: target row {word_text(at)} must be "
                            f"the value's image, {word_text(book.image(value))}"]
        else:
            lines += ["  unequal constants, passed over"]
    lines += [f"no pair is left: target row {word_text(at)} must be the variable of a read "
              f"of array {array} at target row {word_text(book.image(index))}",
              row_line(book.target, at)]
    return lines + registered(reads(book), at, (array, (book.image(index),)))


def store_step(book, index, pair_index, value, at):
    """What a pair asks of a target row, and the row behind it, None if it fails."""
    name, fields = book.target.node(at)
    equal, first = (book.image(pair_index), book.image(index)), book.image(value)
    condition = ("Eq", equal + (0,))
    if name == "Ite" and fields[1] == first and book.target.node(fields[0]) == condition:
        return [f"  target row {at} is its Ite"], fields[2]
    need = (f"  target row {word_text(at)} must be an Ite over Eq {words_text(equal)} "
            f"with {word_text(first)} first")
    seen = [at, fields[0]] if name == "Ite" else [at]
    return [need] + ["  " + row_line(book.target, row) for row in seen], None


def call_mismatch(book, place, detail):
    lines, (name, fields) = image_lines(book, place), book.source.node(place)
    if name != "Call":
        return lines
    number, width, start, count = fields
    arguments = book.source.stretch(start, count) or ()
    images = tuple(map(book.image, arguments))
    called = book.source.function(number, count, arguments, width)
    lines += [f"it must be a Var of {bits_text(width)}, the variable of a call of "
              + applied(called, images)]
    meant, image = book.target.function(number, count, images, width), book.image(place)
    found = [entry for entry in calls(book) if entry.variable == image]
    return (lines + registered(calls(book), image, (meant, images))
            + namesakes(found, meant, "not the one that is called"))


def registered(entries, variable, key):
    """The entry of a variable and the entry of a key."""
    lines = ["the entry of that row: " + line for line in owned(entries, variable)]
    named = ["the entry that is meant: " + line for line in keyed(entries, key)]
    return lines + (named or ["there is no such entry"])


# Roots: 12, 13, 19

def due(book):
    """The pairs of entries that need a congruence root, in order."""
    for entries in (reads(book), calls(book)):
        for first, second in combinations(entries, 2):
            constants = first.constant, second.constant
            unequal = None not in constants and constants[0] != constants[1]
            if first.symbol == second.symbol and not unequal:
                yield first, second


def due_text(first, second):
    """The congruence root of two entries."""
    equal = [f"Eq({a}, {b})" for a, b in zip(first.rows, second.rows)]
    left = equal[0] if equal else "no arguments"
    for text in equal[1:]:
        left = f"BoolAnd({left}, {text})"
    return f"BoolOr(Not({left}), Eq({first.variable}, {second.variable}))"


def root_line(graph, roots, position):
    if position >= len(roots):
        return f"{graph.name} root {position}: there is none, the list has {len(roots)}"
    return f"{graph.name} root {position}: " + row_line(graph, roots[position])


def target_root_line(book, position):
    return root_line(book.target, book.target_roots, position)


def root_mismatch(book, place, detail):
    leading = len(book.roots)
    images = tuple(map(book.image, book.roots))
    if MAX not in images and images == book.target_roots[:leading]:
        count = sum(1 for _ in due(book))
        return [f"{leading} leading and {counted(count, 'congruence root')} are due, "
                f"the target has {len(book.target_roots)}; left over from here:",
                target_root_line(book, leading + count)] + told_apart(calls(book))
    if place >= leading:
        return [f"source root {place}: there is none"]
    return ([f"source root {place}:"] + image_lines(book, book.roots[place])
            + [target_root_line(book, place)])


def below(graph, root):
    """The rows that a root names, through Boolean rows, as far as a few lines reach."""
    rows = [root]
    for row in rows:
        name, fields = graph.node(row)
        if name in ("BoolOr", "BoolAnd", "Not"):
            named = fields[:1] if name == "Not" else fields[:2]
            rows += [operand for operand in named if operand not in rows][:12 - len(rows)]
    return rows[1:]


def congruence_mismatch(book, place, detail):
    lines = [target_root_line(book, place)]
    for root in book.target_roots[place:place + 1]:
        lines += [row_line(book.target, row) for row in below(book.target, root)]
    for position, (first, second) in enumerate(due(book), len(book.roots)):
        if position == place:
            return (lines + ["due there: " + due_text(first, second), first.line, second.line]
                    + common_function(book, first.symbol))
    return lines


def common_function(book, symbol):
    """The function of two calls, and those of its number and count that are others."""
    if not isinstance(symbol, Function):
        return []
    return [f"both are of {symbol.text()}"] + namesakes(calls(book), symbol, NO_ROOT)


def bad_root(book, place, detail):
    graph, roots = graph_of(book, detail), book.roots if detail == 1 else book.target_roots
    lines = [root_line(graph, roots, place)]
    width = graph.width_at(roots[place]) if place < len(roots) else 0
    if width < 2:
        return lines + ["the strict check asks for a row of one bit"]
    lines += ["the strict check asks for one bit; Check takes any width, and a value of 1 for true"]
    one_bit = f"in one bit that is Eq of the row and a constant 1 of {bits_text(width)}"
    return lines + ([one_bit] if detail == 1 else [])


# Shape: 20

def shape_lines(data, place):
    """Why a book is none, by the place of 20."""
    if place == 13:
        return [f"the book has {len(data)} bytes; verdict reads at most {LIMIT}"]
    edition = edition_of(data)
    lines = [f"section 1 starts at {edition.contents}, as in the {edition.name} edition, which "
             f"has {len(edition.sections)} sections"] if edition else []
    if place == 0:
        return lines + [f"the book has {len(data)} bytes, its contents alone take "
                        f"{(edition or FIRST).contents}"]
    if edition is None:
        starts = [f"{known.contents} ({known.name} edition)" for known in EDITIONS]
        return [f"section 1 starts at {words_text(unpack(data[:8]))}; "
                f"it must start at {' or '.join(starts)}"]
    return lines + section_shape(data, edition, place)


def section_shape(data, edition, place):
    """What is wrong with a section, or behind the last one."""
    if len(data) < edition.contents:
        return []
    end = edition.contents + sum(map(len, decode(data)[0][:place - 1]))
    if place == edition.left:
        return [f"the sections end at byte {end}, the book has {len(data)}"]
    if place > len(edition.sections):
        return []
    start, length = unpack(data[:edition.contents])[2 * place - 2:2 * place]
    section = edition.sections[place - 1]
    whole = "" if section.form == BITS else ", be whole words of 8 bytes"
    return [f"section {place}, {section.name}: start {start}, length {length}",
            f"it must start at {end}{whole} and end within the book's {len(data)} bytes"]


def text_lines(data):
    """A hint where text was given for a book, whose contents hold bytes 0."""
    if not data or b"\0" in data:
        return []
    return ["this looks like text; `tools/book.py make` makes a book of a listing"]


# Answers

def accepted(book, strict):
    leading = len(book.roots)
    added = ["every root, of source and target, is a row of one bit"] if strict else []
    if book.sorts.second:
        added += [f"second edition: {counted(len(book.sorts.entries), 'array')} listed"]
    return ["either both source and target are satisfiable, or neither is", *added,
            f"source: {counted(len(book.source.rows), 'row')}, {counted(leading, 'root')}",
            f"target: {counted(len(book.target.rows), 'row')}, {counted(leading, 'leading root')}, "
            f"{counted(len(book.target_roots) - leading, 'congruence root')}",
            f"{counted(len(reads(book)), 'read')} and {counted(len(calls(book)), 'call')} "
            "became variables"] + told_apart(calls(book))


# Number: name, meaning, what shows its place.
ANSWERS = {
    1: ("Ext", "a source row is ill-formed", ext),
    2: ("Core", "a target row is ill-formed", core),
    3: ("MapLength", "the map has not one word a source row", map_length),
    4: ("MapOutOfRange", "a source row is mapped past the target", matched_row),
    5: ("ReadTable", "a read entry is bad", read_table),
    6: ("CallTable", "a call entry is bad", call_table),
    7: ("VarClass", "a variable's image is not a free variable of its width", var_class),
    8: ("ConstMismatch", "a constant's image is not the same constant", matched_row),
    9: ("NodeMismatch", "a row's image is not the same operator over the images", node_mismatch),
    10: ("ChainMismatch", "a Select's image is not its lowering", chain_mismatch),
    11: ("CallMismatch", "a Call's image is not its variable", call_mismatch),
    12: ("RootMismatch", "a source root's image is not the target's root, or roots are left over",
         root_mismatch),
    13: ("CongruenceMismatch", "a target root is not the congruence root due", congruence_mismatch),
    14: ("DeadEntry", "no source row reaches an entry's variable", dead_entry),
    15: ("RowCount", "a graph's words are no whole rows", row_count),
    16: ("BadRow", "a row has an unknown tag, or an unused field that is not 0", bad_row),
    17: ("BadBit", "a bit is neither 0 nor 1", bad_bit),
    18: ("WorkShort", "a work list is too short", lambda book, place, detail: []),
    19: ("BadRoot", "a root is not a row of one bit", bad_root),
    28: ("SortTable", "an entry of the sort table is cut, does not rise by array, or has a width "
         "of 0", sort_table),
}


def explain(data, answer, strict=False):
    """Lines about the answer (number, place, detail) of verdict, or the strict one, to a book."""
    number, place, detail = answer
    if number == 20:
        return ["20 BookShape: the bytes are no book"] + shape_lines(data, place) + text_lines(data)
    bodies, bad = decode(data)
    if bad is not None:
        return ["the bytes are no book, yet the answer is not 20"]
    if number == 0:
        return accepted(Book(bodies), strict)
    book = Book(bodies)
    if number not in ANSWERS or (number == 19 and detail not in (1, 2)):
        return [f"{number} is no answer to a book"]
    if number == 28 and not book.sorts.second:
        return ["28 is no answer to a book of the first edition"]
    name, meaning, show = ANSWERS[number]
    return [f"{number} {name}: {meaning}"] + show(book, place, detail)
