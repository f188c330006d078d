"""Books, and listings: their text form. docs/BOOKS.md has both formats.

Unproved; see graph.py.
"""

import difflib
import re
import struct
from typing import NamedTuple

from graph import (MAX, SORT_WORDS, SOURCE_WORDS, TARGET_WORDS, Graph, Sorts, fill, known_tags,
                   word_text, words_text)

BITS, ROW, PLAIN = "bits", "row", "plain"
READ = "variable # array # index #"
CALL = "variable # function # arguments #+#"
SORT = "array # index width # cell width #"


class Section(NamedTuple):
    name: str
    size: int  # words a line stands for
    form: str  # BITS, ROW, PLAIN or the form of an entry
    holds: str


SECTIONS = (
    Section("source", SOURCE_WORDS, ROW, "rows, over earlier ones"),
    Section("source bits", 1, BITS, "bits of the Const rows, lowest first"),
    Section("pairs and arguments", 1, PLAIN,
            "source rows: index and value of pairs, arguments of calls"),
    Section("source roots", 1, PLAIN, "source rows, each to be 1"),
    Section("map", 1, PLAIN, "the target row of each source row, - for none"),
    Section("reads", 3, READ, "variable and index are target rows"),
    Section("calls", 4, CALL, "variables are target rows"),
    Section("call arguments", 1, PLAIN, "target rows"),
    Section("target", TARGET_WORDS, ROW, "rows, over earlier ones"),
    Section("target bits", 1, BITS, "bits of the Const rows, lowest first"),
    Section("target roots", 1, PLAIN,
            "target rows: images of the source roots, congruence roots"),
    Section("sorts", SORT_WORDS, SORT, "the widths of arrays, rising by array"),
)
MAP, SORTS = SECTIONS[4], SECTIONS[11]
LOOKS = ("a listing is a section's name on a line of its own, with its lines below, as "
         "`source`, then `0: Var 32`; samples/*.txt are listings, docs/BOOKS.md has the form")


class Edition(NamedTuple):
    """A form of book. The sort table makes it the second."""

    name: str
    sections: tuple
    left: int  # the place of 20 for bytes left over

    @property
    def contents(self):
        """Bytes of the table of contents; there the first section starts."""
        return 16 * len(self.sections)


FIRST, SECOND = EDITIONS = (Edition("first", SECTIONS[:11], 12), Edition("second", SECTIONS, 14))


class BadListing(Exception):
    """A line that cannot be read; the message says why."""


# Books

def pack(words):
    return struct.pack(f"<{len(words)}Q", *words)


def unpack(data):
    return struct.unpack(f"<{len(data) // 8}Q", data[:len(data) // 8 * 8])


def encode(bodies):
    """The book of eleven bodies, or of twelve."""
    contents, start = [], 16 * len(bodies)
    for body in bodies:
        contents += [start, len(body)]
        start += len(body)
    return pack(contents) + b"".join(bodies)


def edition_of(book):
    """The edition that a book's first word tells, or None."""
    known = [edition for edition in EDITIONS if book[:8] == pack([edition.contents])]
    return known[0] if known else None


def decode(book):
    """The bodies before the first bad section, and the place of 20 or None."""
    edition = edition_of(book)
    if len(book) < (edition or FIRST).contents:
        return [], 0
    if edition is None:
        return [], 1
    contents, bodies, end = unpack(book[:edition.contents]), [], edition.contents
    for number, section in enumerate(edition.sections, 1):
        start, length = contents[2 * number - 2:2 * number]
        whole = section.form == BITS or length % 8 == 0
        if start != end or length > len(book) - start or not whole:
            return bodies, number
        end = start + length
        bodies.append(book[start:end])
    return bodies, (None if end == len(book) else edition.left)


class Book:
    """A well-shaped book's lists."""

    def __init__(self, bodies):
        self.bodies = bodies
        lists = [body if section.form == BITS else unpack(body)
                 for section, body in zip(SECTIONS, bodies)]
        (source, ebits, self.side, self.roots, self.map, self.reads, self.calls,
         self.arguments, target, tbits, self.target_roots) = lists[:11]
        self.sorts = Sorts(*(table_entries(SORT, words) for words in lists[11:]))
        self.source = Graph("source", source, SOURCE_WORDS, ebits, self.side, self.sorts)
        self.target = Graph("target", target, TARGET_WORDS, tbits)

    def image(self, row):
        return self.map[row] if row < len(self.map) else MAX

    def call(self, words):
        """The function of a whole call entry, and the target rows that it is applied to."""
        variable, number, start, count = words
        rows = self.arguments[start:start + count]
        return self.target.function(number, count, rows, self.target.width_at(variable)), rows


# From listing to book

def cut(text):
    return text if len(text) <= 40 else text[:37] + ".."


def bad(what, text, known=()):
    near = difflib.get_close_matches(text, known, 1)
    return BadListing(f"{what} `{cut(text)}`"
                      + (f"; is `{near[0]}` meant?" if near else ""))


def number(text, most=MAX):
    """A decimal or 0x number of at most so much."""
    if text == "MAX" and most == MAX:
        return MAX
    if re.fullmatch(r"-[0-9].*", text):
        raise bad("a negative number:", text)
    if not re.fullmatch(r"0[xX][0-9a-fA-F]+|[0-9]+", text):
        raise bad("not a number:", text)
    base = 16 if text[:2] in ("0x", "0X") else 10
    digits = (text[2:] if base == 16 else text).lstrip("0") or "0"
    if len(digits) > 20 or int(digits, base) > most:
        raise bad(f"above {'2^64-1' if most == MAX else most}:", text)
    return int(digits, base)


def numbers(text, most=MAX):
    if not text:
        raise BadListing("numbers are missing")
    return [number(word, most) for word in text.split()]


def read_form(form, text, name=""):
    """The words of a text in a form."""
    pattern = re.escape(form).replace(r"\#", r"([^\s+]+)")
    pattern = pattern.replace(r"\+", r"\s*\+\s*").replace(r"\ ", r"\s+")
    found = re.fullmatch(pattern, text)
    if not found:
        raise BadListing(f"not of the form `{name}{form}`: `{cut(name + text)}`")
    return [number(word) for word in found.groups()]


def read_row(size, text):
    name, _, fields = text.partition(" ")
    names = [tag.name for tag in known_tags(size)]
    if name not in names:
        raise bad("no tag of a source row:" if size == SOURCE_WORDS
                  else "no tag of a target row:", name, names)
    tag = names.index(name)
    words = read_form(known_tags(size)[tag].shape.form, fields.strip(), name + " ")
    return [tag] + words + [0] * (size - 1 - len(words))


def read_words(section, text):
    """The words of a line, without its label."""
    name, _, rest = text.partition(" ")
    if name == "words":
        return numbers(rest)
    if section.form == ROW:
        return read_row(section.size, text)
    if section.form != PLAIN:
        return read_form(section.form, text)
    return [MAX if word == "-" and section is MAP else number(word)
            for word in text.split()]


def read_bits(text):
    """The bytes of a line of bits."""
    name, _, rest = text.partition(" ")
    if name == "bytes":
        return bytes(numbers(rest, 255))
    if name == "value":
        value, width = read_form("# width #", rest.strip(), "value ")
        if width > 65536 or value >> width:
            raise BadListing(f"the value does not fit its width: `{cut(text)}`")
        return bytes(value >> k & 1 for k in range(width))
    digits = "".join(text.split())
    if not re.fullmatch("[01]+", digits):
        raise bad("not bits, `bytes ..` or `value # width #`:", text)
    return bytes(int(digit) for digit in digits)


def check_label(section, body, label):
    """A label counts the rows, entries, words or bits before its line."""
    unit = 1 if section.form == BITS else 8 * section.size
    if number(label) * unit != len(body):
        before, rest = divmod(len(body), unit)
        raise BadListing(f"the label is {cut(label)}, but this is {before}"
                         + (f", {rest // 8} words behind its start" if rest else ""))


def read_line(section, body, text):
    """The bytes that a line adds to its section's body."""
    label, colon, rest = text.partition(":")
    if colon:
        check_label(section, body, label.strip())
        text = rest.strip()
    if not text:
        raise BadListing("nothing stands behind the label")
    if section.form == BITS:
        return read_bits(text)
    return pack(read_words(section, text))


def section_names():
    return [section.name for section in SECTIONS]


def meant_section(line):
    """The section whose mistyped name a line seems to be, or None."""
    words = re.sub("[-_:]", " ", line).split()
    tags = [tag.name for tag in known_tags(SOURCE_WORDS)]
    if not words or words[0] in tags + ["words", "bytes", "value"]:
        return None
    text = " ".join(words).lower()
    near = difflib.get_close_matches(text, section_names(), 1, 0.7)
    return near[0] if near and re.fullmatch("[a-z ]+", text) else None


def read_body_line(place, bodies, line):
    """The bytes that a line adds to the body of the section that it stands in."""
    if line[0] in "(;":
        raise BadListing("this looks like SMT-LIB; " + LOOKS)
    try:
        if place is None:
            raise BadListing(f"no section: `{cut(line)}`; {LOOKS}")
        return read_line(SECTIONS[place], bodies[place], line)
    except BadListing:
        meant = meant_section(line)
        if meant is None:
            raise
        raise BadListing(f"no section: `{cut(line)}`; is `{meant}` meant?") from None


def parse(text):
    """The book of a listing, a second edition if it has the section `sorts`, also an empty one.
    BadListing's arguments are line number and message."""
    names, bodies, place = section_names(), [bytearray() for _ in SECTIONS], None
    seen = set()
    for at, line in enumerate(text.split("\n"), 1):
        line = " ".join(line.partition("#")[0].split())
        try:
            if line in names:
                place = names.index(line)
                if place in seen:
                    raise bad("twice the section", line)
                seen.add(place)
            elif line:
                added = read_body_line(place, bodies, line)
                bodies[place] += added
        except BadListing as error:
            raise BadListing(at, str(error)) from None
    edition = SECOND if SECTIONS.index(SORTS) in seen else FIRST
    return encode(bodies[:len(edition.sections)])


# From book to listing: lines as a text and a note

def rows_lines(graph):
    return [(f"{row}: {graph.text(row)}", graph.note(row)) for row in range(len(graph.rows))]


def entry_text(form, words):
    if len(words) == form.count("#"):
        return fill(form, words)
    return "words " + words_text(words)


def table_entries(form, words):
    """The words of each entry of a table; the last may be cut."""
    size = form.count("#")
    return [words[at:at + size] for at in range(0, len(words), size)]


def entries_lines(form, entries, note):
    """A line an entry, with a note by its place and words."""
    return [(f"{place}: " + entry_text(form, entry), note(place, entry))
            for place, entry in enumerate(entries)]


def reads_lines(book):
    """In a second edition with the array's widths."""
    def note(_, entry):
        return book.sorts.text(entry[1]) if book.sorts.second and len(entry) == 3 else ""
    return entries_lines(READ, table_entries(READ, book.reads), note)


def calls_lines(book):
    def note(_, entry):
        return book.call(entry)[0].text() if len(entry) == 4 else ""
    return entries_lines(CALL, table_entries(CALL, book.calls), note)


def sorts_lines(book):
    return entries_lines(SORT, book.sorts.entries,
                         lambda place, _: "; ".join(book.sorts.faults(place)))


def map_lines(book):
    return [(f"{row}: " + ("-" if image == MAX else str(image)), map_note(book, row, image))
            for row, image in enumerate(book.map)]


def map_note(book, row, image):
    if row >= len(book.source.rows):
        return "there is no such source row"
    if image != MAX and image >= len(book.target.rows):
        return "there is no such target row"
    shown = "no image" if image == MAX else book.target.text(image)
    return f"{book.source.text(row)} => {shown}"


def roots_lines(graph, roots):
    return [(f"{at}: {word_text(root)}", root_note(graph, root)) for at, root in enumerate(roots)]


def root_note(graph, root):
    """The row that a root names, with its width where that is not one bit."""
    if root >= len(graph.rows):
        return "there is no such row"
    one_bit = graph.width_at(root) == 1
    return graph.text(root) + ("" if one_bit else f" ({graph.note(root)})")


def plain_lines(words):
    return [(f"{at}: {words_text(words[at:at + 8])}", "") for at in range(0, len(words), 8)]


def bits_text(bits):
    if max(bits) > 1:
        return "bytes " + " ".join(map(str, bits))
    return " ".join("".join(map(str, bits[at:at + 8])) for at in range(0, len(bits), 8))


def bits_lines(bits):
    return [(f"{at}: {bits_text(bits[at:at + 32])}", "") for at in range(0, len(bits), 32)]


def section_lines(book, place):
    """The lines of a section, by its place from 0."""
    section, body = SECTIONS[place], book.bodies[place]
    own = {"source": lambda: rows_lines(book.source),
           "target": lambda: rows_lines(book.target),
           "source roots": lambda: roots_lines(book.source, book.roots),
           "target roots": lambda: roots_lines(book.target, book.target_roots),
           "map": lambda: map_lines(book),
           "reads": lambda: reads_lines(book),
           "calls": lambda: calls_lines(book),
           "sorts": lambda: sorts_lines(book)}
    if section.name in own:
        return own[section.name]()
    return bits_lines(body) if section.form == BITS else plain_lines(unpack(body))


def listing(bodies, edition=None):
    """The listing of a book's bodies. Those that the edition has more are left out, as if empty,
    and without the sort table of a second edition the notes, which stand on it."""
    missing = len((edition or FIRST).sections) - len(bodies)
    book, text = Book(bodies + [b""] * missing), ""
    noted = missing <= 0 or not book.sorts.second
    for place, body in enumerate(bodies):
        section = SECTIONS[place]
        lines = [(section.name, f"section {place + 1}, {len(body)} bytes: {section.holds}")]
        lines += [("  " + line, note if noted else "")
                  for line, note in section_lines(book, place)]
        text += "".join(f"{line:<44} # {note}\n" if note else line + "\n" for line, note in lines)
    return text
