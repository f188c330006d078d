#!/usr/bin/env python3
"""Tests of tools/book.py: python3 tools/test_book.py"""

import glob
import os
import random
import re
import resource
import signal
import subprocess
import sys
import tempfile
import unittest
import xml.etree.ElementTree as xml

import book as command
from draw import draw, lanes
from explain import ANSWERS, due, explain
from graph import MAX, SOURCE_WORDS, TAGS, Function, Graph, Sort, Sorts, known_tags
from listing import (EDITIONS, FIRST, SECOND, SECTIONS, SORTS, BadListing, BITS, ROW, Book, decode,
                     edition_of, encode, listing, pack, parse)

TOP = command.TOP
SAMPLES = sorted(glob.glob(os.path.join(TOP, "samples", "*.txt")))
BOOKS = sorted(glob.glob(os.path.join(TOP, "samples", "*.book")))
VERDICT = os.path.join(TOP, "target", "bin", "verdict")
STRICT_VERDICT = os.path.join(TOP, "target", "bin", "strict_verdict")
built = unittest.skipUnless(os.path.exists(VERDICT), "tools/build verdict builds target/bin/verdict")
strict_built = unittest.skipUnless(os.path.exists(STRICT_VERDICT),
                                   "tools/build strict_verdict builds target/bin/strict_verdict")


def stem(path):
    return os.path.splitext(os.path.basename(path))[0]


def contents(path):
    with open(path, "rb") as file:
        return file.read()


def sample(name, ending):
    return contents(os.path.join(TOP, "samples", name + ending))


def differs(name):
    """Whether a sample has a strict line of its own."""
    return os.path.exists(os.path.join(TOP, "samples", name + ".strict"))


def strict_line(name):
    return sample(name, ".strict" if differs(name) else ".line")


def shapeless():
    """The samples that are no books, and so have no listing."""
    return [stem(path) for path in BOOKS if not os.path.exists(path[:-len("book")] + "txt")]


def answer_of(line):
    """Number, place and detail of a printed line."""
    return tuple(map(int, line.split()[1:])) or (0, 0, 0)


# Random books

def random_word(random_, rows):
    return random_.choice([random_.randrange(rows + 1), random_.randrange(rows + 1), 0, 1, 8, 32,
                           rows, MAX, MAX - 1, 2**63, random_.randrange(2**64)])


def random_row(random_, size, rows):
    """A well-encoded row, its operands mostly earlier rows."""
    tag = random_.randrange(len(known_tags(size)))
    used = TAGS[tag].shape.form.count("#")
    fields = [random_.choice([1, 8, 32]) if tag == 0 else random_word(random_, rows)
              for _ in range(used)]
    return [tag] + fields + [0] * (size - 1 - used)


def random_sorts(random_, count):
    """A sort table that rises, with arrays that random rows name."""
    arrays = sorted(random_.sample([0, 1, 2, 3, 8, 32, MAX - 1, MAX], count))
    return [word for array in arrays
            for word in (array, random_.choice([1, 8, 32]), random_.choice([1, 8, 32, 4097]))]


def random_body(random_, section):
    """A body in which some words are no rows, no entries, or cut."""
    count = random_.randrange(6)
    if section.form == BITS:
        return bytes(random_.choice([0, 1, 1, random_.randrange(256)]) if random_.random() < 0.2
                     else random_.randrange(2) for _ in range(count * 15))
    if section.form == ROW and random_.random() < 0.8:
        words = [word for row in range(count) for word in random_row(random_, section.size, row)]
    elif section is SORTS and random_.random() < 0.7:
        words = random_sorts(random_, count)
    else:
        words = [random_word(random_, count) for _ in range(count * section.size)]
    if random_.random() < 0.2:
        words = words[:random_.randrange(len(words) + 1)]
    return pack(words)


def random_bodies(seed):
    """The bodies of a book of either edition."""
    random_ = random.Random(seed)
    bodies = [random_body(random_, section) for section in SECTIONS]
    return bodies[:len(random_.choice(EDITIONS).sections)]


def damaged(seed):
    """The bodies of a sample with a few words set at random."""
    random_ = random.Random(seed)
    bodies = decode(sample(stem(random_.choice(SAMPLES)), ".book"))[0]
    for _ in range(random_.randrange(4)):
        place = random_.randrange(len(bodies))
        at = random_.randrange(len(bodies[place]) // 8 + 1) * 8
        word = pack([random_word(random_, 40)])
        bodies[place] = bodies[place][:at] + word + bodies[place][at + 8:]
    return bodies


class RoundTrip(unittest.TestCase):
    def assert_same(self, bodies):
        made, text = encode(bodies), listing(bodies)
        self.assertEqual(decode(made), (bodies, None))
        self.assertEqual(parse(text), made)
        self.assertEqual(listing(decode(parse(text))[0]), text)

    def test_random(self):
        for seed in range(400):
            with self.subTest(seed=seed):
                self.assert_same(random_bodies(seed))

    def test_damaged(self):
        for seed in range(400):
            with self.subTest(seed=seed):
                self.assert_same(damaged(seed))

    def test_every_tag(self):
        """Also tags that there are not, and fields that a tag does not use."""
        for place, size in ((0, 5), (8, 4)):
            for used in range(size):
                bodies = [b""] * 11
                bodies[place] = b"".join(
                    pack([tag] + [7] * used + [0] * (size - 1 - used)) for tag in range(41))
                self.assert_same(bodies)

    def test_both_editions_are_tried(self):
        made = [(edition_of(encode(random_bodies(seed))), edition_of(encode(damaged(seed))))
                for seed in range(400)]
        for edition in EDITIONS:
            for found in zip(*made):
                self.assertGreater(found.count(edition), 100)

    def test_good_rows_are_named(self):
        text = listing(decode(sample("reply", ".book"))[0])
        self.assertNotIn("words ", text)
        self.assertIn("Ugt 22 23", text)

    def test_arrays_of_reads_are_noted(self):
        """In a second edition alone."""
        self.assertNotIn("indices", listing(decode(sample("reply", ".book"))[0]))
        text = listing(decode(sample("new-scale-unlisted-read", ".book"))[0])
        self.assertEqual(re.findall(r"(?m)^  [0-4]: variable \d+ .* # (.*)$", text), [
            "array 0: indices of 16 bits, cells of 16 bits"] * 2 + [
            "array 1: indices of 32 bits, cells of 8 bits", "array 2 is not listed",
            "array 0: indices of 16 bits, cells of 16 bits"])

    def test_bad_sorts_are_noted(self):
        text = listing(decode(parse("sorts\n words 7 0 8  7 16 0  8 1 1  MAX 0 0  MAX 1\n"))[0])
        self.assertEqual(re.findall(r"(?m)^  \d: (.*?)(?: +# (.*))?$", text), [
            ("array 7 index width 0 cell width 8", "the index width is 0"),
            ("array 7 index width 16 cell width 0",
             "array 7 is not above array 7, which stands before it; the cell width is 0"),
            ("array 8 index width 1 cell width 1", ""),
            ("array MAX index width 0 cell width 0", "the index width is 0; the cell width is 0"),
            ("words MAX 1", "an entry is three words")])

    def test_roots_of_other_widths_are_marked(self):
        text = listing(decode(sample("wide-root", ".book"))[0])
        self.assertEqual(re.findall(r"(?m)^  1: 5 +# (.*)$", text), ["And 1 2 (8 bits)"] * 2)
        self.assertEqual(re.findall(r"(?m)^  0: 4 +# (.*)$", text), ["Ult 1 3"] * 2)
        text = listing(decode(sample("root-past", ".book"))[0])
        self.assertEqual(re.findall(r"(?m)^  1: 7 +# (.*)$", text), ["there is no such row"])

    def test_forms_of_writing(self):
        plain = "source\n 0: Var 8\nsource bits\n 1 0 1\nmap\n 18446744073709551615 16\n"
        other = ("map # here\r\n - 0x10\r\nsource bits\n bytes 1 0x0\n 2: value 1 width 1\n"
                 "source\nwords 0 8 0\nwords 0 0\n\n")
        self.assertEqual(parse(plain), parse(other))


# A listing, the number of its bad line, a part of the message.
BAD_LISTINGS = [
    ("Var 8", 1, "no section"),
    ("\n\nsorce\n", 3, "is `source` meant?"),
    ("source\nVar 8\nsource\n", 3, "twice the section"),
    ("source\n Var\n", 2, "not of the form `Var #`"),
    ("source\n Var 8 9\n", 2, "not of the form `Var #`"),
    ("source\n Vra 8\n", 2, "no tag of a source row: `Vra`; is `Var` meant?"),
    ("target\n Select array 7 index 0 pairs 0+0\n", 2, "no tag of a target row: `Select`"),
    ("source\n Select array 7 index 0 pairs 0\n", 2, "not of the form `Select array"),
    ("source\n Add 0 -1\n", 2, "a negative number: `-1`"),
    ("source\n Add 0 x\n", 2, "not a number: `x`"),
    ("source\n Var 18446744073709551616\n", 2, "above 2^64-1"),
    ("source\n Var 0x10000000000000000\n", 2, "above 2^64-1"),
    ("source\n Var " + "9" * 10000 + "\n", 2, "above 2^64-1"),
    ("source\n Var \u0661\n", 2, "not a number"),
    ("source\n Var 1_0\n", 2, "not a number"),
    ("source\n 1: Var 8\n", 2, "the label is 1, but this is 0"),
    ("source\n 0: Var 8\n 0: Var 8\n", 3, "the label is 0, but this is 1"),
    ("source\n words 0 8\n 0: Var 8\n", 3, "but this is 0, 2 words behind its start"),
    ("source\n 0:\n", 2, "nothing stands behind the label"),
    ("source\n x: Var 8\n", 2, "not a number: `x`"),
    ("source\n words\n", 2, "numbers are missing"),
    ("source roots\n -\n", 2, "not a number: `-`"),
    ("map\n targets\n", 2, "is `target` meant?"),
    ("source\n Var 8\nsorce bits\n", 3, "no section: `sorce bits`; is `source bits` meant?"),
    ("source\n Var 8\nSource Bits\n", 3, "is `source bits` meant?"),
    ("source roots:\n 0\n", 1, "is `source roots` meant?"),
    ("reads\n cals\n", 2, "is `calls` meant?"),
    ("source roots\n 0\ntaget roots\n 0\n", 3, "is `target roots` meant?"),
    ("source bits\n 01\npairs_and_argument\n", 3, "is `pairs and arguments` meant?"),
    ("source\n Call\n", 2, "not of the form `Call function"),
    ("(set-logic QF_BV)\n", 1, "this looks like SMT-LIB; a listing is a section's name"),
    ("; a script\n(set-logic QF_BV)\n", 1, "this looks like SMT-LIB"),
    ("source\n(declare-const x (_ BitVec 8))\n", 2, "this looks like SMT-LIB"),
    ("reads\n 1 7 0\n", 2, "not of the form `variable # array # index #`"),
    ("calls\n variable 1 function 2 arguments 3\n", 2, "not of the form"),
    ("source bits\n 0120\n", 2, "not bits"),
    ("source bits\n bytes 256\n", 2, "above 255"),
    ("source bits\n bytes MAX\n", 2, "not a number"),
    ("source bits\n value 4 width 2\n", 2, "does not fit its width"),
    ("source bits\n value 0 width 99999\n", 2, "does not fit its width"),
    ("source bits\n 0: 11\n 1: 11\n", 3, "the label is 1, but this is 2"),
    ("sorts\n 0 16 16\n", 2, "not of the form `array # index width # cell width #`"),
    ("sorts\n array 0 index 16 cell 16\n", 2, "not of the form `array # index width #"),
    ("sorts\n words 0 16 16\n 2: array 1 index width 8 cell width 8\n", 3, "but this is 1"),
    ("sorts\nsource\n Var 8\nsorts\n", 4, "twice the section"),
    ("source\n Var 8\nsort\n", 3, "is `sorts` meant?"),
]


class Listings(unittest.TestCase):
    def test_bad(self):
        for text, line, message in BAD_LISTINGS:
            with self.subTest(text=text[:40]):
                with self.assertRaises(BadListing) as caught:
                    parse(text)
                self.assertEqual(caught.exception.args[0], line)
                self.assertIn(message, caught.exception.args[1])

    def test_sorts_make_the_second_edition(self):
        """Also an empty section does, in any place."""
        self.assertEqual(parse("source\n Var 8\n")[:8], pack([176]))
        for text in ("sorts\n", "source\n Var 8\nsorts\n", "sorts # none\nsource\n Var 8\n"):
            self.assertEqual(parse(text)[:8], pack([192]))
        self.assertEqual(parse("sorts\n"), sample("empty-second", ".book"))
        self.assertNotIn("sorts", listing([b""] * 11))
        self.assertIn("\nsorts ", listing([b""] * 12))

    def test_any_damage_is_a_message(self):
        for seed in range(600):
            random_ = random.Random(seed)
            text = sample(random_.choice(["empty-reply", "new-scale"]), ".txt").decode()
            at = random_.randrange(len(text))
            piece = random_.choice(["", ":", "#", "-", "+", "9" * 30, "\n", "x", "words", "\0"])
            try:
                parse(text[:at] + piece + text[at + random_.randrange(4):])
            except BadListing as error:
                self.assertIsInstance(error.args[0], int)


class Shapes(unittest.TestCase):
    def test_places(self):
        for name, edition in (("case-1", FIRST), ("new-scale", SECOND)):
            good = sample(name, ".book")
            self.assertEqual(edition_of(good), edition)
            self.assertEqual(decode(good[:175])[1], 0)
            self.assertEqual(decode(good[:edition.contents - 1])[1], 0)
            self.assertEqual(decode(good + b"x")[1], edition.left)
            for number in range(1, len(edition.sections) + 1):
                for at, word in ((16 * number - 16, 175), (16 * number - 8, MAX)):
                    self.assertEqual(decode(good[:at] + pack([word]) + good[at + 8:])[1], number)
            bodies = [b""] * len(edition.sections)
            self.assertEqual(decode(encode([b"1234567"] + bodies[1:]))[1], 1)
            bodies[1] = bodies[9] = b"\1"
            self.assertEqual(decode(encode(bodies)), (bodies, None))

    def test_the_first_start_tells_the_edition(self):
        """With the other edition's, section 2 is not where it is then due."""
        for name, start, place in (("case-1", 192, 2), ("new-scale", 176, 2), ("case-1", 184, 1),
                                   ("new-scale", 208, 1), ("empty", 192, 0)):
            self.assertEqual(decode(pack([start]) + sample(name, ".book")[8:])[1], place)
        self.assertEqual([edition.contents for edition in EDITIONS], [176, 192])
        self.assertEqual([edition.left for edition in EDITIONS], [12, 14])

    def test_all_places_are_explained(self):
        for data in (b"", sample("case-1", ".book"), sample("case-1", ".book") + b"x",
                     *(sample(name, ".book") for name in ["new-scale"] + shapeless())):
            for place in range(16):
                self.assertTrue(explain(data, (20, place, 0)))

    def test_explained_by_edition(self):
        """Behind the edition stands what the place says; to a first edition 14 says nothing."""
        for name, meant in (("case-1", range(13)), ("new-scale", [*range(13), 14])):
            data = sample(name, ".book")
            edition = edition_of(data)
            lines = {place: explain(data, (20, place, 0)) for place in range(16) if place != 13}
            self.assertEqual([place for place in lines if len(lines[place]) > 2], list(meant))
            for shown in lines.values():
                self.assertEqual(
                    shown[1], f"section 1 starts at {edition.contents}, as in the {edition.name} "
                    f"edition, which has {len(edition.sections)} sections")


# Two functions with one number, in samples/modules.txt.
CURVE = "function 0 of 1 argument (8 bits) giving 8 bits"
WEIGHT = "function 0 of 1 argument (16 bits) giving 16 bits"

# What the explanation of a sample's answer must show.
EXPLAINED = [
    ("case-1", ["satisfiable", "1 read"]),
    ("case-2", ["source root 0", "it has no image"]),
    ("case-3", ["target row 1: Var 8", "read entry 0: variable 1 array 7 index 0"]),
    ("case-4", ["Select array 7 index 0", "there is no such entry"]),
    ("case-5", ["read entry 1", "the same key: read entry 0"]),
    ("case-6a", ["the source has 3 rows, the map 2 words"]),
    ("case-6b", ["its image, target row 3: there is none"]),
    ("case-7", ["left over", "target root 1"]),
    ("case-8b", ["due there: BoolOr(Not(Eq(0, 1)), Eq(2, 3))", "read entry 1"]),
    ("case-9b", ["0 congruence roots are due", "target root 0"]),
    ("case-10b", ["must be an Ite over Eq 0 1 with 2 first", "target row 4: Eq 1 0"]),
    ("ceiling-source", ["source row 3: ZeroExt 2 by 1 (ill-formed)", "a sum of at most 4,096",
                        "it would have 4,097 bits; no row may have more than 4,096"]),
    ("ceiling-target", ["it would have 18,446,744,073,709,551,616 bits; no row"]),
    ("empty-reply-wrong", ["pair 1", "read entry 2: variable 13", "target row 12: Var 8"]),
    ("modules", ["0 reads and 6 calls", "call entries 0, 1 are of " + CURVE + "\n",
                 "call entries 3, 4 are of " + WEIGHT + ": other widths, another function",
                 "call entry 2 is of function 1 without arguments giving 8 bits\n",
                 "call entry 5 is of function 1 without arguments giving 16 bits: other widths"]),
    ("modules-wrong", ["due there: BoolOr(Not(Eq(0, 1)), Eq(2, 3))", "call entry 0: variable 2",
                       "call entry 1: variable 3", "both are of " + CURVE + "\n",
                       "call entries 3, 4 are of " + WEIGHT + ": other widths, another function, "
                       "no root is due between two functions"]),
    ("modules-again", ["call entry 2: variable 3", "the same key: call entry 0: variable 1",
                       "the key: " + CURVE + ", with the target rows [0]",
                       "call entry 1 is of function 0 of 1 argument (8 bits) giving 16 bits: "
                       "other widths, another function, not the same key"]),
    ("widths-result", ["call entry 1 is of function 3 without arguments giving 16 bits: other"]),
    ("widths-arguments-left", ["0 leading and 1 congruence root are due, the target has 2",
                               "target root 1: target row 14", "call entries 0, 2 are of ",
                               "call entry 1 is of function 3 of 1 argument (16 bits) giving "
                               "8 bits: other widths, another function, no root is due"]),
    ("widths-arguments-first", ["due there: BoolOr(Not(Eq(0, 2)), Eq(3, 5))",
                                "both are of function 3 of 1 argument (8 bits) giving 8 bits"]),
    ("new-scale", ["\nsecond edition: 2 arrays listed\n", "5 reads", "4 congruence roots"]),
    ("reply-second", ["\nsecond edition: 1 array listed\n"]),
    ("empty-second", ["\nsecond edition: 0 arrays listed\n"]),
    ("new-scale-unsorted", ["28 SortTable: an entry of the sort table is cut, does not rise",
                            "\nsort entry 1: array 0 index width 16 cell width 16\n"
                            "array 0 is not above array 1, which stands before it"]),
    ("sorts-twice", ["\narray 7 is not above array 7, which stands before it"]),
    ("sorts-cut", ["\nsort entry 1: words 8 16\nan entry is three words"]),
    ("sorts-zero", ["\nsort entry 0: array 7 index width 0 cell width 16\n"
                    "the index width is 0"]),
    ("new-scale-unlisted", ["source row 9: Select array 1 index 7 pairs 0+0 (ill-formed)\n",
                            "\narray 1 is not listed; those that are: 0\n"]),
    ("sorts-empty", ["\narray 7 is not listed; none is\n"]),
    ("sorts-ceiling", ["\narray 7: indices of 16 bits, cells of 4097 bits\n",
                       "it would have 4,097 bits; no row may have more than 4,096"]),
    ("new-scale-cell", ["read entry 2: variable 9 array 0 index 2\n"
                        "array 0: indices of 16 bits, cells of 16 bits\n"
                        "the variable must be a Var of 16 bits; target row 9: Var 8 (8 bits)"]),
    ("new-scale-index", ["read entry 2: variable 9 array 1 index 4\n"
                         "array 1: indices of 32 bits, cells of 8 bits\n"
                         "the index must be a row of 32 bits; target row 4: Var 16 (16 bits)"]),
    ("new-scale-unlisted-read", ["\narray 2 is not listed; those that are: 0, 1"]),
    ("sorts-bit", ["target bits, position 1: 2"]),
    ("new-scale-left-over", ["the second edition, which has 12 sections\n"
                             "the sections end at byte 2872, the book has 2880"]),
    ("new-scale-short", ["the second edition, which has 12 sections\n"
                         "the book has 191 bytes, its contents alone take 192"]),
    ("new-scale-start", ["section 1 starts at 184; it must start at 176 (first edition) or 192 "
                         "(second edition)"]),
    ("new-scale-half-word", ["section 12, sorts: start 2824, length 44\n"
                             "it must start at 2824, be whole words"]),
]


# What the explanation of a sample's strict answer must show.
STRICT_EXPLAINED = [
    ("wide-root", ["19 BadRoot: a root is not a row of one bit\n",
                   "source root 1: source row 5: And 1 2 (8 bits)\n",
                   "the strict check asks for one bit; Check takes any width",
                   "in one bit that is Eq of the row and a constant 1 of 8 bits"]),
    ("wide-root-map", ["source root 1: source row 5: And 1 2 (8 bits)\n"]),
    ("root-past", ["source root 1: source row 7: there is none, the source has 7 rows\n",
                   "the strict check asks for a row of one bit"]),
    ("target-root-past", ["target root 1: target row 9: there is none, the target has 9 rows\n",
                          "the strict check asks for a row of one bit"]),
    ("one-bit-root", ["either both source and target are satisfiable, or neither is\n"
                      "every root, of source and target, is a row of one bit\n"]),
    ("case-7", ["left over", "target root 1"]),
    ("new-scale", ["or neither is\nevery root, of source and target, is a row of one bit\n"
                   "second edition: 2 arrays listed\n"]),
    ("new-scale-word", ["source root 0: source row 16: And 4 2 (16 bits)\n",
                        "in one bit that is Eq of the row and a constant 1 of 16 bits"]),
]


class Explanations(unittest.TestCase):
    def assert_explained(self, name, answer, parts, strict):
        text = "\n".join(explain(sample(name, ".book"), answer, strict))
        for part in parts:
            with self.subTest(sample=name, part=part):
                self.assertIn(part, text)

    def test_samples(self):
        for name, parts in EXPLAINED:
            self.assert_explained(name, answer_of(sample(name, ".line")), parts, False)

    def test_strict_lines_of_samples(self):
        for name, parts in STRICT_EXPLAINED:
            self.assert_explained(name, answer_of(strict_line(name)), parts, True)

    def test_quoted(self):
        """Explanations on the pages are those of the samples."""
        quoted = []
        for page in ("README.md", os.path.join("docs", "BOOKS.md")):
            quoted += re.findall(r"(?m)^    \$ python3 tools/book.py explain( --strict)? samples/"
                                 r"(\S+)\.book\n((?:    .*\n)+)",
                                 contents(os.path.join(TOP, page)).decode())
        self.assertEqual(len(quoted), 4)
        for strict, name, shown in quoted:
            line = strict_line(name) if strict else sample(name, ".line")
            lines = explain(sample(name, ".book"), answer_of(line), bool(strict))
            expected = [line.decode().strip()] + ["  " + text for text in lines]
            self.assertEqual(shown.split("\n")[:-1], ["    " + text for text in expected])

    def test_bad_roots(self):
        data = parse("source roots\n 0 MAX\nsource\n Var 1\ntarget\n Var 2\n Add 0 5\n"
                     "target roots\n 0 1\n")
        for place, detail, line in (
                (1, 1, "source root 1: source row MAX: there is none, the source has 1 row"),
                (2, 1, "source root 2: there is none, the list has 2"),
                (0, 2, "target root 0: target row 0: Var 2 (2 bits)"),
                (1, 2, "target root 1: target row 1: Add 0 5 (ill-formed)")):
            self.assertIn(line, explain(data, (19, place, detail)))
        self.assertEqual(explain(data, (19, 0, 0)), ["19 is no answer to a book"])

    def test_widths_of_a_first_edition(self):
        """32 and 8 for every array; only a second edition has a sort table to refuse."""
        data = parse("source\n Var 16\n Select array 7 index 0 pairs 0+0\n"
                     "reads\n variable 0 array MAX index 0\ntarget\n Var 16\n")
        plain = ": indices of 32 bits, cells of 8 bits, as all in a first edition"
        self.assertIn("array 7" + plain, explain(data, (1, 1, 0)))
        self.assertEqual(explain(data, (5, 0, 0))[2:], [
            "array MAX" + plain,
            "the variable must be a Var of 8 bits; target row 0: Var 16 (16 bits)",
            "the index must be a row of 32 bits; target row 0: Var 16 (16 bits)"])
        self.assertEqual(explain(data, (28, 0, 0)),
                         ["28 is no answer to a book of the first edition"])

    def test_sort_entry_that_is_not_there(self):
        data = sample("new-scale", ".book")
        self.assertEqual(explain(data, (28, 2, 0))[1:], ["sort entry 2: there is none"])
        self.assertEqual(explain(data, (28, 1, 0))[1:],
                         ["sort entry 1: array 1 index width 32 cell width 8"])

    def test_good_entries(self):
        """Of a read entry with which nothing is wrong nothing is said."""
        for name in ("reply", "reply-second", "new-scale", "sorts-wide"):
            data = sample(name, ".book")
            for place in range(len(Book(decode(data)[0]).reads) // 3):
                self.assertEqual(len(explain(data, (5, place, 0))), 2)

    def test_only_the_strict_check_speaks_of_bits(self):
        for name in ("reply", "wide-root"):
            self.assertNotIn("one bit", "\n".join(explain(sample(name, ".book"), (0, 0, 0))))

    def test_root_without_image(self):
        data = parse("source roots\n 0\ntarget roots\n MAX\n")
        self.assertIn("it has no image", explain(data, (12, 0, 0)))

    def test_any_answer(self):
        """Also a wrong answer gets lines."""
        for seed in range(600):
            random_ = random.Random(seed)
            data = encode(random_bodies(seed) if seed % 2 else damaged(seed))
            for number in list(ANSWERS) + [0, 19, 20, 24]:
                place = random_.choice([0, 1, 2, 3, 5, 40, MAX])
                with self.subTest(seed=seed, number=number, place=place):
                    self.assertTrue(explain(data, (number, place, random_.choice([0, 1, 2, MAX]))))


class Arrays(unittest.TestCase):
    """An array's widths: 32 and 8 in a first edition, by the sort table in a second."""

    def test_editions(self):
        self.assertEqual([Sorts().of(array) for array in (0, 7, MAX)], [Sort(32, 8)] * 3)
        self.assertEqual(Sorts([]).of(7), None)
        sorts = Sorts([(0, 16, 12), (7, 8, 4096), (9, 1)])
        self.assertEqual([sorts.of(array) for array in (0, 7, 8, 9)],
                         [Sort(16, 12), Sort(8, 4096), None, None])

    def test_samples(self):
        for name, second in (("reply", False), ("empty", False), ("reply-second", True),
                             ("empty-second", True)):
            self.assertEqual(Book(decode(sample(name, ".book"))[0]).sorts.second, second)

    def test_widths_of_selects(self):
        """Index, pairs and width, each by the array's sort; a cell of 4,097 bits is too wide."""
        widths = [16, 12, 32, 8, 4096]
        rows = [word for width in widths for word in (0, width, 0, 0, 0)]
        side = (0, 1, 2, 3, 0, 3, 2, 1)
        sorts = Sorts([(0, 16, 12), (1, 32, 8), (2, 16, 4096), (3, 16, 4097), (4, 16, 0),
                       (5, 0, 8)])
        for array, index, start, count, first, second in (
                (0, 0, 0, 0, 0, 12), (0, 0, 0, 1, 0, 12), (0, 0, 4, 1, 0, 0), (0, 0, 0, 2, 0, 0),
                (0, 2, 0, 0, 8, 0), (1, 2, 2, 1, 8, 8), (1, 2, 6, 1, 0, 0), (1, 0, 0, 0, 0, 0),
                (2, 0, 0, 0, 0, 4096), (3, 0, 0, 0, 0, 0), (4, 0, 0, 0, 0, 0),
                (5, 9, 0, 0, 0, 0), (6, 2, 2, 1, 8, 0), (1, 2, 7, 1, 0, 0)):
            words = rows + [37, array, index, start, count]
            for known, width in ((Sorts(), first), (sorts, second)):
                graph = Graph("source", words, SOURCE_WORDS, b"", side, known)
                with self.subTest(array=array, index=index, start=start, second=known is sorts):
                    self.assertEqual(graph.widths, widths + [width])


class Functions(unittest.TestCase):
    """A function is its number, count, argument widths and result width."""

    def test_texts(self):
        for fields, text in (
                ((0, 2, (8, 16), 8), "0 of 2 arguments (8, 16 bits) giving 8 bits"),
                ((2, 2, (8, 8), 1), "2 of 2 arguments (8, 8 bits) giving 1 bit"),
                ((3, 0, (), 16), "3 without arguments giving 16 bits"),
                ((MAX, 1, (1,), 4096), "MAX of 1 argument (1 bit) giving 4096 bits"),
                ((0, 4, (8, 8, 8, 16), 8), "0 of 4 arguments (3 times 8, 16 bits) giving 8 bits"),
                ((0, 9, (8, 0), 0), "0 of 9 arguments (8, ? bits) giving ? bits"),
                ((0, 9, (), 8), "0 of 9 arguments giving 8 bits")):
            self.assertEqual(Function(*fields).text(), "function " + text)

    def test_namesakes(self):
        one = Function(0, 2, (8, 16), 8)
        for other, alike in (((0, 2, (8, 16), 16), True), ((0, 2, (16, 8), 8), True),
                             ((0, 2, (8, 16), 8), False), ((1, 2, (8, 8), 8), False),
                             ((0, 1, (8,), 8), False), ((0, 2, (8, 0), 8), False)):
            self.assertEqual(one.namesake(Function(*other)), alike)

    def test_roots_are_due_within_a_function(self):
        for name, pairs in (("modules", [(0, 1), (3, 4)]), ("widths-result", []),
                            ("widths-arguments", [(0, 2)])):
            found = due(Book(decode(sample(name, ".book"))[0]))
            self.assertEqual([(first.number, second.number) for first, second in found], pairs)

    def test_accepted_samples_have_the_roots_that_are_due(self):
        for path in SAMPLES:
            if sample(stem(path), ".line") == b"accepted\n":
                book = Book(decode(sample(stem(path), ".book"))[0])
                self.assertEqual(len(list(due(book))), len(book.target_roots) - len(book.roots))

    def test_a_key_has_its_widths(self):
        """Entry 1 has the number and the argument of entry 2, and is not named for it."""
        lines = explain(sample("modules-again", ".book"), (6, 2, 0))
        same = [line for line in lines if line.startswith("the same key: ")]
        self.assertEqual(same, ["the same key: call entry 0: variable 1 function 0 arguments 0+1"])

    def test_variable_of_another_function(self):
        """A Call whose image is the variable of a call of its number at another width."""
        swapped = sample("widths-result", ".txt").decode().replace("0 1\n", "1 0\n")
        text = "\n".join(explain(parse(swapped), (11, 0, 0)))
        self.assertIn("variable of a call of function 3 without arguments giving 8 bits\n", text)
        self.assertIn("the entry of that row: call entry 1", text)
        self.assertIn("the entry that is meant: call entry 0", text)
        self.assertIn("call entry 1 is of function 3 without arguments giving 16 bits: other "
                      "widths, another function, not the one that is called", text)

    def test_no_width_is_no_other_width(self):
        data = parse("calls\n variable 0 function 3 arguments 0+0\n"
                     " variable 9 function 3 arguments 0+0\ntarget\n Var 8\n")
        text = "\n".join(explain(data, (6, 1, 0)))
        self.assertIn("the variable must be a Var; target row 9: there is none", text)
        self.assertNotIn("other widths", text)

    def test_many_are_shortened(self):
        calls = "".join(f" variable {k} function 3 arguments 0+0\n" for k in range(90))
        rows = "".join(f" Var {k % 30 + 1}\n" for k in range(90))
        lines = explain(parse(f"calls\n{calls}target\n{rows}"), (0, 0, 0))
        self.assertLess(len(lines), 12)
        self.assertIn(".. and others", lines)

    def test_shown(self):
        text = listing(decode(sample("modules", ".book"))[0])
        self.assertIn("1: variable 3 function 0 arguments 1+1     # " + CURVE, text)
        self.assertIn("3: variable 10 function 0 arguments 2+1    # " + WEIGHT, text)


def shapes(picture, kind, style):
    """The elements of a picture of that kind and style."""
    found = xml.fromstring(picture).iter("{http://www.w3.org/2000/svg}" + kind)
    return [element for element in found if style in element.get("class", "").split()]


def boxes(picture):
    return [tuple(int(box.get(key)) for key in ("x", "y", "width", "height"))
            for box in shapes(picture, "rect", "box")]


class Pictures(unittest.TestCase):
    def picture(self, name):
        return draw(decode(sample(name, ".book"))[0])

    def test_counts(self):
        """reply has 25 and 65 rows, all mapped, 5 reads, 4 roots twice, 10 congruence roots."""
        picture = self.picture("reply")
        counts = [len(shapes(picture, kind, style)) for kind, style in (
            ("rect", "box"), ("path", "map"), ("rect", "read"), ("rect", "root"),
            ("rect", "congruence"))]
        self.assertEqual(counts, [90, 25, 5, 8, 10])
        picture = self.picture("empty-reply")
        counts = [len(shapes(picture, "rect", style)) for style in ("call", "unmapped")]
        self.assertEqual(counts, [3, 2])

    def test_texts(self):
        picture = self.picture("case-10a")
        for text in ("source", "target", "3: Select array 7 index 1", "8 bits; 0 -&gt; 2",
                     "array 7 at 1", "5: Ite 4 2 3"):
            self.assertIn(text, picture)

    def test_widths_of_functions(self):
        """Only where another function has the same number and count."""
        picture = self.picture("modules")
        for text in ("function 0 of [1] (8 bits) giving 8 bits", "function 1 of [] giving 16 bits",
                     "function 0 of [7] (16 bits) giving 16 bits"):
            self.assertIn(text, picture)
        picture = self.picture("empty-reply")
        self.assertIn("function 2 of [11 12]", picture)
        self.assertNotIn("giving", picture)

    def test_widths_of_arrays(self):
        """Below the picture of a second edition, the first few."""
        self.assertNotIn("indices of", self.picture("reply"))
        picture = self.picture("new-scale")
        for text in ("array 0: indices of 16 bits, cells of 16 bits<", "array 1 at 7",
                     "array 1: indices of 32 bits, cells of 8 bits<"):
            self.assertIn(text, picture)
        picture = draw([b""] * 11 + [pack([k // 3 + 1 for k in range(27)])])
        self.assertEqual(picture.count("indices of"), 6)
        self.assertIn("array 6: indices of 6 bits, cells of 6 bits<", picture)
        self.assertIn(".. and 3 more<", picture)

    def test_boxes_are_apart_and_inside(self):
        for path in SAMPLES:
            picture = self.picture(stem(path))
            size = xml.fromstring(picture)
            width, height = int(size.get("width")), int(size.get("height"))
            for k, (x, y, wide, high) in enumerate(boxes(picture)):
                self.assertTrue(0 <= x and x + wide <= width and 0 <= y and y + high <= height)
                for x2, y2, wide2, high2 in boxes(picture)[:k]:
                    self.assertTrue(x + wide <= x2 or x2 + wide2 <= x
                                    or y + high <= y2 or y2 + high2 <= y, stem(path))

    def test_lanes_are_apart(self):
        for seed in range(50):
            random_ = random.Random(seed)
            taken = [sorted(random_.sample(range(row + 1, 41), random_.randrange(3)))
                     for row in range(38)]
            lane = lanes(taken)
            for row, other in ((row, other) for row in lane for other in lane if row < other):
                if lane[row] == lane[other]:
                    self.assertLess(taken[row][-1], other)

    def test_any_book(self):
        for seed in range(300):
            with self.subTest(seed=seed):
                xml.fromstring(draw(random_bodies(seed) if seed % 2 else damaged(seed)))

    def test_width_of_a_root(self):
        self.assertIn("8 bits; root 1", self.picture("wide-root"))

    def test_picture_in_docs(self):
        """docs/lowering.svg is `python3 tools/book.py draw samples/case-10a.book`."""
        kept = contents(os.path.join(TOP, "docs", "lowering.svg")).decode()
        self.assertEqual(kept, self.picture("case-10a"))


class CommandLine(unittest.TestCase):
    def setUp(self):
        folder = tempfile.TemporaryDirectory()
        self.addCleanup(folder.cleanup)
        self.folder = folder.name

    def file(self, name, data):
        path = os.path.join(self.folder, name)
        with open(path, "wb") as file:
            file.write(data)
        return path

    def fake(self, printed):
        """A program that reads everything and prints that."""
        path = self.file("fake", b"#!/bin/sh\ncat >/dev/null\nprintf '" + printed + b"'\n")
        os.chmod(path, 0o755)
        return path

    def run_book(self, *words, status, given=b""):
        program = [sys.executable, os.path.join(TOP, "tools", "book.py"), *words]
        run = subprocess.run(program, input=given, capture_output=True)
        self.assertEqual(run.returncode, status, run.stderr)
        self.assertNotIn(b"Traceback", run.stderr)
        return run.stdout, run.stderr.decode()

    def test_make_and_show(self):
        made = os.path.join(self.folder, "made")
        self.run_book("make", os.path.join(TOP, "samples", "reply.txt"), "-o", made, status=0)
        self.assertEqual(contents(made), sample("reply", ".book"))
        shown, _ = self.run_book("show", made, status=0)
        again, _ = self.run_book("make", "-", status=0, given=shown)
        self.assertEqual(again, contents(made))

    def test_messages(self):
        bad = self.file("bad.txt", b"source\n Vra 8\n")
        self.assertIn("bad.txt:2: no tag", self.run_book("make", bad, status=2)[1])
        latin = self.file("latin.txt", b"source\n Var 8 # \xe9\n")
        self.assertIn("latin.txt:2: not UTF-8", self.run_book("make", latin, status=2)[1])
        book = os.path.join(TOP, "samples", "case-1.book")
        self.assertIn("this looks like a book", self.run_book("make", book, status=2)[1])
        self.assertIn("No such file", self.run_book("make", "/no/such", status=2)[1])
        self.assertIn("No such file", self.run_book("show", "/no/such", status=2)[1])
        self.assertIn("directory", self.run_book("show", self.folder, status=2)[1])
        for words in ([], ["make"], ["show", "a", "b"], ["eat", "a"], ["make", "a", "-x"]):
            self.assertIn("usage", self.run_book(*words, status=2)[1])

    def test_draw(self):
        path = os.path.join(TOP, "samples", "case-10a.book")
        drawn, _ = self.run_book("draw", path, status=0)
        made = os.path.join(self.folder, "made.svg")
        self.run_book("draw", path, "-o", made, status=0)
        self.assertEqual(contents(made), drawn)
        drawn, message = self.run_book("draw", "-", status=1, given=b"source\n")
        self.assertEqual(drawn, b"")
        self.assertIn("this looks like text; `tools/book.py make`", message)

    def test_bad_shape(self):
        data = sample("case-1", ".book") + b"x"
        shown, message = self.run_book("show", "-", status=1, given=data)
        self.assertEqual(shown, b"")
        self.assertIn("the sections end at byte 456, the book has 457", message)
        self.assertIn("2: Eq 1 1", message)
        message = self.run_book("show", "-", status=1)[1]
        self.assertIn("0 bytes", message)

    def test_bad_shape_of_a_second_edition(self):
        """Shown as far as it goes, with notes where the sort table is there."""
        row = "  9: Select array 1 index 7 pairs 0+0"
        for name, part, shown in (
                ("new-scale-left-over", "has 2880\n", row + "        # 8 bits\n"),
                ("new-scale-half-word", "section 12, sorts:", row + "\n"),
                ("new-scale-start", "starts at 184; ", "")):
            path = os.path.join(TOP, "samples", name + ".book")
            printed, message = self.run_book("show", path, status=1)
            self.assertEqual(printed, b"")
            self.assertIn(part, message)
            self.assertIn(shown, message)
            self.assertEqual("\nsorts " in message, name == "new-scale-left-over")
            self.assertEqual("target roots" in message, name != "new-scale-start")
            printed, message = self.run_book("draw", path, status=1)
            self.assertEqual(printed, b"")
            self.assertIn(part, message)
        first = sample("case-1", ".book")[:-8]
        self.assertIn("1: Select array 7 index 0 pairs 0+0        # 8 bits\n",
                      self.run_book("show", "-", status=1, given=first)[1])

    def test_long_book(self):
        text = b"source bits\n" + b"0" * 70000
        data, message = self.run_book("make", "-", status=0, given=text)
        self.assertIn("at most 65536", message)
        long = self.file("long", data)
        program = self.fake(b"refused 20 13 0\\n")
        shown, _ = self.run_book("explain", long, "--verdict", program, status=1)
        self.assertIn(b"reads at most 65536", shown)

    def test_explain(self):
        path = os.path.join(TOP, "samples", "case-10b.book")
        program = self.fake(b"refused 10 3 0\\n")
        shown, _ = self.run_book("explain", path, "--verdict", program, status=1)
        self.assertIn(b"refused 10 3 0\n  10 ChainMismatch", shown)
        shown, _ = self.run_book("explain", path, "--verdict", self.fake(b"accepted\\n"), status=0)
        self.assertTrue(shown.startswith(b"accepted\n"))

    def test_explain_strict(self):
        path = os.path.join(TOP, "samples", "wide-root.book")
        program = self.fake(b"refused 19 1 1\\n")
        for options in ([], ["--strict"]):
            words = ["explain", path, *options, "--verdict", program]
            self.assertIn(b"refused 19 1 1\n  19 BadRoot", self.run_book(*words, status=1)[0])
        words = ["explain", path, "--verdict", self.fake(b"accepted\\n")]
        self.assertNotIn(b"one bit", self.run_book(*words, status=0)[0])
        self.assertIn(b"one bit", self.run_book(*words, "--strict", status=0)[0])

    def test_explain_asks_the_program_that_is_named(self):
        """Without --verdict the one of target/bin, which need not be built."""
        path = os.path.join(TOP, "samples", "wide-root.book")
        for options, program, line in (([], VERDICT, sample("wide-root", ".line")),
                                       (["--strict"], STRICT_VERDICT, strict_line("wide-root"))):
            there = os.path.exists(program)
            status = int(line != b"accepted\n") if there else 2
            shown, message = self.run_book("explain", path, *options, status=status)
            if there:
                self.assertTrue(shown.startswith(line))
            else:
                self.assertIn(f"no program {program};", message)

    def test_explain_without_an_answer(self):
        path = os.path.join(TOP, "samples", "case-1.book")
        for printed in (b"", b"yes\\n", b"accepted", b"refused 0 0 0\\n", b"refused 1 2\\n",
                        b"refused 1 2 99999999999999999999\\n", b"\\377\\n"):
            message = self.run_book("explain", path, "--verdict", self.fake(printed), status=2)[1]
            self.assertIn("answered", message)
        missing = os.path.join(self.folder, "none")
        for options, target in (([], "verdict"), (["--strict"], "strict_verdict")):
            message = self.run_book("explain", path, *options, "--verdict", missing, status=2)[1]
            self.assertIn(f"no program {missing}; `tools/build {target}` builds "
                          f"target/bin/{target}\n", message)
        self.run_book("explain", path, "--verdict", path, status=2)


class Samples(unittest.TestCase):
    def test_books_are_made_of_listings(self):
        self.assertTrue(SAMPLES)
        for path in SAMPLES:
            with self.subTest(sample=stem(path)):
                self.assertEqual(parse(contents(path).decode()), sample(stem(path), ".book"))

    def test_books_of_bad_shape(self):
        """They have no listing: each is new-scale with one change, and 20 at the place of that."""
        good = sample("new-scale", ".book")
        sorts = 16 * len(SECOND.sections) - 8  # where the length of section 12 stands
        length = len(decode(good)[0][-1])
        changed = {"new-scale-left-over": good + bytes(8),
                   "new-scale-short": good[:191],
                   "new-scale-start": pack([184]) + good[8:],
                   "new-scale-half-word":
                       good[:sorts] + pack([length - 4]) + good[sorts + 8:-4]}
        self.assertEqual(sorted(changed), shapeless())
        for name, data in changed.items():
            with self.subTest(sample=name):
                self.assertEqual(sample(name, ".book"), data)
                self.assertEqual(answer_of(sample(name, ".line")), (20, decode(data)[1], 0))
                self.assertFalse(differs(name))

    def test_reply_of_both_editions(self):
        first, second = (decode(sample(name, ".book"))[0] for name in ("reply", "reply-second"))
        self.assertEqual(second, first + [pack([0, *Sorts.PLAIN])])

    def test_table_of_samples(self):
        """A sample whose strict line is another stands in the table that has both."""
        table = contents(os.path.join(TOP, "samples", "README.md")).decode()
        for path in BOOKS:
            lines = [sample(stem(path), ".line")] + [strict_line(stem(path))] * differs(stem(path))
            cells = " ".join(f"`{line.decode().strip()}` |" for line in lines)
            with self.subTest(sample=stem(path)):
                found = re.findall(rf"(?m)^\| {stem(path)} \| [^|]* \| (.*)$", table)
                self.assertEqual(found, [cells])

    def test_strict_lines_are_by_the_rule(self):
        """19 at the first bad root, the source's first, but behind 20, 15 to 18, 28, 1 and 2."""
        for path in SAMPLES:
            name = stem(path)
            expected, book = sample(name, ".line"), Book(decode(sample(name, ".book"))[0])
            graphs = (1, book.source, book.roots), (2, book.target, book.target_roots)
            bad = [f"refused 19 {place} {detail}\n".encode() for detail, graph, roots in graphs
                   for place, root in enumerate(roots) if graph.width_at(root) != 1]
            if bad and answer_of(expected)[0] not in (1, 2, 15, 16, 17, 18, 20, 28):
                expected = bad[0]
            with self.subTest(sample=name):
                self.assertEqual(strict_line(name), expected)
                self.assertEqual(differs(name), expected != sample(name, ".line"))

    @built
    def test_lines_are_what_verdict_prints(self):
        for path in BOOKS:
            with self.subTest(sample=stem(path)):
                line, _ = command.ask(VERDICT, sample(stem(path), ".book"))
                self.assertEqual(line.encode(), sample(stem(path), ".line"))

    @strict_built
    def test_strict_lines_are_what_strict_verdict_prints(self):
        for path in BOOKS:
            with self.subTest(sample=stem(path)):
                line, _ = command.ask(STRICT_VERDICT, sample(stem(path), ".book"))
                self.assertEqual(line.encode(), strict_line(stem(path)))


def with_stack(kibibytes):
    """Limits the stack of a program that is started."""
    return lambda: resource.setrlimit(resource.RLIMIT_STACK, (kibibytes * 1024,) * 2)


@built
class Failures(unittest.TestCase):
    """What docs/BOOKS.md says of verdict when things fail around it."""

    program = VERDICT

    def verdict(self, **options):
        run = subprocess.run([self.program], stderr=subprocess.PIPE, **options)
        return run.returncode, run.stdout

    def test_read(self):
        for descriptor in (os.open(TOP, os.O_RDONLY), os.open(os.devnull, os.O_WRONLY)):
            self.addCleanup(os.close, descriptor)
            self.assertEqual(self.verdict(stdin=descriptor, stdout=subprocess.PIPE),
                             (0, b"refused 20 0 0\n"))

    @unittest.skipUnless(os.path.exists("/dev/full"), "no /dev/full")
    def test_write(self):
        with open("/dev/full", "wb") as full:
            self.assertEqual(self.verdict(input=sample("reply", ".book"), stdout=full)[0], 1)

    def test_stack(self):
        for kibibytes, outcome in ((128, (-signal.SIGSEGV, b"")), (512, (0, b"accepted\n"))):
            self.assertEqual(self.verdict(input=sample("reply", ".book"), stdout=subprocess.PIPE,
                                          preexec_fn=with_stack(kibibytes)), outcome)


@strict_built
class StrictFailures(Failures):
    program = STRICT_VERDICT


if __name__ == "__main__":
    unittest.main()
