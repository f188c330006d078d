#!/usr/bin/env python3
"""Holds crates.txt, the must-fail edits and the text of the crates to the rules of the house
(CONTRIBUTING.md), without proving anything: python3 tools/test_house.py"""

import glob
import os
import re
import unittest

import believe

TOP = os.path.dirname(os.path.dirname(os.path.abspath(__file__)))
CRATES = os.path.join(TOP, "crates")
KIT = {"std"}  # named by some crates, and given to each by the kit


def read(path):
    with open(path, encoding="utf-8") as file:
        return file.read()


def short(path):
    return os.path.relpath(path, TOP)


def listed():
    """Each crate of crates.txt with what it lists, in order."""
    lines = (line.partition("#")[0] for line in read(os.path.join(TOP, "crates.txt")).split("\n"))
    parts = (line.partition(":") for line in lines if ":" in line)
    return {name.split()[0]: words.split() for name, _, words in parts}


def files(*kinds, crate="*"):
    """The crates' own files below src/, specs/ or proofs/."""
    return sorted(path for kind in kinds
                  for path in glob.glob(os.path.join(CRATES, crate, kind, "**", "*"), recursive=True)
                  if path.endswith((".rt", ".antt")))


def places(pattern, path):
    """The lines of a file at which the pattern begins, as the house's messages name them."""
    text = read(path)
    return [f"{short(path)}:{text.count(chr(10), 0, found.start()) + 1}"
            for found in re.finditer(pattern, text)]


def code(path):
    """A file's text without its comments."""
    return re.sub(r"(?m)^\s*(//|--).*$", "", read(path))


class Crates(unittest.TestCase):
    def test_every_folder_is_listed(self):
        self.assertEqual(sorted(listed()), sorted(os.listdir(CRATES)))

    def test_a_crate_lists_what_it_names(self):
        known = set(listed()) | {word for words in listed().values() for word in words}
        for crate, words in listed().items():
            named = set()
            for path in files("src", "specs", "proofs", crate=crate):
                named |= set(re.findall(r"(?<![\w.])Rattle\.(\w+)\.", code(path)))
                if path.endswith(".rt"):
                    own = set(re.findall(r"(?<![\w:])(\w+)::", code(path)))
                    named |= own - {"io"} if "use std::io" in code(path) else own
            self.assertEqual(sorted((named & known) - KIT - {crate}), sorted(words), crate)

    def test_lower_crates_first(self):
        seen = set()
        for crate, words in listed().items():
            self.assertLessEqual(set(words) & set(listed()), seen, crate)
            seen.add(crate)


class Edits(unittest.TestCase):
    def test_each_old_text_stands_once(self):
        for edit in sorted(glob.glob(os.path.join(CRATES, "*", "must-fail", "*.edit"))):
            folder = os.path.dirname(os.path.dirname(edit))
            text, pairs = None, 0
            for line in read(edit).split("\n"):
                if line.startswith("file: "):
                    text = read(os.path.join(folder, line[6:]))
                elif line.startswith("old: "):
                    self.assertEqual(text.count(line[5:]), 1, f"{short(edit)}: {line}")
                    pairs += 1
            self.assertGreater(pairs, 0, short(edit))

    def test_each_says_what_is_wrong(self):
        for edit in sorted(glob.glob(os.path.join(CRATES, "*", "must-fail", "*.edit"))):
            self.assertRegex(read(edit).split("\n")[0], r"^(?!file:|old:|new:)\S.*\.$", short(edit))


class Definitions(unittest.TestCase):
    # what the operations and programs answer, what is promised of it, and what the theorems' page names
    STATEMENTS = ("check", "judge", "verdict", "source_widths", "target_widths", "roots_answer", "values", "section_answer",
                  "section", "line_of", "Sound", "SameChoices", "WellFormed", "assignment", "interpretation", "Agrees", "words_in",
                  "end_bare", "call_bare")

    def test_the_rest_is_inner(self):
        """A file of specs/ has what a statement stands on, or says that it is inner, and not both."""
        named = {path for path, _, _ in believe.table(self.STATEMENTS)}
        for path in files("specs"):
            if os.path.basename(path) != "Lib.antt":
                self.assertNotEqual(short(path) in named, "-- Inner: " in read(path), short(path))


class Table(unittest.TestCase):
    """The table of operand facts (02, 2.2) in code and in definitions: the same lines and tags."""

    def test_line_for_line(self):
        code = re.findall(r"(?m)^    facts!\((\w+), (\w+), (\w+)\), // (\d+) (\w+)$",
                          read(os.path.join(CRATES, "rules", "src", "lines.rt")))
        defined = re.findall(r"(?m)^    (?:∷ )?line operand\.(\w+) join\.(\w+) source\.(\w+)  -- (\d+) (\w+)$",
                             read(os.path.join(CRATES, "rules", "specs", "Table.antt")))
        self.assertEqual(code, defined)
        tags = re.findall(r"(?m)^pub const (\w+): u64 = (\d+);$", read(os.path.join(CRATES, "rows", "src", "tag.rt")))
        self.assertEqual([(number, name.lower()) for _, _, _, number, name in code],
                         [(number, name.replace("_", "").lower()) for name, number in tags])

    def test_codes(self):
        """A code makes the same variant in code and in definitions: the variants in the order of their enum."""
        code = read(os.path.join(CRATES, "rules", "src", "lines.rt"))
        defined = read(os.path.join(CRATES, "rules", "specs", "Codes.antt"))
        for kind, letter in [("Operands", "operand"), ("Join", "join"), ("WidthFrom", "source")]:
            enum = re.search(rf"(?s)pub enum {kind} {{(.*?)\n}}", code).group(1)
            variants = re.findall(r"(?m)^    (\w+),$", enum)
            arms = re.findall(rf"(?m)^            (\d+|_) => {kind}::(\w+),$", code)
            names = re.findall(rf"{letter}\.(\w+)", re.search(rf"(?s)^{letter}s?_of c =(.*?)\n\n", defined + "\n\n", re.M).group(1))
            last = len(arms) - 1
            self.assertEqual(arms, [(str(k) if k < last else "_", name) for k, name in enumerate(variants)], kind)
            listed = variants if kind != "Operands" else variants + variants[-1:]
            self.assertEqual(names, listed, kind)


class Text(unittest.TestCase):
    def test_lines(self):
        for path in files("src", "specs", "proofs"):
            for number, line in enumerate(read(path).split("\n"), 1):
                self.assertLessEqual(len(line), 150, f"{short(path)}:{number}")

    def test_no_long_paths(self):
        for path in files("proofs"):
            self.assertEqual(places(r"(\.before\s*){12,}", path), [])

    def test_headers_of_proofs(self):
        for path in files("proofs"):
            if os.path.basename(path) == "Lib.antt":
                continue
            first = read(path).split("\n")[0]
            self.assertTrue(first.startswith("-- "), short(path))
            self.assertNotIn("meets its contract", first, short(path))

    def test_no_printed_skeletons(self):
        for path in files("proofs"):
            self.assertEqual(places(r"-- src/\w+\.rt:\d+", path), [])


if __name__ == "__main__":
    unittest.main()
