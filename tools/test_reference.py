#!/usr/bin/env python3
"""Holds docs/REFERENCE.md, docs/ANSWERS.md, docs/BOOKS.md and include/gilfrunt.h to the
definitions under crates/ and to the tools' tables: python3 tools/test_reference.py"""

import glob
import os
import re
import unittest

import believe
from explain import ANSWERS
from graph import CEILING, CORE_TAGS, SORT_WORDS, SOURCE_WORDS, TAGS, TARGET_WORDS, Graph, Sorts
from listing import BITS, CALL, EDITIONS, FIRST, READ, SECOND, SECTIONS, SORT

TOP = os.path.dirname(os.path.dirname(os.path.abspath(__file__)))


def content(*path):
    with open(os.path.join(TOP, *path), encoding="utf-8") as file:
        return file.read()


def table(page, first):
    """The cells of the table whose head's first cell that is, without the head."""
    lines = content("docs", page).split("\n")
    start = next(at for at, line in enumerate(lines) if line.startswith(f"| {first} |"))
    rows = []
    for line in lines[start + 2:]:
        if not line.startswith("|"):
            return rows
        rows.append([cell.strip() for cell in line.strip("|").split("|")])
    return rows


def enumerators(name):
    """An enum of the header: names without prefix, and numbers."""
    body = re.search(rf"enum {name} {{(.*?)}};", content("include", "gilfrunt.h"), re.S).group(1)
    return [(word, int(number)) for word, number in re.findall(r"GILFRUNT_(\w+) = (\d+)", body)]


def capitals(name):
    """BvNot and `source bits` as the header writes them."""
    return re.sub(r"(?<=[a-z])(?=[A-Z])| ", "_", name).upper()


def defined_answers():
    """Names by number, as crates/answers defines them, of the answers that some code gives."""
    found = re.findall(r"(?m)^words_of_refusal \(?(\w+).*= words (\d+) ", content(
        "crates", "answers", "specs", "Refusal.antt"))
    code = "".join(content(path) for path in glob.glob(os.path.join(TOP, "crates", "*", "src", "*.rt"))
                   if os.sep + "answers" + os.sep not in path)
    given = set(re.findall(r"Refusal::(\w+)", code))
    return {0: "Accepted"} | {int(number): name for name, number in found if name in given}


class Tags(unittest.TestCase):
    rows = table("REFERENCE.md", "number")

    def test_numbers_and_names(self):
        self.assertEqual(len(TAGS), 39)
        self.assertEqual([(int(row[0]), row[1]) for row in self.rows],
                         [(at, tag.name) for at, tag in enumerate(TAGS)])

    def test_constants_of_the_code(self):
        """The tags that the code names, each once, have the numbers of the table."""
        found = re.findall(r"pub const (\w+): u64 = (\d+);", content("crates", "rows", "src", "tag.rt"))
        self.assertEqual(found, [(capitals(tag.name), str(at)) for at, tag in enumerate(TAGS)])

    def test_fields_and_rules(self):
        for row, tag in zip(self.rows, TAGS):
            with self.subTest(tag=tag.name):
                self.assertEqual(row[2].split(", "), tag.shape.fields.split())
                self.assertEqual(len(tag.shape.fields.split()), tag.shape.form.count("#"))
                self.assertEqual(row[3], tag.shape.needs)

    def test_widths(self):
        """A well-formed row of each tag has the width that its line says, in both editions."""
        self.assert_widths(*Sorts.PLAIN, Sorts())
        self.assert_widths(20, 8, Sorts([(7, 20, 8)]))
        self.assert_widths(8, 33, Sorts([(1, 2, 3), (7, 8, 33)]))

    def assert_widths(self, index, cell, sorts):
        rows = [[0, 8], [0, 8], [0, index], [0, 1], [0, 1], [0, cell]]
        words = [word for row in rows for word in row + [0, 0, 0]]
        graph = Graph("source", words, SOURCE_WORDS, b"\0" * 16, (2, 5), sorts)
        fields = {"width": 13, "start": 0, "a": 0, "b": 1, "c": 3, "by": 5, "high": 6, "low": 2,
                  "array": 7, "index": 2, "function": 3, "count": 1}
        expected = {"width": 13, "a's": 8, "1": 1, "the array's cell width": cell,
                    "high - low + 1": 5, "both together": 16, "a's and by": 13}
        for row, tag in zip(self.rows, TAGS):
            boolean = tag.name in ("Not", "BoolAnd", "BoolOr")
            given = dict(fields, a=3, b=4) if boolean else fields
            used = [given[name] for name in tag.shape.fields.split()]
            with self.subTest(tag=tag.name):
                self.assertEqual(tag.shape.width(graph, *used), expected[row[4]])

    def test_ceiling(self):
        """One number in the definition, the code, the tools and each rule that names it."""
        defined = re.search(r"(?m)^ceiling = (\d+)$", content("crates", "rules", "specs", "Rule.antt"))
        coded = re.search(r"(?m)^const CEILING: u64 = (\d+);$", content("crates", "wf", "src", "lib.rt"))
        shown = re.search(r"(?m)^pub const CEILING: u64 = (\d+);$", content("examples", "gilfrunt.rs"))
        self.assertEqual([int(found.group(1)) for found in (defined, coded, shown)], [CEILING] * 3)
        asked = {tag.name for tag in TAGS if f"{CEILING:,}" in tag.shape.needs}
        self.assertEqual(asked, {"Var", "Const", "Concat", "ZeroExt", "SignExt", "Select", "Call"})
        words = [0, CEILING, 0, 0, 0, 0, CEILING + 1, 0, 0, 0, 17, 0, 1, 0, 0]
        self.assertEqual(Graph("source", words, SOURCE_WORDS, b"").widths, [CEILING, 0, 0])
        for cell, width in ((CEILING, CEILING), (CEILING + 1, 0)):
            graph = Graph("source", [0, 9, 0, 0, 0, 37, 7, 0, 0, 0], SOURCE_WORDS, b"", (),
                          Sorts([(7, 9, cell)]))
            self.assertEqual(graph.widths, [9, width])

    def test_values_are_named_as_defined(self):
        """The operators in the order of the table of crates/value."""
        text = content("crates", "value", "specs", "Operate.antt")
        lines = re.search(r"(?s)\nnumbers =\n(.*?)∷ \[\]", text).group(1).split("\n")
        lines = [line for line in lines if line.strip() and not line.strip().startswith("--")]
        self.assertEqual(len(lines), CORE_TAGS)
        smt = {"equal": "=", "zero-extend": "zero_extend", "sign-extend": "sign_extend"}
        for line, row in list(zip(lines, self.rows))[2:]:
            name = re.search(r"(?:un|bin|test|vs\.) ([a-z-]+)", line).group(1)
            with self.subTest(tag=row[1]):
                self.assertEqual(re.match("`(.+?)`", row[5]).group(1), smt.get(name, name))

    def test_definitions(self):
        text = content("crates", "rows", "specs", "Tags.antt")
        numbers = re.findall(r"(?m)^t_(\w+) = (\d+)$", text)
        self.assertGreater(len(numbers), 10)
        for name, number in numbers:
            self.assertEqual(TAGS[int(number)].name.lower(), name.replace("_", ""))

    def test_header(self):
        self.assertEqual(enumerators("gilfrunt_tag"),
                         [("TAG_" + capitals(tag.name), at) for at, tag in enumerate(TAGS)])
        sizes = dict(re.findall(r"#define GILFRUNT_(\w+) (\d+)", content("include", "gilfrunt.h")))
        self.assertEqual({name: int(size) for name, size in sizes.items()},
                         {"SOURCE_ROW": SOURCE_WORDS, "TARGET_ROW": TARGET_WORDS,
                          "READ_ENTRY": READ.count("#"), "CALL_ENTRY": CALL.count("#"),
                          "SORT_ENTRY": SORT_WORDS, "CONTENTS": FIRST.contents,
                          "SECOND_CONTENTS": SECOND.contents, "CEILING": CEILING})


class Answers(unittest.TestCase):
    def test_page(self):
        rows = table("ANSWERS.md", "number")
        self.assertEqual({int(row[0]): row[1] for row in rows}, defined_answers())
        self.assertEqual(len(rows), 26)
        for page in (content("README.md"), content("docs", "ANSWERS.md")):
            self.assertIn(f"{len(rows)} numbers", page)

    def test_header(self):
        self.assertEqual(enumerators("gilfrunt_number"),
                         [(capitals(name), number) for number, name
                          in sorted(defined_answers().items())])

    def test_names_in_the_reference(self):
        names = set(defined_answers().values())
        found = [(int(number), name) for number, name
                 in re.findall(r"\b(\d+) ([A-Z]\w+)", content("docs", "REFERENCE.md"))
                 if name in names]
        self.assertEqual({name for _, name in found}, names - {"Accepted"})
        for number, name in found:
            self.assertEqual(defined_answers()[number], name)

    def test_tools(self):
        for number, (name, _, _) in ANSWERS.items():
            self.assertEqual(name, defined_answers()[number])

    def test_exports(self):
        """Every exported function is in the header and on the page, and no other is."""
        code = content("crates", "gilfrunt_c", "src", "lib.rt")
        exported = re.findall(r'extern "C" fn (\w+)', code)
        declared = re.findall(r"(?m)^gilfrunt_\w+ (gilfrunt_\w+)\(",
                              content("include", "gilfrunt.h"))
        page = {name for row in table("ANSWERS.md", "operation")
                for name in re.findall(r"`(\w+)`", row[2])}
        self.assertEqual(sorted(declared), sorted(exported))
        self.assertEqual(page, set(exported))

    DECLARED = (("include", "gilfrunt.h"), "gilfrunt_answer "), (("examples", "gilfrunt.rs"), "    fn ")

    def parameters(self, path, start, name):
        """Those of a function's one declaration in a file, in order."""
        found = re.findall(rf"(?ms)^{start}gilfrunt_{name}\((.*?)\).*?;$", content(*path))
        self.assertEqual(len(found), 1, name)
        return [" ".join(part.split()) for part in found[0].split(",") if part.strip()]

    def test_strict_functions_take_the_same_lists(self):
        for path, start in self.DECLARED:
            for name in ("check", "judge", "check_with_sorts"):
                self.assertEqual(self.parameters(path, start, "strict_" + name),
                                 self.parameters(path, start, name))

    def test_sorts_stand_before_what_is_lent(self):
        for path, start in self.DECLARED:
            for name, lent in (("source_widths", 1), ("check", 4), ("strict_check", 4)):
                found = self.parameters(path, start, name + "_with_sorts")
                at = len(found) - 2 * lent - 2
                self.assertEqual(found[:at] + found[at + 2:], self.parameters(path, start, name))
                self.assertEqual(re.findall(r"\bsorts\w*", " ".join(found[at:at + 2])),
                                 ["sorts", "sorts_len"])


class Books(unittest.TestCase):
    def test_sections(self):
        rows = table("BOOKS.md", "section")
        self.assertEqual([row[:2] for row in rows],
                         [[str(at), section.name] for at, section in enumerate(SECTIONS, 1)])
        for row, section in zip(rows, SECTIONS):
            self.assertEqual(row[3], "one byte each" if section.form == BITS else str(section.size))

    def test_editions(self):
        rows = table("BOOKS.md", "edition")
        self.assertEqual([row[:3] for row in rows],
                         [[edition.name, str(edition.contents), f"1 to {len(edition.sections)}"]
                          for edition in EDITIONS])
        for row, edition in zip(rows, EDITIONS):
            self.assertEqual(row[4], f"0 under {edition.contents} bytes, {edition.left} for bytes "
                             "left over")
        self.assertIn("= " + SORT.replace("#", "N"), content("docs", "BOOKS.md"))

    def test_header(self):
        self.assertEqual(enumerators("gilfrunt_section_number"),
                         [("SECTION_" + capitals(section.name), at)
                          for at, section in enumerate(SECTIONS, 1)])


class Pages(unittest.TestCase):
    def test_quoted_sections(self):
        """A section of 01 that a comment names is a section of the reference."""
        headings = re.findall(r"(?m)^##+ (.*)$", content("docs", "REFERENCE.md"))
        paths = [path for kind in ("antt", "rt") for path in glob.glob(
            os.path.join(TOP, "crates", "*", "**", "*." + kind), recursive=True)]
        quoted = {name for path in paths
                  for name in re.findall(r"01, '([^']+)'", content(path))}
        self.assertGreater(len(quoted), 4)
        self.assertLessEqual(quoted, set(headings))

    def test_marked_cases(self):
        for row in table("REFERENCE.md", "case"):
            line = content("samples", row[1] + ".line").strip()
            self.assertEqual(row[3], f"`{line}`")

    def test_believe(self):
        """The page of what must be believed has the definitions and the lines that there are."""
        rows = [[f"`{path}`", ", ".join(f"`{name}`" for name in names), str(count)]
                for path, names, count in believe.table()]
        self.assertEqual(table("BELIEVE.md", "file"), rows)
        self.assertIn(f"{sum(int(row[2]) for row in rows)} lines of them", content("docs", "BELIEVE.md"))

    def test_files_are_there(self):
        """Files that a page names; what a build makes is left out."""
        pages = glob.glob(os.path.join(TOP, "docs", "*.md")) + glob.glob(os.path.join(TOP, "*.md"))
        folders = "crates(?!/ordeal)|docs|tools|samples|examples|compare|include"
        name = rf"(?<![\w/.])((?:{folders})/[\w/.-]*\w/?)"
        for page in pages:
            for path in re.findall(name, content(page)):
                with self.subTest(page=os.path.basename(page), path=path):
                    self.assertTrue(os.path.exists(os.path.join(TOP, path)))


if __name__ == "__main__":
    unittest.main()
