#!/usr/bin/env python3
"""Tests of include/gilfrunt.h and examples/: python3 tools/test_examples.py

The header is compiled alone. The examples are built and run by the commands at their
tops, if target/staticlib/libgilfrunt.a is there (`tools/build gilfrunt` builds it).
"""

import glob
import os
import re
import shutil
import subprocess
import sys
import tempfile
import unittest

from listing import EDITIONS, SECOND, encode, pack

TOP = os.path.dirname(os.path.dirname(os.path.abspath(__file__)))
LIBRARY = os.path.join(TOP, "target", "staticlib", "libgilfrunt.a")
WARNINGS = ["-Wall", "-Wextra", "-Wpedantic", "-Werror"]
built = unittest.skipUnless(os.path.exists(LIBRARY), "tools/build gilfrunt builds the library")


def needs(*programs):
    missing = [program for program in programs if not shutil.which(program)]
    return unittest.skipIf(missing, "no " + ", ".join(missing))


# Example, the word that its command starts with, what the command prints.
EXAMPLES = [
    ("check.c", "gcc", "0 0 0\n0 0 0\n"),
    ("book.c", "gcc", "accepted\n"),
    ("check.rs", "rustc", "accepted\n"),
]


def content(*path):
    with open(os.path.join(TOP, *path), encoding="utf-8") as file:
        return file.read()


def documented(name, start):
    """The command at an example's top."""
    return re.search(rf"(?m)^(?: \*|//!) +({start} .*)$", content("examples", name)).group(1)


def run(words, status=0, **options):
    done = subprocess.run(words, cwd=TOP, capture_output=True, text=True, **options)
    if done.returncode != status:
        raise AssertionError(f"{words} ended with {done.returncode}:\n{done.stderr}")
    return done.stdout


class Header(unittest.TestCase):
    def compiled(self, compiler, ending, standards):
        with tempfile.TemporaryDirectory() as folder:
            path = os.path.join(folder, "header" + ending)
            with open(path, "w", encoding="utf-8") as file:
                file.write('#include "gilfrunt.h"\n#include "gilfrunt.h"\n'
                           "uint64_t max(void);\n"
                           "uint64_t max(void) { return GILFRUNT_MAX + GILFRUNT_TAG_CALL; }\n")
            for standard in standards:
                run([compiler, f"-std={standard}", *WARNINGS, "-Iinclude", "-c", path,
                     "-o", os.path.join(folder, "header.o")])

    @needs("gcc")
    def test_c(self):
        self.compiled("gcc", ".c", ["c99", "c11"])

    @needs("g++")
    def test_cpp(self):
        self.compiled("g++", ".cc", ["c++11", "c++17"])

    @needs("gcc")
    def test_examples_fit_it(self):
        """Each compiles without the library."""
        with tempfile.TemporaryDirectory() as folder:
            for name in ("check", "book"):
                run(["gcc", "-std=c99", *WARNINGS, "-Iinclude", "-c", f"examples/{name}.c",
                     "-o", os.path.join(folder, name + ".o")])


@built
@needs("gcc", "rustc")
class Examples(unittest.TestCase):
    def setUp(self):
        folder = tempfile.TemporaryDirectory()
        self.addCleanup(folder.cleanup)
        self.folder = folder.name

    def test_documented_commands(self):
        for name, start, printed in EXAMPLES:
            with self.subTest(example=name):
                self.assertEqual(run(documented(name, start), shell=True), printed)

    def test_readme_has_the_commands(self):
        readme = content("README.md")
        for name, start, _ in EXAMPLES:
            self.assertTrue("    " + documented(name, start) + "\n" in readme, name)

    def test_no_warnings(self):
        for name in ("check", "book"):
            run(["gcc", "-std=c99", *WARNINGS, "-Iinclude", f"examples/{name}.c", LIBRARY,
                 "-o", os.path.join(self.folder, name)])
        for name, words in (("check", []), ("gilfrunt", ["--test"])):
            program = os.path.join(self.folder, name + "-rs")
            run(["rustc", "--edition", "2021", "-D", "warnings", *words, "-l", "static=gilfrunt",
                 "-L", "native=" + os.path.dirname(LIBRARY), f"examples/{name}.rs", "-o", program])
            run([program])

    def book(self):
        program = os.path.join(self.folder, "book")
        run(["gcc", "-std=c99", "-Iinclude", "examples/book.c", LIBRARY, "-o", program])
        return program

    def test_samples(self):
        program = self.book()
        for path in sorted(glob.glob(os.path.join(TOP, "samples", "*.book"))):
            own = os.path.exists(path[:-4] + "strict")
            for options, kind in (([], "line"), (["--strict"], "strict" if own else "line")):
                with self.subTest(sample=os.path.basename(path), options=options):
                    line, words = content(path[:-4] + kind), [program, *options, path]
                    self.assertEqual(run(words, int(line != "accepted\n")), line)

    def test_long_book(self):
        """Longer than verdict takes: 10,000 variables, then the same with one map word less. In a
        second edition beside 10,000 arrays, at last with one that is listed twice."""
        for edition in EDITIONS:
            bodies = [b""] * len(edition.sections)
            bodies[0], bodies[8] = pack([0, 8, 0, 0, 0] * 10000), pack([0, 8, 0, 0] * 10000)
            bodies[11:] = [pack([k // 3 + 1 for k in range(30000)]) for _ in bodies[11:]]
            for rows, line in ((10000, "accepted\n"), (9999, "refused 3 10000 9999\n")):
                bodies[4] = pack(range(rows))
                self.assert_judged(bodies, line)
            if edition is SECOND:
                bodies[11] += pack([10000, 1, 1])
                self.assert_judged(bodies, "refused 28 10000 0\n")

    def assert_judged(self, bodies, line):
        program, path = self.book(), os.path.join(self.folder, "long")
        with open(path, "wb") as file:
            file.write(encode(bodies))
        for options in ([], ["--strict"]):
            self.assertEqual(run([program, *options, path], int(line != "accepted\n")), line)

    def test_book_without_an_answer(self):
        program = self.book()
        good = "samples/case-1.book"
        for words in ([], ["--strict"], [good, "--strict"], ["--strikt", good], [good, good]):
            run([program, *words], 2)
        run([program, os.path.join(self.folder, "none")], 2)
        run([program, self.folder], 2)
        if os.path.exists("/dev/full"):
            run(f"'{program}' samples/case-1.book > /dev/full", 2, shell=True)


if __name__ == "__main__":
    sys.exit(unittest.main())
