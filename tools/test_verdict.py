#!/usr/bin/env python3
"""Tests of tools/release-check, and of target/bin/verdict and target/bin/strict_verdict where they are built:
python3 tools/test_verdict.py"""

import glob
import os
import subprocess
import tempfile
import unittest

TOP = os.path.dirname(os.path.dirname(os.path.abspath(__file__)))
CHECK = os.path.join(TOP, "tools", "release-check")
VERDICT = os.path.join(TOP, "target", "bin", "verdict")
STRICT_VERDICT = os.path.join(TOP, "target", "bin", "strict_verdict")
SAMPLES = os.path.join(TOP, "samples")


def contents(path):
    with open(path, "rb") as file:
        return file.read()


class Release(unittest.TestCase):
    """release-check, in one of its two modes."""

    options, variable, other = [], "VERDICT", "STRICT_VERDICT"

    def release(self, arguments, program, stdin=b"", stdout=subprocess.PIPE, other="/no/such"):
        """Status and output with that program, and another one for the other mode."""
        done = subprocess.run([CHECK, *self.options, *arguments], input=stdin, stdout=stdout, stderr=subprocess.DEVNULL,
                              env={**os.environ, self.variable: program, self.other: other}, check=False)
        return done.returncode, done.stdout


class Answers(Release):
    """Programs that print this and that in verdict's place."""

    def setUp(self):
        folder = tempfile.TemporaryDirectory()
        self.addCleanup(folder.cleanup)
        self.program = os.path.join(folder.name, "verdict")

    def write(self, path, script):
        with open(path, "w", encoding="ascii") as file:
            file.write("#!/bin/sh\n" + script + "\n")
        os.chmod(path, 0o755)

    def printing(self, script, *arguments, **options):
        self.write(self.program, script)
        return self.release(arguments, self.program, **options)

    def test_accepted(self):
        self.assertEqual(self.printing(r"printf 'accepted\n'"), (0, b"accepted\n"))

    def test_refused(self):
        for line in ["refused 20 0 0", "refused 20 14 0", "refused 28 1 0", "refused 16 10 2", "refused 3 18446744073709551615 7"]:
            self.assertEqual(self.printing(f"echo '{line}'"), (1, line.encode() + b"\n"))

    def test_other_texts(self):
        for text in ["", r"\n", "accepted", r"accepted\naccepted\n", r"accepted \n", r" accepted\n", r"accepted\r\n",
                     r"accepted\n\n", r"\naccepted\n", r"accepted\nrefused 20 0 0\n", r"Accepted\n", r"accepted\000\n",
                     r"accepted\n\000", r"accepted\nend 0\n", r"end 0\n", r"\nend 0", "refused 20 0 0",
                     r"refused 20 0\n", r"refused 20 0 0 \n", r"refused 20 0 0 0\n", r"refused  20 0 0\n",
                     r"refused 20 00 0\n", r"refused 020 0 0\n", r"refused 0 0 0\n", r"refused -1 0 0\n",
                     r"refused 20 x 0\n", r"refused 20 0 0\naccepted\n", r"refused 20 0 0\nrefused 20 0 0\n",
                     r"refused 20 0 0\000\n", r"refused 20 0 100000000000000000000\n", r"\377accepted\n"]:
            with self.subTest(text=text):
                self.assertEqual(self.printing(f"printf '{text}'"), (2, b""))

    def test_status_and_signals(self):
        for script in [r"printf 'accepted\n'; exit 1", r"printf 'accepted\n'; kill -9 $$", "kill -11 $$",
                       r"printf 'refused 20 0 0\n'; kill -15 $$", "exec >&-; echo accepted"]:
            with self.subTest(script=script):
                self.assertEqual(self.printing(script), (2, b""))

    def test_full_output(self):
        for script in ["echo accepted", "echo refused 20 0 0"]:
            with open("/dev/full", "wb") as full:
                self.assertEqual(self.printing(script, stdout=full)[0], 2)
        self.assertEqual(self.printing("echo accepted >/dev/full"), (2, b""))

    def test_closed_output(self):
        self.printing("echo accepted")
        command = " ".join([f"{self.variable}={self.program}", CHECK, *self.options])
        done = subprocess.run(command + " >&- 2>/dev/null", shell=True, check=False)
        self.assertEqual(done.returncode, 2)

    def test_arguments(self):
        book = self.program + " a book"
        with open(book, "w", encoding="ascii") as file:
            file.write("accepted\n")
        self.assertEqual(self.printing("cat", book), (0, b"accepted\n"))
        self.assertEqual(self.printing("cat", stdin=b"accepted\n"), (0, b"accepted\n"))
        self.assertEqual(self.printing("echo accepted", book + "s"), (2, b""))
        self.assertEqual(self.printing("echo accepted", ""), (2, b""))
        self.assertEqual(self.printing("echo accepted", "a", "b"), (2, b""))
        self.assertEqual(self.printing("echo accepted", TOP), (2, b""))

    def test_each_mode_has_its_program(self):
        other = self.program + " of the other mode"
        for status, mine, its in ((0, "accepted", "refused 19 0 1"), (1, "refused 19 0 1", "accepted")):
            self.write(other, f"echo {its}")
            self.assertEqual(self.printing(f"echo {mine}", other=other), (status, mine.encode() + b"\n"))
        self.write(other, "echo accepted")
        os.remove(self.program)
        self.assertEqual(self.release([], self.program, other=other), (2, b""))

    def test_strict_stands_first(self):
        book = self.program + " a book"
        with open(book, "w", encoding="ascii") as file:
            file.write("accepted\n")
        for arguments in ([book, "--strict"], ["--strict", "--strict"], ["--strikt"], ["--strict="], ["--", book]):
            with self.subTest(arguments=arguments):
                self.assertEqual(self.printing("echo accepted", *arguments, other=self.program), (2, b""))

    def test_no_program(self):
        self.assertEqual(self.release([], self.program), (2, b""))
        self.assertEqual(self.release([], TOP), (2, b""))
        with open(self.program, "w", encoding="ascii") as file:
            file.write("echo accepted\n")
        self.assertEqual(self.release([], self.program), (2, b""))


class StrictAnswers(Answers):
    options, variable, other = ["--strict"], "STRICT_VERDICT", "VERDICT"


@unittest.skipUnless(os.path.exists(VERDICT), "target/bin/verdict is not built")
class Program(Release):
    program = VERDICT

    def verdict(self, *arguments, stdin=b""):
        return subprocess.run([self.program, *arguments], input=stdin, capture_output=True, check=False)

    def line(self, sample):
        return contents(sample + ".line")

    def judged(self, *arguments, stdin=b""):
        return self.release(arguments, self.program, stdin=stdin)

    def test_samples(self):
        for path in sorted(glob.glob(os.path.join(SAMPLES, "*.line"))):
            with self.subTest(line=path):
                sample = path[:-len(".line")]
                book, expected = sample + ".book", self.line(sample)
                answer = (0 if expected == b"accepted\n" else 1, expected)
                self.assertEqual(self.verdict(book).stdout, expected)
                self.assertEqual(self.verdict(stdin=contents(book)).stdout, expected)
                self.assertEqual(self.judged(book), answer)
                self.assertEqual(self.judged(stdin=contents(book)), answer)

    def test_failures(self):
        book = os.path.join(SAMPLES, "empty.book")
        for arguments in [[os.path.join(SAMPLES, "no such book")], [""], ["x" * 5000], [book, book]]:
            with self.subTest(arguments=arguments):
                done = self.verdict(*arguments, stdin=contents(book))
                self.assertEqual(done.stdout, b"")
                self.assertTrue(done.stderr)
                self.assertEqual(self.judged(*arguments, stdin=contents(book)), (2, b""))

    def test_length(self):
        """Of a first and of a second edition: cut in the contents, with bytes left over, too long."""
        for sample, whole, left in [("empty.book", 176, 12), ("empty-second.book", 192, 14)]:
            empty = contents(os.path.join(SAMPLES, sample))
            for size, place in [(0, 0), (7, 0), (8, 0), (175, 0), (whole - 1, 0), (whole + 1, left), (65536, left),
                                (65537, 13), (200000, 13)]:
                with self.subTest(sample=sample, size=size):
                    expected = f"refused 20 {place} 0\n".encode()
                    self.assertEqual(self.verdict(stdin=(empty + bytes(size))[:size]).stdout, expected)
            self.assertEqual(self.verdict(stdin=empty).stdout, b"accepted\n")


@unittest.skipUnless(os.path.exists(STRICT_VERDICT), "target/bin/strict_verdict is not built")
class StrictProgram(Program):
    options, variable, other = ["--strict"], "STRICT_VERDICT", "VERDICT"
    program = STRICT_VERDICT

    def line(self, sample):
        return contents(sample + (".strict" if os.path.exists(sample + ".strict") else ".line"))


if __name__ == "__main__":
    unittest.main()
