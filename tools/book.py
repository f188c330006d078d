#!/usr/bin/env python3
"""Makes books from listings, shows and draws books, explains verdict's answers.

    tools/book.py make LISTING [-o BOOK]
    tools/book.py show BOOK
    tools/book.py draw BOOK [-o SVG]
    tools/book.py explain BOOK [--strict] [--verdict PROGRAM]

- stands for standard input. --strict asks the program strict_verdict, to which a root
must be of one bit. Books are of the first or the second edition; a listing with the section
`sorts` makes one of the second. docs/BOOKS.md has the formats of books and listings.

Unproved. What is proved is the checker and the programs, which read the
book's bytes themselves; a mistake here can make another book than was meant, or
a wrong explanation, never a wrong verdict.

Exit: 0 done (explain: accepted), 1 the book is bad (explain: refused), 2 not done.
"""

import argparse
import os
import re
import subprocess
import sys

from draw import draw
from explain import LIMIT, explain
from graph import MAX
from listing import BadListing, decode, edition_of, listing, parse

TOP = os.path.dirname(os.path.dirname(os.path.abspath(__file__)))
SECONDS = 60  # for verdict


class Failure(Exception):
    """What ends the program with exit 2."""


def read_bytes(path):
    if path == "-":
        return sys.stdin.buffer.read()
    with open(path, "rb") as file:
        return file.read()


def read_text(path):
    data = read_bytes(path)
    if b"\0" in data:
        raise Failure(f"{path}: this looks like a book, not a listing; `show` makes one of it")
    try:
        return data.decode("utf-8-sig")
    except UnicodeDecodeError as error:
        line = data.count(b"\n", 0, error.start) + 1
        raise Failure(f"{path}:{line}: not UTF-8") from None


def make(options):
    try:
        book = parse(read_text(options.listing))
    except BadListing as error:
        raise Failure("{}:{}: {}".format(options.listing, *error.args)) from None
    if len(book) > LIMIT:
        print(f"note: {len(book)} bytes; verdict reads at most {LIMIT}", file=sys.stderr)
    if options.output:
        with open(options.output, "wb") as file:
            file.write(book)
    elif sys.stdout.isatty():
        raise Failure("a book is bytes, not text: give -o BOOK or a pipe")
    else:
        sys.stdout.buffer.write(book)
    return 0


def show(options):
    data = read_bytes(options.book)
    bodies, place = decode(data)
    if place is None:
        print(listing(bodies), end="")
        return 0
    print("\n".join(explain(data, (20, place, 0))), file=sys.stderr)
    print(listing(bodies, edition_of(data)), end="", file=sys.stderr)
    return 1


def draw_book(options):
    data = read_bytes(options.book)
    bodies, place = decode(data)
    if place is not None:
        print("\n".join(explain(data, (20, place, 0))), file=sys.stderr)
        return 1
    if options.output:
        with open(options.output, "w", encoding="utf-8") as file:
            file.write(draw(bodies))
    else:
        print(draw(bodies), end="")
    return 0


def ask(program, data, name="verdict"):
    """A program's answer to a book: its line, and number, place, detail. `rt` knows it by name."""
    try:
        run = subprocess.run([program], input=data, stdout=subprocess.PIPE, timeout=SECONDS)
    except FileNotFoundError:
        raise Failure(f"no program {program}; "
                      f"`tools/build {name}` builds target/bin/{name}") from None
    except subprocess.TimeoutExpired:
        raise Failure(f"{program} did not answer in {SECONDS} seconds") from None
    line = run.stdout.decode("ascii", "replace")
    found = re.fullmatch(r"accepted\n|refused ([0-9]{1,20}) ([0-9]{1,20}) ([0-9]{1,20})\n", line)
    if not found:
        raise Failure(f"{program} answered {line[:60]!r}")
    answer = tuple(int(word or 0) for word in found.groups())
    if max(answer) > MAX or (line != "accepted\n" and answer[0] == 0):
        raise Failure(f"{program} answered {line[:60]!r}")
    return line, answer


def explain_book(options):
    data = read_bytes(options.book)
    name = "strict_verdict" if options.strict else "verdict"
    program = options.verdict
    if program is None:
        program = os.path.join(TOP, "target", "bin", name)
    line, answer = ask(program, data, name)
    print(line + "\n".join("  " + text for text in explain(data, answer, options.strict)))
    return 0 if answer[0] == 0 else 1


def arguments():
    parser = argparse.ArgumentParser(description=__doc__.split("\n")[0])
    commands = parser.add_subparsers(required=True, metavar="COMMAND")
    command = commands.add_parser("make", help="a book from a listing")
    command.add_argument("listing", metavar="LISTING")
    command.add_argument("-o", dest="output", metavar="BOOK")
    command.set_defaults(run=make)
    command = commands.add_parser("show", help="a listing of a book")
    command.add_argument("book", metavar="BOOK")
    command.set_defaults(run=show)
    command = commands.add_parser("draw", help="a picture of a book, as SVG")
    command.add_argument("book", metavar="BOOK")
    command.add_argument("-o", dest="output", metavar="SVG")
    command.set_defaults(run=draw_book)
    command = commands.add_parser("explain", help="what verdict says of a book")
    command.add_argument("book", metavar="BOOK")
    command.add_argument("--strict", action="store_true",
                         help="what strict_verdict says: every root must be of one bit")
    command.add_argument("--verdict", metavar="PROGRAM", help="ask that program instead")
    command.set_defaults(run=explain_book)
    return parser


def main():
    options = arguments().parse_args()
    try:
        status = options.run(options)
        sys.stdout.flush()
        return status
    except BrokenPipeError:
        os.dup2(os.open(os.devnull, os.O_WRONLY), sys.stdout.fileno())
        return 2
    except OSError as error:
        print(f"book.py: {error.filename or ''}: {error.strerror or error}", file=sys.stderr)
    except Failure as failure:
        print(f"book.py: {failure}", file=sys.stderr)
    return 2


if __name__ == "__main__":
    sys.exit(main())
