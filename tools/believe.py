#!/usr/bin/env python3
"""believe.py [NAME..]: the definitions that a statement stands on, in reading order, with their lines.

A statement is a definition in some crate's specs/, by default `Sound`, `held` and `line_of`: what
verdict's line `accepted` says. Lines are those of code; comments and empty lines are not counted.
Only definitions are followed, never a proof. The kit's library (numbers, lists, Booleans) is not listed.
"""
import glob
import os
import re
import sys

TOP = os.path.dirname(os.path.dirname(os.path.abspath(__file__)))
WORD = re.compile(r"[^\s(){}\[\].,;:λ→×∷=⌜⌝]+")
STATEMENTS = ("Sound", "held", "line_of")


class Block:
    """A definition: the lines of code that stand together under one name."""

    def __init__(self, crate, module, path, at, lines):
        self.crate, self.module, self.path, self.at = crate, module, path, at
        self.lines = [line for line in lines if line.strip() and not line.strip().startswith(("--", "//"))]
        self.words = set(WORD.findall("\n".join(self.lines)))


def crates():
    with open(os.path.join(TOP, "crates.txt"), encoding="utf-8") as file:
        return [line.split(":")[0] for line in file if re.match(r"\w+:", line)]


def name_of(line):
    found = re.match(r"\s*(?:abbrev |unfoldable )?(?:pub )?(?:record |data |enum |struct )?([^\s:({]+)", line)
    return found.group(1)


def blocks_of(lines):
    """Runs of lines with a blank line, or a `module` line, between them; with the number of the first."""
    run, first = [], 0
    for at, line in enumerate(lines + [""], 1):
        if line.strip() and not re.match(r"\s*(module |use |ghost use |pub mod )", line):
            if not run:
                first = at
            run.append(line)
        elif run:
            yield first, run
            run = []


def read(path):
    with open(path, encoding="utf-8") as file:
        return file.read().split("\n")


def specs():
    """(crate, module) to the names of its definitions, and to what its `use` lines bring."""
    defined, used = {}, {}
    for crate in crates():
        for path in sorted(glob.glob(os.path.join(TOP, "crates", crate, "specs", "*.antt"))):
            module = os.path.basename(path)[:-5]
            lines = read(path)
            names = defined[crate, module] = {}
            for at, run in blocks_of(lines):
                code = [line for line in run if not line.strip().startswith("--")]
                if code:
                    names[name_of(code[0])] = Block(crate, module, path, at, run)
            used[crate, module] = [
                (of, where.split(".")[0] if not where.startswith("declared") else "declared", what)
                for of, where, what in re.findall(r"use Rattle\.(\w+)\.specs\.([\w.-]+?)(?:\.TheVariants)?\.\{([^}]*)\}",
                                                  "\n".join(lines))]
        declared = defined[crate, "declared"] = {}
        for path in sorted(glob.glob(os.path.join(TOP, "crates", crate, "src", "*.rt"))):
            for at, run in blocks_of(read(path)):
                code = [line for line in run if not line.strip().startswith(("//", "#"))]
                if code and re.match(r"pub (enum|struct) ", code[0]):
                    block = declared[name_of(code[0])] = Block(crate, "declared", path, at, code)
                    for variant in re.findall(r"(?m)^    ([A-Z]\w*)", "\n".join(code)):
                        declared.setdefault(variant, block)
        used[crate, "declared"] = []
    return defined, used


def closure(statements):
    defined, used = specs()
    left = [names[name] for name in statements for names in defined.values() if name in names]
    missing = [name for name in statements if not any(name in names for names in defined.values())]
    if missing:
        sys.exit(f"no definition in specs/: {', '.join(missing)}")
    seen = {}
    while left:
        block = left.pop()
        if (block.path, block.at) in seen:
            continue
        seen[block.path, block.at] = block
        here = (block.crate, block.module)
        left += [other for name, other in defined[here].items() if name in block.words]
        for crate, module, what in used[here]:
            for name in re.split(r",\s*", what):
                name = name.split(" as ")[0]
                if name in block.words and name in defined.get((crate, module), {}):
                    left.append(defined[crate, module][name])
    return seen.values()


def table(statements=STATEMENTS):
    """Rows of (file, names, lines), by crate in the order of crates.txt."""
    order = {crate: at for at, crate in enumerate(crates())}
    rows = {}
    for block in sorted(closure(statements), key=lambda b: (order[b.crate], b.path, b.at)):
        names, count = rows.setdefault(os.path.relpath(block.path, TOP), ([], []))
        names.append(name_of(block.lines[0]))
        count.append(len(block.lines))
    return [(path, names, sum(count)) for path, (names, count) in rows.items()]


def main():
    rows = table(sys.argv[1:] or STATEMENTS)
    for path, names, count in rows:
        print(f"| `{path}` | {', '.join(f'`{name}`' for name in names)} | {count} |")
    print(f"{sum(count for _, _, count in rows)} lines")


if __name__ == "__main__":
    main()
