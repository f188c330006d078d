#!/usr/bin/env python3
"""Brings the repository's own definitions and lemmas to today's spelling: words in snake case, types and facts in camel case.

usage: python3 tools/port_names.py [--check]      at the top of the checkout, once, right after the kit's port.py

It renames what specs/ and proofs/ define in camel case with a small first letter, in .antt files, in the clauses of .rt files,
in must-fail edits and in the pages. Functions of src/, exported names, strings, inputs and outputs are not touched: a name
of Rattle source has no capital inside. A lemma that would fall together with a definition gets _lem. --check writes nothing.
Names that still fall together are printed, and then nothing is written.
"""

import collections
import glob
import re
import sys

DEFINED = re.compile(r"^\s*(?:abbrev |unfoldable )?(?:pub )?(?:abbrev |unfoldable )?(?:pub )?([^\s:(){},;]+)\s*:(?!=)", re.M)
TOKEN = r"(?<![\w'-]){}(?![\w'-])"

# What no rule says: `result` is a word of clauses now, and two names of the library went into names of lemmas.
OTHERS = {
    "result": "result_of",
    "toZ-low": "to_z-low",
    "getD-every": "get_or-every",
}
# Lemmas that would fall together with a definition, and where they stand or are imported.
LEMMAS = {
    "same_const": ("same_const_lem", ("soundness/proofs/",)),
    "row_is": ("row_is_lem", ("lowering/proofs/", "soundness/proofs/")),
    "read_at": ("read_at_lem", ("soundness/proofs/",)),
    "one_function": ("one_function_lem", ("congruence/proofs/",)),
    "left_over": ("left_over_lem", ("book/proofs/",)),
    "base_target": ("base_target_lem", ("widths/proofs/",)),
    "base-source": ("base_source_lem", ("widths/proofs/",)),
    "has_width": ("has_width_lem", ("wf/proofs/Promise",)),
}
PAGES = ("README.md", "CONTRIBUTING.md", "docs/*.md", "docs/notes/*.md", "tools/*.py")


def snake(name):
    return re.sub(r"[A-Z]+", lambda it: "_" + it[0].lower(), name)


def read(path):
    with open(path, encoding="utf-8") as it:
        return it.read()


def files(ending):
    return sorted(it for it in glob.glob(f"crates/*/**/*{ending}", recursive=True) if "/out/" not in it)


def renamed():
    """Returns today's name of each definition or lemma that has a capital after a small first letter."""
    names = {name for path in files(".antt") for name in DEFINED.findall(read(path))}
    camel = {it for it in names if not it[0].isupper() and re.search("[A-Z]", it)}
    return {**{it: snake(it) for it in camel}, **OTHERS}


def one_pass(text, table):
    """The text with each name of the table in its place. Behind a dot a name with a capital is ours too, and any other a field or a path that stays."""
    words = "|".join(sorted(map(re.escape, table), key=len, reverse=True))

    def new(it):
        stays = it.start() > 0 and text[it.start() - 1] == "." and not re.search("[A-Z]", it[1])
        return it[1] if stays else table[it[1]]

    return re.sub(TOKEN.format(f"({words})"), new, text) if table else text


def clauses(text, table):
    """A .rt file with the names of its `ghost use` items, clauses and comments; its code has none of them."""
    strings = r'"(?:[^"\\\n]|\\.)*"'
    parts = re.split(f"({strings})", text)
    return "".join(it if at % 2 else one_pass(it, table) for at, it in enumerate(parts))


def of_rt(table):
    # `result` alone is not unique in a .rt file: there it is what a function returns, and the definition stands before arguments.
    return {it: to for it, to in table.items() if it != "result"}


def applied_result(text):
    text = re.sub(r"(ghost use Rattle\.answers\.specs\.Result\.\{[^}]*?)\bresult\b", r"\1result_of", text)
    return re.sub(r"\bresult (?=r \()", "result_of ", text)


def turned(path, table):
    text = read(path)
    if path.endswith(".antt"):
        for name, (to, where) in LEMMAS.items():
            if any(f"crates/{it}" in path for it in where):
                text = one_pass(text, {name: to})
        return one_pass(text, table)
    if path.endswith(".rt"):
        return clauses(applied_result(text), of_rt(table))
    if path.endswith(".edit"):
        lines = text.split("\n")
        return "\n".join(clauses(applied_result(it), of_rt(table)) if re.match("old:|new:", it) else one_pass(it, of_rt(table)) for it in lines)
    return one_pass(text, of_rt(table))


def falling_together(table):
    """Names that two names would share, or that a file has already as a word of its own."""
    shared = collections.defaultdict(set)
    for name, to in table.items():
        shared[to].add(name)
    bad = [f"{sorted(it)} become {to}" for to, it in shared.items() if len(it) > 1]
    lemmas = {it: to for it, (to, _) in LEMMAS.items()}
    for path in files(".antt"):
        text = re.sub(r"Rattle\.\w+\.proofs\.[a-z][\w'-]*", "", read(path))
        text = re.sub(r"(?m)^ *--.*$", "", text)
        for name, (to, where) in LEMMAS.items():
            if any(f"crates/{it}" in path for it in where):
                text = one_pass(text, {name: to})
        found = set(re.findall(r"(?<![\w'.-])([a-z][\w'-]*)", text))
        bad += [f"{path} has {to} already" for to in sorted(found & set(table.values()))]
    for path in files(".rt"):
        text = read(path)
        given = set(re.findall(r"(\w+): ", " ".join(re.findall(r"fn \w+\(([^)]*)\)", text))))
        new = {table[it] for line in re.findall(r"ghost use [^;]*;", text) for it in re.findall(r"[\w'-]+", line) if it in table}
        bad += [f"{path}: a parameter {it} hides the definition" for it in sorted(given & new)]
    return bad, lemmas


def main():
    table = renamed()
    bad, _ = falling_together(table)
    for line in bad:
        print(line)
    if bad:
        sys.exit(1)
    pages = [path for it in PAGES for path in sorted(glob.glob(it)) if not path.endswith("port_names.py")]
    changed = 0
    for path in [*files(".antt"), *files(".rt"), *files(".edit"), *pages]:
        new = turned(path, table)
        if new != read(path):
            changed += 1
            if "--check" not in sys.argv[1:]:
                with open(path, "w", encoding="utf-8") as it:
                    it.write(new)
    print(f"names: {len(table)} renamed, {len(LEMMAS)} lemmas beside a definition, {changed} files")


if __name__ == "__main__":
    main()
