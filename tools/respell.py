#!/usr/bin/env python3
"""Turns the names of this repository's own definitions and lemmas to the spelling of Rattle's library.

A function, a lemma, a field or a constructor of antt is written in snake case, a fact or a type in upper camel case:
`step-denial` becomes `step_denial`, `Lined-up` becomes `LinedUp`. Names that Rattle makes keep their dashes, and so do
the names of the library, and a name with an operator in it. Run it once, at the top of the repository; it prints what it
turned, and stops before any change where two names that are defined would fall together. Variables that a λ binds are
turned too, without that test.
"""
import pathlib
import re
import sys

# `OutOfRange` is a variant and `order_file` a crate; `In-range` goes with its opposite.
SPECIAL = {"In-range": "IsInRange", "Out-of-range": "IsOutOfRange", "order-file": "order_file_of"}
WORD = re.compile(r"(?<![\w'-])[A-Za-z_][\w']*(?:-[\w']+)*(?![\w'-])")
HEAD = re.compile(r"^(?:(?:pub|abbrev|unfoldable|private) )*(?P<name>[A-Za-z][\w'-]*) (?:\{[^}]*\} )?:(?P<type>.*)$")
DATA = re.compile(r"^(?:(?:pub|abbrev) )*(?:data|record) (?P<name>[A-Za-z][\w'-]*)")
PART = re.compile(r"^ +(?:(?:pub|abbrev) )*(?P<name>[A-Za-z][\w'-]*) :(?P<type>.*)$")
BOUND = re.compile(r"λ (?P<names>[A-Za-z][\w' -]*)\.")


def new_name(name):
    """The spelling of Rattle's library for a name of ours."""
    if name in SPECIAL:
        return SPECIAL[name]
    if "-" not in name:
        return name
    parts = name.split("-")
    if name[0].isupper():
        return "".join(part[:1].upper() + part[1:] for part in parts)
    return "_".join(part[:1].lower() + part[1:] for part in parts)


def antt_files():
    return sorted(pathlib.Path("crates").glob("*/specs/**/*.antt")) + sorted(pathlib.Path("crates").glob("*/proofs/**/*.antt"))


def is_answers(path):
    return path.name in ("Answers.antt", "Invariants.antt") and path.parent.name != "proofs"


def defined(path):
    """The names that a file defines, but for those that name a goal of Rattle's."""
    names = set()
    for line in path.read_text().splitlines():
        for pattern in (HEAD, DATA, PART):
            match = pattern.match(line)
            if match is None:
                continue
            kind = match.groupdict().get("type") or ""
            if is_answers(path) and re.match(r"\s*(?:goal\.|\{?g)", kind):
                continue
            names.add(match.group("name"))
    return names


def bound(path):
    """The variables that a file's λs bind; one of these may be called as a field is."""
    return {name for match in BOUND.finditer(path.read_text()) for name in match.group("names").split()}


def main():
    ours = {}
    for path in antt_files():
        for name in defined(path):
            if new_name(name) != name:
                ours[name] = new_name(name)

    taken = {}
    for old, new in sorted(ours.items()):
        taken.setdefault(new, []).append(old)
    fallen = [f"{' and '.join(olds)} would both be {new}" for new, olds in taken.items() if len(olds) > 1]
    for path in antt_files():
        # What follows a dot is a field or a part of a path, and no name of its own.
        code = [line.split("-- ")[0] for line in path.read_text().splitlines()]
        words = {word.group(0) for line in code for word in WORD.finditer(line) if line[word.start() - 1 : word.start()] != "."}
        fallen += [f"{path}: {new} stands there already, beside {taken[new][0]}" for new in taken if new in words]
    if fallen:
        print("\n".join(fallen))
        return 1
    for path in antt_files():
        ours.update((name, new_name(name)) for name in bound(path) if new_name(name) != name)

    def turned(match):
        return ours.get(match.group(0), match.group(0))

    changed = 0
    sources = sorted(pathlib.Path("crates").glob("*/src/**/*.rt"))
    for path in antt_files() + sources:
        before = path.read_text()
        lines = []
        for line in before.split("\n"):
            comment = "-- " if path.suffix == ".antt" else "//"
            code, mark, rest = line.partition(comment)
            lines.append(WORD.sub(turned, code) + mark + rest)
        after = "\n".join(lines)
        if after != before:
            path.write_text(after)
            changed += 1
    print(f"{len(ours)} names turned in {changed} files")
    for old, new in sorted(ours.items()):
        print(f"{old} {new}")
    return 0


if __name__ == "__main__":
    sys.exit(main())
