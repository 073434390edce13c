#!/usr/bin/env python3
"""Respells the repository's own definitions and lemmas: words in snake case, types and modules in camel case.

usage: python3 tools/respell_names.py     at the top, once, after the kit's own script of the port

`isBeyondOf` becomes `is_beyond_of`, `inEE` becomes `in_ee`, `natAbs-scaled` becomes `nat_abs-scaled`. A part of a name that begins with a
capital is a type or a fact and stays. Functions of src/ are in snake case already. It turns crates/, mutants/ and the names that the pages cite;
where two names fall together in one file it says so, and nothing else is decided here.
"""

import re
from pathlib import Path

ROOT = Path(__file__).resolve().parent.parent
TOKEN = re.compile(r"(?<![A-Za-z0-9_'\-])[a-z_][A-Za-z0-9_'\-]*")
DECLARED = re.compile(r"(?m)^\s*(?:abbrev |unfoldable |opaque |instance )*(?:pub )?([a-z][A-Za-z0-9_'\-]*) :")
HUMP = re.compile(r"(?<=[a-z0-9])([A-Z][A-Z0-9]*)")


# Lemmas that the kit's script gave an underscore, where the new name of the definition that they speak of is the same: they end in `_lem`.
LEMMAS = {
    "all_valid": ["fields/proofs/Validity", "instruction/proofs/Sending", "machine/proofs/Ranges", "parser/proofs/Placed"],
    "read_back": ["machine/proofs/Demand2", "machine/proofs/Demand2Strings"],
    "from_place": ["frequency/proofs/Placing"],
    "count_down": ["trace/proofs/Events"],
    "goes_on": ["travel/proofs/Moves", "travel/proofs/Turns"],
    "small_word": ["lists/proofs/Turns", "lists/proofs/Words"],
    "whole_word": ["lists/proofs/Turns", "lists/proofs/Words"],
}


def respelled(name):
    return "".join(part if part[:1].isupper() else HUMP.sub(lambda m: "_" + m.group(1).lower(), part) for part in re.split(r"([_\-])", name))


def turned(text, only=None):
    def one(m):
        name = m.group(0)
        return respelled(name) if only is None or name in only else name

    return TOKEN.sub(one, text)


def files(*patterns):
    for pattern in patterns:
        for path in sorted(ROOT.glob(pattern)):
            if path.is_file() and "out" not in path.relative_to(ROOT).parts and "target" not in path.relative_to(ROOT).parts:
                yield path


def part_lemmas():
    for name, places in LEMMAS.items():
        for place in places:
            path = ROOT / "crates" / f"{place}.antt"
            if path.exists():
                path.write_text(TOKEN.sub(lambda m: name + "_lem" if m.group(0) == name else m.group(0), path.read_text()))


def main():
    part_lemmas()
    declared = set()
    for path in files("crates/**/*.antt", "crates/**/*.rt"):
        text = path.read_text()
        declared.update(DECLARED.findall(text))
        names = {}
        for name in set(TOKEN.findall(text)):
            names.setdefault(respelled(name), set()).add(name)
        for new, olds in sorted(names.items()):
            if len(olds) > 1:
                print(f"falls together: {path.relative_to(ROOT)}: {' '.join(sorted(olds))} -> {new}")
    for path in files("crates/**/*.antt", "crates/**/*.rt", "crates/*/must-fail/*", "mutants/**/*.edit"):
        text = path.read_text()
        new = turned(text)
        if new != text:
            path.write_text(new)
    for path in files("docs/**/*.md", "README.md", "mutants/README.md"):
        text = path.read_text()
        new = turned(text, declared)
        if new != text:
            path.write_text(new)


if __name__ == "__main__":
    main()
