#!/usr/bin/env python3
"""Names that the toolchain makes in answer files carry the source's own spelling: 'returns-then-comes_before' where an
older toolchain had 'returns-then-comes-before'. This turns them, by the identifiers of the crate's sources.

usage: python3 tools/respell_made.py [NAME ..]     at the top of the repository; all crates where none is named
"""
import os
import re
import sys

from respell_names import files, read

TOKEN = re.compile(r"(?<![\w'·◌-])[^\W\d_][\w'·]*(?:-[\w'·]+)+(?![\w'·◌-])")
MADE = ("Answers.antt", "Invariants.antt", "Choices.antt")


def identifiers(crate):
    found = set()
    for path in files(".rt", top=os.path.join("crates", crate, "src")):
        for line in read(path).split("\n"):
            if line.lstrip().startswith(("ghost use", "//")):
                continue
            found.update(w for w in re.findall(r"[A-Za-z][A-Za-z0-9]*(?:_[A-Za-z0-9]+)+", line))
    return sorted(found, key=len, reverse=True)


def library_names(text):
    found = set()
    for m in re.finditer(r"\buse [^\s;{]+\.\{([^}]*)\}", text):
        found.update(w.strip().split(" as ")[-1] for w in m.group(1).split(","))
    return found


def turn(token, pairs):
    for old, new in pairs:
        token = re.sub(r"(?<![\w'])" + re.escape(old) + r"(?![\w'])", new, token)
    return token


def main():
    for crate in sys.argv[1:] or sorted(os.listdir("crates")):
        pairs = [(w.replace("_", "-"), w) for w in identifiers(crate)]
        for path in files(*MADE, top=os.path.join("crates", crate, "proofs")):
            text = read(path)
            keep = library_names(text)
            new = TOKEN.sub(lambda m: m.group(0) if m.group(0) in keep else turn(m.group(0), pairs), text)
            if new != text:
                with open(path, "w", encoding="utf-8") as f:
                    f.write(new)


main()
