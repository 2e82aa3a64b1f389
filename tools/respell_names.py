#!/usr/bin/env python3
"""Brings the repository's own definitions, lemmas, members and variables from kebab-case to snake_case, and its types
from Kebab-case to CamelCase. Names that the toolchain makes (in Answers and Invariants) and names of its library stay.

usage: python3 tools/respell_names.py [--list]     at the top of the repository; --list only lists what would be renamed
"""
import os
import re
import sys

NAME = r"[^\W\d_][\w'·]*(?:-[\w'·]+)*"
TOKEN = re.compile(r"(?<![\w'·◌-])" + NAME + r"(?![\w'·◌-])")
MADE = re.compile(r"/proofs/.*/(?:Answers|Invariants|Choices)\.antt$")


def files(*ends, top="crates"):
    for folder, dirs, names in os.walk(top):
        dirs[:] = sorted(d for d in dirs if d not in ("out", "target"))
        for name in sorted(names):
            if name.endswith(ends):
                yield os.path.join(folder, name)


def read(path):
    with open(path, encoding="utf-8") as f:
        return f.read()


def code_of(line, mark):
    at = line.find(mark)
    return (line, "") if at < 0 else (line[:at], line[at:])


def library_names(texts):
    """Names that a 'use' takes from outside the repository: they are not this repository's to rename."""
    own = tuple("Rattle." + c + "." for c in os.listdir("crates"))
    found = set()
    for text in texts:
        for m in re.finditer(r"\buse ([^\s;{]+)\.\{([^}]*)\}", text):
            if not m.group(1).startswith(own):
                found.update(w.strip().split(" as ")[-1] for w in m.group(2).split(","))
    return found


def new_name(name):
    parts = name.split("-")
    if name[0].isupper():
        return "".join(p[:1].upper() + p[1:] for p in parts)
    return "_".join(parts)


def own_names():
    """Hyphenated names in specs/ and in lemma files: definitions, members and variables alike."""
    texts = {p: read(p) for p in files(".antt", ".rt")}
    library = library_names(texts.values())
    found = set()
    for path, text in texts.items():
        if path.endswith(".rt") or MADE.search(path):
            continue
        for line in text.split("\n"):
            code, _ = code_of(line, "--")
            found.update(w for w in TOKEN.findall(code) if "-" in w)
    return {n: new_name(n) for n in found if n not in library}


def local_names(text):
    """Hyphenated names that an answer file binds itself: by let, by λ, or as a lemma beside its answers."""
    found = set()
    for m in re.finditer(r"\blet (" + NAME + r")\s*[:=]", text):
        found.add(m.group(1))
    for m in re.finditer(r"^\s+(" + NAME + r")\s+(?::[^=\n]*)?= ", text, re.M):
        found.add(m.group(1))
    for m in re.finditer(r"λ ([^.\n]*)\.", text):
        found.update(TOKEN.findall(m.group(1)))
    for m in re.finditer(r"^(?:pub )?(" + NAME + r") :(?! goal\.)", text, re.M):
        found.add(m.group(1))
    return {n for n in found if "-" in n}


def turned(text, names, mark):
    out = []
    for line in text.split("\n"):
        code, rest = code_of(line, mark)
        out.append(TOKEN.sub(lambda m: names.get(m.group(0), m.group(0)), code) + rest)
    return "\n".join(out)


def main():
    names = own_names()
    if "--list" in sys.argv:
        for n in sorted(names):
            print(n, names[n])
        return
    for path in list(files(".antt", ".rt")):
        text = read(path)
        if path.endswith(".rt"):
            new = "\n".join(turned(line, names, "//") if '"' not in line else line for line in text.split("\n"))
        elif MADE.search(path):
            mine = {n: new_name(n) for n in local_names(text)}
            new = turned(text, {**names, **mine}, "--")
        else:
            new = turned(text, names, "--")
        if new != text:
            with open(path, "w", encoding="utf-8") as f:
                f.write(new)


if __name__ == "__main__":
    main()
