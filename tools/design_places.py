#!/usr/bin/env python3
"""Lists the places of src/ that may have a plainer form today, by the points of docs/DESIGN-PASS.md.

    python3 tools/design_places.py [POINT [CRATE]]

A place is a line `crates/NAME/src/FILE:LINE  what`. The last line has the count of each point. What a pattern finds is
a place to look at, not yet one to change.
"""
import collections
import glob
import re
import sys

FN = re.compile(r"^( *)(?:pub(?:\(\w+\))? )?(?:const )?fn (\w+)", re.M)


def functions(text):
    """Each function: its line, name, parameters, result, clauses and body."""
    found = []
    for m in FN.finditer(text):
        at, depth = m.end(), 0
        if text[at:at + 1] == "<":
            while True:
                depth += {"<": 1, ">": -1}.get(text[at], 0) if text[at - 1:at + 1] != "->" else 0
                at += 1
                if depth == 0:
                    break
        start, depth = at, 0
        while True:
            depth += {"(": 1, ")": -1}.get(text[at], 0)
            at += 1
            if depth == 0:
                break
        params = " ".join(text[start + 1:at - 1].split())
        indent = m.group(1)
        end = re.compile(r"^%s(?:\}|\S.*[;}])$" % indent, re.M).search(text, at)
        whole = text[at:end.end() if end else len(text)]
        ret = re.match(r"\s*->\s*([^\n{;]+)", whole)
        clauses = re.findall(r"^\s*(?:requires|ensures)(?: \w+)? \{ (.*) \}$", whole, re.M)
        body = re.sub(r"^\s*(?:requires|ensures)(?: \w+)? \{ .* \}$", "", whole, flags=re.M)
        found.append((text.count("\n", 0, m.start()) + 1, m.group(2), split(params),
                      ret.group(1).strip() if ret else "()", clauses, body))
    return found


def split(params):
    parts, depth, now = [], 0, ""
    for c in params:
        depth += {"(": 1, "[": 1, "<": 1, ")": -1, "]": -1, ">": -1}.get(c, 0)
        if c == "," and depth == 0:
            parts.append(now.strip())
            now = ""
        else:
            now += c
    return [p for p in parts + [now.strip()] if p]


def sources(crate):
    for path in sorted(glob.glob("crates/%s/src/**/*.rt" % crate, recursive=True)):
        yield path, open(path, encoding="utf-8").read()


def lines(path, text, pattern, what):
    for n, line in enumerate(text.split("\n"), 1):
        if not re.match(r"\s*(//|ghost use|use |requires|ensures)", line) and re.search(pattern, line):
            yield path, n, what + ": " + line.strip()


def point_1(crate):
    for path, text in sources(crate):
        yield from lines(path, text, r"^(pub(\(\w+\))? )?enum ", "own enum")
        yield from lines(path, text, r"(None|Err\(\w+\)) => (return )?(None|Err|false)|None => \{\}|None => break", "passed on by hand")
        yield from lines(path, text, r"(Some|Ok)\(\w+\) => (Some|Ok)\(|Some\(_\) => Err|Ok\(_\) => ", "passed on by hand")
        yield from lines(path, text, r"let (Some|Ok)\(.*\) = .* else|^\s*\) = .* else|^\s*\) = .*$", "let else")
        yield from lines(path, text, r"\b255\b", "a number for none")
        yield from lines(path, text, r"\b(kind|status|byte) == \d+", "a number for a kind")
        for n, name, params, ret, _, body in functions(text):
            if ret == "bool" and any("&mut" in p for p in params):
                yield path, n, "flag with a value beside it: fn " + name
            for p in params:
                if re.match(r"(status|kind|pair|code|byte): u\d+", p):
                    yield path, n, "a number for a kind: fn %s(%s)" % (name, p)
            if re.search(r"=> \d+,", body) and re.match(r"u\d+", ret):
                yield path, n, "a number for each case: fn " + name


def point_2(crate):
    where = collections.defaultdict(list)
    for path, text in sources("*"):
        for n, name, *_ in functions(text):
            if name not in ("main", "new", "tell", "goes_before", "turn", "its_code"):
                where[name].append((path, n))
    for name, places in sorted(where.items()):
        if len(places) > 1:
            for path, n in places:
                if crate == "*" or "/%s/" % crate in path:
                    yield path, n, "one name, %d functions: fn %s" % (len(places), name)
    shapes = collections.defaultdict(list)
    for path, text in sources("*"):
        for n, name, _, _, _, body in functions(text):
            flat = re.sub(r"\d+", "0", re.sub(r"\b[A-Za-z_]\w*\b", lambda w: w.group(0) if w.group(0) in ("for", "in", "if", "match", "return", "let", "mut", "else") else "x", " ".join(body.split())))
            if len(flat) > 60:
                shapes[flat].append((path, n, name))
    for places in shapes.values():
        if len(places) > 1:
            for path, n, name in places:
                if crate == "*" or "/%s/" % crate in path:
                    yield path, n, "one shape, %d functions: fn %s" % (len(places), name)


def point_3(crate):
    for path, text in sources(crate):
        for n, name, _, _, _, body in functions(text):
            for m in re.finditer(r"^( *)(for (\w+) in 0\.\.|while |loop \{|for )", body, re.M):
                end = re.compile(r"^%s\}" % m.group(1), re.M).search(body, m.end())
                inside = body[m.end():end.start() if end else len(body)]
                line = n + body[:m.start()].count("\n")
                i = m.group(3)
                if i and re.search(r"\[[^\]]*\b%s\b[^\]]*\]" % i, inside):
                    yield path, line, "an index counted: fn %s" % name
                elif m.group(2) == "while " and re.search(r"\+= 1", inside):
                    yield path, line, "counted by hand: fn %s" % name
                elif re.search(r"return (true|false|\w+|Some\(\w+\));", inside) and len(inside.strip().split("\n")) <= 4:
                    yield path, line, "a search by hand: fn %s" % name
                elif re.search(r"^\s*\w+ \+= ", inside) and len(inside.strip().split("\n")) == 1:
                    yield path, line, "a sum by hand: fn %s" % name
                elif re.search(r"\.(push|push_reserved|insert)\(", inside):
                    yield path, line, "a collection filled by hand: fn %s" % name


def point_4(crate):
    for path, text in sources(crate):
        flat = text
        yield from lines(path, flat, r"(\S+) < (\S+) \|\| \(\S+ == \S+ && ", "an order by hand")
        for n, name, params, ret, _, body in functions(text):
            if re.search(r"=> \d+,", body) and re.match(r"u\d+", ret):
                yield path, n, "a conversion by hand: fn " + name
            if re.search(r"Option<(Status|Role)>", ret) and re.search(r"\b[01]\b", body):
                yield path, n, "a conversion by hand: fn " + name
            if re.search(r"/ (256|65536|16777216)|\* 256", body):
                yield path, n, "a conversion by hand: fn " + name
            if re.search(r"println!|print!", body) and re.search(r"match |if let|\.number\(\)", body):
                yield path, n, "printing by hand: fn " + name
        for m in re.finditer(r"(?:#\[derive\(([^)]*)\)\]\n)?(?:pub(?:\(\w+\))? )?(?:struct|enum) (\w+)", text):
            if "Copy" in (m.group(1) or "") and "PartialEq" not in m.group(1):
                yield path, text.count("\n", 0, m.end()) + 1, "plain data without equality: " + m.group(2)


def norm(clause):
    return re.sub(r"\b(rule|self\.\w+\.rule|plan\.\w+\.rule)\.now\b", "RULE", clause)


def point_5(crate):
    facts, groups = collections.defaultdict(set), collections.defaultdict(set)
    for path, text in sources("*"):
        for n, name, params, _, clauses, _ in functions(text):
            for clause in set(map(norm, clauses)):
                if not clause.startswith("result"):
                    facts[(path.split("/")[1], clause)].add((path, n, name))
            kept = [p for p in params if not re.search(r"\bself$", p)]
            for i in range(len(kept)):
                for j in range(i + 1, len(kept)):
                    for k in range(j + 1, len(kept)):
                        groups[(path.split("/")[1], kept[i], kept[j], kept[k])].add((path, n, name))
    for (where, clause), fns in sorted(facts.items()):
        if len(fns) >= 3 and crate in ("*", where):
            for path, n, name in sorted(fns):
                yield path, n, "a fact in %d contracts: %s" % (len(fns), clause[:70])
    seen = set()
    for (where, *names), fns in sorted(groups.items(), key=lambda g: -len(g[1])):
        if len(fns) >= 3 and crate in ("*", where):
            for path, n, name in sorted(fns):
                if (path, n) not in seen:
                    seen.add((path, n))
                    yield path, n, "parameters that travel: fn %s(%s)" % (name, ", ".join(names))


def point_6(crate):
    for path, text in sources(crate):
        yield from lines(path, text, r"let mut \w+ = \[", "an array filled")
        yield from lines(path, text, r"^\s*(pub(\(\w+\))? )?(at|len|count|size): usize,$", "a length or place beside a buffer")
        yield from lines(path, text, r"\.split_at\(", "a slice cut by hand")
        for n, name, params, ret, clauses, body in functions(text):
            slices = [p for p in params if re.search(r": &(mut )?(\[|Vec<)", p)]
            if len(slices) > 1:
                yield path, n, "arrays side by side: fn %s(%s)" % (name, ", ".join(slices))
            if re.search(r"fn \w*place_|place_of|place_for", name):
                yield path, n, "a sorted list searched: fn " + name


def point_7(crate):
    for path, text in sources(crate):
        yield from lines(path, text, r"\bfn\(|\[\s*\w+::tell|step == \d+|match step", "a table of functions or a switch on a step")


def main():
    points = [sys.argv[1]] if len(sys.argv) > 1 else list("1234567")
    crate = sys.argv[2] if len(sys.argv) > 2 else "*"
    counts = []
    for point in points:
        places = sorted(set(globals()["point_" + point](crate)))
        print("## Point %s" % point)
        for path, n, what in places:
            print("%s:%d  %s" % (path, n, what))
        counts.append("%s: %d" % (point, len(places)))
    print("places: " + ", ".join(counts))


main()
