#!/usr/bin/env python3
"""Lists places in crates/*/src that today's Rattle may write otherwise, by the points of docs/DESIGN-PASS.md.

    tools/places.py            the number of places of each point
    tools/places.py POINT      the places of one point, a line each
    tools/places.py all        every place

A place is a line of code to look at, found by its text; what the text cannot show is counted by hand on the page.
"""
import collections
import glob
import itertools
import os
import re
import sys

ROOT = os.path.join(os.path.dirname(os.path.abspath(__file__)), "..", "crates")

# Each point has kinds of places, each a name and a pattern for a line of code.
LINES = {
    1: [
        ("flag in a struct", r"^\s+(pub(\(crate\))? )?\w+: bool,"),
        ("number for a kind", r"^\s+(0x[0-9a-fA-F]+|\d+)(\.\.=\S+)?( if .*)? =>"),
        ("number for a kind sent", r"(put_\w+\(reply, 0x|&\[0x1[1-4]|heap; 0x1)"),
        ("index for a name", r"\bSETS\[\d"),
        ("count for none", r"^    (n|count)$"),
        ("fault turned by hand", r"(Err\((fault|_)\) => (Some|\(fault|None|0)|Ok\(\(\)\) => None)"),
        ("outcome as a flag", r"^\s+_ => false,"),
    ],
    3: [("index loop", r"\bfor \w+ in .*\.\.")],
    4: [
        ("bytes of a number by hand", r"(% 256\)|/ 256\)|256 \*|>> 8 &)"),
        ("fields compared by hand", r"!= set\.rows \|\|"),
        ("words made by hand", r"\bWords \{$|= Words \{ "),
        ("text made by hand", r"\bHex \{"),
        ("cast of a type's number", r"self\.number\(\)|set\.m as usize"),
    ],
    6: [
        ("length beside a buffer", r"^\s+(pub )?(length|bytes): usize,"),
        ("part of a fixed buffer", r"\.get\(\.\.|\[\.\.(length|answer\.length|i|w|r)\]"),
        ("parallel arrays", r"^\s+pub (support|inverses): \["),
    ],
    7: [("step chosen by a number or a word", r"match (set\.m|what|width) \{")],
}

# A clause of what a function asks, which other functions of the crate ask too.
ASKED = re.compile(r"^\s*requires\s+(?:\w+\s+)?(\{.*\})\s*$")


def sources():
    for path in sorted(glob.glob(os.path.join(ROOT, "*", "src", "**", "*.rt"), recursive=True)):
        with open(path, encoding="utf-8") as f:
            yield os.path.relpath(path, ROOT), f.read().splitlines()


def by_line(point):
    for path, lines in sources():
        for number, line in enumerate(lines, 1):
            if line.lstrip().startswith("//"):
                continue
            for kind, pattern in LINES[point]:
                if re.search(pattern, line):
                    yield path, number, kind, line.strip()


def asked():
    """Clauses that stand in three or more functions of a crate."""
    found = collections.defaultdict(list)
    for path, lines in sources():
        for number, line in enumerate(lines, 1):
            m = ASKED.match(line)
            if m:
                found[path.split(os.sep)[0], m.group(1)].append((path, number))
    for (_, clause), places in sorted(found.items()):
        if len(places) >= 3:
            for path, number in places:
                yield path, number, "clause in %d functions" % len(places), clause


def bodies():
    """Functions and types by their text, with names, numbers and types of the crate put out of sight."""
    head = re.compile(r"^(\s*)(?:pub(?:\(crate\))? )?(fn|struct|impl|enum|const)\b(.*)")
    for path, lines in sources():
        at = 0
        while at < len(lines):
            m = head.match(lines[at])
            if not m or m.group(2) == "const" or lines[at].rstrip().endswith(";"):
                at += 1
                continue
            end = at
            while end < len(lines) and not lines[end].startswith(m.group(1) + "}"):
                end += 1
            yield path, at + 1, m.group(2), m.group(3).strip(), lines[at + 1:end]
            at = end + 1 if m.group(2) in ("fn", "struct", "enum") else at + 1


def together():
    """Functions that take three parameters which four or more functions of the crate take together."""
    found = collections.defaultdict(list)
    head = re.compile(r"^\s*(?:pub(?:\(crate\))? )?fn (\w+)(?:<[^(]*>)?\(([^)]*(?:\(\)[^)]*)?)\)", re.M)
    for path, lines in sources():
        text = "\n".join(lines)
        for m in head.finditer(text):
            names = sorted(set(re.findall(r"(\w+): ", m.group(2))) | ({"self"} if "self" in m.group(2) else set()))
            at = (path, text.count("\n", 0, m.start(1)) + 1, m.group(1))
            for three in itertools.combinations(names, 3):
                found[path.split(os.sep)[0], three].append(at)
    listed = {}
    for (_, three), places in found.items():
        if len(places) >= 4:
            for at in places:
                listed.setdefault(at, []).append(three)
    for (path, number, name), threes in sorted(listed.items()):
        shared = sorted({word for three in threes for word in three})
        yield path, number, "function with parameters that travel together", name + ": " + ", ".join(shared)


def shape(lines):
    text = " ".join(l.strip() for l in lines if not re.match(r"\s*(//|requires|ensures|ghost)", l))
    text = re.sub(r",\s*([})])", r" \1", text)
    return re.sub(r"\b(0[xb][0-9a-fA-F_]+|\d[\d_]*|[A-Za-z]\w*)\b", "x", text)


def twins():
    """Functions and types of one shape: the same but for names, types and numbers."""
    found = collections.defaultdict(list)
    for path, number, word, name, lines in bodies():
        if word in ("fn", "struct", "impl"):
            s = shape(lines)
            if len(s) >= (40 if word == "fn" else 6):
                found[word, s].append((path, number, name))
    for (word, _), places in sorted(found.items()):
        if len(places) >= 2:
            for path, number, name in places:
                yield path, number, "%s of one shape with %d more" % (word, len(places) - 1), name


def places(point):
    if point == 2:
        return list(twins())
    if point == 5:
        return list(asked()) + list(together())
    return list(by_line(point))


def main():
    wanted = sys.argv[1] if len(sys.argv) > 1 else ""
    points = [1, 2, 3, 4, 5, 6, 7]
    if wanted not in ("", "all"):
        points = [int(wanted)]
    for point in points:
        found = places(point)
        if wanted:
            for path, number, kind, text in found:
                print("%d %s:%d: %s: %s" % (point, path, number, kind, text[:90]))
        kinds = collections.Counter(kind for _, _, kind, _ in found)
        print("point %d: %d places" % (point, len(found)))
        for kind, count in kinds.items():
            print("    %d %s" % (count, kind))


main()
