#!/usr/bin/env python3
"""Brings the repository's own definitions and lemmas to the spelling of today's Rattle; ran once, right after its port script.

usage: tools/respell.py [--list]     at the top of the repository

A name in camel case becomes snake case (`perSet`, `per_set`). In a name with dashes a dash stays where both parts name a definition
(`keep-length`: what `length` is of a `keep`), and is an underscore elsewhere (`walk_next`). Names of src/, of the C surface, of Rattle's own
library and of what Rattle makes are left as they are, as are texts, inputs and outputs. --list prints the names alone.
"""
import collections
import os
import re
import sys

ROOT = os.path.dirname(os.path.dirname(os.path.realpath(__file__)))
CRATES = os.path.join(ROOT, "crates")
# a name of antt, or a part of a path
NAME = re.compile(r"[^\s(){};,.@\"`⌜⌝\[\]]+")
SIGNATURE = re.compile(r"^\s*((?:pub\s+|abbrev\s+|unfoldable\s+)*)((?:record|data)\s+)?([^\s:(){}]+)(?:\s+[({].*?)?\s*:\s(.*)")
BOUND = re.compile(r"\blet ([a-z][\w'-]*)|λ ((?:[^\s.()]+ ?)+)\.")
# names that would fall together with another, or with a word of the language
OTHERWISE = {
    "first_of": "first_cause",
    "number_digits": "number_digits_lem",
    "list_length": "list_length_lem",
    "refusal-length": "refusal_length_lem",
    "line-length": "line_length_lem",
    "heading-length": "heading_length_lem",
    "sheet-length": "sheet_length_lem",
    "vertex-field": "vertex_field_lem",
    "slack-field": "slack_field_lem",
    "floor-field": "floor_field_lem",
    "first_field": "first_field_lem",
    "right-lines": "right_lines_lem",
    "largest_size": "largest_size_lem",
    "largest-mask": "largest_mask_lem",
    "word-of": "word_of_lem",
    "one_way": "unanswered",
    "bit-and": "bit-bit_and",
    "bit-or": "bit-bit_or",
    "getD-map-from": "get_or-map_from",
    "getD-map-range": "get_or-map_range",
}
# names that a function or a variable of src/ has too: no file has both in one sense
SHARED = set("""refused_rows first_bound second_bound core_within read_lines rows_read most_vertices vertices_accepted slack_accepted floor_accepted
pair_row reach_row near_row count_masks is_line right_lines""".split())
# words that end a lemma's name and say what it states (CONTRIBUTING.md), and small words: none of them names the definition of the same spelling
PLAIN = set("""none next more same other stays goes all any holds test sound complete unique fits falls below above in out mono adds refused accepted first
second one two only few over from with without rest least so before behind after apart back found changed passed asked joined kept listed others low at is""".split())
LIBRARY = set("length map set take drop append get_or min max add sub mul div mod pow".split())


def files(*kinds):
    for folder, dirs, names in os.walk(CRATES):
        dirs[:] = sorted(d for d in dirs if d not in ("out", ".git"))
        for n in sorted(names):
            if n.endswith(kinds):
                yield os.path.join(folder, n)


def read(path):
    with open(path, encoding="utf-8") as f:
        return f.read()


def snake(name):
    return re.sub(r"([a-z0-9])([A-Z])", lambda m: m.group(1) + "_" + m.group(2).lower(), name)


def declared():
    """Every name that the repository's own .antt files declare or bind, those that are definitions of specs/, and those that may be fields."""
    found, definitions, fields = collections.OrderedDict(), set(), set()
    for path in files(".antt"):
        for line in read(path).splitlines():
            code = line.split("--")[0] if line.lstrip().startswith("--") or " -- " in line else line
            if code.lstrip().startswith("use "):
                continue
            m = SIGNATURE.match(code)
            if m:
                found.setdefault(m.group(3), path)
                if line.startswith("  ") and ("/specs/" in path or "/proofs/" in path and path.count("/") == CRATES.count("/") + 3):
                    fields.add(m.group(3))
                if "/specs/" in path and re.search("abbrev|unfoldable", m.group(1)) and not m.group(2):
                    definitions.add(snake(m.group(3)))
            for m in BOUND.finditer(code):
                for n in (m.group(1) or m.group(2)).split():
                    if "-" in n.strip("-"):
                        found.setdefault(n, path)
    return found, definitions, fields


def respelled(name, definitions):
    if name in OTHERWISE:
        return OTHERWISE[name]
    if not re.match(r"^[a-z]", name):
        return name
    # the name by which the check finds a function's proof
    if name.endswith("-spec"):
        return name.replace("-", "_")
    if "-" not in name:
        return snake(name)
    words = re.split(r"-", snake(name))
    known = (definitions | LIBRARY) - PLAIN
    # the longest runs of words that name one definition
    parts, i = [], 0
    while i < len(words):
        for j in range(len(words), i, -1):
            whole = "_".join(words[i:j])
            if whole in known or j == i + 1:
                parts.append(whole)
                i = j
                break
    text = parts[0]
    for a, b in zip(parts, parts[1:]):
        text += ("-" if a in known and b in known else "_") + b
    return text


def turned():
    found, definitions, fields = declared()
    names = {n: respelled(n, definitions) for n in found}
    return {n: to for n, to in names.items() if n != to}, fields


def used():
    seen = set()
    for path in files(".antt", ".rt"):
        seen.update(NAME.findall(read(path)))
    return seen


def check(names):
    """No two names may fall together, in one another or with a name that is there."""
    seen = used()
    by = collections.defaultdict(list)
    for n, to in names.items():
        by[to].append(n)
    return [(to, froms) for to, froms in by.items() if len(froms) > 1 or (to in seen and to not in names and to not in SHARED)]


def turn_line(line, names, comment, fields=None):
    def swap(m):
        n = m.group(0)
        # behind a dot in a proof of a function a name is Rattle's, unless a record of the repository has it
        if fields is not None and m.start() > 0 and line[m.start() - 1] == "." and n not in fields and not line.startswith("use "):
            return n
        # in words meant for people only camel case is surely a name
        if comment and "-" in n:
            return n
        return names.get(n, n)

    return NAME.sub(swap, line)


def turn(path, names, fields):
    text = read(path)
    known = fields if os.path.basename(path) == "Proof.antt" else None
    lines = []
    for line in text.split("\n"):
        at = 0 if line.lstrip().startswith("--") else line.find(" -- ")
        if path.endswith(".antt") and at >= 0:
            lines.append(turn_line(line[:at], names, False, known) + turn_line(line[at:], names, True))
        elif path.endswith(".rt"):
            at = line.find("//")
            at = len(line) if at < 0 else at
            # code has no dash in a name and no camel case
            lines.append(turn_line(line[:at], names, False) + turn_line(line[at:], names, True))
        elif path.endswith(".edit"):
            lines.append(turn_line(line, names, line.startswith("#")))
        else:
            lines.append(turn_line(line, names, False, known))
    new = "\n".join(lines)
    if new != text:
        with open(path, "w", encoding="utf-8") as f:
            f.write(new)


def main():
    names, fields = turned()
    clashes = check(names)
    if "--list" in sys.argv:
        for n, to in sorted(names.items()):
            print(n, to)
        for to, froms in clashes:
            print("falls together:", to, froms)
        return
    for to, froms in clashes:
        print("falls together:", to, froms)
    if clashes:
        sys.exit(1)
    for path in files(".antt", ".rt", ".edit"):
        turn(path, names, fields)
    print(len(names), "names respelled")


main()
