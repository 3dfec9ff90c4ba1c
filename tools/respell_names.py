#!/usr/bin/env python3
"""Respells the names of definitions and lemmas: snake case, and camel case for types.

usage: python3 tools/respell_names.py [--names]      at the top of the repository

A name that specs/ or proofs/ define with a dash gets an underscore for each dash, or, where it begins with a capital, none:
`low-flag-clear` becomes `low_flag_clear`, `Live-rows` becomes `LiveRows`. Names that the check makes (goals and steps), names of
src/, strings and prose stay. `--names` prints the table and changes nothing. Where two names would fall together it stops.
"""

import os
import re
import sys

DEFINED = re.compile(
    r"^\s*(?:(?:unfoldable|abbrev|pub|data|record)\s+)*([^\s:(){}]+)\s*(?:\([^()]*(?:\([^()]*\)[^()]*)*\)\s*|\{[^{}]*\}\s*)*:\s"
)
TOKEN = re.compile(r"[^\s(){}\[\];,.:\"`«»\\@|?]+")
# Made by the check: a goal in an answer file, and a step below `c.` or `w.`.
STEP = re.compile(r"(?:^|[\s(,{])(?:c|w|goal)(?:\.[^\s(){}\[\];,.:]+)*\.$")
# Another spelling where the plain one is taken.
OTHER = {"If-some": "WhereSome", "Live-rows": "AllLive"}


def files(root, endings):
    for folder, dirs, names in os.walk(root):
        dirs[:] = sorted(d for d in dirs if d not in ("out", ".git", "target"))
        for name in sorted(names):
            if name.endswith(endings):
                yield os.path.join(folder, name)


def read(path):
    with open(path, encoding="utf-8") as f:
        return f.read()


def respelled(name):
    if name in OTHER:
        return OTHER[name]
    if name[0].isupper():
        first, *rest = re.split("[-_]", name)
        return first + "".join(part[:1].upper() + part[1:] for part in rest)
    return name.replace("-", "_").replace("′", "'")


def own_names():
    found = set()
    for path in files("crates", (".antt",)):
        for line in read(path).split("\n"):
            match = DEFINED.match(line)
            if match and "goal." not in line and "need." not in line:
                found.add(match[1])
    return {n: respelled(n) for n in found if re.match(r"[A-Za-z]", n) and ("-" in n or "′" in n)}


def turn_code(text, table, comment):
    """Names outside comments and strings; in a comment, those between backticks."""
    out = []
    for line in text.split("\n"):
        at = line.find(comment)
        code, rest = (line, "") if at < 0 else (line[:at], line[at:])
        parts = re.split(r'("(?:[^"\\]|\\.)*")', code)
        for i in range(0, len(parts), 2):
            parts[i] = turn_names(parts[i], table)
        out.append("".join(parts) + turn_prose(rest, table))
    return "\n".join(out)


def turn_names(code, table):
    def turn(match):
        if match[0] not in table or STEP.search(code[: match.start()]):
            return match[0]
        return table[match[0]]

    return TOKEN.sub(turn, code)


def turn_prose(text, table):
    return re.sub(r"`[^`\n]*`", lambda m: turn_names(m[0], table), text)


def clashes(table):
    """New names that stand somewhere already, or that two old names share."""
    used = {}
    for path in files("crates", (".antt", ".rt")):
        for token in TOKEN.findall(read(path)):
            used.setdefault(token, path)
    both = {}
    for old, new in table.items():
        both.setdefault(new, []).append(old)
    said = [f"{' and '.join(sorted(olds))}: both {new}" for new, olds in sorted(both.items()) if len(olds) > 1]
    return said + [f"{old}: {new} stands in {used[new]}" for old, new in sorted(table.items()) if new in used]


def main():
    table = own_names()
    if "--names" in sys.argv:
        for old, new in sorted(table.items()):
            print(old, new)
        print("\n".join(clashes(table)), file=sys.stderr)
        return
    for path in files("crates", (".antt", ".rt", ".edit")):
        text = read(path)
        turned = turn_code(text, table, "--" if path.endswith(".antt") else "//")
        if turned != text:
            with open(path, "w", encoding="utf-8") as f:
                f.write(turned)
    for path in list(files("docs", (".md",))) + ["README.md"]:
        text = read(path)
        turned = turn_prose(text, table)
        if turned != text:
            with open(path, "w", encoding="utf-8") as f:
                f.write(turned)


main()
