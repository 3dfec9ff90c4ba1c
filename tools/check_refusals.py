#!/usr/bin/env python3
"""Holds the table of refusals in docs/PROTOCOL.md to the definitions that the contracts cite."""

import pathlib
import re
import sys

ROOT = pathlib.Path(__file__).resolve().parent.parent


def defined():
    """Name -> (number, text), from the definitions."""
    spec = (ROOT / "crates/answer/specs/Refusals.antt").read_text()
    numbers = dict(re.findall(r"^refusal_number (\w+) = (\d+)$", spec, re.M))
    texts = dict(re.findall(r'^refusal_text (\w+) = codes "([^"]*)"$', spec, re.M))
    return {name: (int(number), texts[name]) for name, number in numbers.items()}


def documented():
    """Name -> (number, meaning), from the table; rows without a number are the town's own."""
    page = (ROOT / "docs/PROTOCOL.md").read_text()
    rows = re.findall(r"^\| (\d+) \| ([A-Z]\w+) \| ([^|]*) \| [^|]* \|$", page, re.M)
    return {name: (int(number), meaning.strip()) for number, name, meaning in rows}


def main():
    code, docs = defined(), documented()
    wrong = sorted(code.keys() ^ docs.keys())
    wrong += [n for n in code.keys() & docs.keys() if code[n][0] != docs[n][0] or not docs[n][1].startswith(code[n][1])]
    if sorted(number for number, _ in code.values()) != list(range(1, len(code) + 1)):
        wrong.append("numbers with a gap or a repeat")
    for name in wrong:
        print(f"refusals: {name}: defined {code.get(name)}, documented {docs.get(name)}")
    print(f"refusals: {len(code)} defined, {len(docs)} documented, {len(wrong)} differ")
    return 1 if wrong or len(code) != 23 else 0


if __name__ == "__main__":
    sys.exit(main())
