#!/usr/bin/env python3
"""Counts places of the code that read like an older language (docs/DESIGN-PASS.md): tools/places.py [ROOT]

It reads ROOT/crates/*/src/*.rt as text, without comments, and prints for each point its places and how many they are.
"""
import difflib
import re
import sys
from pathlib import Path

root = Path(sys.argv[1] if len(sys.argv) > 1 else ".")
files = {}
for path in sorted(root.glob("crates/*/src/*.rt")):
    text = path.read_text(encoding="utf-8")
    files[str(path.relative_to(root / "crates"))] = re.sub(r"//.*", "", text)


def lines(pattern):
    """The lines that match, as FILE:LINE: TEXT."""
    found = []
    for name, text in files.items():
        for number, line in enumerate(text.split("\n"), 1):
            if re.search(pattern, line):
                found.append(f"{name}:{number}: {line.strip()}")
    return found


def blocks(pattern):
    """The places of a pattern that goes over lines."""
    found = []
    for name, text in files.items():
        for match in re.finditer(pattern, text, re.M):
            number = text.count("\n", 0, match.start()) + 1
            found.append(f"{name}:{number}: {' '.join(match.group(0).split())[:110]}")
    return found


def functions():
    """Each function's place, name, parameters and body."""
    head = re.compile(r"fn (\w+)(?:<[^>]*>)?\(([^)]*)\)")
    for name, text in files.items():
        for match in head.finditer(text):
            open_at = re.compile(r"^( *)\{\n", re.M).search(text, match.end())
            same_line = text.find("{\n", match.end())
            if same_line < 0:
                continue
            start = open_at.start() if open_at and open_at.start() < same_line else same_line
            depth, at = 0, start
            while at < len(text):
                depth += {"{": 1, "}": -1}.get(text[at], 0)
                at += 1
                if depth == 0 and text[at - 1] == "}":
                    break
            number = text.count("\n", 0, match.start()) + 1
            yield f"{name}:{number}: {match.group(1)}", match.group(2), text[start:at]


def twins():
    """Pairs of functions of at least 16 tokens of which four fifths are the same, in the same order."""
    tokens = [(place, re.findall(r"\w+|[^\w\s]", body)) for place, _, body in functions()]
    found = []
    for i, (one, a) in enumerate(tokens):
        for other, b in tokens[i + 1:]:
            if min(len(a), len(b)) < 16 or min(len(a), len(b)) * 3 < max(len(a), len(b)) * 2:
                continue
            matcher = difflib.SequenceMatcher(None, a, b, autojunk=False)
            if matcher.quick_ratio() > 0.8 and matcher.ratio() > 0.8:
                found.append(f"{one} | {other}")
    return found


def wide(count):
    """Functions with at least so many parameters."""
    return [f"{place}({len(ps)})" for place, params, _ in functions()
            if len(ps := [p for p in params.split(",") if p.strip()]) >= count]


points = {
    "1a own enums of the shape of Option or Result":
        lambda: blocks(r"^pub enum (?:Answer|Found|Round|\w+Answer) \{[^}]*(?:\{[^}]*\}[^}]*)*\}"),
    "1b an answer, a flag or an end beside a value": lambda: lines(r"^    pub (answer: |fits: bool|end: usize)"),
    "1c numbers that say `none`": lambda: lines(r"^\s*return (16|256);$|^    (16|32)$|: usize = 18446744073709551615"),
    "1d a limit and one more for `above`": lambda: lines(r"\b1_000_001$"),
    "1e numbers of kinds": lambda: lines(r"^        \w+::\w+ => \d+,") + lines(r"\bkind: u32\b"),
    "2 twins": twins,
    "3a `while` loops": lambda: lines(r"^\s*('\w+: )?while "),
    "3b of them those with an index": lambda: lines(r"^\s*\w+ [+-]= 1;$"),
    "3c the smaller or the larger by hand": lambda: blocks(r"if (\w+(?:\.\w+)?) < (\w+) \{ ?\n? *(?:\1|\2)\s*\} else \{\s*(?:\1|\2)\s*\}"),
    "4a matches that give numbers": lambda: blocks(r"^fn number_of|^pub fn number_of"),
    "4b conversions by hand, a function for each case":
        lambda: lines(r"^pub fn (given|refused|accepted|answered|held_in|no_table|no_arrays)\b|^fn (no_table|no_arrays)\b"),
    "4c casts with `as`": lambda: lines(r" as (u8|u16|u32|u64|usize)\b"),
    "5 functions of six parameters and more": lambda: wide(6),
    "6a arrays of 32, 64 or 16 lent with a count beside": lambda: lines(r"&(mut )?\[u\d+; (32|64|16)\],?$"),
    "6b four fields for an array of four": lambda: lines(r"^    pub [abcd]: u32,$"),
    "7 a `bool` that says which step to run": lambda: lines(r"\breads: bool\b|\b(gather|gone_on)\((true|false),"),
}

for name, find in points.items():
    found = find()
    print(f"{name}: {len(found)}")
    for place in found:
        print(f"    {place}")
