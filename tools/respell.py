#!/usr/bin/env python3
"""Spells the repository's own definitions and laws in snake case, by the table beside this file.

usage: python3 tools/respell.py        at the top of the repository, after the sources have today's form

A row of respelled.tsv is an old name, a tab, the new name. Whole names alone turn: in .antt files everywhere but in text
between quotes; in .rt files in the clauses, the `ghost use` items and the comments; in comments and in pages a name with
a hump everywhere, and one with a dash where the file's own text has it. Functions of src/ keep their names, and so do
the labels of goals in the proofs of functions.
"""
import os
import re
import sys

HERE = os.path.dirname(os.path.realpath(__file__))
WORD = re.compile(r'[^\s(){}.;,@"«»]+')
SPELLED = re.compile(r"[A-Za-z][\w'-]*")
COMMENT = {".antt": re.compile(r"(?<!\S)--[^\n]*"), ".rt": re.compile(r"//[^\n]*")}
CLAUSES = re.compile(r"(?:requires|ensures)\s*\*?\s*(?:\w+\s*)?\{|ghost\s*(?:\w+\s*(?::\s*|=\s*))?\{|ghost\s+use\b")
TEXT = re.compile(r'"(?:[^"\\\n]|\\.)*"')


def table():
    with open(os.path.join(HERE, "respelled.tsv"), encoding="utf-8") as rows:
        return dict(row.rstrip("\n").split("\t") for row in rows if row.strip())


TABLE = table()


def has_hump(name):
    return re.search("[a-z0-9][A-Z]", name) is not None


def in_code(text, steps=frozenset()):
    """Each name of the table turned; but one behind a dot that is in steps stays."""

    def one(m):
        if m[0] in steps and text[: m.start()].endswith("."):
            return m[0]
        return TABLE.get(m[0], m[0])

    return WORD.sub(one, text)


def functions():
    """The names of the functions of src/, as a proof spells the steps that call them."""
    found = set()
    for folder, folders, names in os.walk("crates"):
        for it in names:
            if it.endswith(".rt"):
                with open(os.path.join(folder, it), encoding="utf-8") as f:
                    found |= set(re.findall(r"\bfn (\w+)", f.read()))
    return found | {it.replace("_", "-") for it in found}


def in_prose(text, own):
    """Words of a sentence: those with a hump, and those with a dash that the file's own text has."""

    def one(m):
        name = m[0].rstrip("'-")
        if name in TABLE and (has_hump(name) or name in own):
            return TABLE[name] + m[0][len(name) :]
        return m[0]

    return SPELLED.sub(one, text)


def pieces(text, pattern):
    """The text cut at the matches of a pattern: pairs of a piece and whether it matched."""
    at = 0
    for m in pattern.finditer(text):
        yield text[at : m.start()], False
        yield m[0], True
        at = m.end()
    yield text[at:], False


def clause_spans(text):
    """Where the clauses and the `ghost use` items of a .rt file stand."""
    at = 0
    while m := CLAUSES.search(text, at):
        if m[0].endswith("{"):
            depth, at = 1, m.end()
            while depth and at < len(text):
                depth += {"{": 1, "}": -1}.get(text[at], 0)
                at += 1
        else:
            at = text.index(";", m.end()) + 1
        yield m.start(), at


def turned(path, text, called):
    kind = os.path.splitext(path)[1]
    steps = called if path.endswith("/Proof.antt") else frozenset()
    if kind == ".md":
        own = set(re.findall(r"`([^`\n]+)`", text))
        one = lambda m: TABLE.get(m[0], m[0]) if has_hump(m[0]) or m[0] in own else m[0]
        return re.sub(r"(?<![\w/.-])[A-Za-z][\w'-]*(?![\w/-]|\.\w)", one, text)
    bare = COMMENT[kind].sub("", text)
    own = set(WORD.findall(bare))
    out = []
    for piece, is_comment in pieces(text, COMMENT[kind]):
        if is_comment:
            out.append(in_prose(piece, own))
        elif kind == ".antt":
            out.append("".join(it if quoted else in_code(it, steps) for it, quoted in pieces(piece, TEXT)))
        else:
            out.append(piece)
    text = "".join(out)
    if kind == ".rt":
        out, at = [], 0
        for start, end in clause_spans(text):
            out += [text[at:start], in_code(text[start:end])]
            at = end
        text = "".join(out) + text[at:]
    return text


def files():
    for top in ("crates", "docs", "README.md"):
        if os.path.isfile(top):
            yield top
        for folder, folders, names in os.walk(top):
            folders[:] = [it for it in folders if it not in ("out", "landings")]
            yield from (os.path.join(folder, it) for it in names if it.endswith((".antt", ".rt", ".md")))


def main():
    count, called = 0, functions()
    for path in sorted(files()):
        with open(path, encoding="utf-8") as f:
            text = f.read()
        new = turned(path, text, called)
        if new != text:
            count += 1
            with open(path, "w", encoding="utf-8") as f:
                f.write(new)
    print(f"respell: {count} files")


if __name__ == "__main__":
    sys.exit(main())
