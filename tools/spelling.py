#!/usr/bin/env python3
"""Spells the repository's own definitions and lemmas as the language's library spells its own.

usage: python3 tools/spelling.py [--check]      at the top of the repository

Types and modules are in camel case, all other words in snake case. A dash stays in a lemma only where it joins the names of two
definitions, as in length-arrive. It goes over specs/, proofs/ and the clauses of src/; names of Rust functions, strings and names
that the language makes (c.loop-a, goal.returns-in-Some) stay. With --check nothing is written. A second run changes nothing.
A line 'look:' names what falls together in one file: a definition and a Rust function or field may, two definitions may not.
"""

import collections
import os
import re
import sys

TOKEN = r"[^\s(){}\[\].;,@\"«»:|]+"
ITEM = re.compile(rf"^(\s*)(?:(?:unfoldable|abbrev|pattern|pub|axiom)\s+)*({TOKEN})(?: \{{[^}}]*\}})*\s+:(?!:)\s*(.*)$")
CAMEL = re.compile(r"(?<![\w'])[a-z][a-z0-9]*[A-Z][A-Za-z0-9_']*")
# One function into Type was written small, and two rounds would be spelled as the figures about them.
BY_HAND = {"fair": "IsFair", "atMargin": "round_at_margin", "pastMargin": "round_past_margin"}
# Names that a dash may join, beside our own definitions.
WORDS = set("length append take drop zero suc min max add sub mul div mod le lt eq cond total".split())


def texts():
    for folder, dirs, files in os.walk("crates"):
        dirs[:] = sorted(d for d in dirs if d != "out")
        for f in sorted(files):
            if f.endswith((".antt", ".rt")):
                yield os.path.join(folder, f)


def in_snake_case(word):
    return re.sub(r"(?<=[a-z0-9])[A-Z]", lambda m: "_" + m[0].lower(), word)


def parts(path, text):
    """The text in pieces: (is it code, piece)."""
    mark = "--" if path.endswith(".antt") else "//"
    for piece in re.split(rf'({mark}[^\n]*|b?"(?:\\.|[^"\\])*")', text):
        yield not piece.startswith((mark, '"', 'b"')), piece


def declared(path, text):
    """The names that a file declares, each with whether it is a field or a constructor."""
    within = None
    for line in text.splitlines():
        line = line.split("--")[0].rstrip()
        if re.match(r"\s*(pub )?(record|data)\b.*\bwhere$", line):
            within = len(line) - len(line.lstrip())
            continue
        m = ITEM.match(line)
        if line and within is not None and len(line) - len(line.lstrip()) <= within:
            within = None
        if m and not m[3].startswith("goal."):
            yield m[2], within is not None


def table():
    own, fields, theirs, defs = set(), set(), set(), set(WORDS)
    for path in texts():
        with open(path, encoding="utf-8") as f:
            text = f.read()
        for m in re.finditer(r"use Rattle\.std\.[^{;\n]*\{([^}]*)\}", text):
            theirs |= {it.strip().split(" as ")[0] for it in m[1].split(",")}
        if not path.endswith(".antt"):
            continue
        for name, is_field in declared(path, text):
            own.add(name)
            if is_field:
                fields.add(name)
            elif "/specs/" in path:
                defs.add(in_snake_case(name).replace("-", "_"))
    defs.discard("at")
    rows = {}
    for name in own - theirs:
        words = [in_snake_case(w) if w[:1].islower() else w for w in name.split("-")]
        new = words[0]
        for before, word in zip(words, words[1:]):
            joins = name not in fields and before in defs and word in defs
            new += ("-" if joins else "_") + word
        rows[name] = BY_HAND.get(name, new)
    return {a: b for a, b in rows.items() if a != b}


def turned(piece, rows):
    def word(m):
        return m[0] if piece[: m.start()].endswith(MADE) else rows.get(m[0], m[0])

    piece = re.sub(rf"(?<![^\s(){{}}\[\].;,@:]){TOKEN}", word, piece)
    return CAMEL.sub(lambda m: BY_HAND.get(m[0]) or in_snake_case(m[0]), piece)


# What stands behind these is a name that the language makes.
MADE = ("goal.", " c.", "(c.", " l.", "(l.", "initial.", "auto.", "args.")


def main(argv):
    rows = table()
    meets = 0
    for path in texts():
        with open(path, encoding="utf-8") as f:
            text = f.read()
        code = "".join(p for is_code, p in parts(path, text) if is_code)
        words = set(re.findall(rf"(?<![^\s(){{}}\[\].;,@:]){TOKEN}", code))
        olds = collections.defaultdict(set)
        for w in words:
            olds[turned(" " + w, rows)[1:]].add(w)
        for new, old in sorted(olds.items()):
            if len(old) > 1:
                meets += 1
                print(f"look: {path}: {', '.join(sorted(old))} are all {new} now")
        new = "".join(turned(p, rows) if is_code else p for is_code, p in parts(path, text))
        if new != text and "--check" not in argv:
            with open(path, "w", encoding="utf-8") as f:
                f.write(new)
    if "--check" in argv:
        for old, new in sorted(rows.items()):
            print(f"{old}\t{new}")
    print(f"spelling: {len(rows)} names, {meets} places to look at")
    return 0


if __name__ == "__main__":
    raise SystemExit(main(sys.argv[1:]))
