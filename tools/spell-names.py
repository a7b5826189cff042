#!/usr/bin/env python3
"""Spells the repository's own definitions, lemmas, fields and constructors in snake case, in every crate.

usage: python3 tools/spell-names.py [--check]      at the top of the repository, once, after the kit's port.py

A name counts as the repository's own where a file of specs/ or of proofs/ (not of a function's folder below proofs/) declares it. Types and
modules keep their camel case. Functions of src/, exported names, strings, inputs and outputs keep their spelling: in a .rt file only clauses,
ghost blocks, ghost use items and comments' code spans are turned. FALLING names those that would fall together with another name, and what
they are called in its place. With --check nothing is written, and names that fall together are listed.
"""

import collections
import os
import re
import sys

WORD = r"[^\s(){}.;,@\"«»`]+"
DECLARED = re.compile(
    r"^[ ]*(?:\| )?(?:(?:pub|abbrev|unfoldable|private) )*(" + WORD + r")((?: (?:\{[^{}\n]*\}|\([^()\n]*\)))*) :(?!\S)", re.M
)
QUIET = re.compile(r"--[^\n]*|\{-.*?-\}|\"(?:[^\"\\\n]|\\.)*\"", re.S)
SPAN = re.compile(r"`[^`\n]+`")
CLAUSE = re.compile(r"\b(?:requires|ensures)\s*\*?\s*(?:\w+\s*)?\{|\bghost\s*(?:\w+\s*(?::\s*(?:(?:owns|lends)\s*)?|=\s*))?\{")
GHOST_USE = re.compile(r"\bghost\s+use\b[^;]*;")
RUST = re.compile(r"//[^\n]*|/\*.*?\*/|b?\"(?:\\.|[^\"\\])*\"|b?'(?:\\.|[^'\\])'", re.S)
TOKEN = re.compile(WORD)

# Names that would fall together with another one of the same files: laws of a definition that is spelled alike, which get _law behind their names.
LAWS = """
absence-takes absent-ends all-from cell-is cell-place cells-from code-at columns-five columns-four columns-most compilation-slots cut-from
filing-from finding-takes first-uses found-is good-cell good-held grown-all handed-in head-of headers-at headers-of home-column in-table
index-checked index-for index-good is-cell is-five is-package is-some is-wanted its-strings least-power length-good neither-refuses
no-declaration no-other-string not-eleven not-zero object-first object-judged own-cell package-in part-good part-judged place-by power-from
read-by remapped-all root-tag row-at row-of same_parts sections-here shared-bytes slots-good start-in start-of string-in string-judged
string-read table-good tiled-pieces tiles-of type-slots unit-sections unit-stated units-counted units-from units-over units_in up-to
upTo-zero used-in version-by version-for version-good width-stated with_cell
""".split()


# Spelled as the library's own lemmas, which other files import.
LIBRARY = {"length-map", "map-append"}


def snake(name):
    """word-joined and wordJoined as word_joined; a head of capitals, as in B1, stays."""
    words = re.sub(r"(?<=[a-z0-9])[A-Z]|(?<=[a-z][A-Z])[A-Z](?=[a-z])", lambda m: "_" + m[0].lower(), name)
    return re.sub(r"(?<=[\w'₀-₉])-(?=[\w'])", "_", words)


FALLING = {n: snake(n) + "_law" for n in LAWS}


def turns(name):
    return name not in LIBRARY and name not in ("-", "λ") and not name[0].isupper() and "◌" not in name and re.fullmatch(r"[\w'₀-₉-]+", name) is not None and snake(name) != name


def files(root):
    for folder, dirs, names in os.walk(os.path.join(root, "crates")):
        dirs[:] = sorted(d for d in dirs if d not in ("out", "must-fail"))
        for n in sorted(names):
            if n.endswith((".antt", ".rt")):
                yield os.path.join(folder, n)


def is_walk(path):
    """A file of a function's folder below proofs/."""
    return re.search(r"/proofs/.+/(?:Proof|Answers|Invariants)\.antt$", path) is not None


def declared(root):
    own = collections.defaultdict(set)
    for p in files(root):
        if p.endswith(".antt") and not is_walk(p):
            with open(p, encoding="utf-8") as f:
                t = QUIET.sub(lambda m: re.sub(r"[^\n]", " ", m[0]), f.read())
            for m in DECLARED.finditer(t):
                if turns(m[1]):
                    own[m[1]].add(p)
    return own


def turn_words(text, table):
    return TOKEN.sub(lambda m: table.get(m[0], m[0]), text)


def turn_antt(text, table, keep=frozenset()):
    out, at = [], 0
    here = {k: v for k, v in table.items() if k not in keep}
    for m in QUIET.finditer(text):
        out.append(turn_words(text[at:m.start()], here))
        said = m[0]
        out.append(said if said.startswith('"') else SPAN.sub(lambda s: turn_words(s[0], here), said))
        at = m.end()
    out.append(turn_words(text[at:], here))
    return "".join(out)


def ghost_parts(text):
    """The (start, end) of clauses, ghost blocks and ghost use items."""
    quiet = RUST.sub(lambda m: re.sub(r"[^\n]", " ", m[0]), text)
    parts = [m.span() for m in GHOST_USE.finditer(quiet)]
    for m in CLAUSE.finditer(quiet):
        depth, at = 1, m.end()
        while depth and at < len(quiet):
            depth += {"{": 1, "}": -1}.get(quiet[at], 0)
            at += 1
        parts.append((m.end(), at))
    return sorted(parts)


def turn_rt(text, table):
    out, at = [], 0
    for a, b in ghost_parts(text):
        if a < at:
            continue
        out.append(turn_comments(text[at:a], table))
        out.append(turn_words(text[a:b], table))
        at = b
    out.append(turn_comments(text[at:], table))
    return "".join(out)


def turn_comments(text, table):
    return re.sub(r"//[^\n]*", lambda m: SPAN.sub(lambda s: turn_words(s[0], table), m[0]), text)


def names_of_walk(text):
    """What a function's own proof declares at the left margin: these names are its own."""
    return {m[1] for m in DECLARED.finditer(QUIET.sub("", text)) if not m[0].startswith(" ")}


def main(argv):
    root = os.getcwd()
    own = declared(root)
    table = {n: snake(n) for n in own} | FALLING
    if "--check" in argv:
        return check(root, own, table)
    turned = 0
    for p in files(root):
        with open(p, encoding="utf-8") as f:
            t = f.read()
        n = turn_rt(t, table) if p.endswith(".rt") else turn_antt(t, table, names_of_walk(t) if is_walk(p) else frozenset())
        if n != t:
            turned += 1
            with open(p, "w", encoding="utf-8") as f:
                f.write(n)
    print(f"{len(table)} names, {turned} files turned")
    return 0


def check(root, own, table):
    """Names that fall together: two old names with one new one in a file, or a new name that the file has already."""
    seen = collections.Counter()
    for p in files(root):
        if is_walk(p):
            continue
        with open(p, encoding="utf-8") as f:
            t = f.read()
        words = set(TOKEN.findall(t)) if p.endswith(".antt") else set(w for a, b in ghost_parts(t) for w in TOKEN.findall(t[a:b]))
        by = collections.defaultdict(set)
        for w in words:
            by[table.get(w, w)].add(w)
        for new, olds in by.items():
            if len(olds) > 1:
                seen[(new, tuple(sorted(olds)))] += 1
                if seen[(new, tuple(sorted(olds)))] <= 2:
                    print(os.path.relpath(p, root), new, sorted(olds))
    print(len(table), "names,", len(seen), "fall together")
    return 0


if __name__ == "__main__":
    sys.exit(main(sys.argv[1:]))
