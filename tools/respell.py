#!/usr/bin/env python3
"""Spells the repository's own words as Rattle's library spells its own.

Words are in snake case, types and modules in camel case. A definition's lineLength becomes line_length, a lemma's line-ends becomes
line_ends. A dash stays where it joins a definition's name to one of the list functions below, as in hexes-length. A lemma that would
get the name of a definition, a field or a function gets _lem behind it. Functions of src/, strings and what programs read and print
keep their names.

    respell.py          respells specs/, proofs/, src/ and must-fail/ of each crate, and the words that pages name
    respell.py --list   prints the pairs
"""
import pathlib
import re
import sys

LISTS = {"append", "length", "map", "get_or"}
# Lemmas that a definition's new name would fall together with, each in its one file.
FIRST = {
    "crates/planlines/specs/PlanLineLaws.antt": {"all_digits": "all_digits_lem"},
    "crates/planner/proofs/place_clusters/Proof.antt": {"found_as": "found_as_lem"},
}
WORD = re.compile(r"[A-Za-z_][A-Za-z0-9_'₀-₉]*(?:-[A-Za-z0-9_'₀-₉]+)*")
CAMEL = re.compile(r"^[a-z][a-z0-9]*(?:[A-Z][a-z0-9]*)+$")
DECLARED = re.compile(r"^\s*(?:(?:abbrev|unfoldable|pub|let|where)\s+)*([A-Za-z][A-Za-z0-9_'₀-₉]*(?:-[A-Za-z0-9_'₀-₉]+)*) :(?: |$)", re.M)


def snake(word):
    return re.sub(r"([A-Z])", lambda m: "_" + m[1].lower(), word)


def sources(kinds):
    return sorted(p for kind in kinds for p in pathlib.Path("crates").glob(kind))


def code(text):
    return re.sub(r"--[^\n]*|//[^\n]*", "", text)


def mapping():
    """The pairs old -> new, by what the crates declare, and all words of theirs."""
    specs = [code(p.read_text()) for p in sources(["*/specs/*.antt", "*/proofs/*.antt"])]
    proofs = [code(p.read_text()) for p in sources(["*/proofs/*/**/*.antt"])]
    rust = [code(p.read_text()) for p in sources(["*/src/*.rt"])]
    words = {w for t in specs + proofs + rust for w in WORD.findall(t)}
    pairs = {w: snake(w) for w in words if CAMEL.match(w) and not re.match(r"^(n02|x8)", w)}
    taken = set(pairs.values()) | {w for w in words if "-" not in w and w not in pairs}
    declared = {w for t in specs for w in DECLARED.findall(t)}
    inner = {m[1] for t in specs for m in re.finditer(r"^\s+(?:pub )?([a-z][A-Za-z0-9_']*(?:-[A-Za-z0-9_']+)+) :", t, re.M)}
    for word in sorted((declared | inner)):
        if "-" not in word:
            continue
        parts = ["get_or" if p == "getD" else snake(p) for p in word.split("-")]
        if len(parts) == 2 and parts[1] in LISTS:
            new = "-".join(parts)
        else:
            new = "_".join(parts)
            if new in taken:
                new += "_lem"
        if new != word:
            pairs[word] = new
    pairs = {a: b for a, b in pairs.items() if a != b}
    return pairs, words | set(pairs.values())


def respell(text, pairs):
    return WORD.sub(lambda m: pairs.get(m[0], m[0]), text)


def page_word(word, pairs, words):
    """A word that a page names: as in the crates, or as they have it since it was respelled before."""
    new = pairs.get(word, word)
    if new == word and word not in words:
        for other in (snake(word), word.replace("-", "_")):
            if other in words and (CAMEL.match(word) or "-" in word):
                return other
    return new


def main():
    pairs, words = mapping()
    if "--list" in sys.argv[1:]:
        for old, new in sorted(pairs.items()):
            print(old, new)
        return
    for path in sources(["*/specs/*.antt", "*/proofs/**/*.antt", "*/src/*.rt", "*/must-fail/*.edit"]):
        old = path.read_text()
        new = respell(respell(old, FIRST.get(str(path), {})), pairs)
        if new != old:
            path.write_text(new)
    for path in [pathlib.Path("README.md"), *sorted(pathlib.Path("docs").glob("**/*.md"))]:
        old = path.read_text()
        new = re.sub(r"`[^`\n]+`", lambda m: WORD.sub(lambda w: page_word(w[0], pairs, words), m[0]), old)
        if new != old:
            path.write_text(new)


main()
