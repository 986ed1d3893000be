#!/usr/bin/env python3
"""Spells the definitions and lemmas of this repository as today's library does: words in snake case, with no dash and no capital inside.

usage: python3 tools/spell.py        once, at the top, right after the kit's port.py

A name is turned where a file of specs/ or a file of lemmas in proofs/ declares it: a definition, a lemma, a constructor or a field. Types and
facts, whose names begin with a capital, stay, and so do functions of src/, strings, and what a proof of one function declares for itself.
`getD`, which the library calls `get_or` now, is so called inside a name too. Each new spelling is printed beside the old one; the script stops,
with nothing written, where two names would fall together or a new one is already in use.
"""
import collections
import pathlib
import re
import sys

TOP = pathlib.Path(__file__).resolve().parent.parent
NAME = r"[^\s(){}.;,@\"«»:`]+"
DECLARED = re.compile(rf"(?m)^ *(?:(?:abbrev|unfoldable|pub|data|record|ruleset) )*({NAME}(?: {NAME})*)(?: \{{[^{{}}\n]*\}})* :(?: |$)")
# a word with the point before it, where it has one
WORD = re.compile(rf"\.?(?<![^\s(){{}}.;,@\"«»:`]){NAME}")
# lemmas whose new spelling would be that of a definition; the kit's script spelled some of them anew before
LEMMAS = """best-after coordinate-by in-order in_order is-line line-after line_after met-by met_by number-read number_read probe-step sound-by within-asked""".split()
PROOFS = ("Proof.antt", "Invariants.antt", "Answers.antt")
GHOST = re.compile(r"^\s*(ghost use|requires|ensures)\b")


def texts(folder):
    return sorted(p for p in folder.rglob("*.antt") if "out" not in p.parts)


def snake(name):
    """The name in snake case."""
    name = re.sub(r"\bgetD\b", "get_or", name).replace("-", "_")
    return re.sub(r"(?<=[a-z0-9])([A-Z])", lambda m: "_" + m.group(1).lower(), name)


def is_lemma(path):
    """Whether a file has definitions or lemmas of the repository, and not the proof of one function."""
    return path.name not in PROOFS or "specs" in path.parts


def turned_names(declared):
    """The new spelling of each name that changes."""
    turned = {}
    for name in declared:
        new = snake(name) + ("_lem" if name in LEMMAS else "")
        if name[0].islower() and new != name and re.fullmatch(r"[\w'-]+", name):
            turned[name] = new
    return turned


def clashes(turned, declared, used):
    """The new spellings that would be another name too."""
    met = collections.Counter(turned.values())
    for name, new in turned.items():
        both = used[new] & used[name]
        if met[new] > 1 or (new not in turned and (new in declared or both)):
            yield f"{name}: {new} is in use: {' '.join(str(p.relative_to(TOP)) for p in sorted(both))}"


def main():
    declared, used = set(), collections.defaultdict(set)
    for path in texts(TOP / "crates"):
        text = re.sub(r"(?m)--.*$", "", path.read_text())
        for word in WORD.findall(text):
            used[word].add(path)
        if is_lemma(path):
            declared.update(name for found in DECLARED.finditer(text) for name in found.group(1).split())
    turned = turned_names(declared)
    bad = sorted(clashes(turned, declared, used))
    if bad:
        print("\n".join(bad), file=sys.stderr)
        return 1

    def turn(text, dashed):
        def spelled(found):
            word = found.group(0)
            name = word.lstrip(".")
            if word[0] == "." and (not dashed and "-" in name or name in LEMMAS):
                return word
            return word[: len(word) - len(name)] + turned.get(name, name)

        parts = re.split(r'("[^"\n]*")', text)
        return "".join(part if part.startswith('"') else WORD.sub(spelled, part) for part in parts)

    for path in texts(TOP / "crates"):
        path.write_text(turn(path.read_text(), is_lemma(path)))
    for path in sorted((TOP / "crates").rglob("src/*.rt")):
        lines = path.read_text().split("\n")
        path.write_text("\n".join(turn(line, True) if GHOST.match(line) or line.lstrip().startswith("//") else line for line in lines))
    for name in sorted(turned):
        print(f"{name} {turned[name]}")
    return 0


if __name__ == "__main__":
    sys.exit(main())
