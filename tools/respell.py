#!/usr/bin/env python3
"""Gives the repository's own definitions and lemmas today's spelling: words in snake case, facts in camel case.

usage: tools/respell.py        once, at the top, right after the kit's port.py

It goes by whole words through .antt files, through the clauses and ghost lines of .rt files, and through the contracts that
must-fail edits quote. Names of the source, strings, comments of .rt files and hexadecimal numbers are passed over. It stops,
with nothing written, where a new name stands already in a file that it would be written to.
"""

import glob
import re
import sys

WORD = re.compile(r"[A-Za-z_ℕℤ][\w'²₀-₉-]*")
CAMEL = re.compile(r"(?:^|(?<=[-_]))[a-z][a-z0-9]*[A-Z]")
HEX = re.compile(r"x[0-9A-F]+$")
# A fact is spelled as a type.
FACTS = {"listedNumber": "ListedNumber"}
# A lemma that would have its function's name.
LEMMAS = {"crates/ring/proofs/Flowing.antt": ("in_order", "in_order_lem")}


def spelled(word):
    if word in FACTS:
        return FACTS[word]
    if HEX.match(word) or not CAMEL.search(word):
        return word

    def part(p):
        return re.sub(r"(?<=[a-z0-9])([A-Z])", lambda m: "_" + m.group(1).lower(), p) if re.match(r"[a-z][a-z0-9]*[A-Z]", p) else p

    return "-".join(part(p) for p in word.split("-"))


def respelled(text):
    """The text, with each word outside of a number respelled."""
    out, at = [], 0
    for m in WORD.finditer(text):
        if m.start() and (text[m.start() - 1].isdigit() or text[m.start() - 1] == "_"):
            continue
        out += [text[at : m.start()], spelled(m.group())]
        at = m.end()
    return "".join(out) + text[at:]


def closing(text, start):
    """Where the brace that opens at start is closed."""
    depth = 0
    for i in range(start, len(text)):
        depth += {"{": 1, "}": -1}.get(text[i], 0)
        if not depth:
            return i
    raise SystemExit("respell: a brace is not closed")


GHOST = re.compile(r"^ghost use [^;]*;|\b(?:requires|ensures)(?: [a-z_]+)? (?=\{)", re.M)


def source(text):
    """A .rt file or a line of one, respelled in its clauses and ghost lines."""
    out, at = [], 0
    while m := GHOST.search(text, at):
        end = m.end() if m.group().startswith("ghost") else closing(text, m.end()) + 1
        out += [text[at : m.start()], respelled(text[m.start() : end])]
        at = end
    return "".join(out) + text[at:]


def edit(text, names):
    """A must-fail edit: its old and new lines are of a .rt file's code, of a clause, or of an .antt file."""
    lines, inside = [], False
    for line in text.split("\n"):
        if line.startswith("file: "):
            inside = line.endswith(".antt")
        if line.startswith(("old: ", "new: ")):
            line = respelled(line) if inside else re.sub(WORD, lambda m: spelled(m.group()) if m.group() in names else m.group(), line)
        lines.append(line)
    return "\n".join(lines)


def main():
    new = {}
    words = set()
    for path in sorted(glob.glob("crates/**/*", recursive=True)):
        if "/out/" in path or not path.endswith((".antt", ".rt")):
            continue
        text = open(path, encoding="utf-8").read()
        if path in LEMMAS:
            old, lemma = LEMMAS[path]
            text = re.sub(rf"\b{old}\b", lemma, text)
        changed = respelled(text) if path.endswith(".antt") else source(text)
        plain = re.sub(r"--.*|//.*|^use [^{\n]*", "", text, flags=re.M)  # a module of a path is no name beside these
        had = set(WORD.findall(plain if path.endswith(".antt") else "".join(GHOST.findall(text))))
        words |= {w for w in had if spelled(w) != w}
        both = {w for w in had if spelled(w) != w and spelled(w) in had}
        if both:
            print(f"respell: {path}: {', '.join(sorted(both))} would fall together with another name", file=sys.stderr)
            new[path] = None
        if changed != text:
            new.setdefault(path, changed)
    if None in new.values():
        raise SystemExit(1)
    for path in sorted(glob.glob("crates/*/must-fail/*.edit")):
        text = open(path, encoding="utf-8").read()
        changed = edit(text, words)
        if changed != text:
            new[path] = changed
    for path, text in new.items():
        open(path, "w", encoding="utf-8").write(text)
    print(f"respell: {len(words)} names in {len(new)} files")


main()
