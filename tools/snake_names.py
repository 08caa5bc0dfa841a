#!/usr/bin/env python3
"""Brings the repository's own definitions and lemmas to today's spelling: words in snake case, types and modules in camel case.

usage: python3 tools/snake_names.py [--list] [--here]       once, after the toolchain's own script; --here: in the current folder, and not in this one

    firstBroken, gradeOf      first_broken, grade_of
    markOf-next               mark_of-next
    length-tab, over-more     stay: a dash joins the names or words of which a lemma speaks, as in the library
    Ready, ByWords            stay: types

It takes each name that a file of specs/ or proofs/ declares, with a capital inside, and writes it the new way in every .antt and
.rt file, must-fail edit and page. Names of the library stay, those of Rust items stay, and so do words in quotes. A name whose new spelling
another declaration of the same file has already is listed and left. --list prints the names and writes nothing. A second run changes nothing.
"""
import os
import re
import sys

ROOT = os.path.join(os.path.dirname(os.path.abspath(__file__)), "..") if "--here" not in sys.argv else "."
DECLARED = re.compile(r"(?m)^ *(?:(?:abbrev|unfoldable|pub)\s+)*(?!use\b|mod\b|module\b|unfolding\b|record\b|data\b|let\b|λ|\|)([^\s:(){}=|.,;\"«»]+)\s*(?:[({][^=\n]*)?:\s")
# Names that are bound and not declared, and one that falls together with a lemma of its file.
MORE = "inputsA inputsB startA startB".split()
OTHER = {"readAt": "read_place"}
WORD = re.compile(r"[^\s(){}.;,@\"«»\[\]`|]+")


def files(ends, tops):
    for top in tops:
        at = os.path.join(ROOT, top)
        if os.path.isfile(at):
            yield at
        for folder, dirs, names in os.walk(at):
            dirs[:] = sorted(d for d in dirs if d not in ("out", ".git", "target", "__pycache__"))
            for n in sorted(names):
                if n.endswith(ends):
                    yield os.path.join(folder, n)


def read(path):
    with open(path, encoding="utf-8", newline="") as f:
        return f.read()


def declared():
    """Each declared name, with the files that declare it."""
    names = {n: set() for n in MORE}
    for path in files((".antt",), ["crates"]):
        if os.path.basename(os.path.dirname(path)) not in ("specs", "proofs"):
            continue
        for m in DECLARED.finditer(read(path)):
            names.setdefault(m[1], set()).add(path)
    return names


def snake(name):
    """A word with a capital inside, in snake case; a type keeps its capitals."""
    if not re.match(r"[a-z]", name):
        return name
    return re.sub(r"(?<=[a-z0-9])([A-Z])", lambda m: "_" + m[1].lower(), name)


def turned(name):
    if name[:1] == "+":
        return name
    return "-".join(snake(p) for p in name.split("-"))


def main():
    names = declared()
    new = {}
    for name, where in sorted(names.items()):
        to = OTHER.get(name) or turned(name)
        if to == name:
            continue
        clash = [p for p in where if to in names and p in names[to]]
        if clash:
            print(f"left: {name}: {os.path.relpath(clash[0], ROOT)} has {to}")
            continue
        new[name] = to
    by_new = {}
    for a, b in new.items():
        by_new.setdefault(b, []).append(a)
    for b, all_old in sorted(by_new.items()):
        if len(all_old) > 1 or b in names:
            print(f"look: {', '.join(all_old)} -> {b}" + (f", which {len(names[b])} files declare" if b in names else ""))
    if "--list" in sys.argv:
        for a, b in sorted(new.items()):
            print(a, b)
        return
    changed = 0
    for path in files((".antt", ".rt", ".edit"), ["crates"]):
        t = read(path)
        u = WORD.sub(lambda m: new.get(m[0], m[0]), t)
        if u != t:
            changed += 1
            with open(path, "w", encoding="utf-8", newline="") as f:
                f.write(u)
    # In pages only what stands in backquotes is a name.
    for path in files((".md",), ["README.md", "docs"]):
        t = read(path)
        u = re.sub(r"`[^`\n]+`", lambda q: WORD.sub(lambda m: new.get(m[0], m[0]), q[0]), t)
        if u != t:
            changed += 1
            with open(path, "w", encoding="utf-8", newline="") as f:
                f.write(u)
    print(f"{len(new)} names, {changed} files")


main()
