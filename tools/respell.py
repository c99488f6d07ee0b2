#!/usr/bin/env python3
"""Spells this repository's definitions, lemmas, fields and constructors as today's Rattle does: words in snake case.

usage: tools/respell.py          in a tree that port.py has turned, once
       tools/respell.py --look   lists the names that would fall together with one that stands already, and changes nothing

A name with a capital after a small letter or a digit, which begins small, is spelled anew: `stepBlock` becomes `step_block`,
`length-recordHead` becomes `length-record_head`. Names of types, modules and facts begin with a capital and stay. So do the names that files
import from outside this repository. Rust's names have no capital inside, so whole files are read: code, clauses, comments, edits. In documents
only names that the crates have are turned.
"""

import os
import re
import sys

# Lemmas and variables that port.py gave underscores, though a definition of the same words stands beside them: they keep their hyphens.
HYPHENS = {
    name: name.replace("_", "-")
    for name in "answer_at block_size convert_number gives_back goes_on hands_out is_right last_turn moved_down moved_up no_steps round_trip term_words".split()
}
TOKEN = re.compile(r"[A-Za-z_][A-Za-z0-9_'-]*")
CAMEL = re.compile(r"(?<=[a-z0-9])[A-Z]+")
IMPORT = re.compile(r"use ([\w.◌'-]+)\.\{([^}]*)\}")


def spelled(name):
    """The name with each part between hyphens in snake case, if the part begins small."""
    parts = name.split("-")
    return "-".join(CAMEL.sub(lambda m: "_" + m[0].lower(), p) if p[:1].islower() else p for p in parts)


def files(folder, endings):
    for at, inner, names in os.walk(folder):
        inner[:] = sorted(d for d in inner if d not in ("out", "target", ".git"))
        for name in sorted(names):
            if name.endswith(endings):
                yield os.path.join(at, name)


def read(path):
    with open(path, encoding="utf-8") as f:
        return f.read()


def foreign(texts, own):
    """The names that come from outside this repository."""
    found = set()
    for text in texts:
        for path, names in IMPORT.findall(text):
            parts = path.split(".")
            if parts[0] == "Rattle" and parts[1] in own:
                continue
            found |= set(TOKEN.findall(names)) - {"as"}
    return found


def main(argv):
    root = os.path.join(os.path.dirname(os.path.realpath(__file__)), "..")
    os.chdir(root)
    own = set(os.listdir("crates"))
    code = {p: read(p) for p in files("crates", (".antt", ".rt", ".edit"))}
    outside = foreign(code.values(), own)
    used = {t for text in code.values() for t in TOKEN.findall(text)}
    turned = {t: spelled(t) for t in used if t not in outside and spelled(t) != t}
    if argv == ["--look"]:
        for name in sorted(turned):
            if turned[name] in used and turned[name] not in HYPHENS:
                print(f"{name} -> {turned[name]}, which stands already")
        byNew = {}
        for name in sorted(turned):
            byNew.setdefault(turned[name], []).append(name)
        for new, names in sorted(byNew.items()):
            if len(names) > 1:
                print(f"{', '.join(names)} all become {new}")
        print(f"{len(turned)} names")
        return 0
    pages = {p: read(p) for p in ["README.md", *files("docs", (".md",)), *files("tests", (".md", ".rs")), *files("tools", ("",))] if not p.endswith("respell.py")}
    changed = 0
    for path, text in [*code.items(), *pages.items()]:
        words = turned | HYPHENS if path.endswith(".antt") else turned
        new = TOKEN.sub(lambda m: words.get(m[0], m[0]), text)
        if new != text:
            changed += 1
            with open(path, "w", encoding="utf-8") as f:
                f.write(new)
    print(f"{len(turned)} names in {changed} files")
    return 0


if __name__ == "__main__":
    raise SystemExit(main(sys.argv[1:]))
