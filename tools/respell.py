#!/usr/bin/env python3
"""Spells the definitions, laws, theorems and fields that this repository declares in snake case.

usage: python3 tools/respell.py [--dry]      at the top of the repository, once, behind the kit's own scripts

    firstBroken, read-pack, headerOf  ->  first_broken, read_pack, header_of

A name is one that a file of specs/ or proofs/ declares: a definition, a law, a theorem, a field, a constructor, a
module's parameter. Names of types and modules, names that come from a library, and names that the check makes for a
function's proof stay. Functions, strings, inputs and outputs stay. In the documents a name is respelled where it stands
in backquotes. Where a respelled name would meet another one, the script says so and `APART` has the name to take instead.
"""

import glob
import os
import re
import sys

WORD = r"[^\s(){}.;,@\"«»\[\]\\`:]+"
TOKEN = re.compile(r"--[^\n]*|//[^\n]*|\"(?:[^\"\\]|\\.)*\"|«[^»]*»|" + WORD)
DECLARES = re.compile(r"^\s*(?:(?:abbrev|unfoldable|pub|private)\s+)*(" + WORD + r")((?: \{[^{}\n]*\})*) :(?: |$)")
BINDS = re.compile(r"\blet (" + WORD + r")(?= [:=])|\bλ ((?:" + WORD + r" ?)+)(?=\.)|[({]((?:" + WORD + r" )+): ")
USE = re.compile(r"\buse ([^\s;{]+?)(?:\.?\{([^;}]*)\})?(?: as (" + WORD + r"))?;?$", re.M)
# A name that would meet another one, and the one that it takes instead.
APART = {"pieces-of": "pieces_of_lem"}
# Laws in snake case already that would meet a definition, by crate.
LAWS_APART = {"image": {"header_of"}, "rows": {"in_window"}, "runs": {"last_on"}, "text": {"on_row"}, "flush": {"on_row"}, "lines": {"in_order"}}
# Proofs of functions, whose names the check makes.
MADE = re.compile(r"/proofs/(.*/)?(Proof|Answers|Invariants)\.antt$")


def read(path):
    with open(path, encoding="utf-8", newline="") as file:
        return file.read()


def in_snake_case(name):
    if name in APART:
        return APART[name]
    return re.sub(r"(?<=[a-z0-9])[A-Z]", lambda m: "_" + m[0].lower(), name).replace("-", "_")


def wants(name):
    return bool(re.match(r"[a-z]", name)) and bool(re.search(r"[a-z0-9][A-Z]|\w-\w", name))


def uncommented(text):
    return re.sub(r"--[^\n]*", "", text)


def own_path(path, crates):
    steps = re.split(r"[.]", path)
    return steps[0] == "Rattle" and len(steps) > 1 and steps[1] in crates


def names_of(files, crates):
    """The names that the repository declares, each with the files, and those that files bring in from elsewhere."""
    own, foreign = {}, {}
    for path in files:
        text = uncommented(read(path))
        for use in USE.finditer(text):
            if not own_path(use[1], crates):
                for item in re.findall(WORD, use[2] or ""):
                    foreign.setdefault(item, set()).add(path)
        if path.endswith(".rt"):
            continue
        for line in text.split("\n"):
            found = DECLARES.match(line)
            if found and not (MADE.search(path) and not line.startswith(" ") and "goal." in line):
                own.setdefault(found[1], set()).add(path)
        for found in BINDS.finditer(text):
            for name in (found[1] or found[2] or found[3]).split():
                own.setdefault(name, set()).add(path)
    return own, foreign


def fields_of(files):
    fields = set()
    for path in files:
        if path.endswith(".antt"):
            fields.update(re.findall(r"(?m)^\s+(?:pub )?(" + WORD + r") :", uncommented(read(path))))
    return fields


def respelled(path, text, turned, fields, foreign):
    made, rust = bool(MADE.search(path)), path.endswith(".rt")
    clauses = [(m.start(), m.end()) for m in re.finditer(r"(?m)^\s*(?:requires|ensures)\b.*$|^ghost use [^;]*;", text)] if rust else []

    laws = LAWS_APART.get(path.split("/")[1], ()) if "/proofs/" in path else ()

    def turn(found):
        word = found[0]
        if word in laws and text[found.start() - 1] != ".":
            return word + "_lem"
        if word not in turned or path in foreign.get(word, ()):
            return word
        if rust and not any(a <= found.start() < b for a, b in clauses):
            return word
        behind_dot = found.start() > 0 and text[found.start() - 1] == "."
        if made and behind_dot and word not in fields:
            return word
        return turned[word]

    return TOKEN.sub(turn, text)


def respelled_page(text, turned):
    def quoted(found):
        return re.sub(r"(?<![\w-])[\w-]+(?![\w-])", lambda m: turned.get(m[0], m[0]), found[0]) if "/" not in found[0] or ": " in found[0] else found[0]

    return re.sub(r"`[^`\n]+`", quoted, text)


def main(argv):
    if argv not in ([], ["--dry"]):
        print(__doc__)
        return
    crates = {name for name in os.listdir("crates") if os.path.isdir(f"crates/{name}/src")}
    every = glob.glob("crates/*/specs/**/*.antt", recursive=True) + glob.glob("crates/*/proofs/**/*.antt", recursive=True)
    sources = glob.glob("crates/*/src/**/*.rt", recursive=True)
    own, foreign = names_of(every + sources, crates)
    turned = {name: in_snake_case(name) for name in own if wants(name)}
    # A law that would have its function's name.
    plain = {new for old, new in turned.items() if "-" not in old}
    turned.update((old, new + "_lem") for old, new in turned.items() if "-" in old and new in plain)
    fields = fields_of([path for path in every if not MADE.search(path)])
    for old, new in sorted(turned.items()):
        for other in own:
            if other != old and turned.get(other, other) == new:
                shared = {p.split("/")[1] for p in own[old]} & {p.split("/")[1] for p in own[other]}
                print(f"meets: {old} and {other} as {new} in {' '.join(sorted(shared)) or 'no crate'}")
        if new in foreign:
            print(f"meets: {old} as {new} of a library, in {len(foreign[new])} files")
    for path in every + sources:
        text = read(path)
        turns = respelled(path, text, turned, fields, foreign)
        if turns != text:
            before = set(TOKEN.findall(text))
            for word in before & set(turned):
                if turned[word] in before and turned[word] != word:
                    print(f"look: {path}: {word} beside {turned[word]}")
            if "--dry" not in argv:
                with open(path, "w", encoding="utf-8", newline="") as file:
                    file.write(turns)
    for page in ["README.md"] + glob.glob("docs/*.md"):
        text = read(page)
        turns = respelled_page(text, turned)
        if turns != text and "--dry" not in argv:
            with open(page, "w", encoding="utf-8", newline="") as file:
                file.write(turns)
    print(f"{len(turned)} names respelled")


if __name__ == "__main__":
    main(sys.argv[1:])
