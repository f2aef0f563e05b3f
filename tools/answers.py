#!/usr/bin/env python3
"""Turns the proofs of functions in the older form, Proof.antt, into Invariants.antt and Answers.antt.

usage: python3 tools/answers.py NAMES CRATE..      at the top of the repository

NAMES is the folder that `rt names` wrote. What the search of the check finds is left out; what cannot be told by the
names alone is said ('left:'), and that answer is left out too.
"""

import glob
import json
import os
import re
import sys

WORD = r"[^\s(){}.;,@\"«»\[\]\\`:]+"


def read(path):
    with open(path, encoding="utf-8") as file:
        return file.read()


def plain(name):
    return name.replace("_", "-").lower()


class Left(Exception):
    pass


def blocks_of(text):
    """The declarations of a file: a line at the margin and the lines below it, comments above it with it."""
    header, uses, blocks, comment = [], [], [], []
    lines = text.split("\n")
    for line in lines:
        if line.startswith("use "):
            uses.append(line)
        elif line.startswith("--"):
            (comment if uses or blocks else header).append(line)
        elif line.startswith(" ") or not line:
            if blocks and line.strip():
                blocks[-1].append(line)
        else:
            start = line
            if blocks and not re.match(r"\S+ .*:|\S+ :|(abbrev|pub|unfoldable|module)\b", line):
                blocks[-1].append(line)
            elif blocks and re.match(WORD, line) and name_of(blocks[-1]) == re.match(WORD, line)[0]:
                blocks[-1].append(line)
            else:
                blocks.append(comment + [start])
                comment = []
    return header, uses, blocks


def head_of(block):
    return next(line for line in block if not line.startswith("--"))


def name_of(block):
    found = re.match(r"(?:(?:abbrev|pub|unfoldable) )*(" + WORD + r")", head_of(block))
    return found[1]


def split_top(text, by):
    """The parts of a text between `by` outside all brackets."""
    parts, depth, last = [], 0, 0
    for i, ch in enumerate(text):
        if ch in "([{":
            depth += 1
        elif ch in ")]}":
            depth -= 1
        elif depth == 0 and text.startswith(by, i):
            parts.append(text[last:i])
            last = i + len(by)
    parts.append(text[last:])
    return [p.strip() for p in parts]


def unwrapped(text):
    """The inside of a text that is one pair of brackets, or None."""
    text = text.strip()
    if not text.startswith("("):
        return None
    depth = 0
    for i, ch in enumerate(text):
        depth += ch in "([{"
        depth -= ch in ")]}"
        if depth == 0:
            return text[1:i] if i == len(text) - 1 else None
    return None


class Function:
    def __init__(self, names, mutable):
        self.names, self.mutable = names, mutable
        self.places = names["places"]
        self.at = {place[0]: i for i, place in enumerate(self.places)}
        self.goals = {}
        for (old, new), (place, _) in zip(names["needs"], names["asked_at"]):
            self.goals[plain(old)] = (old, new, place)

    def parent(self, place):
        return self.places[self.at[place]][1]

    def chain(self, place):
        while place is not None:
            yield place
            place = self.parent(place)

    def step(self, goal_place, place, parts):
        """The new path of what stands at a place: its step and the parts below it."""
        if place == "Start":
            return ["c"] + parts
        old, new = self.places[self.at[place]][2]
        if not parts:
            raise Left(f"a bare place {place}")
        if plain(parts[0]) != plain(old):
            raise Left(f"{'.'.join(parts)} at {place}, whose step is {old}")
        rest = parts[1:]
        best = None
        for other in self.chain(goal_place):
            arm = self.names["arms"][self.at[other]]
            if not arm:
                continue
            for field, step, path in arm[2]:
                if plain(step) == plain(old) and path and rest[: len(path)] == path and (best is None or len(path) > best[2]):
                    best = (arm[0], field, len(path))
        if best and (place in self.chain(goal_place)):
            return ["c", best[0], best[1]] + rest[best[2] :]
        arm = self.names["arms"][self.at[place]]
        if arm and any(step == old for _, step, path in arm[2]):
            if new.startswith("in") and old == "match":
                raise Left(f"{'.'.join(parts)} in the arm {arm[0]}")
        return ["c", new] + self.below(place, rest)

    def below(self, place, rest):
        """What stands below a step: a call's clauses by name, and what it leaves in its arguments."""
        index = self.at[place]
        called, clauses = self.places[index][3], self.names["clauses"][index]
        if rest and rest[0] == "last" and called:
            mutable = self.mutable(called)
            if mutable is None:
                raise Left(f"{'.'.join(rest)} of {called}")
            n, path = 0, list(rest[1:])
            while path and path[0] == "1" and n < len(mutable) - 1:
                path.pop(0)
                n += 1
            if path and path[0] == "0":
                path.pop(0)
            return ["new", mutable[n]] + path
        if rest and rest[0] == "ensures" and clauses and clauses.get("fields"):
            return ["ensures"] + by_fields(rest[1:], clauses["fields"])
        return rest


def by_fields(path, fields):
    """A path into a nested pair, as one into a record of clauses."""
    n, path = 0, list(path)
    if not path:
        return [list(fields)]
    while len(fields) - n > 1 and path and path[0] == "1":
        path.pop(0)
        n += 1
    if n < len(fields) - 1:
        if not path or path[0] != "0":
            raise Left(f"{'.'.join(path)} among {' '.join(fields)}")
        path.pop(0)
    return [fields[n]] + path


class Body:
    """A goal's answer: its paths are respelled, and names that only stood for places are gone."""

    def __init__(self, function, place, argument, own_requires):
        self.function, self.place, self.own_requires = function, place, own_requires
        self.known = {argument: []}

    def path(self, head, parts):
        parts = self.known[head] + list(parts)
        while parts and parts[0] == "before":
            parts.pop(0)
        if not parts:
            return None
        function = self.function
        place = next((p for p in function.chain(self.place) if p != "Start" and plain(function.places[function.at[p]][2][0]) == plain(re.sub("_lem$", "", parts[0]))), None)
        if place is None:
            if parts[0] not in ("args", "requires", "ranges", "auto", "type_inv", "well_formed"):
                raise Left(f"{'.'.join(parts)} is no step before {self.place}")
            place = "Start"
        else:
            parts[0] = function.places[function.at[place]][2][0]
        new = function.step(self.place, place, parts)
        if place == "Start" and new[1] == "requires" and self.own_requires:
            new = ["c", "requires"] + by_fields(new[2:], self.own_requires)
        if isinstance(new[-1], list):
            head, fields = ".".join(new[:-1]), new[-1]
            text = f"{head}.{fields[-1]}"
            for field in reversed(fields[:-1]):
                text = f"({head}.{field}, {text})"
            return text
        return ".".join(new)

    def turned(self, text):
        pattern = re.compile(r"(?<![\w'.-])(" + "|".join(map(re.escape, self.known)) + r")((?:\.[^\s(){}.;,@\"«»\[\]\\]+)*)(?![\w'-])")

        def one(found):
            parts = [p for p in found[2].split(".") if p]
            new = self.path(found[1], parts)
            if new is None:
                raise Left(f"the place {found[0]} as a value")
            return new

        return pattern.sub(one, text)

    def without_lets(self, text):
        """The lets at the head of a body, turned, and what stands below them."""
        lets = []
        text = text.strip()
        while True:
            found = re.match(r"let (" + WORD + r")( : .*?)? =\s", text, re.S)
            if not found:
                return lets, text
            depth, i = 0, found.end()
            lets_open = 1
            for word in re.finditer(r"[(\[{]|[)\]}]|\blet\b|\bin\b(?![-\w])", text[found.end() :]):
                w = word[0]
                depth += w in "([{"
                depth -= w in ")]}"
                if depth == 0 and w == "let":
                    lets_open += 1
                if depth == 0 and w == "in":
                    lets_open -= 1
                    if lets_open == 0:
                        value = text[found.end() : found.end() + word.start()].strip()
                        rest = text[found.end() + word.end() :].strip()
                        break
            else:
                raise Left("a let without an end")
            simple = re.fullmatch(r"(" + WORD + r")((?:\.[^\s(){}.;,]+)*)", value)
            if simple and simple[1] in self.known and not found[2]:
                parts = self.known[simple[1]] + [p for p in simple[2].split(".") if p]
                while parts and parts[0] == "before":
                    parts.pop(0)
                self.known[found[1]] = parts
            else:
                lets.append(f"let {found[1]}{self.turned(found[2] or '')} = {self.turned(value)} in")
            text = rest


def nested(text, n):
    """The n parts of a nested pair."""
    parts = []
    while n > 1:
        inside = unwrapped(text)
        if inside is None:
            raise Left("no pair of clauses")
        pieces = [p for p in split_top(inside, ",") if p]
        if len(pieces) < 2:
            raise Left("no pair of clauses")
        if len(pieces) > 2 and len(pieces) == n:
            return parts + pieces
        if len(pieces) != 2:
            raise Left("a pair of another size")
        parts.append(pieces[0])
        text, n = pieces[1], n - 1
    return parts + [text]


def is_search(text):
    text = text.strip()
    while unwrapped(text) is not None and "," not in text:
        text = unwrapped(text).strip()
    return bool(re.fullmatch(r"search (rules|needs)", text))


def rust_functions(crate_sources):
    """By name, the arguments that are &mut, and the names of the clauses."""
    mutable, requires = {}, {}
    for path in crate_sources:
        text = read(path)
        for found in re.finditer(r"\bfn (\w+)(?:<[^>(]*>)?\(([^)]*)\)([^{;]*?)((?:\n\s*(?:requires|ensures)\b.*)*)\n?\s*\{", text):
            args = [a.strip() for a in found[2].replace("\n", " ").split(",") if a.strip()]
            names = []
            for a in args:
                if re.match(r"&(?:'\w+ )?mut self", a):
                    names.append("self")
                elif re.search(r":\s*&(?:'\w+ )?mut ", a):
                    names.append(re.sub(r"^mut ", "", a.split(":")[0]).strip())
            key = found[1]
            mutable.setdefault(key, []).append(names)
            requires.setdefault(key, []).append(re.findall(r"requires (\w+) \{", found[4]))
    return mutable, requires


def variables(goal, words, function):
    """What each name of an invariant's pattern is called now."""
    n = next(i for i, ((old, new), _) in enumerate(function.names["loops"]) if new == goal)
    fields = function.names["loops"][n][1]
    changed = function.names["changed"][n]
    tail = [f for f, c in zip(fields, changed) if c]
    if len(words) != len(fields) + len(tail):
        raise Left(f"an invariant of {len(words)} variables, not of {len(fields)} and {len(tail)}")
    out = {}
    for word, field, change in zip(words, fields, changed):
        out[word.strip("«»")] = f"l.initial.{field}" if change else f"l.{field}"
    for word, field in zip(words[len(fields) :], tail):
        out[word.strip("«»")] = f"l.{field}"
    return out


def substituted(text, turns):
    def one(found):
        word = found[0].strip("«»")
        behind = text[found.start() - 1] if found.start() else " "
        return turns[word] if word in turns and behind != "." else found[0]

    return re.sub(r"--[^\n]*|«[^»]*»|" + WORD, one, text)


def answered(function, listed, goal, argument, body, unfolding, notes, own_requires):
    """The answers to a goal: one, or one for each clause that the search does not find."""
    old, new, place = goal
    turned = Body(function, place, argument, own_requires)
    lets, rest = turned.without_lets(body)
    inside = unwrapped(rest)
    if inside is not None and inside.strip().startswith("let "):
        more, rest = turned.without_lets(inside)
        lets += more
    clauses = listed["asked"].get(old)
    made = [(new, rest)]
    if clauses:
        parts = nested(rest, len(clauses))
        made = [(f"{new}-clause-{clause}", part) for clause, part in zip(clauses, parts) if not is_search(part) or unfolding]
    out = []
    for name, part in made:
        part = turned.turned(part)
        # A tactic reads what is bound, whether it is named or not.
        used = lets
        while not re.search(r"\b(search|omega|grind|simp|rw|cc)\b", part):
            keep = [let for i, let in enumerate(used) if re.search(r"(?<![\w.'-])" + re.escape(re.match(r"let (\S+)", let)[1]) + r"(?![\w'-])", "\n".join(used[i + 1 :] + [part]))]
            if keep == used:
                break
            used = keep
        value = "\n    ".join([""] + used + [part]) if used or "\n" in part else " " + part
        out.append("\n".join(notes + [f"pub {name} : goal.{name}"] + [unfolding] * bool(unfolding) + [f"{name} c ={value}"]))
        notes = []
    return out


def atoms(text):
    """The arguments of a call, each a word or a pair of brackets."""
    out, i = [], 0
    while i < len(text):
        if text[i].isspace():
            i += 1
        elif text[i] == "(":
            depth, j = 0, i
            while True:
                depth += text[j] in "([{"
                depth -= text[j] in ")]}"
                j += 1
                if depth == 0:
                    break
            out.append(text[i:j])
            i = j
        else:
            found = re.match(r"[^\s()]+", text[i:])
            out.append(found[0])
            i += len(found[0])
    return out


def inline(text, typed, function):
    """The answers that stand in the list itself, each with its goal's old name."""
    found = re.search(r"tie\.spec\b", text)
    rest = text[found.end() :].rstrip()
    if rest.endswith(")") and rest.count("(") < rest.count(")"):
        rest = rest[:-1]
    given = [a for a in atoms(rest) if not re.match(r"(invariant|decreases)[-_]", a)]
    wanted = list(function.goals)
    given = [a for a in given if a not in typed or typed[a] in function.goals]
    anchors = [(i, wanted.index(typed[a])) for i, a in enumerate(given) if a in typed]
    for (i, j), (k, l) in zip([(-1, -1)] + anchors, anchors + [(len(given), len(wanted))]):
        for n in range(i + 1, k):
            m = re.fullmatch(r"\(λ (\S+?)((?: \S+?)*)\.\s(.*)\)", given[n], re.S)
            if not m:
                yield None, None, given[n]
            elif not is_search(m[3]):
                yield (wanted[j + n - i] if k - i == l - j else None), m[1], m[3]


def turn(crate, path, names, mutable, requires_of):
    folder = os.path.dirname(path)
    key = folder.split(f"crates/{crate}/proofs/")[1].replace("/", ".")
    module = f"Rattle.{crate}.proofs.{key}"
    listed = names.get(f"Rattle-{crate}-proofs.{key}.Lts")
    said = []
    if listed is None:
        return [f"left: {path}: no names"]
    function = Function(listed, mutable)
    header, uses, blocks = blocks_of(read(path))
    if not any("tie.close" in "\n".join(b) for b in blocks):
        return [f"left: {path}: a proof by hand"]
    own_requires = requires_of(key)
    invariants, answers, helpers, typed = [], [], [], {}
    for block in blocks:
        head = head_of(block)
        text = "\n".join(line for line in block if not line.startswith("--"))
        notes = [line for line in block if line.startswith("--")]
        found = re.match(r"(?:abbrev )?(?:pub )?(" + WORD + r") : tie\.(invariant|decreases)-(\S+)", head)
        if found:
            kind, loop = found[2], found[3]
            body = text.split("\n", 1)[1]
            m = re.match(re.escape(found[1]) + r"((?: \S+)*?) =(.*)", body, re.S)
            try:
                new = next((n for (o, n), _ in listed["loops"] if plain(o) == plain(loop)), None)
                if new is None:
                    if listed["pre"] is None and not listed["loops"]:
                        raise Left("no loop")
                    raise Left(f"no loop {loop}")
                turns = variables(new, m[1].split(), function)
                value = substituted(m[2], turns)
                invariants.append("\n".join(notes + [f"abbrev pub {kind}-{new} : goal.{kind}-{new}", f"{kind}-{new} l ={value}"]))
            except Left as why:
                said.append(f"left: {path}: {found[1]}: {why}")
            continue
        found = re.match(r"(" + WORD + r") : tie\.Need-(\S+)", head)
        if found:
            goal = function.goals.get(plain(found[2]))
            lines = text.split("\n")[1:]
            unfolding = lines.pop(0) if lines and lines[0].startswith("unfolding") else None
            body = "\n".join(lines)
            m = re.match(re.escape(found[1]) + r" (\S+)((?: \S+)*?) =(.*)", body, re.S)
            typed[found[1]] = plain(found[2])
            if goal is None:
                if not (listed["settled"] and any(plain(s).startswith(plain(found[2]).split("-")[0]) for s in listed["settled"])):
                    said.append(f"left: {path}: no goal {found[2]}")
                continue
            if not m:
                said.append(f"left: {path}: {found[1]}: not read")
                continue
            old, new, place = goal
            typed[found[1]] = plain(found[2])
            if is_search(m[3]) and not unfolding:
                continue
            try:
                answers += answered(function, listed, goal, m[1], m[3], unfolding, notes, own_requires)
            except Left as why:
                said.append(f"left: {path}: {found[1]}: {why}")
            continue
        if "tie.close" in text or re.match(r"(?:pub )?\S+_spec :", head):
            for old, argument, body in inline(text, typed, function):
                if old is None:
                    said.append(f"left: {path}: in the list of answers: {' '.join(body.split())[:150]}")
                    continue
                try:
                    answers += answered(function, listed, function.goals[old], argument, body, None, [], own_requires)
                except Left as why:
                    said.append(f"left: {path}: {old} in the list of answers: {why}")
            continue
        helpers.append("\n".join(block))
    write(folder, module, header, uses, invariants, answers, helpers)
    os.remove(path)
    return said


def kept_uses(uses, text):
    out = []
    for line in uses:
        if re.search(r"\.(Tie|Statement)(\b|\.)", line):
            continue
        m = re.match(r"use (\S+?)\.\{([^}]*)\}$", line)
        if m:
            items = [i.strip() for i in m[2].split(",") if i.strip()]
            keep = [i for i in items if is_used(i.split(" as ")[-1], text)]
            if keep:
                out.append(f"use {m[1]}.{{{', '.join(keep)}}}")
        else:
            m = re.match(r"use (\S+)(?: as (\S+))?$", line)
            name = (m[2] or m[1].split(".")[-1]) if m else None
            if name is None or re.search(r"(?<![\w.'-])" + re.escape(name) + r"\.", text):
                out.append(line)
    return out


def is_used(name, text):
    if "◌" in name:
        return name.replace("◌", "").strip() in text
    return bool(re.search(r"(?<![^\s(){}.;,@\"«»\[\]\\`:])" + re.escape(name) + r"(?![^\s(){}.;,@\"«»\[\]\\`:])", text))


def write(folder, module, header, uses, invariants, answers, helpers):
    if invariants:
        text = "\n\n".join(invariants)
        lines = header + kept_uses(uses, text) + [f"use {module}.Given as goal", "", text, ""]
        with open(f"{folder}/Invariants.antt", "w", encoding="utf-8") as file:
            file.write("\n".join(lines))
    if answers:
        text = "\n\n".join(helpers + answers)
        lines = header + kept_uses(uses, text) + [f"use {module}.Goals as goal", "", text, ""]
        with open(f"{folder}/Answers.antt", "w", encoding="utf-8") as file:
            file.write("\n".join(lines))


def main(argv):
    every = {os.path.basename(os.path.dirname(os.path.dirname(p))): p for p in glob.glob("crates/*/src/lib.rt") + glob.glob("crates/*/src/main.rt")}
    by_crate = {crate: rust_functions(glob.glob(f"crates/{crate}/src/**/*.rt", recursive=True)) for crate in every}
    for crate in argv[1:]:
        names = json.loads(read(f"{argv[0]}/crates/{crate}/names.json"))

        def mutable(called):
            steps = called.split("::")
            found = by_crate.get(steps[0], ({}, {}))[0].get(steps[-1])
            return found[0] if found and all(f == found[0] for f in found) else None

        def requires_of(key, crate=crate):
            found = by_crate[crate][1].get(key.split(".")[-1].lstrip("+"))
            return found[0] if found and len(found[0]) > 1 else None

        for path in sorted(glob.glob(f"crates/{crate}/proofs/**/Proof.antt", recursive=True)):
            for line in turn(crate, path, names, mutable, requires_of):
                print(line)


if __name__ == "__main__":
    main(sys.argv[1:])
