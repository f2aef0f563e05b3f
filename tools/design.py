#!/usr/bin/env python3
"""Counts, in the crates of the repository that it stands in, the places of the eight points of docs/DESIGN-PASS.md.

usage: python3 tools/design.py [--list POINT]

Read are crates/*/src/*.rt, for point 8 also crates/*/proofs. No place is left out for its name or its crate, and one may be counted at several points. What is
counted is told by words and shapes, not by meaning: it is to be looked at, and not wrong for that. Each count is the sum of its kinds. What a trait asks for, in an impl of it,
is no function `number` or of point 4.

1  option: an enum of two variants, one of them without a field. result: an enum some of whose variants are named as failures (FAILS). none: another enum with a
   variant named as nothing (NOTHING). flag: a struct with a bool beside a number or a type of its crates, or with a number named code. code: a constant number that
   a match has as a pattern, that stands beside == or !=, or that is given to a field or a parameter named code. series: another constant number, where three or
   more stand one after another whose values count up by one. number: a function of one parameter from an enum to a number, or from a number to an enum.
2  function: two functions, each of 40 tokens or more, equal once their names, types and literals are numbered as they appear; contracts are not compared. type: two
   structs, or two enums, with the same types in the same order; bare: two enums without fields, of as many variants. name: two functions whose names, and whose
   crates' names, are the same but for TWINS: under two names, in two crates, or in two files whose names are the same but for TWINS.
3  counted: a while whose condition names a variable to which the body adds a literal or a constant, or from which it takes one. other: another while or a loop.
4  named: a function named as in WRITTEN, or `.._of` with one parameter. chosen: another whose body is one match, or one chain of ifs, between literals, constants
   and variants. pair: another of two parameters of one type of ours, to that type or bool. said: another with an enum and something to print to, that has a match.
   moved: another that makes a struct of three fields or more by the names that another has them by.
5  conjunct: what stands between × in the contracts of three functions or more, the parameters numbered by type as they appear. group: three parameters or more,
   by name and type, that stand together in three functions or more, all that those functions share; part: such a group that is in a greater one.
6  beside: a function with a slice or an array and a number that is named as a length or a place (BESIDE) or bounds a range of it. bounded: another with a number that
   a requires puts beside the length of the slice. together: two arrays or more under one index or range in a function. halving: a loop that divides by 2. link:
   a struct with a number named as a link (LINKS), a function in which a name has the word link or thread.
7  parameter: a match, or a chain of ifs, of three arms or more, each of them one call or nothing and two of them calls of two functions, on a parameter; value: on
   another value. alike: the same with one function in all arms. mixed: two arms are calls of two functions, and some other arm is more than a call.
8  answer: a goal answered in an Answers.antt. statement: two laws of proofs/*.antt with one statement once bound names are numbered, also those of a module around
   it, whose own premises are not compared. shape: two of 25 tokens or more that are equal only once all names are numbered. A declaration that gives a type or a
   value of one (a number, a list, a struct) is no law.
"""

import collections
import glob
import itertools
import os
import re
import sys

sys.dont_write_bytecode = True
from sources import NUMBERS, Type, by_type, called, chains_of, closing, conjuncts, is_value, laws_of, loops_of, matches_of, place, read, sources, split

KEYWORDS = set("fn pub let mut if else match while loop for in return struct enum impl self use const as true false break continue ref".split())
FAILS = re.compile(r"Failed|TooLong|TooLarge|TooShort|Broken|Wrong|Unread|Not([A-Z]\w*)?|Refused|Full|Unclosed|Unknown|Bad\w*|Malformed|Invalid|Error")
NOTHING = re.compile(r"None|Nothing|Empty|Absent")
TWINS = dict([("x", "y"), ("vertical", "horizontal"), ("first", "last"), ("plain", "coloured"), ("cells", "colours"), ("row", "column"), ("down", "along"),
              ("source", "target"), ("start", "end"), ("word", "byte"), ("words", "bytes")])
WRITTEN = re.compile(r"number|\w+_number|from_\w+|to_\w+|of|as_\w+|same|same_\w+|is_same|eq|cmp|max|min")
BESIDE = re.compile(r"(\w+_)?(len|length|size|count|n|start|end|from|to|until|at|used|room|limit|done)")
LINKS = re.compile(r"(\w+_)?(next|link|prev|previous|parent|child|head|tail|index|slot|cursor)")


def groups(pairs):
    """The values that share a key, for each key that two have."""
    by_key = collections.defaultdict(list)
    for key, value in pairs:
        by_key[key].append(value)
    return [found for found in by_key.values() if len(found) > 1]


def pairs_of(kind, found):
    return [(kind, f"{place(a)} = {place(b)}") for group in found for a, b in itertools.combinations(group, 2)]


def numbered(ts, bound=None):
    """Tokens with the names and literals, or the bound names alone, numbered as they appear."""
    seen = {}
    turns = [t in bound if bound is not None else bool(re.match(r"\w|b?[\"']", t)) and t not in KEYWORDS for t in ts]
    return tuple(seen.setdefault(t, f"#{len(seen)}") if turn else t for t, turn in zip(ts, turns))


def codes_in(files, fns):
    """The names that stand where a code would."""
    given = {f.name: [n for n, _ in f.params].index("code") for f in fns if "code" in dict(f.params)}
    for _, _, ts, _ in files:
        for k, t in enumerate(ts):
            at = k - 2 if ts[k - 1] == "::" else k
            if re.match(r"[A-Z][A-Z_0-9]+$", t) and (ts[k + 1] in ("=>", "==", "!=", "|") and ts[at - 1] not in "+-*/%" or ts[at - 1] in ("==", "!=", "|")):
                yield t
            if ts[k:k + 2] == ["code", ":"]:
                yield from ts[k + 2:ts.index(",", k)] if "," in ts[k:k + 7] else []
            if t in given and ts[k + 1] == "(":
                arguments = split(ts[k + 2:closing(ts, k + 1)], ",")
                yield from arguments[given[t]] if given[t] < len(arguments) else []


def constants(files, fns):
    """The places of constants that are codes, and of those that count up."""
    codes, runs = set(codes_in(files, fns)), [[]]
    for crate, path, ts, lines in files:
        for k, t in enumerate(ts):
            if t == "const" and ts[k + 2] == ":" and ts[k + 3] in NUMBERS and ts[k + 4] == "=":
                value = int(ts[k + 5].replace("_", ""), 0) if ts[k + 6] == ";" and re.match(r"0x|\d[\d_]*$", ts[k + 5]) else None
                one = Type(crate, path, lines[k], ts[k + 1], ts[k + 3], value)
                last = runs[-1][-1] if runs[-1] else one
                follows = last.path == path and value is not None and last.parts is not None and value == last.parts + 1
                runs[-1].append(one) if follows else runs.append([one])
    found = [(one, run) for run in runs for one in run]
    return [("code" if one.name in codes else "series", place(one)) for one, run in found if one.name in codes or len(run) > 2]


def point_1(fns, types, files):
    own, enums, found = {t.name for t in types}, {t.name for t in types if t.kind == "enum"}, constants(files, fns)
    for t in types:
        names, held = [name for name, _ in t.parts], [of for _, of in t.parts]
        fails = [bool(FAILS.fullmatch(name)) for name in names]
        if t.kind == "struct" and (set(held) & {"bool"} and set(held) & (NUMBERS | own) or "code" in names):
            found.append(("flag", place(t)))
        elif t.kind == "enum" and any(fails) and not all(fails):
            found.append(("result", place(t)))
        elif t.kind == "enum" and len(names) == 2 and held.count(()) == 1:
            found.append(("option", place(t)))
        elif t.kind == "enum" and any(NOTHING.fullmatch(name) for name in names):
            found.append(("none", place(t)))
    for f in fns:
        given, made = [of.strip("&") for _, of in f.params], set(re.findall(r"\w+", f.result.replace("Self", f.owner)))
        if len(given) == 1 and not f.trait and (given[0] in enums and f.result in NUMBERS or given[0] in NUMBERS and made & enums):
            found.append(("number", place(f)))
    return found


def twin(name):
    """A name with the second word of TWINS for the first."""
    return "".join(TWINS.get(part, part) for part in re.split(r"([_./])", name))


def point_2(fns, types, _):
    found = pairs_of("function", groups((numbered(f.head + f.body[0]), f) for f in fns if len(f.head + f.body[0]) >= 40))
    shapes = [((t.kind, tuple(of for _, of in t.parts)), t) for t in types if len(t.parts) > 1]
    found += pairs_of("type", groups(s for s in shapes if any(s[0][1]))) + pairs_of("bare", groups(s for s in shapes if not any(s[0][1])))
    for group in groups(((twin(f.crate), twin(f.name), f.owner), f) for f in fns):
        for a, b in itertools.combinations(group, 2):
            if a.name != b.name or a.crate != b.crate or a.path != b.path and twin(a.path) == twin(b.path):
                found += pairs_of("name", [(a, b)])
    return found


def point_3(fns, _, __):
    found = []
    for f in fns:
        for word, line, condition, body in loops_of(f):
            steps = re.findall(r"(?<! \. )\b([a-z_]\w*(?: \. [a-z_]\w*)*) [+-]= (?:\d\w*|(?:\w+ :: )*[A-Z][A-Z_0-9]*) ;", " ".join(body))
            counted = any(re.search(rf"(?<! \. )\b{step}(?! [.(])\b", " ".join(condition)) for step in steps)
            found.append(("counted" if counted and word == "while" else "other", place(f._replace(line=line))))
    return found


def point_4(fns, types, _):
    own, enums, found = {t.name for t in types}, {t.name for t in types if t.kind == "enum"}, []
    for f in (f for f in fns if not f.trait):
        given, text = [of.strip("&") for _, of in f.params], " ".join(f.body[0])
        moved = collections.Counter(whole for _, whole in re.findall(r"\b(\w+) : (\w+) \. \1 ,", text))
        if WRITTEN.fullmatch(f.name) or re.fullmatch(r"\w+_of", f.name) and len(f.params) == 1:
            found.append(("named", place(f)))
        elif any(whole and len(arms) > 1 and all(map(is_value, arms)) for whole, _, _, arms in [*matches_of(f), *chains_of(f)]):
            found.append(("chosen", place(f)))
        elif len(given) == 2 and given[0] == given[1] and given[0] in own and f.result.replace("Self", f.owner) in (given[0], "bool"):
            found.append(("pair", place(f)))
        elif enums & set(given) and any(re.search("(Print|Eprint)", of) for of in given) and "match" in f.body[0]:
            found.append(("said", place(f)))
        elif moved and max(moved.values()) >= 3:
            found.append(("moved", place(f)))
    return found


def point_5(fns, _, __):
    held = collections.defaultdict(set)
    for f in fns:
        for text in {by_type(c, dict(f.params)) for clause in f.clauses for c in conjuncts(clause)}:
            held[text].add(place(f))
    sets = [(frozenset(p for p in f.params if p[0] != "self"), place(f)) for f in fns]
    shared = {a & b for (a, _), (b, _) in itertools.combinations(sets, 2) if len(a & b) >= 3}
    users = {group: {f for params, f in sets if group <= params} for group in shared}
    counted = [group for group in users if len(users[group]) >= 3]
    found = [("conjunct", text, where) for text, where in held.items() if len(where) >= 3]
    for group in counted:
        found.append(("part" if any(group < other for other in counted) else "group", ", ".join(f"{n}: {of}" for n, of in sorted(group)), users[group]))
    return [(kind, f"{len(where)} functions: {text}: {', '.join(sorted(where))}") for kind, text, where in found]


def point_6(fns, types, _):
    found = [("link", place(t)) for t in types if t.kind == "struct" and any(LINKS.fullmatch(n) and of in NUMBERS for n, of in t.parts)]
    for f in fns:
        text, arrays, numbers = " ".join(f.body[0]), [n for n, of in f.params if "[" in of], {n for n, of in f.params if of in NUMBERS}
        under = re.findall(r"(\w+) \[ ([^\[\]]*[a-z_]\w*[^\[\]]*) \]", text)
        bounds = {w for array, cut in under if array in arrays and ".." in cut for w in re.findall(r"\w+", cut)}
        asked = {w for c in f.requires for p in conjuncts(c) if any(f"length {a} ." in " ".join(p) for a in arrays) for w in p}
        if arrays and any(BESIDE.fullmatch(n) or n in bounds for n in numbers):
            found.append(("beside", place(f)))
        elif arrays and numbers & asked:
            found.append(("bounded", place(f)))
        if groups({(at, array) for array, at in under}):
            found.append(("together", place(f)))
        found += [("halving", place(f._replace(line=line))) for _, line, _, body in loops_of(f) if "/ 2" in " ".join(body)]
        if any({"link", "thread", "threaded"} & set(re.split("_+", t)) for t in f.head + f.body[0]):
            found.append(("link", place(f)))
    return found


def point_7(fns, _, __):
    found = []
    for f in fns:
        for _, line, value, arms in [*matches_of(f), *chains_of(f)]:
            calls = [called(arm) for arm in arms]
            one_call, others = None not in calls, len(set(calls) - {"", None})
            if len(arms) >= 3 and sum(map(bool, calls)) >= 2 and (one_call or others >= 2):
                kind = "mixed" if not one_call else "alike" if others == 1 else "parameter" if {n for n, _ in f.params} & set(value) else "value"
                found.append((kind, place(f._replace(line=line))))
    return found


def point_8(_, types, __):
    found, laws = [], []
    for path in sorted(glob.glob("crates/*/proofs/**/Answers.antt", recursive=True)):
        answers = [(n, line.split()[1]) for n, line in enumerate(read(path).split("\n"), 1) if re.match(r"pub \S+ : goal\.", line)]
        found += [("answer", f"{path[len('crates/'):]}:{n} {name}") for n, name in answers]
    for path in sorted(glob.glob("crates/*/proofs/*.antt")):
        for n, name, text, bound in laws_of(path, {t.name for t in types}):
            laws.append((Type(path.split("/")[1], path, n, name, "", []), text, bound))
    same = pairs_of("statement", groups((numbered(text, bound), law) for law, text, bound in laws))
    alike = pairs_of("shape", groups((numbered(text), law) for law, text, _ in laws if len(text) >= 25))
    return found + same + [pair for pair in alike if ("statement", pair[1]) not in same]


POINTS = {"1": point_1, "2": point_2, "3": point_3, "4": point_4, "5": point_5, "6": point_6, "7": point_7, "8": point_8}


def main(argv):
    if argv and (len(argv) != 2 or argv[0] != "--list" or argv[1] not in POINTS):
        sys.exit(__doc__)
    os.chdir(os.path.join(os.path.dirname(os.path.abspath(__file__)), ".."))
    every = sources()
    for n in argv[1:] or POINTS:
        found = POINTS[n](*every)
        kinds = collections.Counter(kind for kind, _ in found)
        if argv:
            print("\n".join(f"{kind:<10}{what}" for kind, what in sorted(found)))
        else:
            print(f"{n}: {len(found)} ({', '.join(f'{kind} {count}' for kind, count in sorted(kinds.items()))})")


if __name__ == "__main__":
    main(sys.argv[1:])
