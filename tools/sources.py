"""Reads the functions, types and switches off the words of crates/*/src/*.rt, and the laws off proofs/*.antt, for tools/design.py.

Read are words and brackets, nothing is resolved: a name stands for all that have it.
"""

import collections
import glob
import re

TOKEN = re.compile(r"//[^\n]*|b?\"(?:\\.|[^\"\\])*\"|b?'(?:\\[^']*|[^'\\])'|[A-Za-z_]\w*|\d\w*|::|->|=>|\.\.=?|[<>=!+\-*/%&|^]=|&&|\|\||\s+|.", re.S)
WORD = re.compile(r"[^\s(){}.;,@\"«»\[\]\\`:]+|\S")
DECLARES = re.compile(r"( *)(?:(?:pub|private|abbrev|unfoldable) )*([^\s(){}.;,@\[\]:]+)((?: \{[^{}]*\})*) : (.*)")
NUMBERS = {"u8", "u16", "u32", "u64", "usize", "i32", "i64"}
# What a declaration gives that is no law.
VALUES = {"Type", "ℕ", "ℤ", "Bool", "List", "Option"}
ENDS = {"(": ")", "[": "]", "{": "}", "<": ">"}

# A function: `owner` the type whose impl it is in, `trait` whether that is one of a trait, `params` pairs of a name and a type, `clauses` the tokens of each requires
# and ensures, `head` those before them, `body` the tokens and their lines.
Fn = collections.namedtuple("Fn", "crate path line name owner trait params result requires clauses head body")
# A struct, an enum or a const: `parts` are pairs of a name and a type, or of a name and the types that the variant holds.
Type = collections.namedtuple("Type", "crate path line name kind parts")


def read(path):
    with open(path, encoding="utf-8") as file:
        return file.read()


def place(x):
    owner = f"{x.owner}::" if getattr(x, "owner", "") else ""
    return f"{x.path[len('crates/'):]}:{x.line} {owner}{x.name}"


def tokens_of(path):
    """The tokens of a file and their lines, without comments."""
    line, tokens = 1, []
    for found in TOKEN.finditer(read(path)):
        if not found[0].isspace() and not found[0].startswith("//"):
            tokens.append((found[0], line))
        line += found[0].count("\n")
    return [t for t, _ in tokens], [n for _, n in tokens]


def closing(ts, i, opens="([{"):
    """Where the bracket that opens at i closes."""
    closes, depth = [ENDS[c] for c in opens], 0
    for k in range(i, len(ts)):
        depth += (ts[k] in opens) - (ts[k] in closes)
        if depth == 0:
            return k
    return len(ts) - 1


def split(ts, by, opens="([{<"):
    """The parts of tokens between `by` outside all brackets."""
    closes, parts, depth = [ENDS[c] for c in opens], [[]], 0
    for t in ts:
        depth += (t in opens) - (t in closes)
        if t == by and depth == 0:
            parts.append([])
        else:
            parts[-1].append(t)
    return [p for p in parts if p]


def function_at(ts, lines, i, crate, path, owner, trait):
    k = closing(ts, i + 2, "<") + 1 if ts[i + 2] == "<" else i + 2
    end, params = closing(ts, k), []
    for part in split(ts[k + 1:end], ","):
        part = part[1:] if part[0] == "mut" else part
        params.append((part[0], "".join(part[2:])) if ":" in part else ("self", owner))
    start = k = end + 1
    while ts[k] not in ("requires", "ensures", "where", "{", ";"):
        k = closing(ts, k) + 1 if ts[k] in "([" else k + 1
    result, head, requires, clauses = "".join(ts[start + 1:k]), ts[i:k], [], []
    while ts[k] == "where" or ts[k] not in ("requires", "ensures", "{", ";"):
        k += 1
    while ts[k] not in ("{", ";"):
        open_at = ts.index("{", k)
        clauses.append(ts[open_at + 1:closing(ts, open_at, "{")])
        requires += [clauses[-1]] if ts[k] == "requires" else []
        k = closing(ts, open_at, "{") + 1
    body = (ts[k:closing(ts, k, "{") + 1], lines[k:]) if ts[k] == "{" else ([], [])
    return Fn(crate, path, lines[i], ts[i + 1], owner, trait, params, result, requires, clauses, head, body)


def type_at(ts, lines, i, crate, path):
    k, parts = next(k for k in range(i + 2, len(ts)) if ts[k] in "{(;"), []
    for part in split(ts[k + 1:closing(ts, k)], ","):
        while part and part[0] in ("#", "pub"):
            part = part[closing(part, 1) + 1:] if part[0] == "#" else part[1:]
        if ts[i] == "struct":
            parts.append((part[0], "".join(part[2:])) if ":" in part else ("", "".join(part)))
        else:
            held = [p[p.index(":") + 1:] if ":" in p else p for p in split(part[2:-1], ",")]
            parts.append((part[0], tuple("".join(p) for p in held)))
    return Type(crate, path, lines[i], ts[i + 1], ts[i], parts)


def sources():
    """The functions, the types and the files of all crates, a file with its tokens and their lines."""
    fns, types, files = [], [], []
    for path in sorted(glob.glob("crates/*/src/*.rt")):
        (ts, lines), crate = tokens_of(path), path.split("/")[1]
        files.append((crate, path, ts, lines))
        owner, trait, until = "", False, -1
        for i, t in enumerate(ts):
            if t == "impl" and ts[i - 1] in ("}", ";", "]"):
                until = closing(ts, ts.index("{", i), "{")
                named = ts[closing(ts, i + 1, "<") + 1 if ts[i + 1] == "<" else i + 1:ts.index("{", i)]
                trait = "for" in named
                owner = named[named.index("for") + 1 if trait else 0]
            if t == "fn" and re.match(r"\w", ts[i + 1]):
                fns.append(function_at(ts, lines, i, crate, path, owner if i < until else "", trait and i < until))
            if t in ("struct", "enum") and re.match(r"[A-Z]", ts[i + 1]):
                types.append(type_at(ts, lines, i, crate, path))
    return fns, types, files


def loops_of(f):
    """The loops of a function: the word, the line, the condition and the body of each."""
    ts, lines = f.body
    for k, t in enumerate(ts):
        if t in ("while", "loop"):
            open_at = ts.index("{", k)
            yield t, lines[k], ts[k + 1:open_at], ts[open_at:closing(ts, open_at, "{") + 1]


def unwrapped(ts):
    """An arm without the braces around it, `return` before it and what ends it."""
    while ts and ts[0] == "{" and closing(ts, 0, "{") == len(ts) - 1:
        ts = ts[1:-1]
    ts = ts[1:] if ts[:1] == ["return"] else ts
    while ts and ts[-1] in ("?", ";"):
        ts = ts[:-1]
    return ts


def matches_of(f):
    """The matches of a function: whether it is the whole body, the line, the value's tokens and the arms."""
    ts, lines = f.body
    for k, t in enumerate(ts):
        if t == "match":
            open_at = ts.index("{", k)
            arms, at, end = [], open_at + 1, closing(ts, open_at, "{")
            while at < end:
                start = ts.index("=>", at) + 1
                last = closing(ts, start, "{") + 1 if ts[start] == "{" else start
                while last < end and ts[last] != "," and ts[start] != "{":
                    last = closing(ts, last) + 1 if ts[last] in "([{" else last + 1
                arms.append(unwrapped(ts[start:last]))
                at = last + (ts[last] == ",")
            yield k == 1 and end == len(ts) - 2, lines[k], ts[k + 1:open_at], arms


def is_guard(ts, k):
    """Whether an if is the guard of an arm of a match: its arrow stands before any brace."""
    return next((t for t in ts[k:] if t in ("{", "=>")), "=>") == "=>"


def chains_of(f):
    """The chains of ifs of a function, told as its matches are. An if that returns and what stands behind it are arms of one chain."""
    ts, lines = f.body
    seen = set()
    for k, t in enumerate(ts):
        if t == "if" and k not in seen and ts[k - 1] != "else" and ts[k + 1] != "let" and not is_guard(ts, k):
            arms, at = [], k
            while ts[at] in ("if", "{"):
                seen.add(at)
                open_at = ts.index("{", at)
                end = closing(ts, open_at, "{")
                arms.append(unwrapped(ts[open_at:end + 1]))
                returns = ts[open_at + 1] == "return" and ts[end + 1] != "else"
                at = end + 1 if returns else end + 2 if ts[end + 1] == "else" else len(ts) - 1
                if returns and ts[at] != "if":
                    last = next((n for n in range(at, len(ts)) if ts[n] in ("}", ";", "{")), at)
                    arms, end, at = arms + [unwrapped(ts[at:last])], last - 1, len(ts) - 1
            yield k == 1 and end == len(ts) - 2, lines[k], ts[k + 1:ts.index("{", k)], arms


def laws_of(path, own):
    """The laws of a file: the line, the name, the statement's tokens, and the names bound in it or by a module around it."""
    lines, modules = [re.sub(r"(^|\s)--.*", "", line) for line in read(path).split("\n")], []
    for n, line in enumerate(lines):
        depth = len(line) - len(line.lstrip())
        if line.strip():
            modules = [m for m in modules if m[0] < depth]
        if re.match(r" *module ", line):
            modules.append((depth, line))
        law = DECLARES.match(line)
        if law and depth == 2 * len(modules):
            end = next((k for k in range(n + 1, len(lines)) if not lines[k].startswith(" " * (depth + 1))), len(lines))
            text = f"{law[3]} {law[4]} {' '.join(lines[n + 1:end])}"
            names = re.findall(r"[({]([^(){}:]+) : ", text + "".join(m[1] for m in modules)) + re.findall(r"λ ([^.]*)\.", text)
            words = WORD.findall(text)
            shown = [w for w in split(words, "→", "([{")[-1:] for w in w if w not in "(){}"]
            if shown and shown[0] not in VALUES | own:
                yield n + 1, law[2], words, set(re.findall(r"[^\s(){}]+", " ".join(names)))


def conjuncts(ts):
    """The parts between × of a clause, also within brackets around them."""
    while ts and ts[0] == "(" and closing(ts, 0) == len(ts) - 1:
        ts = ts[1:-1]
    parts = split(ts, "×", "([{")
    if len(parts) == 1 or len(split(ts, "→", "([{")) > 1:
        return [ts]
    return [c for part in parts for c in conjuncts(part)]


def by_type(ts, params):
    """A conjunct with its parameters numbered by type as they appear."""
    seen, counts, out = {}, collections.Counter(), []
    for k, t in enumerate(ts):
        if t in params and ts[k - 1:k] != ["."]:
            counts[params[t]] += t not in seen
            t = seen.setdefault(t, f"<{params[t]} {counts[params[t]]}>")
        out.append(t)
    return " ".join(out)


def is_value(ts):
    """A literal, a constant or a variant, which may hold names."""
    return bool(re.fullmatch(r"(- )?\d\w*|b?[\"'].*|true|false|(\w+ :: )*[A-Z]\w*( \( [\w: .]* \)| \{[\w:, ]*\})?", " ".join(ts), re.S))


def called(ts):
    """The function of which one call is all that stands in an arm, '' where nothing is done, or None."""
    if " ".join(ts) in ("", "( )", "Ok ( ( ) )"):
        return ""
    name = "".join(ts[:ts.index("(")]) if "(" in ts and closing(ts, ts.index("(")) == len(ts) - 1 else ""
    return name if re.fullmatch(r"(?:\w+(?:::|\.))*[a-z]\w*", name) else None
