#!/usr/bin/env python3
"""Counts the places of docs/DESIGN-PASS.md in crates/*/src: `tools/places.py` prints the counts, `tools/places.py POINT` the places of one point (1 to 8)."""
import difflib
import glob
import itertools
import re
import sys

KEYWORDS = "if else while for in loop let mut return match fn pub as break continue true false ref move const struct enum impl".split()


def files():
    for name in sorted(glob.glob("crates/*/src/*.rt")):
        yield name, open(name, encoding="utf-8").read()


def functions():
    """Each function: its file, name, line, parameters, clauses and body."""
    start = re.compile(r"^[ ]*(?:pub )?(?:const )?(?:extern \"C\" )?fn (\w+)", re.M)
    for name, text in files():
        for m in start.finditer(text):
            open_at = text.index("(", m.end())
            depth, i = 0, open_at
            while True:
                depth += {"(": 1, ")": -1}.get(text[i], 0)
                i += 1
                if depth == 0:
                    break
            indent = re.match(r"[ ]*", m.group(0)).group(0)
            body = re.compile(r"^%s\{$|\{$" % indent, re.M).search(text, i)
            end = re.compile(r"^%s\}" % indent, re.M).search(text, body.end()) if body else None
            yield {
                "file": name,
                "name": m.group(1),
                "line": text.count("\n", 0, m.start()) + 1,
                "parameters": text[open_at + 1 : i - 1],
                "head": text[i : body.start()] if body else "",
                "body": text[body.end() : end.start()] if end else "",
            }


def lines(pattern):
    for name, text in files():
        for n, line in enumerate(text.splitlines(), 1):
            if re.search(pattern, line) and not line.lstrip().startswith("//"):
                yield f"{name}:{n}: {line.strip()}"


def normal(body):
    """The body with each name by the order in which it comes first, and each number as 0."""
    names, out = {}, []
    for token in re.findall(r"[A-Za-z_]\w*|\d+|\S", re.sub(r"//.*", "", body)):
        if re.match(r"\d", token):
            token = "0"
        elif re.match(r"[A-Za-z_]", token) and token not in KEYWORDS:
            token = f"n{names.setdefault(token, len(names))}"
        out.append(token)
    return out


def twins():
    """Pairs of functions whose bodies, of 20 tokens or more, are the same to nine parts in ten when names and numbers are left out."""
    all_of = [(f, normal(f["body"])) for f in functions()]
    for (f, a), (g, b) in itertools.combinations(all_of, 2):
        if min(len(a), len(b)) < 20 or max(len(a), len(b)) > 1.2 * min(len(a), len(b)):
            continue
        if difflib.SequenceMatcher(None, a, b, autojunk=False).ratio() >= 0.9:
            yield f"{f['file'].split('/')[1]}::{f['name']} and {g['file'].split('/')[1]}::{g['name']}"


def facts():
    """Facts that three or more functions ask for, each with how many do (names of parameters left out)."""
    seen = {}
    for f in functions():
        for clause in re.findall(r"requires (?:\w+ )?\{ (.*?) \}", f["head"]):
            seen.setdefault(re.sub(r"\b[a-z_]+(\.\w+)*", "x", clause), []).append(f"{f['file'].split('/')[1]}::{f['name']}")
    for fact, where in sorted(seen.items()):
        if len(where) >= 3:
            yield f"{fact}: {', '.join(where)}"


def together():
    """Functions that take the network file and its table, the types and values of an expression, or the three lent arrays of a shape."""
    groups = [("net", "table"), ("net", "tab"), ("vals", "types"), ("ins", "outs", "vars"), ("buf", "at")]
    for f in functions():
        names = re.findall(r"(\w+)\s*:", f["parameters"])
        for group in groups:
            if all(n in names for n in group):
                yield f"{f['file'].split('/')[1]}::{f['name']}: {', '.join(group)}"


def long_lists():
    for f in functions():
        names = re.findall(r"(\w+)\s*:", f["parameters"])
        if len(names) >= 6:
            yield f"{f['file'].split('/')[1]}::{f['name']}: {len(names)}"


def proof_lines(pattern):
    for name in sorted(glob.glob("crates/*/proofs/**/*.antt", recursive=True)):
        for n, line in enumerate(open(name, encoding="utf-8").read().splitlines(), 1):
            if re.search(pattern, line):
                yield f"{name}:{n}: {line.strip()[:120]}"


COUNTS = [
    ("1", "own enums", lambda: lines(r"^pub enum|^enum")),
    ("1", "functions that answer a byte", lambda: lines(r"\) -> u8$")),
    ("1", "fields that hold a number for a kind, a tag or a refusal", lambda: lines(r"^\s+(pub )?\w*.*\b(kind|tag|last|number|word): u(8|64)\b.*,$")),
    ("1", "flags that say which of two", lambda: lines(r"\b(counted|var|outs): bool")),
    ("2", "pairs of twins", twins),
    ("3", "loops by while or loop", lambda: lines(r"^\s*(while|loop)\b|\bloop \{")),
    ("4", "a byte made wide by hand", lambda: lines(r"\b(octets::)?wide\(")),
    ("4", "casts by as", lambda: lines(r"\bas (u8|u16|u32|u64|usize|i64)\b")),
    ("5", "facts that three or more functions ask for", facts),
    ("5", "functions whose parameters travel together", together),
    ("5", "functions of six parameters or more", long_lists),
    ("6", "arrays with a length of their own", lambda: lines(r"\[0u?(8|16)?; \d+\]|\[16u8; 32\]|\[0u16; \d+\]|\[[ui]\d+; \d+\]")),
    ("7", "a switch on a code", lambda: lines(r"\bmatch (o|c|tag|code)\b")),
    ("8", "lines of proofs that only give the context another name", lambda: proof_lines(r"^\s*let \w+ = [cl] in\s*$")),
    ("8", "lines of proofs over 400 characters", lambda: proof_lines(r"^.{401,}$")),
]

if __name__ == "__main__":
    wanted = sys.argv[1:]
    for point, what, find in COUNTS:
        found = list(find())
        if not wanted or point in wanted:
            print(f"{point}  {len(found):4}  {what}")
        if point in wanted:
            for place in found:
                print("      ", place)
