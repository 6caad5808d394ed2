#!/usr/bin/env python3
"""Brings the repository's own definitions and lemmas to one spelling: words in snake case, facts and types in camel case.

A definition or lemma that is written as twoAt or due-first becomes two_at or due_first. A dash stays between two names of
functions, as in length-joined, since it joins them; a plain word is added with an underscore. Names that begin with a capital
letter (facts, types, modules) keep it. The script goes by words: a word is changed wherever it stands in crates/, in .antt and
.rt files and in must-fail edits. Names of the library and of Rust's functions are left alone. It was run once, right after the
kit's port.py, on the tree that docs/PORT.md names.

    tools/respell.py          changes the files
    tools/respell.py --list   prints old and new names, and new names that stood somewhere already
"""
import pathlib
import re
import sys

ROOT = pathlib.Path(__file__).resolve().parent.parent
BREAK = r"\s(){}\[\],;.⌜⌝`\"@/"
WORD = re.compile(rf"[^{BREAK}]+")
SIGNATURE = re.compile(r"^\s*(?:(?:pub|unfoldable|abbrev|private|\|)\s+)*([^\s:(){}\[\],;.]+)(?:\s+[({].*[)}])?\s+:\s")
MODULE = re.compile(r"^\s*(?:pub )?(?:record|data|module|use|open|let|in|infix\w*)\b")
# The library's functions that own lemmas speak of.
LIBRARY = set("length append drop take set map tabulate filter zip mul add sub mod suc zero cond not min max get_or cons nil".split())
# Names that a file gives to what it brings in.
BROUGHT_IN = {
    "markAt": "mark_at",
    "wrapOf": "wrap_of",
    "withinOf": "within_of",
    "triedRules": "tried_rules",
    "operandsOf": "operands_of",
    "compareOf": "compare_of",
    "bitwiseOf": "bitwise_of",
    "arithmeticOf": "arithmetic_of",
    "applyOf": "apply_of",
}
# Lemmas that stood under the name that a definition gets.
BY_HAND = {name: name + "_lem" for name in "is_read own_in rule_fits sent_typed value_there box_of fits_in read_at".split()}


def files(root, *endings):
    return [f for f in sorted((root / "crates").rglob("*")) if f.suffix in endings and "out" not in f.parts and f.is_file()]


def imported(texts):
    """The names that come from a library."""
    names = set()
    for text in texts.values():
        for path, group in re.findall(r"use ([\w.+'-]+?)\.\{([^}]*)\}", text):
            if not path.startswith("Rattle.") or path.startswith("Rattle.std."):
                for item in group.split(","):
                    names.update(item.split(" as ")[0].strip().split())
    return names


def answers(path):
    """Is this the proof of one function, whose top names are goals?"""
    return path.parent.name not in ("proofs", "specs")


def defined(texts):
    names = {}
    for path, text in texts.items():
        if path.suffix != ".antt":
            continue
        for line in text.split("\n"):
            m = SIGNATURE.match(line)
            if m and not MODULE.match(line) and not line.lstrip().startswith("--"):
                if answers(path) and (" : tie." in line or path.parent.name.startswith("+")):
                    continue
                names.setdefault(m.group(1), path)
    return names


def snake(word):
    return re.sub(r"(?<=[a-z0-9'])([A-Z])", lambda m: "_" + m.group(1), word).lower()


def respelled(name, functions):
    if name[0].isupper():
        head, dash, rest = name.partition("-")
        return head + dash + (respelled(rest, functions) if rest else "")
    parts = [snake(p) for p in name.split("-")]
    if parts[-1] in ("spec", "rule"):  # a law of one function, or of one operator
        return "_".join(parts)
    made = [parts[0]]
    for part in parts[1:]:
        if made[-1] in functions and part in functions:
            made.append(part)
        else:
            made[-1] += "_" + part
    return "-".join(made)


def plan(texts):
    own = defined(texts)
    library = imported(texts)
    functions = LIBRARY | {snake(n) for n, p in own.items() if p.parent.name == "specs" and n[0].islower()}
    table = BY_HAND | BROUGHT_IN
    made = {respelled(name, functions) for name in own if "-" not in name}
    for name in own:
        if name in library or name in table or not re.match(r"^[A-Za-z]", name):
            continue
        new = respelled(name, functions)
        if "-" in name and new in made:  # a lemma that would have its function's name
            new += "_lem"
        if new != name:
            table[name] = new
    return table


def main():
    texts = {p: p.read_text() for p in files(ROOT, ".antt", ".rt", ".edit")}
    table = plan({p: t for p, t in texts.items() if p.suffix != ".edit"})
    if "--list" in sys.argv:
        free = {}
        for p, t in texts.items():
            for m in re.finditer(rf"(?<![.\w])[^{BREAK}]+", t):
                free.setdefault(m.group(0), set()).add(str(p.relative_to(ROOT)))
        new = {}
        for a, b in sorted(table.items()):
            new.setdefault(b, []).append(a)
            print(a, b, "TAKEN " + " ".join(sorted(free[b])[:3]) if b in free else "")
        for b, olds in new.items():
            if len(olds) > 1:
                print("TOGETHER", b, olds)
        return
    for path, text in texts.items():
        turned = WORD.sub(lambda m: table.get(m.group(0), m.group(0)), text)
        if turned != text:
            path.write_text(turned)


if __name__ == "__main__":
    main()
