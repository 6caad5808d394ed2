#!/usr/bin/env python3
"""Turns network.txt and tokens.txt of each folder named into network.bin and tokens.bin.

    assemble.py FOLDER...              writes the .bin files beside the texts
    assemble.py --into DIR FOLDER...   writes them to DIR/NAME instead

README.md describes the text. A mistake is told in one line, with its file and line, and ends with status 1, a wrong call
with status 2; limits that concern a whole network (numbers of things, lengths, depth, the ends of wires) are left to the bench.
"""
import os
import re
import sys

BOOL, COUNT = (0, 1), (2, 5)            # a type is (kind, p)
KINDS = {"bool": 0, "signed": 1, "unsigned": 2}
LEVELS = [{"||": 27}, {"&&": 26}, {"=": 20, "!=": 21, "<": 22, "<=": 23, ">": 24, ">=": 25},
          {"+": 10, "-": 11}, {"*": 12, "/": 13, "mod": 14},
          {"<<": 18, ">>": 19, "land": 15, "lor": 16, "lnand": 17}]     # loosest first
WORD = re.compile(r"\s*(\d+|[A-Za-z_]\w*|'<|'>|->|<<|>>|<=|>=|!=|&&|\|\||\S)")


class Bad(Exception):
    pass


def is_number(word):
    return word.isascii() and word.isdigit()


def field(tag, body):
    if len(body) > 65535:
        raise Bad("more bytes than the two of a field's length can tell")
    return bytes([tag]) + len(body).to_bytes(2, "big") + body


def four(value):
    return (value & 0xFFFFFFFF).to_bytes(4, "big")


def show(t):
    if t is None:
        return "a number without a type"
    return "bool" if t == BOOL else f"{('', 'signed', 'unsigned', 'dc signed', 'dc unsigned')[t[0]]} {t[1]}"


def carried(t):
    """The type of a value on a wire of type t: that of its data on a dc wire."""
    return (t[0] - 2, t[1]) if t[0] > 2 else t


def fitting(value, given, want):
    """The four bytes of a constant (of type `given`, None for a bare number) where type `want` is wanted."""
    if (given or want) != want or (want == BOOL and given is None):
        raise Bad(f"{show(given)} where {show(want)} is wanted")
    low, high = (-(1 << want[1] - 1), (1 << want[1] - 1) - 1) if want[0] == 1 else (0, (1 << want[1]) - 1)
    if not low <= value <= high:
        raise Bad(f"{value} is outside {show(want)}")
    return four(value)


# An expression is ("literal", value, type), ("input", number, type), ("variable", number, type), ("cast", operand, type),
# ("if", condition, yes, no) or ("op", code, operand, ...). A literal's type is None if it takes that of its place.

def type_of(e):
    if e[0] in ("literal", "input", "variable", "cast"):
        return e[2]
    if e[0] == "if":
        return type_of(e[2]) or type_of(e[3])
    if e[1] in (4, 26, 27) or 20 <= e[1] <= 25:
        return BOOL
    return type_of(e[2]) or (type_of(e[3]) if e[1] not in (5, 18, 19) else None)


def code(e, want):
    """The bytes of an expression where a value of type `want` is wanted."""
    if want is None:
        raise Bad("a number needs a type here, such as (1 : signed 8)")
    if e[0] == "literal":
        return bytes([0, *want]) + fitting(e[1], e[2], want)
    if type_of(e) not in (want, None):
        raise Bad(f"{show(type_of(e))} where {show(want)} is wanted")
    if e[0] in ("input", "variable"):
        return bytes([1 if e[0] == "input" else 2, e[1]])
    if e[0] == "cast":
        return bytes([3, *e[2]]) + code(e[1], type_of(e[1]))
    if e[0] == "if":
        return bytes([30]) + code(e[1], BOOL) + code(e[2], want) + code(e[3], want)
    if 20 <= e[1] <= 25:
        want = type_of(e[2]) or type_of(e[3])
    wants = [want, COUNT if e[1] in (18, 19) else want]
    return bytes([e[1]]) + b"".join(code(operand, w) for operand, w in zip(e[2:], wants))


class Line:
    """One line of a text, read word by word."""

    def __init__(self, text, consts):
        self.words, self.consts, self.names = WORD.findall(text), consts, {}

    def see(self):
        return self.words[0] if self.words else "the line's end"

    def take(self, *wanted):
        """Takes the next word if it is one of those wanted."""
        return self.words.pop(0) if self.words and self.words[0] in wanted else None

    def need(self, *wanted):
        if not self.words or (wanted and self.words[0] not in wanted):
            raise Bad(f"`{' or '.join(wanted) or 'a word'}` is wanted, not `{self.see()}`")
        return self.words.pop(0)

    def name(self):
        if not self.words or not re.match(r"[A-Za-z]", self.see()):
            raise Bad(f"a name is wanted, not `{self.see()}`")
        return self.need()

    def constant(self):
        """A number, true, false or a const, with its type (None for a bare number)."""
        sign = -1 if self.take("-") else 1
        word = self.see()
        if not is_number(word) and (sign < 0 or word not in self.consts):
            raise Bad(f"a value or a known name is wanted, not `{word}`")
        self.need()
        return (sign * int(word), None) if is_number(word) else self.consts[word]

    def number(self, low, high, what):
        value = self.constant()[0]
        if not low <= value <= high:
            raise Bad(f"{what} is a number from {low} to {high}")
        return value

    def type(self, *dc):
        add = 2 if self.take(*dc) else 0
        kind = KINDS[self.need(*list(KINDS)[1 if add else 0:])]
        return (kind + add, self.number(1, 30, "a precision") if kind else 1)

    def listed(self, one, *stops):
        """Calls `one` for each part of a list with commas, which may be empty where a stop word or the end follows."""
        while self.words and self.see() not in stops:
            one()
            if not self.take(","):
                break

    def expression(self, level=0):
        if level == 0 and self.take("if"):
            condition, _, yes, _, no = self.expression(), self.need("then"), self.expression(), self.need("else"), self.expression()
            return ("if", condition, yes, no)
        if level == len(LEVELS):
            return self.operand()
        left = self.expression(level + 1)
        while (word := self.take(*LEVELS[level])):
            left = ("op", LEVELS[level][word], left, self.expression(level + 1))
            if level == 2:
                break                   # comparisons don't chain
        return left

    def operand(self):
        if (word := self.take("not", "lnot")):
            return ("op", 4 if word == "not" else 5, self.operand())
        if self.take("("):
            e = self.expression()
            if self.take(":"):
                t = self.type()
                e = ("literal", e[1], t) if e[0] == "literal" and e[2] is None else ("cast", e, t)
            self.need(")")
            return e
        return self.names[self.need()] if self.see() in self.names else ("literal", *self.constant())


class Box:
    def __init__(self):
        self.ins, self.outs, self.vars, self.rules = {}, {}, {}, b""      # name: (wire or initial value, type)

    def rule(self, line):
        line.names = {n: ("variable", j, t) for j, (n, (_, t)) in enumerate(self.vars.items())}
        patterns = {n: b"\0" for n in [*self.ins, *self.vars]}
        actions = {n: b"\0" for n in [*self.outs, *self.vars]}
        places = {**self.ins, **self.outs, **self.vars}

        def part(parts, filled):
            name = line.name()
            if name not in parts:
                raise Bad(f"`{name}` has no place here")
            line.need(":")
            t = places[name][1]
            if line.take("_"):
                return
            mark = (line.take("'<", "'>") or line.need("'")) if t[0] > 2 else ""
            parts[name] = {"'<": b"\3", "'>": b"\4"}.get(mark) or filled(name, t, carried(t))

        def pattern(name, t, value):
            dc = 4 if t[0] > 2 else 0
            if name in self.ins and re.match(r"[A-Za-z]", line.see()) and line.see() not in line.consts:
                line.names[line.need()] = ("input", list(self.ins).index(name), value)
                return bytes([1 + dc])
            return bytes([2 + dc]) + fitting(*line.constant(), value)

        def action(name, t, value):
            return bytes([5 if t[0] > 2 else 1]) + code(line.expression(), value)

        line.listed(lambda: part(patterns, pattern), "when", "->")
        guard = code(line.expression() if line.take("when") else ("literal", 1, BOOL), BOOL)
        line.need("->")
        line.listed(lambda: part(actions, action))
        self.rules += field(3, b"".join(patterns.values()) + guard + b"".join(actions.values()))

    def bytes(self):
        ends = [w for w, _ in [*self.ins.values(), *self.outs.values()]]
        head = bytes([len(self.ins), len(self.outs), len(self.vars), *ends])
        return field(2, head + b"".join(bytes(t) + v for v, t in self.vars.values())) + self.rules


class Network:
    def __init__(self):
        self.consts = {"true": (1, BOOL), "false": (0, BOOL)}
        self.wires, self.boxes, self.inputs, self.outputs = {}, [], {}, b""

    def line(self, text):
        line = Line(text, self.consts)
        word = line.need("const", "wire", "box", "in", "out", "var", "|", "input", "output")
        if word in ("in", "out", "var", "|") and not self.boxes:
            raise Bad(f"`{word}` before any box")

        def wire(name):
            if name not in self.wires:
                raise Bad(f"unknown wire `{name}`")
            return self.wires[name][:2]

        def new(known):
            if line.see() in known:
                raise Bad(f"`{line.see()}` is there already")
            if word != "const" and len(known) == 255:
                raise Bad("more of a thing than one byte can count")
            return line.name()

        def port():
            box, (ports, link) = self.boxes[-1], {"in": ("ins", "from"), "out": ("outs", "to")}[word]
            name = new({**box.ins, **box.outs})
            line.need(link)
            getattr(box, ports)[name] = wire(line.name())

        if word == "const":
            name = new(self.consts)
            line.need("=")
            self.consts[name] = line.constant()
        elif word == "wire":
            name, _, t, _ = new(self.wires), line.need(":"), line.type("dc"), line.need("cap")
            self.wires[name] = (len(self.wires), t, line.number(1, 64, "a capacity"))
        elif word == "box":
            line.name()
            self.boxes.append(Box())
        elif word in ("in", "out"):
            line.listed(port)
        elif word == "var":
            box = self.boxes[-1]
            name, _, t, _ = new({**box.ins, **box.outs, **box.vars}), line.need(":"), line.type(), line.need("=")
            box.vars[name] = (fitting(*line.constant(), t), t)
        elif word == "|":
            self.boxes[-1].rule(line)
        elif word == "input":
            name = new(self.inputs)
            self.inputs[name] = wire(name)
        else:
            w, _ = wire(line.name())[0], line.need("room")
            self.outputs += field(5, bytes([w]) + line.number(1, 1000, "a room").to_bytes(2, "big"))
        if line.words:
            raise Bad(f"`{line.see()}` is too much")

    def bytes(self):
        return (b"".join(field(1, bytes([*t, cap])) for _, t, cap in self.wires.values())
                + b"".join(box.bytes() for box in self.boxes)
                + b"".join(field(4, bytes([w])) for w, _ in self.inputs.values()) + self.outputs)

    def row(self, text, rows):
        """A row of tokens for the next input, put into `rows`."""
        line, name = Line(text, {k: self.consts[k] for k in ("true", "false")}), [*self.inputs, None][len(rows)]
        if name is None or not line.take(name) or not line.take(":"):
            raise Bad("a row is an input's wire, a colon and its tokens, in the network's order of inputs")
        t, body = self.inputs[name][1], b""
        while line.words:
            mark = (line.take("'<", "'>") or line.need("'")) if t[0] > 2 else ""
            tag = ("", "'<", "'>", "'").index(mark)
            body += bytes([tag]) + (four(0) if tag in (1, 2) else fitting(*line.constant(), carried(t)))
        rows.append(field(32, body))


def each(path, do):
    """Calls `do` for each line, without its comment; a line that ends in a comma goes on in the next."""
    with open(path, encoding="utf-8", errors="replace") as f:
        texts, held = [text.split("--")[0].rstrip() for text in f], ""
    for number, text in enumerate(texts, 1):
        held += text + " "
        if held.strip() and (number == len(texts) or not held.rstrip().endswith(",")):
            try:
                do(held)
            except Bad as e:
                sys.exit(f"{path}:{number}: {e}")
            except RecursionError:
                sys.exit(f"{path}:{number}: too many brackets inside each other")
            held = ""


def assemble(folder, into):
    """Makes the two files of a folder."""
    network, rows, path = Network(), [], os.path.join(folder, "tokens.txt")
    each(os.path.join(folder, "network.txt"), network.line)
    each(path, lambda text: network.row(text, rows))
    if len(rows) < len(network.inputs):
        sys.exit(f"{path}: no row for `{list(network.inputs)[len(rows)]}`")
    target = os.path.join(into, os.path.basename(os.path.normpath(folder))) if into else folder
    os.makedirs(target, exist_ok=True)
    for name, data in (("network.bin", network.bytes()), ("tokens.bin", b"".join(rows))):
        with open(os.path.join(target, name), "wb") as f:
            f.write(data)


def main(folders):
    into = None
    if folders[:1] == ["--into"]:
        into, folders = (folders[1:2] or [None])[0], folders[2:]
    if not folders or any(f.startswith("--") for f in folders):
        print("usage: assemble.py [--into DIR] FOLDER...", file=sys.stderr)
        sys.exit(2)
    for folder in folders:
        try:
            assemble(folder, into)
        except OSError as e:
            sys.exit(f"{e.filename or folder}: {e.strerror}")


if __name__ == "__main__":
    main(sys.argv[1:])
