#!/usr/bin/env python3
"""A second, slow reading of document 01: runs network.bin and tokens.bin of a folder and prints what the run program prints.

    simulate.py FOLDER [BUDGET]            the budget is 1,000 unless it is given
    simulate.py --watch FOLDER [BUDGET]    first a line a cycle: the marked processes and the wires' counts after it

A wrong call ends with a line and status 2, a folder that isn't there with status 1.

It shares nothing with assemble.py or with the bench, and is only there to check expected.txt. It takes files to be good:
where they can't be read it prints `refused`, without the number and place that the bench gives.
"""
import os
import sys


class Fault(Exception):
    pass


class Reader:
    def __init__(self, data):
        self.data, self.at = data, 0

    def byte(self):
        self.at += 1
        return self.data[self.at - 1]

    def stretch(self, n):
        if self.at + n > len(self.data):
            raise IndexError
        self.at += n
        return self.data[self.at - n:self.at]

    def value(self):
        return int.from_bytes(self.stretch(4), "big", signed=True)

    def expression(self):
        c = self.byte()
        if c == 0:
            return (c, self.byte(), self.byte(), self.value())
        if c in (1, 2):
            return (c, self.byte())
        if c == 3:
            return (c, self.byte(), self.byte(), self.expression())
        if c in (4, 5):
            return (c, self.expression())
        if 10 <= c <= 27:
            return (c, self.expression(), self.expression())
        if c == 30:
            return (c, self.expression(), self.expression(), self.expression())
        raise ValueError

    def pattern(self):
        c = self.byte()
        return (c, self.value() if c in (2, 6) else 0)

    def action(self):
        c = self.byte()
        return (c, self.expression() if c in (1, 5) else None)


def fields(data):
    r = Reader(data)
    while r.at < len(data):
        tag = r.byte()
        yield tag, Reader(r.stretch(int.from_bytes(r.stretch(2), "big")))


class Network:
    def __init__(self, data):
        self.wires, self.boxes, self.inputs, self.outputs = [], [], [], []
        last = 0
        for tag, r in fields(data):
            if tag < last and (last, tag) != (3, 2):
                raise ValueError                                # wrong order
            last = tag
            if tag == 1:
                self.wires.append((r.byte(), r.byte(), r.byte()))
            elif tag == 2:
                i, o, v = r.byte(), r.byte(), r.byte()
                box = {"in": list(r.stretch(i)), "out": list(r.stretch(o)), "vars": [], "rules": []}
                box["vars"] = [(r.byte(), r.byte(), r.value()) for _ in range(v)]
                self.boxes.append(box)
            elif tag == 3:
                box = self.boxes[-1]
                box["rules"].append(([r.pattern() for _ in box["in"]], [r.pattern() for _ in box["vars"]], r.expression(),
                                     [r.action() for _ in box["out"]], [r.action() for _ in box["vars"]]))
            elif tag == 4:
                self.inputs.append(r.byte())
            elif tag == 5:
                self.outputs.append((r.byte(), int.from_bytes(r.stretch(2), "big")))
            else:
                raise ValueError
            if r.at != len(r.data):
                raise ValueError
        writers = sorted([w for b in self.boxes for w in b["out"]] + self.inputs)
        readers = sorted([w for b in self.boxes for w in b["in"]] + [w for w, _ in self.outputs])
        if not writers == readers == list(range(len(self.wires))):
            raise ValueError


def wrap(kind, p, v):
    v %= 1 << p
    return v - (1 << p) if kind == 1 and v >= 1 << (p - 1) else v


def evaluate(e, ins, variables):
    """The value of an expression as (kind, p, value). `ins` and `variables` hold such triples."""
    c = e[0]
    if c == 0:
        return e[1:]
    if c == 1:
        return ins[e[1]]
    if c == 2:
        return variables[e[1]]
    if c == 30:
        return evaluate(e[2] if evaluate(e[1], ins, variables)[2] else e[3], ins, variables)
    kind, p, a = evaluate(e[3] if c == 3 else e[1], ins, variables)
    if c == 3:
        return (e[1], e[2], wrap(e[1], e[2], a))
    if c == 4:
        return (0, 1, 1 - a)
    if c == 5:
        return (kind, p, wrap(kind, p, ~a))
    b = evaluate(e[2], ins, variables)[2]
    if c >= 20:
        return (0, 1, int((a == b, a != b, a < b, a <= b, a > b, a >= b, a and b, a or b)[c - 20] != 0))
    if c in (13, 14) and b == 0:
        raise Fault
    if c == 10:
        v = a + b
    elif c == 11:
        v = a - b
    elif c == 12:
        v = a * b
    elif c == 13:
        v = abs(a) // abs(b) * (1 if (a < 0) == (b < 0) else -1)
    elif c == 14:
        v = abs(a) % abs(b) * (-1 if a < 0 else 1)
    elif c == 15:
        v = a & b
    elif c == 16:
        v = a | b
    elif c == 17:
        v = ~(a & b)
    elif c == 18:
        v = a << b
    else:
        v = (a % (1 << p)) >> b
    return (kind, p, wrap(kind, p, v))


def ready(pattern, queue):
    code, constant = pattern
    if code == 0:
        return True
    if not queue:
        return False
    tag, value = queue[0]
    return {1: tag == 0, 2: tag == 0 and value == constant, 3: tag == 1, 4: tag == 2,
            5: tag == 3, 6: tag == 3 and value == constant}[code]


class Run:
    def __init__(self, network, tokens):
        self.net = network
        self.wires = [[] for _ in network.wires]
        self.vars = [list(b["vars"]) for b in network.boxes]
        self.left = []
        for tag, r in fields(tokens):
            if tag != 32 or len(r.data) % 5:
                raise ValueError
            self.left.append([(r.byte(), r.value()) for _ in range(len(r.data) // 5)])
        if len(self.left) != len(network.inputs):
            raise ValueError
        self.got = [[] for _ in network.outputs]

    def full(self, w):
        return len(self.wires[w]) >= self.net.wires[w][2]

    def firing(self, k):
        """What box k would do now: (wires it takes from, what it puts, its new variables); None if it isn't marked."""
        box = self.net.boxes[k]
        for patterns, wanted, guard, acts, updates in box["rules"]:
            if not all(ready(pat, self.wires[w]) for pat, w in zip(patterns, box["in"])):
                continue
            if not all(c == 0 or v[2] == x for (c, x), v in zip(wanted, self.vars[k])):
                continue
            if any(c != 0 and self.full(w) for (c, _), w in zip(acts, box["out"])):
                continue
            ins = []
            for w in box["in"]:
                kind, p, _ = self.net.wires[w]
                ins.append((kind - 2 if kind > 2 else kind, p, self.wires[w][0][1] if self.wires[w] else None))
            if not evaluate(guard, ins, self.vars[k])[2]:
                continue
            puts = []
            for (c, e), w in zip(acts, box["out"]):
                if c:
                    puts.append((w, {1: 0, 3: 1, 4: 2, 5: 3}[c], evaluate(e, ins, self.vars[k])[2] if e else 0))
            after = [evaluate(e, ins, self.vars[k]) if c else v for (c, e), v in zip(updates, self.vars[k])]
            return ([w for (c, _), w in zip(patterns, box["in"]) if c], puts, after)
        return None

    def mark(self):
        """A list of what every marked process will do, worked out on the state at the cycle's start."""
        marks, b, i = [], len(self.net.boxes), len(self.net.inputs)
        for k in range(b):
            try:
                f = self.firing(k)
            except Fault:
                raise Fault(k)
            if f:
                marks.append((k, f))
        marks += [(b + k, None) for k, w in enumerate(self.net.inputs) if self.left[k] and not self.full(w)]
        marks += [(b + i + k, None) for k, (w, room) in enumerate(self.net.outputs) if self.wires[w] and len(self.got[k]) < room]
        return marks

    def fire(self, process, f):
        b, i = len(self.net.boxes), len(self.net.inputs)
        if process < b:
            for w in f[0]:
                self.wires[w].pop(0)
            for w, tag, value in f[1]:
                self.wires[w].append((tag, value))
            self.vars[process] = f[2]
        elif process < b + i:
            self.wires[self.net.inputs[process - b]].append(self.left[process - b].pop(0))
        else:
            self.got[process - b - i].append(self.wires[self.net.outputs[process - b - i][0]].pop(0))

    def run(self, budget, watch=False):
        cycles = 0
        while True:
            try:
                marks = self.mark()
            except Fault as fault:
                return f"outcome fault cycles {cycles} box {fault.args[0]}"
            if not marks:
                return f"outcome idle cycles {cycles}"
            if cycles == budget:
                return f"outcome spent cycles {cycles}"
            for process, f in marks:
                self.fire(process, f)
            cycles += 1
            if watch:
                print(f"cycle {cycles} fired {' '.join(str(k) for k, _ in marks)} wires {' '.join(str(len(w)) for w in self.wires)}")


def printed(network, tokens, budget=1000, watch=False):
    try:
        run = Run(Network(network), tokens)
        first = run.run(budget, watch)
        words = {0: "{}", 1: "'<", 2: "'>", 3: "'{}"}
        return [first] + [" ".join([f"out {k}:"] + [words[t].format(v) for t, v in got]) for k, got in enumerate(run.got)]
    except (IndexError, ValueError, KeyError, TypeError, RecursionError):
        return ["refused"]


def content(folder, name):
    try:
        with open(os.path.join(folder, name), "rb") as f:
            return f.read()
    except OSError:
        return b""


def main(args):
    watch = args[:1] == ["--watch"]
    args = args[watch:]
    if len(args) not in (1, 2) or args[0].startswith("--") or not (args[1:] or ["0"])[0].isdecimal():
        print("usage: simulate.py [--watch] FOLDER [BUDGET]", file=sys.stderr)
        sys.exit(2)
    if not os.path.isdir(args[0]):
        sys.exit(f"simulate.py: {args[0]} is no folder")
    budget = int(args[1]) if len(args) > 1 else 1000
    print("\n".join(printed(content(args[0], "network.bin"), content(args[0], "tokens.bin"), budget, watch)))


if __name__ == "__main__":
    main(sys.argv[1:])
