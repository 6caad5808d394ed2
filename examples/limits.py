#!/usr/bin/env python3
"""Makes the folders of limits/: INC at the edge of a limit and just past it, and one file for each number that a file can
be refused with. Each folder gets network.bin, tokens.bin and expected.txt, what the run program prints.

    limits.py          writes limits/
    limits.py --rows   writes the rows of all examples to standard output: two-byte lengths of the network file and of the
                       token file, then both, an example after another, these after the networks of the other folders

What is expected is written down here by hand, from document 01: no program made it."""
import glob
import os
import sys

HERE = os.path.dirname(os.path.abspath(__file__))
WIRE = bytes([1, 0, 3, 1, 8, 1])                       # signed 8, capacity 1
BOX = bytes([2, 0, 5, 1, 1, 0, 0, 1])                  # one input from wire 0, one output to wire 1
INPUT, OUTPUT = bytes([4, 0, 1, 0]), bytes([5, 0, 3, 1, 0, 8])
TOKENS = bytes([0x20, 0, 15]) + b"".join(bytes([0, 0, 0, 0, v]) for v in (1, 2, 127))
DONE = "outcome idle cycles 7\nout 0: 2 3 -128\n"


def wire(precision, capacity):
    return bytes([1, 0, 3, 1, precision, capacity])


def rule(operators):
    """i:x -> o: x + 1 + .. + 1, that many operators one inside the other; its depth is one more."""
    one = bytes([0, 1, 8, 0, 0, 0, 1])
    sum_ = bytes([10]) * operators + bytes([1, 0]) + one * operators
    body = bytes([1]) + bytes([0, 0, 1, 0, 0, 0, 1]) + bytes([1]) + sum_
    return bytes([3]) + len(body).to_bytes(2, "big") + body


def inc(first=WIRE, second=WIRE, does=None, end=OUTPUT):
    return first + second + BOX + (does or rule(1)) + INPUT + end


CASES = [
    ("1_cut", inc()[:-1], TOKENS, "refused 1 place 46\n"),                      # the output field, which is cut short
    ("2_capacity_0", inc(first=wire(8, 0)), TOKENS, "refused 2 place 0\n"),
    ("2_capacity_65", inc(first=wire(8, 65)), TOKENS, "refused 2 place 0\n"),
    ("2_depth_17", inc(does=rule(16)), TOKENS, "refused 2 place 20\n"),         # the rule's field
    ("2_length_16385", inc() + bytes(16385 - 52), TOKENS, "refused 2 place 0\n"),
    ("2_room_0", inc(end=bytes([5, 0, 3, 1, 0, 0])), TOKENS, "refused 2 place 46\n"),
    ("3_no_reader", inc(end=b""), TOKENS, "refused 3 place 1\n"),               # wire 1
    ("4_another_type", inc(second=wire(9, 1)), TOKENS, "refused 4 place 20\n"), # the rule sends signed 8
    ("5_no_tokens", inc(), b"", "refused 5 place 0\n"),
    ("5_token_too_large", inc(), TOKENS[:-1] + bytes([128]), "refused 5 place 0\n"),
    ("good_capacity_64", inc(first=wire(8, 64)), TOKENS, "outcome idle cycles 7\nout 0: 2 3 -128\n"),
    ("good_depth_16", inc(does=rule(15)), TOKENS, "outcome idle cycles 7\nout 0: 16 17 -114\n"),
]


def main():
    if sys.argv[1:] == ["--rows"]:
        folders = sorted(glob.glob(os.path.join(HERE, "*", "network.txt"))) + sorted(glob.glob(os.path.join(HERE, "limits", "*", "network.bin")))
        for path in folders:
            files = [open(os.path.join(os.path.dirname(path), n), "rb").read() for n in ("network.bin", "tokens.bin")]
            sys.stdout.buffer.write(b"".join(len(f).to_bytes(2, "big") for f in files) + b"".join(files))
        return
    for name, network, tokens, expected in CASES:
        folder = os.path.join(HERE, "limits", name)
        os.makedirs(folder, exist_ok=True)
        open(os.path.join(folder, "network.bin"), "wb").write(network)
        open(os.path.join(folder, "tokens.bin"), "wb").write(tokens)
        open(os.path.join(folder, "expected.txt"), "w").write(expected)


main()
