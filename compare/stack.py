#!/usr/bin/env python3
"""How much stack each call of the library takes at most, from the machine code of the archive.

    stack.py ARCHIVE

A function's frame is what it pushes and what it subtracts from the stack's pointer, with the return address; a call takes
the longest way through the functions that it calls. The three that call themselves on operands (the evaluator, the type check,
the check of limits) do so to a depth of 16 and are counted 17 times. Anything else that calls itself, or calls by an address, ends with status 1.
memmove and memset are the C library's, whose stack isn't counted.
"""
import re
import subprocess
import sys

RECURSIVE = {"evaluation::value_at": 17, "types::type_at": 17, "expressions::limits_at": 17}


def functions(archive):
    """Each function's frame and the functions that it calls."""
    text = subprocess.run(["objdump", "-dr", "--no-show-raw-insn", archive], capture_output=True, text=True, check=True).stdout
    found, name = {}, None
    for line in text.splitlines():
        start = re.match(r"[0-9a-f]+ <(.+)>:$", line)
        if start:
            name = start.group(1)
            found[name] = [8, set()]
        elif re.search(r"\spush\s", line):
            found[name][0] += 8
        elif (size := re.search(r"\ssub\s+\$0x([0-9a-f]+),%rsp", line)):
            found[name][0] += int(size.group(1), 16)
        elif (callee := re.search(r"R_X86_64_(?:PLT32|PC32)\s+(?:\.text\.)?(\S+?)-0x4$|\scall\s+[0-9a-f]+ <([^+>]+)>$", line)):
            found[name][1].add(callee.group(1) or callee.group(2))
        elif re.search(r"\scall\s+\*", line):
            sys.exit(f"stack.py: {name} calls by an address")
    return found


def depth(found, name, above=()):
    if name in above:
        sys.exit(f"stack.py: {name} calls itself")
    frame, callees = found[name]
    deepest = max((depth(found, c, above + (name,)) for c in callees if c in found and c != name), default=0)
    if name in callees and name not in RECURSIVE:
        sys.exit(f"stack.py: {name} calls itself")
    return frame * RECURSIVE.get(name, 1) + deepest


def main():
    if len(sys.argv) != 2:
        print("usage: stack.py ARCHIVE", file=sys.stderr)
        sys.exit(2)
    found = functions(sys.argv[1])
    for name in sorted(found):
        if name.startswith("charmolys_"):
            print(f"{name} {depth(found, name)}")


main()
