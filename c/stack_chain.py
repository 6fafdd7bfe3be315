#!/usr/bin/env python3
"""Reads off the machine code of x86-64 how much stack each call may take at most, and by which functions.

usage: stack_chain.py LIBRARY      libiface_c.a; it needs objdump

A function takes its return address, the registers that it pushes, and what it subtracts from the stack pointer. One that calls no other
may use 128 octets below that. What memcpy and its like take, and the heap, isn't counted. It fails where a function may call itself, or
one that isn't named.
"""
import re
import subprocess
import sys

FUNCTION = re.compile(r"^[0-9a-f]+ <(.*)>:$")
CALLED = re.compile(r"R_X86_64_(?:PLT32|PC32)\s+(?:\.text\.(?:unlikely\.)?)?(.*?)-0x4$")
BELOW = re.compile(r"-0x([0-9a-f]+)\(%rsp\)")
STEP = 0xC00


def read(library):
    """Returns the stack that each function takes by itself, and what it calls."""
    own, below, calls, name, before = {}, {}, {}, None, ""
    command = ["objdump", "-dr", "--no-show-raw-insn", library]
    for line in subprocess.run(command, capture_output=True, text=True, check=True).stdout.splitlines():
        if m := FUNCTION.match(line):
            name = m[1]
            own[name], below[name], calls[name] = 8, 0, set()
        elif re.search(r"\tpush ", line):
            own[name] += 8
        elif m := re.search(r"\tsub +\$0x([0-9a-f]+),%rsp", line):
            own[name] += int(m[1], 16)
        elif (m := re.search(r"\tsub +\$0x([0-9a-f]+),%r11", line)) and re.search(r"\tmov +%rsp,%r11", before):
            # A long frame is taken step by step, until the stack pointer is there: the first step is counted by itself.
            own[name] += int(m[1], 16) - STEP
        elif re.search(r"\tcall +\*", line):
            sys.exit(f"{name}: calls what isn't named: {line.strip()}")
        elif m := CALLED.search(line):
            calls[name].add(m[1])
        elif m := BELOW.search(line):
            below[name] = max(below[name], -(-int(m[1], 16) // 8) * 8)
        before = line
    return {name: own[name] + below[name] for name in own}, calls


def deepest(name, own, calls, known, above=()):
    """Returns the most that a call of a function takes, and the chain of functions that takes it."""
    if name in above:
        sys.exit(f"{name} may call itself")
    if name not in known:
        below = [deepest(it, own, calls, known, (*above, name)) for it in calls[name] if it in own]
        most, chain = max(below, default=(0, []))
        known[name] = own[name] + most, [(own[name], name), *chain]
    return known[name]


def main():
    own, calls = read(sys.argv[1])
    known = {}
    for name in sorted(it for it in own if re.fullmatch(r"iface_[a-z_]+", it)):
        most, chain = deepest(name, own, calls, known)
        print(f"bound:{name} {most} " + ", ".join(f"{n} {it}" for n, it in chain))


main()
