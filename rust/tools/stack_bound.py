#!/usr/bin/env python3
"""Bounds the stack of the exported functions by the object code.

    tools/staticlib jws_ffi
    python3 rust/tools/stack_bound.py target/staticlib/libjws_ffi.a

A function's frame is its return address, what it pushes and what it takes off the stack pointer, and how far below that it reaches (one that
calls nothing may use 128 bytes there); a call path takes the sum of its frames. Of an archive for x86-64 both are read off the instructions; of an object (not an archive) for another processor the frames are what
the compiler says of them, in its sections .stack_sizes (-fstack-size-section), and the calls its relocations.

The readers of values, arrays and objects call one another: a round through them takes a level of the depth, of which there are sixteen, and a
path past the last round may still enter each of them before the limit refuses it. memset and memcpy are the caller's and are not counted.
"""
import re
import subprocess
import sys

from elf import FUNCTION, REL, RELA, SECTION, Object, leb128

ROUNDS = 16


def read_sizes(path):
    """The same as `read`, of an ELF object with sections .stack_sizes, a function in each section of text."""
    elf = Object(path)
    function = {index: section.name.removeprefix(".text.") for index, section in enumerate(elf.sections) if section.name.startswith(".text.")}
    frames, calls = {}, {name: set() for name in function.values()}
    for section in elf.sections:
        if section.name == ".stack_sizes":  # the function's address, and its frame
            frames[function[section.link]] = leb128(elf.data, section.offset + (8 if elf.wide else 4))[0]
        elif section.kind in (REL, RELA) and section.info in function:
            for symbol in elf.relocated(section):
                if symbol.section in function and (symbol.kind == FUNCTION or symbol.kind == SECTION and symbol.section != section.info):
                    calls[function[section.info]].add(function[symbol.section])
    if missing := set(calls) - set(frames):
        sys.exit(f"{path}: no frame of {', '.join(sorted(missing))}")
    return frames, calls


def read(archive):
    """The frame of every function, and the functions that each one calls."""
    frames, calls, below, current = {}, {}, {}, None
    text = subprocess.run(["objdump", "-dr", "--no-show-raw-insn", archive], check=True, capture_output=True, text=True).stdout
    for line in text.splitlines():
        if found := re.match(r"[0-9a-f]+ <([^>]+)>:", line):
            current = found[1]
            frames[current], calls[current], below[current] = 8, set(), 0
        elif found := re.search(r"\tsub +\$0x([0-9a-f]+),%rsp", line):
            frames[current] += int(found[1], 16)
        elif re.search(r"\tpush ", line):
            frames[current] += 8
        elif found := re.search(r"\t(?:call|jmp) +[0-9a-f]+ <([^>+]+)>", line):
            calls[current].add(found[1])
        elif found := re.search(r"R_X86_64_PL\w*\s+(?:\.text\.)?(\S+?)(?:[-+]0x[0-9a-f]+)?$", line):
            calls[current].add(found[1])
        if found := re.search(r"-0x([0-9a-f]+)\(%rsp", line):
            below[current] = max(below[current], int(found[1], 16))
    frames = {name: frame + below[name] for name, frame in frames.items()}
    return frames, {name: {callee for callee in callees if callee in frames} for name, callees in calls.items()}


def reached(calls, start):
    seen, left = set(), [start]
    while left:
        for callee in calls[left.pop()] - seen:
            seen.add(callee)
            left.append(callee)
    return seen


def heaviest_round(frames, calls, cycle):
    """The greatest sum of frames on a way from a function back to itself that enters no function twice."""
    best = 0
    for start in cycle:
        left = [(start, frozenset([start]), frames[start])]
        while left:
            at, seen, weight = left.pop()
            if start in calls[at]:
                best = max(best, weight)
            left += [(to, seen | {to}, weight + frames[to]) for to in calls[at] & cycle - seen]
    return best


def bound(frames, calls, name):
    """The deepest path from a function on. A cycle that is entered counts by its heaviest round for each round, and by all its frames once."""
    cycle = {other for other in reached(calls, name) if name in reached(calls, other)}
    here = ROUNDS * heaviest_round(frames, calls, cycle) + sum(frames[member] for member in cycle) if cycle else frames[name]
    inside = cycle or {name}
    below = [bound(frames, calls, callee) for member in inside for callee in calls[member] - inside]
    return here + max(below, default=0)


def bounds(path):
    """The exported functions, each with its bound in bytes."""
    with open(path, "rb") as file:
        frames, calls = read_sizes(path) if file.read(4) == b"\x7fELF" else read(path)
    return {name: bound(frames, calls, name) for name in sorted(frames) if "::" not in name}


if __name__ == "__main__":
    for exported, most in bounds(sys.argv[1]).items():
        print(exported, most, "bytes")
