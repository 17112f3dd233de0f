#!/usr/bin/env python3
"""Compiles the proved library for the processors of nodes: `make nodes`.

    python3 nodes/build.py [NAME...]    all targets, or those of these names; a line for each with its size and what it calls

The kit compiles a module of LLVM, made from the proved MIR, for x86-64. Here that very module is compiled for other processors, by the
kit's own tools; one answer in it that its proof leaves open is given for each (RUNS_PAY). What is written: target/nodes/NAME/libjws.a, and
target/nodes/jws.wasm.

Nothing is guessed. The build ends with a sentence where the kit calls its compiler otherwise than known; where the module's text doesn't
compile to the kit's own object, byte for byte; where the module has another form than module.py knows; where the answer isn't left open, or
isn't found once; where include/jws.h, read for a target, declares a function otherwise than the module defines it; and where an archive calls
a function that isn't listed.
"""
import os
import re
import sys
from dataclasses import dataclass

from kit import COMMON_WORDS, CRATE, HERE, OUT, ROOT, Kit, contents, proved_module, run
from module import PROBES, Module, Refused

sys.path.append(os.path.join(ROOT, "rust", "tools"))
import elf  # noqa: E402
from stack_bound import bounds  # noqa: E402

INCLUDE = os.path.join(ROOT, "include")

# Of the kit's words, what any target is compiled with. The module names no target then, and is given one.
WORDS = [*COMMON_WORDS, "-Wno-override-module"]

# Loops aren't unrolled. A node's memory is small, and unrolled they take 5,500 bytes more on a Cortex-M4 for a seventh fewer instructions; and
# the comparison of the signature is a loop: unrolled, it became a chain of branches for riscv64gc, with an exit at the first difference.
SMALL = ["-O3", "-fno-unroll-loops"]
SHARED = [*SMALL, "-fPIC"]

MEMORY = {"memcpy", "memset"}
ARM_MEMORY = {f"__aeabi_mem{what}{alignment}" for what in ("cpy", "set", "clr") for alignment in ("", "4", "8")}
ARM_LONG = {"__aeabi_lmul", "__aeabi_uldivmod"}

# No function takes or gives a floating-point number: programs of either floating-point convention may link the archive.
ARM_EITHER_FLOAT = 'module asm ".eabi_attribute 28, 3" ; Tag_ABI_VFP_args: compatible with both\n'


# The one answer that differs: whether SHA-256 takes eight blocks in a run. That pays where the compiler has wide instructions, and costs text
# and instructions where it has none. The function that says it promises nothing of its answer, so that every other is proved for both.
RUNS_SOURCE = os.path.join(ROOT, "crates", "sha256", "src", "runs.rt")
RUNS_OPEN = "fn runs_pay() -> bool {\n    true\n}\n"
RUNS_PAY = re.compile(r'^(define internal noundef zeroext i1 @"sha256::runs::runs_pay"\(\) #0 \{\n(?: .*\n|\w+:\n)*? .*\bi1 )true\b', re.M)


@dataclass(frozen=True)
class Target:
    """A processor: the compiler's words, and the functions that an archive for it may call."""

    name: str
    processors: str
    words: list
    calls: set
    added: str = ""  # to the module's text
    probe: bool = False  # whether functions touch each page of a large frame, as the kit has it for x86-64
    wide: bool = False  # whether it has wide instructions, so that runs pay


TARGETS = [
    Target("thumbv6m", "Cortex-M0, M0+, M23", ["--target=thumbv6m-none-eabi", *SMALL], ARM_MEMORY | ARM_LONG, ARM_EITHER_FLOAT),
    Target("thumbv7m", "Cortex-M3", ["--target=thumbv7m-none-eabi", *SMALL], ARM_MEMORY, ARM_EITHER_FLOAT),
    Target("thumbv7em", "Cortex-M4, M7", ["--target=thumbv7em-none-eabi", "-mfpu=none", *SMALL], ARM_MEMORY, ARM_EITHER_FLOAT),
    Target("thumbv8m.main", "Cortex-M33, M55", ["--target=thumbv8m.main-none-eabi", "-mfpu=none", *SMALL], ARM_MEMORY, ARM_EITHER_FLOAT),
    Target("riscv32imac", "RISC-V, 32 bits", ["--target=riscv32-unknown-none-elf", "-march=rv32imac", "-mabi=ilp32", "-mcmodel=medany", *SMALL],
           MEMORY),
    Target("riscv64gc", "RISC-V, 64 bits", ["--target=riscv64-unknown-linux-gnu", "-march=rv64gc", "-mabi=lp64d", "-mcmodel=medany", *SHARED],
           MEMORY),
    Target("aarch64", "Arm, 64 bits", ["--target=aarch64-unknown-linux-gnu", *SHARED], MEMORY, wide=True),
    Target("x86-64-v3", "x86-64 with AVX2", ["--target=x86_64-unknown-linux-gnu", "-march=x86-64-v3", "-O3", "-fPIC"], MEMORY, probe=True, wide=True),
    Target("wasm", "WebAssembly", ["--target=wasm32-unknown-unknown", "-mbulk-memory", *SMALL], set()),
]

DECLARE = re.compile(r"^declare (?:dso_local )?((?:noundef |zeroext |signext )*)(\w+) @(\w+)\(([^)]*)\)", re.M)


def declared(kit, target, names, include):
    """What jws.h declares for a target: of each function how its result is extended, its type, and the types of its arguments."""
    used = f'#include "jws.h"\nconst void *const used[] = {{{", ".join(names)}}};\n'
    words = [word for word in target.words if word not in ("-O3", "-fno-unroll-loops")]
    text = kit.clang([*words, "-std=c99", "-ffreestanding", "-nostdinc", "-isystem", os.path.join(HERE, "freestanding"),
                      f"-I{include}", "-S", "-emit-llvm", "-x", "c", "-", "-o", "-"], input=used)
    layout = re.search(r'^target datalayout = "(.*)"$', text, re.M)[1]
    if not (layout.startswith("e-") and "-i64:64" in layout):
        raise Refused(f"{target.name} isn't little-endian, or puts words of 64 bits elsewhere than at multiples of 8: {layout}")
    found = {}
    for extension, result, name, arguments in DECLARE.findall(text):
        types = [argument.replace(" noundef", "") for argument in arguments.split(", ")] if arguments else []
        found[name] = (extension.replace("noundef ", ""), result, types)
    return found


def without_runs(text):
    """The module's text with the answer that runs don't pay."""
    with open(RUNS_SOURCE, encoding="utf-8") as file:
        if RUNS_OPEN not in file.read():
            raise Refused(f"{os.path.relpath(RUNS_SOURCE, ROOT)} has no runs_pay whose answer is left open")
    text, changes = RUNS_PAY.subn(r"\1false", text)
    if changes != 1:
        raise Refused(f"the module says {changes} times whether runs pay")
    return text


def for_target(kit, target, text, module, include=INCLUDE):
    """The module's text for a target: nothing of x86-64, no runs where they don't pay, and results extended as its C compilers expect."""
    text = text if target.wide else without_runs(text)
    names = [name.lstrip("@") for name in module.exported]
    header = declared(kit, target, names, include)
    for name, (result, arguments) in module.exported.items():
        name = name.lstrip("@")
        extension, said, types = header.get(name, ("", "", []))
        if (said, types) != (result, arguments):
            raise Refused(f"{target.name}: jws.h declares {name} as {said} of {types}, and the module defines {result} of {arguments}")
        text, changes = re.subn(rf"^define noundef {result} @{name}\(", f"define noundef {extension}{result} @{name}(", text, flags=re.M)
        if changes != 1:
            raise Refused(f"the module defines {name} {changes} times")
    text = re.sub(r"^target (datalayout|triple) = .*\n", "", text, flags=re.M)
    text = text.replace(' "target-cpu"="x86-64"', "")
    return (text if target.probe else text.replace(PROBES, "")) + target.added


def compiled(kit, target, text, module):
    """Compiles for a target; gives the file and what is said of it."""
    folder = os.path.join(OUT, target.name)
    os.makedirs(folder, exist_ok=True)
    with open(os.path.join(folder, "module.ll"), "w", encoding="utf-8") as file:
        file.write(for_target(kit, target, text, module))
    object_ = os.path.join(folder, f"{CRATE}.o")
    kit.clang([*target.words, *WORDS, "-c", "-x", "ir", "module.ll", "-o", object_], cwd=folder)
    if target.name == "wasm":
        return linked_wasm(kit, object_, [name.lstrip("@") for name in module.exported])
    compiled_ = elf.Object(object_)
    called, data = compiled_.called(), compiled_.data_bytes()
    if unknown := called - target.calls:
        raise Refused(f"{target.name}: the archive calls {', '.join(sorted(unknown))}")
    if data:
        raise Refused(f"{target.name}: the archive has {data} bytes of data")
    archive = os.path.join(folder, "libjws.a")
    if os.path.exists(archive):
        os.remove(archive)
    run([kit.tool("llvm-ar"), "rcsD", archive, object_])
    stack = ", ".join(f"{name} {most:,}" for name, most in stack_bounds(kit, target, archive).items() if most > 100)
    return archive, f"{compiled_.text_bytes():,} bytes of text, no data; stack at most: {stack}; calls {', '.join(sorted(called))}"


def text_of(path):
    """The code of an object, section by section."""
    object_ = elf.Object(path)
    allocated = [section for section in object_.sections if section.flags & elf.ALLOCATED]
    return {section.name: object_.data[section.offset:section.offset + section.size] for section in allocated}


def stack_bounds(kit, target, archive):
    """The most stack that each function takes, by the object code: what memcpy and the like take comes to it."""
    if target.name == "x86-64-v3":
        return bounds(archive)
    folder = os.path.dirname(archive)
    sizes = os.path.join(folder, "stack_sizes.o")
    kit.clang([*target.words, *WORDS, "-fstack-size-section", "-c", "-x", "ir", "module.ll", "-o", sizes], cwd=folder)
    if text_of(sizes) != text_of(os.path.join(folder, f"{CRATE}.o")):
        raise Refused(f"{target.name}: other code comes out where the compiler is asked for the frames' sizes")
    return bounds(sizes)


# Bytes of stack in the module's memory, below everything else: to run over is to trap. The deepest headers took less than a fifth of it.
WASM_STACK = 16_384
WASM_DATA, WASM_AT = 11, b"\x00\x41"


def wasm_data(path):
    """How many bytes a module of WebAssembly writes to its memory before any call: those of its segments of data."""
    data, at, found = contents(path)[0], 8, 0
    while at < len(data):
        length, after = elf.leb128(data, at + 1)
        if data[at] == WASM_DATA:
            segments, place = elf.leb128(data, after)
            for _ in range(segments):
                if data[place:place + 2] != WASM_AT:
                    raise Refused(f"{os.path.basename(path)} has data of a form that isn't known")
                _, place = elf.leb128(data, place + 2)  # where it goes, and the end of that
                size, place = elf.leb128(data, place + 1)
                found, place = found + size, place + size
        at = after + length
    return found


def linked_wasm(kit, object_, names):
    """Links the functions to a module that imports nothing; memory begins after its stack, at __heap_base."""
    out = os.path.join(OUT, "jws.wasm")
    words = ["--no-entry", "--stack-first", "-z", f"stack-size={WASM_STACK}", "--strip-all", *(f"--export={name}" for name in names),
             "--export=__heap_base", "--export=__stack_pointer"]
    run(["wasm-ld", *words, object_, "-o", out], executable=kit.tool("ld.lld"))
    if wasm_data(out):
        raise Refused("jws.wasm has data: its users may clear all of its memory")
    return out, f"{os.path.getsize(out):,} bytes, calls nothing"


def main(names):
    unknown = set(names) - {target.name for target in TARGETS}
    if unknown:
        raise Refused(f"no target {', '.join(sorted(unknown))}; there are {', '.join(target.name for target in TARGETS)}")
    kit = Kit.found()
    os.makedirs(OUT, exist_ok=True)
    print(f"Proving {CRATE} and taking the module that the kit compiles", flush=True)
    text = proved_module(kit)
    module = Module(text)
    print(module.summary(), flush=True)
    for target in TARGETS:
        if not names or target.name in names:
            file, figures = compiled(kit, target, text, module)
            print(f"{os.path.relpath(file, ROOT)} ({target.processors}): {figures}", flush=True)


if __name__ == "__main__":
    try:
        main(sys.argv[1:])
    except Refused as refusal:
        sys.exit(f"nodes/build.py: {refusal}")
