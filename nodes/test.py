#!/usr/bin/env python3
"""Runs the archives of `make nodes` on their processors, most of them emulated: `make test-nodes`.

    python3 nodes/test.py [--here] [MACHINE...]

On each machine the published tokens and many generated calls are made, between guard bytes and at every alignment, and what they leave is
compared with what the x86-64 archive leaves: answers, records and every byte that was lent. Then some calls are measured, and the firmware of
examples/node runs. Ends with 1 where there is a difference, or where a program that a machine needs isn't there; with --here such a machine
is left out, and a line says so.
"""
import os
import re
import shutil
import struct
import subprocess
import sys

import build
import calls
import firmware
from build import elf
from kit import ARCHIVE, CRATE, HERE, ROOT, Kit, run
from kit import OUT as NODES
from machines import C_WORDS, MACHINES, RUNTIME, archive_of, link, objects
from module import Refused

OUT = os.path.join(NODES, "test")
SOURCE = os.path.join(HERE, "test")
COUNT = 7_000  # calls of each of three functions
LOOP = 200_000  # instructions of the runner's loop
TIMED = ["verify 179", "verify 16000", "sign 179", "sign 16000"]  # the first of the figures: a function, and the token's bytes
KINDS = {"verify": 9, "sign": 9, "member": 4}  # the functions whose stack is measured, and how many arguments each has
MINUTES = 10  # what is done in seconds, and isn't by then, hangs
# The most text, and the most stack of verifying, that an archive may have.
LIMITS = {"thumbv7em": (21_000, 5_000)}


def read(name):
    with open(os.path.join(OUT, name), "rb") as file:
        return file.read()


def write(name, content):
    with open(os.path.join(OUT, name), "wb") as file:
        file.write(content)


def write_calls():
    """The files of calls, with what the x86-64 archive leaves; gives what they are."""
    rust = os.path.join(ROOT, "rust")
    run(["cargo", "build", "--quiet", "--offline", "--locked", "--release", "-p", "jws", "--example", "node_calls"], cwd=rust)
    target = os.path.join(rust, os.environ.get("CARGO_TARGET_DIR", "target"))
    return run([os.path.join(target, "release", "examples", "node_calls"), OUT, str(COUNT)]).strip()


def native_runner(archive, program):
    """The runner for this machine. Functions are bound before the first call."""
    run(["cc", *C_WORDS, "-Wl,-z,now", f"{SOURCE}/runner.c", f"{SOURCE}/machine_posix.c", archive, "-o", program])


def compile_runner(kit, machine):
    """The runner over the machine's archive; gives the program's path."""
    folder = os.path.join(OUT, machine.name)
    os.makedirs(folder, exist_ok=True)
    program = os.path.join(folder, "runner")
    if machine.program == "cc":
        native_runner(archive_of(machine), program)
    elif machine.words:
        layout = []
        if machine.memory:
            rom, ram = machine.memory
            layout = ["-T", f"{SOURCE}/machine.ld", f"--defsym=rom={rom:#x}", f"--defsym=ram={ram:#x}"]
        sources = [f"{SOURCE}/{name}.c" for name in ("runner", "machine_semihosting", "start")]
        link(kit, machine, layout, objects(kit, machine, [*sources, RUNTIME], folder), program)
    return program


def run_calls(machine, program, name, counted=False):
    """Runs a file of calls on a machine; gives the outcomes, and ticks and stack of each call, after the loop's."""
    folder = os.path.join(OUT, machine.name, "run")
    shutil.rmtree(folder, ignore_errors=True)
    os.makedirs(folder)
    shutil.copyfile(os.path.join(OUT, name), os.path.join(folder, "calls.bin"))
    words = machine.start(program, counted)
    if machine.name == "wasm":
        words = ["node", f"{SOURCE}/runner.mjs", os.path.join(NODES, "jws.wasm"), *(["2000"] if counted else [])]
    try:
        done = subprocess.run(words, cwd=folder, stdin=subprocess.DEVNULL, capture_output=True, text=True, timeout=MINUTES * 60, check=False)
    except subprocess.TimeoutExpired:
        raise Refused(f"{machine.name}: the runner of {name} isn't done after {MINUTES} minutes") from None
    if done.returncode != 0:
        raise Refused(f"{machine.name}: the runner ended with {done.returncode}: {(done.stdout + done.stderr)[:500]}")
    outcomes, figures = read(os.path.join(folder, "outcomes.bin")), read(os.path.join(folder, "figures.bin"))
    shutil.rmtree(folder)
    return outcomes, [struct.unpack_from("<QQ", figures, at) for at in range(0, len(figures), 16)]


def compare(machine, program):
    """Runs both files of calls on a machine; gives how many calls the first has, and the figures of the second."""
    for name, expected in (("calls.bin", "expected.bin"), ("figures.bin", "figures_expected.bin")):
        outcomes, figures = run_calls(machine, program, name, counted=name == "figures.bin")
        found = calls.differences(read(name), read(expected), outcomes)
        if found:
            raise Refused(f"{machine.name}: {len(found)} calls of {name} differ from the x86-64 archive's, the first is number {found[0]}")
    return len(calls.split(read("calls.bin"))), figures


# How many arguments each processor takes in registers, and the bytes of one; Arm's of 32 bits four.
IN_REGISTERS = {"x86-64-v3": (6, 8), "aarch64": (8, 8), "riscv64gc": (8, 8), "riscv32imac": (8, 4)}


def passed(machine, kind):
    """The most that the arguments of a call take of the stack, which is measured with the call's own."""
    registers, size = IN_REGISTERS.get(machine.archive, (4, 4))
    return -(-max(0, KINDS[kind] - registers) * size // 16) * 16


def measured(machine, figures, most):
    """What was measured, in words. No call takes more stack than by its object code, but for its arguments."""
    names = read("figures.txt").decode().splitlines()
    if len(names) + 1 != len(figures):
        raise Refused(f"{machine.name}: {len(figures) - 1} figures, and {len(names)} names")
    ticks, stack = {}, dict.fromkeys(KINDS, 0)
    for name, (count, bytes_) in zip(names, figures[1:]):
        ticks.setdefault(name, []).append(count)
        if name.startswith("stack "):
            kind = name.split()[1]
            stack[kind] = max(stack[kind], bytes_)
    for kind, bytes_ in stack.items():
        if bytes_ > most.get(f"jws_{kind}", bytes_) + passed(machine, kind):
            raise Refused(f"{machine.name}: {kind} takes {bytes_:,} bytes of stack, and at most {most[f'jws_{kind}']:,} by its object code")
    said = ["stack: " + ", ".join(f"{kind} {bytes_:,}" for kind, bytes_ in stack.items()) + " bytes"]
    if machine.counted:
        rate = round(figures[0][0] / LOOP, 3)
        said += instructions(machine, {name: [round(count / rate) for count in counts] for name, counts in ticks.items()})
    elif machine.name == "wasm":
        said.append("nanoseconds: " + ", ".join(f"{name} {ticks[name][0]:,}" for name in TIMED))
    return "; ".join(said)


def instructions(machine, counts):
    """The instructions of the timed calls. A forged signature is refused by as many wherever it differs, or it would tell where."""
    yield "instructions: " + ", ".join(f"{name} {counts[name][0]:,}" for name in TIMED)
    forged = counts["forged"]
    if max(forged) - min(forged) > 1:  # by one, where a tick isn't a whole number of instructions
        raise Refused(f"{machine.name}: a forged signature takes {min(forged):,} to {max(forged):,} instructions, by where it differs")
    yield f"{len(forged)} forged signatures {forged[0]:,} each"


def x86_instructions(machine, archive):
    """The instructions of the timed calls by valgrind, which counts this machine's own."""
    folder = os.path.join(OUT, machine.name)
    runner = os.path.join(folder, "counted")
    native_runner(archive, runner)
    counts = []
    for name, (call, _) in zip(TIMED, calls.split(read("figures.bin"))):
        write(os.path.join(folder, "calls.bin"), calls.join([call]))
        words = ["valgrind", "--tool=callgrind", "--callgrind-out-file=/dev/null", f"--toggle-collect=jws_{name.split()[0]}", runner]
        done = subprocess.run(words, cwd=folder, capture_output=True, text=True, check=False)
        found = re.search(r"Collected : (\d+)", done.stderr)
        if done.returncode != 0 or not found:
            raise Refused(f"valgrind failed: {done.stderr[-500:]}")
        counts.append(f"{name} {int(found[1]):,}")
    return "instructions: " + ", ".join(counts)


def self_test(machine, program):
    """A comparison that can't fail says nothing: with a byte of one token changed, that call differs, and no other."""
    changed = bytearray(read("calls.bin"))
    changed[calls.HEAD + 100] ^= 1
    write("changed.bin", changed)
    outcomes, _ = run_calls(machine, program, "changed.bin")
    if calls.differences(read("calls.bin"), read("expected.bin"), outcomes) != [0]:
        raise Refused("the comparison doesn't find the one call that was changed")


def header_test(kit):
    """A length of the processor's own width in jws.h is refused where that is 32 bits, and right elsewhere."""
    folder = os.path.join(OUT, "include")
    os.makedirs(folder, exist_ok=True)
    with open(os.path.join(build.INCLUDE, "jws.h"), encoding="utf-8") as file:
        header = file.read()
    changed = header.replace("uint64_t payload_len);", "unsigned long payload_len);")
    with open(os.path.join(folder, "jws.h"), "w", encoding="utf-8") as file:
        file.write(changed)
    with open(os.path.join(NODES, "module.ll"), encoding="utf-8") as file:
        text = file.read()
    module, refused = build.Module(text), []
    for target in build.TARGETS:
        try:
            build.for_target(kit, target, text, module, folder)
        except Refused:
            refused.append(target.name)
    narrow = [target.name for target in build.TARGETS if re.match(r"thumb|riscv32|wasm", target.name)]
    if changed == header or refused != narrow:
        raise Refused(f"a length of the processor's own width in jws.h is refused for {refused}, and not for {narrow}")


def runs_test():
    """The answer whether runs pay is given in one place; a module without it or with two, and one that the proof relies on, are refused."""
    with open(os.path.join(NODES, "module.ll"), encoding="utf-8") as file:
        text = file.read()
    words = zip(text.split(), build.without_runs(text).split(), strict=True)
    if [pair for pair in words if pair[0] != pair[1]] != [("true", "false")]:
        raise Refused("the module without runs differs from the module by more than the answer")
    promised = os.path.join(OUT, "promised")
    write("promised", build.RUNS_OPEN.replace(" {", "\n    ensures { result ≡ true }\n{").encode())
    refused, source = 0, build.RUNS_SOURCE
    for wrong, said in ((text.replace("runs_pay", "pay"), source), (text + text, source), (text, promised)):
        build.RUNS_SOURCE = said
        try:
            build.without_runs(wrong)
        except Refused:
            refused += 1
    build.RUNS_SOURCE = source
    if refused != 3:
        raise Refused(f"of 3 modules whose answer isn't open in one place {refused} are refused")


EXAMPLE = os.path.join(ROOT, "examples", "verify.mjs")


def example_test():
    """The numbers that the example for WebAssembly has to say again are those of jws.h."""
    with open(os.path.join(build.INCLUDE, "jws.h"), encoding="utf-8") as file:
        header = dict(re.findall(r"\bJWS_(\w+)(?: =)? (\d+)", file.read()))
    with open(EXAMPLE, encoding="utf-8") as file:
        example = dict(re.findall(r"\b([A-Z]+(?:_[A-Z]+)*) = (\d+)", file.read()))
    example.pop("TABLE_MAX")  # the specification's
    for name, number in example.items():
        if number not in (header.get(name), header.get(f"RECORD_{name}")):
            raise Refused(f"examples/verify.mjs has {name} = {number}, and jws.h another number")
    if len(example) != 10:
        raise Refused(f"examples/verify.mjs has {len(example)} of jws.h's numbers, and not 10")


def size_of(machine):
    """The bytes of an archive's text, or of the module of WebAssembly."""
    if machine.name == "wasm":
        return os.path.getsize(os.path.join(NODES, "jws.wasm"))
    return elf.Object(os.path.join(os.path.dirname(archive_of(machine)), f"{CRATE}.o")).text_bytes()


def check_limits(machine, text, most):
    """The archive keeps to its limits, if it has some."""
    if machine.archive in LIMITS:
        most_text, most_stack = LIMITS[machine.archive]
        if text > most_text or most["jws_verify"] > most_stack:
            raise Refused(f"{machine.archive}: {text:,} bytes of text, of {most_text:,}; {most['jws_verify']:,} of stack, of {most_stack:,}")


def check_papers(machine, size, most):
    """The papers have this size and this bound of verifying's stack."""
    figures = [f" {number:,}" for number in (size, most.get("jws_verify")) if number is not None]
    start = f"| `{'jws.wasm' if machine.name == 'wasm' else machine.archive}` |"
    for paper in ("README.md", os.path.join("docs", "MEASUREMENTS.md")):
        with open(os.path.join(ROOT, paper), encoding="utf-8") as file:
            row = next((line for line in file if line.startswith(start)), "")
        if not all(re.search(rf"{figure}(?![\d,]*\d)", row) for figure in figures):
            raise Refused(f"{paper} has other figures of {machine.archive} than{' and'.join(figures)}")


def tested(kit, machine):
    """Tests a machine; gives what is said of it, line by line."""
    program = compile_runner(kit, machine)
    count, figures = compare(machine, program)
    target = next(target for target in build.TARGETS if target.name == machine.archive)
    most = {} if machine.name == "wasm" else build.stack_bounds(kit, target, archive_of(machine))
    size = size_of(machine)
    check_limits(machine, size, most)
    check_papers(machine, size, most)
    yield f"{machine.name} ({machine.archive} on {machine.what}): {count:,} calls, 0 differences; {measured(machine, figures, most)}"
    if machine.board:
        yield firmware.tested(kit, machine, os.path.join(OUT, machine.name, "firmware"), most)
    if machine.name == "x86-64-v3":
        self_test(machine, program)
        yield run([sys.executable, os.path.join(ROOT, "rust", "tools", "no_early_exit.py"), archive_of(machine)]).strip()
        if not machine.lacking():
            for name, archive in (("x86-64-v3", archive_of(machine)), ("x86-64", ARCHIVE)):
                yield f"{name}: {x86_instructions(machine, archive)}"
    if machine.name == "wasm":
        self_test(machine, program)
        example_test()
        yield "examples/verify.mjs: " + run(["node", EXAMPLE]).strip().splitlines()[-1]


def chosen(words):
    """The machines to test, by their names. Those that can't be run here end it; with --here they are left out, and a line says so."""
    names = [word for word in words if word != "--here"]
    if unknown := set(names) - {machine.name for machine in MACHINES}:
        raise Refused(f"no machine {', '.join(sorted(unknown))}; there are {', '.join(machine.name for machine in MACHINES)}")
    wanted = [machine for machine in MACHINES if not names or machine.name in names]
    missing = {}
    for machine in wanted:
        lacking = {machine.name: reason} if (reason := machine.unable()) else machine.lacking()
        for name, reason in lacking.items():
            missing.setdefault(reason, {})[name] = None
    if missing:
        said = "; ".join(f"{', '.join(names)}: {reason}" for reason, names in missing.items())
        if "--here" not in words:
            raise Refused(f"not all can be run: {said}")
        print(f"nodes/test.py: not run: {said}", flush=True)
    return [machine for machine in wanted if not machine.unable()]


def main(words):
    machines = chosen(words)
    kit = Kit.found()
    build.main([])
    os.makedirs(OUT, exist_ok=True)
    header_test(kit)
    runs_test()
    print(write_calls(), flush=True)
    for machine in machines:
        for line in tested(kit, machine):
            print(line, flush=True)


if __name__ == "__main__":
    try:
        main(sys.argv[1:])
    except Refused as refusal:
        sys.exit(f"nodes/test.py: {refusal}")
