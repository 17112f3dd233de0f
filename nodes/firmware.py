"""The firmware of examples/node on its boards: what it is sent, a line at a time, and what it must say."""
import base64
import hashlib
import hmac
import json
import os
import re
import select
import struct
import subprocess

from kit import OUT, ROOT, run
from machines import RUNTIME, link, objects
from module import Refused

SOURCE = os.path.join(ROOT, "examples", "node")
SECRET = b"0123456789abcdef" * 2


def signed(tank, tenths, **members):
    """A token for a tank, by Python's HMAC. A member that is None is left out of the header."""
    part = lambda text: base64.urlsafe_b64encode(text).rstrip(b"=")
    header = {name: value for name, value in {"alg": "HS256", "kid": "cellar 2", **members}.items() if value is not None}
    text = part(json.dumps(header).encode()) + b"." + part(struct.pack(">Hh", tank, tenths))
    return text + b"." + part(hmac.new(SECRET, text, hashlib.sha256).digest())


def conversation():
    """It acts on a setpoint for its own tank, and on nothing else: not on a forged one, on one that names no key or on next year's format."""
    good, nameless, next_year = signed(7, 215), signed(7, 300, kid=None), signed(7, 300, crit=["fmt"], fmt=2)
    other = "accepted, and nothing for this tank: setpoint 21.5"
    return [
        (good, "setpoint 21.5"), (good[:-4] + b"AAAA", "refused 15: setpoint 21.5"), (nameless, "refused 12: setpoint 21.5"),
        (next_year, "refused 14: setpoint 21.5"), (signed(8, 300), other), (b"", "refused 3: setpoint 21.5"),
        (b"A" * 513, "too long for this node: setpoint 21.5"),
        (signed(7, 451), other), (signed(7, -101), other), (signed(7, 450), "setpoint 45.0"), (signed(7, -100), "setpoint -10.0"),
        (good[1:], "refused 4: setpoint -10.0"), (b"A" * 512, "refused 3: setpoint -10.0"), (good, "setpoint 21.5"),
    ]


def answer(process, line):
    """What the firmware says to a line, as far as it comes within ten seconds."""
    said = b""
    try:
        process.stdin.write(line + b"\n")
        process.stdin.flush()
    except BrokenPipeError:
        return "nothing: it ended"
    while not said.endswith(b"\n") and select.select([process.stdout], [], [], 10)[0]:
        byte = os.read(process.stdout.fileno(), 1)
        if not byte:
            break
        said += byte
    return said.decode(errors="replace").rstrip("\n")


def talk(machine, program):
    """Holds the conversation with a firmware on its board, as it is: no memory is added."""
    words = [machine.program, "-M", machine.board, "-nographic", "-monitor", "none", "-serial", "stdio", "-kernel", program]
    with subprocess.Popen(words, stdin=subprocess.PIPE, stdout=subprocess.PIPE) as process:
        try:
            for line, expected in conversation():
                if (said := answer(process, line)) != expected:
                    raise Refused(f"the firmware on {machine.board} said {said!r}, and not {expected!r}, to {line[:60]!r}")
        finally:
            process.kill()


def by_kit(kit, machine, folder):
    """The firmware by the kit's compiler, with no C library."""
    sources = [os.path.join(SOURCE, f"{name}.c") for name in ("main", "start", machine.board)]
    program = os.path.join(folder, "firmware.elf")
    layout = ["-L", SOURCE, "-T", os.path.join(SOURCE, f"{machine.board}.ld")]
    link(kit, machine, layout, objects(kit, machine, [*sources, RUNTIME], folder), program)
    return program


def by_gcc(machine):
    """The firmware as its Makefile has it."""
    run(["make", "-s", "-B", "-C", SOURCE, f"BOARD={machine.board}"])
    return os.path.join(OUT, f"firmware-{machine.board}.elf")


# What the calls' stack holds besides a call: the frame of the function that makes it, memset's, and an interrupt's.
BESIDES = 200


def check_stack(most):
    """The firmware's stack for calls is long enough for the most that verifying takes."""
    with open(os.path.join(SOURCE, "board.h"), encoding="utf-8") as file:
        found = re.search(r"CALL_STACK = (\d+) \+ (\d+)", file.read())
    room = sum(map(int, found.groups())) if found else 0
    if room < most["jws_verify"] + BESIDES:
        raise Refused(f"examples/node has {room:,} bytes of stack for calls, and verifying takes {most['jws_verify']:,} at most")


def tested(kit, machine, folder, most):
    """Runs the firmware by the kit's compiler and, where it is here, by GCC; gives what is said of it."""
    os.makedirs(folder, exist_ok=True)
    check_stack(most)
    talk(machine, by_kit(kit, machine, folder))
    compilers = "the kit's clang"
    if not machine.lacking():
        talk(machine, by_gcc(machine))
        compilers += " and by GCC"
    return f"examples/node on {machine.board}, by {compilers}: {len(conversation())} lines answered as they must be"
