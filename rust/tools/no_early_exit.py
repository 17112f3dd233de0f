#!/usr/bin/env python3
"""Looks in an archive's object code whether the signature is compared with the MAC without an early exit.

    python3 rust/tools/no_early_exit.py target/staticlib/libjws_ffi.a
    python3 rust/tools/no_early_exit.py --self-test     on C code with an early exit, which must fail, and without one

It finds the call of hmac_sha256 that jws_verify reaches, takes the 32 bytes that it writes (the MAC) for secret, and walks every way from
there to the return of the function that made the call, whose frame has the MAC. Of each register, of the flags and of each byte of the
stack it keeps which bytes of the MAC went into it, and its value where that is known, so that a loop over a known number of bytes is
walked round by round. It asks that

- each way has at most one conditional jump on what came from the MAC, at one place, and all 32 bytes have gone into it: a comparison that
  ends at the first difference has jumped before. If there is no such jump, all 32 bytes must have gone into the answer;
- no address is made from the MAC, and no function outside of the archive gets it or its address, so no memcmp and no bcmp;
- no instruction that compares strings of bytes is there (repz cmps).

What can't be followed fails. So where the first difference stands changes neither which instructions run nor which memory they touch.
It doesn't show how long the processor takes for them, and it is about this one archive. What went into a register counts for all of it:
a jump on one byte of a register made from all 32 would pass. That no byte is left out, and that the jump decides equality, is the proof's
(crates/jws_segments).
"""
import re
import subprocess
import sys
import tempfile

WIDTH = 32
ALL = (1 << WIDTH) - 1
STEPS = 200_000

ARGUMENTS = ["rdi", "rsi", "rdx", "rcx", "r8", "r9"]
THREE = {"memset", "memcpy", "memmove", "memcmp", "bcmp"}  # these take three; what the other registers still hold isn't handed over
CLOBBERED = [*ARGUMENTS, "rax", "r10", "r11", *(f"xmm{i}" for i in range(16))]
NARROW = {"rsp": "esp sp spl", "rbp": "ebp bp bpl", "rsi": "esi si sil", "rdi": "edi di dil"}
NARROW |= {f"r{c}x": f"e{c}x {c}x {c}l {c}h" for c in "abcd"}
NARROW |= {f"r{n}": f"r{n}d r{n}w r{n}b" for n in range(8, 16)}
WHOLE = {part: name for name, parts in NARROW.items() for part in [name, *parts.split()]}
BITS = {part: bits for parts in NARROW.values() for part, bits in zip(parts.split(), [32, 16, 8, 8])}

# Conditional jumps of a comparison whose two values are known.
JUMPS = {
    "je": lambda a, b: a == b, "jne": lambda a, b: a != b, "jb": lambda a, b: a < b, "jae": lambda a, b: a >= b,
    "jbe": lambda a, b: a <= b, "ja": lambda a, b: a > b,
}
MOVES = re.compile(r"(v?mov|v?lddqu)")
# Reads its operands and writes the flags alone.
TESTS = re.compile(r"(cmp|test|bt|v?ptest|v?u?comis)[bwlqsd]?$")
# Not followed.
UNKNOWN = re.compile(r"rep|loop|leave|xchg|xadd|cmpxchg|std|cld|movs[bwlq]?$|cmps|scas|stos|lods")
# Bytes of a memory operand, by the instruction's name.
SIZES = [(re.compile(pattern + "$"), size) for pattern, size in [
    (r"(mov[sz]b[wlq]|set\w+|v?p(ext|ins)rb)", 1), (r"(mov[sz]w[lq]|v?p(ext|ins)rw)", 2), (r"(movslq|movsxd|v?movd|v?movss|v?p(ext|ins)rd)", 4),
    (r"v?(movq|movsd|mov[lh]p[sd]|p(ext|ins)rq)", 8),
    (r"v?(movdq[au]|mov[au]p[sd]|lddqu|p(cmp|and|or|xor|add|sub|min|max|unpck|shuf|test)\w*|(xor|and|or|andn)p[sd])", 16)]]
SUFFIX = {"b": 1, "w": 2, "l": 4, "q": 8}


class Fault(Exception):
    """The archive doesn't meet what is asked, or can't be followed."""


class State:
    """What is known at one place: where each register's and stack byte's contents came from, and known values.

    A value is (base, number): base None for a plain number, 'stack' for an address in the stack of the first function.
    """

    def __init__(self):
        self.taint, self.value, self.memory, self.flags, self.compared = {}, {}, {}, 0, None
        self.returns, self.decided = (), None

    def copy(self):
        other = State()
        other.__dict__.update({k: dict(v) if isinstance(v, dict) else v for k, v in self.__dict__.items()})
        return other

    def key(self):
        """After the decision known values are let go of, so that loops that follow are walked once."""
        if self.decided is not None:
            self.value = {k: v for k, v in self.value.items() if v[0] == "stack"}
            self.compared = None
        parts = (self.taint, self.value, self.memory)
        return (*(frozenset((k, v) for k, v in part.items() if v) for part in parts), self.flags, self.compared, self.returns, self.decided)


def read(archive):
    """The functions: name to a list of (address, mnemonic, operands, name of a called or jumped-to function)."""
    text = subprocess.run(["objdump", "-dr", "--no-show-raw-insn", archive], check=True, capture_output=True, text=True).stdout
    functions, current = {}, None
    for line in text.splitlines():
        if found := re.match(r"[0-9a-f]+ <([^>]+)>:", line):
            current = functions.setdefault(found[1], [])
        elif found := re.match(r"\s*([0-9a-f]+):\t(\S.*)", line):
            words = re.sub(r"\s*[#<].*", "", found[2]).split()
            while words and words[0] in ("notrack", "bnd", "data16", "cs", "lock"):
                words.pop(0)
            name, rest = words[0], " ".join(words[1:])
            if name in ("rep", "repz", "repnz", "repe", "repne"):
                name, rest = f"{name} {words[1]}", " ".join(words[2:])
            target = re.search(r"<([^>+]+)(?:\+0x[0-9a-f]+)?>", found[2]) if name in ("call", "jmp") else None
            current.append([int(found[1], 16), name, re.findall(r"[^,(]*\([^)]*\)|[^,]+", rest), target and target[1]])
        elif current and (found := re.search(r"R_X86_64_\w+\s+(?:\.text\.)?(\S+?)(?:[-+]0x[0-9a-f]+)?$", line)):
            current[-1][3] = found[1]
    return functions


def number(text):
    return int(text, 16) if text else 0


class Walk:
    def __init__(self, functions):
        self.functions = functions
        self.places = {name: {row[0]: i for i, row in enumerate(rows)} for name, rows in functions.items()}
        self.decisions, self.answered, self.bytes_read, self.steps = set(), False, 0, 0

    def address(self, state, operand):
        """The address of a memory operand, if known; fails if it is made from the MAC."""
        found = re.match(r"(?:%[a-z]s:)?(-?)(?:0x)?([0-9a-f]*)\((%\w+)?(?:,(%\w+)(?:,(\d))?)?\)$", operand)
        if not found:
            return None
        total = (None, -number(found[2]) if found[1] else number(found[2]))
        for register, scale in [(found[3], 1), (found[4], int(found[5] or 1))]:
            if register:
                name = WHOLE.get(register[1:], register[1:])
                if state.taint.get(name):
                    raise Fault(f"an address is made from the MAC: {operand}")
                total = plus(total, times(state.value.get(name), scale))
        return total

    def points_to_mac(self, state, value):
        return value is not None and value[0] == "stack" and any(state.memory.get(value[1] + i) for i in range(WIDTH))

    def operand(self, state, text, size):
        """What went into an operand, and its value if known."""
        if text.startswith("$"):
            return 0, (None, int(text[1:], 16) % (1 << 64))
        if text.startswith("%"):
            name = WHOLE.get(text[1:], text[1:].replace("ymm", "xmm"))
            return state.taint.get(name, 0), cut(state.value.get(name), BITS.get(text[1:], 64))
        place = self.address(state, text)
        if place and place[0] == "stack":
            taint = 0
            for at in range(place[1], place[1] + size):
                taint |= state.memory.get(at, 0)
            self.bytes_read |= taint
            return taint, None
        return 0, None

    def write(self, state, text, size, taint, value):
        if text.startswith("%"):
            name = WHOLE.get(text[1:], text[1:].replace("ymm", "xmm"))
            if BITS.get(text[1:], 64) < 32:  # the rest of the register stays
                taint, value = taint | state.taint.get(name, 0), None
            state.taint[name] = taint
            state.value.pop(name, None)
            if value is not None:
                state.value[name] = cut(value, BITS.get(text[1:], 64))
            return
        place = self.address(state, text)
        if place and place[0] == "stack":
            for at in range(place[1], place[1] + size):
                state.memory[at] = taint
        elif taint:
            raise Fault(f"what came from the MAC is stored where it can't be followed: {text}")
        if self.points_to_mac(state, value):
            raise Fault(f"the MAC's address is stored: {text}")

    def step(self, state, name, row):
        """The states after one instruction: a list of (state, function, index), with None for the index of the next instruction."""
        at, op, operands, target = row
        if op.startswith("rep") and re.search("cmps|scas", op):
            raise Fault(f"{op} in {name}: it ends at the first difference")
        if op in ("ret", "retq", "repz ret"):
            if state.returns:
                after = state.copy()
                after.returns = state.returns[:-1]
                after.value["rsp"] = plus(state.value.get("rsp"), (None, 8))
                return [(after, *state.returns[-1])]
            answer = state.taint.get("rax", 0)
            if state.decided is None and answer:
                if answer != ALL:
                    raise Fault(f"{name} answers by {bin(answer).count('1')} of {WIDTH} bytes")
                self.answered = True
            return []
        if op in ("call", "callq"):
            arguments = ARGUMENTS[:3] if target in THREE else ARGUMENTS
            if target == "memset" and not any(state.taint.get(r) for r in arguments):
                arguments = []  # it reads nothing; what it clears still counts as the MAC
            if any(state.taint.get(r) or self.points_to_mac(state, state.value.get(r)) for r in arguments):
                if target not in self.functions:
                    raise Fault(f"{name} hands the MAC to {target or 'a function by its address'}")
                after = state.copy()
                after.returns = (*state.returns, (name, self.places[name][at] + 1))
                after.value["rsp"] = plus(state.value.get("rsp"), (None, -8))
                return [(after, target, 0)]
            after = state.copy()
            for register in CLOBBERED:
                after.taint.pop(register, None)
                after.value.pop(register, None)
            return [(after, name, None)]
        if op in ("jmp", "jmpq"):
            place = self.places[name].get(number(operands[0])) if operands and re.match("[0-9a-f]+$", operands[0]) else None
            if target == name and place is not None:
                return [(state, name, place)]
            if target in self.functions and target != name:  # a tail call
                return [(state, target, 0)]
            raise Fault(f"a jump in {name} can't be followed: {' '.join(operands)}")
        if op.startswith("j"):
            place = self.places[name][number(operands[0])]
            if op.endswith("cxz"):
                raise Fault(f"{op} in {name} can't be followed")
            if state.flags:
                if state.flags != ALL:
                    raise Fault(f"{op} at {at:x} in {name} hangs on {bin(state.flags).count('1')} of the MAC's {WIDTH} bytes: an early exit")
                if state.decided is not None:
                    raise Fault(f"{op} at {at:x} in {name} hangs on the MAC, after the one at {state.decided[1]:x}")
                self.decisions.add((name, at))
                state = state.copy()
                state.decided = (name, at)
                return [(state, name, None), (state.copy(), name, place)]
            if state.compared and op in (JUMPS if state.compared[2] else ("je", "jne")):
                return [(state, name, place if JUMPS[op](*state.compared[:2]) else None)]
            return [(state, name, None), (state.copy(), name, place)]
        return [(self.plain(state.copy(), op, operands), name, None)]

    def plain(self, state, op, operands):
        """The state after an instruction that goes on to the next."""
        if op.startswith("nop") or op in ("endbr64", "cltq", "ud2", "vzeroupper") or (op, operands) == ("xchg", ["%ax", "%ax"]):
            return state
        if op in ("cltd", "cqto"):
            state.taint["rdx"] = state.taint.get("rax", 0)
            state.value.pop("rdx", None)
            return state
        if op.startswith("rep stos") and not state.taint.get("rax"):  # what it clears still counts as the MAC
            state.value = {name: value for name, value in state.value.items() if name not in ("rcx", "rdi")}
            return state
        if not operands or UNKNOWN.match(op) or re.search("%(zmm|k[0-7])", " ".join(operands)):
            raise Fault(f"an instruction that can't be followed: {op} {','.join(operands)}")
        last = operands[-1]
        if op.startswith("push"):
            taint, _ = self.operand(state, last, 8)
            state.value["rsp"] = plus(state.value.get("rsp"), (None, -8))
            self.write(state, "0x0(%rsp)", 8, taint, None)
            return state
        if op in ("pop", "popq"):
            taint, _ = self.operand(state, "0x0(%rsp)", 8)
            state.value["rsp"] = plus(state.value.get("rsp"), (None, 8))
            self.write(state, last, 8, taint, None)
            return state
        if op.startswith("lea"):
            self.write(state, last, 8, 0, self.address(state, operands[0]))
            return state
        size = size_of(op, operands)
        read = [self.operand(state, text, size) for text in operands]
        values = [value for _, value in read]
        taint = 0
        for part, _ in read:
            taint |= part
        if TESTS.match(op):
            state.flags, state.compared = taint, None
            if op.startswith("cmp") and None not in values and values[0][0] == values[1][0]:
                state.compared = (values[1][1], values[0][1], True)
            elif op.startswith("test") and operands[0] == operands[1] and values[0] and values[0][0] is None:
                state.compared = (values[0][1], 0, True)
            return state
        if re.match(r"set|cmov|adc|sbb|rc[lr]", op):
            self.write(state, last, size, (0 if op.startswith("set") else taint) | state.flags, None)
            if not re.match("set|cmov", op):
                state.flags, state.compared = state.flags | taint, None
            return state
        if MOVES.match(op):
            part = re.match(r"v?mov(([lh]|hl|lh)p|s[sd]$)", op)  # the rest of the register may stay
            self.write(state, last, size, taint if part else read[0][0], values[0] if op in ("mov", "movl", "movq", "movabs") else None)
            return state
        if re.match(r"v?pmovmskb", op):
            self.write(state, last, size, read[0][0], None)
            return state
        result = computed(op, values)
        zeroing = {2: ("xor", "sub", "pxor", "xorps", "xorpd"), 3: ("vpxor", "vxorps", "vxorpd")}.get(len(operands), ())
        if op in zeroing and operands[0] == operands[1]:
            taint, result = 0, (None, 0)
        self.write(state, last, size, taint, result)
        if re.match("i?(mul|div)", op):
            for register in ("rax", "rdx"):
                state.taint[register] = state.taint.get(register, 0) | taint
                state.value.pop(register, None)
        # Some set all flags, vector instructions none; any other may leave some as they were.
        if re.match(r"(add|sub|and|or|xor|neg)[bwlq]?$", op):
            state.flags, state.compared = taint, None
        elif not re.match(r"v?p(?!opcnt)|v?(xor|and|or|andn)p[sd]|v?(shuf|unpck)|not|bswap", op):
            state.flags, state.compared = state.flags | taint, None
        else:
            return state
        if result and result[0] is None:
            state.compared = (cut(result, BITS.get(last[1:], 64))[1], 0, False)
        return state

    def before(self, name, index):
        """What is known before an instruction, by those right before it that no jump and no call comes between."""
        rows = self.functions[name]
        targets = {self.places[name].get(number(row[2][0])) for row in rows if row[1].startswith("j") and re.match("[0-9a-f]+$", row[2][0])}
        start = index
        while start > 0 and start not in targets and not re.match("j|call|ret", rows[start - 1][1]):
            start -= 1
        state = State()
        state.value["rsp"] = ("stack", 0)
        for _, op, operands, _ in rows[start:index]:
            state = self.plain(state, op, operands)
        return state

    def run(self, state, name, index):
        seen, left = set(), [(state, name, index)]
        while left:
            state, name, index = left.pop()
            rows = self.functions[name]
            if index >= len(rows):
                raise Fault(f"the end of {name} is reached")
            key = (name, index, state.key())
            if key in seen:
                continue
            seen.add(key)
            self.steps += 1
            if self.steps > STEPS:
                raise Fault("too many ways to walk")
            for after, to, place in self.step(state, name, rows[index]):
                left.append((after, to, index + 1 if place is None else place))


def plus(a, b):
    if a is None or b is None or (a[0] and b[0]):
        return None
    base, total = a[0] or b[0], (a[1] + b[1]) % (1 << 64)
    return base, total - (1 << 64) if base and total >> 63 else total


def times(a, scale):
    return a if a is None or scale == 1 else (None, a[1] * scale) if a[0] is None else None


def cut(value, bits):
    return value if value is None or bits == 64 else (None, value[1] % (1 << bits)) if value[0] is None else None


def computed(op, values):
    """The value that an instruction computes, where it is known."""
    if re.match(r"(inc|dec)[lq]?$", op):
        return plus(values[0], (None, 1 if op.startswith("inc") else -1))
    if len(values) == 2 and re.match(r"add[lq]?$", op):
        return plus(values[0], values[1])
    if len(values) == 2 and re.match(r"sub[lq]?$", op) and values[0] and values[0][0] is None:
        return plus(values[1], (None, -values[0][1]))
    return None


def size_of(op, operands):
    """The bytes of an instruction's memory operand; 0 if it has none."""
    if not any(text.endswith(")") for text in operands):
        return 0
    if any(text.startswith("%ymm") for text in operands):
        return 32
    for pattern, size in SIZES:
        if pattern.match(op):
            return size
    registers = [text[1:] for text in operands if text.startswith("%") and text[1:] in WHOLE]
    if re.match(r"(sh|sa|ro|rc)[lr]", op):
        registers = []  # a register says how far, and not how wide
    if registers:
        return BITS.get(registers[-1], 64) // 8
    if op[-1] in SUFFIX and not any(text.startswith("%") for text in operands):
        return SUFFIX[op[-1]]
    raise Fault(f"how wide it reads or writes isn't known: {op} {','.join(operands)}")


def reached(functions, start):
    seen, left = {start}, [start]
    while left:
        for row in functions[left.pop()]:
            if row[3] in functions and row[3] not in seen:
                seen.add(row[3])
                left.append(row[3])
    return seen


def check(archive, entry):
    """One line on how `entry` compares with the MAC. Raises Fault."""
    functions = read(archive)
    if entry not in functions:
        raise Fault(f"there is no {entry}")
    starts = [(name, i) for name in reached(functions, entry) for i, row in enumerate(functions[name])
              if row[1].startswith("call") and row[3] and re.search(r"\bhmac_sha256$", row[3])]
    if len(starts) != 1:
        raise Fault(f"{len(starts)} calls of hmac_sha256 are reached from {entry}")
    name, index = starts[0]
    walk = Walk(functions)
    state = walk.before(name, index)
    place = state.value.get("rdi")
    if place is None or place[0] != "stack":
        raise Fault(f"where the MAC goes can't be read off {name}")
    for register in CLOBBERED:
        state.value.pop(register, None)
    state.memory = {place[1] + i: 1 << i for i in range(WIDTH)}
    walk.run(state, name, index + 1)
    if walk.bytes_read != ALL:
        raise Fault(f"{bin(walk.bytes_read).count('1')} of the MAC's {WIDTH} bytes are read")
    if len(walk.decisions) > 1:
        raise Fault(f"jumps at {len(walk.decisions)} places hang on the MAC")
    if not walk.decisions and not walk.answered:
        raise Fault("nothing hangs on the MAC")
    how = "no jump hangs on the MAC, and the answer on"
    for function, at in walk.decisions:
        how = f"one jump hangs on the MAC, at {at:x} in {function}, on"
    return f"{entry}: {how} all {WIDTH} bytes of it: no early exit ({walk.steps} steps walked)"


HEAD = """
#include <stdint.h>
#include <string.h>
void hmac_sha256(uint8_t *mac, const uint8_t *key, const uint8_t *input);
#define VERIFY(differs) \\
    uint8_t verify(const uint8_t *key, const uint8_t *input, const uint8_t *signature, uint8_t *payload, size_t length) { \\
        uint8_t mac[32]; hmac_sha256(mac, key, input); if (differs) { memset(payload, 0, length); return 15; } return 0; }
"""
EXAMPLES = {
    # name: (whether it must pass, code)
    "every byte, in a loop": (True, """
        static int differs(const uint8_t *a, const uint8_t *b) { uint8_t d = 0; for (int i = 0; i < 32; i++) d |= a[i] ^ b[i]; return d != 0; }
        VERIFY(differs(mac, signature))"""),
    "every byte, by words": (True, """
        static int differs(const uint8_t *a, const uint8_t *b) { uint64_t x[4], y[4]; memcpy(x, a, 32); memcpy(y, b, 32);
            return ((x[0] ^ y[0]) | (x[1] ^ y[1]) | (x[2] ^ y[2]) | (x[3] ^ y[3])) != 0; }
        VERIFY(differs(mac, signature))"""),
    "every byte, in a function of its own": (True, """
        __attribute__((noinline)) static int differs(const uint8_t *a, const uint8_t *b) {
            uint8_t d = 0; for (int i = 0; i < 32; i++) d |= a[i] ^ b[i]; return d != 0; }
        VERIFY(differs(mac, signature))"""),
    "ends at the first difference, in a function of its own": (False, """
        __attribute__((noinline)) static int differs(const uint8_t *a, const uint8_t *b) {
            for (int i = 0; i < 32; i++) if (a[i] != b[i]) return 1; return 0; }
        VERIFY(differs(mac, signature))"""),
    "every byte, below verify": (True, """
        __attribute__((noinline)) static uint8_t conclude(const uint8_t *key, const uint8_t *input, const uint8_t *signature) {
            uint8_t mac[32], d = 0; hmac_sha256(mac, key, input); for (int i = 0; i < 32; i++) d |= mac[i] ^ signature[i]; return d != 0 ? 15 : 0; }
        uint8_t verify(const uint8_t *key, const uint8_t *input, const uint8_t *signature) { return conclude(key, input, signature) + 1; }"""),
    "ends at the first difference, below verify": (False, """
        __attribute__((noinline)) static uint8_t conclude(const uint8_t *key, const uint8_t *input, const uint8_t *signature) {
            uint8_t mac[32]; hmac_sha256(mac, key, input); for (int i = 0; i < 32; i++) if (mac[i] != signature[i]) return 15; return 0; }
        uint8_t verify(const uint8_t *key, const uint8_t *input, const uint8_t *signature) { return conclude(key, input, signature) + 1; }"""),
    "every byte, then the first again": (False, """
        static int differs(const uint8_t *a, const uint8_t *b) { uint8_t d = 0; for (int i = 0; i < 32; i++) d |= a[i] ^ b[i]; return d != 0; }
        VERIFY(differs(mac, signature) && (payload[0] = 1, mac[0] != signature[0]))"""),
    "ends at the first difference": (False, """
        static int differs(const uint8_t *a, const uint8_t *b) { for (int i = 0; i < 32; i++) if (a[i] != b[i]) return 1; return 0; }
        VERIFY(differs(mac, signature))"""),
    "ends after the first half": (False, """
        static int differs(const uint8_t *a, const uint8_t *b) { uint8_t d = 0; int i; for (i = 0; i < 16; i++) d |= a[i] ^ b[i];
            if (d) return 1; for (; i < 32; i++) d |= a[i] ^ b[i]; return d != 0; }
        VERIFY(differs(mac, signature))"""),
    "memcmp": (False, "VERIFY(memcmp(mac, signature, 32))"),
    "a table by a byte of it": (False, """
        static const uint8_t table[256] = {1, 2, 3};
        static int differs(const uint8_t *a, const uint8_t *b) { uint8_t d = 0; for (int i = 0; i < 32; i++) d |= table[a[i] ^ b[i]]; return d != 0; }
        VERIFY(differs(mac, signature))"""),
}


def self_test():
    """Each example at several levels of optimisation gets the verdict that it must get."""
    wrong = []
    with tempfile.TemporaryDirectory() as room:
        for name, (good, code) in EXAMPLES.items():
            for level in ("-O1", "-O2", "-O3"):
                with open(f"{room}/verify.c", "w", encoding="utf-8") as file:
                    file.write(HEAD + code)
                words = ["-std=c99", "-fno-stack-protector", "-fno-builtin-memcmp", level, "-c", "verify.c", "-o", "verify.o"]
                subprocess.run(["cc", *words], cwd=room, check=True)
                try:
                    verdict = check(f"{room}/verify.o", "verify")
                    passed = True
                except Fault as fault:
                    verdict, passed = str(fault), False
                if passed != good:
                    wrong.append(f"{name} at {level}: {verdict}")
    if wrong:
        sys.exit("no_early_exit.py: self-test failed:\n" + "\n".join(wrong))
    print(f"no_early_exit.py: self-test: {len(EXAMPLES)} comparisons at 3 levels of optimisation judged as they must be")


def main():
    if sys.argv[1:2] == ["--self-test"]:
        return self_test()
    if len(sys.argv) != 2:
        sys.exit("usage: no_early_exit.py ARCHIVE | --self-test")
    try:
        print(check(sys.argv[1], "jws_verify"))
    except Fault as fault:
        sys.exit(f"no_early_exit.py: {sys.argv[1]}: {fault}")


main()
