#!/usr/bin/env python3
"""The form of the LLVM module that the kit writes, read strictly: whether it means the same on a processor with pointers of 4 bytes as on
one with pointers of 8.

    python3 nodes/module.py MODULE.ll       says what it found, or where the form is another one
    python3 nodes/module.py --self-test     small modules, right ones and wrong ones

The module lays structures out by itself, in bytes: a slice is a pointer at place 0 and a length at place 8, whatever the target. That
means the same with shorter pointers if a pointer is nowhere taken for a number. Of the instructions only those listed below are known,
and none of them turns one into the other; what is left is memory that is written as the one and read as the other. So each piece of memory
is followed through every function: what a pointer may point to is one object, and copies and calls make objects one (points-to analysis by
unification). In no object may a pointer's eight bytes overlap a number, a filled range, a part of a copy, or a place that isn't constant;
and a variable that is a pointer, and so narrower on such a processor, may be nothing else. What C lends may hold no pointer. Zeros alone may
be filled in over the whole of a pointer: four of them or eight, they are the pointer to nothing, which a pointer may be compared with.

Every other form is refused with its line: it may be right, but nobody has looked.
"""
import re
import sys

LAYOUT = "e-m:e-p270:32:32-p271:32:32-p272:64:64-i64:64-i128:128-f80:128-n8:16:32:64-S128"
TRIPLE = "x86_64-unknown-linux-gnu"
# How a function touches each page of a large frame.
PROBES = ' "probe-stack"="inline-asm" "stack-probe-size"="3072"'
# What is known of a function; that it be put into its callers or not is advice.
PLAIN = f'{{ nounwind{PROBES} "target-cpu"="x86-64" }}'
ATTRIBUTES = {PLAIN.replace("nounwind", advice + "nounwind") for advice in ("", "alwaysinline ", "noinline ")}
POINTER = 8


class Refused(Exception):
    """The module has another form than the known one."""


class Object:
    """A piece of memory. An object that was made one with another is `shift` bytes into `root`."""

    def __init__(self, name):
        self.name, self.root, self.shift = name, None, 0
        self.pointers = {}  # place: the place in an object that a pointer stored here points to
        self.numbers = set()  # place, bytes
        self.edges = set()  # places that may not lie within a pointer: where a copy or a filling with zeros begins or ends
        self.varying = False  # is also reached at places that aren't constant
        self.narrow = False  # is as wide as a pointer of the target, and no wider


def find(place):
    """A place by its root: the object, and the offset in it, or None where that isn't constant."""
    node, offset = place
    while node.root is not None:
        offset = None if offset is None else offset + node.shift
        node = node.root
    return node, offset


def join(left, right):
    """Makes the objects of two places one, so that the two are the same place."""
    pairs = [(left, right)]
    while pairs:
        (one, at), (other, there) = map(find, pairs.pop())
        if one is other:
            one.varying |= at is None or there is None or at != there
            continue
        shift = 0 if at is None or there is None else at - there
        one.varying |= other.varying or at is None or there is None
        one.narrow |= other.narrow
        other.root, other.shift = one, shift
        one.numbers |= {(place + shift, count) for place, count in other.numbers}
        one.edges |= {place + shift for place in other.edges}
        for place, target in other.pointers.items():
            mine = one.pointers.setdefault(place + shift, target)
            if mine is not target:
                pairs.append((mine, target))


def pointed(place, name):
    """What the pointer that stands at a place points to."""
    node, offset = find(place)
    if offset is None:
        node.varying, offset = True, 0
    return node.pointers.setdefault(offset, (Object(name), 0))


def number(place, count):
    """A number of so many bytes is read or written at a place."""
    node, offset = find(place)
    if offset is None:
        node.varying = True
    else:
        node.numbers.add((offset, count))


NAME = r'@(?:"[^"]+"|[\w.]+)'
INT = r"i(?:1|8|16|32|64)"
VALUE = r"(?:%[\w.]+|-?\d+|true|false)"
GIVEN = rf"(?:{VALUE}|@static\.\d+)"
PAIR = rf"\{{ (?:{INT}|ptr), (?:{INT}|ptr) \}}"
RESULT = rf"(?:void|{INT}|ptr|{PAIR})"
BINARY = r"(?:add|sub|mul|udiv|urem|sdiv|srem|and|or|xor|shl|lshr|ashr)"
NOTES = r"(?:, !\w+ !\d+)*"

FORMS = {
    name: re.compile(pattern)
    for name, pattern in {
        "alloca": rf"(%r\d+) = alloca (\[\d+ x i8\]|{INT}|ptr), align \d+",
        "load": rf"(%r\d+) = load ({INT}|ptr|{PAIR}), ptr (%[ra]\d+), align (\d+){NOTES}",
        "store": rf"store ({INT}|ptr) ({GIVEN}), ptr (%[ra]\d+), align (\d+)",
        "offset": rf"(%r\d+) = getelementptr (?:inbounds nuw )?i8, ptr (%[ra]\d+), i64 ({VALUE})",
        "copy": r"call void @llvm\.memmove\.p0\.p0\.i64\(ptr (%[ra]\d+), ptr (%[ra]\d+), i64 (\d+), i1 false\)",
        "fill": r"call void @llvm\.memset\.p0\.i64\(ptr (%[ra]\d+), i8 (\d+), i64 (\d+), i1 false\)",
        "trap": r"call void @llvm\.trap\(\)",
        "call": rf"(?:(%r\d+) = )?call ({RESULT}) ({NAME})\((.*)\)",
        "part": rf"(%r\d+) = extractvalue ({PAIR}) (%r\d+), ([01])",
        "binary": rf"%r\d+ = {BINARY}(?: nuw| nsw| exact)* {INT} {VALUE}, {VALUE}",
        "compare": rf"%r\d+ = icmp (?:\w+ {INT} {VALUE}, {VALUE}|(?:eq|ne) ptr %[ra]\d+, null)",
        "convert": rf"%r\d+ = (?:zext|sext|trunc)(?: nuw| nsw| nneg)* {INT} {VALUE} to {INT}",
        "jump": rf"br (?:label %[\w.]+|i1 {VALUE}, label %[\w.]+, label %[\w.]+)",
        "switch": rf"switch {INT} {VALUE}, label %[\w.]+ \[|{INT} -?\d+, label %[\w.]+|\]",
        "give": rf"ret (?:void|({INT}|ptr|{PAIR}) ({VALUE}))",
        "unreachable": "unreachable",
    }.items()
}
LABEL = re.compile(r"[\w.]+:(?: +; (?:preds = .*|No predecessors!))?")
DEFINE = re.compile(rf"define (internal )?(?:noundef (?:zeroext )?)?({RESULT}) ({NAME})\((.*)\) #(\d) \{{")
PARAMETER = re.compile(rf"({INT}|ptr) (?:noundef )?(?:zeroext )?(%a\d+)")
ARGUMENT = re.compile(rf"({INT}|ptr) (?:zeroext )?({GIVEN})")
EMPTY = re.compile(r"(@static\.\d+) = private unnamed_addr constant \[0 x i8\] zeroinitializer, align [1248]")
OTHER = re.compile(
    r'|;.*|source_filename = "rattle"|!llvm\.ident = !\{!\d+\}|!\d+ = !\{(?:|i8 0, i8 2|!"rattle logic=[0-9a-f]+")\}'
)
KNOWN = "{{ nocallback nofree nounwind willreturn memory(argmem: {}) }}"
# What fills and copies memory, what ends a program where it is proved never to come, and what the compiler may know of it.
INTRINSICS = {
    "declare void @llvm.memmove.p0.p0.i64(ptr writeonly captures(none), ptr readonly captures(none), i64, i1 immarg)": KNOWN.format("readwrite"),
    "declare void @llvm.memset.p0.i64(ptr writeonly captures(none), i8, i64, i1 immarg)": KNOWN.format("write"),
    "declare void @llvm.trap()": "{ cold noreturn nounwind memory(inaccessiblemem: write) }",
}


def parts(pattern, text, line):
    """The comma-separated parts of a list, each of this form."""
    found = [pattern.fullmatch(part) for part in text.split(", ")] if text else []
    if None in found:
        raise Refused(f"line {line}: an argument of a form that isn't known: {text}")
    return [match.groups() for match in found]


class Module:
    """A module that has the known form, with what its memory holds."""

    def __init__(self, text):
        self.objects = []
        self.exported = {}  # the exported functions: what each returns and the types of its arguments
        self.parameters = {}
        self.results = {}  # of each function the type, and where each pointer of it points to
        self.empty = {}  # where a list without bytes stands
        self.instructions = 0
        body = self.heads(text.splitlines())
        for name, lines in body.items():
            self.function(name, lines)
        for node in self.objects:
            if node.root is None:
                check(node)
        for name in self.exported:
            self.check_lent(name)

    def summary(self):
        roots = [node for node in set(self.objects) if node.root is None]
        holding = sum(1 for node in roots if node.pointers)
        return (f"{len(self.parameters)} functions, {self.instructions:,} instructions, {len(roots):,} pieces of memory, {holding} of them "
                "with pointers: none is taken for a number")

    def new(self, name):
        self.objects.append(Object(name))
        return self.objects[-1]

    def heads(self, lines):
        """Reads what stands outside of functions, and gives the numbered lines of each function."""
        body, current, seen, declared, functions = {}, None, set(), {}, set()
        for number_, line in enumerate(lines, 1):
            if current is not None:
                if line == "}":
                    current = None
                else:
                    body[current].append((number_, line))
            elif match := DEFINE.fullmatch(line):
                internal, result, current, arguments, attributes = match.groups()
                functions.add(attributes)
                body[current] = []
                arguments = parts(PARAMETER, arguments, number_)
                self.parameters[current] = [(name, (self.new(f"{current} {name}"), 0) if kind == "ptr" else None) for kind, name in arguments]
                self.results[current] = (result, [(self.new(current), 0) if kind == "ptr" else None for kind in kinds(result)])
                if internal is None:
                    if result != "void" and not re.fullmatch(INT, result):
                        raise Refused(f"line {number_}: C is given {result} by {current}")
                    self.exported[current] = (result, [kind for kind, _ in arguments])
            elif match := re.fullmatch(r'target (datalayout|triple) = "(.*)"', line):
                if match[2] != {"datalayout": LAYOUT, "triple": TRIPLE}[match[1]]:
                    raise Refused(f"line {number_}: another {match[1]} than the known one: {line}")
                seen.add(match[1])
            elif match := EMPTY.fullmatch(line):
                self.empty[match[1]] = (self.new(match[1]), 0)
            elif (match := re.fullmatch(r"(declare .*) #(\d)", line)) and match[1] in INTRINSICS:
                declared[match[2]] = INTRINSICS[match[1]]
            elif match := re.fullmatch(r"attributes #(\d) = (.*)", line):
                seen.add(match[1])
                if not (match[1] in functions and match[2] in ATTRIBUTES) and declared.get(match[1]) != match[2]:
                    raise Refused(f"line {number_}: another attributes than the known ones: {line}")
            elif not OTHER.fullmatch(line):
                raise Refused(f"line {number_}: a form that isn't known: {line}")
        if missing := {"datalayout", "triple"} - seen:
            raise Refused(f"the module has no {' and no '.join(sorted(missing))}")
        if missing := (functions | set(declared)) - seen:
            raise Refused(f"the module has no attributes {', '.join(sorted(missing))}")
        return body

    def function(self, name, lines):
        places = {**self.empty, **{parameter: place for parameter, place in self.parameters[name] if place}}
        self.current = name
        for number_, line in lines:
            text = line.strip()
            if not text or LABEL.fullmatch(text):
                continue
            for form, pattern in FORMS.items():
                if match := pattern.fullmatch(text):
                    break
            else:
                raise Refused(f"line {number_}: an instruction of a form that isn't known: {text}")
            self.instructions += 1
            try:
                getattr(self, form, nothing)(places, f"{name} line {number_}", *match.groups())
            except KeyError as error:
                raise Refused(f"line {number_}: {error} isn't a pointer that was followed: {text}") from None

    def alloca(self, places, where, result, kind):
        places[result] = (self.new(where), 0)
        places[result][0].narrow = kind == "ptr"

    def load(self, places, where, result, kind, source, alignment):
        node, offset = places[source]
        for part, (each, at) in enumerate(zip(kinds(kind), starts(kind, where))):
            place = (node, None if offset is None else offset + at)
            if each == "ptr":
                aligned(where, alignment)
                target = pointed(place, where)
                self.objects.append(target[0])
                places[result if kind == "ptr" else (result, part)] = target
            else:
                number(place, size_of(each))

    def store(self, places, where, kind, value, target, alignment):
        if kind == "ptr":
            aligned(where, alignment)
            held = pointed(places[target], where)
            self.objects.append(held[0])
            join(held, places[value])
        else:
            number(places[target], size_of(kind))

    def offset(self, places, _, result, source, by):
        node, at = places[source]
        places[result] = (node, at + int(by) if by.lstrip("-").isdigit() and at is not None else None)

    def copy(self, places, _, target, source, count):
        self.ends(places, target, count)
        self.ends(places, source, count)
        join(places[target], places[source])

    def fill(self, places, _, target, value, count):
        if int(value) == 0 and find(places[target])[1] is not None:
            self.ends(places, target, count)
        else:
            number(places[target], int(count))

    def ends(self, places, name, count):
        node, offset = find(places[name])
        if offset is not None:
            node.edges |= {offset, offset + int(count)}

    def part(self, places, where, result, kind, pair, part):
        if kinds(kind)[int(part)] == "ptr":
            places[result] = places[pair, int(part)]

    def give(self, places, where, kind, value):
        result, targets = self.results[self.current]
        if (kind or "void") != result:
            raise Refused(f"{where}: {kind} is given back, and not {result}")
        for part, target in enumerate(targets):
            if target is not None:
                join(target, places[value if kind == "ptr" else (value, part)])

    def call(self, places, where, result, kind, callee, arguments):
        if callee not in self.parameters:
            raise Refused(f"{where}: a call of {callee}, which the module doesn't define")
        given = parts(ARGUMENT, arguments, where)
        if len(given) != len(self.parameters[callee]):
            raise Refused(f"{where}: a call of {callee} with {len(given)} arguments")
        for (each, value), (name, place) in zip(given, self.parameters[callee]):
            if (each == "ptr") != (place is not None):
                raise Refused(f"{where}: {value} as {name} of {callee}: a pointer and a number")
            if place is not None:
                join(place, places[value])
        given_back, targets = self.results[callee]
        if given_back != kind:
            raise Refused(f"{where}: {callee} gives {given_back} back, and not {kind}")
        if result is not None:
            places.update({result if kind == "ptr" else (result, part): target for part, target in enumerate(targets) if target is not None})

    def check_lent(self, name):
        """What C lends has C's layout, in which pointers are narrower: it may hold none."""
        for parameter, place in self.parameters[name]:
            if place and find(place)[0].pointers:
                raise Refused(f"{name}: {parameter} points to memory that holds a pointer")


def nothing(*_):
    """An instruction on numbers alone, or one that goes elsewhere: no memory, no pointer."""


def size_of(kind, pointer=POINTER):
    return pointer if kind == "ptr" else max(1, int(kind[1:]) // 8)


def kinds(result):
    """The types of a pair's parts, or of what is no pair."""
    return [] if result == "void" else result.strip("{ }").split(", ")


def starts(kind, where):
    """Where the parts of a type begin. A pair whose second part lies elsewhere where pointers are shorter is refused."""
    if len(kinds(kind)) == 1:
        return [0]
    first, second = kinds(kind)
    places = {-(-size_of(first, pointer) // size_of(second, pointer)) * size_of(second, pointer) for pointer in (POINTER // 2, POINTER)}
    if len(places) > 1:
        raise Refused(f"{where}: {kind} has its second part elsewhere where pointers are shorter")
    return [0, *places]


def aligned(where, alignment):
    """Refuses a pointer that stands elsewhere than at a multiple of its size; one that is said to stand anywhere may stand there."""
    if int(alignment) not in (1, POINTER):
        raise Refused(f"{where}: a pointer that stands at a multiple of {alignment} bytes, and not of {POINTER}")


def check(node):
    """Refuses an object in which a pointer's bytes are also something else."""
    if node.narrow and (node.edges or node.numbers or node.varying):
        raise Refused(f"memory of {node.name}: it is as wide as a pointer, and is copied or filled as bytes, holds a number or is reached at any place")
    if node.varying and node.pointers:
        raise Refused(f"memory of {node.name}: it holds a pointer and is reached at places that aren't constant")
    for at in node.pointers:
        if at % POINTER:
            raise Refused(f"memory of {node.name}: a pointer at place {at}")
        for place, count in node.numbers:
            if place < at + POINTER and at < place + count:
                raise Refused(f"memory of {node.name}: a pointer at place {at}, and a number of {count} bytes at {place}")
        for other in node.pointers:
            if at < other < at + POINTER:
                raise Refused(f"memory of {node.name}: pointers at places {at} and {other}")
        for edge in node.edges:
            if at < edge < at + POINTER:
                raise Refused(f"memory of {node.name}: a pointer at place {at}, and a copy or filling of a part of it")


FRAME = f"""target datalayout = "{LAYOUT}"
target triple = "{TRIPLE}"
define void @start(ptr noundef %a0, i64 noundef %a1) #0 {{
start:
BODY
  ret void
}}
define internal void @read(ptr noundef %a0) #0 {{
start:
  %r0 = load i64, ptr %a0, align 8, !noundef !1
  ret void
}}
define internal void @follow(ptr noundef %a0) #0 {{
start:
  %r0 = load ptr, ptr %a0, align 8, !noundef !1
  %r1 = load i8, ptr %r0, align 1, !noundef !1
  ret void
}}
define internal {{ ptr, i64 }} @slice(ptr noundef %a0) #0 {{
start:
  %r0 = load {{ ptr, i64 }}, ptr %a0, align 8
  ret {{ ptr, i64 }} %r0
}}
attributes #0 = {PLAIN}
!1 = !{{}}
"""
SLICE = """  %r0 = alloca [16 x i8], align 8
  store ptr %a0, ptr %r0, align 8
  %r1 = getelementptr i8, ptr %r0, i64 8
  store i64 %a1, ptr %r1, align 8
"""
COPY = SLICE + """  %r2 = alloca [16 x i8], align 8
  call void @llvm.memmove.p0.p0.i64(ptr %r2, ptr %r0, i64 16, i1 false)
"""
PAIR_OF = "  %r3 = call { ptr, i64 } @slice(ptr %r0)\n  %r4 = extractvalue { ptr, i64 } %r3, 0\n"
LENGTH = "  %r9 = getelementptr i8, ptr %r2, i64 8\n"

# What a body does, the body, and what the refusal says; None for a body that is right.
ROWS = [
    ("a slice is made, copied and followed", COPY + "  call void @follow(ptr %r2)\n" + LENGTH + "  call void @read(ptr %r9)", None),
    ("its bytes are reached at any place", SLICE + "  %r2 = load ptr, ptr %r0, align 8\n  %r3 = getelementptr i8, ptr %r2, i64 %a1\n"
     "  %r4 = load i8, ptr %r3, align 1", None),
    ("a number is compared", "  %r0 = icmp ult i64 %a1, 7", None),
    ("a pointer is read as a number", SLICE + "  %r2 = load i64, ptr %r0, align 8", "a pointer at place 0, and a number of 8 bytes at 0"),
    ("its upper half is", SLICE + "  %r2 = getelementptr i8, ptr %r0, i64 4\n  %r3 = load i32, ptr %r2, align 4", "a number of 4 bytes at 4"),
    ("a copy of it is", COPY + "  %r3 = load i64, ptr %r2, align 8", "a pointer at place 0, and a number"),
    ("another function does it", COPY + "  call void @read(ptr %r2)", "a pointer at place 0, and a number"),
    ("a number is followed", SLICE + "  call void @follow(ptr %r1)", "and a number of 8 bytes"),
    ("through a pointer to it", COPY + "  %r3 = alloca ptr, align 8\n  store ptr %r2, ptr %r3, align 8\n  %r4 = load ptr, ptr %r3, align 8\n"
     "  %r5 = load i64, ptr %r4, align 8", "a pointer at place 0, and a number"),
    ("a pointer is made of zeros", SLICE + "  call void @llvm.memset.p0.i64(ptr %r0, i8 0, i64 16, i1 false)", None),
    ("of ones", SLICE + "  call void @llvm.memset.p0.i64(ptr %r0, i8 1, i64 16, i1 false)", "a number of 16 bytes"),
    ("half of it is", SLICE + "  call void @llvm.memset.p0.i64(ptr %r0, i8 0, i64 4, i1 false)", "filling of a part of it"),
    ("any of it is", SLICE + "  %r2 = getelementptr i8, ptr %r0, i64 %a1\n"
     "  call void @llvm.memset.p0.i64(ptr %r2, i8 0, i64 8, i1 false)", "places that aren't constant"),
    ("its zeros are read", SLICE + "  call void @llvm.memset.p0.i64(ptr %r0, i8 0, i64 16, i1 false)\n  %r2 = load i8, ptr %r0, align 1",
     "a pointer at place 0, and a number of 1 bytes at 0"),
    ("a slice at nothing is given a place, as exported functions do it", """  %r0 = icmp eq ptr %a0, null
  %r1 = zext i1 %r0 to i64
  %r2 = mul i64 %r1, 4096
  %r3 = getelementptr i8, ptr %a0, i64 %r2
  %r4 = alloca [16 x i8], align 8
  store ptr %r3, ptr %r4, align 8
  %r5 = load ptr, ptr %r4, align 1
  %r6 = load i8, ptr %r5, align 1""", None),
    ("half a pointer is copied", SLICE + "  %r2 = alloca [16 x i8], align 8\n"
     "  call void @llvm.memmove.p0.p0.i64(ptr %r2, ptr %r0, i64 4, i1 false)", "a copy or filling of a part of it"),
    ("a variable that is a pointer is copied as bytes", "  %r0 = alloca ptr, align 8\n  %r1 = alloca [8 x i8], align 8\n"
     "  call void @llvm.memmove.p0.p0.i64(ptr %r1, ptr %r0, i64 8, i1 false)", "as wide as a pointer"),
    ("it holds a number", "  %r0 = alloca ptr, align 8\n  store i64 %a1, ptr %r0, align 8", "as wide as a pointer"),
    ("it is filled", "  %r0 = alloca ptr, align 8\n  call void @llvm.memset.p0.i64(ptr %r0, i8 0, i64 8, i1 false)", "as wide as a pointer"),
    ("a pointer is read from what C lends", "  %r0 = load ptr, ptr %a0, align 8", "memory that holds a pointer"),
    ("a slice is given back and followed", SLICE + PAIR_OF + "  %r5 = load i8, ptr %r4, align 1", None),
    ("what is given back is read as a number", SLICE + PAIR_OF + "  %r5 = alloca [8 x i8], align 8\n  store ptr %r4, ptr %r5, align 8\n"
     "  %r6 = load i64, ptr %r5, align 8", "a pointer at place 0, and a number"),
    ("two numbers are given back as a slice", "  %r0 = alloca [16 x i8], align 8\n  store i64 %a1, ptr %r0, align 8\n" + PAIR_OF,
     "a pointer at place 0, and a number of 8 bytes"),
    ("where a slice's number stands a pointer is read", SLICE + PAIR_OF + "  %r5 = load ptr, ptr %r1, align 8", "a pointer at place 8, and a number"),
    ("two numbers are read", "  %r0 = alloca [16 x i8], align 8\n  store i64 %a1, ptr %r0, align 8\n  %r1 = load { i8, i64 }, ptr %r0, align 8", None),
    ("a pointer behind a short number", "  %r0 = alloca [16 x i8], align 8\n  %r1 = load { i8, ptr }, ptr %r0, align 8", "elsewhere where pointers are shorter"),
    ("two pointers", "  %r0 = alloca [16 x i8], align 8\n  %r1 = load { ptr, ptr }, ptr %r0, align 8", "elsewhere where pointers are shorter"),
    ("a byte and a pointer, whose place has a number", "  %r0 = alloca [16 x i8], align 8\n  %r1 = load { i8, ptr }, ptr %r0, align 8\n"
     "  %r2 = getelementptr i8, ptr %r0, i64 8\n  store i64 %a1, ptr %r2, align 8", "elsewhere where pointers are shorter"),
    ("a slice is taken for two numbers", SLICE + "  %r3 = call { i64, i64 } @slice(ptr %r0)", "gives { ptr, i64 } back"),
    ("a number is given back for nothing", "  ret i64 %a1", "i64 is given back, and not void"),
    ("a pointer stands at any place", "  %r0 = alloca [64 x i8], align 8\n  %r1 = getelementptr i8, ptr %r0, i64 %a1\n"
     "  store ptr %a0, ptr %r1, align 8", "places that aren't constant"),
    ("two of 4 bytes", SLICE + "  %r2 = getelementptr i8, ptr %r0, i64 4\n  store ptr %a0, ptr %r2, align 4", "multiple of 4 bytes"),
    ("ptrtoint", "  %r0 = ptrtoint ptr %a0 to i64", "a form that isn't known"),
    ("inttoptr", "  %r0 = inttoptr i64 %a1 to ptr", "a form that isn't known"),
    ("pointers are compared", "  %r0 = icmp eq ptr %a0, %a0", "a form that isn't known"),
    ("a pointer is below another", "  %r0 = icmp ult ptr %a0, null", "a form that isn't known"),
    ("a function that isn't there is called", "  call void @other(ptr %a0)", "doesn't define"),
    ("a number is given for a pointer", "  call void @read(i64 %a1)", "a pointer and a number"),
    ("inline assembly", '  call void asm "nop", ""()', "a form that isn't known"),
]


def refusal(text):
    try:
        Module(text)
    except Refused as refused:
        return str(refused)
    return None


def self_test():
    texts = [(name, FRAME.replace("BODY", body.rstrip("\n")), said) for name, body, said in ROWS]
    plain = FRAME.replace("BODY", "  %r0 = icmp ult i64 %a1, 7")
    copying, empty = next(iter(INTRINSICS)), "@static.0 = private unnamed_addr constant [0 x i8] zeroinitializer, align 4\n"
    texts += [
        ("another data layout", plain.replace("i64:64", "i64:32"), "another datalayout"),
        ("another triple", plain.replace(TRIPLE, "aarch64-unknown-linux-gnu"), "another triple"),
        ("other attributes", plain.replace("nounwind", "nounwind uwtable"), "another attributes"),
        ("advice", plain.replace("nounwind", "alwaysinline nounwind"), None),
        ("a function of no attributes", plain.replace("@read(ptr noundef %a0) #0", "@read(ptr noundef %a0) #1"), "no attributes 1"),
        ("a pair for C", plain.replace("internal { ptr", "{ ptr"), "C is given"),
        ("no layout", plain[plain.index("\n") + 1:], "no datalayout"),
        ("a flag of the module's", plain + '!llvm.module.flags = !{!1}\n', "a form that isn't known"),
        ("a variable", "@counter = global i64 0\n" + plain, "a form that isn't known"),
        ("a table", "@static.0 = private unnamed_addr constant [1 x i8] zeroinitializer, align 1\n" + plain, "a form that isn't known"),
        ("a list without bytes", empty + plain.replace("%a1, 7", "%a1, 7\n" + SLICE.replace("ptr %a0, ptr", "ptr @static.0, ptr").replace("%r0", "%r9")
                                                      + "  call void @follow(ptr %r9)"), None),
        ("one that holds a pointer and a number", empty + plain.replace("%a1, 7", "%a1, 7\n  call void @follow(ptr @static.0)\n"
                                                                       "  call void @read(ptr @static.0)"), "a pointer at place 0"),
        ("a function from elsewhere", "declare ptr @malloc(i64)\n" + plain, "a form that isn't known"),
        ("a copy is known", f"{copying} #2\n" + plain + f"attributes #2 = {KNOWN.format('readwrite')}\n", None),
        ("it only writes", f"{copying} #2\n" + plain + f"attributes #2 = {KNOWN.format('write')}\n", "another attributes"),
        ("the end of a program is known", "declare void @llvm.trap() #3\n" + plain.replace("%a1, 7", "%a1, 7\n  call void @llvm.trap()")
         + "attributes #3 = { cold noreturn nounwind memory(inaccessiblemem: write) }\n", None),
        ("it may return", "declare void @llvm.trap() #3\n" + plain + "attributes #3 = { cold nounwind memory(inaccessiblemem: write) }\n", "another attributes"),
        ("attributes of nothing", plain + f"attributes #2 = {KNOWN.format('write')}\n", "another attributes"),
    ]
    for name, text, said in texts:
        got = refusal(text)
        if (got is None) != (said is None) or (said is not None and said not in got):
            raise Refused(f"self-test: {name}: {got}")
    print(f"nodes/module.py: self-test: {len(texts)} modules judged as they must be")


def main(words):
    if words == ["--self-test"]:
        return self_test()
    with open(words[0], encoding="utf-8") as text:
        print(Module(text.read()).summary())


if __name__ == "__main__":
    try:
        main(sys.argv[1:])
    except Refused as refused_:
        sys.exit(f"nodes/module.py: {refused_}")
