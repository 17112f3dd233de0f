#!/usr/bin/env python3
"""A second opinion on header texts, for checking the reference's reader and the proved one.

Standard input: one header a line, in hexadecimal, `-` for no bytes; further words on a line are an expected answer.
Standard output: for each line the answer of the specification's header grammar: 5, 7 or 8 alone, or 0 with a word for each member
of the top object, `kind:name start:name end:value start:value end`, and then the reading in one word.
With --members: without the reading.
With --compare: prints only the lines whose expected answer differs and a tally; ends with status 1 if any differ.

    cargo run --release --bin headers -- 1 50000 | python3 tools/json_oracle.py --compare

It works otherwise than the reference: Python's UTF-8 decoder, a tokenizer of regular expressions, and a machine of
states with its own stack; strings are resolved by Python's json module. Each verdict is then checked against
`json.loads` of the whole text, which must agree except where a house rule of the specification says otherwise.
"""

import collections
import json
import re
import sys

HEADER_MAX = 4096
DEPTH_MAX = 16
KINDS = {"string": 1, "number": 2, "true": 3, "false": 4, "null": 5, "array": 6, "object": 7}

# White space (RFC 8259 section 2) stands between tokens. Digits of \u are capital or small (section 7).
TOKEN = re.compile(
    rb"(?P<space>[ \t\n\r]+)"
    rb'|(?P<string>"(?:[^"\\\x00-\x1f]|\\["\\/bfnrt]|\\u[0-9A-Fa-f]{4})*")'
    rb"|(?P<number>-?(?:0|[1-9][0-9]*)(?:\.[0-9]+)?(?:[eE][+-]?[0-9]+)?)"
    rb"|(?P<true>true)|(?P<false>false)|(?P<null>null)"
    rb"|(?P<punctuation>[{}\[\]:,])"
)


class NotDerived(Exception):
    """Answer 7."""


class Node:
    """A value: its kind, its place, and its reading or children."""

    def __init__(self, kind, start):
        self.kind = kind
        self.start = start
        self.end = None
        self.scalar = None  # a string's value, a number's characters
        self.items = []  # of an array: nodes; of an object: (name, name start, name end, node)


def tokens(header):
    """The tokens of the bytes without white space: kind, start, end. Raises NotDerived."""
    at = 0
    while at < len(header):
        match = TOKEN.match(header, at)
        if not match:
            raise NotDerived
        kind = match.lastgroup
        if kind == "punctuation":
            kind = match.group().decode()
        if kind != "space":
            yield kind, match.start(), match.end()
        at = match.end()


def resolve(written):
    """A string's value from its bytes with quotes. Raises NotDerived for a surrogate that isn't one of a pair."""
    value = json.loads(written.decode("utf-8"))
    if any(0xD800 <= ord(c) <= 0xDFFF for c in value):
        raise NotDerived
    return value


def tree(header):
    """The top object. Raises NotDerived. States say what may come next."""
    stack = []  # open arrays and objects
    name = None  # of the member whose value is due: value, start, end
    top = None
    state = "text"
    for kind, start, end in tokens(header):
        if state == "done":
            raise NotDerived
        if state == "text" and kind != "{":
            raise NotDerived
        if state in ("text", "value", "value or ]"):
            if kind == "]" and state == "value or ]":
                stack[-1].end = end
                stack.pop()
                state = after(stack)
                continue
            node = scalar_or_open(header, kind, start, end)
            if not stack:
                top = node
            elif stack[-1].kind == "array":
                stack[-1].items.append(node)
            else:
                stack[-1].items.append((*name, node))
            if node.kind in ("array", "object"):
                stack.append(node)
                if len(stack) > DEPTH_MAX:
                    raise NotDerived
                state = "value or ]" if node.kind == "array" else "name or }"
            else:
                state = after(stack)
        elif state in ("name", "name or }"):
            if kind == "}" and state == "name or }":
                stack[-1].end = end
                stack.pop()
                state = after(stack)
            elif kind == "string":
                name = (resolve(header[start:end]), start + 1, end - 1)
                state = ":"
            else:
                raise NotDerived
        elif state == ":":
            if kind != ":":
                raise NotDerived
            state = "value"
        elif state == ", or close":
            opened = stack[-1].kind
            if kind == ",":
                state = "value" if opened == "array" else "name"
            elif kind == ("]" if opened == "array" else "}"):
                stack[-1].end = end
                stack.pop()
                state = after(stack)
            else:
                raise NotDerived
    if state != "done":
        raise NotDerived
    return top


def after(stack):
    """The state after a whole value."""
    return ", or close" if stack else "done"


def scalar_or_open(header, kind, start, end):
    """The node that a value's first token begins. Raises NotDerived."""
    if kind in ("[", "{"):
        return Node("array" if kind == "[" else "object", start)
    if kind not in KINDS:
        raise NotDerived
    node = Node(kind, start)
    node.end = end
    if kind == "string":
        node.scalar = resolve(header[start:end])
        node.start += 1
        node.end -= 1
    elif kind == "number":
        node.scalar = header[start:end].decode()
    return node


def name_twice(node):
    """Whether an object at any depth has a name twice."""
    if node.kind == "object":
        names = [item[0] for item in node.items]
        return len(set(names)) < len(names) or any(name_twice(item[3]) for item in node.items)
    return any(name_twice(item) for item in node.items)


def hexadecimal(text):
    return text.encode("utf-8").hex()


def reading(node):
    """The tree of values in one word."""
    if node.kind == "string":
        return '"%s"' % hexadecimal(node.scalar)
    if node.kind == "number":
        return node.scalar
    if node.kind == "array":
        return "[%s]" % ",".join(reading(item) for item in node.items)
    if node.kind == "object":
        return "{%s}" % ",".join("%s=%s" % (hexadecimal(item[0]), reading(item[3])) for item in node.items)
    return node.kind


def member_words(top):
    for _, name_start, name_end, value in top.items:
        yield "%d:%d:%d:%d:%d" % (KINDS[value.kind], name_start, name_end, value.start, value.end)


def answer(header, with_reading):
    """The answer to a header, as it is printed."""
    if len(header) > HEADER_MAX:
        return "5"
    try:
        text = header.decode("utf-8")
    except UnicodeDecodeError:
        return "7"
    try:
        top = tree(header)
    except NotDerived:
        check_refused(text)
        return "7"
    check_read(text, top)
    if name_twice(top):
        return "8"
    return " ".join(["0", *member_words(top), *([reading(top)] if with_reading else [])])


# The check against Python's json module.


class Pairs(list):
    """An object as json.loads hands it out: its members in order, names twice and all."""


class Number(str):
    """A number's written characters."""


def refuse_constant(word):
    raise ValueError(word)


def loads(text):
    return json.loads(
        text,
        object_pairs_hook=Pairs,
        parse_int=Number,
        parse_float=Number,
        parse_constant=refuse_constant,
    )


def loaded_reading(value):
    if isinstance(value, Pairs):
        return "{%s}" % ",".join("%s=%s" % (hexadecimal(k), loaded_reading(v)) for k, v in value)
    if isinstance(value, list):
        return "[%s]" % ",".join(loaded_reading(v) for v in value)
    if isinstance(value, Number):
        return str(value)
    if isinstance(value, str):
        return '"%s"' % hexadecimal(value)
    return {True: "true", False: "false", None: "null"}[value]


def depth(value):
    if isinstance(value, Pairs):
        return 1 + max((depth(v) for _, v in value), default=0)
    if isinstance(value, list):
        return 1 + max((depth(v) for v in value), default=0)
    return 0


def has_lone_surrogate(value):
    if isinstance(value, Pairs):
        return any(has_lone_surrogate(k) or has_lone_surrogate(v) for k, v in value)
    if isinstance(value, list):
        return any(has_lone_surrogate(v) for v in value)
    return isinstance(value, str) and any(0xD800 <= ord(c) <= 0xDFFF for c in value)


def check_read(text, top):
    if reading(top) != loaded_reading(loads(text)):
        raise AssertionError("read otherwise by json.loads: %r" % text)


def check_refused(text):
    """json.loads refuses too, or a house rule is the reason."""
    try:
        value = loads(text)
    except (ValueError, RecursionError):
        return
    house_rule = not isinstance(value, Pairs) or depth(value) > DEPTH_MAX or has_lone_surrogate(value)
    if not house_rule:
        raise AssertionError("read by json.loads: %r" % text)


def main():
    options = sys.argv[1:]
    compare = "--compare" in options
    with_reading = "--members" not in options
    if not set(options) <= {"--compare", "--members"}:
        sys.exit("usage: json_oracle.py [--members] [--compare] < headers")
    tally = collections.Counter()
    differing = 0
    for line in sys.stdin:
        word, _, expected = line.rstrip("\n").partition(" ")
        header = b"" if word == "-" else bytes.fromhex(word)
        given = answer(header, with_reading)
        tally[given[0]] += 1
        if not compare:
            print(given)
        elif given != expected:
            differing += 1
            print("%s\n  expected %s\n  oracle   %s" % (header, expected, given))
    if compare:
        counts = ", ".join("%s: %d" % pair for pair in sorted(tally.items()))
        print("%d headers (%s), %d differ" % (sum(tally.values()), counts, differing))
        sys.exit(1 if differing else 0)


if __name__ == "__main__":
    main()
