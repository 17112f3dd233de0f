#!/usr/bin/env python3
"""Spells the repository's own definitions and lemmas as today's Rattle does, after port.py: words and lemmas in snake case, without dashes.

usage: python3 tools/respell.py        at the top of the repository, once

Renamed are the names that a file of specs/ or proofs/ declares, wherever a text of the repository has them: in definitions, lemmas and
proofs, in the clauses and ghost items of src/, in must-fail edits, and between backticks in README.md and docs/. Types, modules, functions of
src/, exported names, strings and files keep their names. What would meet another name gets `_lem`, and a line says so.

It also gives the crate `json`, which is a library of the kit, the name `json_header`, and makes one module of two that Rattle would name
alike: json_reader's definitions `Contracts` are `Reads`.
"""
import collections
import glob
import os
import re
import subprocess

DECLARED = re.compile(r"^\s*(?:pub )?(?:abbrev |unfoldable )?(?:pub )?((?:[^\s:(){}]+ )*?)([^\s:(){};,]+)((?: \{[^{}]*\})*) :(?:\s|$)")
WORD = r"[^\s(){}\[\].;,:\"«»`⌜⌝⦃⦄]+"
GENERATED = re.compile(r"/proofs/(?:.*/)?(?:Proof|Answers|Invariants)\.antt$")
LETTERED = re.compile(r"[a-zA-Z][\w'₀-₉′-]*$")
FORMS = {"abbrev", "unfoldable", "pub", "data", "record", "use", "module", "mutual", "let", "in", "where", "unfolding", "elim"}


def snake(name):
    return re.sub(r"(?<=[a-z0-9])[A-Z]+[0-9]*", lambda m: "_" + m[0].lower(), name).replace("-", "_")


def read(path):
    with open(path, encoding="utf-8") as text:
        return text.read()


def write(path, text):
    with open(path, "w", encoding="utf-8") as file:
        file.write(text)


def texts():
    return sorted(p for kind in ("specs", "proofs") for p in glob.glob(f"crates/*/{kind}/**/*.antt", recursive=True))


def declared():
    """The names that files of definitions and lemmas declare at their top, in a module or in a record, each with the files."""
    names = collections.defaultdict(set)
    for path in texts():
        if GENERATED.search(path):
            continue
        for row in read(path).splitlines():
            match = DECLARED.match(row)
            for name in [*match[1].split(), match[2]] if match else []:
                if LETTERED.match(name) and name not in FORMS:
                    names[name].add(path)
    return names


def table(names):
    """Old names with new ones. A word keeps a name that a lemma would meet it in, and the lemma gets `_lem`."""
    words = {name for name in names if re.search("[a-z0-9][A-Z]", name) and "-" not in name}
    turned = {name: snake(name) for name in names if (name[0].islower() or "-" in name) and snake(name) != name}
    for name in sorted(set(names) - set(turned)):
        if any(turned[word] == name for word in words & set(turned)):
            turned[name] = name
    by_new = collections.defaultdict(list)
    for old, new in turned.items():
        by_new[new].append(old)
    there = set(names) - set(turned)
    out = {}
    for new, olds in sorted(by_new.items()):
        for at, old in enumerate(sorted(olds, key=lambda it: (it not in words, it))):
            spelled = new if not at and new not in there else new + "_lem"
            if spelled != new:
                print(f"respell: {old} is {spelled}")
            if spelled != old:
                out[old] = spelled
    return out


def unclashing(turned, names):
    """What would meet another name of some file, which no file of definitions and lemmas declares at its top."""
    word = re.compile(rf"(?<![.◌]){WORD}")
    for path in texts():
        if GENERATED.search(path):
            continue
        found = set(word.findall(re.sub("--.*", "", read(path)))) - FORMS
        for old in sorted(found & set(turned)):
            if turned[old] in found and turned[old] not in turned:
                yield old, path


def crates_renamed(old, new):
    """A crate's folder, its line and the paths that name it."""
    subprocess.run(["git", "mv", f"crates/{old}", f"crates/{new}"], check=True)
    text = read("crates.txt")
    text = re.sub(rf"^{old}:", f"{new}:", text, flags=re.M)
    text = "\n".join(
        row if row.startswith("#") else re.sub(rf"(?<=[ :]){old}(?= |$)", new, row) for row in text.split("\n")
    )
    write("crates.txt", text)
    for path in texts():
        write(path, re.sub(rf"\bRattle\.{old}\.", f"Rattle.{new}.", read(path)))
    for path in glob.glob("crates/*/src/**/*.rt", recursive=True) + glob.glob("crates/*/must-fail/*.edit"):
        text = re.sub(rf"\bRattle\.{old}\.", f"Rattle.{new}.", read(path))
        text = re.sub(rf"(?<![\w.:/`]){old}(?=::)", new, text)
        write(path, text)


def main():
    os.chdir(subprocess.check_output(["git", "rev-parse", "--show-toplevel"], text=True).strip())
    if os.path.isdir("crates/json"):
        crates_renamed("json", "json_header")
    if os.path.exists("crates/json_reader/specs/Contracts.antt"):
        subprocess.run(["git", "mv", "crates/json_reader/specs/Contracts.antt", "crates/json_reader/specs/Reads.antt"], check=True)
        for path in texts() + glob.glob("crates/*/src/**/*.rt", recursive=True) + glob.glob("crates/*/must-fail/*.edit"):
            write(path, read(path).replace("Rattle.json_reader.specs.Contracts.", "Rattle.json_reader.specs.Reads.").replace("specs/Contracts.antt", "specs/Reads.antt"))
        lib = "crates/json_reader/specs/Lib.antt"
        write(lib, read(lib).replace("pub mod Contracts", "pub mod Reads"))
    names = declared()
    turned = table(names)
    for old, path in sorted(set(unclashing(turned, names))):
        if not turned[old].endswith("_lem"):
            turned[old] += "_lem"
        print(f"respell: {old} is {turned[old]}, since {path} has the other")
    fields = {old: new for old, new in turned.items() if old in record_fields()}
    word = re.compile(rf"(?<![^\s(){{}}\[\].;,:\"«»`⌜⌝⦃⦄←◌]){WORD}")

    def turn(text, after_dot, heads=()):
        def spelled(match):
            before = text[: match.start()]
            if before.endswith("."):
                head = re.search(r"(?<![\w.-])([\w'-]+)\.$", before[-80:])
                return (turned if head and head[1] in heads else after_dot).get(match[0], match[0])
            return turned.get(match[0], match[0])

        return word.sub(spelled, text)

    for path in texts():
        heads = set(aliases(read(path)))
        write(path, "\n".join(turn(row, fields, heads) for row in read(path).split("\n")))
    for path in glob.glob("crates/*/src/**/*.rt", recursive=True):
        write(path, in_clauses(read(path), lambda part: turn(part, fields)))
    for path in glob.glob("crates/*/must-fail/*.edit"):
        rows = read(path).split("\n")
        inside = any(row.startswith("file: specs/") or row.startswith("file: proofs/") for row in rows)
        write(path, "\n".join(turn(row, fields) if inside and re.match("(old|new): ", row) else row for row in rows))
    for path in ["README.md", *glob.glob("docs/*.md")]:
        write(path, re.sub(r"`[^`\n]+`", lambda m: turn(m[0], fields), read(path)))
    print(f"respell: {len(turned)} names")


def aliases(text):
    """The short names of a file for modules of definitions and lemmas."""
    for crate, kind, module, alias in re.findall(r"^use Rattle\.(\w+)\.(specs|proofs)\.([\w.]+)(?: as (\S+))?$", text, re.M):
        if os.path.exists(f"crates/{crate}/{kind}/{module.replace('.', '/')}.antt"):
            yield alias or module.split(".")[-1]


def record_fields():
    """The names that stand as fields in a record."""
    out = set()
    for path in texts():
        if GENERATED.search(path):
            continue
        inside = None
        for row in read(path).splitlines():
            indent = len(row) - len(row.lstrip())
            if inside is not None and row.strip() and indent <= inside:
                inside = None
            if re.match(r"\s*(?:pub )?record\b", row):
                inside = indent
            elif inside is not None:
                match = DECLARED.match(row)
                if match:
                    out.add(match[2])
    return out


CLAUSE = re.compile(r"\b(?:requires|ensures|ghost)\*?(?: \w+)? \{|^ghost use [^;]*;", re.M)


def in_clauses(text, turn):
    """A source with each clause and ghost import turned."""
    out, at = [], 0
    while True:
        match = CLAUSE.search(text, at)
        if not match:
            return "".join(out) + text[at:]
        end = match.end()
        if not match[0].endswith(";"):
            depth = 1
            while depth:
                depth += {"{": 1, "}": -1}.get(text[end], 0)
                end += 1
        out += [text[at : match.start()], turn(text[match.start() : end])]
        at = end


if __name__ == "__main__":
    main()
