#!/usr/bin/env python3
"""Moves the files of theorems of the rules' crates from specs/ to proofs/: what stays in specs/ is what the contracts and other definitions say.

usage: python3 tools/move_theorems.py        at the top of the repository, after respell.py, once

A must-fail edit of a definition has to be refused by a theorem that no longer holds. Today's `rt` reads it so where the theorem stands in
proofs/; in specs/ it takes the edited text for one that can't be read. Statements and proofs stay as they are; the paths that name the files
change, in README.md and docs/ too.
"""
import glob
import os
import re
import subprocess

from respell import read, write

MOVED = {
    "common": "FirstLaws Decided SameLaws",
    "base64url_rules": "AlphabetLaws Examples FaultLaws GroupLaws Grouping LengthLaws Listed OutcomeLaws RoundTrip StrictGroups Tables TextLaws",
    "decimal_rules": "Examples",
    "jose_rules": "ChoosingLaws CriticalLaws DecisionLaws Examples FactLaws HeaderExamples HeaderLaws NamingLaws OnlyOne Promises UnknownMembers",
    "json_grammar_rules": "ByteLaws CharLaws Complete Endings Examples Fuel NumberLaws ReaderLaws Readings ScanLaws Sequences ShownLaws Sound Spelling"
    " TwiceLaws Unique Written",
    "json_rules": "AnswerLaws Demand3 Promises Rows",
    "jws_rules": "AcceptedLaws Inhabited Naming Promises RuleLaws SegmentLaws Sides Starred TokenLaws Witnesses",
    "keytable_rules": "Examples GoodKeys KeyLaws TableLaws",
    "sha2_rules": "BlockLaws DigestLaws Examples FinishLaws ListLaws PaddedLaws PaddingLaws RoundLaws ScheduleLaws ValueLaws WordLaws WovenLaws",
}


def move(crate, modules):
    folder = f"crates/{crate}"
    os.makedirs(f"{folder}/proofs", exist_ok=True)
    stays, goes = [], []
    for row in read(f"{folder}/specs/Lib.antt").split("\n"):
        name = re.match(r"(?:pub )?mod (\w+)$", row)
        if name and name[1] in modules:
            subprocess.run(["git", "mv", f"{folder}/specs/{name[1]}.antt", f"{folder}/proofs/{name[1]}.antt"], check=True)
            goes.append(row)
        else:
            stays.append(row)
    # A comment stands over what follows it: one that has lost that goes too.
    kept = [row for at, row in enumerate(stays) if at == 0 or not row.startswith("--") or stays[at + 1 : at + 2] and stays[at + 1].startswith(("pub mod", "mod"))]
    write(f"{folder}/specs/Lib.antt", "\n".join(kept))
    lib = f"{folder}/proofs/Lib.antt"
    before = read(lib).rstrip("\n") + "\n" if os.path.exists(lib) else "-- Theorems and examples.\n"
    write(lib, before + "\n".join(goes) + "\n")


def main():
    os.chdir(subprocess.check_output(["git", "rev-parse", "--show-toplevel"], text=True).strip())
    for crate, modules in MOVED.items():
        if os.path.isdir(f"crates/{crate}"):
            move(crate, modules.split())
    paths = re.compile(r"\bRattle\.(%s)\.specs\.(\w+)" % "|".join(MOVED))
    links = re.compile(r"(crates/|\()?\b(%s)/specs/(\w+)\.antt" % "|".join(MOVED))

    def path(match):
        return f"Rattle.{match[1]}.proofs.{match[2]}" if match[2] in MOVED[match[1]].split() else match[0]

    def link(match):
        return f"{match[1] or ''}{match[2]}/proofs/{match[3]}.antt" if match[3] in MOVED[match[2]].split() else match[0]

    for name in glob.glob("crates/**/*.antt", recursive=True) + glob.glob("crates/**/*.rt", recursive=True):
        if "/out/" not in name:
            write(name, paths.sub(path, read(name)))
    for name in glob.glob("crates/*/must-fail/*.edit"):
        crate = name.split("/")[1]
        text = paths.sub(path, read(name))
        file = re.search(r"^file: specs/(\w+)\.antt$", text, re.M)
        if file and file[1] in MOVED.get(crate, "").split():
            text = text.replace(file[0], f"file: proofs/{file[1]}.antt")
        write(name, text)
    for name in ["README.md", *glob.glob("docs/*.md")]:
        write(name, links.sub(link, read(name)))


if __name__ == "__main__":
    main()
