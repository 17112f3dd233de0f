"""The kit, and the LLVM module that it compiles to the x86-64 archive, once the crate is proved.

The kit's compiler is called by way of a script that keeps the module and the words that it came with.
"""
import os
import re
import shlex
import shutil
import subprocess
import tempfile
from dataclasses import dataclass

from module import Refused

HERE = os.path.dirname(os.path.abspath(__file__))
ROOT = os.path.dirname(HERE)
OUT = os.path.join(ROOT, "target", "nodes")
CRATE = "jws_ffi"
ARCHIVE = os.path.join(ROOT, "target", "staticlib", f"lib{CRATE}.a")

# What the kit calls its compiler with, but for the names of files and folders. Some switch off passes that compile correct code wrongly.
TARGET_WORDS = ["--target=x86_64-unknown-linux-gnu", "--sysroot=FOLDER", "-march=x86-64"]
COMMON_WORDS = [
    "-mllvm", "-no-trap-after-noreturn", "-ffunction-sections", "-fdata-sections", "-mllvm", "-trap-unreachable",
    "-mllvm", "-no-x86-call-frame-opt", "-mllvm", "-disable-machine-licm", "-mllvm", "-disable-postra-machine-licm",
    "-mllvm", "-sink-common-insts=false", "--no-default-config", "-no-canonical-prefixes", "-fintegrated-cc1", "-fno-crash-diagnostics", "-Werror",
]
KIT_WORDS = [*TARGET_WORDS, *COMMON_WORDS, "-c", "-x", "ir", "IN", "-o", "OUT", "-fPIC", "-O3"]


def run(words, **settings):
    """Runs a program and gives what it wrote; ends the build with what it said where it fails."""
    try:
        done = subprocess.run(words, capture_output=True, text=True, check=False, **settings)
    except FileNotFoundError:
        raise Refused(f"{words[0]} is not on this machine") from None
    if done.returncode != 0:
        raise Refused(f"{' '.join(words[:2])} ... failed:\n{done.stdout[-2000:]}{done.stderr[-4000:]}")
    return done.stdout


@dataclass
class Kit:
    """The kit's folder and its tools."""

    home: str
    tools: str

    @classmethod
    def found(cls):
        if shutil.which("rt") is None:
            raise Refused("rt is missing: the Rattle kit has it, and the library is proved and compiled by it")
        home = os.path.dirname(run(["rt", "doc"]).strip())
        kit = cls(home, os.path.join(home, "toolchain"))
        for name in ("clang", "llvm-ar", "ld.lld"):
            if not os.path.exists(kit.tool(name)):
                raise Refused(f"the kit at {home} has its tools elsewhere than known: there is no {kit.tool(name)}")
        return kit

    def tool(self, name):
        return os.path.join(self.tools, "bin", name)

    def clang(self, words, **settings):
        return run([self.tool("clang"), *words], **settings)


KEEPING = """#!/bin/sh
# Keeps the modules that the kit's compiler is given, and its words; then it is the kit's own.
for word in "$@"; do
    case $word in *.bc) cp "$word" {out}/module.bc && printf '%s\\n' "$@" >>{out}/words && echo >>{out}/words ;; esac
done
exec {clang} "$@"
"""


def linked(real, here, but):
    """A folder with links to all that another holds but for these names."""
    os.mkdir(here)
    for name in sorted(set(os.listdir(real)) - set(but)):
        os.symlink(os.path.join(real, name), os.path.join(here, name))


def keeping_kit(kit, folder):
    """A folder of links to the kit, with a compiler that keeps what it is given; gives the folder of its commands."""
    linked(kit.home, folder, ["bin", "toolchain"])
    # rt takes the kit from around its own files: these are no links.
    own, commands = ["rt", "rtlib.py"], os.path.join(folder, "bin")
    linked(os.path.join(kit.home, "bin"), commands, own)
    for name in own:
        shutil.copy(os.path.join(kit.home, "bin", name), commands)
    linked(kit.tools, os.path.join(folder, "toolchain"), ["bin"])
    tools = os.path.join(folder, "toolchain", "bin")
    linked(os.path.join(kit.tools, "bin"), tools, ["clang"])
    compiler = os.path.join(tools, "clang")
    with open(compiler, "w", encoding="utf-8") as script:
        script.write(KEEPING.format(out=shlex.quote(OUT), clang=shlex.quote(kit.tool("clang"))))
    os.chmod(compiler, 0o755)
    return commands


def proved_module(kit):
    """The text of the module that the kit compiles to the x86-64 archive, once the crate is proved."""
    for name in ("module.bc", "words"):
        if os.path.exists(os.path.join(OUT, name)):
            os.remove(os.path.join(OUT, name))
    before = contents(ARCHIVE)
    with tempfile.TemporaryDirectory() as room:  # elsewhere: rt ci refuses a repository with links in it
        path = os.pathsep.join([keeping_kit(kit, os.path.join(room, "kit")), os.environ["PATH"]])
        said = run([os.path.join(ROOT, "tools", "staticlib"), CRATE], env={**os.environ, "PATH": path})
    if before and before[0] == contents(ARCHIVE)[0]:
        os.utime(ARCHIVE, ns=before[1])  # the same bytes: what was made of them isn't out of date
    # Of a static library the last line names its target, and no processor where it runs on all of them.
    if not re.search(r"^logic=proved functions=\d+ target=x86_64-unknown-linux-gnu sum=\S+ .*\n\Z", said, re.M):
        raise Refused(f"rt lib of {CRATE} didn't say that the crate is proved, for every x86-64")
    check_words()
    text_file = os.path.join(OUT, "module.ll")
    kit.clang([TARGET_WORDS[0], TARGET_WORDS[2], "-Xclang", "-disable-llvm-passes", "-S", "-emit-llvm", "-x", "ir", "module.bc", "-o", text_file], cwd=OUT)
    check_object(kit)
    with open(text_file, encoding="utf-8") as text:
        return text.read()


def contents(path):
    """A file's bytes and its times, if it is there."""
    if not os.path.exists(path):
        return None
    with open(path, "rb") as file:
        status = os.stat(path)
        return file.read(), (status.st_atime_ns, status.st_mtime_ns)


def check_words():
    """The kit compiled one module, by the known words."""
    kept = contents(os.path.join(OUT, "words"))
    calls = kept[0].decode().split("\n\n")[:-1] if kept else []
    if len(calls) != 1:
        raise Refused(f"the kit compiled {len(calls)} modules, and not one")
    words = calls[0].split("\n")
    alike = [word == known or known in ("IN", "OUT") or known == "--sysroot=FOLDER" and word.startswith("--sysroot=")
             for word, known in zip(words, KIT_WORDS)]
    if len(words) != len(KIT_WORDS) or not all(alike):
        raise Refused(f"the kit calls its compiler with other words than the known ones: {' '.join(words)}")


def check_object(kit):
    """The module's text compiles to the object in the kit's archive, byte for byte: nothing is lost in the text."""
    place = {"IN": "module.ll", "OUT": "x86-64.o", "--sysroot=FOLDER": f"--sysroot={kit.tools}"}
    kit.clang([place.get(word, word) for word in KIT_WORDS], cwd=OUT)
    members = run([kit.tool("llvm-ar"), "t", ARCHIVE]).split()
    if len(members) != 1:
        raise Refused(f"the kit's archive has {len(members)} objects, and not one")
    run([kit.tool("llvm-ar"), "x", "--output", OUT, ARCHIVE, members[0]])
    if contents(os.path.join(OUT, members[0]))[0] != contents(os.path.join(OUT, "x86-64.o"))[0]:
        raise Refused("the module's text compiles to another object than the one in the kit's archive")
