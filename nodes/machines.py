"""The machines that the archives run on, most of them emulated by qemu, and how a program is compiled for one and run on it."""
import os
import re
import shutil
from dataclasses import dataclass, field

from build import INCLUDE
from kit import HERE, OUT, run

C_WORDS = ["-std=c11", "-O2", "-Wall", "-Wextra", "-Werror", f"-I{INCLUDE}"]
FREESTANDING = ["-ffreestanding", "-fno-builtin", "-nostdinc", "-isystem", os.path.join(HERE, "freestanding"), "-ffunction-sections"]
GCC = "arm-none-eabi-gcc"
RUNTIME = os.path.join(HERE, "freestanding", "runtime.c")

# A program reads and writes files of this machine by semihosting.
SEMIHOSTING = ["-semihosting-config", "enable=on,target=native", "-nographic", "-monitor", "none", "-serial", "none"]
# The clock goes on with the instructions: by a nanosecond for each, or by so many that a timer sees each of them.
COUNTED, COUNTED_BY_TIMER = ["-icount", "shift=0"], ["-icount", "shift=6"]


@dataclass(frozen=True, eq=False)
class Machine:
    """A machine: the archive that it runs, the program that is it and where Debian has that, and what a program for it is compiled with."""

    name: str
    archive: str
    what: str
    program: str
    package: str
    options: list = field(default_factory=list)
    words: list = field(default_factory=list)
    memory: tuple = ()  # where the program stands, and what it writes; none where an operating system says it
    counted: list = field(default_factory=list)
    board: str = ""  # the board of examples/node, if it has one for this machine
    also: tuple = ()  # what else is done on it: a name for that, the program that does it, and where Debian has that

    def start(self, program, counted=False):
        """The words that start a program on it."""
        if not self.memory:
            return [self.program, program] if self.words else [program]
        return [self.program, *self.options, *(self.counted if counted else []), *SEMIHOSTING, "-kernel", program]

    def unable(self):
        """Why it can't be run here, if so."""
        if not has(self.program):
            return missing(self.program, self.package)
        if self.archive == "x86-64-v3" and not {"avx2", "bmi1", "bmi2", "f16c", "fma", "abm", "movbe"} <= processor_flags():
            return "this processor is older than x86-64-v3"
        return None

    def lacking(self):
        """What else can't be done on it here, each with its reason."""
        return {name: missing(program, package) for name, program, package in self.also if not has(program)}


def has(program):
    """Whether a program is here; of GCC for Arm its C library too."""
    if program == GCC and shutil.which(GCC):
        return os.path.isabs(run([GCC, "-mcpu=cortex-m4", "-mthumb", "-print-file-name=libc.a"]).strip())
    return shutil.which(program) is not None


def missing(program, package):
    return f"{program} not here (Debian 12: {package})"


def processor_flags():
    with open("/proc/cpuinfo", encoding="utf-8") as file:
        found = re.search(r"^flags\s*:(.*)$", file.read(), re.M)
    return set(found[1].split()) if found else set()


def cortex_m(name, archive, board, memory, *options, words=(), example=""):
    by_gcc = (("examples/node by GCC", GCC, "gcc-arm-none-eabi libnewlib-arm-none-eabi"),) if example else ()
    return Machine(name, archive, f"qemu's {board}", "qemu-system-arm", "qemu-system-arm", ["-M", board, *options],
                   [f"--target={archive}-none-eabi", *words], memory, COUNTED_BY_TIMER, example, by_gcc)


RV32 = ["--target=riscv32-unknown-none-elf", "-march=rv32imac_zicsr", "-mabi=ilp32", "-mcmodel=medany"]
RV64 = ["--target=riscv64-unknown-none-elf", "-march=rv64gc_zicsr", "-mabi=lp64d", "-mcmodel=medany"]
A64 = ["--target=aarch64-unknown-none-elf"]
RISCV_MEMORY = (0x80000000, 0x80100000)
NO_FPU = ["-mfpu=none"]

MACHINES = [
    # The board itself has 16 KiB: enough for its example, and not for the longest calls with all that they are compared by; so it gets 128.
    cortex_m("cortex-m0", "thumbv6m", "microbit", (0, 0x20000000), "-global", "nrf51-soc.sram-size=131072", example="microbit"),
    cortex_m("cortex-m3", "thumbv7m", "mps2-an385", (0, 0x20000000)),
    cortex_m("cortex-m4", "thumbv7em", "mps2-an386", (0, 0x20000000), words=NO_FPU, example="mps2-an386"),
    cortex_m("cortex-m33", "thumbv8m.main", "mps2-an505", (0x10000000, 0x38000000), words=NO_FPU),
    Machine("riscv32", "riscv32imac", "qemu's virt", "qemu-system-riscv32", "qemu-system-misc", ["-M", "virt", "-bios", "none"], RV32,
            RISCV_MEMORY, COUNTED),
    Machine("riscv64", "riscv64gc", "qemu's virt", "qemu-system-riscv64", "qemu-system-misc", ["-M", "virt", "-bios", "none"], RV64,
            RISCV_MEMORY, COUNTED),
    Machine("riscv64-process", "riscv64gc", "qemu-riscv64", "qemu-riscv64", "qemu-user", words=[*RV64, "-DPROCESS"]),
    Machine("aarch64", "aarch64", "qemu's virt, Cortex-A53", "qemu-system-aarch64", "qemu-system-arm", ["-M", "virt", "-cpu", "cortex-a53"], A64,
            (0x40100000, 0x40200000), COUNTED),
    Machine("aarch64-process", "aarch64", "qemu-aarch64", "qemu-aarch64", "qemu-user", words=[*A64, "-DPROCESS"]),
    Machine("x86-64-v3", "x86-64-v3", "this machine", "cc", "gcc", also=(("counting instructions", "valgrind", "valgrind"),)),
    Machine("wasm", "wasm", "node", "node", "nodejs"),
]


def objects(kit, machine, sources, folder):
    """Compiles sources for a machine without a C library; gives the objects' paths."""
    paths = []
    for source in sources:
        paths.append(os.path.join(folder, os.path.basename(source) + ".o"))
        kit.clang([*machine.words, *C_WORDS, *FREESTANDING, "-fdata-sections", "-c", source, "-o", paths[-1]])
    return paths


def link(kit, machine, layout, paths, program):
    """Links objects and the machine's archive by the kit's linker."""
    run([kit.tool("ld.lld"), "-nostdlib", "--gc-sections", *layout, *paths, archive_of(machine), "-o", program])


def archive_of(machine):
    return os.path.join(OUT, machine.archive, "libjws.a")
