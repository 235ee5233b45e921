"""Rewrites the library's LLVM module for another target than x86-64, for which the toolchain writes it. Compiles the rewritten
module to archives for AArch64 and 64-bit RISC-V.

The module is text in LLVM's language, of which most means the same on every target. `for_target` replaces the rest: the data
layout, the triple, and attributes of the processor and its stack. But first it compares each word of the module with the lists
below. They have integers, pointers, loads, stores, calls and branches, and no assembly, no floating-point number, no vector and
no intrinsic of a processor. If a toolchain writes a word that is not in the lists, NotPortable lists it, and nothing is compiled.
Before the word is added to a list, somebody has to find out that it means the same on the other targets.

Some numbers of the module are right only with addresses of 64 bits, little-endian bytes and types aligned as on x86-64. So
`for_target` accepts only targets that have these.

Neither a proof nor the toolchain vouches for the rewritten module, nor for the flags with which it is compiled. Tests compare the
replies of what is made from it with those of the proved program.
"""
import re
import subprocess
import tempfile
from typing import NamedTuple

from building import TRAPS, Target, add_functions_in_c, compiler, kit, read, write
from kernels import FEW_SECTIONS, SELDOM, Kernel
from one_object import make_archive


class Processor(NamedTuple):
    """How the archives for a processor are compiled."""

    for_programs: Target
    for_kernels: Target
    kernel: Kernel


# The processors other than x86-64 for which there are archives. Programs get the least processor and the calling convention of
# Debian. Kernels get code without floating-point and vector registers and without unaligned accesses. On AArch64 this code leaves
# alone x18, which kernels use for themselves. On RISC-V it may lie at any address, and the linker changes no instruction of it.
PROCESSORS = {
    "arm64": Processor(
        Target("aarch64-unknown-linux-gnu", ["-march=armv8-a"]),
        Target("aarch64-unknown-none-elf", ["-march=armv8-a", "-mgeneral-regs-only", "-mstrict-align", "-ffixed-x18"]),
        Kernel(FEW_SECTIONS, [], "", "", SELDOM),
    ),
    "riscv64": Processor(
        Target("riscv64-unknown-linux-gnu", ["-march=rv64gc", "-mabi=lp64d"]),
        Target("riscv64-unknown-none-elf", ["-march=rv64imac", "-mabi=lp64", "-mcmodel=medany"]),
        Kernel(FEW_SECTIONS, [], "", "", SELDOM, ("-mno-relax",)),
    ),
}
WORDS = """
    source_filename target datalayout triple define declare internal private constant unnamed_addr attributes
    void ptr label i1 i8 i16 i32 i64 i128 x true false null zeroinitializer c
    add sub mul udiv urem shl lshr and or xor icmp eq ne ult ule ugt uge slt sle sgt sge select zext sext trunc ptrtoaddr to
    alloca load store getelementptr extractvalue insertvalue align inbounds nuw nsw call ret br switch phi unreachable
    noundef zeroext signext immarg captures none readonly writeonly noalias nonnull
    nounwind nobuiltin noreturn cold alwaysinline inlinehint noinline nocallback nofree nosync speculatable willreturn
    memory argmem inaccessiblemem write readwrite
""".split()
INTRINSICS = ["llvm.memset.p0.i64", "llvm.memmove.p0.p0.i64", "llvm.trap", "llvm.ctlz.i16", "llvm.ctlz.i32", "llvm.ctlz.i64",
              "llvm.cttz.i16", "llvm.cttz.i32", "llvm.cttz.i64"]
METADATA = ["noundef", "range", "llvm.ident"]
# Attributes that are text. Those of the processor and its stack are removed.
KEPT = ["frame-pointer", "no-builtin-bcmp", "no-builtin-memcmp", "no-builtin-strlen"]
REMOVED = ["target-cpu", "probe-stack", "stack-probe-size"]
# A function that only the main of tools/unproved calls, and nobody calls this main.
OF_MAIN = "__sysv_signal"
# The parts of a data layout that say that bytes are little-endian, and how 64-bit and 128-bit integers are aligned.
LAYOUT = {"e", "i64:64", "i128:128"}


class NotPortable(Exception):
    """The module has something that is not in the lists, or the target differs from x86-64 in more than this file replaces."""


def unlisted(text):
    """Returns what the text of a module has that is not in the lists."""
    groups = "\n".join(re.findall(r"^attributes .*", text, re.M))
    found = set(re.findall(r'"([^"]*)"(?:="[^"]*")?', groups)) - {*KEPT, *REMOVED}
    found |= set(re.findall(r"@(llvm\.[\w.]+)", text)) - {*INTRINSICS}
    text = re.sub(r'"[^"]*"', '""', text)
    text = re.sub(r";.*", "", text)
    found |= set(re.findall(r"!([A-Za-z][\w.]*)", text)) - {*METADATA}
    found |= set(re.findall(r"<\d+ x \w+>", text))                  # vectors
    text = re.sub(r'[@%!#](?:""|[-\w.$]+)', "", text)               # names and numbers of values, functions, metadata and groups
    text = re.sub(r'^(?:""|[-\w.$]+):', "", text, flags=re.M)       # labels
    return sorted(found | set(re.findall(r"[A-Za-z_][\w.]*", text)) - {*WORDS})


def layout_of(target):
    """Returns the data layout and the triple that clang writes for a target."""
    words = [f"{kit()}/toolchain/bin/clang", f"--target={target}", "-S", "-emit-llvm", "-x", "c", "-", "-o", "-"]
    text = subprocess.run(words, input="int it;", stdout=subprocess.PIPE, text=True, check=True).stdout
    layout, triple = (re.search(rf'^target {it} = "(.*)"$', text, re.M)[1] for it in ("datalayout", "triple"))
    sizes = re.findall(r"(?:^|-)p:(\d+)", layout) or ["64"]
    if not LAYOUT <= {*layout.split("-")} or sizes != ["64"]:
        raise NotPortable(f"{target} has the data layout {layout}")
    return layout, triple


def with_signs(text):
    """Returns the text of a module whose functions return 32 bits as RISC-V's calling convention says, which is extended by their
    sign to 64 bits. Clang extends a result only if the text says so. The convention also has rules for other integers shorter
    than 64 bits that a function returns to C, or passes to C. The library has none of these."""
    short = re.findall(r"^define (?!internal )[^@]*\bi(?:1|8|16)\b[^@]*@([^(]*)", text, re.M)
    short += re.findall(rf"^declare [^@]*@(?!llvm\.|{OF_MAIN}\()([^(]*)\(.*\bi(?:1|8|16|32)\b", text, re.M)
    if short:
        raise NotPortable(f"these functions have integers of other sizes than C passes to the library: {', '.join(short)}")
    return re.sub(r"^(define (?:noundef )?)(?=i32 @)", r"\1signext ", text, flags=re.M)


def for_target(text, target):
    """Returns the text of a module for the target, which is named as clang names it."""
    found = unlisted(text)
    if found:
        raise NotPortable(f"the module has words that no list of tools/targets.py has: {', '.join(found)}")
    for key, value in zip(("datalayout", "triple"), layout_of(target)):
        text, count = re.subn(rf'^target {key} = ".*"$', f'target {key} = "{value}"', text, flags=re.M)
        if count != 1:
            raise NotPortable(f"the module has {count} lines `target {key}`")
    text = re.sub(rf' "(?:{"|".join(REMOVED)})"="[^"]*"', "", text)
    return with_signs(text) if target.startswith("riscv64") else text


def with_plain_names(text):
    """Returns the text of a module without quoted names, since the assembler of RISC-V accepts none in a call."""
    return re.sub(r'(.?)("[^"]*")', lambda it: "@" + re.sub(r"[^\w.]", ".", it[2][1:-1]) if it[1] == "@" else it[0], text)


def compile_module(text, target, to, *flags):
    subprocess.run([*compiler(target), *TRAPS, *flags, "-x", "ir", "-", "-o", to], input=text, text=True, check=True)


def make_for_programs(text, name, to, added=""):
    """Writes to `to` the archive for programs on a processor, from the text of the library's module. Adds text to the module."""
    target = PROCESSORS[name].for_programs
    with tempfile.TemporaryDirectory(prefix="target-") as work:
        compile_module(for_target(text, target.triple) + added, target, f"{work}/module.o", "-c")
        subprocess.run([f"{kit()}/toolchain/bin/llvm-ar", "rcs", f"{work}/library.a", f"{work}/module.o"], check=True)
        add_functions_in_c(f"{work}/library.a", to, target)


def make_for_kernels(text, name, to, added=""):
    """Writes to `to` the archive for kernels on a processor, from the text of the library's module. Adds text to the assembly."""
    target, kernel = PROCESSORS[name].for_kernels, PROCESSORS[name].kernel
    with tempfile.TemporaryDirectory(prefix="target-") as work:
        compile_module(with_plain_names(for_target(text, target.triple)), target, f"{work}/module.s", "-S", *kernel.flags)
        write(f"{work}/module.s", read(f"{work}/module.s") + added)
        make_archive(f"{work}/module.s", kernel, to, target)
