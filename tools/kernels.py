"""Compiles the library's module for the archives for kernels, libpartmem_kernel.a and libpartmem_linux.a, with their changes.

tools/library builds each by `rattle build` from the same checked crate as the library, with a toolchain whose clang runs

    python3 tools/kernels.py NAME FOLDER CLANG WORD..

instead. For a call that compiles the library's module, this script adds attributes and last lines to the module's text, and
compiles it with more flags, all as KERNELS says. All other calls go to CLANG as they are. In FOLDER it leaves the assembly
(module.s), which tools/one_object.py joins with the assembly of the functions in C. For tests/kernel-archives it also leaves the
text before the change (module.ll) and after it (changed.ll), and the words of the call (words). browser/make compiles module.ll
for WebAssembly. Neither a proof nor the kit vouches for these flags.
"""
import json
import os
import re
import subprocess
import sys
from typing import NamedTuple


class Kernel(NamedTuple):
    """How the build of an archive differs from that of the library."""

    # Flags of clang, and flags that have an effect only on C.
    flags: list[str]
    flags_for_c: list[str]
    # What is added to the attributes of each function in the text. Some flags of clang have no effect on a module that is already
    # text. These attributes take the place of those flags.
    attributes: str
    # What is added at the end of the text: flags of the module, in place of more flags of clang that have no effect on text.
    last: str
    # Maps the name and the flags of a section to those that it gets in the object.
    renamed: dict[str, str]
    # Flags of clang as the assembler of the object.
    of_assembler: tuple[str, ...] = ()


FEW_SECTIONS = ["-fno-function-sections", "-fno-data-sections", "-fno-addrsig"]
BARE = ["-mno-red-zone", "-mgeneral-regs-only", *FEW_SECTIONS]
HARDENED = ["-mfunction-return=thunk-extern", "-mharden-sls=all", "-mretpoline", "-mretpoline-external-thunk"]
HARDENED += ["-fcf-protection=branch", "-fno-jump-tables"]
# Functions begin with endbr64. A call through a pointer in r8 to r15 has a prefix, so that Linux can replace it in place.
FLAGGED = """!llvm.module.flags = !{!9001, !9002}
!9001 = !{i32 8, !"cf-protection-branch", i32 1}
!9002 = !{i32 4, !"indirect_branch_cs_prefix", i32 1}
"""
# Bytes of padding before each function, into which Linux can write code that counts the calls.
PADDING = 16
PADDED = f'"patchable-function-prefix"="{PADDING}"'
# Clang puts functions that are seldom called into a section of their own. They go to .text instead.
SELDOM = {'.text.unlikely.,"ax"': '.text,"ax"'}
KERNELS = {
    "kernel": Kernel(BARE, [], "noredzone", "", SELDOM),
    "linux": Kernel(
        BARE + HARDENED,
        ["-mindirect-branch-cs-prefix", f"-fpatchable-function-entry={PADDING},{PADDING}"],
        f'noredzone fn_ret_thunk_extern "no-jump-tables"="true" {PADDED}',
        FLAGGED,
        # Linux relocates a module before it makes .rodata read-only. It never makes .data.rel.ro read-only.
        {**SELDOM, '.data.rel.ro,"aw"': '.rodata,"a"'},
    ),
}
TARGET = "--target=x86_64-unknown-linux-gnu"
# A function that only the library's own module defines.
OWN = b"partmem_boot_kernel"


def text_of(clang, module):
    """Returns a module as text, without changes."""
    words = [TARGET, "-S", "-emit-llvm", "-Xclang", "-disable-llvm-passes", "-x", "ir", module, "-o", "-"]
    return subprocess.run([clang, *words], stdout=subprocess.PIPE, text=True, check=True).stdout


def changed(text, kernel):
    """Returns the text of a module with the attributes and the last lines of a Kernel."""
    attributes = rf"\1 {kernel.attributes} }}"
    return re.sub(r'^(attributes #\d+ = \{.* "target-cpu"=.*) \}$', attributes, text, flags=re.M) + kernel.last


def module_among(words):
    """Returns the module of the library among the words, or None if there is none."""
    for word in words:
        if word.endswith(".bc") and os.path.isfile(word):
            with open(word, "rb") as file:
                if OWN in file.read():
                    return word
    return None


def write(path, text):
    with open(path, "w", encoding="utf-8") as file:
        file.write(text)


def main(name, folder, clang, *words):
    module = module_among(words)
    if not module:
        os.execv(clang, [clang, *words])
    kernel, text = KERNELS[name], text_of(clang, module)
    write(f"{folder}/words", json.dumps([f"{folder}/module.ll" if word == module else word for word in words]))
    write(f"{folder}/module.ll", text)
    write(f"{folder}/changed.ll", changed(text, kernel))
    mine = [f"{folder}/changed.ll" if word == module else word for word in words if word != "-c"]
    to = mine.index("-o") + 1
    made, mine[to] = mine[to], f"{folder}/module.s"
    status = subprocess.run([clang, *mine, *kernel.flags, "-S"], check=False).returncode
    return status or subprocess.run([clang, TARGET, "-c", f"{folder}/module.s", "-o", made], check=False).returncode


if __name__ == "__main__":
    sys.exit(main(*sys.argv[1:]))
