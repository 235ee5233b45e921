"""Helpers of tools/library and tools/unproved: they find the crates and the toolchain, and make one archive of the library for C
and its functions in C."""
import functools
import glob
import os
import re
import shutil
import subprocess
import tempfile
from typing import NamedTuple

TOP = os.path.dirname(os.path.dirname(os.path.abspath(__file__)))
LIBRARY = "partmem_c"
PROGRAMS = ["partmem", "framemap", "partcheck"]
HEADER_FILES = ["partmem.h", "partmem_heap.h"]
DECLARED = re.compile(r"^(?!PARTMEM_INLINE)[a-zP][^*(\n]*\*?(partmem_\w+)\(", re.M)


class Target(NamedTuple):
    """What code is compiled for."""

    # The name that clang has for the processor and the system.
    triple: str
    # Flags that choose instructions and the calling convention.
    machine: list[str]


X86_64 = Target("x86_64-unknown-linux-gnu", ["-march=x86-64-v2"])
# The flags with which code for each archive is compiled, and further flags for the library's module.
CODE = ["-ffunction-sections", "-fPIE", "-O2"]
TRAPS = ["-mllvm", "-trap-unreachable", "-mllvm", "-no-trap-after-noreturn"]
# The functions of string.h that libpartmem_watched.a has itself, and the C file that defines them.
OWN_FUNCTIONS, OF_WATCHED = ["memcpy", "memmove", "memset"], "uninstrumented.c"
# The parts of standard headers that partmem.h, partmem_heap.h and the functions in C use. The kit's clang has no standard
# headers.
HEADERS = {
    "stdbool.h": "#define bool _Bool\n#define false 0\n#define true 1\n",
    "stddef.h": "typedef __SIZE_TYPE__ size_t;\n#define NULL ((void *)0)\n",
    "stdint.h": "".join(f"typedef __{name.upper()}_TYPE__ {name}_t;\n" for name in ("uint8", "uint16", "uint32", "uintptr")),
    "stdlib.h": "void *aligned_alloc(__SIZE_TYPE__, __SIZE_TYPE__);\nvoid *malloc(__SIZE_TYPE__);\nvoid free(void *);\n",
    "string.h": "void *memcpy(void *, const void *, __SIZE_TYPE__);\nvoid *memset(void *, int, __SIZE_TYPE__);\n",
}


def printed(*words):
    return subprocess.run(words, stdout=subprocess.PIPE, text=True, check=True).stdout.strip()


@functools.lru_cache(maxsize=None)
def kit():
    """Returns the folder of the toolchain, in which the page that `rt doc` names lies."""
    return os.path.dirname(printed("rt", "doc"))


@functools.lru_cache(maxsize=None)
def version():
    return printed("rt", "version")


@functools.lru_cache(maxsize=None)
def uses():
    """Returns the names of the libraries that each crate of crates.txt uses, both this repository's and the kit's."""
    with open(f"{TOP}/crates.txt", encoding="utf-8") as lines:
        rows = [line.partition("#")[0].partition(":") for line in lines]
    return {name.split()[0]: used.split() for name, _, used in rows if name.strip()}


@functools.lru_cache(maxsize=None)
def below(crate):
    """Returns the repository's crates that a crate uses, directly or through others. Each crate comes after the crates that it
    uses."""
    found = []
    for used in uses()[crate]:
        if used in uses():
            found += [name for name in [*below(used), used] if name not in found]
    return found


def write(path, text):
    with open(path, "w", encoding="utf-8") as file:
        file.write(text)


def read(path):
    with open(path, encoding="utf-8") as file:
        return file.read()


def declared():
    """Returns the names of the functions that the headers declare."""
    return {name for header in HEADER_FILES for name in DECLARED.findall(read(f"{TOP}/crates/{LIBRARY}/{header}"))}


def compiler(target):
    """Returns the words by which the kit's clang compiles code of an archive for a target."""
    return [f"{kit()}/toolchain/bin/clang", f"--target={target.triple}", *target.machine, *CODE]


def compile_in_c(work, target, flags, files):
    """Compiles C files by the kit's clang, so that no other compiler is needed: to objects if the flags have -c, to assembly if
    they have -S. Returns the names of the files that this makes in `work`."""
    for name, text in HEADERS.items():
        write(f"{work}/{name}", text)
    subprocess.run([*compiler(target), "-std=c11", "-ffreestanding", "-isystem", work, *flags, *files], cwd=work, check=True)
    return [os.path.basename(file)[:-1] + ("s" if "-S" in flags else "o") for file in files]


def compile_functions_in_c(work, target, flags, left_out=()):
    """Compiles the C files beside partmem.h as compile_in_c does, except the files `left_out` and the file of
    libpartmem_watched.a."""
    files = sorted(glob.glob(f"{TOP}/crates/{LIBRARY}/*.c"))
    return compile_in_c(work, target, flags, [file for file in files if os.path.basename(file) not in [OF_WATCHED, *left_out]])


def add_functions_in_c(library, to, target=X86_64):
    """Writes to `to` one archive of the objects of a library and an object for each C file beside partmem.h. A program has to
    link only this archive and the C library. If it does not call partmem_boot, the archive needs only functions of string.h."""
    with tempfile.TemporaryDirectory(prefix="archive-") as work:
        shutil.copy(library, f"{work}/library.a")
        added = "".join(f"addmod {name}\n" for name in compile_functions_in_c(work, target, ["-c"]))
        script = f"create whole.a\naddlib library.a\n{added}save\nend\n"
        subprocess.run([f"{kit()}/toolchain/bin/llvm-ar", "-M"], cwd=work, input=script, text=True, check=True)
        shutil.copy(f"{work}/whole.a", to)


def make_watched(archive, to):
    """Writes to `to` an archive with the code of another archive as one object. Instead of the OWN_FUNCTIONS of string.h, the
    object calls functions that it has itself."""
    tools = f"{kit()}/toolchain/bin"
    with tempfile.TemporaryDirectory(prefix="watched-") as work:
        own = compile_in_c(work, X86_64, ["-c"], [f"{TOP}/crates/{LIBRARY}/{OF_WATCHED}"])
        wraps = [f"--wrap={name}" for name in OWN_FUNCTIONS]
        linked = [f"{tools}/ld.lld", "-r", *wraps, "-o", "watched.o", "--whole-archive", os.path.abspath(archive), *own]
        subprocess.run(linked, cwd=work, check=True)
        subprocess.run([f"{tools}/llvm-ar", "rcs", "watched.a", "watched.o"], cwd=work, check=True)
        shutil.copy(f"{work}/watched.a", to)
