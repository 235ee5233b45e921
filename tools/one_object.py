"""Makes an archive for kernels, with one object: the module of the library and its functions in C, joined as assembly.

In one file of assembly a name that is not declared global is visible nowhere else, so no tool has to hide it afterwards. Only the
functions of the headers stay global.
"""
import os
import re
import subprocess
import tempfile

from building import X86_64, compile_functions_in_c, declared, kit, read, write

# What is left out: the entries for tracing that clang writes with the padding of functions, and, in all units except the first,
# the notes with properties.
TRACED = re.compile(r"^\t\.section\t__patchable_function_entries,.*\n\t\.p2align\t.*\n\t\.quad\t.*\n", re.M)
NOTE = re.compile(r"^\t\.section\t\.note\.gnu\.property,.*\n(?:\t\.(?:p2align|long|asciz)\t.*\n)+", re.M)
STRING = re.compile(r"\t\.(ascii|asciz|string)\b")
LABEL = re.compile(r"(?<![\w.])\.L")
GLOBAL = re.compile(r"\t\.globl\t(\w+)\b")


def unit_of(text, number, renamed):
    """Returns the assembly of a unit, with its number in each local label (.L..), so that no other unit has the same label.
    Sections are renamed as the dictionary `renamed` says."""
    text = TRACED.sub("", text)
    if number > 0:
        text = NOTE.sub("", text)
    for old, new in renamed.items():
        text = text.replace(f"\t.section\t{old},", f"\t.section\t{new},")
    lines = text.splitlines(keepends=True)
    return "\t.text\n" + "".join(line if STRING.match(line) else LABEL.sub(f".L{number}.", line) for line in lines)


def joined(texts, renamed):
    """Returns the assembly of all units as one text. Only the headers' functions are global in it, without partmem_boot."""
    lines = "".join(unit_of(text, number, renamed) for number, text in enumerate(texts)).splitlines(keepends=True)
    found = {match[1]: number for number, line in enumerate(lines) if (match := GLOBAL.match(line))}
    names = declared() - {"partmem_boot"}
    if not names <= set(found):
        raise ValueError(f"no unit defines {', '.join(sorted(names - set(found)))}")
    for name in set(found) - names:
        lines[found[name]] = ""
    return "".join(lines)


def make_archive(module, kernel, to, target=X86_64):
    """Writes to `to` the archive of one object: a module's assembly, in the file `module`, and the functions in C, except
    partmem_boot, which needs the C library."""
    with tempfile.TemporaryDirectory(prefix="object-") as work:
        units = compile_functions_in_c(work, target, ["-S", *kernel.flags, *kernel.flags_for_c], ["boot.c"])
        write(f"{work}/joined.s", joined([read(module), *(read(f"{work}/{unit}") for unit in units)], kernel.renamed))
        assembler = [f"{kit()}/toolchain/bin/clang", f"--target={target.triple}", *kernel.of_assembler]
        subprocess.run([*assembler, "-c", "joined.s", "-o", "partmem.o"], cwd=work, check=True)
        if os.path.exists(to):
            os.remove(to)
        subprocess.run([f"{kit()}/toolchain/bin/llvm-ar", "rcsD", to, "partmem.o"], cwd=work, check=True)
