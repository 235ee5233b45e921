"""Counts instructions with callgrind, and reads and writes the files of numbers with which the counts are compared."""
import os
import re
import subprocess

COMMANDS = 'alloc free take give read write cache destroy reap report grant take_back move reset'.split()
# Direct calls for which there is no event.
CALLS = 'lend lend_object lend_block find_object release'.split()
ROUNDS = 100
# The C library has a memcpy and a memset for each kind of processor. With these settings it uses the same ones on each.
TUNABLES = "glibc.cpu.hwcaps=-ERMS,-FSRM,-AVX,-AVX2,-AVX512F,-AVX512VL,-AVX_Fast_Unaligned_Load"
LIBRARY = "C library"
# Programs that use this header start callgrind themselves, just before the measured calls. Until then they run faster.
HEADER = "/usr/include/valgrind/callgrind.h"
LATE = ["--instr-atstart=no"] if os.path.exists(HEADER) else []


def own_library():
    """Returns the name and version of the C library."""
    return os.confstr("CS_GNU_LIBC_VERSION")


def read_ceilings(path):
    """Returns the C library with which the numbers of a file were measured, or None if the file does not name one. Also returns
    the value of each name in the file."""
    with open(path, encoding="utf-8") as lines:
        rows = [line.partition("#")[0].strip() for line in lines]
    split = {name: value.strip() for name, _, value in (row.partition(":") for row in rows if row)}
    return split.pop(LIBRARY, None), split


def write_ceilings(path, values):
    """Writes the values with their names into the file, and keeps the comment at its top."""
    with open(path, encoding="utf-8") as lines:
        comment = [line for line in lines if line.startswith("#")]
    rows = [f"{LIBRARY}: {own_library()}\n", *(f"{name}: {value}\n" for name, value in values.items())]
    with open(path, "w", encoding="utf-8") as file:
        file.writelines([*comment, *rows])


def callgrind(command, *options, out="/dev/null", tunables=TUNABLES, preload=""):
    """Runs a command under callgrind. Returns the completed process, with what it wrote to standard error."""
    tool = ["valgrind", "--tool=callgrind", f"--callgrind-out-file={out}", *options]
    settings = {**os.environ, "GLIBC_TUNABLES": tunables, "LD_PRELOAD": preload}
    return subprocess.run([*tool, *command], stdin=subprocess.DEVNULL, stdout=subprocess.DEVNULL, stderr=subprocess.PIPE,
                          text=True, errors="replace", check=False, env=settings)


def of_calls(command, out, *options, toggle="measured", functions="measured", called=r".*", tunables=TUNABLES, preload=""):
    """Returns the instructions of the calls from some functions to others, with all that the called functions call in turn.
    `called` is a pattern for the names of the functions that are called, and `functions` one for the names of their callers. Only
    what runs inside the function `toggle` counts. callgrind gets `options`, and writes to the file `out`."""
    own = ["--compress-strings=no", "--compress-pos=no", f"--toggle-collect={toggle}"]
    ran = callgrind(command, *own, *options, out=out, tunables=tunables, preload=preload)
    if ran.returncode:
        raise OSError(f"{' '.join(command)} ended with status {ran.returncode} under valgrind: {ran.stderr[-500:]}")
    with open(out, encoding="utf-8") as file:
        blocks = re.findall(rf"^fn=(?:{functions})$(.*?)(?=^fn=|\Z)", file.read(), re.M | re.S)
    costs = re.findall(rf"^cfn={called}\ncalls=.*\n\S+ (\d+)$", "".join(blocks), re.M)
    if not costs:
        raise OSError(f"callgrind counted no call of {' '.join(command)}")
    return sum(map(int, costs))


def of_command(program, how, command, folder, tunables=TUNABLES):
    """Returns the average instructions of a command of bench/events.c, run as an event or as a direct call. Only the call that
    `measured` makes to the library in each round is counted."""
    run = [program, how, command, str(ROUNDS)]
    functions = "measured|run|event|call"
    return of_calls(run, f"{folder}/{how}-{command}", functions=functions, called=r"partmem_\w+", tunables=tunables) / ROUNDS
