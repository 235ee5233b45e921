"""The programs that `rt ci` built, and what several tests do with these and with other programs."""
import functools
import os
import shlex
import subprocess

import checks
from checks import TOP, fail, need, skip

PARTMEM, FRAMEMAP, PARTCHECK = (f"{TOP}/crates/{name}/out/{name}" for name in ("partmem", "framemap", "partcheck"))
# The sizes of the worked traces.
SMALL = "--order 3 --superblocks 2 --tenants 2".split()
SANITIZED = ["-fsanitize=address,undefined", "-fno-sanitize-recover=all"]


def run(words, **how):
    """Runs a command without input. Returns the completed process, with its status, output and errors."""
    how = {"stdin": subprocess.DEVNULL, "capture_output": True, "text": True, "errors": "replace", "check": False, **how}
    return subprocess.run(words, **how)


def printed(*words, **how):
    """Runs a command, which has to end with status 0. Returns what it printed."""
    ran = run(words, **how)
    if ran.returncode:
        fail(f"{shlex.join(words)} ended with status {ran.returncode}:\n{ran.stdout[-2000:]}{ran.stderr[-3000:]}")
    return ran.stdout


@functools.cache
def need_sanitizers(compiler):
    """Leaves out the rest of the check that is running if the compiler or its sanitizers are not installed."""
    need(compiler)
    work = checks.new_folder()
    language = "c++" if compiler.endswith("++") else "c"
    with open(f"{work}/empty", "w", encoding="ascii") as file:
        file.write("int main() { return 0; }\n")
    if run([compiler, "-x", language, *SANITIZED, f"{work}/empty", "-o", f"{work}/program"]).returncode:
        skip(f"{compiler} has no sanitizers")


def closed_pipe():
    """Returns the writing end of a pipe whose reading end is closed."""
    read, write = os.pipe()
    os.close(read)
    return os.fdopen(write, "wb")


def random_trace(**numbers):
    """Returns the trace that tests/soak/traces.awk draws with these numbers."""
    words = [word for name, number in numbers.items() for word in ("-v", f"{name}={number}")]
    # In other locales gawk writes a character above 127 as two bytes.
    command = ["env", "LC_ALL=C", "awk", *words, "-f", f"{TOP}/tests/soak/traces.awk"]
    return subprocess.run(command, stdout=subprocess.PIPE, check=True).stdout
