"""Runs programs with a terminal as standard error, and checks the progress that they show there."""
import os
import pty
import re
import subprocess
import time

# Up to this size of a file no progress is shown.
SMALL_BYTES = 64 << 20
PIECE = 65536
ERASED = b"\r\x1b[K"


def run(words, stdin=subprocess.DEVNULL, pause=0, most=None, whole=False):
    """Runs a program with a terminal as standard error, and as standard output too if `whole`. Reads its output after `pause`
    seconds, and at most `most` bytes if that is given. Returns its status, its output (empty if `whole`), and what it wrote to
    the terminal."""
    terminal, end = pty.openpty()
    with subprocess.Popen(words, stdin=stdin, stdout=end if whole else subprocess.PIPE, stderr=end) as program:
        os.close(end)
        time.sleep(pause)
        output = b""
        if not whole:
            output = program.stdout.read(most)
            program.stdout.close()
        written = b""
        try:
            while part := os.read(terminal, PIECE):
                written += part
        except OSError:
            # The program has closed its end of the terminal.
            pass
        os.close(terminal)
    return program.returncode, output, written.replace(b"\r\n", b"\n")


def long_run(words, path, begin, size, end):
    """Writes a trace to `path`, and returns it: `begin`, short comments, and `end`. It has at least `size` bytes, and enough of
    them that the program with these words runs for more than a second. Checks that without a terminal the program prints nothing
    on standard error."""
    while True:
        trace = begin + b"#\n" * ((size - len(begin) - len(end) + 1) // 2) + end
        with open(path, "wb") as file:
            file.write(trace)
        begun = time.monotonic()
        ran = subprocess.run(words, stdin=subprocess.DEVNULL, capture_output=True, timeout=60)
        assert ran.stderr == b"", f"{words} wrote {ran.stderr}, without a terminal"
        if time.monotonic() - begun > 1.2:
            return trace
        size *= 2


def behind_progress(written, program, trace):
    """Returns what a program wrote to the terminal after its progress in this trace, or None if it has not shown right progress.
    Progress is one or more texts, each with the number of lines and the percentage of the trace's bytes that were read. Each
    overwrites the one before, and the last one is erased."""
    pieces, lines = set(), 0
    for begin in range(0, len(trace), PIECE):
        pieces.add((lines, 100 * begin // len(trace)))
        lines += trace.count(b"\n", begin, begin + PIECE)
    pieces.add((lines, 100))
    steps = [(int(lines), int(percent)) for lines, percent in re.findall(rb"\r[a-z]+: (\d+) lines, (\d+) %", written)]
    shown = b"".join(b"\r%s: %d lines, %d %%" % (program, *step) for step in steps) + ERASED
    if not steps or not pieces.issuperset(steps) or steps != sorted(set(steps)) or not written.startswith(shown):
        return None
    return written[len(shown):]
