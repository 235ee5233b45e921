"""Times the workloads of bench/workloads.txt, in turn in two built checkouts."""
import hashlib
import os
import shlex
import statistics
import subprocess
import sys
import time

TURNS = 9
SEED = 1


def workloads(checkout):
    """Returns the rows of bench/workloads.txt. Each line is NAME CRATE WORD... If the last word is <FILE, that file is the
    standard input. A word SEED is replaced by a number."""
    with open(os.path.join(checkout, 'bench/workloads.txt'), encoding='utf-8') as file:
        rows = [line.partition('#')[0].split() for line in file]
    return [(row[0], row[1], row[2:]) for row in rows if row]


def command(checkout, crate, words, seed):
    """Returns the command of a workload in a checkout, and the path of its standard input."""
    words = [str(seed) if word == 'SEED' else word for word in words]
    given = os.devnull
    if words and words[-1].startswith('<'):
        given = os.path.join(checkout, 'bench', words.pop()[1:])
    program = os.path.abspath(os.path.join(checkout, 'crates', crate, 'out', crate))
    if not os.path.exists(program):
        sys.exit(f'bench/run: {program} is not built: run `rt run` in its crate')
    return [program, *words], given


def turn(checkout, crate, words, seed):
    """Returns the seconds that a run takes, and the hash of what it prints."""
    its, given = command(checkout, crate, words, seed)
    with open(given, 'rb') as file:
        begun = time.perf_counter()
        ran = subprocess.run(its, cwd=os.path.join(checkout, 'bench'), stdin=file, stdout=subprocess.PIPE, check=False)
        seconds = time.perf_counter() - begun
    if ran.returncode:
        sys.exit(f'bench/run: {shlex.join(its)} ended with status {ran.returncode}')
    return seconds, hashlib.sha256(ran.stdout).hexdigest()


def compare(old, new, seed):
    """Prints a row for each workload of the new checkout: the median times in the old and the new checkout, the old one divided
    by the new one, and the least and greatest times in both."""
    rows = workloads(new)
    print(f'{TURNS} turns, seed {seed}: seconds, medians')
    print(f'{"workload":<12}{"old":>9}{"new":>9}{"old/new":>9}   least to most')
    for name, crate, words in rows:
        times, printed = {old: [], new: []}, {}
        for at in range(TURNS):
            for checkout in ((old, new) if at % 2 == 0 else (new, old)):
                seconds, its = turn(checkout, crate, words, seed)
                times[checkout].append(seconds)
                if printed.setdefault(checkout, its) != its:
                    sys.exit(f'bench/run: {name}: {checkout} does not print the same at each turn')
            if printed[old] != printed[new]:
                sys.exit(f'bench/run: {name}: the outputs differ')
        before, after = (statistics.median(times[checkout]) for checkout in (old, new))
        spread = ', '.join(f'{min(its):.3f} to {max(its):.3f}' for its in times.values())
        print(f'{name:<12}{before:9.3f}{after:9.3f}{before / after:9.2f}   {spread}', flush=True)
