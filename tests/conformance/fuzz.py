"""Tests conformance/check with changed replies and traces: it has to judge them or report what is wrong, and may not crash."""
import os
import random
import resource
import subprocess

from checks import fail
from checking import judge, report, runs, talk, traces
from checking.words import Sizes

# The most memory that this process may use, in KiB.
MAX_MEMORY = 200_000
SIZES = Sizes(3, 2, 2)
TRACE = ['admin grant 0', 'admin grant 1', '0 cache 24 8 a5', '0 take 0', '0 alloc 1', '0 write 8192 a5', '0 read 8192 2',
         'admin pool', '0 report', '1 alloc 3', '1 free 0', '0 frob', '# remark', 'admin move 0 0', '0 give 0 0',
         'admin takeback 1 0', '0 reap']


def mutated(rng, text):
    """Returns the text after random changes: a bit is flipped, a part is cut or doubled, or something is inserted: a long word,
    NUL, bytes that are not UTF-8, or a number or word of a trace."""
    text = bytearray(text)
    for _ in range(rng.choice([1, 1, 2, 5])):
        at = rng.randrange(len(text) + 1)
        part = text[at:at + rng.choice([1, 7, 60])]
        kind = rng.randrange(7)
        if kind == 0 and part:
            text[at] ^= 1 << rng.randrange(8)
        elif kind == 1:
            del text[at:at + len(part)]
        elif kind == 2:
            text[at:at] = part
        elif kind == 3:
            text[at:at] = rng.choice([b'9', b'a5', b' ', b'#> ', b'\n']) * rng.choice([20, 300, 70000])
        elif kind == 4:
            text[at:at] = b'\0' * rng.choice([1, 300])
        elif kind == 5:
            text[at:at] = bytes(rng.randrange(128, 256) for _ in range(rng.choice([1, 3, 300])))
        else:
            text[at:at] = rng.choice([b'4294967295', b'4294967296', b'-1', b'0> ', b'admin> ', b'!> ', b'refused 1 NoFrames',
                                      b'\r\n'])
    return bytes(text)


def shown(case, name):
    """Checks that the report of a case is ASCII without long lines, and that its saved trace can be read again."""
    said = '\n'.join(report.report_of(name, case))
    if not said.isascii() or max(map(len, said.split('\n'))) > 4000:
        fail(f'{said!r} is printed')
    traces.save(f'{name}.saved', case, [name])
    if traces.read(f'{name}.saved', Sizes(None, None, None))[0] != case.run.sizes:
        fail(f'{name}.saved is not read as it was')


def fuzz_replies(work, options, rng, count):
    """Tests programs that print changed replies. Returns for how many of them a fault is found."""
    told = subprocess.run([options.partmem, *(f'--{name}={size}' for name, size in zip(SIZES._fields, SIZES))],
                          input='\n'.join(TRACE).encode(), capture_output=True).stdout
    name, found = os.path.join(work, 'turned replies'), 0
    for _ in range(count):
        with open(name, 'wb') as file:
            file.write(mutated(rng, told))
        judging = judge.Judge(options, talk.Programs(['sh', '-c', 'cat "$0"', name]))
        run = runs.Run(judging.programs, SIZES)
        run.say(TRACE)
        case = judging.judged(run.end())
        if case:
            found += 1
            shown(case, name)
    return found


def fuzz_traces(work, options, rng, count):
    """Reads saved traces that were changed, and runs some of them. Returns how many cannot be read."""
    name, wrong = os.path.join(work, 'turned trace'), 0
    lines = ''.join(f'{line}\n#> 0> frame {at}\n' for at, line in enumerate(TRACE))
    plain = f'# machine: --order 3 --superblocks 2 --tenants 2\n{lines}'
    for at in range(count):
        with open(name, 'wb') as file:
            file.write(mutated(rng, plain.encode()))
        try:
            traces.read(name, Sizes(None, None, None))
            if at % 10 == 0:
                case = traces.trace(options, name).case
                if case:
                    shown(case, name)
        except traces.WrongTrace:
            wrong += 1
    return wrong


def fuzz(work, options, count):
    """Tests this number of changed inputs. Returns for how many of them a fault was found or the trace could not be read."""
    rng = random.Random(5)
    found = fuzz_replies(work, options, rng, count // 2)
    wrong = fuzz_traces(work, options, rng, count // 2)
    most = resource.getrusage(resource.RUSAGE_SELF).ru_maxrss
    if most > MAX_MEMORY:
        fail(f'{most} KiB of memory')
    return found + wrong
