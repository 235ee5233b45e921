"""Reads, writes and runs traces in files: failures that were saved with their machine and replies, or any other traces."""
import os
import re

from .judge import Judge
from .loads import Load, reached_by
from .runs import replayed
from .talk import Programs
from .words import Sizes, words_of

# The line that names the machine begins with MACHINE, and each line that keeps a reply line begins with REPLY. Remarks are cut to
# MAX_REMARK bytes, since a long remark would be a faulty line.
MACHINE, REPLY, MAX_REMARK = '# machine: ', '#> ', 250
LIMITS = Sizes((3, 8), (1, 256), (1, 64))


class WrongTrace(Exception):
    """Raised if a trace cannot be read or written, or does not name its machine."""


def text_of(case, about):
    """Returns the trace of a case, with its finding in remarks."""
    lines = [*(f'# {line}' for line in about), MACHINE + ' '.join(words_of(case.run.sizes))]
    for line, replies in case.run.exchanges:
        lines += [line, *(REPLY + reply for reply in replies)]
    return ''.join(f'{line[:MAX_REMARK] if line[:1] == "#" else line}\n' for line in lines)


def save(name, case, about):
    try:
        with open(name, 'wb') as file:
            file.write(text_of(case, about).encode('latin-1', 'replace'))
    except OSError as error:
        raise WrongTrace(f'cannot write {name}: {error.strerror}') from None


def files_of(name):
    """Returns a list of the file `name` alone, or of the files in the folder `name`, sorted."""
    try:
        inside = sorted(os.listdir(name)) if os.path.isdir(name) else None
    except OSError as error:
        raise WrongTrace(f'cannot read {name}: {error.strerror}') from None
    if inside is None:
        return [name]
    files = [os.path.join(name, file) for file in inside if not file.startswith('.')]
    if not files:
        raise WrongTrace(f'{name} has no traces')
    return files


def read(name, fixed):
    """Returns the machine of a trace, and its lines with the replies that are kept with them. Sizes in `fixed` that are not None
    replace those in the trace."""
    try:
        with open(name, 'rb') as file:
            lines = file.read().decode('latin-1').split('\n')
    except OSError as error:
        raise WrongTrace(f'cannot read {name}: {error.strerror}') from None
    said, exchanges = Sizes(None, None, None), []
    for line in lines if lines[-1] else lines[:-1]:
        if line.startswith(MACHINE):
            said = sizes_in(name, line)
        elif line.startswith(REPLY) and exchanges:
            exchanges[-1][1].append(line[len(REPLY):])
        elif exchanges or not line.startswith('#'):
            exchanges.append((line, []))
    sizes = Sizes(*(one if one is not None else other for one, other in zip(fixed, said)))
    if None in sizes:
        example = f'{MACHINE}--order 3 --superblocks 2 --tenants 1'
        raise WrongTrace(f'{name} does not name its machine by a line such as {example!r}: give these options')
    return sizes, exchanges


def sizes_in(name, line):
    words = re.fullmatch(r'--order (\d{1,3}) --superblocks (\d{1,3}) --tenants (\d{1,3})\s*', line[len(MACHINE):], re.A)
    sizes = words and Sizes(*map(int, words.groups()))
    if not sizes or not all(least <= size <= most for size, (least, most) in zip(sizes, LIMITS)):
        raise WrongTrace(f'{name} names a machine that does not exist: {line[:100]!r}')
    return sizes


def trace(options, name):
    """Runs the trace in a file and tests it: the promises, and Alone for every tenant that a line names."""
    sizes, exchanges = read(name, Sizes(options.order, options.superblocks, options.tenants))
    judge = Judge(options, Programs(options.command))
    run = replayed(judge.programs, sizes, exchanges)
    case, speakers = judge.judged(run), iter(run.speakers())
    while not case and (tenant := next(speakers, None)) is not None:
        case = judge.alone(run, tenant)
    return Load(name, reached_by(run), case and judge.steady(case))
