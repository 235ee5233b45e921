"""Makes the report: about the load in which something was found, or about all loads if nothing was found."""
import contextlib
import itertools
import re
import time

from .judge import Breach
from .maker import OF_CACHES
from .plans import MAX_SUPERBLOCKS, MAX_TENANTS
from .talk import Failure
from .words import MAX_ORDER, counted, in_seconds, told_in, visible, words_of

# The lines of standard error that are shown: at most MAX_LAST_LINES at its end, at most MAX_TELLING that say what happened, and
# after each of those at most MAX_MESSAGE lines of its message, and at most MAX_FRAMES stack frames of the next MAX_BEHIND
# lines. Frames of Rust's own library are left out. A frame in Rust may have a second line, with its place.
MAX_LAST_LINES, MAX_TELLING, MAX_MESSAGE, MAX_FRAMES, MAX_BEHIND = 5, 4, 3, 3, 60
TELLING = re.compile(r'ERROR:|runtime error:|[Aa]ssertion|panicked at')
FRAME = re.compile(r'\s*#\d+ |\s+\d+: ')
LIBRARY = 'backtrace_rs|panicking|backtrace|sys|fmt|io|option|result|slice|ops|vec'
OF_RUST = re.compile(rf'\s+\d+: .*(rust_begin_unwind|(core|std|alloc)(\[\w+\])?::({LIBRARY})\b)')
PLACE = re.compile(r'\s+at ')
BACKTRACE = 'stack backtrace:'
# If more than MAX_LINES lines show a finding, the report has the first FIRST_LINES and the last LAST_LINES of them.
MAX_LINES, FIRST_LINES, LAST_LINES = 400, 20, 40
# The refusals that commands of tenants may get, and those that commands of the administrator may get.
REFUSALS = {'alloc': ['NoFrames', 'BadOrder'], 'free': ['NotABlock'], 'read': ['OutOfReach', 'BadLength'],
            'write': ['OutOfReach'], 'cache': ['BadSize', 'BadAlign', 'NoCacheSlot'], 'take': ['NoCache', 'NoFrames'],
            'destroy': ['NoCache', 'CacheInUse'], 'give': ['NoCache', 'NotAnObject']}
OF_ADMIN = ['NoTenant', 'PoolEmpty', 'NoSlot', 'SlotBusy']


class Progress:
    """A line that shows the progress and is overwritten in place. It appears only if the stream is a terminal."""

    def __init__(self, stream):
        self.stream = stream if stream is not None and stream.isatty() else None
        self.width, self.again = 0, 0.0

    def show(self, words):
        if self.stream and time.monotonic() >= self.again:
            self.again = time.monotonic() + 0.1
            self.write(words.ljust(self.width))
            self.width = len(words)

    def clear(self):
        if self.width:
            self.write(' ' * self.width + '\r')

    def write(self, words):
        with contextlib.suppress(OSError):
            self.stream.write(f'\r{words}')
            self.stream.flush()


def is_of_caches(line):
    return bool(set(line.split()[1:2]) & set(OF_CACHES))


def has_caches(run):
    """Returns whether the program answered a command of caches before the last line of a run, with anything but a fault."""
    return any(is_of_caches(line) and told_in(replies) for line, replies in run.exchanges[:-1])


def advice(options, case, whole):
    """Yields sentences that may help. `whole` is the run before it was shortened."""
    line, replies = case.run.exchanges[-1] if case.run.exchanges else ('', [])
    is_refused = isinstance(case.finding, Failure) and case.finding.kind.startswith('with status')
    is_without = is_of_caches(line) and not options.pages and not has_caches(whole)
    if is_without and (is_refused or case.finding.kind == 'Form'):
        yield 'If your allocator has no caches, test it with --pages.'
    if isinstance(case.finding, Breach) and case.finding.is_unsteady:
        yield 'The program answers the same lines differently each time. They are all lines up to the first difference.'
    if case.finding.kind == 'Form' and replies and replies[-1].endswith('\r'):
        yield 'The reply ends in CR LF: a line of a reply ends in LF alone.'


def last_words(errors):
    """Yields the lines of standard error that say what happened, and the last ones. `..` marks lines that are left out."""
    lines, shown = errors.splitlines(), set()
    for at in [at for at, line in enumerate(lines) if TELLING.search(line)][:MAX_TELLING]:
        shown |= {at, *message_after(lines, at), *frames_after(lines, at)}
    shown |= set(range(max(0, len(lines) - MAX_LAST_LINES), len(lines)))
    before = -1
    for at in sorted(shown):
        if at > before + 1:
            yield '..'
        yield visible(lines[at])
        before = at


def message_after(lines, at):
    """Returns the numbers of the lines right after a line that says what happened, up to its stack frames."""
    behind = range(at + 1, min(at + 1 + MAX_MESSAGE, len(lines)))
    return itertools.takewhile(lambda line: not FRAME.match(lines[line]) and lines[line] != BACKTRACE, behind)


def frames_after(lines, at):
    """Yields the numbers of the first stack frames after a line that says what happened, and of the lines with their places."""
    behind = range(at + 1, min(at + 1 + MAX_BEHIND, len(lines)))
    frames = (line for line in behind if FRAME.match(lines[line]) and not OF_RUST.match(lines[line]))
    for frame in itertools.islice(frames, MAX_FRAMES):
        yield frame
        if frame + 1 < len(lines) and PLACE.match(lines[frame + 1]):
            yield frame + 1


def said_of(finding, whole):
    """Returns the finding as lines of text. If the program hangs or does not exit, they also say how it failed in the whole load,
    in which it may have had more time for a reply. `whole` is the finding in the whole load."""
    if isinstance(finding, Breach):
        return [f'{finding.kind}: ' + (f'tenant {finding.tenant}: ' if finding.tenant is not None else '') + shown(finding.words)]
    again = f'; in the whole load {whole.words}' if finding.kind in ('hangs', 'stays') and finding != whole else ''
    errors = list(last_words(finding.errors))
    return [f'Failed: {finding.words}{again}', *(['Its last words on standard error:'] if errors else []),
            *(f'    {line}' for line in errors)]


def shown(words):
    """Returns the words of a broken promise as one line of ASCII. `..` replaces the ellipsis with which partcheck cuts a long
    reply."""
    return ''.join(letter if ' ' <= letter <= '~' else '..' if letter == '\u2026' else visible(letter) for letter in words)


def report_of(name, case, whole=None):
    """Returns the lines that report the shortened load or trace of this name. `whole` is the finding in the whole load."""
    count, is_failure = len(case.run.exchanges), isinstance(case.finding, Failure)
    name = f'load {name}' if isinstance(name, int) else f'trace {visible(name)}'
    lines = [f'{name} {"makes the program fail" if is_failure else "breaks a promise"}; {counted(count, "line")} '
             f'{"shows" if count == 1 else "show"} it, of {" ".join(words_of(case.run.sizes))}:', '']
    hidden = range(FIRST_LINES, count - LAST_LINES) if count > MAX_LINES else range(0)
    for at, (line, replies) in enumerate(case.run.exchanges):
        if at not in hidden:
            lines += [visible(line), *(f'    {visible(reply)}' for reply in replies)]
        elif at == hidden[0]:
            lines.append(f'.. {counted(len(hidden), "line")} more, which --save FILE writes ..')
    return [*lines, '', *said_of(case.finding, whole or case.finding)]


def ends_of(options, case, stopped, command, whole):
    """Yields what may help, and the command that runs the load again. `whole` is the run before it was shortened."""
    yield from advice(options, case, whole)
    if stopped is not None:
        yield f'Fewer lines may show it: shortening was stopped after {in_seconds(stopped)}; see --shorten.'
    yield f'Run it again: {command}'


def not_reached(options, reached):
    """Yields what the loads could have reached and did not."""
    commands = [command for command in REFUSALS if command not in options.without]
    refusals = [name for command in commands for name in REFUSALS[command]] + OF_ADMIN
    yield from (name for name in dict.fromkeys(refusals) if not reached.refused[name])
    if options.order is None:
        yield from (f'order {order}' for order in range(3, MAX_ORDER + 1) if order not in reached.orders)
    if options.superblocks is None and reached.widest.superblocks < MAX_SUPERBLOCKS:
        yield f'{MAX_SUPERBLOCKS} superblocks'
    if options.tenants is None and reached.tenants < MAX_TENANTS:
        yield f'{MAX_TENANTS} tenants'


def kept(options, count, noun, reached):
    """Returns what is printed if no promise is broken and nothing fails."""
    done = f'kept: {counted(count, noun)}, {counted(reached.lines, "line")}'
    if noun != 'load':
        return done
    orders, most = sorted(reached.orders), reached.most
    refused = ', '.join(f'{name} {times}' for name, times in sorted(reached.refused.items(), key=lambda item: -item[1]))
    held = ', '.join(counted(most[noun], noun[:-1]) for noun in ('slots', 'frames', 'blocks', 'objects') if most[noun])
    missing = ', '.join(not_reached(options, reached))
    of_orders = f'orders {orders[0]} to {orders[-1]}' if orders[1:] else f'order {orders[0]}'
    return (f'{done}; {of_orders}, up to {counted(reached.tenants, "tenant")}, '
            f'the widest machine {" ".join(words_of(reached.widest))}; '
            f'one tenant had up to {held or "nothing"}; refused: {refused or "nothing"}; not reached: {missing or "nothing"}')
