"""What from-kmem and from-malloc share: tenants that request page blocks and objects from a running partmem, and write the lines
that they send as a trace. Where a block or an object lies, and whether memory is left, they only learn from partmem's replies. A
line whose reply is not needed yet waits, and is sent together with the lines that follow it.
"""
import argparse
import collections
import contextlib
import gc
import gzip
import heapq
import itertools
import os
import stat
import subprocess
import sys
import time
import typing
import zlib

import built
import summary
from summary import FRAME, MAX_SUPERBLOCKS, visible

GREATEST_OBJECT = 4096
CACHES = 32
ORDERS, MAX_TENANTS = range(3, 9), 64
PIECE = 1 << 16            # about how many characters of a log are read at a time
LINES_BETWEEN = 10_000     # how many lines are read before it is seen whether progress has to be shown
MAX_WAITING = 100          # lines that wait: few enough that their replies fit into a pipe, which holds at least 4 KiB
MAX_CHARACTERS = 1 << 17   # of a line; malloc_log.c leaves up to half as many zeroes after the last line
MAX_BYTES, BYTES_BEGUN = 255, 100  # the most bytes of a line of a trace; the bytes of a too long name that come before its cut
SECOND, MAX_TIMES = 10**9, 100     # a second in nanoseconds; about how many remarks of the time a trace has at most
AGAIN = 'given again without a free between: given back first'


def own_name():
    return os.path.basename(sys.argv[0])


class Progress:
    """A line on standard error that says how far the program is, if standard error is a terminal. It is written at most once in
    each `interval`, in seconds."""

    def __init__(self, interval):
        self.interval, self.next = interval, time.monotonic() + interval
        self.is_terminal, self.is_shown, self.is_converting = sys.stderr.isatty(), False, False

    def tell(self, text):
        if self.is_terminal and time.monotonic() >= self.next:
            self.next, self.is_shown = time.monotonic() + self.interval, True
            print(f'\r{own_name()}: {visible(text)}\033[K', end='', file=sys.stderr, flush=True)

    def erase(self):
        if self.is_shown:
            self.is_shown = False
            print('\r\033[K', end='', file=sys.stderr, flush=True)


PROGRESS = Progress(1)


def fail(text, status=1):
    PROGRESS.erase()
    print(f'{own_name()}: {visible(text)}', file=sys.stderr)
    sys.exit(status)


def arguments(description, **more):
    """Returns the arguments. `more` has an option --by with these choices, if it is not empty."""
    given = argparse.ArgumentParser(description=description, formatter_class=argparse.RawDescriptionHelpFormatter)
    given.add_argument('--order', type=int, default=8, metavar='S', help='a superblock has 2^S frames, S 3 to 8 (8)')
    given.add_argument('--superblocks', type=int, default=256, metavar='N', help='how many superblocks there are, 1 to 256 (256)')
    given.add_argument('--together', action='store_true', help='let all logs begin at the same time')
    given.add_argument('--partmem', metavar='PROGRAM', help='the partmem to run (the proved one, or else the unproved one)')
    given.add_argument('--largest', type=int, metavar='N', help='take the N largest logs, 1 to 64; a LOG may be a folder')
    if more:
        given.add_argument('--by', **more)
    given.add_argument('logs', nargs='+', metavar='LOG', help='1 to 64 files, each a tenant, gzipped if the name ends in .gz')
    return checked(given.parse_args())


def checked(given):
    """Returns the arguments. Fails if a machine cannot have these sizes or a tenant for each log, or if there is no partmem. With
    --largest, replaces the logs by the largest ones."""
    if given.order not in ORDERS:
        fail(f'--order {given.order}: the order of a superblock is {ORDERS[0]} to {ORDERS[-1]}', 2)
    if not 1 <= given.superblocks <= MAX_SUPERBLOCKS:
        fail(f'--superblocks {given.superblocks}: a machine has 1 to {MAX_SUPERBLOCKS} superblocks', 2)
    if given.largest is not None:
        if not 1 <= given.largest <= MAX_TENANTS:
            fail(f'--largest {given.largest}: a machine has 1 to {MAX_TENANTS} tenants', 2)
        given.logs = largest(given.logs, given.largest)
    if len(given.logs) > MAX_TENANTS:
        fail(f'{len(given.logs)} logs: each is a tenant, and a machine has at most {MAX_TENANTS}. Convert fewer of them, '
             'or the largest by --largest N', 2)
    if getattr(given, 'by', None) and len(given.logs) > 1:
        fail(f'--by {given.by}: it divides one log into tenants, and not {len(given.logs)}', 2)
    given.partmem = given.partmem or built.program(own_name(), 'partmem') or fail(f'there is no partmem: {built.HOW}')
    return given


def size_of_text(path):
    """Returns the size of a file in bytes, not counting up to MAX_CHARACTERS zeroes at its end; or 0 if it is no
    regular file."""
    status = os.stat(path)
    if not stat.S_ISREG(status.st_mode):
        return 0
    with open(path, 'rb') as file:
        file.seek(max(status.st_size - MAX_CHARACTERS, 0))
        return file.tell() + len(file.read(MAX_CHARACTERS).rstrip(b'\0'))


def files_of(path):
    """Returns a list of (path, size): the files in `path` if it is a folder, or else `path` alone."""
    try:
        found = [entry.path for entry in os.scandir(path) if entry.is_file()] if os.path.isdir(path) else [path]
        return [(it, size_of_text(it)) for it in found]
    except OSError as problem:
        fail(f'cannot read {path}: {reason(problem)}')


def largest(paths, most):
    """Returns the paths of the `most` largest logs, or of all if there are fewer. A folder among `paths` counts as its files."""
    files = {it: size for path in paths for it, size in files_of(path)}
    if not files:
        fail(f'{" ".join(paths)} has no file')
    return sorted(files, key=lambda it: (-files[it], it))[:most]


def reason(problem):
    return getattr(problem, 'strerror', None) or str(problem)


def lines_in(file, path, first=1):
    """Yields (number, line) for each line of a file; the first line has the number `first`. Fails at a line of more than
    MAX_CHARACTERS characters, before all of it is read into memory."""
    for at, line in enumerate(iter(lambda: file.readline(MAX_CHARACTERS + 1), ''), first):
        if len(line) > MAX_CHARACTERS:
            fail(f'{path} line {at}: it has more than {MAX_CHARACTERS} characters')
        yield at, line


def lines_of(path):
    """Yields (number, line) for each line of a log. Bytes that are not UTF-8 are replaced: only names may have any, and names
    need not be exact."""
    with opened(path) as file:
        for at, line in lines_in(file, path):
            if at % LINES_BETWEEN == 0 and not PROGRESS.is_converting:
                PROGRESS.tell(f'{at} lines of {path} read')
            yield at, line


def pieces_of(path):
    """Yields a log in pieces of about PIECE characters, as `lines_of` yields it in lines: (number of its first line, text). A
    piece ends with a line, or with the log, or with the beginning of a line that `lines_in` refuses."""
    at = 1
    with opened(path) as file:
        while text := file.read(PIECE):
            if not text.endswith('\n'):
                text += file.readline(MAX_CHARACTERS + 1)
            yield at, text
            at += text.count('\n')
            PROGRESS.tell(f'{at - 1} lines of {path} read')


@contextlib.contextmanager
def opened(path):
    """Opens a log, and closes it in the end. Fails if it cannot be opened or read."""
    try:
        mode = os.stat(path).st_mode
        if not stat.S_ISREG(mode):
            more = ', or --largest N takes the largest N in it' if stat.S_ISDIR(mode) else ''
            fail(f'cannot read {path}: it is read twice, so it has to be a regular file{more}')
        with (gzip.open if path.endswith('.gz') else open)(path, 'rt', encoding='utf-8', errors='replace') as file:
            yield file
    except (OSError, EOFError, zlib.error) as problem:
        fail(f'cannot read {path}: {reason(problem)}')


class Written:
    """How many lines are written."""
    lines = 0


def write(lines, what='the trace'):
    """Writes a line of the trace, or of `what`; or several, with a line feed between two."""
    Written.lines += 1 + lines.count('\n')
    try:
        print(lines)
    except OSError as problem:
        cannot_write(problem, what)


def flush(what='the trace'):
    """Writes what is buffered of the trace, or of `what`."""
    try:
        sys.stdout.flush()
    except OSError as problem:
        cannot_write(problem, what)


def cannot_write(problem, what):
    """Reports that `what` cannot be written, and ends the program. What is still buffered goes to /dev/null, so that Python does
    not try to write it once more."""
    os.dup2(os.open(os.devnull, os.O_WRONLY), sys.stdout.fileno())
    fail(f'cannot write {what}: {reason(problem)}')


def remark(begin, name):
    """Returns a comment line of a trace that ends with a name. If the name is too long for a line, its middle is left out."""
    shown = visible(name).encode()
    most = MAX_BYTES - len(begin)
    if len(shown) > most:
        shown = shown[:BYTES_BEGUN] + b'..' + shown[BYTES_BEGUN + 2 - most:]
    return begin + shown.decode(errors='ignore')


def interval_of(time):
    """Returns the least of 1, 2, 5, 10, 20 .. nanoseconds that fits at most MAX_TIMES times into this time."""
    unit = 1
    while True:
        for interval in unit, 2 * unit, 5 * unit:
            if time <= MAX_TIMES * interval:
                return interval
        unit *= 10


def seconds(time):
    """Returns a time in nanoseconds as text, in seconds, with as many decimals as it needs."""
    return f'{time // SECOND}.{time % SECOND:09}'.rstrip('0').rstrip('.')


class Clock:
    """Writes into the trace how much time has passed since the first event, once in each interval that has an event."""

    def __init__(self, longest):
        self.interval, self.start, self.next, self.passed = interval_of(longest), None, float('-inf'), 0
        self.soonest = float('-inf')    # seconds; before this time `tell` writes nothing
        write(f'# times every {seconds(self.interval)} seconds')

    def tell(self, now):
        now = round(now * SECOND)
        if now >= self.next:
            self.start = now if self.start is None else self.start
            self.passed = (now - self.start) // self.interval * self.interval
            self.next = self.start + self.passed + self.interval
            self.soonest = (self.next - 1) / SECOND * (1 - 2**-50)
            write(f'# time {seconds(self.passed)}')


class Survey(typing.NamedTuple):
    """What a first reading of a log finds: how often it requests each size of an object, the time of its first event, and the
    latest time of an event. `events` are its events. `sizes` has the requests for the summary, by summary.bits, that were counted
    already."""
    counts: collections.Counter
    first: float
    most: float
    events: typing.Iterable
    sizes: collections.Counter = collections.Counter()


def longest(surveys, together):
    """Returns how much time passes from the first event of the merged logs to the last, in nanoseconds."""
    if together:
        return round(max(it.most - it.first for it in surveys) * SECOND)
    return round((max(it.most for it in surveys) - min(it.first for it in surveys)) * SECOND)


def merged(counts, most):
    """Returns, for each size, the size that is used instead, so that at most `most` sizes are used. `counts` says how often each
    size is requested. Each step merges one size into the next greater one. It merges the size for which this wastes least. The
    waste is the number of requests for this size times its distance to the next size."""
    kept = dict(counts)
    while len(kept) > most:
        sizes = sorted(kept)
        small, great = min(zip(sizes, sizes[1:]), key=lambda pair: kept[pair[0]] * (pair[1] - pair[0]))
        kept[great] += kept.pop(small)
    return {size: min(it for it in kept if it >= size) for size in counts}


class Machine:
    """A running partmem, and the trace of all lines that were sent to it."""

    def __init__(self, given, count):
        sizes = f'--order {given.order} --superblocks {given.superblocks} --tenants {count}'
        self.order, self.superblocks, self.tenants = given.order, given.superblocks, []
        # The lines that wait. None of them can be refused. For each, who notes the reply: the tenant, and the first arguments of
        # its `keep_object`, or the argument of its `drop`. How many lines take an object, and how many give something back.
        self.lines, self.notes, self.takes, self.gives = [], [], 0, 0
        try:
            command, pipe = [given.partmem, *sizes.split()], subprocess.PIPE
            self.program = subprocess.Popen(command, stdin=pipe, stdout=pipe, bufsize=0)
        except OSError as problem:
            fail(f'cannot run {given.partmem}: {reason(problem)}')
        write(f'# partmem {sizes}')

    def line(self):
        """Returns the number of the last line of the trace, also if it waits."""
        return Written.lines + len(self.lines)

    def ask(self, line):
        """Sends a line, and writes it to the trace. Returns what `send` returns."""
        words = self.send(line)
        write(line)
        return words

    def send(self, line):
        """Sends a line. Returns the words of the reply after its actor, or None if the line was refused for want of frames or of
        superblocks, or because the slot is still in use. Any other refusal is a failure."""
        words = self.settle(line)[-1].split()[1:]
        if words[0] != 'refused':
            return words
        return None if words[1] in ('1', '13', '15') else fail(f'partmem answered "{line}" by "{" ".join(words)}"')

    def settle(self, *more):
        """Sends the lines that wait and `more`, and lets the tenants note the replies to those that waited, in order. Returns all
        replies."""
        lines, notes = self.lines, self.notes
        self.lines, self.notes, self.takes, self.gives = [], [], 0, 0
        if lines:
            write('\n'.join(lines))
        lines += more
        replies = self.replies(lines)
        try:
            for (tenant, name, cache, asked), line, reply in zip(notes, lines, replies):
                if cache:
                    tenant.keep_object(name, cache, asked, reply)
                elif 'refused' in reply:
                    raise ValueError
                else:
                    tenant.drop(name)
        except ValueError:
            fail(f'partmem answered "{line}" by "{reply}"')
        return replies

    def replies(self, lines):
        """Sends lines, and returns the reply to each. They are so few that the pipe holds all replies."""
        found = b''
        try:
            self.program.stdin.write(('\n'.join(lines) + '\n').encode())
            while found.count(b'\n') < len(lines) and (read := self.program.stdout.read(PIECE)):
                found += read
        except BrokenPipeError:
            pass
        replies = found.decode().splitlines()
        if len(replies) < len(lines):
            fail(f'partmem has ended with status {self.program.wait()}, and did not answer "{lines[len(replies)]}"')
        return replies

    def grant(self, tenant):
        """Grants the tenant a superblock, and returns whether it got one. If no superblock is left, first takes an unused slot
        from another tenant that has one."""
        line = f'admin grant {tenant.number}'
        words = self.ask(line)
        if not words and any(other.take_back(1) for other in self.tenants if other is not tenant):
            words = self.ask(line)
        if words:
            tenant.slots[int(words[3])] = 0
        return bool(words)

    def end(self):
        if self.lines:
            self.settle()
        for tenant in self.tenants:
            for comment in tenant.remarks():
                write(comment)
        for tenant in self.tenants:
            write(f'{tenant.number} report')
        flush()
        self.program.stdin.close()
        if self.program.wait():
            fail(f'partmem ended with status {self.program.returncode}')


class Kind:
    """The page blocks of an order, or the objects of a cache: the line that requests one, the order of a block or of a slab, and
    how many are in it; how many are live, now and at most. `give` is the line that gives an object back, up to its place."""
    __slots__ = 'request', 'give', 'order', 'things', 'live', 'most'

    def __init__(self, request, give, order, things):
        self.request, self.give, self.order, self.things, self.live, self.most = request, give, order, things, 0, 0


class Tenant:
    """A tenant that makes the requests of one log. `counts` says how often it requests each size up to GREATEST_OBJECT."""

    def __init__(self, machine, survey):
        self.machine, self.number = machine, len(machine.tenants)
        machine.tenants.append(self)
        self.slots = {}     # how many blocks and objects lie in each slot that is held
        # What each live allocation of the log has, by its name: a pointer or a block of pages. An object is one part. Page blocks
        # are a list of parts. None if the reply is not there yet. A part is the line that gives it back, its kind, the first frame
        # of the block or of the object's slab, and the requested bytes of an object, or None for a block.
        self.things = {}
        self.told, self.used = collections.Counter(), summary.Used()
        self.sizes = survey.sizes.copy()        # how often each size was requested, by summary.bits
        self.kinds = {}     # by the line that requests a part
        stands_for = merged(survey.counts, CACHES)
        used = sorted(set(stands_for.values()))
        for cache, size in enumerate(used):
            words = machine.ask(f'{self.number} cache {size} {min(max(size & -size, 8), 256)} {0xa0 + cache:x}')
            self.kind(f'{self.number} take {cache}', f'{self.number} give {cache} ', int(words[5]), int(words[7]))
        self.cache_of = {size: self.kinds[f'{self.number} take {used.index(stands_for[size])}'] for size in stands_for}
        self.before_place = len(f'{self.number}> object ')

    def kind(self, request, give, order, things):
        """Returns the kind of what this line requests. Makes it if the line is new."""
        return self.kinds.setdefault(request, Kind(request, give, order, things))

    def request(self, line):
        """Sends a request. If it is refused and the tenant can be granted a superblock, sends it again. Returns the frame or the
        place in the reply, or None if the request was refused. The trace has the request once: a refused request changes nothing,
        so one that is met after a grant is left out before it."""
        words = self.machine.send(line)
        if not words and self.machine.grant(self):
            words = self.machine.send(line)
        write(line)
        return words and int(words[1])

    def take(self, name, size, asked):
        """Takes an object of this size for `asked` requested bytes. If it is too large for a cache, allocates page blocks."""
        if size > GREATEST_OBJECT:
            self.alloc(name, -(-size // FRAME))
        else:
            self.take_from(self.cache_of[size], name, asked)

    def take_from(self, cache, name, asked):
        """Takes an object of a cache for `asked` requested bytes.

        If the cache's slabs have one frame, and a frame is free for each object that was requested since the last reply and for
        this one, the request cannot be refused."""
        if name in self.things:
            self.give(name, AGAIN)
        machine = self.machine
        if cache.order == 0 and (len(self.slots) << machine.order) - self.used.frames > machine.takes:
            self.things[name] = None
            machine.takes += 1
            machine.lines.append(cache.request)
            machine.notes.append((self, name, cache, asked))
            if len(machine.lines) == MAX_WAITING:
                machine.settle()
            return
        place = self.request(cache.request)
        if place is not None:
            self.keep_object(name, cache, asked, f'{self.number}> object {place}')
        else:
            self.things[name] = []
            self.told['objects refused for want of frames'] += 1

    def keep_object(self, name, cache, asked, reply):
        """Notes that partmem gave an object of a cache, of `asked` requested bytes, to the allocation with this name. Raises
        ValueError if the reply is another one."""
        place, order = int(reply[self.before_place:]), cache.order
        slab = place // FRAME >> order << order
        self.things[name] = f'{cache.give}{place}', cache, slab, asked
        self.slots[slab >> self.machine.order] += 1
        cache.live += 1
        if cache.live > cache.most:
            cache.most = cache.live
        self.used.add_object(slab, 1 << order, asked, len(self.slots))

    def alloc(self, name, frames):
        """Allocates page blocks with at least this number of frames together. While more than a slot's frames are missing, a
        block is a whole slot; the last block is the smallest that is enough. If a block is refused, frees those before it."""
        self.give(name, AGAIN)
        parts = self.things[name] = []
        while frames > 0:
            order = min((frames - 1).bit_length(), self.machine.order)
            line = f'{self.number} alloc {order}'
            frame = self.request(line)
            if frame is None:
                self.give(name)
                self.things[name] = []
                break
            parts.append(self.keep_block(line, order, frame))
            frames -= 2**order
        self.note_blocks(self.things[name])

    def keep_block(self, line, order, frame):
        """Returns the part for a page block that partmem gave for this line."""
        kind = self.kind(line, '', order, 1)
        self.slots[frame >> self.machine.order] += 1
        kind.live += 1
        self.used.add_block(2**order)
        return f'{self.number} free {frame}', kind, frame, None

    def note_blocks(self, parts):
        """Notes what the tenant has, after a request was met by these page blocks, or was refused if there are none."""
        for _, kind, _, _ in parts:
            kind.most = max(kind.most, kind.live)
        if parts:
            self.used.note(len(self.slots), 2**parts[0][1].order)
        self.told['page blocks allocated' if parts else 'page blocks refused for want of frames'] += 1

    def give(self, name, what=None):
        """Gives back all parts of the allocation with this name, and counts that as `what`. Returns whether there was one."""
        found = self.things.pop(name, False)
        if found is None:
            self.machine.settle()
            found = self.things.pop(name)
        if found is False:
            return False
        if what:
            self.told[what] += 1
        if type(found) is tuple:
            self.give_part(found)
        else:
            for part in found:
                self.give_part(part)
        return True

    def give_part(self, part):
        """Gives back a part. If something else is left in its slot, nothing depends on the reply."""
        machine = self.machine
        if self.slots[part[2] >> machine.order] > machine.gives + 1:
            machine.gives += 1
            machine.lines.append(part[0])
            machine.notes.append((self, part, None, 0))
            if len(machine.lines) == MAX_WAITING:
                machine.settle()
        else:
            machine.ask(part[0])
            self.drop(part)

    def drop(self, part):
        """Notes that a part was given back."""
        _, kind, frame, asked = part
        if asked is None:
            self.used.drop_block(1 << kind.order)
        else:
            self.used.drop_object(frame, 1 << kind.order, asked)
        kind.live -= 1
        slot = frame >> self.machine.order
        self.slots[slot] -= 1
        if self.slots[slot] == 0:
            self.take_back(2)

    def take_back(self, least):
        """Gives up the unused slot with the greatest number if at least `least` slots are unused. If an empty slab is in that
        slot, the tenant first reaps all its empty slabs. Returns whether a slot was given up. A tenant keeps one unused slot as
        long as no other tenant needs one. Otherwise a slot would be granted and taken back again and again."""
        spare = [slot for slot, things in self.slots.items() if things == 0]
        if len(spare) < least:
            return False
        line = f'admin takeback {self.number} {max(spare)}'
        if not self.machine.ask(line):
            self.machine.ask(f'{self.number} reap')
            self.machine.ask(line)
        del self.slots[max(spare)]
        return True

    def count_size(self, asked):
        self.sizes[summary.bits(asked)] += 1

    def counts(self):
        """Returns how often each thing happened that the summary counts."""
        return self.told + collections.Counter({'objects taken': self.used.taken})

    def tell_more(self):
        """Prints more about the load, in the summary. Prints nothing unless a subclass does."""

    def remarks(self):
        """Returns comments for the end of the trace. There are none unless a subclass has some."""
        return []

    def most_blocks(self):
        """Returns a list of (order, the most blocks of this order at a time): one pair for each order of page blocks, and one for
        the slabs of each cache. A cache makes a slab only when all its others are full, so it never has more slabs than the
        greatest number of its live objects needs."""
        return [(kind.order, -(-kind.most // kind.things)) for kind in self.kinds.values() if kind.most]


def larger(given):
    """Returns the words that name the options of a larger machine, or no words if there is no larger one."""
    more = 'more --superblocks, ' if given.superblocks < MAX_SUPERBLOCKS else ''
    return more + ('a larger --order, ' if given.order < ORDERS[-1] else '')


def convert(given, survey, kind, name_of=str):
    """Writes the trace and the summary of the logs. First, `survey` reads each log alone, to check it and to find the sizes that it
    requests. Then the events of all logs are merged by time. Each log is a tenant of class `kind`, which applies the log's
    events. `name_of` returns the name of the tenant from the path of its log."""
    gc.disable()    # nothing here refers to itself, and there are many small things
    surveys, names = [survey(path) for path in given.logs], [name_of(path) for path in given.logs]
    starts = [it.first if given.together else 0 for it in surveys]
    events = [zip(itertools.repeat(number), itertools.repeat(start), it.events)
              for number, (start, it) in enumerate(zip(starts, surveys))]
    merged_events = heapq.merge(*events, key=lambda it: it[2][0] - it[1]) if len(events) > 1 else events[0]
    replay(given, names, surveys, kind, merged_events)


def replay(given, names, surveys, kind, events):
    """Writes the trace and the summary of tenants of class `kind` with these names and surveys. An event is the number of its
    tenant, a time from which on its time counts, and what `apply` of the tenant needs, which begins with its time."""
    sys.stdout.reconfigure(encoding='utf-8')
    machine = Machine(given, len(names))
    for number, name in enumerate(names):
        write(remark(f'# tenant {number} is ', name))
    whole = max(longest(surveys, given.together), 1)
    clock = Clock(whole)
    PROGRESS.is_converting = True
    tenants = [kind(machine, it) for it in surveys]
    for number, start, event in events:
        if event[0] - start >= clock.soonest:
            if machine.lines:
                machine.settle()
            clock.tell(event[0] - start)
            PROGRESS.tell(f'{100 * clock.passed // whole} % of the time converted')
        tenants[number].apply(event)
    PROGRESS.erase()
    machine.end()
    for tenant, name in zip(tenants, names):
        print(f'tenant {tenant.number} is {visible(name)}', file=sys.stderr)
        summary.tell(tenant, larger(given))
