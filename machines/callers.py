"""Finds, for from-malloc, which callers of malloc allocated the blocks that are live at the peak: when most bytes are live."""
import collections
import functools
import os
import shutil
import subprocess
import time

import summary
import tenants

MAX_ROWS, MAX_LOOKED_UP, MAX_CHARACTERS = 20, 1000, 80
MAX_SECONDS, MAX_BYTES = 60, 1 << 32  # the time for all runs of addr2line together; the size of a file that it reads


class Calls:
    """`size` and `count` are the live bytes and blocks of a caller. `then` has both as they were at the peak with number
    `peak`."""
    __slots__ = 'size', 'count', 'peak', 'then'

    def __init__(self):
        self.size = self.count = self.peak = 0
        self.then = 0, 0


class Callers:
    """The callers of malloc in a log, with the live bytes and blocks of each at the peak. A caller is a path and an offset, or
    None if the log does not name it."""

    def __init__(self):
        self.calls = collections.defaultdict(Calls)     # by caller
        self.blocks = {}                                # by pointer: the Calls of the block's caller, and its bytes
        self.total = self.most = self.peaks = 0         # live bytes now and at most; how often `most` has risen
        self.line = 0                                   # of the trace, after which most bytes are live

    def allocate(self, pointer, size, caller, line):
        """Notes an allocation. The trace has met its request after `line`."""
        self.free(pointer)
        if self.total + size > self.most:
            self.line = line
        calls = self.calls[caller]
        self.blocks[pointer] = calls, size
        self.change(calls, size, 1)

    def free(self, pointer):
        calls, size = self.blocks.pop(pointer, (None, 0))
        if calls:
            self.change(calls, -size, -1)

    def change(self, calls, size, count):
        """Adds to the live bytes and blocks of a caller. The caller's first change after a peak stores in `then` what it had at
        the peak. Until that change, `size` and `count` are still what it had at the peak."""
        if calls.peak < self.peaks:
            calls.peak, calls.then = self.peaks, (calls.size, calls.count)
        calls.size += size
        calls.count += count
        self.total += size
        if self.total > self.most:
            self.most = self.total
            self.peaks += 1

    def at_peak(self):
        """Returns (bytes, blocks, caller) for each caller that had live blocks at the last peak, most bytes first."""
        then = [(calls.then if calls.peak == self.peaks else (calls.size, calls.count), caller)
                for caller, calls in self.calls.items()]
        return sorted(((size, count, caller) for (size, count), caller in then if count), key=lambda it: (-it[0], str(it[2])))

    @functools.cached_property
    def rows(self):
        """(bytes, blocks, name) for each of the MAX_ROWS names with the most bytes at the peak, and for all others together."""
        named = by_name(self.at_peak())
        shown, rest = named[:MAX_ROWS], named[MAX_ROWS:]
        if rest:
            shown.append((sum(size for size, _, _ in rest), sum(count for _, count, _ in rest), f'{len(rest)} others'))
        return shown


def is_plain(path):
    """Returns whether addr2line may read this path. A log can name any path, so only a regular file with an absolute path is
    allowed. It must not be empty, as files of /proc are, or larger than MAX_BYTES."""
    return os.path.isabs(path) and os.path.isfile(path) and 0 < os.path.getsize(path) <= MAX_BYTES


def functions(path, offsets, seconds):
    """Returns, by offset, the names that addr2line prints for the functions with these return addresses in a file. Returns no
    names if addr2line fails, is not installed, may not read the file or needs more than `seconds`. addr2line is kept from asking
    a server for symbols."""
    if seconds <= 0 or not shutil.which('addr2line'):
        return {}
    asked = ''.join(f'{max(offset - 1, 0):x}\n' for offset in offsets)
    environment = {name: value for name, value in os.environ.items() if name != 'DEBUGINFOD_URLS'}
    try:
        if not is_plain(path):
            return {}
        ran = subprocess.run(['addr2line', '-f', '-C', '-e', path], input=asked, capture_output=True, encoding='utf-8',
                             errors='replace', timeout=seconds, env=environment, check=False)
    except (OSError, subprocess.TimeoutExpired):
        return {}
    names = ran.stdout.split('\n')[:-1:2]
    return dict(zip(offsets, names)) if len(names) == len(offsets) else {}


def name_of(caller, function):
    if caller is None:
        return 'unknown'
    path, offset = caller
    name = os.path.basename(path)[:MAX_CHARACTERS]
    return f'{function[:MAX_CHARACTERS]} ({name})' if function not in (None, '', '??') else f'{name}+{offset:x}'


def by_name(rows):
    """Returns (bytes, blocks, name) for each name, most bytes first. All callers in one function have the same name. Only the
    first MAX_LOOKED_UP callers are looked up by addr2line."""
    offsets, end = collections.defaultdict(list), time.monotonic() + MAX_SECONDS
    for _, _, caller in rows[:MAX_LOOKED_UP]:
        if caller:
            offsets[caller[0]].append(caller[1])
    known = {path: functions(path, some, end - time.monotonic()) for path, some in offsets.items()}
    found = collections.defaultdict(lambda: [0, 0])
    for size, count, caller in rows:
        total = found[name_of(caller, caller and known.get(caller[0], {}).get(caller[1]))]
        total[0] += size
        total[1] += count
    return sorted(((size, count, name) for name, (size, count) in found.items()), key=lambda it: (-it[0], it[2]))


def tell(callers):
    """Prints a row for each of the MAX_ROWS names with the most bytes at the peak, and one for all others together."""
    summary.heading(f'when most bytes were live, {callers.most} of them: bytes and allocations by the caller of malloc')
    for size, count, name in callers.rows:
        summary.row(size, f'{count:>10} {name}')


def remarks(tenant, callers):
    """Yields comments for the trace, with the rows that `tell` prints for this tenant."""
    yield f'# tenant {tenant} has most bytes live after line {callers.line}: {callers.most}'
    for size, count, name in callers.rows:
        yield tenants.remark(f'# tenant {tenant} then has {size} bytes in {count} {summary.plural("block", count)} of ', name)
