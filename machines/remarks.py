"""Reads the comments of a trace for programs that draw it: the sizes of the machine, the names of tenants, and the time."""
import bisect
import re
import typing

import tenants

SIZES = re.compile(r'# partmem --order (\d{1,2}) --superblocks (\d{1,3}) --tenants (\d{1,2})')
NAME = re.compile(r'# tenant (\d{1,2}) is (.+)')
TIME = re.compile(r'# time (\d{1,12}(?:\.\d{1,9})?)')
INTERVAL = re.compile(r'# times every (\d{1,12}(?:\.\d{1,9})?) seconds')
PEAK = re.compile(r'# tenant (\d{1,2}) has most bytes live after line (\d{1,10}): (\d{1,20})')
CALLER = re.compile(r'# tenant (\d{1,2}) then has (\d{1,20}) bytes in (\d{1,10}) blocks? of (.+)')


class Clock:
    """When the lines of a trace were run. A remark of the time is a comment `# time SECONDS`. The lines after it ran at that
    time, or up to an interval later."""

    def __init__(self):
        self.lines, self.times, self.interval = [], [], None    # of each remark: its line and its seconds

    def add(self, line, time):
        """Adds a remark of the time. Returns false if its time is earlier than the time of the remark before it."""
        self.lines.append(line)
        self.times.append(time)
        return len(self.times) == 1 or time >= self.times[-2]

    def read(self, line):
        """Returns the time of the last remark at this line or before it, or the time of the first remark if all come later."""
        return self.times[max(bisect.bisect_right(self.lines, line) - 1, 0)]

    def place(self, line, last):
        """Returns an estimate of when the line was run, in seconds. The lines from a remark to the next one are spread evenly
        over an interval, or over the time between the two remarks if that is shorter. The trace ends with line `last`."""
        at = bisect.bisect_right(self.lines, line) - 1
        if at < 0:
            return self.times[0]
        is_last = at + 1 == len(self.lines)
        begin, end = self.lines[at], last if is_last else self.lines[at + 1]
        ends = [*self.times[at + 1:at + 2], *([] if self.interval is None else [self.times[at] + self.interval])]
        passed = min(ends, default=self.times[at]) - self.times[at]
        return self.times[at] + passed * (line - begin) / max(end - begin, 1)


class Peak(typing.NamedTuple):
    """When a tenant has most bytes live: the line after which it has them, how many they are, and the bytes, the blocks and the
    name of each caller of malloc."""
    line: int
    bytes: int
    callers: list


class Remarks:
    """What the comments of a trace say: the sizes of the machine, the name and the peak of each tenant, and the times."""

    def __init__(self, path):
        self.sizes, self.names, self.peaks, self.clock = None, {}, {}, Clock()
        for at, line in enumerate(lines_of(path), 1):
            if line.startswith(b'# ') and len(line.rstrip(b'\r\n')) <= tenants.MAX_BYTES:
                self.read(path, at, line.decode(errors='replace').rstrip('\r\n'))

    def read(self, path, at, line):
        if at == 1 and (found := SIZES.fullmatch(line)):
            self.sizes = tuple(map(int, found.groups()))
        elif found := NAME.fullmatch(line):
            self.names.setdefault(int(found[1]), printable(found[2]))
        elif found := PEAK.fullmatch(line):
            self.peaks[int(found[1])] = Peak(int(found[2]), int(found[3]), [])
        elif (found := CALLER.fullmatch(line)) and int(found[1]) in self.peaks:
            self.peaks[int(found[1])].callers.append((int(found[2]), int(found[3]), printable(found[4])))
        elif found := INTERVAL.fullmatch(line):
            self.clock.interval = float(found[1])
        elif (found := TIME.fullmatch(line)) and not self.clock.add(at, float(found[1])):
            tenants.fail(f'{path} line {at}: the time is earlier than the one before')


def printable(text):
    """Returns the text with a question mark for each character that cannot be shown."""
    return ''.join(it if it.isprintable() else '?' for it in text)


def lines_of(path):
    try:
        with open(path, 'rb') as file:
            yield from file
    except OSError as problem:
        tenants.fail(f'cannot read {path}: {tenants.reason(problem)}')
