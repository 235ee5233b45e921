"""Finds which lines of a Linux machine's log can be judged, for judge-kmem."""
import re

import kmem
import tenants

PROCESSOR = re.compile(r'\[(\d{1,5})\](?: +\S+)? *')    # before the time of an event
LOSER = re.compile(r'CPU:(\d{1,5}) \[|\[(\d{1,5})\] +\S+: PERF_RECORD_LOST ')


class Survey:
    """A first reading of a log, which finds the lines that can be judged: from line `begin` to line `end`, without the `gaps`.
    A gap (A, B) is the lines after A up to B, in which a processor has lost events.

    Judging begins when a free shows that frees are logged. If processors begin one after the other, it begins when each of them
    has freed a page. perf also ends them one after the other, so there it ends with the first last free of a processor."""

    def __init__(self, path):
        self.path, self.time, self.is_perf, self.is_overwritten = path, 0.0, False, False
        self.first, self.last = {}, {}      # by processor: the lines of its first and its last free
        self.event, self.gaps = {}, []      # by processor: the line of its last event
        at = 0
        for at, line in tenants.lines_of(path):
            found = kmem.EVENT.search(line)
            if found:
                self.read_event(at, line, found)
            else:
                self.read_other(at, line)
        if not self.event:
            kmem.fail_without_events(path)
        if not self.first:
            tenants.fail(f'{path} has no mm_page_free, so nothing can be judged')
        in_turn = self.is_perf or self.is_overwritten
        self.begin = max(self.first.values()) if in_turn else min(self.first.values())
        self.end = min(self.last.values()) if self.is_perf else at
        if self.begin > self.end:
            tenants.fail(f'{path}: nothing can be judged, since no time is known in which all processors were recorded')
        self.gaps = joined(self.gaps)

    def read_event(self, at, line, found):
        where = f'{self.path} line {at}'
        time = kmem.parsed(where, kmem.time_of, found[1])
        if time < self.time:
            tenants.fail(f'{where}: its time is earlier than the time of the event before, so the order of events is unknown')
        self.time = time
        processors = PROCESSOR.findall(line[:found.start()])
        if not processors:
            tenants.fail(f'{where}: the number of the processor is missing, as in [000]')
        processor = int(processors[-1])
        self.event[processor] = at
        self.is_perf |= line.startswith('kmem:', found.start(2) - len('kmem:'))
        if found[2] == 'mm_page_free':
            self.first.setdefault(processor, at)
            self.last[processor] = at

    def read_other(self, at, line):
        """Notes what a line says of lost events. Fails if it does not say which processor has lost them."""
        written = kmem.WRITTEN.match(line)
        if written:
            self.is_overwritten |= written[1] != written[2]
        elif kmem.LOST.search(line):
            loser = LOSER.search(line) or kmem.check_line(line, f'{self.path} line {at}')
            self.gaps.append((self.event.get(int(loser[1] or loser[2]), 0), at))


def joined(gaps):
    """Returns the gaps in order. Gaps that meet become one."""
    found = []
    for begin, end in sorted(gaps):
        if found and begin <= found[-1][1]:
            begin, end = found[-1][0], max(found.pop()[1], end)
        found.append((begin, end))
    return found


def events(survey, counts):
    """Yields (line, event, fields) for the events of pages that can be judged. The event is None after a gap. Counts the rest."""
    gaps = [*survey.gaps, (float('inf'), 0)][::-1]
    for at, line in tenants.lines_of(survey.path):
        if at > gaps[-1][1] > 0:
            gaps.pop()
            yield at, None, None
        found = kmem.EVENT.search(line)
        if not found:
            continue
        if not found[2].startswith('mm_page_'):
            counts['events of objects: not judged'] += 1
        elif not survey.begin <= at <= survey.end or at > gaps[-1][0]:
            counts['events of pages while some events were not logged: not judged'] += 1
        else:
            yield at, found[2], kmem.fields_of(found)
