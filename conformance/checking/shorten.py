"""Makes a load shorter as long as the rest shows the same finding."""
import itertools
import time

from . import rewriting
from .families import families_of
from .judge import Judge
from .runs import has_done, tenant_of
from .talk import SECONDS, Failure, Programs
from .words import MIN_ORDER, Sizes, counted, in_seconds, is_number, told_in

# For how many seconds a load is shortened.
SHORTENING = 30
# While the load of a program that hangs is shortened, a reply may take TIMES_SLOWEST times as long as the slowest reply of the
# whole load, but at least MIN_SECONDS and at most SECONDS. A program that crashes may take SECONDS, since it may need long to
# print its stack.
TIMES_SLOWEST, MIN_SECONDS = 10, 0.1
# Seconds that a reply may take when the shortened load of a program that hangs is run once more, and is ended by SIGABRT.
SECONDS_AGAIN = 1
# The kinds of failures that need no wait begin with these words.
AT_ONCE = 'by ', 'with status '
# At first a load is divided into FIRST_PARTS parts, to leave out each of them alone. If no part can be left out, the number of
# parts is multiplied by TIMES_PARTS.
FIRST_PARTS, TIMES_PARTS = 4, 4
# Larger objects and other numbers are tried only if a load has more than FEW_LINES lines. Pairs of lines are left out only if
# it has at most MAX_FOR_PAIRS.
FEW_LINES, MAX_FOR_PAIRS = 3, 40
# GIVERS are the first words of replies that give a name. ENDS are the commands that end the life of a name.
GIVERS, ENDS = ('granted', 'cache', 'frame', 'object'), ('free', 'give', 'destroy', 'takeback')


def is_at_once(finding):
    return not isinstance(finding, Failure) or finding.kind.startswith(AT_ONCE)


class Shortener:
    """Shortens a case. A size in `fixed` that is not None is the size of each machine."""

    def __init__(self, judge, case, deadline, note, fixed=Sizes(None, None, None)):
        self.judge, self.case, self.deadline, self.note, self.fixed = judge, case, deadline, note, fixed
        self.tried = set()

    def shorten(self):
        """Shortens the case until no line and no pair of lines can be left out. Returns false if the deadline passes first."""
        parts = FIRST_PARTS
        try:
            self.cut()
            self.on_a_smaller_machine()
            while True:
                count = len(self.case.run.exchanges)
                self.leave_out(parts)
                self.on_a_smaller_machine()
                if len(self.case.run.exchanges) == count:
                    if parts >= count and not self.without_a_pair():
                        return True
                    parts *= TIMES_PARTS
        except TimeoutError:
            return False

    def cut(self):
        """Leaves out at once the lines that can usually be left out."""
        if isinstance(self.case.finding, Failure):
            self.without_idle_lines()
            return
        if self.case.finding.line:
            # The lines after the one that shows the finding are not needed.
            self.is_kept(range(self.case.finding.line))
        self.from_the_end()

    def leave_out(self, parts):
        """Leaves lines out, families of lines first, and fills the same space with fewer lines. The changes of a kind are first
        tried all together, and then in up to `parts` parts."""
        for changes_of in (of_tenants, by_command, over, idle, grants, caches, rewriting.slabs_as_blocks, rewriting.joined_blocks,
                           taken):
            self.change(changes_of, parts)
        if self.fixed.superblocks is None:
            self.change(grants, parts, 1)
        while self.change(single, parts):
            pass
        while self.change(rewriting.joined_blocks, parts):
            pass
        run = self.case.run
        any(self.shows(run.sizes, rewriting.with_smaller_blocks(run, by)) for by in range(run.sizes.order, 0, -1))
        for changes_of in rewriting.larger_objects, rewriting.wrong_numbers:
            if len(self.case.run.exchanges) > FEW_LINES:
                any(self.is_shown([change]) for change in changes_of(self.case.run))

    def change(self, changes_of, parts, less=0):
        """Makes the changes after which the finding is still shown. Tries all of them at once, then in two parts, in four and so
        on, up to `parts` parts. Returns whether a change was made. For each change the machine loses `less` superblocks."""
        changes, is_changed = list(changes_of(self.case.run)), False
        part = len(changes)
        while part and part * parts >= len(changes):
            at = 0
            while at < len(changes):
                if self.is_shown(changes[at:at + part], less):
                    is_changed, changes = True, list(changes_of(self.case.run))
                else:
                    at += part
            part //= 2
        return is_changed

    def is_shown(self, changes, less=0):
        """Returns whether the lines still show the finding after these changes. If so, they become the case."""
        sizes, exchanges = self.case.run.sizes, self.case.run.exchanges
        instead = {at: new for change in changes for at, new in change.items()}
        changed = [instead.get(at, exchange) for at, exchange in enumerate(exchanges)]
        sizes = sizes._replace(superblocks=max(sizes.superblocks - less * len(changes), 1))
        return self.shows(sizes, [exchange for exchange in changed if exchange])

    def is_kept(self, kept):
        """Returns whether the lines with these numbers are fewer and still show the finding. If so, they become the case."""
        exchanges = self.case.run.exchanges
        return len(kept) < len(exchanges) and self.shows(self.case.run.sizes, [exchanges[at] for at in kept])

    def shows(self, sizes, exchanges, finding=None):
        left, finding = self.deadline - time.monotonic(), finding or self.case.finding
        if left <= 0:
            raise TimeoutError
        said = hash((sizes, *((line, *replies[:1]) for line, replies in exchanges)))
        if not exchanges or said in self.tried:
            return False
        self.tried.add(said)
        self.note(f'shortening: {counted(len(self.case.run.exchanges), "line")}, at most {in_seconds(int(left))} left')
        case = self.judge.shows(sizes, exchanges, finding, self.case.run.sizes.order)
        self.case = case or self.case
        return case is not None

    def on_a_smaller_machine(self):
        """Reduces the machine to the tenants that are named, the most superblocks that are owned at a time, and the least order
        that shows the finding."""
        self.with_first_tenants()
        run = self.case.run
        needed = needed_by(run, self.fixed)
        for order in range(needed.order, run.sizes.order + 1):
            sizes, by = needed._replace(order=order), run.sizes.order - order
            if sizes == run.sizes or self.shows(sizes, run.exchanges):
                return
            if by and self.shows(sizes, rewriting.with_smaller_blocks(run, by)):
                return
        more = needed.superblocks
        while more < run.sizes.superblocks and not self.shows(run.sizes._replace(superblocks=more), run.exchanges):
            more *= 2

    def with_first_tenants(self):
        lines, names = rewriting.with_first_tenants(self.case.run)
        finding = self.case.finding
        if not isinstance(finding, Failure) and finding.tenant is not None:
            finding = finding._replace(tenant=int(names.get(str(finding.tenant), finding.tenant)))
        if lines != self.case.run.exchanges:
            self.shows(self.case.run.sizes, lines, finding)

    def from_the_end(self):
        """Tries to keep only the last lines, and before them the first grant or all grants. Tries the last line alone, then four
        times as many lines each time, up to half of all."""
        exchanges, last = self.case.run.exchanges, 1
        grants = [at for at, (line, replies) in enumerate(exchanges) if line.startswith('admin grant') and has_done(replies)]
        while last < len(exchanges) // 2:
            for some in grants[:1], grants:
                if self.is_kept(sorted({*some, *range(len(exchanges) - last, len(exchanges))})):
                    return
            last *= 4

    def without_idle_lines(self):
        """Tries to keep only the first line; then only the last line and those that were not refused; and then only the lines of
        the last line's tenant."""
        self.is_kept([0])
        lines = self.case.run.exchanges
        self.is_kept([at for at, (_, replies) in enumerate(lines) if at + 1 == len(lines) or has_done(replies)])
        tenants = [tenant_of(line) for line, _ in self.case.run.exchanges]
        self.is_kept([at for at, tenant in enumerate(tenants) if tenant == tenants[-1]])

    def without_a_pair(self):
        """Leaves out a pair of lines, neither of which can be left out alone. Returns whether there was one."""
        count = len(self.case.run.exchanges)
        pairs = itertools.combinations(range(count if count <= MAX_FOR_PAIRS else 0), 2)
        return any(self.is_shown([dict.fromkeys(pair)]) for pair in pairs)


def of_tenants(run):
    """Returns changes, each of which leaves out all lines of a tenant."""
    names = [tenant_of(line) for line, _ in run.exchanges]
    return [{at: None for at, other in enumerate(names) if other == name} for name in dict.fromkeys(names)]


def kinds_of(run):
    """Returns for each line the first word of its reply after the tenant, or an empty text."""
    return [''.join(told_in(replies)[:1]) for _, replies in run.exchanges]


def families(run, *kinds):
    """Returns changes, each of which leaves out a line whose reply has one of these kinds, with all lines that need it."""
    return [dict.fromkeys(family) for family, kind in zip(families_of(run), kinds_of(run)) if kind in kinds]


def grants(run):
    return families(run, 'granted')


def caches(run):
    return families(run, 'cache')


def taken(run):
    return families(run, 'frame', 'object')


def ends(run):
    """Returns for each line whether it ended the life of a name."""
    return [bool(set(line.split()[1:2]) & set(ENDS)) and has_done(replies) for line, replies in run.exchanges]


def by_command(run):
    """Returns changes, each of which leaves out all lines of a command, with all lines that need them."""
    families, of = families_of(run), {}
    for at, (line, _) in enumerate(run.exchanges):
        of.setdefault(''.join(line.split()[1:2]), set()).update(families[at])
    return [dict.fromkeys(lines) for lines in of.values()]


def over(run):
    """Returns changes that leave out families whose life is over: blocks that are freed, caches that are destroyed, and so on."""
    are_ends = ends(run)
    return [dict.fromkeys(family) for family in families_of(run) if len(family) > 1 and any(are_ends[at] for at in family)]


def idle(run):
    """Returns changes that leave out a line that gave no name and ended none."""
    lines = zip(kinds_of(run), ends(run))
    return [{at: None} for at, (kind, is_end) in enumerate(lines) if kind not in GIVERS and not is_end]


def single(run):
    return [{at: None} for at in range(len(run.exchanges))]


def needed_by(run, fixed):
    """Returns the least machine that may show the same as a run."""
    owned = most = 0
    for _, replies in run.exchanges:
        told = told_in(replies)
        if told[:1] == ['granted'] or told[:1] == ['moved']:
            most = max(most, owned + 1)
            owned += told[0] == 'granted'
        elif told[:1] == ['taken']:
            owned -= 1
        elif told[:1] == ['reset'] and is_number(told[-1]):
            owned -= int(told[-1])
    named = [int(word) for word in (tenant_of(line) for line, _ in run.exchanges) if is_number(word)]
    tenants = 1 + max((number for number in named if number < run.sizes.tenants), default=0)
    least = Sizes(MIN_ORDER, min(max(most, 1), run.sizes.superblocks), tenants)
    return Sizes(*(one if one is not None else other for one, other in zip(fixed, least)))


def shortened(options, case, note):
    """Returns the shortest case that was found. Also returns the seconds after which shortening was stopped, or None if it was
    not."""
    is_failure, seconds, patience = isinstance(case.finding, Failure), options.shorten, SECONDS
    if not is_failure and case.finding.is_unsteady:
        return case, None
    is_hanging = not is_at_once(case.finding)
    if is_hanging:
        patience = min(SECONDS, max(MIN_SECONDS, TIMES_SLOWEST * case.run.slowest))
    seconds = SHORTENING if seconds is None else seconds
    judge = Judge(options, Programs(options.command, patience, aborts=not is_hanging))
    fixed = Sizes(options.order, options.superblocks, options.tenants)
    shortener = Shortener(judge, case, time.monotonic() + seconds, note, fixed)
    is_shortest, short = shortener.shorten(), shortener.case
    if is_hanging and short is not case:
        again = Judge(options, Programs(options.command, max(patience, SECONDS_AGAIN)))
        short = again.shows(short.run.sizes, short.run.exchanges, short.finding) or case
        is_shortest = is_shortest and short is not case
    return judge.steady(short), None if is_shortest else seconds
