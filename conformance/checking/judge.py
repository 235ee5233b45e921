"""Tests a run: partcheck judges its replies, and a tenant's replies are compared with those in another run of its own list."""
import contextlib
import os
import re
import subprocess
import tempfile
from typing import NamedTuple, Optional, Union

from .runs import Run, replayed, said_again
from .talk import BABBLES, Failure
from .words import ending, visible, words_of

# The exit statuses of partcheck.
ALLOWED, NOT_ALLOWED = 0, 4
# What partcheck prints: the line's number, the line and its reply, the broken promise, and why it is broken. A reply may contain
# the name of a promise too, so the last name is the broken promise's.
PROMISE = re.compile(r'line (\d+), .*: (Form|Refusals|Room|Busy|Blocks|Objects|Layout|Gives|Owners|Bytes|Report|Still): ', re.S)


# How often the same lines are run again before Alone is reported.
TIMES_AGAIN = 3


class Unusable(Exception):
    """partcheck or partmem cannot be used."""


class Breach(NamedTuple):
    """A broken promise of docs/promises.md, or Exact, a difference from partmem. `line` is the number of the line that shows it,
    if that is known. For Alone, `tenant` is the tenant whose replies differ. If they differ when the same lines are run again,
    `is_unsteady` is true."""
    kind: str
    words: str
    tenant: Optional[int] = None
    line: Optional[int] = None
    is_unsteady: bool = False


class Case(NamedTuple):
    """A run, and its finding."""
    run: Run
    finding: Union[Breach, Failure]


def unnamed_file():
    """Opens a file without a name: in memory, or on systems that have no such files in a folder."""
    return open(os.memfd_create('partmem'), 'w+b') if hasattr(os, 'memfd_create') else tempfile.TemporaryFile()


def line_of_reply(run, tenant, number):
    """Returns the number of the line whose reply contains the tenant's reply line of this number. If the tenant got fewer,
    returns the number of the last line."""
    begin, told = f'{tenant}> ', 0
    for at, (_, replies) in enumerate(run.exchanges, 1):
        told += sum(reply.startswith(begin) for reply in replies)
        if told >= number:
            return at
    return len(run.exchanges)


class Judge:
    """Tests runs. If the program fails in a run, the failure is the finding, and the promises are not tested. The exception is a
    program that prints too much: if it breaks a promise other than Form before that, this promise is the finding."""

    def __init__(self, options, programs):
        self.programs, self.exact = programs, options.exact
        self.partmem, self.partcheck, self.kept = options.partmem, options.partcheck, None

    def judged(self, run):
        """Returns the run with what was found in it: a failure, a broken promise, or with --exact a difference from partmem.
        Returns None if nothing is found."""
        finding = self.broken_before(run) or run.failure or self.broken_promise(run)
        finding = finding or (self.compared_with_partmem(run) if self.exact else None)
        return finding and Case(run, finding)

    def broken_before(self, run):
        """If the program prints too much, returns a promise other than Form that it breaks before that, if there is one. Suppose
        that each report has a row too many, which is read as part of the next reply. Then only a long load ends with too many
        bytes, but few lines are enough to show the broken promise. A program that prints junk breaks Form, and the failure says
        more about that."""
        if run.failure is None or run.failure.kind != BABBLES:
            return None
        breach = self.broken_promise(run)
        return breach if breach and breach.kind != 'Form' else None

    def run_tool(self, program, statuses, sizes, *texts):
        """Runs partcheck or partmem on files with these texts. It has to end with one of these statuses. Returns the status and
        what it prints."""
        with contextlib.ExitStack() as opened:
            files = [opened.enter_context(unnamed_file()) for _ in range(len(texts) + 2)]
            for file, text in zip(files, texts):
                file.write(text.encode('latin-1'))
                file.flush()
            *given, told, complained = (file.fileno() for file in files)
            command = [program, *words_of(sizes), *(f'/dev/fd/{number}' for number in given)]
            try:
                with subprocess.Popen(command, stdin=subprocess.DEVNULL, stdout=told, stderr=complained, pass_fds=given) as ran:
                    status = ran.wait()
            except OSError as error:
                raise Unusable(f'cannot run {program}: {error.strerror}') from None
            told, complained = (file.seek(0) or file.read() for file in files[-2:])
        if status not in statuses:
            said = visible(complained.decode('utf-8', 'replace').strip())
            raise Unusable(f'{program} ended {ending(status)}' + (said and f': {said}'))
        return status, told

    def broken_promise(self, run):
        """Returns what partcheck finds in the replies, if a promise is broken. A run that is the same as the last one that kept
        all promises is not judged again: if there is only one tenant, there is no noise."""
        judged = run.sizes, run.trace(), run.text()
        if judged == self.kept:
            return None
        status, told = self.run_tool(self.partcheck, (ALLOWED, NOT_ALLOWED), *judged)
        if status == ALLOWED:
            self.kept = judged
            return None
        said = told.decode('utf-8', 'replace').strip()
        found = PROMISE.match(said)
        if found is None:
            raise Unusable(f'{self.partcheck} prints no finding: {visible(said)}')
        return Breach(found[2], said[:found.start(2)] + said[found.end():], line=int(found[1]))

    def compared_with_partmem(self, run):
        told = self.run_tool(self.partmem, (0,), run.sizes, run.trace())[1].decode('latin-1')
        lines = enumerate(zip((told + '\n').split('\n'), (run.text() + '\n').split('\n')), 1)
        first = next(((at, *map(visible, pair)) for at, pair in lines if pair[0] != pair[1]), None)
        return first and Breach('Exact', "reply line {}: partmem says '{}', the program '{}'".format(*first))

    def alone(self, run, tenant):
        """Runs the tenant's own list alone. Returns a case if that breaks a promise, if the program fails, or if the tenant gets
        other replies than in the run."""
        lines, _, answers = run.own_list(tenant)
        other = said_again(self.programs, run.sizes, lines, answers)
        case = self.judged(other)
        if not case and len(lines) == len(run.lines):
            return self.unsteady(run, other, tenant)
        return case or self.compared(run, other, tenant, 'when its own list is run alone')

    def steady(self, case):
        """If a case is about Alone, runs its lines again. If the tenant then gets other replies, returns a case that says so."""
        run, finding = case
        if isinstance(finding, Failure) or finding.tenant is None or finding.is_unsteady:
            return case
        for _ in range(TIMES_AGAIN):
            other = said_again(self.programs, run.sizes, run.lines, run.answers)
            found = self.unsteady(run, other, finding.tenant)
            if found:
                return found
        return case

    def unsteady(self, run, other, tenant):
        """Compares two runs of the same lines. If the tenant's replies differ, returns a case with the lines up to the first
        difference. Fewer lines would not show it each time."""
        found = self.compared(run, other, tenant, 'when run again')
        if found is None:
            return None
        return Case(run.up_to(found.finding.line), found.finding._replace(is_unsteady=True))

    def compared(self, run, other, tenant, when):
        if run.told_at_once(tenant) == other.told_at_once(tenant):
            return None
        here, there = run.told(tenant), other.told(tenant)
        for at, (one, two) in enumerate(zip(here + ['nothing'], there + ['nothing']), 1):
            if one != two:
                words = f"its reply line {at} is '{visible(one)}' here, and '{visible(two)}' {when}"
                return Case(run, Breach('Alone', words, tenant, line_of_reply(run, tenant, at)))
        return None

    def shows(self, sizes, exchanges, finding, order=None):
        """Runs these lines, which come from a run on a machine of this order. Returns the case if it shows a finding of the same
        kind, or None. Instead of Alone, the finding may be any other promise."""
        run = replayed(self.programs, sizes, exchanges, order)
        is_alone, case = isinstance(finding, Breach) and finding.tenant is not None, self.judged(run)
        if is_alone and not case:
            case = self.alone(run, finding.tenant)
        is_plainer = is_alone and case and isinstance(case.finding, Breach)
        return case if case and (is_plainer or case.finding.kind == finding.kind) else None
