"""A run of the program under test, as a conversation over its standard input and output."""
import collections
import contextlib
import os
import select
import signal
import subprocess
import sys
import time
from typing import NamedTuple

from . import children
from .children import STEP, Budget
from .words import ending, words_of

# The seconds that the program may take for a reply, and to exit. They are counted by children.Budget.
SECONDS = 5
# The seconds that a program may take to end after SIGABRT. A sanitizer may need long to print its stack.
SECONDS_TO_ABORT = 5
# The kinds of failures of a program that still runs, and the variables with the options of sanitizers.
STILL_RUNNING = 'hangs', 'stays', 'closed'
OF_SANITIZERS = 'ASAN_OPTIONS', 'MSAN_OPTIONS', 'TSAN_OPTIONS', 'UBSAN_OPTIONS'
# For how many seconds standard error is still read after the program was killed.
SECONDS_OF_ERRORS = 0.2
# At the end of a run the program may print at most MAX_UNASKED bytes that answer no line. During the run at most MAX_WAITING
# printed bytes may wait until they are taken as replies. The replies to lines that are sent at once are much shorter.
MAX_UNASKED, MAX_WAITING = 1 << 16, 1 << 20
# The kind of failure of a program that exceeds one of these two limits.
BABBLES = 'babbles'
# At least how many replies have to be missing for a pause before they are read, how long a pause is at most, in seconds, and how
# many bytes are read at once.
MANY, MAX_PAUSE, MAX_PIECE = 2, 4e-3, 1 << 16
# The least and the most seconds that a pause takes for each missing reply. The seconds are multiplied by QUICKER if all replies
# are there after a pause, and by SLOWER if not.
LEAST_PACE, MOST_PACE, QUICKER, SLOWER = 1e-6, 1e-4, 0.98, 1.5
# How many bytes of standard error are kept: at its beginning, with the words of a sanitizer or of a panic, and at its end.
FIRST_ERRORS, LAST_ERRORS = 1 << 14, 1 << 12

# A process group is faster than a session, to which Linux gives its own share of the processors.
GROUP_OF_ITS_OWN = {'process_group': 0} if sys.version_info >= (3, 11) else {'start_new_session': True}


class Failure(NamedTuple):
    """How the program failed: the kind of failure, a description, and what the program wrote to standard error. A shorter load
    has to show a failure of the same kind."""
    kind: str
    words: str
    errors: str


class ProgramFailed(Exception):
    """Raised if the program fails in a run. Its argument is the Failure."""


class CannotRun(Exception):
    """Raised if the program cannot be started."""


def options_of_sanitizers(environment):
    """Returns the variables that make a sanitizer print the stack at SIGABRT. Leaves out those that say what it does then."""
    options = {name: environment.get(name, '') for name in OF_SANITIZERS}
    return {name: f'{text}:handle_abort=1'.lstrip(':') for name, text in options.items() if 'handle_abort' not in text}


class Programs(NamedTuple):
    """Starts runs of the program. A reply may take `seconds`. If the program still runs after that, it is ended by SIGABRT if
    `aborts`, or else by SIGKILL."""
    command: list
    seconds: float = SECONDS
    aborts: bool = True

    def start(self, sizes):
        try:
            return Talk(self.command + words_of(sizes), self.seconds, self.aborts)
        except OSError as error:
            name, is_here = self.command[0], os.sep not in self.command[0] and os.path.isfile(self.command[0])
            advised = f'; did you mean ./{name}?' if is_here else ''
            raise CannotRun(f'{name}: {error.strerror}{advised}') from None


class Talk:
    """A run of the program in its own process group. At the end of the run all descendants of this process are killed, so this
    process can have only one run at a time."""

    # How long the program needs for a reply, in seconds, as far as pauses showed it.
    pace = 2e-6

    def __init__(self, command, seconds, aborts):
        self.process = subprocess.Popen(command, stdin=subprocess.PIPE, stdout=subprocess.PIPE, stderr=subprocess.PIPE,
                                        bufsize=0, **GROUP_OF_ITS_OWN)
        self.aborts = aborts
        self.seconds, self.sent, self.answered, self.slowest = seconds, 0, 0, 0.0
        self.unsent, self.is_polled, self.is_input_closed = b'', False, False
        self.ready, self.held, self.heard = collections.deque(), '', 0
        self.first_errors, self.last_errors = b'', b''
        self.input, self.output = self.process.stdin.fileno(), self.process.stdout.fileno()
        self.open = {self.output, self.process.stderr.fileno()}
        self.poll = select.poll()
        for number in self.open:
            self.poll.register(number, select.POLLIN)
        for number in self.input, self.output:
            os.set_blocking(number, False)

    def send(self, lines):
        """Sends lines without waiting for replies."""
        text = ('\n'.join(lines) + '\n').encode('latin-1')
        self.sent += len(lines)
        if self.unsent:
            self.unsent = memoryview(bytes(self.unsent) + text)
        else:
            self.unsent = memoryview(text)
            self.write()

    def write(self):
        """Writes as much as fits into the pipe. The rest is written while this process waits for replies."""
        try:
            self.unsent = self.unsent[os.write(self.input, self.unsent):]
        except BlockingIOError:
            pass
        except BrokenPipeError:
            self.unsent, self.is_input_closed = b'', True
        if self.unsent:
            self.poll.register(self.input, select.POLLOUT)
            self.is_polled = True
        elif self.is_polled:
            self.poll.unregister(self.input)
            self.is_polled = False

    def reply(self, owed, answered):
        """Returns the reply to the line after `answered` others, a list of `owed` lines. Raises ProgramFailed if the program does
        not give it."""
        if len(self.ready) < owed:
            self.wait(owed, answered)
        return self.taken(owed)

    def some(self, most, answered):
        """Returns the next reply lines that are here, at least one and at most `most`."""
        if not self.ready:
            self.wait(1, answered)
        return self.taken(min(most, len(self.ready)))

    def give_back(self, lines):
        """Takes reply lines back that were not needed."""
        self.ready.extendleft(reversed(lines))

    def wait(self, owed, answered):
        """Waits until the next `owed` lines are printed. The replies to `answered` lines are taken."""
        self.answered, budget, ready, missing = answered, None, self.ready, self.sent - answered
        while len(ready) < owed:
            if missing < MANY or not self.hear_after_pause(missing):
                budget = budget or Budget(self.seconds)
                is_heard = self.output in self.open and self.hear(time.monotonic() + STEP)
                is_over = self.output not in self.open or not is_heard and self.has_ended() or budget.is_spent()
                if len(ready) < owed and is_over:
                    raise self.unanswered(budget)
            if len(ready) < owed and self.waiting() > MAX_WAITING:
                raise self.babble()
        if budget:
            self.slowest = max(self.slowest, budget.spent())

    def hear_after_pause(self, missing):
        """Waits for about as long as the program needs for the missing replies, as far as earlier pauses showed it. Then reads
        what is printed. So many replies are read at once, though most programs write each alone. Returns false if nothing is
        read."""
        pause = missing * Talk.pace
        time.sleep(pause if pause < MAX_PAUSE else MAX_PAUSE)
        try:
            piece = os.read(self.output, MAX_PIECE) if self.output in self.open else None
        except BlockingIOError:
            piece = None
        if piece is not None:
            self.take_piece(self.output, piece)
        if len(self.ready) < missing:
            Talk.pace = min(Talk.pace * SLOWER, MOST_PACE)
        elif Talk.pace > LEAST_PACE:
            Talk.pace *= QUICKER
        return piece is not None

    def taken(self, count):
        return [self.ready.popleft() for _ in range(count)]

    def waiting(self):
        """Returns how many printed bytes are not yet taken."""
        return sum(map(len, self.ready)) + len(self.ready) + len(self.held)

    def rest(self):
        """Returns what was printed and is not yet taken, as lines. The last one may be incomplete."""
        return self.taken(len(self.ready)) + ([self.held] if self.held else [])

    def end(self):
        """Closes the program's input, and returns what the program still prints. Raises ProgramFailed if it does not exit with
        status 0."""
        if self.unsent:
            raise self.failed('deaf', f'it answers without reading: line {self.answered} does not fit into the pipe any more')
        self.process.stdin.close()
        budget = Budget(self.seconds)
        is_over = self.exits(budget)
        if self.waiting() > MAX_UNASKED:
            raise self.babble()
        if not is_over:
            raise self.failed('stays', f'it did not exit within {budget} of the end of its input')
        self.finish()
        if self.process.returncode:
            how = ending(self.process.returncode)
            raise self.failed(how, f'it ended {how} at the end of its input')
        return ''.join(f'{line}\n' for line in self.taken(len(self.ready))) + self.held

    def hear(self, deadline):
        """Reads what comes next on standard output or standard error, and writes lines that are not yet sent. Returns false if
        nothing comes until the deadline."""
        left = deadline - time.monotonic()
        is_heard = False
        for number, _ in self.poll.poll(1000 * left if left > 0 else 0):
            is_heard = is_heard or left > 0 or number == self.output
            if number == self.input:
                self.write()
                continue
            self.take_piece(number, os.read(number, MAX_PIECE))
        return is_heard

    def take_piece(self, number, piece):
        """Keeps what was read from standard output or standard error. An empty piece is its end."""
        if not piece:
            self.poll.unregister(number)
            self.open.remove(number)
        elif number == self.output:
            self.hold(piece)
        else:
            self.hold_error(piece)

    def hold(self, piece):
        self.heard += len(piece)
        text = piece.decode('latin-1')
        lines = (self.held + text if self.held else text).split('\n')
        self.held = lines.pop()
        self.ready.extend(lines)

    def hold_error(self, piece):
        space = FIRST_ERRORS - len(self.first_errors)
        self.first_errors += piece[:space]
        self.last_errors = (self.last_errors + piece[space:])[-LAST_ERRORS:]

    def exits(self, budget):
        """Waits for the program to exit. Returns false if the budget is spent, or as soon as the program has printed too much."""
        most = self.heard + MAX_UNASKED - self.waiting()
        while self.open and self.heard <= most:
            if not self.hear(time.monotonic() + STEP) and self.has_ended() or budget.is_spent():
                break
        if self.heard > most:
            return False
        delay = 0.0005
        while not self.has_exited():
            if budget.is_spent():
                return False
            time.sleep(delay)
            delay = min(2 * delay, 0.02)
        return True

    def has_exited(self):
        return os.waitid(os.P_PID, self.process.pid, os.WEXITED | os.WNOHANG | os.WNOWAIT) is not None

    def has_ended(self):
        """Returns whether the program has exited, and no child of it runs. A child that sleeps may hold its pipes open."""
        return self.has_exited() and not children.used()[1]

    def unanswered(self, budget):
        """Returns the failure of a program that no longer answers, as an exception. The program has ended, is silent, prints too
        much, or has closed its output or its input."""
        line, is_silent = self.answered + 1, self.output in self.open
        budget = budget if is_silent else Budget(self.seconds)
        if self.exits(budget):
            self.finish()
            how = ending(self.process.returncode)
            return self.failed(how, f'it ended {how} before it answered line {line}')
        if self.waiting() > MAX_UNASKED:
            return self.babble()
        within = f'within {budget}'
        if self.is_input_closed or not is_silent:
            closed = 'output' if not is_silent else 'input'
            return self.failed('closed', f'it closed its {closed} before line {line}, and did not exit {within}')
        advice = '' if self.answered else '; if it has answered, it has to flush its output after each line'
        return self.failed('hangs', f'it did not answer line {line} {within}{advice}')

    def babble(self):
        return self.failed(BABBLES, f'it printed more than {MAX_UNASKED} bytes that answer no line')

    def failed(self, kind, words):
        """Ends the run, and returns its failure as an exception."""
        if self.aborts and kind in STILL_RUNNING:
            with contextlib.suppress(ProcessLookupError):
                os.killpg(self.process.pid, signal.SIGABRT)
            self.exits(Budget(SECONDS_TO_ABORT))
        self.finish()
        return ProgramFailed(Failure(kind, words, (self.first_errors + self.last_errors).decode('latin-1')))

    def finish(self):
        """Kills the processes that still run, and reads what is left on standard error."""
        if self.process.returncode is None:
            with contextlib.suppress(ProcessLookupError):
                os.killpg(self.process.pid, signal.SIGKILL)
            self.process.wait()
            children.kill_all()
            deadline = time.monotonic() + SECONDS_OF_ERRORS
            while self.open and time.monotonic() < deadline and self.hear(deadline):
                pass
            for pipe in (self.process.stdin, self.process.stdout, self.process.stderr):
                pipe.close()
