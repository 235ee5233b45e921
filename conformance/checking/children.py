"""Ends all descendants of this process when this process ends, even those that left its process group or its session. Measures
the time that they take."""
import contextlib
import ctypes
import os
import signal
import time

from .words import in_seconds

# How often the processor time is read, in seconds, and the most that is counted by the clock between two readings. How many ticks
# it has a second.
STEP, MAX_STEP, TICKS = 0.02, 0.1, os.sysconf('SC_CLK_TCK')
# The processor time is first read after one part in STEPS_AT_FIRST of the seconds that the program may take: most replies come
# before that, also if other programs use the processors.
STEPS_AT_FIRST = 50
SET_PARENT_DEATH_SIGNAL, SET_CHILD_SUBREAPER = 1, 36


def adopt():
    """Makes this process the parent of each of its descendants whose own parent ends. Works only on Linux."""
    control(SET_CHILD_SUBREAPER, 1)


def end_with_parent():
    """Makes the system send SIGTERM to this process when its parent ends."""
    control(SET_PARENT_DEATH_SIGNAL, signal.SIGTERM)


def control(what, value):
    with contextlib.suppress(OSError, AttributeError):
        ctypes.CDLL(None).prctl(what, value, 0, 0, 0)


def read(path):
    """Returns the text of a file of /proc. It is empty if the process has ended, and on systems without such files."""
    try:
        with open(path, encoding='latin-1') as file:
            return file.read()
    except OSError:
        return ''


def children():
    """Returns the processes whose parent is this one."""
    return [int(word) for word in read(f'/proc/self/task/{os.getpid()}/children').split()]


def used():
    """Returns the processor time of all descendants of this process, in seconds, and whether one of their threads runs or waits
    for a processor."""
    ticks, is_running, processes = 0, False, children()
    for number in processes:
        with contextlib.suppress(OSError):
            threads = os.listdir(f'/proc/{number}/task')
            of_process = stat(f'/proc/{number}')
            ticks += sum(map(int, of_process[11:15]))           # its own, and those of children that have ended
            is_running = is_running or any(stat(f'/proc/{number}/task/{thread}')[:1] == ['R'] for thread in threads)
            for thread in threads:
                processes += map(int, read(f'/proc/{number}/task/{thread}/children').split())
    return ticks / TICKS, is_running


def stat(path):
    """Returns the words of a process or thread, from its state on."""
    return read(f'{path}/stat').rpartition(')')[2].split()


class Budget:
    """The seconds that a program may take: of its processor time, and of the clock while it neither runs nor waits for a
    processor. All descendants of this process are taken for the program."""

    def __init__(self, seconds):
        self.seconds, self.then, self.before, self.step = seconds, time.monotonic(), None, max(STEP, seconds / STEPS_AT_FIRST)
        self.by_processor = self.by_clock = 0.0

    def spent(self):
        return self.by_processor + self.by_clock

    def is_spent(self):
        """Returns whether the seconds are over. Has to be called often. Nothing is counted before the first reading. If much more
        than STEP has passed since the last call, this process itself waited for a processor, and the program may have ended
        since."""
        passed = time.monotonic() - self.then
        if passed >= self.step:
            self.step = STEP
            self.then += passed
            now, is_running = used()
            more = max(0, now - self.before) if self.before is not None else 0
            self.by_processor += more
            self.by_clock += min(passed, MAX_STEP) if self.before is not None and not more and not is_running else 0
            self.before = now
        return self.spent() >= self.seconds

    def __str__(self):
        return in_seconds(self.seconds) + (' of processor time' if self.by_processor > self.by_clock else '')


def kill_all():
    """Kills all descendants of this process and waits for them. After `adopt` the children of a killed process become children of
    this one, and are killed too."""
    while left := children():
        for number in left:
            with contextlib.suppress(ProcessLookupError, PermissionError):
                os.kill(number, signal.SIGKILL)
        for number in left:
            with contextlib.suppress(ChildProcessError):
                os.waitpid(number, 0)
