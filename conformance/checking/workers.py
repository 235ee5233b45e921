"""Worker processes, each of which does one task at a time. The processes that they start end with them, and they end with this
process."""
import gc
import multiprocessing
import multiprocessing.connection
import os
import signal
import traceback

from . import children

# How many tasks for each worker may be begun while the result of the first of them is still missing.
AHEAD = 16
# How many more objects are alive than at the last search for cycles of objects before the next search.
ALLOCATED = 100_000


class Broken(Exception):
    """Raised if a worker ended, or if something failed in it that should not fail."""


def collect_rarely():
    """Makes Python's search for cycles of objects rare. A run keeps many lines and makes no such cycles."""
    gc.freeze()
    gc.set_threshold(ALLOCATED)


class Workers:
    """A group of workers. It is a context manager; on exit it kills all descendants of this process."""

    def __init__(self, work, count, note=str):
        self.work, self.count, self.note, self.pipes = work, count, note, []

    def __enter__(self):
        children.adopt()
        for _ in range(self.count):
            here, there = multiprocessing.Pipe()
            if os.fork() == 0:
                self.serve(there)
            there.close()
            self.pipes.append(here)
        return self

    def __exit__(self, *_):
        children.kill_all()
        for pipe in self.pipes:
            pipe.close()

    def serve(self, pipe):
        """Does tasks until this worker is ended. SIGINT and SIGHUP, which a terminal sends to all processes, do nothing in a
        worker: the first process ends the workers."""
        def end(*_):
            children.kill_all()
            os._exit(0)

        # If the signals were ignored here, the program under test would ignore them too.
        for number in signal.SIGINT, signal.SIGHUP:
            if signal.getsignal(number) != signal.SIG_IGN:
                signal.signal(number, lambda *_: None)
        signal.signal(signal.SIGTERM, end)
        collect_rarely()
        children.adopt()
        children.end_with_parent()
        try:
            while True:
                pipe.send(('done', self.result(pipe.recv(), lambda words: pipe.send(('note', words)))))
        finally:
            end()

    def result(self, task, note):
        try:
            return self.work(task, note)
        except Exception as error:
            if type(error).__module__.startswith(__package__ + '.'):
                return error
            where = traceback.extract_tb(error.__traceback__)[-1]
            return Broken(f'{type(error).__name__}: {error} ({os.path.basename(where.filename)}:{where.lineno})')

    def in_turn(self, tasks):
        """Yields the results of the tasks, in their order."""
        tasks, idle, working, done = enumerate(tasks), list(self.pipes), {}, {}
        begun = given = 0
        while True:
            while idle and begun < given + AHEAD * self.count and (task := next(tasks, None)):
                pipe = idle.pop()
                pipe.send(task[1])
                working[pipe], begun = task[0], begun + 1
            if not working:
                return
            for pipe in multiprocessing.connection.wait(list(working)):
                kind, result = self.message(pipe)
                if kind == 'note':
                    self.note(result)
                else:
                    done[working.pop(pipe)] = result
                    idle.append(pipe)
            while given in done:
                if isinstance(done[given], Exception):
                    raise done[given]
                yield done.pop(given)
                given += 1

    def message(self, pipe):
        try:
            return pipe.recv()
        except (EOFError, OSError):
            raise Broken('a worker process ended; is there enough memory?') from None
