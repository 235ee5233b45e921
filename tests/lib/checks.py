"""Runs the checks of a script of tests/ with unittest, all or some of them.

The checks of a script are its functions `check_NAME`, in their order. All are run, also if one fails. A check fails by `look` or
`fail`, and is left out by `skip` or `need`. What several checks use is made once, by a function with functools.cache. The script
ends with

    checks.run()

In the last line are the counts of checks that passed, failed or were skipped.
"""
import argparse
import atexit
import functools
import io
import itertools
import os
import shutil
import sys
import tempfile
import unittest
from concurrent.futures import ThreadPoolExecutor

__unittest = True   # Then unittest leaves the functions of this module out of its traces.
TOP = os.path.dirname(os.path.dirname(os.path.dirname(os.path.abspath(__file__))))
SCRIPT = sys.modules["__main__"]
NAME = os.path.basename(os.path.dirname(os.path.abspath(SCRIPT.__file__)))
LOOKS, POOLS = itertools.count(), []


def say(text):
    print(f"{NAME}: {text}", flush=True)


def fail(text):
    """Fails the check that is running."""
    raise AssertionError(text)


def look(right, text):
    """Fails the check that is running unless `right`."""
    next(LOOKS)
    if not right:
        fail(text)


def count_looks():
    """Returns how often `look` was called. May be called once."""
    return next(LOOKS)


def fail_for(faults):
    """Fails the check that is running if there are any faults, and shows all of them."""
    faults = list(faults)
    look(not faults, "\n".join(faults))


def skip(reason):
    """Leaves out the rest of the check that is running."""
    raise unittest.SkipTest(reason)


def need(*tools):
    """Leaves out the rest of the check that is running if one of the tools is not installed. A tool may also be a file's path."""
    for tool in tools:
        if not (os.path.exists(tool) if tool.startswith("/") else shutil.which(tool)):
            skip(f"{tool} is not installed")


def read(path):
    with open(path, encoding="utf-8") as file:
        return file.read()


@functools.cache
def whole_folder():
    made = tempfile.TemporaryDirectory(prefix=f"partmem-{NAME}-")
    atexit.register(made.cleanup)
    return made.name


def new_folder():
    """Returns the path of a new folder, which is removed when the script ends."""
    return tempfile.mkdtemp(dir=whole_folder())


def each(*items):
    """Makes a function one check for each item. An item is the function's argument, or a tuple of its arguments. The first
    argument is in the check's name."""
    def of(function):
        function.items = [item if isinstance(item, tuple) else (item,) for item in items]
        return function
    return of


def named_checks():
    """Yields the name and the function of each check of the script."""
    for name, function in vars(SCRIPT).items():
        if name.startswith("check_"):
            name = name.removeprefix("check_")
            if not hasattr(function, "items"):
                yield name, function
            for item in getattr(function, "items", []):
                yield f"{name}:{item[0]}", functools.partial(function, *item)


class Check(unittest.FunctionTestCase):
    """A check of the script, as a test of unittest."""

    def __init__(self, name, function):
        super().__init__(function)
        self.name = name

    def id(self):
        return self.name

    __str__ = id


def parser():
    """Returns a parser of command lines that has the script's help, and the options that all scripts have."""
    made = argparse.ArgumentParser(prog=f"tests/{NAME}/run", description=SCRIPT.__doc__,
                                   formatter_class=argparse.RawDescriptionHelpFormatter)
    made.add_argument("-k", metavar="TEXT", action="append", help="run only checks with this text in their names")
    made.add_argument("-v", action="store_true", help="print a line for each check")
    made.add_argument("-f", action="store_true", help="end after the first check that fails")
    return made


def is_chosen(name, given):
    """Returns whether a parsed command line chooses the check with this name."""
    return not given.k or any(text in name for text in given.k)


def begin(name, function, items, given):
    """Begins to call a function with each item whose check NAME:ITEM is chosen, several at a time. Returns a future for each."""
    pool = ThreadPoolExecutor(len(os.sched_getaffinity(0)))
    POOLS.append(pool)
    return {item: pool.submit(function, item) for item in items if is_chosen(f"{name}:{item}", given)}


def run(said=None, given=None):
    """Runs the checks, and ends the script. If all were chosen, none has failed and some have passed, the last line begins with
    the text that `said` returns, if it returns one. `given` is the parsed command line; the default is for scripts that have no
    words of their own."""
    given = given or parser().parse_args()
    chosen = [Check(*it) for it in named_checks() if is_chosen(it[0], given)]
    if not chosen:
        sys.exit(f"{NAME}: no check has {' or '.join(given.k or [])} in its name")
    report = sys.stderr if given.v else io.StringIO()
    runner = unittest.TextTestRunner(report, descriptions=False, verbosity=2 * given.v, failfast=given.f)
    ended = runner.run(unittest.TestSuite(chosen))
    for pool in POOLS:
        pool.shutdown(wait=False, cancel_futures=True)
    failed = [str(check) for check, _ in ended.failures + ended.errors]
    if failed and not given.v:
        sys.stderr.write(report.getvalue())
    for check, reason in ended.skipped:
        say(f"skipped {check}: {reason}")
    passed = ended.testsRun - len(failed) - len(ended.skipped)
    counts = f"{passed} passed"
    counts += f", {len(ended.skipped)} skipped" if ended.skipped else ""
    counts += f", {len(failed)} failed: {', '.join(failed)}" if failed else ""
    whole = said() if said and passed and not failed and not given.k else None
    say(f"{whole} ({counts})" if whole else counts)
    sys.exit(bool(failed))
