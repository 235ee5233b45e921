"""Applies patches with planted mistakes to a copy of the repository, and proves and builds the library of the copy."""
import contextlib
import functools
import shutil
import subprocess

import checks
from checks import TOP, fail


def must_apply(patch):
    """Fails the check that is running if a patch no longer applies. It has lines and comments of the code, which may change."""
    ran = subprocess.run(["git", "apply", "--check", patch], cwd=TOP, capture_output=True, text=True, check=False)
    if ran.returncode:
        fail(f"{patch} does not apply: {ran.stderr.strip()}")


@functools.cache
def copied():
    """Returns the folder of a copy of the repository."""
    copy = f"{checks.new_folder()}/copy"
    shutil.copytree(TOP, copy, symlinks=True, ignore=shutil.ignore_patterns(".git"))
    return copy


@contextlib.contextmanager
def built_with(patch):
    """Applies a patch to the copy, and proves and builds its library. Yields the copy's folder, and then removes the patch."""
    subprocess.run(["git", "apply", patch], cwd=copied(), check=True)
    try:
        ran = subprocess.run(["tools/library"], cwd=copied(), stdout=subprocess.PIPE, stderr=subprocess.STDOUT, text=True,
                             check=False)
        if ran.returncode:
            fail(f"the library was not built\n{ran.stdout[-2000:]}")
        yield copied()
    finally:
        subprocess.run(["git", "apply", "-R", patch], cwd=copied(), check=True)
