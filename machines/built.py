"""Finds the programs and libraries that scripts use. Of each, finds the proved one if it is built, or else the unproved one,
which tools/unproved builds."""
import os
import sys

TOP = os.path.dirname(os.path.dirname(os.path.abspath(__file__)))
HOW = 'build it by `make unproved`, which proves nothing and takes two minutes, or by `make test`'


def found(user, proved, unproved):
    """Returns the path of the first file that exists: the files of the list `proved` are tried first, and then `unproved`.
    Returns None if there is none. The names are relative to the top of the repository or of a release. If it returns the path of
    `unproved`, it says so on standard error, as the script `user`."""
    for file in [*proved, unproved]:
        path = os.path.join(TOP, file)
        if os.path.isfile(path):
            if file == unproved:
                print(f'{user}: uses {file}, which is not proved: there is no {proved[0]}', file=sys.stderr)
            return path
    return None


def program(user, name):
    return found(user, [f'crates/{name}/out/{name}', f'bin/{name}'], f'out/{name}-unproved')


def library(user, name):
    """Finds the archive libpartmem_NAME.a for the script `user`."""
    names = [f'{folder}/libpartmem_{name}.a' for folder in ('out/lib', 'lib')]
    return found(user, names, f'out/libpartmem_{name}-unproved.a')
