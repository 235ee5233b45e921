"""Reads the command line of conformance/check."""
import argparse
import functools
import os
import shlex
import sys
from errno import EACCES, EISDIR, ENOENT

from .maker import OF_CACHES, OF_TENANT
from .shorten import SHORTENING
from .talk import SECONDS
from .traces import LIMITS
from .words import Sizes

TOP = os.path.dirname(os.path.dirname(os.path.dirname(os.path.abspath(__file__))))
# How many loads are run without options, how many are run with --long, and how many are run at a time at most.
LOADS, LONG_LOADS, MAX_JOBS = 300, 8, 256
INFINITE = float('inf')
# The commands that --without can leave out: those of tenants, and one of the administrator.
MAY_BE_WITHOUT = *OF_TENANT, 'move'
# Options that say which loads are run, and how. All other options are part of the test, and are repeated to run a load again.
WHICH = 'loads', 'load', 'seed', 'trace', 'save', 'json', 'junit', 'jobs'

KEPT, BROKEN, UNUSABLE, FAILED = 0, 1, 2, 3
EXITS = f"""exit status:
  {KEPT}  all loads keep the promises
  {BROKEN}  a load breaks a promise
  {UNUSABLE}  the command line or a trace is wrong, a tool or conformance/check itself fails, or nothing can be written
  {FAILED}  PROGRAM fails: it cannot be run, ends before it has answered, ends with a status other than 0, prints
     without end, or takes more than {SECONDS} seconds for a reply or to exit at the end of its input: of
     processor time, or of the clock while it uses none"""


class Parser(argparse.ArgumentParser):
    """A parser that reports an error in one line."""

    def error(self, message):
        self.exit(UNUSABLE, f'{self.prog}: {message}; see --help\n')


def number_of(kind, least, most, text):
    """Returns the number that a word of the command line spells. Raises ArgumentTypeError if the word is no number, or if the
    number is not within the limits."""
    try:
        number = kind(text)
    except ValueError:
        number = None
    if number is None or not least <= number <= most:
        limits = f'from {least:g} to {most:g}' if most < INFINITE else f'of at least {least:g}' if least > -most else ''
        raise argparse.ArgumentTypeError(f'{text!r} is not a {"whole " if kind is int else ""}number {limits}'.rstrip())
    return number


def number(kind, least, most=INFINITE):
    return functools.partial(number_of, kind, least, most)


def parser_of(description):
    parser = Parser(prog='conformance/check', usage='%(prog)s [OPTION].. PROGRAM [ARGUMENT..]', description=description,
                    epilog=EXITS, formatter_class=argparse.RawDescriptionHelpFormatter, add_help=False)
    add = parser.add_argument
    add('program', metavar='PROGRAM', help='the program to test: a file, or a command of PATH')
    add('arguments', metavar='ARGUMENT', nargs=argparse.REMAINDER, help='the first arguments of PROGRAM').required = False
    add('--pages', action='store_true', help=f'leave out caches, the commands {", ".join(OF_CACHES)}')
    add('--without', action='append', default=[], metavar='COMMAND', choices=MAY_BE_WITHOUT,
        help=f'leave out a command: {", ".join(MAY_BE_WITHOUT)}; can be given more than once')
    add('--exact', action='store_true', help='compare the replies with those of partmem too, byte for byte')
    nouns = 'of this order', 'with this number of superblocks', 'with this number of tenants'
    for name, (least, most), noun in zip(Sizes._fields, LIMITS, nouns):
        add(f'--{name}', type=number(int, least, most), metavar='N', help=f'only machines {noun}, {least} to {most}')
    add_loads(add)
    for name in ('partcheck', 'partmem'):
        add(f'--{name}', default=os.path.join(TOP, f'crates/{name}/out/{name}'), metavar='FILE',
            help=f'the {name} that is used (default: crates/{name}/out/{name} beside conformance/)')
    add('-h', '--help', action='help', help='print this help')
    return parser


def add_loads(add):
    add('--loads', type=number(int, 1), metavar='N', help=f'how many loads are run (default: {LOADS}, with --long {LONG_LOADS})')
    add('--seed', type=number(int, -INFINITE), default=1, metavar='S',
        help='a whole number; each makes different loads (default: 1)')
    add('--load', type=number(int, 0), metavar='N', help='run the load of this number alone')
    add('--long', action='store_true', help='longer loads, half of them with 65,536 blocks or objects')
    add('--trace', action='append', metavar='FILE',
        help='run this trace, or all traces of a folder, and no loads; can be given more than once')
    add('--save', metavar='FILE', help='write the shortened trace of a load that breaks a promise or fails, for --trace')
    add('--json', metavar='FILE', help='also write the result as JSON')
    add('--junit', metavar='FILE', help='also write the result as XML in the form of JUnit, with a test case for each load')
    add('--jobs', type=number(int, 1, MAX_JOBS), default=min(len(os.sched_getaffinity(0)), MAX_JOBS), metavar='J',
        help=f'how many loads are run at a time, 1 to {MAX_JOBS} (default: one for each processor)')
    add('--shorten', type=number(float, 0), metavar='SECONDS',
        help=f'how long a load is shortened, at most (default: {SHORTENING})')


def options_of(words, description):
    """Returns the options of a command line. Exits if it is wrong."""
    parser = parser_of(description)
    options = parser.parse_args(words)
    options.command = [options.program, *options.arguments]
    options.given = command_of(parser, options)
    options.without += OF_CACHES if options.pages else []
    if options.loads is None:
        options.loads = LONG_LOADS if options.long else LOADS
    for file in options.save, options.json, options.junit:
        refuse_to_save(parser, file or '')
    for name in ['partcheck', *(['partmem'] if options.exact else [])]:
        file = getattr(options, name)
        if not os.access(file, os.X_OK):
            advised = f'build it by make prove, or by tools/unproved {name} and give --{name} out/{name}-unproved'
            advised = advised if file == parser.get_default(name) else os.strerror(EACCES if os.path.exists(file) else ENOENT)
            parser.exit(UNUSABLE, f'conformance/check: cannot run {file}: {advised}\n')
    return options


def refuse_to_save(parser, file):
    """Exits before the test if an option names a folder to write to, or a file in a folder that does not exist."""
    if os.path.isdir(file) or not os.path.isdir(os.path.dirname(file) or '.'):
        why = os.strerror(EISDIR if os.path.isdir(file) else ENOENT)
        parser.exit(UNUSABLE, f'conformance/check: cannot write {file}: {why}\n')


def command_of(parser, options):
    """Returns the options of a command line as words. Leaves out the options of WHICH, and those with their default value."""
    words = []
    for action in parser._actions:
        value = getattr(options, action.dest, None)
        if not action.option_strings or action.dest in WHICH or value in (action.default, None):
            continue
        for each in value if isinstance(value, list) else [value]:
            words.append(action.option_strings[0])
            if each is not True:
                words.append(f'{each:g}' if isinstance(each, float) else str(each))
    return words


def again(options, made, saved):
    """Returns the command that runs a load or a trace alone. If `saved` names a file, the command runs the trace in it."""
    which = ['--trace', saved or made.name] if saved or isinstance(made.name, str) else [
        '--seed', str(options.seed), '--load', str(made.name)]
    return shlex.join([sys.argv[0], *options.given, *which, *options.command])
