"""Helpers of several modules: the sizes of a machine, the numbers in a reply, and text to be shown."""
import signal
from typing import NamedTuple

FRAME_SHIFT, MIN_ORDER, MAX_ORDER, MAX_BYTES = 12, 3, 8, 64
FRAME_BYTES = 1 << FRAME_SHIFT
MAX_NUMBER = (1 << 32) - 1
# How many characters of a text are shown, at most.
MAX_SHOWN = 200


class Sizes(NamedTuple):
    order: int
    superblocks: int
    tenants: int


def words_of(sizes):
    return [word for name, size in zip(sizes._fields, sizes) for word in (f'--{name}', str(size))]


def counted(count, noun):
    return f'{count:g} {noun}' if count == 1 else f'{count} {noun}s'


def in_seconds(seconds):
    return counted(round(seconds, 1) if seconds % 1 else int(seconds), 'second')


def visible(text):
    """Returns the text, cut if it is long. Characters other than those of printable ASCII are escaped."""
    shown = ''.join(letter if ' ' <= letter <= '~' else escaped(letter) for letter in text[:MAX_SHOWN])
    return shown + (f' .. ({len(text)} bytes)' if len(text) > MAX_SHOWN else '')


def escaped(letter):
    return f'\\x{ord(letter):02x}' if ord(letter) < 256 else f'\\u{ord(letter):04x}'


def is_number(word):
    return len(word) <= 10 and word.isdigit() and word.isascii()


def number_in(word):
    """Returns the number that a word spells. Raises ValueError if it spells none, since a program may answer anything."""
    if len(word) <= 10 and word.isdigit() and word.isascii():
        return int(word)
    raise ValueError


def order_in(word):
    if number_in(word) > MAX_ORDER:
        raise ValueError
    return int(word)


def told_in(replies):
    """Returns the words of the first reply line after `T> ` or `admin> `. Returns an empty list if there is no reply, or if it
    begins with `!`."""
    return replies[0].partition('> ')[2].split() if replies and replies[0][:1] != '!' else []


def name_of_signal(number):
    return signal.Signals(number).name if number in set(signal.Signals) else f'signal {number}'


def ending(status):
    """Returns how a process ended: `by SIGSEGV`, `with status 3`."""
    if status < 0:
        return f'by {name_of_signal(-status)}'
    # A shell exits with 128 plus the signal's number if a signal ended the program that it ran.
    return f'with status {status}' + (f', 128 + {name_of_signal(status - 128)}' if status > 128 else '')
