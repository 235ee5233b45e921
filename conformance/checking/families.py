"""Finds the lines of a run that belong together: a line whose reply gives a name, and the lines that need this name. A name is
the number of a slot, a cache, a block's first frame or an object's first place."""
import collections
import contextlib
import functools

from .runs import Places, parts_of, tenant_of
from .words import FRAME_BYTES, number_in, order_in, told_in


class Givers:
    """The lines that gave a tenant its slots, caches, blocks and objects."""

    def __init__(self, order):
        self.order = order
        self.slots, self.caches, self.sizes, self.places = {}, {}, {}, Places()

    def needs(self, at, words, told, named):
        """Returns the lines that line `at` needs, and notes what it gives. `named` is names_in(words)."""
        kind, needed = told[0] if told else '', []
        if len(words) > 1 and kind != 'fault':
            with contextlib.suppress(IndexError, ValueError):
                needed = self.named(words, named)
                needed.append(self.slot_of_new(at, words, told, kind))
        if words[:2] == ['admin', 'reset'] and kind == 'reset':
            self.__init__(self.order)
        return {line for line in needed if line is not None}

    def named(self, words, named):
        """Returns the lines that gave what these words name."""
        numbers = [(kind, int(words[at])) for at, kind in named]
        return [self.slots.get(number) if kind == 'slot' else self.caches.get(number) if kind == 'cache' else
                self.giver(number * FRAME_BYTES if kind == 'frame' else number) for kind, number in numbers]

    def giver(self, place):
        """Returns the line that gave the block or object that contains this place or is beside it. If there is none, returns the
        line that gave the place's slot."""
        begin = self.places.around(place)
        return self.slots.get(place // FRAME_BYTES >> self.order) if begin is None else self.places.known[begin][1]

    def slot_of_new(self, at, words, told, kind):
        """Notes what a line gives. If it gives a block or an object, returns the line that gave the slot in which it lies."""
        if kind == 'granted':
            self.slots[number_in(told[3])] = at
        elif kind == 'cache':
            self.caches[number_in(told[1])], self.sizes[number_in(told[1])] = at, number_in(words[2])
        elif kind in ('frame', 'object'):
            begin = number_in(told[1]) * (FRAME_BYTES if kind == 'frame' else 1)
            size = FRAME_BYTES << order_in(words[2]) if kind == 'frame' else self.sizes.get(number_in(words[2]), 1)
            self.places.add(begin, size, at)
            return self.slots.get(begin // FRAME_BYTES >> self.order)
        return None


# Several kinds of changes of the same run need its families.
@functools.lru_cache(1)
def families_of(run):
    """Returns for each line the lines that cannot be kept without it: itself, and those that need what it gives, directly or
    through other lines."""
    tenants = collections.defaultdict(lambda: Givers(run.sizes.order))
    families, needed = [], []
    for at, (line, replies) in enumerate(run.exchanges):
        words, _, named = parts_of(line)
        direct = tenants[tenant_of(line)].needs(at, words, told_in(replies), named)
        needed.append(direct.union(*(needed[one] for one in direct)))
        families.append({at})
        for one in needed[at]:
            families[one].add(at)
    return families
