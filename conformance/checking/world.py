"""Keeps what the replies of a run said, as far as it is needed to make more lines."""
import collections
import functools
from typing import Any, NamedTuple

from .words import FRAME_BYTES, FRAME_SHIFT, MAX_NUMBER, MAX_ORDER, is_number, number_in, order_in, told_in

# How many of the last frees, gives and writes are kept, so that later lines can name them again.
LAST = 32
# A line with more bytes is faulty, even if it is a comment.
MAX_LINE = 255
# Each line that is made has a step: a tuple of its kind, of whom it names, and of the numbers that its reply is noted with. A
# command of tenant T names T, a command of the administrator for this tenant names ~T, and any other line names NOBODY. UNREAD
# means that only the words of the line say whom it names. The reply to a line of the last three kinds may have any number of
# lines; all others have one. Of PLAIN and MOVE only a refusal is noted. What is noted of WORDS and OTHER depends on the words.
PLAIN, MOVE, ALLOC, FREE, TAKE, GIVE, WRITE, GRANT, WORDS, REPORT, POOL, OTHER = range(12)
NOBODY, UNREAD = MAX_NUMBER + 1, MAX_NUMBER + 2
POOL_STEP, OTHER_STEP = (POOL, NOBODY), (OTHER, UNREAD)
# How many replies are kept with what they say.
KNOWN_REPLIES = 1 << 14


@functools.lru_cache(KNOWN_REPLIES)
def said_in(reply):
    """Returns what a reply line says: the first word after `T> ` or `admin> `, and the only number after it. For `granted` it
    returns a tuple of numbers, and for `refused` the name of the refusal. Returns two empty texts for a line of another form."""
    kind, *words = told_in([reply]) or ['']
    if kind == 'refused' or reply.startswith('!> refused'):
        return 'refused', reply.split()[-1]
    if kind in ('frame', 'object', 'written') and len(words) == 1 and is_number(words[0]):
        return kind, int(words[0])
    if kind == 'freed' and len(words) == 1 and is_number(words[0]) and int(words[0]) <= MAX_ORDER:
        return kind, int(words[0])
    if kind == 'granted' and len(words) == 5 and all(map(is_number, words[::2])):
        return kind, tuple(map(int, words[::2]))
    return (kind, '') if kind == 'given' else ('', '')


class Bag:
    """A map from numbers to what is known of each. Its numbers are also in a list, so one can be drawn in constant time."""

    def __init__(self):
        self.known, self.keys, self.at = {}, [], {}

    def __len__(self):
        return len(self.keys)

    def __contains__(self, key):
        return key in self.known

    def get(self, key, default: Any = None):
        return self.known.get(key, default)

    def add(self, key, known):
        if key not in self.known:
            self.at[key] = len(self.keys)
            self.keys.append(key)
        self.known[key] = known

    def drop(self, key):
        if key in self.known:
            del self.known[key]
            at, last = self.at.pop(key), self.keys.pop()
            if last != key:
                self.keys[at] = last
                self.at[last] = at


class Cache(NamedTuple):
    """The size of an object in bytes, and the number of objects in a slab."""
    size: int = 1
    objects: int = 1


class Tenant:
    def __init__(self):
        self.slots, self.pages = Bag(), Bag()                   # superblocks by slot, and orders by first frame
        self.caches, self.objects = Bag(), Bag()                # caches by number, and cache numbers by first place of an object
        self.freed, self.given = collections.deque(maxlen=LAST), collections.deque(maxlen=LAST)
        self.written = collections.deque(maxlen=LAST)           # places and lengths
        self.frames, self.last_cache = 0, 0

    def slot_of_rank(self, rank):
        """Returns the number of the slot of this rank, or of the highest slot if there are fewer. Returns None if there is no
        slot or `rank` is None."""
        slots = sorted(self.slots.keys)
        return slots[min(rank, len(slots) - 1)] if slots and rank is not None else None

    def held(self):
        """Returns the number of blocks or the number of objects of the tenant, whichever is larger."""
        return max(len(self.pages), len(self.objects))

    def count(self, noun, order, slot=None):
        """Returns how many slots, frames, blocks or objects the tenant has. If a slot is given, only its blocks or objects are
        counted."""
        if noun == 'slots':
            return len(self.slots)
        if noun == 'frames':
            return self.frames
        bag, shift = (self.pages, order) if noun == 'blocks' else (self.objects, order + FRAME_SHIFT)
        return len(bag) if slot is None else sum(key >> shift == slot for key in bag.keys)

    def of_a_slab(self):
        """Returns the number of objects in a slab of the cache that was made last."""
        return self.caches.get(self.last_cache, Cache()).objects


class World:
    """What the replies of a run said. A run of known lines needs only the caches, for the number of rows in a report: then
    `is_known` is true, and the rest is not noted."""

    def __init__(self, sizes, is_known=False):
        self.sizes = sizes
        self.tenants = [Tenant() for _ in range(sizes.tenants)]
        self.refused = collections.Counter()
        self.offsets = collections.deque(maxlen=LAST)           # offsets in a superblock at which some tenant wrote
        self.most = collections.Counter()                       # by noun, such as `slots`: the most that one tenant had at a time
        self.of_admin, self.of_tenant = OF_KNOWN if is_known else OF_MADE

    def rows(self, step, line, words):
        """Returns how many lines the reply to a line with this step has."""
        if step[0] == REPORT:
            return 2 + self.sizes.order + len(self.tenants[step[1]].caches.keys)
        return 1 + self.sizes.superblocks if step[0] == POOL else self.owed(line, words)

    def owed(self, line, words):
        """Returns how many lines the reply to a line with these words has."""
        if len(line) > MAX_LINE:
            return 1
        if not words or words[0][0] == '#':
            return 0
        if len(words) != 2:
            return 1
        if words[1] == 'pool' and words[0] == 'admin':
            return 1 + self.sizes.superblocks
        if words[1] == 'report' and is_number(words[0]) and int(words[0]) < self.sizes.tenants:
            return 2 + self.sizes.order + len(self.tenants[int(words[0])].caches)
        return 1

    def note(self, words, replies):
        """Learns from the reply to these words. A program may answer anything, so replies of another form are skipped."""
        reply = replies[0] if replies else ''
        if 'refused' in reply and (told_in(replies)[:1] == ['refused'] or reply.startswith('!> refused')):
            self.refused[reply.split()[-1]] += 1
        elif len(words) > 1:
            noted = (self.of_admin if words[0] == 'admin' else self.of_tenant).get(words[1])
            # told_in, without a call
            told = reply.partition('> ')[2].split() if noted and reply[:1] != '!' else None
            if told and told[0] != 'fault':
                try:
                    noted(self, words, told)
                except (IndexError, ValueError):
                    pass

    # These functions note what said_in found in the reply to a line with a step. They return false if that is something else than
    # they know.
    def note_alloc(self, step, kind, told):
        if kind != 'frame':
            return False
        _, number, order = step
        tenant = self.tenants[number]
        tenant.pages.add(told, order)
        tenant.frames += 1 << order
        most, count = self.most, len(tenant.pages.keys)
        if count > most['blocks']:
            most['blocks'] = count
        if tenant.frames > most['frames']:
            most['frames'] = tenant.frames
        return True

    def note_free(self, step, kind, told):
        if kind != 'freed':
            return False
        _, number, frame = step
        tenant = self.tenants[number]
        if frame in tenant.pages.known:
            tenant.pages.drop(frame)
        tenant.freed.append(frame)
        tenant.frames -= 1 << told
        return True

    def note_take(self, step, kind, told):
        if kind != 'object':
            return False
        tenant = self.tenants[step[1]]
        tenant.objects.add(told, step[2])
        if len(tenant.objects.keys) > self.most['objects']:
            self.most['objects'] = len(tenant.objects.keys)
        return True

    def note_give(self, step, kind, told):
        if kind != 'given':
            return False
        _, number, cache, place = step
        tenant = self.tenants[number]
        if place in tenant.objects.known:
            tenant.objects.drop(place)
        tenant.given.append((cache, place))
        return True

    def note_write(self, step, kind, told):
        if kind != 'written':
            return False
        _, number, place, length = step
        self.tenants[number].written.append((place, length))
        self.offsets.append(place % (FRAME_BYTES << self.sizes.order))
        return True

    def note_grant(self, _step, kind, told):
        if kind != 'granted' or told[0] >= len(self.tenants):
            return False
        number, slot, superblock = told
        slots = self.tenants[number].slots
        slots.add(slot, superblock)
        if len(slots.keys) > self.most['slots']:
            self.most['slots'] = len(slots.keys)
        return True

    def granted(self, words, told):
        tenant = self.tenants[number_in(told[1])]
        tenant.slots.add(number_in(told[3]), number_in(told[5]))
        self.at_most('slots', len(tenant.slots.keys))

    def was_reset(self, words, told):
        self.tenants[number_in(told[1])] = Tenant()

    def taken_back(self, words, told):
        if told[0] == 'taken':
            self.tenants[number_in(words[2])].slots.drop(number_in(words[3]))

    def allocated(self, words, told):
        tenant, order = self.tenants[int(words[0])], order_in(words[2])
        tenant.pages.add(number_in(told[1]), order)
        tenant.frames += 1 << order
        self.at_most('blocks', len(tenant.pages.keys))
        self.at_most('frames', tenant.frames)

    def freed(self, words, told):
        tenant, frame = self.tenants[int(words[0])], number_in(words[2])
        tenant.pages.drop(frame)
        tenant.freed.append(frame)
        tenant.frames -= 1 << order_in(told[1])

    def written(self, words, told):
        tenant, place = self.tenants[int(words[0])], number_in(words[2])
        tenant.written.append((place, len(words[3]) // 2))
        self.offsets.append(place % (FRAME_BYTES << self.sizes.order))

    def made_cache(self, words, told):
        tenant, objects = self.tenants[int(words[0])], int(told[7]) if is_number(''.join(told[7:8])) else 1
        tenant.last_cache = number_in(told[1])
        tenant.caches.add(tenant.last_cache, Cache(number_in(words[2]), objects))

    def destroyed(self, words, told):
        self.tenants[int(words[0])].caches.drop(number_in(words[2]))

    def took(self, words, told):
        tenant = self.tenants[int(words[0])]
        tenant.objects.add(number_in(told[1]), number_in(words[2]))
        self.at_most('objects', len(tenant.objects.keys))

    def gave(self, words, told):
        tenant, place = self.tenants[int(words[0])], number_in(words[3])
        tenant.objects.drop(place)
        tenant.given.append((number_in(words[2]), place))

    def at_most(self, noun, count):
        if count > self.most[noun]:
            self.most[noun] = count


# By the kind of a step, what notes the reply, if it is noted without the words of the line.
BY_STEP = (None, None, World.note_alloc, World.note_free, World.note_take, World.note_give, World.note_write, World.note_grant,
           None, None, None, None)
# What is noted after the commands of the administrator and after those of a tenant: in a run whose lines are made from its
# replies, and in a run whose lines are known.
OF_MADE = ({'grant': World.granted, 'reset': World.was_reset, 'takeback': World.taken_back},
           {'alloc': World.allocated, 'free': World.freed, 'write': World.written, 'cache': World.made_cache,
            'destroy': World.destroyed, 'take': World.took, 'give': World.gave})
OF_KNOWN = {'reset': World.was_reset}, {'cache': World.made_cache, 'destroy': World.destroyed}
