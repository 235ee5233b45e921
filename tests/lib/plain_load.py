"""Random traces with the replies of the plain machine of plain_machine.py, for comparisons with another program."""
import collections
import random
import re

from checks import fail
from plain_machine import FRAME_BYTES, MAX_CACHES, Machine

# Sizes and alignments of caches, some of which are refused.
SIZES = [(1, 8), (65, 64), (200, 8), (256, 256), (504, 8), (505, 8), (600, 8), (700, 8), (1500, 8), (2048, 8), (2800, 8)]
SIZES += [(3000, 8), (0, 8), (64, 12)]
# The weights with which commands are drawn. The first applies while more is taken than given back, and the second while more is
# given back than taken.
WEIGHTS = {"take": (180, 30), "give": (120, 270), "alloc": (60, 30), "free": (40, 70), "reap": (8, 8), "cache": (10, 10)}
WEIGHTS |= {"destroy": (12, 12), "grant": (20, 20), "takeback": (34, 34), "move": (24, 24), "fill": (2, 2), "reset": (2, 2)}
WEIGHTS |= {"read": (50, 50), "write": (50, 50), "broken": (40, 40)}


class Load:
    """A random trace with the plain machine's replies. Each line is drawn from what the machine holds after the lines before."""

    def __init__(self, seed, **sizes):
        self.draws, self.machine, self.asked = random.Random(seed), Machine(**sizes), []
        self.sizes, self.lines, self.replies = sizes, [], []
        self.kinds, self.reaped_on_demand = collections.Counter(), 0

    def below(self, number):
        return self.draws.randrange(number)

    def add(self, line):
        """Adds a line with its reply. Counts the kind of the reply, and each allocation for which empty slabs were freed."""
        slabs = sum(len(tenant.slabs) for tenant in self.machine.tenants)
        replies = self.machine.answer(line)
        self.lines.append(line)
        self.replies.append(replies)
        if replies:
            words = replies[0].split()
            self.kinds[words[-1] if words[1] in ("refused", "fault") else words[1]] += 1
            is_less = sum(len(tenant.slabs) for tenant in self.machine.tenants) < slabs
            self.reaped_on_demand += words[1] in ("frame", "object") and is_less

    def say(self, *words):
        self.add(" ".join(map(str, words)).encode())

    def some(self, list_of, otherwise):
        return self.draws.choice(list_of) if list_of else otherwise

    def some_object(self, tenant):
        return self.some([(slab.number, place) for slab in tenant.slabs.values() for place in slab.live], (0, 0))

    def some_place(self, tenant):
        """Returns a place near an object, or near a block."""
        if self.below(2):
            return self.some_object(tenant)[1] + self.below(700)
        return FRAME_BYTES * self.some(list(tenant.blocks()), 0) + self.below(2 * FRAME_BYTES)

    def some_cache(self):
        return self.below(6 if self.below(8) else 40)

    def some_hex(self, most):
        return self.draws.randbytes(1 + self.below(most)).hex()

    def give(self, t, tenant):
        """Adds a `give`: mostly of a live object, else with a place after the object's first byte, with the number of a random
        cache, or with a random place."""
        cache, place = self.some_object(tenant)
        kind = self.below(20)
        place += 8 if kind == 0 else self.below(5000) if kind == 1 else 0
        self.say(t, "give", self.some_cache() if kind == 2 else cache, self.below(1 << 32) if kind == 3 else place)

    def cache(self, t):
        self.say(t, "cache", *self.draws.choice(SIZES), self.some_hex(16))

    def fill(self, t):
        """Tries to make one cache more than a tenant may have, and then to destroy the caches from number 6 on."""
        for _ in range(MAX_CACHES + 1):
            self.cache(t)
        for number in range(6, MAX_CACHES):
            self.say(t, "destroy", number)

    def settle(self, t):
        self.say("admin grant", t)
        for _ in range(6):
            self.cache(t)

    def broken(self):
        """Adds an earlier line with a byte inserted, changed or removed, with many blanks after it, or for a tenant that does not
        exist."""
        line = bytearray(self.draws.choice(self.lines))
        at = self.below(len(line) + 1)
        kind = self.below(5)
        if kind < 2:
            line[at:at + kind] = bytes([self.draws.choice(b" \t\r#09axAF\xff\0")])
        elif kind == 2:
            del line[at:at + 1]
        elif kind == 3:
            line += b" " * self.below(300)
        else:
            line = re.sub(rb"^\d+", b"%d" % max(64, len(self.machine.tenants)), line)
        self.add(bytes(line).replace(b"\n", b""))

    def draw(self, t, drains):
        """Draws a command of tenant `t`, or of the administrator about this tenant, and adds it. `drains` chooses the weights."""
        tenant = self.machine.tenants[t]
        name = self.draws.choices(list(WEIGHTS), [weights[drains] for weights in WEIGHTS.values()])[0]
        if name in ("take", "destroy"):
            self.say(t, name, self.some_cache())
        elif name == "alloc":
            self.say(t, name, self.below(1 + self.below(self.machine.order + 2)))
        elif name == "free":
            self.say(t, name, self.some(list(tenant.blocks()), 0) + (self.below(8) == 0))
        elif name == "reap":
            self.say(t, name)
        elif name in ("grant", "reset"):
            self.say("admin", name, t)
        elif name in ("takeback", "move"):
            self.say("admin", name, t, self.below(self.sizes["superblocks"]))
        elif name == "read":
            self.say(t, name, self.some_place(tenant), self.below(67))
        elif name == "write":
            self.say(t, name, self.some_place(tenant), self.some_hex(64))
        elif name == "give":
            self.give(t, tenant)
        elif name == "broken":
            self.broken()
        else:
            getattr(self, name)(t)
        if name == "reset":
            self.settle(t)

    def draw_all(self, commands):
        """Draws this number of commands, each for a random tenant, and adds a report of this tenant after each command. For one
        command in 16 it then adds `admin pool` and a report of each tenant."""
        tenants = range(len(self.machine.tenants))
        for t in tenants:
            self.settle(t)
        for number in range(commands):
            t = self.draws.choice(tenants)
            self.draw(t, number // 200 % 2)
            self.say(t, "report")
            if number % 16 == 0:
                self.say("admin pool")
                for u in tenants:
                    self.say(u, "report")

    def text(self):
        """Returns the trace, as bytes."""
        return b"".join(line + b"\n" for line in self.lines)

    def compare(self, written):
        """Compares the replies with those that another program has written."""
        compare(self.sizes, zip(self.lines, self.replies), written)


def compare(sizes, answered, written):
    """Compares the plain machine's replies with those that another program has written. `answered` has pairs of a line and the
    plain machine's reply lines."""
    got, at = written.decode("latin-1").splitlines(), 0
    for number, (line, replies) in enumerate(answered, 1):
        if got[at:at + len(replies)] != replies:
            fail(f"{sizes}, line {number}: {line} is answered {got[at:at + len(replies)]}, and not {replies}")
        at += len(replies)
    if at != len(got):
        fail(f"{sizes}: {len(got) - at} reply lines too many")
