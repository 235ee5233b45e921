"""Makes the traces of tests/same-path/run: a mixed one of several tenants, and for each tenant one with only its own list.

A tenant's own list is its commands, and the administrator's grants, take-backs and resets for it that are not refused. Only the
mixed trace has moves, `admin pool`, broken lines, refused grants and take-backs, and the commands of the other tenants. Each line
depends on the library's replies to the lines before, so the traces use the frames and places that the library returns. The
`World` of conformance/ keeps what the replies said. A command is followed if tests/same-path/run compares its instructions. The
same seed makes the same traces.
"""
import random

from checking.words import FRAME_BYTES, Sizes
from checking.world import World

# The numbers of the tenants' commands in partmem.h.
KINDS = dict(zip("alloc free read write cache destroy take give reap report".split(), range(6, 16)))
# The weight of each command while a tenant takes more than it gives back, and its weight while the tenant gives back more.
FILLING = dict(zip(KINDS, (20, 5, 14, 14, 4, 2, 34, 10, .3, 1)))
EMPTYING = FILLING | {"alloc": 4, "free": 20, "take": 8, "give": 34, "reap": .6}
ADMIN = {"grant": 5, "takeback": 8, "reset": 4, "move": 12, "pool": 1, "broken": 4}
BROKEN = ("0 alloc", "1 frob 2", "# nothing", "", "99 alloc 0", "0 alloc 4294967296", "0 write 0 abc", "admin grant", "0" * 300)
# EVENTS is the share of the followed commands that are passed as numbers, about half of them as events and half as direct calls.
# WHOLE is the share that is followed into the C library too.
EVENTS, WHOLE = .7, .06


def some(draw, bag):
    """Returns a number from a bag, or 0 if the bag is empty."""
    return draw.choice(list(bag.known)) if bag else 0


class Tenant:
    """Draws the commands of a tenant."""

    def __init__(self, number, world):
        self.number, self.world, self.is_filling = number, world, True

    @property
    def held(self):
        """What the tenant holds."""
        return self.world.tenants[self.number]

    def place(self, draw, count):
        """Returns a place in one of the tenant's blocks or objects, from which `count` bytes are in reach unless the block or
        object is smaller. Returns any place if the tenant has neither."""
        held = self.held
        rooms = [(frame * FRAME_BYTES, FRAME_BYTES << order) for frame, order in held.pages.known.items()]
        rooms += [(place, held.caches.get(cache).size) for place, cache in held.objects.known.items()]
        start, room = draw.choice(rooms) if rooms else (draw.randrange(2**16), count)
        return start + draw.randrange(max(1, room - count + 1))

    def words(self, draw):
        """Returns the words of the next command."""
        if draw.random() < 1 / 60:
            self.is_filling = not self.is_filling
        weights = FILLING if self.is_filling else EMPTYING
        kind = draw.choices(list(weights), weights.values())[0]
        if kind == "free" and not self.held.pages:
            kind = "alloc"
        if kind == "give" and not self.held.objects:
            kind = "take"
        if kind == "take" and not self.held.caches:
            kind = "cache"
        if draw.random() < 1 / 12:
            return [kind, *self.faulty(kind, draw)]
        return [kind, *self.sound(kind, draw)]

    def sound(self, kind, draw):
        cache = some(draw, self.held.caches)
        if kind == "alloc":
            orders = range(self.world.sizes.order + 1)
            return [draw.choices(orders, [2.0 ** -k for k in orders])[0]]
        if kind == "free":
            return [some(draw, self.held.pages)]
        if kind in ("read", "write"):
            count = draw.choice((1, 8, 64, draw.randint(1, 64)))
            return [self.place(draw, count), count if kind == "read" else draw.randbytes(count).hex()]
        if kind == "cache":
            return [draw.choice((16, 24, 100, 256, 700, 1500, 3000, 6000)), 8, draw.randbytes(draw.choice((1, 4, 16))).hex()]
        if kind == "give":
            place = some(draw, self.held.objects)
            return [self.held.objects.get(place, 0), place]
        return [cache] if kind in ("destroy", "take") else []

    def faulty(self, kind, draw):
        """Returns arguments with which the command is refused in most cases."""
        wrong = draw.choice((0, 7, 33, 4097, 2**20, 2**32 - 1))
        if kind in ("read", "write"):
            count = draw.choice((0, 1, 64, 65, 2**32 - 1)) if kind == "read" else draw.choice((1, 64))
            return [draw.choice((wrong, self.place(draw, 1))), count if kind == "read" else "5a" * count]
        if kind == "cache":
            return [draw.choice((0, 8, 2**20)), draw.choice((0, 3, 8, 4096)), "00"]
        if kind == "give":
            place = some(draw, self.held.objects)
            cache = self.held.objects.get(place, 0)
            return draw.choice(((cache, place + 1), (cache + 1, place), (cache, wrong)))
        return [wrong] if kind in ("alloc", "free", "destroy", "take") else []


class Pair:
    """The rows of a mixed trace and of each tenant's own trace, in the form that same_path.c reads."""

    def __init__(self, machine, commands, seed, ask):
        self.machine, self.ask, self.world = machine, ask, World(Sizes(*machine))
        self.draw = random.Random(f"same path {machine} {seed}")
        self.tenants = [Tenant(t, self.world) for t in range(self.world.sizes.tenants)]
        self.mixed, self.alone = [], [[] for _ in self.tenants]
        # For each command that is followed in the mixed trace: its tenant, its text and its first reply.
        self.followed = []
        self.run(commands)

    def run(self, commands):
        """Adds rows to the traces until this many commands are followed."""
        self.grant_all(2)
        while len(self.followed) < commands:
            if self.draw.random() < .12:
                self.others()
            else:
                tenant = self.draw.choice(self.tenants)
                self.command(tenant, tenant.words(self.draw))

    def grant_all(self, count):
        """Grants each tenant this many superblocks."""
        for _ in range(count):
            for t in range(len(self.tenants)):
                self.own(t, f"admin grant {t}")

    def reply(self, line):
        """Returns the first line of the library's reply to a line."""
        replies = self.ask(line)
        self.world.note(line.split(), replies)
        return replies[0]

    def command(self, tenant, words):
        """Adds a tenant's command as a followed row to the mixed trace and to the tenant's own trace."""
        line = " ".join(map(str, [tenant.number, *words]))
        reply = self.reply(line)
        is_whole, is_event = self.draw.random() < WHOLE, self.draw.random() < EVENTS
        row = ("*" if is_whole else "+") + line
        if is_event:
            mark = ("#" if is_whole else "=") if len(self.followed) % 2 else ("&" if is_whole else "@")
            texts = [word for word in words[1:] if isinstance(word, str)]
            numbers = [word for word in words[1:] if not isinstance(word, str)] + [0, 0]
            row = " ".join(map(str, [mark + str(KINDS[words[0]]), tenant.number, *numbers[:2], *texts]))
        self.mixed.append(row)
        self.alone[tenant.number].append(row)
        self.followed.append((tenant.number, line, reply))

    def own(self, t, line):
        """Adds a line that is not followed to the mixed trace. Adds it to the own trace of tenant `t` too, unless it is a refused
        line of the administrator."""
        is_refused = "admin> refused" in self.reply(line)
        self.mixed.append("." + line)
        if not is_refused:
            self.alone[t].append("." + line)

    def at_full_speed(self, tenant, words):
        """Adds a tenant's command that is not followed."""
        self.own(tenant.number, " ".join(map(str, [tenant.number, *words])))

    def others(self):
        """Adds a line that no tenant gives: one of the administrator, or a broken one."""
        kind = self.draw.choices(list(ADMIN), ADMIN.values())[0]
        tenant = self.draw.choice(self.tenants)
        t, slot = tenant.number, self.draw.choice([*sorted(tenant.held.slots.keys), 0])
        if kind == "takeback":
            self.own(t, f"admin takeback {t} {slot}")
        elif kind in ("grant", "reset"):
            self.own(t, f"admin {kind} {t}")
            if kind == "reset":
                self.own(t, f"admin grant {t}")
        else:
            self.foreign({"pool": "admin pool", "move": f"admin move {t} {slot}"}.get(kind) or self.draw.choice(BROKEN))

    def foreign(self, line):
        """Adds a line to the mixed trace only, since it is in no tenant's own list."""
        self.reply(line)
        self.mixed.append("." + line)


class LongPair(Pair):
    """Like Pair, but each tenant has two caches of 200 slabs, so that the library keeps their lists in groups of slabs.

    A slab has two objects, so each `take` and `give` moves a slab to another list, mostly into the middle of it. A tenant gives
    back one object of most slabs of a cache, slot by slot, then the other object of these slabs, and then takes as many objects
    again. Most of its commands are not followed, to save time.
    """

    # The first and the last cache of a tenant are used. The blocks are as large as a slot, and the slabs lie on both sides of
    # them.
    CACHES, SLABS, STAY_FULL, BLOCKS = (0, 31), 200, 30, 25

    def run(self, commands):
        self.grant_all(self.machine[1] // len(self.tenants))
        for tenant in self.tenants:
            self.fill(tenant)
        turns = [[self.turns(tenant, cache) for cache in self.CACHES] for tenant in self.tenants]
        while len(self.followed) < commands:
            tenant = self.draw.choice(self.tenants)
            if self.draw.random() < .02:
                self.foreign(f"admin move {tenant.number} {self.draw.choice(sorted(tenant.held.slots.keys))}")
                continue
            words = next(self.draw.choice(turns[tenant.number]))
            if self.draw.random() < .1:
                self.command(tenant, words)
            else:
                self.at_full_speed(tenant, words)

    def fill(self, tenant):
        """Makes all caches of a tenant, and fills the slabs of those that are used."""
        for _ in range(max(self.CACHES) + 1):
            self.at_full_speed(tenant, ["cache", 2000, 8, "a0"])
        takes = [cache for cache in self.CACHES for _ in range(2 * self.SLABS)]
        self.draw.shuffle(takes)
        for k, cache in enumerate(takes):
            if k == len(takes) // 3:
                for _ in range(self.BLOCKS):
                    self.at_full_speed(tenant, ["alloc", self.machine[0]])
            self.at_full_speed(tenant, ["take", cache])

    def turns(self, tenant, cache):
        """Yields the commands on a cache of a tenant, for ever."""
        while True:
            slabs = {}
            for place, of in tenant.held.objects.known.items():
                if of == cache:
                    slabs.setdefault(place // FRAME_BYTES, []).append(place)
            order = {frame >> self.machine[0]: self.draw.random() for frame in slabs}
            frames = sorted(slabs, key=lambda frame: (order[frame >> self.machine[0]], self.draw.random()))
            for number in range(2):
                for frame in frames[self.STAY_FULL:]:
                    yield ["give", cache, slabs[frame][number]]
            for _ in range(2 * (self.SLABS - self.STAY_FULL)):
                yield ["take", cache]
