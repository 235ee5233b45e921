"""Makes lines. Most numbers in them name something that exists. The others are wrong, and often at an edge."""
from typing import NamedTuple, Optional

from .words import FRAME_BYTES, MAX_NUMBER, MAX_ORDER
from .world import (ALLOC, FREE, GIVE, GRANT, MOVE, NOBODY, OTHER_STEP, PLAIN, POOL_STEP, REPORT, TAKE, WORDS, WRITE, Cache)

OF_TENANT = ('alloc', 'free', 'read', 'write', 'cache', 'destroy', 'take', 'give', 'reap', 'report')
OF_CACHES = OF_TENANT[4:]
ALL_OF_TENANT = frozenset(OF_TENANT)
OF_ADMIN = ('grant', 'takeback', 'move', 'reset', 'pool')

FAULTY = ['frob', '0', '0 alloc', '0 alloc x', '0 alloc 4294967296', '7x alloc 0', '0 write 0 abc', '0 frob 1', 'admin',
          'admin frob', 'admin grant', '# remark', '', ' \t', '0 alloc ' + '0' * 11, '0 read 0 ' + '9' * 300,
          '\t 0  alloc \t 0\r', '0 alloc 0 0', 'admin grant 0 0', 'admin takeback 0 x', '0 write 0 ' + 'a5' * 65]
POWERS = [1 << k for k in (3, 5, 8, 12, 16, 20, 24, 31)]
EDGES = sorted({0, 1, MAX_NUMBER, MAX_NUMBER - 1} | {power + more for power in POWERS for more in (-1, 0, 1)})
WRONG_ORDERS = [9, 12, 16, 20, 31, 32, 33, 63, 64, 255, 256, 257, 264, 1 << 16, 1 << 31, MAX_NUMBER]
LENGTHS, WRONG_LENGTHS = [1, 1, 2, 4, 8, 16, 32, 63, 64, 64], [0, 0, 65, 66, 128, 255, 256, 257, 1 << 16, 1 << 31, MAX_NUMBER]
OBJECTS = [1, 7, 8, 8, 9, 15, 16, 17, 24, 31, 32, 33, 63, 64, 65, 100, 127, 128, 129, 200, 255, 256, 257, 500, 511, 512, 513,
           1000, 1023, 1024, 1025, 2000, 2047, 2048, 2049, 4095, 4096]
WRONG_OBJECTS = [0, 4097, 8192, 1 << 16, (1 << 16) + 8, 1 << 31, MAX_NUMBER]
ALIGNMENTS = [8, 8, 8, 8, 16, 32, 64, 128, 256]
WRONG_ALIGNMENTS = [0, 1, 4, 7, 9, 12, 24, 255, 257, 512, 4096, (1 << 16) + 8, MAX_NUMBER]
# The weights of phases of one command whose lines may all be the same.
OF_ONE_COMMAND = 'alloc 1', 'take 1'
# How many caches a tenant may have.
MAX_CACHES = 32


class Goal(NamedTuple):
    """A number of frames, blocks, objects or slots that a tenant has to reach exactly: `count`, and in addition as many objects
    as fit into `slabs` slabs. If `is_most`, fewer are enough."""
    noun: str
    count: int = 0
    slabs: int = 0
    is_most: bool = False

    def away(self, tenant, order, slot):
        """Returns how far a tenant is from the goal, above or below it."""
        more = tenant.count(self.noun, order, slot) - self.count - self.slabs * tenant.of_a_slab()
        return max(more, 0) if self.is_most else abs(more)


class Phase(NamedTuple):
    """Lines of one kind: which commands, in which proportion, of which tenants. The phase may end before all lines are sent."""
    lines: int
    weights: str
    tenants: list
    orders: list
    sizes: list = OBJECTS
    alignments: list = ALIGNMENTS
    until: str = ''                                             # it ends when everything is `full` or `empty`, or when its lines
                                                                # bring the goal no nearer, if this is `stuck`
    goal: Optional[Goal] = None                                 # it also ends when its first tenant reaches this
    is_plain: bool = False                                      # no number is wrong on purpose
    rank: Optional[int] = None                                  # the rank of the only slot used: 0 is the lowest, -1 the highest
    slot: Optional[int] = None                                  # the number of that slot


def commands_of(weights, without):
    """Returns the commands of a text such as `alloc 5 free 4`, each as often as the number after it says. Leaves out those of
    `without`."""
    words = weights.split()
    return [name for name, count in zip(words[::2], words[1::2]) if name not in without for _ in range(int(count))]


class Maker:
    def __init__(self, rng, without):
        self.rng, self.random, self.without, self.of = rng, rng.random, frozenset(without), {}

    def commands(self, phase):
        """Returns the commands of a phase that are not left out. There may be none."""
        commands = self.of.get(phase.weights)
        if commands is None:
            commands = self.of[phase.weights] = commands_of(phase.weights, self.without)
        return commands

    def lines(self, world, phase, count):
        """Returns lines, and the step of each."""
        if len(phase.tenants) == 1 and phase.weights in OF_ONE_COMMAND:
            lines = self.same_lines(world, phase, count)
            if lines:
                return lines
        line = self.line
        made = [line(world, phase) for _ in range(count)]
        return [text for text, _ in made], [step for _, step in made]

    def same_lines(self, world, phase, count):
        """Returns what `lines` returns, in less time, if all lines of a plain phase are the same. Otherwise returns None."""
        (number,), (command, _) = phase.tenants, phase.weights.split()
        tenant = world.tenants[number]
        if not phase.is_plain or not tenant.slots.keys or command in self.without:
            return None
        if command == 'alloc' and len(phase.orders) == 1:
            draws, (order,) = 3, phase.orders
            line, step = f'{number} alloc {order}', (ALLOC, number, order)
        elif command == 'take' and tenant.last_cache in tenant.caches.known:
            draws, cache = 2, tenant.last_cache
            line, step = f'{number} take {cache}', (TAKE, number, cache)
        else:
            return None
        # Draw as often as `line` does.
        for _ in range(draws * count):
            self.random()
        return [line] * count, [step] * count

    def line(self, world, phase):
        """Returns a line and its step."""
        random, tenants, commands = self.random, phase.tenants, self.of.get(phase.weights) or self.commands(phase)
        number = tenants[int(random() * len(tenants))]
        command = commands[int(random() * len(commands))]
        tenant = world.tenants[number]
        if not tenant.slots.keys and command in ALL_OF_TENANT and random() < 0.6:
            number, command = self.for_a_slot(world, number)
            tenant = world.tenants[number]
        if command == 'fault':
            return self.one(FAULTY), OTHER_STEP
        if command in OF_ADMIN:
            return self.admin(world, phase, number, command)
        if phase.is_plain or random() < 0.995:
            return MADE[self.possible(tenant, command)](self, world, phase, tenant, number)
        actor = self.no_tenant(world)
        return MADE[self.possible(tenant, command)](self, world, phase, tenant, actor)[0], (PLAIN, NOBODY)

    def below(self, count):
        """Returns a number below `count`. Draws as `randrange` does, in less time."""
        bits, draw = count.bit_length(), self.rng.getrandbits
        number = draw(bits)
        while number >= count:
            number = draw(bits)
        return number

    def for_a_slot(self, world, tenant):
        """Returns a tenant and an administrator's command for it. If a superblock is free, this is a grant to `tenant`. Otherwise
        it is a command for a tenant that has superblocks, mostly one that takes them back."""
        owners = [number for number, other in enumerate(world.tenants) if other.slots]
        if sum(len(world.tenants[number].slots) for number in owners) < world.sizes.superblocks:
            return tenant, 'grant'
        return self.one(owners or [tenant]), self.one(['reset', 'takeback', 'takeback', 'grant'])

    def one(self, items):
        return items[int(self.random() * len(items))]

    def is_right(self, phase, chance):
        """Returns whether a number has to be right: always if the phase is plain, else with this chance."""
        return phase.is_plain or self.random() < chance

    def admin(self, world, phase, tenant, command):
        if command == 'pool' and self.random() * world.sizes.superblocks < 16:
            return 'admin pool', POOL_STEP
        is_of_slot = command in ('takeback', 'move')
        slot = self.slot(world, phase, world.tenants[tenant].slots.keys) if is_of_slot else 0
        actor = tenant if phase.is_plain or self.random() < 0.97 else self.no_tenant(world)
        if is_of_slot:
            return f'admin {command} {actor} {slot}', (MOVE if command == 'move' else WORDS, ~actor)
        return (f'admin reset {actor}', (WORDS, ~actor)) if command == 'reset' else (f'admin grant {actor}', (GRANT, ~actor))

    def no_tenant(self, world):
        count = world.sizes.tenants
        return max(count, self.one([count, count, count + 1, 64, 255, 256, 257, 1 << 16, 1 << 31, MAX_NUMBER]))

    def slot(self, world, phase, slots):
        if slots and self.is_right(phase, 0.92):
            return self.one(slots) if phase.slot is None else phase.slot
        return self.near(self.one(slots) if slots else 0, 1, [1 << 20 - world.sizes.order, 1 << 32 - world.sizes.order])

    def near(self, number, span, spans=()):
        """Returns a number that is probably wrong: it is next to this one, or differs from it by `span`, 2^8, 2^16 or one of
        `spans`, or is at an edge. A program that uses too few bits may take it for this one."""
        spans = [1, span, 1 << 8, 1 << 16, *spans]
        wrong = number + self.one([1, 1, -1]) * self.one(spans) if self.random() < 0.7 else self.one(EDGES)
        return min(max(wrong, 0), MAX_NUMBER)

    def possible(self, tenant, command):
        """Returns the command, or often another one if the command would have nothing to name, or is left out."""
        if command == 'free' and not tenant.pages.keys and self.random() < 0.8:
            command = 'alloc'
        if command == 'give' and not tenant.objects.keys and self.random() < 0.8:
            command = 'take'
        if command in ('take', 'destroy') and not tenant.caches.keys and self.random() < 0.8:
            command = 'cache'
        if command in self.without:
            command = self.one([name for name in OF_TENANT if name not in self.without] or ['report'])
        return command

    # These functions make a command of a tenant, and return the line and its step.
    def read(self, world, phase, tenant, actor):
        place, length = self.range(world, tenant)
        length = length if self.random() < 0.95 else self.one(WRONG_LENGTHS)
        return f'{actor} read {place} {length}', (PLAIN, actor)

    def write(self, world, phase, tenant, actor):
        place, length = self.range(world, tenant)
        return f'{actor} write {place} {self.rng.randbytes(length).hex()}', (WRITE, actor, place, length)

    def alloc(self, world, phase, _tenant, actor):
        random, orders = self.random, phase.orders
        chance = 0 if phase.is_plain else random()
        if chance < 0.96:
            order = orders[int(random() * len(orders))]
        else:
            order = self.one([world.sizes.order, world.sizes.order + 1] if chance < 0.98 else WRONG_ORDERS)
        return f'{actor} alloc {order}', (ALLOC, actor, order) if order <= MAX_ORDER else (PLAIN, actor)

    def free(self, world, phase, tenant, actor):
        frame = self.page(world, phase, tenant)
        return f'{actor} free {frame}', (FREE, actor, frame)

    def make(self, world, phase, tenant, actor):
        return f'{actor} cache {self.layout(world, phase, tenant)}', (WORDS, actor)

    def destroy(self, world, phase, tenant, actor):
        return f'{actor} destroy {self.cache(world, phase, tenant)}', (WORDS, actor)

    def take(self, world, phase, tenant, actor):
        cache = self.cache(world, phase, tenant)
        return f'{actor} take {cache}', (TAKE, actor, cache)

    def give(self, world, phase, tenant, actor):
        cache, place = self.object(world, phase, tenant)
        return f'{actor} give {cache} {place}', (GIVE, actor, cache, place)

    def reap(self, _world, _phase, _tenant, actor):
        return f'{actor} reap', (PLAIN, actor)

    def report(self, _world, _phase, _tenant, actor):
        return f'{actor} report', (REPORT, actor)

    def drawn_in(self, bag, phase, places):
        """Returns a number from the bag. If the phase has a slot, and numbers of that slot are in the bag, returns one of these.
        Each slot has `places` numbers."""
        inside = [key for key in bag.keys if key // places == phase.slot] if phase.slot is not None else []
        return self.one(inside or bag.keys)

    def page(self, world, phase, tenant):
        """Returns the first frame of a block, or rarely another number. The block leaves the bag, so it is not drawn again while
        the reply to its free is awaited."""
        keys = tenant.pages.keys
        if keys and (phase.is_plain or self.random() < 0.93):
            if phase.slot is None:
                first = keys[int(self.random() * len(keys))]
            else:
                first = self.drawn_in(tenant.pages, phase, 1 << world.sizes.order)
            tenant.pages.drop(first)
            return first
        if tenant.freed and self.random() < 0.3:
            return self.one(tenant.freed)
        first = self.one(tenant.pages.keys) if tenant.pages.keys else 0
        return self.near(first, 1 << tenant.pages.get(first, 0), [1 << world.sizes.order, 1 << 20])

    def cache(self, _world, phase, tenant):
        if phase.is_plain and tenant.last_cache in tenant.caches.known:
            return tenant.last_cache
        caches = tenant.caches.keys
        if caches and self.is_right(phase, 0.95):
            return self.one(caches)
        return self.near(self.one(caches) if caches else 0, MAX_CACHES)

    def object(self, world, phase, tenant):
        """Returns the numbers of a cache and of one of its objects, or rarely other numbers."""
        keys = tenant.objects.keys
        if keys and (phase.is_plain or self.random() < 0.92):
            if phase.slot is None:
                place = keys[int(self.random() * len(keys))]
            else:
                place = self.drawn_in(tenant.objects, phase, FRAME_BYTES << world.sizes.order)
            cache = tenant.objects.get(place)
            tenant.objects.drop(place)
        elif tenant.given and self.random() < 0.3:
            cache, place = self.one(tenant.given)
        else:
            place = self.one(tenant.objects.keys) if tenant.objects.keys else 0
            cache = tenant.objects.get(place, 0)
            cache, place = self.one([(cache, self.near(place, 16, [FRAME_BYTES])), (self.cache(world, phase, tenant), place)])
        return cache, place

    def layout(self, _world, phase, _tenant):
        rng = self.rng
        size = self.one(phase.sizes) if self.is_right(phase, 0.85) else rng.randrange(1, 4097)
        size = size if self.is_right(phase, 0.95) else self.one(WRONG_OBJECTS)
        alignment = self.one(phase.alignments) if self.is_right(phase, 0.95) else self.one(WRONG_ALIGNMENTS)
        return f'{size} {alignment} {rng.randbytes(self.one([1, 1, 2, 3, 7, 16])).hex()}'

    def range(self, world, tenant):
        """Returns a place and a number of bytes for a read or write, often at the edges of a live block or object."""
        chance = self.random()
        if chance < 0.15 and tenant.written:
            return self.one(tenant.written)
        length = self.one(LENGTHS)
        if chance < 0.25 and world.offsets and tenant.slots.keys:
            # an offset in a superblock at which some tenant has written
            place = self.one(tenant.slots.keys) * (FRAME_BYTES << world.sizes.order) + self.one(world.offsets)
        elif chance < 0.28 or not tenant.pages.keys and not tenant.objects.keys:
            place = self.one([0, MAX_NUMBER, MAX_NUMBER - length + 1, MAX_NUMBER - length + 2, self.one(EDGES)])
        else:
            begin, size = self.block(tenant)
            length = min(length, size) if self.random() < 0.9 else length
            place = begin + self.at(size, length)
        return min(max(place, 0), MAX_NUMBER), length

    def block(self, tenant):
        """Returns the first place of a block or an object, and its size in bytes."""
        if tenant.pages.keys and (not tenant.objects.keys or self.random() < 0.5):
            frame = self.one(tenant.pages.keys)
            return FRAME_BYTES * frame, FRAME_BYTES << tenant.pages.get(frame)
        place = self.one(tenant.objects.keys)
        return place, tenant.caches.get(tenant.objects.get(place), Cache()).size

    def at(self, size, length):
        """Returns the offset of a range of `length` bytes from the first place of a block or an object of `size` bytes."""
        rng = self.rng
        chance, last = rng.random(), max(size - length, 0)
        if chance < 0.2:
            return 0
        if chance < 0.42:
            return last                                         # ends at the block's end
        if chance < 0.52:
            return last + 1                                     # ends one byte past it
        if chance < 0.62:
            # begins right behind the block or one byte before it, ends right before it, or crosses its end or its beginning
            return self.one([size, -1, -length, size - rng.randint(1, length), -rng.randint(1, length)])
        if chance < 0.8:
            # begins at the boundary of two frames, crosses it, or ends there
            return FRAME_BYTES * rng.randrange(size // FRAME_BYTES + 1) - self.one([0, length // 2, length])
        return rng.randrange(last + 1)


# What makes a command of tenants.
MADE = {'alloc': Maker.alloc, 'free': Maker.free, 'read': Maker.read, 'write': Maker.write, 'cache': Maker.make,
        'destroy': Maker.destroy, 'take': Maker.take, 'give': Maker.give, 'reap': Maker.reap, 'report': Maker.report}
