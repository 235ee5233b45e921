"""Plans loads. A load has a machine and phases of lines. Most loads have small machines, and some have the widest."""
import random
from typing import NamedTuple

from .maker import ALIGNMENTS, MAX_CACHES, OBJECTS, Goal, Phase
from .words import MAX_ORDER, Sizes

MAX_SUPERBLOCKS, MAX_TENANTS = 256, 64
# How many lines are sent before the first of their replies is read.
AT_ONCE = 64

ALL = 'alloc 20 free 16 read 12 write 12 take 24 give 16 cache 6 destroy 3 reap 3 report 3 ' \
      'grant 6 takeback 4 move 3 reset 1 pool 1 fault 2'
FILL = 'alloc 12 take 12 cache 1 write 4 read 2 free 1 give 1 grant 2'
FILL_PAGES, FILL_OBJECTS = 'alloc 30 write 2 read 1', 'take 30 cache 1 write 2 read 1'
DRAIN = 'free 12 give 12 read 1 takeback 1 report 1'
CHURN = 'alloc 10 free 10 take 10 give 10 read 3 write 3 reap 1 report 1 move 1'
EDGES = 'read 12 write 8 alloc 4 free 3 take 3 give 3 destroy 1 takeback 1 move 1'
PROBE = 'takeback 6 alloc 6 take 3 read 4 write 2 move 2 report 2 grant 2 pool 1 reap 1 destroy 1'
MOVES = 'move 1 read 4'
GRANTS, RETURNS = 'grant 1', 'takeback 6 reset 1 grant 2 report 1 pool 1 move 1'
CACHES = 'cache 12 destroy 1 take 3'
# Commands that are refused or change no count, sent while a count is at an edge.
HOLD = 'takeback 4 destroy 4 report 2 read 2 write 1 pool 1 reap 1'
# Reports, with mostly refused commands between them. Two reports have to be the same if all commands between them are refused.
QUIET = 'report 4 alloc 3 takeback 1 read 1'
TAKE, GIVE, ALLOC, FREE = 'take 1', 'give 1', 'alloc 1', 'free 1'
# Counts around the least that does not fit into a byte.
EDGES_OF_COUNTS = 255, 256, 257
# Order and number of superblocks of the machines that one tenant fills.
ALONE = [(8, 1), (8, 16), (8, MAX_SUPERBLOCKS), (8, MAX_SUPERBLOCKS), (7, MAX_SUPERBLOCKS), (6, 3)]
# Ranks of slots around the ends of bitmaps of 32, 64, 128 and 256 bits; -1 is the highest slot.
RANKS = 0, 1, 31, 32, 62, 63, 64, 65, 127, 128, 254, 255, -1


# The kinds of twelve loads, and those of twelve heavy loads. Heavy loads are numbered from FIRST_HEAVY, so that their kinds
# change no line of other loads. A run has one of them after each BETWEEN_HEAVY others.
KINDS = ('small', 'alone', 'slabs', 'life', 'small', 'slots', 'small', 'alone', 'objects', 'medium', 'one_cache', 'wide')
HEAVY = ('many_blocks', 'many_caches', 'rounds', 'many_slabs', 'many_objects', 'many_blocks', 'many_caches', 'many_frees',
         'many_blocks', 'many_objects', 'rounds', 'many_blocks')
FIRST_HEAVY, BETWEEN_HEAVY = 1_000_000, 24
# Kinds of loads that need caches. A program without caches gets small loads instead.
WITH_CACHES = 'slabs', 'objects', 'one_cache', 'many_caches', 'many_slabs', 'many_objects'
# About how long a load of each kind takes: its mean number of lines with those of the noisy run, and 500 more for the start of
# the programs. A line of a heavy load takes less time, so for a heavy load this is how many lines of others take as long.
COSTS = {'small': 800, 'alone': 5500, 'slabs': 10000, 'life': 12500, 'slots': 4500, 'objects': 6000, 'medium': 3400,
         'one_cache': 8800, 'wide': 2500, 'many_blocks': 4000, 'many_caches': 8000, 'rounds': 12000, 'many_slabs': 15000,
         'many_objects': 4500, 'many_frees': 25000}


class Plan(NamedTuple):
    sizes: Sizes
    phases: list
    at_once: int = AT_ONCE
    compared: tuple = ()                                        # the tenants whose own lists are run again; if none, one is drawn


def granting(sizes, tenants):
    """Returns a phase that grants all superblocks. Some of its lines name a tenant that does not exist."""
    return Phase(sizes.superblocks * 9 // 8 + 40, GRANTS, tenants, [0], until='full')


def granting_all_but_one(sizes, tenants):
    """Returns a phase that grants all superblocks but one, so that a slot can be moved. If there is only one, it is granted."""
    return granting(sizes, tenants)._replace(goal=Goal('slots', max(sizes.superblocks - 1, 1)))


class Planner:
    """Draws plans. A size in `fixed` that is not None is the size of each machine."""

    def __init__(self, seed, number, fixed, with_caches):
        self.seed, self.number, self.fixed, self.with_caches = seed, number, fixed, with_caches
        self.rng = random.Random(f'{seed} {number}')

    def machine(self, orders, superblocks, tenants):
        drawn = [self.rng.choice(choices) for choices in (orders, superblocks, tenants)]
        return Sizes(*(drawn if fixed is None else fixed for fixed, drawn in zip(self.fixed, drawn)))

    def in_turn(self, choices, each):
        """Returns one of the choices for a load of a kind. One load in `each` is of this kind, and these loads get the choices in
        turn. The order of the choices depends on the seed."""
        shuffled = random.Random(f'{self.seed}').sample(choices, len(choices))
        return shuffled[self.number // each % len(choices)]

    def orders(self, sizes):
        """Returns the orders from which a phase draws: mostly small ones, or all, or one alone."""
        every = list(range(sizes.order + 1))
        return self.rng.choice([[0, 0, 0, 1, 1, 2, 3, sizes.order], [0, 0, 1, 2], every, [self.rng.choice(every)]])

    def small(self):
        sizes = self.machine([3, 3, 3, 4, 5], [1, 2, 3, 4, 6, 8], [1, 2, 2, 3, 4])
        lines, everyone = self.rng.choice([40, 120, 240]), list(range(sizes.tenants))
        orders = [0, 0, 0, 1, 1, 2, 3, sizes.order]
        phases = [Phase(lines, ALL, everyone, orders)]
        if self.rng.random() < 0.3:
            phases = [Phase(lines // 2, ALL, everyone, orders), Phase(lines // 2, EDGES, everyone, orders)]
        return Plan(sizes, phases, self.rng.choice([1, 1, 4, 8]))

    def medium(self):
        sizes = self.machine(range(3, MAX_ORDER + 1), [2, 4, 8, 16, 32, 64], [1, 2, 3, 5, 8, 16])
        everyone = list(range(sizes.tenants))
        return Plan(sizes, [Phase(200, ALL, everyone, self.orders(sizes)), *self.phases(sizes, everyone, 800)])

    def life(self, lines=5000):
        """Returns a plan of many lines, so that one process of the program runs for a long time."""
        sizes = self.machine([3, 3, 4, 5, 6], [2, 3, 4, 6, 12], [1, 2, 3, 4])
        return Plan(sizes, self.phases(sizes, list(range(sizes.tenants)), lines))

    def phases(self, sizes, everyone, lines):
        phases = []
        while lines > 0:
            some = everyone if self.rng.random() < 0.6 else [self.rng.choice(everyone)]
            orders, count = self.orders(sizes), self.rng.choice([100, 200, 400])
            phases += self.rng.choice([
                [Phase(count, ALL, some, orders)], [Phase(2 * count, CHURN, some, orders)],
                [Phase(count // 4, EDGES, some, orders)], [Phase(12, QUIET, some, [sizes.order])],
                [Phase(count, FILL, some, orders, until='full'), Phase(40, PROBE, some, list(range(sizes.order + 1)))],
                [Phase(count, DRAIN, some, orders, until='empty'), Phase(20, FILL_PAGES, some, [sizes.order], until='full'),
                 Phase(20, RETURNS, some, orders)]])
            lines -= phases[-1].lines
        return phases

    def alone(self):
        """Returns a plan in which one tenant holds everything. On the widest machine its blocks and superblocks reach 2^8, and
        its frames 2^16."""
        order, superblocks = self.in_turn(ALONE, 6)
        sizes = self.machine([order], [superblocks], [1, 2, 3])
        least = max(sizes.order - (10 - (sizes.superblocks - 1).bit_length()), 0)
        order = self.rng.choice([least, sizes.order])
        owner = [self.rng.randrange(sizes.tenants)]
        noun = self.rng.choice(['frames', 'frames', 'blocks'])
        return Plan(sizes, self.whole(sizes, owner, order, FILL_PAGES, self.around(EDGES_OF_COUNTS, noun, owner, order)))

    def whole(self, sizes, owner, order, fill, edges):
        """Returns phases in which one tenant gets all superblocks, sends the phases `edges`, fills the superblocks, and gives
        everything back."""
        blocks, every = sizes.superblocks << sizes.order - order, list(range(sizes.order + 1))
        most = 2 * blocks + 40
        reset = [Phase(1, 'reset 1', owner, every, is_plain=True), granting(sizes, owner)]
        fill_up = [Phase(2 * sizes.superblocks + 10, ALLOC, owner, [sizes.order], until='full'), Phase(40, PROBE, owner, every)]
        return [granting(sizes, owner), *reset, *edges, Phase(most, fill, owner, [order], until='full'),
                Phase(20, HOLD, owner, every), Phase(60, PROBE, owner, every), Phase(100, CHURN, owner, every),
                Phase(60, EDGES, owner, every), Phase(most, DRAIN, owner, every, until='empty'), *fill_up,
                *([*reset, *fill_up] if self.rng.random() < 0.5 else []),
                Phase(2 * sizes.superblocks + 20, DRAIN, owner, every, until='empty'), Phase(60, RETURNS, owner, every)]

    def around(self, counts, noun, owner, order=0):
        """Returns phases that reach exactly these counts, upwards and then downwards. At each count they send commands that are
        refused or change no count."""
        up, down = (TAKE, GIVE) if noun == 'objects' else (ALLOC, FREE)
        # blocks as large as possible, then single frames
        orders = sorted({order, 0}, reverse=True) if noun == 'frames' else [order]
        phases = []
        for at, count in enumerate([*counts, *counts[-2::-1]]):
            goal = count if isinstance(count, Goal) else Goal(noun, count)
            does = up if at < len(counts) else down
            phases += [Phase(2 * MAX_SUPERBLOCKS, does, owner, [each], until='full', goal=goal, is_plain=True)
                       for each in orders]
            phases.append(Phase(15, HOLD, owner, [order]))
        return phases

    def wide(self):
        sizes = self.machine([8, 8, 7], [MAX_SUPERBLOCKS], [MAX_TENANTS])
        everyone = list(range(sizes.tenants))
        return Plan(sizes, [granting(sizes, everyone), Phase(600, ALL, everyone, self.orders(sizes)),
                            Phase(300, FILL, everyone, [sizes.order], until='full'),
                            Phase(300, PROBE, everyone, [0, sizes.order]),
                            Phase(300, DRAIN, everyone, [0], until='empty'), Phase(100, RETURNS, everyone, [0])])

    def objects(self):
        """Returns a plan in which the number of objects crosses 2^8, and a tenant has as many caches as it can have."""
        sizes = self.machine([3, 4, 6, 8], [1, 2, 4, 8], [1, 2])
        owner = [self.rng.randrange(sizes.tenants)]
        few = [self.rng.choice([1, 8, 16, 24, 64, self.rng.choice(OBJECTS)])]
        return self.of_caches(sizes, owner, [self.cache(owner, few)] * 4, self.around(EDGES_OF_COUNTS, 'objects', owner))

    def one_cache(self):
        """Returns a plan in which a number crosses 2^8: the objects of a cache, which may all fit into one slab, or the slabs of
        a cache whose objects have the size of a frame."""
        size = self.in_turn([8, 16, 4096, 4096], 12)
        sizes = self.machine(*([8], [8]) if size == 4096 else ([3, 4, 6, 8], [2, 4, 8]), [1, 2])
        owner = [self.rng.randrange(sizes.tenants)]
        counts = [Goal('objects', 0, slabs) for slabs in EDGES_OF_COUNTS] if size == 4096 else EDGES_OF_COUNTS
        edges = self.around(counts, 'objects', owner)
        return self.of_caches(sizes, owner, [self.cache(owner, [size], [8])], edges)

    def cache(self, owner, sizes, alignments=ALIGNMENTS):
        return Phase(1, 'cache 1', owner, [0], sizes, alignments, is_plain=True)

    def of_caches(self, sizes, owner, caches, edges):
        every = list(range(sizes.order + 1))
        return Plan(sizes, [granting_all_but_one(sizes, owner), *caches, *edges,
                            Phase(1200, FILL_OBJECTS, owner, every, until='full'), Phase(60, MOVES, owner, every),
                            Phase(60, PROBE, owner, every),
                            Phase(200, CHURN, owner, every), Phase(12, QUIET, owner, [sizes.order]),
                            Phase(2 * MAX_CACHES, CACHES, owner, every), Phase(1200, DRAIN, owner, every, until='empty'),
                            Phase(40, PROBE, owner, every), Phase(100, ALL, owner, every), Phase(40, RETURNS, owner, every)])

    def slabs(self):
        """Returns a plan in which slabs get as many objects as fit into them, and one less and one more."""
        sizes = self.machine([3, 3, 4, 5, 6, 8], [1, 2, 3, 4, 8], [1, 2])
        owner, every = [self.rng.randrange(sizes.tenants)], list(range(sizes.order + 1))
        phases = [granting_all_but_one(sizes, owner)]
        for size in self.rng.sample(OBJECTS, 3):
            full = self.rng.choice([1, 2, 3, 4])
            counts = [Goal('objects', more, slabs) for slabs in (1, full) for more in (-1, 0, 1)]
            phases += [self.cache(owner, [size]), *self.around(counts, 'objects', owner),
                       Phase(20, EDGES, owner, every), Phase(12, QUIET, owner, [sizes.order]),
                       Phase(800, GIVE, owner, every, goal=Goal('objects'), is_plain=True), Phase(8, PROBE, owner, every),
                       Phase(4, 'destroy 1', owner, every)]
        return Plan(sizes, phases)

    def slots(self):
        """Returns a plan in which all slots are full except a low and a high one. Blocks or slabs fill these, and leave them
        again."""
        sizes = self.machine([3, 3, 3, 4, 5], [64, 65, 66, 66, 96, 129, 255, MAX_SUPERBLOCKS], [1, 1, 2, 64])
        owner, every = [self.rng.randrange(sizes.tenants)], list(range(sizes.order + 1))
        fill = Phase(2 * sizes.superblocks, ALLOC, owner, [sizes.order], until='full', is_plain=True)
        phases = [granting(sizes, owner)]
        ranks = [rank for rank in RANKS if rank < sizes.superblocks]
        for _ in range(4):
            low, high = self.rng.choice(ranks[:-1]), self.rng.choice(ranks[len(ranks) // 2:])
            size = self.rng.choice([4096, 4096, 2048, 1000, 512])
            phases += [fill, *(Phase(1, FREE, owner, every, is_plain=True, rank=rank) for rank in (low, high))]
            if self.with_caches and self.rng.random() < 0.7:
                phases += [self.cache(owner, [size]),
                           Phase(1200, TAKE, owner, every, until='full', is_plain=True)]
            else:
                phases.append(Phase(600, ALLOC, owner, every[:-1], until='full', is_plain=True))
            for rank in self.rng.sample([low, high], 2):
                phases += [Phase(1200, GIVE, owner, every, goal=Goal('objects'), is_plain=True, rank=rank),
                           Phase(600, FREE, owner, every, goal=Goal('blocks'), is_plain=True, rank=rank),
                           Phase(self.rng.choice([0, 0, 6]), PROBE, owner, every, rank=rank),
                           Phase(2, ALLOC, owner, [sizes.order], is_plain=True)]
        return Plan(sizes, phases)

    def longest(self):
        """Returns a plan of at least 100,000 lines. On the widest machine a tenant has 2^16 blocks, or about 2^16 objects of 8 or
        of 4,096 bytes."""
        sizes = self.machine([MAX_ORDER], [MAX_SUPERBLOCKS], [1, 2, 3])
        owner = [self.rng.randrange(sizes.tenants)]
        size = self.in_turn([8, 4096, None, None], 2) if self.with_caches else None
        if size:
            fill = [self.cache(owner, [size], [8]), Phase(78000, FILL_OBJECTS, owner, [0], [size], 'full')]
            return Plan(sizes, self.whole(sizes, owner, sizes.order, TAKE, fill))
        fill = Phase((2 << sizes.order) * sizes.superblocks, FILL_PAGES, owner, [0], until='full', is_plain=True)
        return Plan(sizes, self.whole(sizes, owner, 0, ALLOC, [fill]))

    def plan(self, is_long):
        if is_long:
            return [self.longest, lambda: self.life(100000)][self.number % 2]()
        return getattr(self, kind_of(self.number, self.with_caches))()


def kind_of(number, with_caches):
    """Returns the kind of a load, which is a function of Planner or of heavy.Planner."""
    kinds = KINDS if number < FIRST_HEAVY else HEAVY
    kind = kinds[(number - FIRST_HEAVY if number >= FIRST_HEAVY else number) % len(kinds)]
    return 'small' if kind in WITH_CACHES and not with_caches else kind


def numbers_of(count):
    """Returns the numbers of the loads of a run of `count` loads."""
    heavy = [at // (BETWEEN_HEAVY + 1) for at in range(count)]
    return [FIRST_HEAVY + before if (at + 1) % (BETWEEN_HEAVY + 1) == 0 else at - before for at, before in enumerate(heavy)]
