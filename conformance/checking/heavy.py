"""Plans heavy loads, in which numbers get large: of the blocks, caches, slabs or empty slabs of all tenants or of one, or of what
one run of the program has done. One tenant has few lines, and goes on whenever the others have reached something."""
from . import plans
from .maker import MAX_CACHES, Goal, Phase
from .plans import ALL, ALLOC, FREE, GIVE, GRANTS, MAX_SUPERBLOCKS, MAX_TENANTS, TAKE, Plan

# Counts around 2^10, 2^11 and 2^12, and more lines than a phase needs to reach one of them. An allocator that searches all blocks
# would take too long for more.
EDGES_OF_MANY = tuple((1 << power) + more for power in (10, 11, 12) for more in (-1, 0, 1))
MANY_LINES = 20000
# How many slots the tenant of few lines gets. Order and superblocks of machines that have 4,097 frames besides these slots, and
# of one that has room for 4,097 slabs of four frames.
FEW_SLOTS = 3
OF_FRAMES, OF_SLABS = [(8, 21), (7, 37), (6, 69), (5, 133)], (8, 72)
# How many slabs each of the other tenants gets. Of 63 tenants these are more than 2,048.
SLABS_OF_EACH = 34
# In a long life, how many lines a round has. In ROUNDS rounds of LIVE at least 10,000 blocks are allocated, and in FREE_ROUNDS
# rounds of FREES at least 65,536 are freed.
IN_A_ROUND, ROUNDS, FREE_ROUNDS = 1000, 30, 126
LIVE = 'alloc 24 free 24 take 6 give 6 read 2 write 2 cache 1 destroy 1 report 1 reap 1 move 1'
FREES = 'alloc 1 free 1'
# Commands that are refused, change no count, or take back slots without blocks.
HOLD = 'takeback 4 destroy 4 report 2 read 2 write 1 reap 1'
# After how many rounds the tenant of few lines goes on.
ROUNDS_BETWEEN = 6


def plain(count, weights, tenant, **more):
    return Phase(count, weights, [tenant], [0], is_plain=True, **more)


def towards(goal, weights, tenant):
    """Returns a phase in which a tenant reaches a goal, if it can."""
    return plain(MANY_LINES, weights, tenant, goal=goal, until='stuck')


def emptied(tenant, noun, goal=Goal('')):
    """Returns a phase in which a tenant frees blocks or gives objects back, until it has at most as many as the goal, or none."""
    return towards(goal._replace(noun=noun, is_most=True), GIVE if noun == 'objects' else FREE, tenant)


class Planner(plans.Planner):
    """Draws plans of all kinds of loads."""

    def one_and_others(self, sizes):
        """Returns the tenant that has few lines, and the others. If there are no others, it has all lines."""
        one, *others = self.rng.sample(range(sizes.tenants), sizes.tenants)
        return one, others or [one]

    def grants(self, sizes, one, others):
        """Returns phases that grant all superblocks but one, so that a slot can be moved."""
        left = max(sizes.superblocks - FEW_SLOTS - 1, 1)
        return [plain(FEW_SLOTS, GRANTS, one), plain(left, GRANTS, one)._replace(tenants=others)]

    def between(self, sizes, one, *stages):
        """Returns the phases of these stages. After each of them the tenant of few lines goes on."""
        every = list(range(sizes.order + 1))
        goes_on = [towards(Goal('slots', FEW_SLOTS), GRANTS, one), Phase(80, ALL, [one], every),
                   Phase(30, 'take 6 cache 1', [one], every), emptied(one, 'objects'), *self.reaped([one])]
        return [phase for stage in stages for phase in [*stage, *goes_on]]

    def reaped(self, tenants):
        return [Phase(2, 'report 1', tenants, [0]), Phase(1, 'reap 1', tenants, [0]), Phase(2, 'report 1', tenants, [0])]

    def crossing(self, sizes, noun, tenant, counts):
        """Returns two stages. A tenant reaches exactly these counts, upwards and then downwards, and in the end 0. At each count
        it sends commands that are refused or change no count, and then gets the slots again that these took back."""
        slots = Goal('slots', max(sizes.superblocks - FEW_SLOTS - 1, 1))
        hold = [Phase(15, HOLD, [tenant], [0]), towards(slots, GRANTS, tenant)]
        up, down, more = [], [], TAKE if noun == 'objects' else ALLOC
        for goal in counts:
            up += [towards(goal, more, tenant), *hold]
            down = [emptied(tenant, noun, goal), *hold, *down]
        return up, [*down, emptied(tenant, noun)]

    def many_blocks(self):
        """Returns a plan in which other tenants have 4,097 blocks of a frame: one tenant alone, or three together."""
        order, superblocks = self.rng.choice(OF_FRAMES)
        sizes = self.machine([order], [superblocks], [2, 2, 2, 4])
        one, others = self.one_and_others(sizes)
        up, down = self.crossing(sizes, 'blocks', others[0], [Goal('blocks', count) for count in EDGES_OF_MANY])
        if len(others) > 1:
            up = [plain(MANY_LINES, ALLOC, other, until='full') for other in others]
            down = [emptied(other, 'blocks') for other in others]
        phases = self.between(sizes, one, self.grants(sizes, one, others), up, down)
        return Plan(sizes, phases, compared=(one, others[0]))

    def many_objects(self):
        return self.of_one_cache([3, 4, 5], [16], [8], [Goal('objects', count) for count in EDGES_OF_MANY])

    def many_slabs(self):
        order, superblocks = OF_SLABS
        return self.of_one_cache([order], [superblocks], [4096], [Goal('objects', 0, slabs) for slabs in EDGES_OF_MANY])

    def of_one_cache(self, orders, superblocks, size, counts):
        """Returns a plan in which another tenant has as many objects of a cache as these counts, and then as many empty slabs."""
        sizes = self.machine(orders, superblocks, [2])
        one, others = self.one_and_others(sizes)
        owner = others[0]
        up, down = self.crossing(sizes, 'objects', owner, counts)
        before = [*self.grants(sizes, one, others), self.cache([owner], size, [8])]
        phases = self.between(sizes, one, before, up, [*down, plain(1, 'report 1', owner)], self.reaped([owner]))
        return Plan(sizes, phases, compared=(one, owner))

    def many_caches(self):
        """Returns a plan in which all other tenants have all caches that they can have, then more than 2,048 slabs, and then as
        many empty slabs."""
        sizes = self.machine([6], [MAX_SUPERBLOCKS], [MAX_TENANTS])
        one, others = self.one_and_others(sizes)
        slots = max((sizes.superblocks - FEW_SLOTS) // len(others), 1)
        grants = [plain(FEW_SLOTS, GRANTS, one), *(plain(slots, GRANTS, other) for other in others)]
        caches = [phase for other in others
                  for phase in (plain(MAX_CACHES - 1, 'cache 1', other), self.cache([other], [4096], [8]))]
        slabs = [towards(Goal('objects', 0, SLABS_OF_EACH), TAKE, other) for other in others]
        reports = Phase(len(others), 'report 1', others, [0])
        empty = [*(emptied(other, 'objects') for other in others), reports]
        phases = self.between(sizes, one, grants, caches, slabs, empty, [reports, *self.reaped(others)])
        return Plan(sizes, phases, compared=(one, *self.rng.sample(others, min(3, len(others)))))

    def rounds(self):
        return self.of_rounds(LIVE, ROUNDS)

    def many_frees(self):
        return self.of_rounds(FREES, FREE_ROUNDS)

    def of_rounds(self, weights, count):
        """Returns a plan of a long life: this many rounds of the other tenants."""
        sizes = self.machine([4, 5], [8, 10], [2, 3])
        one, others = self.one_and_others(sizes)
        stages = [[phase for _ in range(ROUNDS_BETWEEN) for phase in self.round_of(sizes, others, weights)]
                  for _ in range(count // ROUNDS_BETWEEN)]
        phases = self.between(sizes, one, self.grants(sizes, one, others), *stages)
        return Plan(sizes, phases, compared=(one,) if weights == FREES else (one, *others))

    def round_of(self, sizes, tenants, weights):
        """Returns the phases of a round. In its end each tenant frees everything, fills its slots with blocks of one order, and
        frees these."""
        is_plain = weights == FREES
        orders = [0] if is_plain else self.rng.choice([[0, 0, 0, 0, 1, 2], [0, 0, 1], [0]])
        phases = [Phase(IN_A_ROUND, weights, tenants, orders, is_plain=is_plain)]
        for tenant in tenants:
            order, free = self.rng.choice([0, sizes.order, sizes.order]), emptied(tenant, 'blocks')
            fill = plain(MANY_LINES, ALLOC, tenant, until='full')._replace(orders=[order])
            phases += [emptied(tenant, 'objects'), free, fill, free]
        return phases
