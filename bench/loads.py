"""The loads of the benchmark: what tenants request, one batch of lines after the other.

A load never models the allocator. It talks to the program while the trace is made: later lines name the frames and places of
earlier replies. So a trace names blocks and objects that exist, and can be run again at full speed.
"""
import random

# How many bytes an object of a tenant's cache has, by the number of the cache.
SIZES = (16, 24, 64, 100, 256, 500, 1000, 2000, 3000)
# The number of the cache whose objects have the size of a frame. Only `mixed` makes it, after the caches of SIZES.
WHOLE = len(SIZES)
BATCH = 256


class Tenant:
    """What a tenant holds, according to the replies."""

    def __init__(self, number, slots, order):
        self.number, self.slots, self.frames = number, slots, slots << order
        self.blocks, self.objects, self.used = [], [], 0

    def drop(self, held, draw):
        """Removes a random item of the list `held`, and returns it."""
        at = draw.randrange(len(held))
        held[at], held[-1] = held[-1], held[at]
        return held.pop()


def grants(superblocks, tenants):
    """Returns lines that grant the superblocks to the tenants in turn."""
    return [f'admin grant {m % tenants}' for m in range(superblocks)]


def caches(draw, tenants):
    """Returns lines with which each tenant makes a cache of every size. The patterns of the objects have 1, 4 or 8 bytes."""
    return [f'{t} cache {size} 8 {draw.randbytes(draw.choice((1, 4, 8))).hex()}' for t in range(tenants) for size in SIZES]


def alloc(draw, tenant):
    """Allocates a block, mostly a small one."""
    order = draw.choices((0, 1, 2, 3), (8, 4, 2, 1))[0]
    return tenant, f'{tenant.number} alloc {order}', order


def free(draw, tenant):
    frame, order = tenant.drop(tenant.blocks, draw)
    tenant.used -= 1 << order
    return tenant, f'{tenant.number} free {frame}', None


def take(tenant, cache):
    return tenant, f'{tenant.number} take {cache}', cache


def give(draw, tenant):
    cache, place = tenant.drop(tenant.objects, draw)
    return tenant, f'{tenant.number} give {cache} {place}', None


def pages(draw, tenants):
    """Allocates and frees blocks of order 0 to 3, mostly small ones, at random. They fill about half of each tenant's frames."""
    for tenant in draw.choices(tenants, k=BATCH):
        if draw.random() < (.6 if tenant.used < tenant.frames // 2 else .4) or not tenant.blocks:
            yield alloc(draw, tenant)
        else:
            yield free(draw, tenant)


def objects(draw, tenants):
    """Takes and gives objects of all sizes, and reaps in one of 2,000 lines. Each tenant has about half as many live objects as
    frames."""
    for tenant in draw.choices(tenants, k=BATCH):
        if draw.random() < .0005:
            yield tenant, f'{tenant.number} reap', None
        elif draw.random() < (.6 if len(tenant.objects) < tenant.frames // 2 else .4) or not tenant.objects:
            yield take(tenant, draw.randrange(len(SIZES)))
        else:
            yield give(draw, tenant)


def scattered(draw, tenants):
    """Takes objects of 256 to 1000 bytes until they use most frames, and gives back random ones. This leaves each of the three
    caches many partial slabs."""
    for tenant in draw.choices(tenants, k=BATCH):
        if draw.random() < (.9 if len(tenant.objects) < tenant.frames * 5 else .5) or not tenant.objects:
            yield take(tenant, draw.choice((4, 5, 6)))
        else:
            yield give(draw, tenant)


def transfers(draw, tenants):
    """Reads or writes 1 to 64 bytes in live objects and blocks. In two of three reads and writes the length is 1 or 64, or the
    size of the object if that is less than 64."""
    for tenant in draw.choices(tenants, k=BATCH):
        if len(tenant.objects) < 20:
            yield take(tenant, draw.randrange(len(SIZES)))
        elif len(tenant.blocks) < 20:
            yield tenant, f'{tenant.number} alloc 0', 0
        else:
            room, place = draw.choice([(4096, 4096 * draw.choice(tenant.blocks)[0]), object_of(draw.choice(tenant.objects))])
            count = min(room, draw.choice((1, 64, draw.randint(1, 64))))
            at = place + draw.randint(0, room - count)
            if draw.random() < .5:
                yield tenant, f'{tenant.number} read {at} {count}', None
            else:
                yield tenant, f'{tenant.number} write {at} {draw.randbytes(count).hex()}', None


def mixed(draw, tenants):
    """Mixes blocks and objects. Three in ten of the objects fill a frame, so their slabs are full or empty."""
    for tenant in draw.choices(tenants, k=BATCH):
        few = len(tenant.objects) + tenant.used < tenant.frames // 2
        if draw.random() < (.55 if few else .4) or not tenant.objects or not tenant.blocks:
            if draw.random() < .5:
                yield alloc(draw, tenant)
            else:
                yield take(tenant, WHOLE if draw.random() < .31 else draw.randrange(len(SIZES)))
        elif draw.random() < .5:
            yield free(draw, tenant)
        else:
            yield give(draw, tenant)


FAULTS = ('frobnicate 1', '{} alloc', '{} allot 1', '{} free x', '{} write 0 0', '{} alloc 0 0', '{} take 12345678901', '{} alloc 9')


def faulty(draw, tenants):
    """Puts behind each line of `pages` a line that is no command, or one that is refused."""
    for line in pages(draw, tenants):
        yield line
        tenant = draw.choice(tenants)
        yield tenant, draw.choice(FAULTS).format(tenant.number), None


def administered(draw, tenants):
    """Puts behind every seventh line of `pages` a line that moves a slot of a tenant."""
    holders = [tenant for tenant in tenants if tenant.slots]
    for at, line in enumerate(pages(draw, tenants)):
        yield line
        if at % 7 == 6:
            tenant = draw.choice(holders)
            yield tenant, f'admin move {tenant.number} {draw.randrange(tenant.slots)}', None


def object_of(held):
    cache, place = held
    return SIZES[cache], place


LOADS = {'pages': pages, 'objects': objects, 'scattered': scattered, 'transfers': transfers, 'mixed': mixed, 'faulty': faulty,
         'administered': administered}
# bench/run --library leaves out these loads: malloc and free have nothing like their faulty lines and moves.
LINES_ALONE = ('faulty', 'administered')
# bench/run --library measures these loads a second time, in which all bytes of a block or an object are stored when it is taken,
# and loaded before it is given back.
USED = ('pages', 'objects')


def make(name, ask, lines, order, superblocks, tenants, seed=1):
    """Returns all lines of a load. `ask` runs some lines and returns the replies, one for each line."""
    draw = random.Random(f'{name} {seed}')
    # One superblock is left without an owner, so that slots can be moved to it.
    granted = superblocks - 1 if name == 'administered' else superblocks
    made = grants(granted, tenants) + caches(draw, tenants)
    if name == 'mixed':
        made += [f'{t} cache 4096 8 00' for t in range(tenants)]
    ask(made)
    holders = [Tenant(t, (granted - t + tenants - 1) // tenants, order) for t in range(tenants)]
    while len(made) < lines:
        batch = list(LOADS[name](draw, holders))
        for (tenant, line, kind), reply in zip(batch, ask([line for _, line, _ in batch])):
            words = reply.split()
            if words[1] == 'frame':
                tenant.blocks.append((int(words[2]), kind))
                tenant.used += 1 << kind
            elif words[1] == 'object':
                tenant.objects.append((kind, int(words[2])))
        made += [line for _, line, _ in batch]
    return made[:lines]
