"""A plain machine: the rules of docs/ written down once more, independently of the code of crates/ and without regard to costs.

    machine = Machine(order, superblocks, tenants)
    replies = machine.answer(line)
"""
import re

FRAME_BYTES, RECORD_BYTES = 4096, 32
MAX_LINE, MAX_NUMBER, MAX_BYTES, MAX_PATTERN, MAX_SIZE, MAX_CACHES = 255, 4294967295, 64, 16, 4096, 32
ALIGNMENTS = [8, 16, 32, 64, 128, 256]
REFUSALS = ["NoFrames", "BadOrder", "NotABlock", "OutOfReach", "BadLength", "BadSize", "BadAlign", "NoCacheSlot", "NoCache"]
REFUSALS += ["CacheInUse", "NotAnObject", "NoTenant", "PoolEmpty", "NoSlot", "SlotBusy"]
# The commands of each actor, with the form of each argument: NUMBER, or the most bytes that its hex digits may give.
NUMBER = 0
ADMINISTRATOR = {"grant": [NUMBER], "takeback": [NUMBER, NUMBER], "reset": [NUMBER], "move": [NUMBER, NUMBER], "pool": []}
TENANT = {"alloc": [NUMBER], "free": [NUMBER], "read": [NUMBER, NUMBER], "write": [NUMBER, MAX_BYTES]}
TENANT |= {"cache": [NUMBER, NUMBER, MAX_PATTERN], "destroy": [NUMBER], "take": [NUMBER], "give": [NUMBER, NUMBER]}
TENANT |= {"reap": [], "report": []}


class Fault(Exception):
    """A faulty line, with the name of the fault."""


class Refused(Exception):
    """A refused command, with the name of the refusal. Nothing is changed before it is raised."""


def number_of(word):
    if not re.fullmatch("[0-9]{1,10}", word) or int(word) > MAX_NUMBER:
        raise Fault("Number")
    return int(word)


def bytes_of(word, most):
    if not re.fullmatch("([0-9a-fA-F]{2})+", word) or len(word) > 2 * most:
        raise Fault("Hex")
    return bytes.fromhex(word)


def command_of(line):
    """Returns the actor of a line, its command and its arguments; None for a blank line or a comment."""
    text = line.decode("latin-1").removesuffix("\r")
    if len(text) > MAX_LINE:
        raise Fault("Long")
    words = re.findall("[^ \t]+", text)
    if not words or words[0].startswith("#"):
        return None
    if words[0] != "admin" and not "0" <= words[0][0] <= "9":
        raise Fault("Unknown")
    actor = words[0] if words[0] == "admin" else number_of(words[0])
    if not words[1:]:
        raise Fault("Words")
    forms = (ADMINISTRATOR if actor == "admin" else TENANT).get(words[1])
    if forms is None:
        raise Fault("Unknown")
    if len(words[2:]) != len(forms):
        raise Fault("Words")
    return actor, words[1], [bytes_of(word, form) if form else number_of(word) for word, form in zip(words[2:], forms)]


class Cache:
    """A cache, with the layout of its slabs and the number of slabs that it has made."""

    def __init__(self, size, align, pattern):
        self.size, self.align, self.made = size, align, 0
        self.content = (size * pattern)[:size]
        self.chunk = max(-(-size // align) * align, 16)
        self.order, space = 0, FRAME_BYTES - RECORD_BYTES
        if self.chunk >= 512:
            self.order = next(k for k in range(4) if 8 * (FRAME_BYTES * 2**k % self.chunk) <= FRAME_BYTES * 2**k)
            space = FRAME_BYTES * 2**self.order
        self.objects = space // self.chunk
        self.colours = space % self.chunk // align + 1


class Slab:
    """A slab of a cache: the places of its objects in ascending order, and the set of the places of live objects."""

    def __init__(self, number, cache, first):
        begin = FRAME_BYTES * first + cache.align * (cache.made % cache.colours)
        self.number, self.cache, self.live = number, cache, set()
        self.places = [begin + cache.chunk * index for index in range(cache.objects)]

    def kind(self):
        return "empty" if not self.live else "full" if len(self.live) == len(self.places) else "partial"

    def has(self, place, length):
        return any(at <= place and place + length <= at + self.cache.size for at in self.live)


class Tenant:
    """A tenant's private machine: the bytes of each slot that it holds, the order of each page block by its first frame, each
    slab by its first frame, and each cache by its number."""

    def __init__(self, order):
        self.order, self.slots, self.pages, self.slabs, self.caches = order, {}, {}, {}, {}

    def blocks(self):
        """Returns the orders of all taken blocks, by first frame."""
        return {**self.pages, **{first: slab.cache.order for first, slab in self.slabs.items()}}

    def kinds(self):
        """Returns what each frame of the held slots is: free, in a page block, or in a full, partial or empty slab."""
        frames = {slot * 2**self.order + k: "free" for slot in self.slots for k in range(2**self.order)}
        for first, order in self.blocks().items():
            kind = self.slabs[first].kind() if first in self.slabs else "page"
            frames.update(dict.fromkeys(range(first, first + 2**order), kind))
        return frames

    def free_blocks(self, also=()):
        """Returns the order and first frame of each free block. Frames whose kind is in `also` count as free too."""
        taken = {frame for frame, kind in self.kinds().items() if kind not in ("free", *also)}
        found = []

        def halve(order, first):
            if taken.isdisjoint(range(first, first + 2**order)):
                found.append((order, first))
            elif order:
                halve(order - 1, first)
                halve(order - 1, first + 2 ** (order - 1))

        for slot in self.slots:
            halve(self.order, slot * 2**self.order)
        return found

    def choose(self, order):
        """Returns the first frame of the block that a request of this order gets. If no free block is large enough until
        the empty slabs are freed, frees all empty slabs first."""
        for also in (), ("empty",):
            fitting = [block for block in self.free_blocks(also) if block[0] >= order]
            if fitting:
                if also:
                    self.free_slabs(lambda slab: True)
                return min(fitting)[1]
        raise Refused("NoFrames")

    def free_slabs(self, is_meant):
        """Frees the empty slabs for which `is_meant` is true, and zeroes their bytes. Returns how many frames they had."""
        frames = 0
        for first, slab in list(self.slabs.items()):
            if is_meant(slab) and not slab.live:
                frames += 2**slab.cache.order
                self.store(FRAME_BYTES * first, bytes(FRAME_BYTES * 2**slab.cache.order))
                del self.slabs[first]
        return frames

    def store(self, place, content):
        slot, at = divmod(place, FRAME_BYTES * 2**self.order)
        self.slots[slot][at:at + len(content)] = content

    def check_reach(self, place, length):
        """Refuses a range that is not inside one page block or one live object."""
        frame = place // FRAME_BYTES
        around = [first for first, order in self.blocks().items() if first <= frame < first + 2**order]
        for first in around:
            end = FRAME_BYTES * (first + 2 ** self.pages.get(first, 0))
            if self.slabs[first].has(place, length) if first in self.slabs else place + length <= end:
                return
        raise Refused("OutOfReach")

    def cache_of(self, number):
        if number not in self.caches:
            raise Refused("NoCache")
        return self.caches[number]

    def alloc(self, order):
        if order > self.order:
            raise Refused("BadOrder")
        first = self.choose(order)
        self.pages[first] = order
        return f"frame {first}"

    def free(self, first):
        if first not in self.pages:
            raise Refused("NotABlock")
        return f"freed {self.pages.pop(first)}"

    def read(self, place, length):
        if not 1 <= length <= MAX_BYTES:
            raise Refused("BadLength")
        self.check_reach(place, length)
        slot, at = divmod(place, FRAME_BYTES * 2**self.order)
        return f"bytes {self.slots[slot][at:at + length].hex()}"

    def write(self, place, content):
        self.check_reach(place, len(content))
        self.store(place, content)
        return f"written {len(content)}"

    def cache(self, size, align, pattern):
        if not 1 <= size <= MAX_SIZE:
            raise Refused("BadSize")
        if align not in ALIGNMENTS:
            raise Refused("BadAlign")
        if len(self.caches) == MAX_CACHES:
            raise Refused("NoCacheSlot")
        number = min(set(range(MAX_CACHES)) - set(self.caches))
        its = self.caches[number] = Cache(size, align, pattern)
        return f"cache {number} chunk {its.chunk} order {its.order} objects {its.objects} colours {its.colours}"

    def destroy(self, number):
        self.cache_of(number)
        if any(slab.live for slab in self.slabs.values() if slab.number == number):
            raise Refused("CacheInUse")
        del self.caches[number]
        return f"destroyed {self.free_slabs(lambda slab: slab.number == number)}"

    def slab_with_free_object(self, number):
        """Returns the cache's partial slab with the least first frame, or else its empty slab with the least first frame, or else
        a new slab."""
        cache = self.cache_of(number)
        for kind in "partial", "empty":
            its = [first for first, slab in self.slabs.items() if slab.number == number and slab.kind() == kind]
            if its:
                return self.slabs[min(its)]
        first = self.choose(cache.order)
        slab = self.slabs[first] = Slab(number, cache, first)
        cache.made += 1
        for place in slab.places:
            self.store(place, cache.content)
        return slab

    def take(self, number):
        slab = self.slab_with_free_object(number)
        place = next(place for place in slab.places if place not in slab.live)
        slab.live.add(place)
        return f"object {place}"

    def give(self, number, place):
        self.cache_of(number)
        for slab in self.slabs.values():
            if slab.number == number and place in slab.live:
                slab.live.remove(place)
                return "given"
        raise Refused("NotAnObject")

    def reap(self):
        return f"reaped {self.free_slabs(lambda slab: True)}"

    def report(self):
        kinds, free_blocks = list(self.kinds().values()), self.free_blocks()
        free, top = kinds.count("free"), max(free_blocks, default=("none", 0))[0]
        split = 1000 - 1000 * 2**top // free if free else 0
        lines = [f"frames {len(kinds)} live {len(kinds) - free} free {free} top {top} split {split}"]
        for order in range(self.order + 1):
            its = [sum(k == order for k, _ in free_blocks), sum(k == order for k in self.blocks().values())]
            lines.append("order {} free {} taken {}".format(order, *its))
        for number in sorted(self.caches):
            its = [slab for slab in self.slabs.values() if slab.number == number]
            full, partial, empty = (sum(slab.kind() == kind for slab in its) for kind in ("full", "partial", "empty"))
            live = sum(len(slab.live) for slab in its)
            lines.append(f"cache {number} full {full} partial {partial} empty {empty} live {live}")
        return lines


class Machine:
    """The machine of all tenants: the owner of each superblock (a tenant and its slot, or None), and each tenant's private
    machine."""

    def __init__(self, order, superblocks, tenants):
        self.order, self.owners = order, [None] * superblocks
        self.tenants = [Tenant(order) for _ in range(tenants)]

    def answer(self, line):
        """Returns the reply lines to a line of a trace. The line is given without its LF."""
        try:
            said = command_of(line)
        except Fault as fault:
            return [f"!> fault {fault}"]
        if said is None:
            return []
        actor, command, arguments = said
        try:
            replies = getattr(self.actor(actor), command)(*arguments)
        except Refused as refused:
            nobody = actor != "admin" and actor >= len(self.tenants)
            replies, actor = f"refused {REFUSALS.index(str(refused)) + 1} {refused}", "!" if nobody else actor
        to = "!> " if actor == "!" else f"{actor}> "
        return [to + reply for reply in ([replies] if isinstance(replies, str) else replies)]

    def actor(self, actor):
        return self if actor == "admin" else self.tenant(actor)

    def tenant(self, number):
        if number >= len(self.tenants):
            raise Refused("NoTenant")
        return self.tenants[number]

    def least_superblock(self):
        if None not in self.owners:
            raise Refused("PoolEmpty")
        return self.owners.index(None)

    def superblock_of(self, number, slot):
        if slot not in self.tenant(number).slots:
            raise Refused("NoSlot")
        return self.owners.index((number, slot))

    def grant(self, number):
        slots, superblock = self.tenant(number).slots, self.least_superblock()
        slot = min(set(range(len(slots) + 1)) - set(slots))
        slots[slot] = bytearray(FRAME_BYTES * 2**self.order)
        self.owners[superblock] = number, slot
        return f"granted {number} slot {slot} superblock {superblock}"

    def takeback(self, number, slot):
        superblock, tenant = self.superblock_of(number, slot), self.tenants[number]
        if any(first >> self.order == slot for first in tenant.blocks()):
            raise Refused("SlotBusy")
        del tenant.slots[slot]
        self.owners[superblock] = None
        return f"taken superblock {superblock}"

    def reset(self, number):
        held = len(self.tenant(number).slots)
        self.tenants[number] = Tenant(self.order)
        self.owners = [None if owner and owner[0] == number else owner for owner in self.owners]
        return f"reset {number} superblocks {held}"

    def move(self, number, slot):
        old, new = self.superblock_of(number, slot), self.least_superblock()
        self.owners[old], self.owners[new] = None, (number, slot)
        return f"moved {number} slot {slot} superblock {new}"

    def pool(self):
        lines = [f"pool free {self.owners.count(None)} of {len(self.owners)}"]
        for superblock, owner in enumerate(self.owners):
            lines.append(f"superblock {superblock} " + ("tenant {} slot {}".format(*owner) if owner else "free"))
        return lines


def run(machine, trace):
    """Returns the replies to a trace, as bytes."""
    lines = trace.split(b"\n")
    replies = [reply for line in (lines if lines[-1] else lines[:-1]) for reply in machine.answer(line)]
    return "".join(f"{reply}\n" for reply in replies).encode()
