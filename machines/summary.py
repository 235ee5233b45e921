"""The summary that from-kmem and from-malloc print for each tenant on standard error. It says what the tenant used, then what it
requested, and then, by docs/capacity.md, how many superblocks are enough for any load that never has more blocks and objects at a
time than this tenant had."""
import collections
import sys

FRAME, MAX_SUPERBLOCKS = 4096, 256
MIN_BITS, MAX_COLUMNS = 4, 40    # the first row of sizes is up to 2^4 bytes; the longest bar has 40 columns


def plural(noun, count):
    return noun if count == 1 else noun + 's'


def visible(text):
    """Returns the text with each backslash, and each character that is not printable, escaped. So it is one line."""
    return ''.join(it if it.isprintable() and it != '\\' else it.encode('unicode_escape').decode() for it in text)


def row(number, text):
    print(f'{number:>10} {visible(text)}', file=sys.stderr)


def heading(text):
    print(f'{text}:', file=sys.stderr)


class Used:
    """What a tenant has now, and the most that it had at a time. A slab without live objects does not count, since it is freed
    when its frames are needed."""

    def __init__(self):
        self.slots = self.largest = 0                   # the most slots, and the frames of the largest block
        self.frames = self.in_slabs = self.asked = 0    # frames taken now, those in slabs, requested bytes of live objects
        self.most = 0, 0, 0                             # these three when `frames` was greatest, and at a tie `asked` too
        self.taken = 0                                  # how many objects were taken
        self.objects = {}                               # the live objects of each slab, by its first frame

    def note(self, slots, frames):
        """Notes what the tenant has after a request was met. The largest block that met it has `frames` frames. Refused requests
        are not noted, since the blocks that they got are freed at once."""
        if slots > self.slots:
            self.slots = slots
        if frames > self.largest:
            self.largest = frames
        most, in_slabs, asked = self.most
        if self.frames > most or self.frames == most and self.asked > asked:
            self.most = self.frames, self.in_slabs, self.asked

    def add_block(self, frames):
        self.frames += frames

    def drop_block(self, frames):
        self.frames -= frames

    def add_object(self, slab, frames, asked, slots):
        """Adds an object with `asked` requested bytes, in the slab of `frames` frames that begins at frame `slab`. Notes it."""
        objects = self.objects
        self.taken += 1
        self.asked += asked
        if slab in objects:
            objects[slab] += 1
        else:
            objects[slab] = 1
            self.in_slabs += frames
            self.frames += frames
        if self.frames >= self.most[0] or slots > self.slots or frames > self.largest:
            self.note(slots, frames)

    def drop_object(self, slab, frames, asked):
        self.objects[slab] -= 1
        self.asked -= asked
        if self.objects[slab] == 0:
            del self.objects[slab]
            self.in_slabs -= frames
            self.drop_block(frames)


def tell_used(used, refused, order):
    """Prints what was used. Bytes of slabs that are not requested bytes of a live object count as lost."""
    frames, in_slabs, asked = used.most
    heading('used')
    row(used.slots, f'{plural("slot", used.slots)} of {2**order} frames at most')
    row(frames, f'{plural("frame", frames)} at most, {in_slabs} of them in slabs')
    row(used.largest, f'{plural("frame", used.largest)} in the largest block')
    row(refused, f'{plural("request", refused)} refused for want of frames')
    if in_slabs:
        lost = 100 - 100 * asked / (in_slabs * FRAME)
        row(round(lost), '% of the bytes of these slabs lost to padding, free objects and sizes that were rounded up')


def bits(size):
    """Returns the exponent of the least power of two that is at least a size. Sizes up to 16 count as 16."""
    return max((size - 1).bit_length(), MIN_BITS)


def tell_sizes(sizes):
    """Prints a histogram of the requested sizes: for each power of two, how many requests were for at most this power and more
    than half of it. `sizes` has these numbers by exponent."""
    if not sizes:
        return
    heading('requested sizes, in bytes')
    names = {size: f'of {2**(size - 1) + 1 if size > MIN_BITS else 0} to {2**size}' for size in sorted(sizes)}
    width, most = max(map(len, names.values())), max(sizes.values())
    for size, name in names.items():
        row(sizes[size], f'{name:<{width}} ' + '#' * max(round(MAX_COLUMNS * sizes[size] / most), 1))


def tell_needs(blocks, order):
    """Prints how many superblocks are enough, by docs/capacity.md, for any load that at no time has more blocks of an order than
    `blocks` has. `blocks` is a list of (order, number of blocks)."""
    frames = sum(count * 2**block for block, count in blocks)
    heading('for any load with at most as many blocks and objects at a time')
    row(frames, f'{plural("frame", frames)} {"holds" if frames == 1 else "hold"} them')
    for block in sorted({block for block, _ in blocks}):
        needed = (frames - 2**block) // 2**(order - block) + 1
        if needed <= MAX_SUPERBLOCKS:
            row(needed, f'{"superblock is" if needed == 1 else "superblocks are"} enough for blocks of order {block}')
        else:
            row('', f'blocks of order {block}: in the worst case more superblocks than a machine has')


def tell(tenant, larger):
    """Prints the summary of a tenant. `larger` names the options of a larger machine, or is empty if there is no larger one."""
    told = tenant.counts()
    refused = sum(count for what, count in told.items() if 'refused' in what)
    tell_used(tenant.used, refused, tenant.machine.order)
    heading('requested')
    for what, count in sorted(told.items()):
        row(count, what)
    tell_sizes(tenant.sizes)
    tenant.tell_more()
    tell_needs(tenant.most_blocks(), tenant.machine.order)
    if refused:
        row('', f'these numbers leave out what was refused: try {larger}fewer logs or a shorter log')
