"""The most expensive lines that one tenant may send for ever. Each case has lines that prepare it, and lines that are then sent
again and again.

As in the loads, later lines name the frames and places of earlier replies. bench/run --worst runs each case with all superblocks
and with two.
"""
CACHES = 32


def grants(superblocks):
    return ['admin grant 0'] * superblocks


def cache(size):
    return f'0 cache {size} 8 00'


def last_number(reply):
    """Returns the frame or the place in a reply."""
    return int(reply.split()[-1])


class Standing:
    """The lines that were run so far. `run` runs more lines and returns their replies."""

    def __init__(self, ask):
        self.ask, self.lines = ask, []

    def run(self, lines):
        lines = list(lines)
        self.lines += lines
        return [reply for at in range(0, len(lines), 256) for reply in self.ask(lines[at:at + 256])]


def no_room_around_slabs(standing, order, superblocks):
    """Requests a block of the greatest order. Each superblock has a taken frame, an empty slab of each cache as far as these fit,
    and otherwise free frames."""
    frames = 1 << order
    some = min(CACHES, frames - 1)
    standing.run(grants(superblocks) + [cache(4096)] * CACHES)
    objects, blocks = [], []
    for _ in range(superblocks):
        objects += enumerate(map(last_number, standing.run(f'0 take {c}' for c in range(some))))
        blocks += [last_number(it) for it in standing.run(['0 alloc 0'] * (frames - some))][:-1]
    standing.run([f'0 free {frame}' for frame in blocks] + [f'0 give {c} {place}' for c, place in objects])
    return [f'0 alloc {order}']


def no_frame(standing, order, superblocks):
    """Requests a frame. Page blocks take all frames, and there are no slabs."""
    standing.run(grants(superblocks) + [f'0 alloc {order}'] * superblocks)
    return ['0 alloc 0']


def middle_of_full_slabs(standing, order, superblocks):
    """Gives and takes the object of the first frame of the middle superblock. All other slabs are full."""
    standing.run(grants(superblocks) + [cache(4096)] + ['0 take 0'] * (superblocks << order))
    return [f'0 give 0 {4096 * (superblocks // 2 << order)}', '0 take 0']


def last_frame(standing, order, superblocks):
    """Frees and allocates the last frame of the last slot. All other frames are taken."""
    standing.run(grants(superblocks) + ['0 alloc 0'] * (superblocks << order))
    return [f'0 free {(superblocks << order) - 1}', '0 alloc 0']


def last_superblock(standing, order, superblocks):
    """Allocates and frees a frame of the last slot, in which nothing else is taken. All other slots are full."""
    standing.run(grants(superblocks) + [f'0 alloc {order}'] * (superblocks - 1))
    return ['0 alloc 0', f'0 free {superblocks - 1 << order}']


def large_block(standing, order, superblocks):
    """Reads the last 64 bytes of a block of the greatest order."""
    standing.run(grants(superblocks) + [f'0 alloc {order}'] * superblocks)
    return [f'0 read {(superblocks << order + 12) - 64} 64']


def small_object(standing, order, superblocks):
    """Reads the first byte of each of eight objects of 24 bytes."""
    standing.run(grants(superblocks) + [cache(24)] + ['0 take 0'] * 160)
    return [f'0 read {24 * at} 1' for at in range(8)]


def figures(standing, order, superblocks):
    """Requests the report of a tenant that has every cache."""
    standing.run(grants(superblocks) + [cache(4096)] * CACHES)
    return ['0 report']


CASES = (no_room_around_slabs, no_frame, middle_of_full_slabs, last_frame, last_superblock, large_block, small_object, figures)


def made(case, ask, order, superblocks):
    """Returns the lines that prepare a case, and those that are sent again and again."""
    standing = Standing(ask)
    again = case(standing, order, superblocks)
    return standing.lines, again
