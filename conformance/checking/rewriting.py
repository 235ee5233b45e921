"""Rewrites the lines of a run into others that may show the same finding: fewer lines that fill the same space, smaller blocks,
or tenants numbered from 0.

An exchange is a line with its replies. A change maps numbers of lines to the exchanges that replace them, or to None for lines
that are left out."""
import collections

from .families import families_of
from .runs import POWERS, Places, name_in, names_in, tenant_of
from .words import FRAME_BYTES, MAX_ORDER, is_number, told_in

# LARGER has sizes of objects that are tried if a cache has smaller objects; some fill a frame exactly, others leave bytes for
# colours. Then only the last objects of the cache are kept: LAST_KEPT says how many.
LARGER, LAST_KEPT = (4096, 4000, 2048, 2000, 1024, 1000, 512, 500, 128, 32), (1, 2, 3, 4, 5, 6, 8, 9, 12, 16, 32)
# If a cache has at most FEW_OBJECTS objects, no larger size is tried.
FEW_OBJECTS = 3
# For each kind of name, the command whose reply gives it.
COMMANDS = {'frame': 'alloc', 'object': 'take', 'cache': 'cache'}


def given(run, kind):
    """Finds the lines of tenants with a reply that gave a name of this kind. Yields the number of each line, its words, and
    the words of its reply."""
    for at, (line, replies) in enumerate(run.exchanges):
        words, told = line.split(), told_in(replies)
        if gives(kind, words, told):
            yield at, words, told


def gives(kind, words, told):
    """Returns whether these words are a command that gives a name of this kind, and its reply gave one."""
    is_command = len(words) > 2 and words[1] == COMMANDS[kind] and is_number(words[2])
    is_answered = len(told) > 1 and told[0] == kind and is_number(told[1])
    return is_command and is_answered and (kind != 'frame' or int(words[2]) <= MAX_ORDER)


def slabs_as_blocks(run):
    """Yields changes that allocate a block instead of the objects of a slab, if no line names one of these objects."""
    families, slabs, named = families_of(run), collections.defaultdict(list), set()
    orders = {(words[0], told[1]): int(told[5]) for _, words, told in given(run, 'cache') if is_number(''.join(told[5:6]))}
    for at, words, told in given(run, 'object'):
        order = orders.get((words[0], words[2]), 0)
        slab = words[0], order, int(told[1]) // FRAME_BYTES >> order << order
        slabs[slab].append(at)
        if len(families[at]) > 1:
            named.add(slab)
    for slab, lines in slabs.items():
        if slab not in named:
            yield {**dict.fromkeys(lines), lines[0]: block(*slab)}


def joined_blocks(run):
    """Yields changes that allocate a block instead of its two halves, if no line names a half."""
    families, halves = families_of(run), {}
    for at, words, told in given(run, 'frame'):
        tenant, order, frame = words[0], int(words[2]), int(told[1])
        if len(families[at]) > 1 or order >= run.sizes.order:
            continue
        first = halves.pop((tenant, order, frame ^ 1 << order), None)
        if first is None:
            halves[tenant, order, frame] = at
        else:
            yield {first: block(tenant, order + 1, frame & ~(1 << order)), at: None}


def block(tenant, order, frame):
    """Returns the exchange that allocates the block."""
    return f'{tenant} alloc {order}', [f'{tenant}> frame {frame}']


def larger_objects(run):
    """Yields changes that make the objects of a cache larger, and keep only the last few of them."""
    families = families_of(run)
    takes = {at for at, *_ in given(run, 'object')}
    for at, words, _ in given(run, 'cache'):
        objects = sorted(families[at] & takes)
        for size in LARGER if len(objects) > FEW_OBJECTS else ():
            for kept in LAST_KEPT:
                if int(words[2]) < size and kept < len(objects):
                    gone = set().union(*(families[take] for take in objects[:-kept]))
                    line = ' '.join([*words[:2], str(size), *words[3:]])
                    yield {**dict.fromkeys(gone), at: (line, run.exchanges[at][1])}


def wrong_numbers(run):
    """Yields changes of the last line. Each replaces a number that is no name by a lower number: the least name plus a power of
    two."""
    at, words = len(run.exchanges) - 1, run.exchanges[-1][0].split()
    for word, kind in names_in(words) if len(words) > 1 else ():
        names = set(names_of(run, tenant_of(' '.join(words)), kind))
        for power in POWERS if names and int(words[word]) not in names else ():
            if min(names) + power < int(words[word]):
                lower = [*words[:word], str(min(names) + power), *words[word + 1:]]
                yield {at: (' '.join(lower), run.exchanges[at][1])}


def names_of(run, tenant, kind):
    """Yields the names of a kind that replies gave a tenant. For places, these are the first places of objects and blocks."""
    for line, replies in run.exchanges:
        told = told_in(replies)
        named, at = name_in(told)
        if tenant_of(line) == tenant and is_number(''.join(told[at:at + 1])):
            if named == kind or kind == 'place' and named == 'object':
                yield int(told[at])
            elif kind == 'place' and named == 'frame':
                yield int(told[at]) * FRAME_BYTES


def with_smaller_blocks(run, by):
    """Returns the lines with each block smaller by `by` orders, down to order 0. Reads and writes in the second half of a block
    keep their distance from its end."""
    blocks, lines = collections.defaultdict(Places), []
    for line, replies in run.exchanges:
        words, told = line.split(), told_in(replies)
        if gives('frame', words, told):
            size, less_order = FRAME_BYTES << int(words[2]), max(int(words[2]) - by, 0)
            blocks[words[0]].add(FRAME_BYTES * int(told[1]), size, size - (FRAME_BYTES << less_order))
            line = f'{words[0]} alloc {less_order}'
        elif words[1:2] in (['read'], ['write']) and len(words) > 3 and is_number(words[2]):
            line = ' '.join([*words[:2], str(in_smaller_block(blocks[words[0]], int(words[2]))), *words[3:]])
        lines.append((line, replies))
    return lines


def in_smaller_block(places, place):
    """Returns where a place is after its block has become smaller. A place in the second half moves with the block's end."""
    begin = places.around(place)
    size, less = places.known[begin] if begin is not None else (0, 0)
    return place - less if less and 2 * (place - begin) >= size else place


def with_first_tenants(run):
    """Returns the lines with the existing tenants renumbered from 0, and a map from their old to their new numbers."""
    there = sorted({int(word) for line, _ in run.exchanges if is_number(word := tenant_of(line))})
    names = {str(old): str(new) for new, old in enumerate(old for old in there if old < run.sizes.tenants)}
    lines = []
    for line, replies in run.exchanges:
        words = line.split()
        if tenant_of(line) in names:
            words[2 if words[0] == 'admin' else 0] = names[tenant_of(line)]
            line = ' '.join(words)
        lines.append((line, replies))
    return lines, names
