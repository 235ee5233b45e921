"""Faults of allocators, as changes of lists.c and slabs.c, with the promises that find them."""
from typing import NamedTuple

FEW, MANY = 14, 420


class Fault(NamedTuple):
    kind: str
    name: str
    promises: str                                               # one of these is broken; `Failed`: the program fails
    changes: list                                               # texts that occur just once, and their replacements
    most: int = FEW                                             # the most lines that the shortened load may have
    by: str = ''                                                # the kind of the heavy loads that find it, or `--long`


LISTS = [
    Fault('merge', 'blocks are never joined', 'Room Blocks Refusals Failed', [
        ('    while (joined < top) {',
         '    while (false) {')]),
    Fault('merge', 'a freed block is joined only once', 'Room Blocks Refusals Failed', [
        ('    while (joined < top) {',
         '    for (unsigned once = joined; joined < top && joined == once;) {')]),
    Fault('merge', 'a buddy of another order is joined', 'Blocks Failed', [
        (' || of->pages[buddy].order != joined',
         '')], 20),
    Fault('merge', 'two slots are joined', 'Room Blocks Failed', [
        ('    while (joined < top) {',
         '    while (joined <= top) {')], 20),
    Fault('merge', 'the joined block begins at the upper half', 'Blocks Failed', [
        ('        frame &= ~(1u << joined);\n',
         '')], 20),
    Fault('split', 'the upper half is counted from the least order', 'Blocks Room Failed', [
        ('push(of, *frame + (1u << from), from);',
         'push(of, *frame + (1u << order), from);')], 20),
    Fault('split', 'the upper half of order 0 is lost', 'Room Blocks', [
        ('        push(of, *frame + (1u << from), from);',
         '        if (from > 0) push(of, *frame + (1u << from), from);')], 24),
    Fault('split', 'a block of one frame is stored as one of two', 'Gives Refusals', [
        ('of->pages[*frame].order = (uint8_t)order;',
         'of->pages[*frame].order = (uint8_t)(order ? order : 1);')]),
    Fault('bounds', 'a range may end one past the block', 'Refusals', [
        ('length > end)',
         'length > end + 1)')]),
    Fault('bounds', 'a range may not end where the block ends', 'Refusals', [
        ('length > end)',
         'length >= end)')]),
    Fault('bounds', 'a read of no bytes is accepted', 'Refusals', [
        ('length < 1 || ',
         '')]),
    Fault('bounds', 'a read of 64 bytes is refused', 'Refusals', [
        ('length > MAX_BYTES',
         'length >= MAX_BYTES')]),
    Fault('bounds', 'the order is cut to a byte', 'Refusals', [
        ('    if (order > top)',
         '    if ((uint8_t)order > top)')]),
    Fault('bounds', 'the slot is cut to a byte', 'Refusals', [
        ('enum reply take_back(unsigned tenant, uint32_t slot, unsigned *superblock) {\n',
         'enum reply take_back(unsigned tenant, uint32_t slot, unsigned *superblock) {\n'
         '    slot &= 0xff;\n')]),
    Fault('bounds', 'the place of a frame is cut to 32 bits', 'Refusals', [
        ('enum reply release(unsigned tenant, uint32_t frame, unsigned *order) {\n',
         'enum reply release(unsigned tenant, uint32_t frame, unsigned *order) {\n'
         '    frame &= 0xfffff;\n')]),
    Fault('overflow', 'the taken frames of a slot are counted in a byte', 'Refusals', [
        ('    unsigned *taken; ',
         '    uint8_t *taken; ')], 300),
    Fault('overflow', 'the superblocks of a reset are counted in a byte', 'Owners', [
        ('            ++*superblocks;',
         '            *superblocks = (uint8_t)(*superblocks + 1);')], 270),
    Fault('overflow', 'the blocks of a tenant are counted in a byte', 'Refusals', [
        ('static bool *owned;\n',
         'static bool *owned;\n'
         'static uint8_t live[64];\n'),
        ('    *order = of->pages[frame].order;\n',
         '    *order = of->pages[frame].order;\n'
         '    if (live[tenant]-- == 0) return NOT_A_BLOCK;\n'),
        ('    of->pages[*frame].kind = TAKEN;\n',
         '    of->pages[*frame].kind = TAKEN;\n'
         '    live[tenant]++;\n'),
        ('    *superblocks = 0;\n',
         '    *superblocks = 0;\n'
         '    live[tenant] = 0;\n')], 300),
    Fault('overflow', 'the frames of a tenant are counted in two bytes', 'Refusals', [
        ('static bool *owned;\n',
         'static bool *owned;\n'
         'static uint16_t used[64];\n'),
        ('    *order = of->pages[frame].order;\n',
         '    *order = of->pages[frame].order;\n'
         '    if (used[tenant] == 0) return NOT_A_BLOCK;\n'
         '    used[tenant] -= 1u << *order;\n'),
        ('    of->pages[*frame].kind = TAKEN;\n',
         '    of->pages[*frame].kind = TAKEN;\n'
         '    used[tenant] += 1u << order;\n'),
        ('    *superblocks = 0;\n',
         '    *superblocks = 0;\n'
         '    used[tenant] = 0;\n')], 1600),
    Fault('scrub', 'superblocks are not zeroed', 'Bytes', [
        ('    memset(bytes_of(superblock), 0, size_of_superblock());\n',
         '')]),
    Fault('scrub', 'only half of a superblock is zeroed', 'Bytes', [
        ('memset(bytes_of(superblock), 0, size_of_superblock());',
         'memset(bytes_of(superblock), 0, size_of_superblock() / 2);')]),
    Fault('scrub', 'the last word of a superblock is not zeroed', 'Bytes', [
        ('memset(bytes_of(superblock), 0, size_of_superblock());',
         'memset(bytes_of(superblock), 0, size_of_superblock() - 8);')]),
    Fault('move', 'only half of the bytes are moved', 'Bytes Alone', [
        ('slot]), size_of_superblock());\n'
         '    give_up',
         'slot]), size_of_superblock() / 2);\n'
         '    give_up')]),
    Fault('move', 'the superblock that was left stays owned', 'Refusals Owners', [
        ('    give_up(of->superblocks[slot]);\n'
         '    of->',
         '    of->')], 30),
    Fault('move', 'a move makes a busy slot look empty', 'Refusals Busy', [
        ('    of->superblocks[slot] = *superblock;\n',
         '    of->superblocks[slot] = *superblock;\n'
         '    of->taken[slot] = 0;\n')]),
    Fault('reset', 'a reset keeps the free lists', 'Blocks Refusals Owners Failed', [
        ('    *superblocks = 0;\n'
         '    memset(of->first, 0xff, sizeof of->first);\n',
         '    *superblocks = 0;\n')]),
    Fault('reset', 'a reset keeps the number of taken frames', 'Busy Refusals', [
        ('    of->taken[*slot] = 0;\n',
         '')]),
    Fault('reset', 'a reset keeps the blocks', 'Refusals', [
        ('            memset(of->pages + slot * frames, 0, frames * sizeof *of->pages);\n',
         '')]),
    Fault('hint', 'the block that anybody freed last comes first', 'Alone', [
        ('static bool *owned;\n',
         'static bool *owned;\n'
         'static uint32_t hint;\n'),
        ('    *order = of->pages[frame].order;\n',
         '    *order = of->pages[frame].order;\n'
         '    hint = frame;\n'),
        ('    unsigned from = order;\n',
         '    unsigned from = order;\n'
         '    struct page *page = &of->pages[hint % (count * frames)];\n'
         '    if (order <= top && page->kind == FREE && page->order == order) {\n'
         '        unlink_block(of, hint);\n'
         '        push(of, hint, order);\n'
         '    }\n')]),
    Fault('order of lists', 'all tenants\' frees decide if a block goes first in its list', 'Alone', [
        ('static bool *owned;\n',
         'static bool *owned;\n'
         'static unsigned turn;\n'),
        ('    push(of, frame, joined);\n',
         '    uint32_t one = of->first[joined];\n'
         '    push(of, frame, joined);\n'
         '    if (++turn % 2 && one != NONE) {\n'
         '        unlink_block(of, one);\n'
         '        push(of, one, joined);\n'
         '    }\n')]),
    Fault('order of lists', 'the slot depends on the superblock', 'Alone', [
        ('for (*slot = 0; holds',
         'for (*slot = *superblock % 2; holds'),
        ('*slot); ++*slot)',
         '*slot) && *slot < count; ++*slot)'),
        ('        ;\n',
         '        ;\n'
         '    if (*slot >= count)\n'
         '        for (*slot = 0; holds(of, *slot); ++*slot)\n'
         '            ;\n')]),
    Fault('slots', 'blocks are joined only in slots 0 to 63', 'Room Blocks Refusals Failed', [
        ('    while (joined < top) {',
         '    while (joined < top && frame / frames < 64) {')], 160),
    Fault('slots', 'only slots 0 to 63 are searched', 'Owners Refusals', [
        ('for (*slot = 0; holds(of, *slot); ++*slot)',
         'for (*slot = 0; holds(of, *slot) && *slot < 64; ++*slot)')], 70),
    Fault('slots', 'a free makes the slot 64 below look empty', 'Busy Refusals', [
        ('    *order = of->pages[frame].order;\n',
         '    *order = of->pages[frame].order;\n'
         '    if (frame / frames >= 64) of->taken[frame / frames - 64] = 0;\n')], 160),
    Fault('slots', 'superblock 255 counts as no superblock', 'Owners Refusals', [
        ('return slot < count && of->superblocks[slot] < count; }',
         'return slot < count && of->superblocks[slot] < count && of->superblocks[slot] != 255; }')], 270),
    Fault('tenants', 'tenants 32 apart share a hint', 'Alone', [
        ('static bool *owned;\n',
         'static bool *owned;\n'
         'static uint32_t hint[32];\n'),
        ('    *order = of->pages[frame].order;\n',
         '    *order = of->pages[frame].order;\n'
         '    hint[tenant % 32] = frame;\n'),
        ('    unsigned from = order;\n',
         '    unsigned from = order;\n'
         '    struct page *page = &of->pages[hint[tenant % 32] % (count * frames)];\n'
         '    if (order <= top && page->kind == FREE && page->order == order) {\n'
         '        unlink_block(of, hint[tenant % 32]);\n'
         '        push(of, hint[tenant % 32], order);\n'
         '    }\n')]),
    Fault('links', 'a free block has its link in its first bytes', 'Bytes', [
        ('    of->first[order] = frame;\n',
         '    of->first[order] = frame;\n'
         '    memcpy(memory + of->superblocks[frame / frames] * size_of_superblock() + frame % frames * '
         'FRAME_BYTES, &next, 4);\n')]),
    Fault('leak', 'a superblock that is taken back stays owned', 'Refusals Owners', [
        ('    of->superblocks[slot] = NONE;\n'
         '    give_up(*superblock);\n',
         '    of->superblocks[slot] = NONE;\n')]),
    Fault('leak', 'an empty slot is lost', 'Room Blocks Failed', [
        ('    push(of, frame, joined);\n',
         '    if (joined < top)\n'
         '        push(of, frame, joined);\n')]),
    Fault('double free', 'a free block is freed', 'Refusals', [
        ('of->pages[frame].kind != TAKEN',
         'of->pages[frame].kind == INSIDE')]),
    Fault('double free', 'the second frame of a block frees it', 'Refusals Blocks', [
        ('enum reply release(unsigned tenant, uint32_t frame, unsigned *order) {\n',
         'enum reply release(unsigned tenant, uint32_t frame, unsigned *order) {\n'
         '    frame &= ~1u;\n')]),
    Fault('late', 'an alloc is refused after 300 allocations', 'Room', [
        ('    unsigned from = order;\n',
         '    unsigned from = order;\n'
         '    static int calls;\n'
         '    if (order <= top && ++calls > 300)\n'
         '        return NO_FRAMES;\n')], MANY),
    Fault('late', 'a free is refused after 1,000 frees', 'Refusals', [
        ('    *order = of->pages[frame].order;\n',
         '    *order = of->pages[frame].order;\n'
         '    static int calls;\n'
         '    if (++calls > 1000)\n'
         '        return NOT_A_BLOCK;\n')], 3000),
    Fault('late', 'a grant is refused after 300 grants', 'Refusals', [
        ('    if (!next_superblock(superblock))\n'
         '        return POOL_EMPTY;\n'
         '    for',
         '    static int calls;\n'
         '    if (++calls > 300 || !next_superblock(superblock))\n'
         '        return POOL_EMPTY;\n'
         '    for')], 700),
    Fault('late', 'a move is refused after 50 moves', 'Refusals', [
        ('    if (!next_superblock(superblock))\n'
         '        return POOL_EMPTY;\n'
         '    memcpy',
         '    static int calls;\n'
         '    if (++calls > 50 || !next_superblock(superblock))\n'
         '        return POOL_EMPTY;\n'
         '    memcpy')], 200),
    Fault('late', 'it aborts at allocation 1,000', 'Failed', [
        ('    unsigned from = order;\n',
         '    unsigned from = order;\n'
         '    static int calls;\n'
         '    if (++calls == 1000)\n'
         '        abort();\n')], 2500),
]

SLABS = [
    Fault('merge', 'a block counts as free if one half is free', 'Blocks Report', [
        ('left == order && right == order',
         'left == order || right == order')]),
    Fault('split', 'the right half is forgotten', 'Room', [
        ('left > right ? left : right',
         'left')]),
    Fault('bounds', 'objects of 4,097 bytes are accepted', 'Refusals Objects', [
        ('size > MAX_SIZE)',
         'size > MAX_SIZE + 1)')]),
    Fault('bounds', 'an alignment of 512 is accepted', 'Refusals Layout', [
        ('align > 256',
         'align > 512')]),
    Fault('bounds', 'a tenant can make only 31 caches', 'Refusals', [
        ('    if (number == MAX_CACHES)',
         '    if (number == MAX_CACHES - 1)')], 40),
    Fault('bounds', 'the slack behind an object can be read', 'Refusals', [
        ('length <= cache->size',
         'length <= cache->chunk')]),
    Fault('bounds', 'a read can go on into the next object', 'Refusals', [
        ('offset % cache->chunk + (uint64_t)length <=',
         '(uint64_t)length <=')]),
    Fault('bounds', 'an object that is not live can be read', 'Refusals', [
        ('at < cache->objects && slab->taken[at] &&',
         'at < cache->objects &&')]),
    Fault('layout', 'chunks are not rounded up to the alignment', 'Layout', [
        ('.chunk = (size + align - 1) / align * align',
         '.chunk = size < 8 ? 8 : size')]),
    Fault('layout', 'slabs are made with one object too many', 'Layout', [
        ('/ cache->chunk;\n'
         '    *layout',
         '/ cache->chunk + 1;\n'
         '    *layout')]),
    Fault('layout', 'a cache reports one colour too many', 'Layout', [
        ('cache->objects, 1};',
         'cache->objects, (FRAME_BYTES << cache->order) % cache->chunk / align + 2};')]),
    Fault('layout', 'the last object has no pattern', 'Bytes', [
        ('at < cache->objects; at++)\n'
         '        for',
         'at + 1 < cache->objects; at++)\n'
         '        for')], 40),
    Fault('layout', 'the pattern goes on from object to object', 'Bytes', [
        ('cache->pattern[byte % cache->length]',
         'cache->pattern[(at * cache->size + byte) % cache->length]')]),
    Fault('overflow', 'the live objects of a slab are counted in a byte', 'Refusals Report Failed Objects', [
        ('    unsigned live;\n',
         '    uint8_t live;\n')], 600),
    Fault('overflow', 'the live objects of a cache are counted in a byte', 'Refusals', [
        ('    for (unsigned at = 0; at < cache->count; at++)\n'
         '        if (cache->slabs[at].live > 0)\n'
         '            return CACHE_IN_USE;\n',
         '    uint8_t live = 0;\n'
         '    for (unsigned at = 0; at < cache->count; at++)\n'
         '        live += cache->slabs[at].live;\n'
         '    if (live > 0)\n'
         '        return CACHE_IN_USE;\n')], 300),
    Fault('overflow', 'the slabs of a cache are counted in a byte', 'Refusals Failed Bytes Objects Report Room', [
        ('length, count;\n',
         'length;\n'
         '    uint8_t count;\n')], 1600),
    Fault('slots', 'only slots 0 to 63 are searched', 'Room', [
        ('    for (uint32_t slot = 0; slot < count; slot++) {\n'
         '        uint8_t *tree',
         '    for (uint32_t slot = 0; slot < count && slot < 64; slot++) {\n'
         '        uint8_t *tree')], 135),
    Fault('slots', 'empty slabs are freed only if one is in slots 0 to 63', 'Room', [
        ('        return false;\n'
         '    drop_all_empty',
         '        return false;\n'
         '    bool is_low = false;\n'
         '    for (struct cache *cache = of->caches; cache < of->caches + MAX_CACHES; cache++)\n'
         '        for (unsigned at = 0; at < cache->count; at++)\n'
         '            is_low = is_low || (cache->slabs[at].live == 0 && cache->slabs[at].first / frames < 64);\n'
         '    if (!is_low)\n'
         '        return false;\n'
         '    drop_all_empty')], 160),
    Fault('slots', 'an empty slab in slot 0 does not count as free', 'Room', [
        ('            if (slab->live == 0)\n'
         '                set_free',
         '            if (slab->live == 0 && slab->first >= frames)\n'
         '                set_free')]),
    Fault('edges', 'the last object of a slab is never taken', 'Room', [
        ('        if (slab->live < cache->objects &&',
         '        if (slab->live + 1 < cache->objects &&')], 20),
    Fault('edges', 'a take uses one object more than a slab has', 'Objects Report', [
        ('        if (slab->live < cache->objects &&',
         '        if (slab->live <= cache->objects &&')]),
    Fault('scrub', 'slabs are not zeroed', 'Bytes', [
        ('    memset(bytes_at(of, first * FRAME_BYTES), 0, (size_t)FRAME_BYTES << cache->order);\n',
         '')]),
    Fault('scrub', 'only one frame of a slab is zeroed', 'Bytes', [
        ('0, (size_t)FRAME_BYTES << cache->order);',
         '0, FRAME_BYTES);')]),
    Fault('move', 'the last frame is not moved', 'Bytes', [
        ('from, size_of_superblock());',
         'from, size_of_superblock() - FRAME_BYTES);')], 30),
    Fault('reset', 'a reset keeps the caches', 'Refusals Layout Form Report Failed', [
        ('        free(cache->slabs);\n'
         '        memset(cache, 0, sizeof *cache);\n'
         '    }\n'
         '    return DONE;',
         '        cache->count = 0;\n'
         '    }\n'
         '    return DONE;')]),
    Fault('hint', 'all tenants share a hint for the next object', 'Alone', [
        ('    while (slab->taken[at])\n'
         '        at++;\n',
         '    static unsigned hint;\n'
         '    for (at = hint++ % cache->objects; slab->taken[at];)\n'
         '        at = (at + 1) % cache->objects;\n')]),
    Fault('order of lists', 'slots with an even superblock come first', 'Alone', [
        ('    for (uint32_t slot = 0; slot < count; slot++) {\n'
         '        uint8_t *tree',
         '    for (uint32_t turn = 0; turn < 2 * count; turn++) {\n'
         '        uint32_t slot = turn % count;\n'
         '        if (holds(of, slot) && of->superblocks[slot] % 2 != turn / count)\n'
         '            continue;\n'
         '        uint8_t *tree')], 20),
    Fault('leak', 'a destroyed cache keeps its slabs', 'Still Report Room Gives', [
        ('    *freed = drop_empty(&all[tenant], cache);\n',
         '    *freed = 0;\n')], 30),
    Fault('leak', 'empty slabs are kept if frames are short', 'Room', [
        ('    if (!would_fit(of, order))\n',
         '    if (count > 0)\n')], 30),
    Fault('reap', 'empty slabs are freed even if no block fits then', 'Still', [
        ('    if (!would_fit(of, order))\n'
         '        return false;\n',
         '')], 20),
    Fault('reap', 'a freed slab is counted as one frame', 'Still Gives', [
        ('    return 1u << cache->order;',
         '    return 1;')]),
    Fault('report', 'empty slabs are counted as partial', 'Report', [
        ('slab->live > 0 && slab->live <',
         'slab->live <')]),
    Fault('report', 'slabs are not counted as taken blocks', 'Report', [
        ('of->kinds[frame] != NOTHING &&',
         'of->kinds[frame] == PAGES &&')]),
    Fault('double free', 'an object is given back twice', 'Refusals', [
        (' || !slab->taken[at])',
         ')')]),
    Fault('double free', 'a place in an object gives it back', 'Refusals', [
        ('offset % cache->chunk != 0 || ',
         '')]),
    Fault('double free', 'a slab is freed as a block', 'Refusals', [
        ('of->kinds[frame] != PAGES)',
         'of->kinds[frame] == NOTHING)')]),
    Fault('double free', 'a cache with one live object is destroyed', 'Refusals', [
        ('cache->slabs[at].live > 0',
         'cache->slabs[at].live > 1')]),
    Fault('busy', 'a slot is busy only if it is full', 'Refusals Failed', [
        ('of->trees[slot][1] != top + 1',
         'of->trees[slot][1] == 0')]),
    Fault('late', 'slabs after the first 50 have no pattern', 'Bytes', [
        ('    best->first = first;\n',
         '    best->first = first;\n'
         '    static int made;\n'
         '    if (++made > 50)\n'
         '        return best;\n')], 400),
]

# Faults that only heavy loads or those of --long show: limits of all tenants together, counts above 1,000, and what comes late in
# a life.
COUNTED = ('static bool *owned;\n', 'static bool *owned;\nstatic unsigned live, counts[64];\n')
FREED, TAKEN = '    *order = of->pages[frame].order;\n', '    of->pages[*frame].kind = TAKEN;\n'
BLOCKS_OF_ALL = [COUNTED, (FREED, FREED + '    live--;\n'), (TAKEN, TAKEN + '    live++;\n')]
LARGER = '        if (order < top && of->first[order + 1] != NONE)\n            from++;\n'
HEAVY_LISTS = [
    Fault('of all', 'all tenants together have at most 4,096 blocks', 'Room', [
        *BLOCKS_OF_ALL,
        ('    if (from > top)',
         '    if (from > top || live >= 4096)')], by='many_blocks'),
    Fault('of all', 'a block is from a larger one if all tenants together have 4,096', 'Alone', [
        *BLOCKS_OF_ALL,
        ('    unsigned from = order;\n',
         '    unsigned from = order;\n    if (live >= 4096)\n' + LARGER)], by='many_blocks'),
    *(Fault('overflow', f'the blocks of a tenant are counted in {bits} bits', 'Refusals', [
        COUNTED,
        (FREED,
         f'{FREED}    if (counts[tenant] == 0) return NOT_A_BLOCK;\n    counts[tenant]--;\n'),
        (TAKEN,
         f'{TAKEN}    counts[tenant] = (counts[tenant] + 1) % (1u << {bits});\n'),
        ('    *superblocks = 0;\n',
         '    *superblocks = 0;\n    counts[tenant] = 0;\n')], by='--long' if bits > 12 else 'many_blocks')
      for bits in (11, 12, 15)),
    Fault('late', 'allocation 10,000 is refused', 'Room', [
        ('    if (from > top)',
         '    static unsigned calls;\n    if (from > top || ++calls % 10000 == 0)')], by='rounds'),
    Fault('late', 'allocation 10,000 of all tenants is from a larger block', 'Alone', [
        ('    unsigned from = order;\n',
         '    unsigned from = order;\n    static unsigned calls;\n    if (++calls % 10000 == 0)\n' + LARGER)], by='rounds'),
    Fault('late', 'free 10,000 loses its block', 'Room', [
        ('    push(of, frame, joined);\n',
         '    static unsigned calls;\n    if (++calls % 10000 != 0)\n        push(of, frame, joined);\n')], by='rounds'),
    Fault('late', 'free 65,536 loses its block', 'Room', [
        ('    push(of, frame, joined);\n',
         '    static uint16_t calls;\n    if (++calls != 0)\n        push(of, frame, joined);\n')], by='many_frees'),
]

GIVEN_BACK = '    slab->live--;\n'
EMPTY_OF_ALL = [
    ('static bool *owned;\n',
     'static bool *owned;\n'
     'static unsigned how_many;\n'),
    ('    all = calloc(tenants, sizeof *all);\n',
     '    all = calloc(tenants, sizeof *all);\n'
     '    how_many = tenants;\n'),
    ('static enum reply give(',
     'static unsigned empty_of_all(void) {\n'
     '    unsigned empty = 0;\n'
     '    for (struct tenant *of = all; of < all + how_many; of++)\n'
     '        for (struct cache *cache = of->caches; cache < of->caches + MAX_CACHES; cache++)\n'
     '            for (unsigned at = 0; at < cache->count; at++)\n'
     '                empty += cache->slabs[at].live == 0;\n'
     '    return empty;\n'
     '}\n'
     'static enum reply give(')]
CACHES_OF_ALL = [
    ('static bool *owned;\n',
     'static bool *owned;\n'
     'static unsigned made;\n'),
    ('    cache += number;\n',
     '    cache += number;\n'
     '    made++;\n'),
    ('    *freed = drop_empty(&all[tenant], cache);\n',
     '    *freed = drop_empty(&all[tenant], cache);\n'
     '    made--;\n')]
HEAVY_SLABS = [
    Fault('of all', 'all tenants together have at most 512 caches', 'Refusals', [
        *CACHES_OF_ALL,
        ('    if (number == MAX_CACHES)',
         '    if (number == MAX_CACHES || made >= 512)')], by='many_caches'),
    Fault('of all', 'a cache has number 1 if all tenants together have 512', 'Alone', [
        *CACHES_OF_ALL,
        ('    unsigned number = 0;\n',
         '    unsigned number = made >= 512 && !cache[1].is_used;\n')], by='many_caches'),
    Fault('of all', 'all tenants together have at most 2,048 slabs', 'Room', [
        ('static bool *owned;\n',
         'static bool *owned;\n'
         'static unsigned slabs;\n'),
        ('    if (!get_block(tenant, cache->order, SLAB, &first))',
         '    if (slabs >= 2048 || !get_block(tenant, cache->order, SLAB, &first))'),
        ('    best = &cache->slabs[cache->count++];\n',
         '    best = &cache->slabs[cache->count++];\n'
         '    slabs++;\n'),
        ('    cache->slabs[at] = cache->slabs[--cache->count];\n',
         '    cache->slabs[at] = cache->slabs[--cache->count];\n'
         '    slabs--;\n')], by='many_caches'),
    *(Fault('of all', f'a slab that gets empty is freed if all tenants together have {most} empty', 'Alone Still Report', [
        *EMPTY_OF_ALL,
        (GIVEN_BACK,
         f'{GIVEN_BACK}    if (slab->live == 0 && empty_of_all() > {most})\n'
         '        drop_slab(&all[tenant], cache, (unsigned)(slab - cache->slabs));\n')],
            by='many_caches') for most in (100, 400)),
    Fault('of all', 'all empty slabs are freed if all tenants together have 400', 'Alone Still Report', [
        *EMPTY_OF_ALL,
        (GIVEN_BACK,
         f'{GIVEN_BACK}    unsigned freed;\n'
         '    if (slab->live == 0 && empty_of_all() > 400)\n'
         '        for (unsigned other = 0; other < how_many; other++)\n'
         '            drop_all_empty(other, &freed);\n')], by='many_caches'),
    Fault('overflow', 'the objects of a cache are counted in 12 bits', 'Refusals', [
        ('    for (unsigned at = 0; at < cache->count; at++)\n'
         '        if (cache->slabs[at].live > 0)\n'
         '            return CACHE_IN_USE;\n',
         '    unsigned live = 0;\n'
         '    for (unsigned at = 0; at < cache->count; at++)\n'
         '        live += cache->slabs[at].live;\n'
         '    if (live % 4096 > 0)\n'
         '        return CACHE_IN_USE;\n')], by='many_objects'),
    Fault('overflow', 'the slabs of a cache are counted in 12 bits', 'Refusals Failed Bytes Objects Report Room', [
        ('length, count;\n',
         'length;\n'
         '    unsigned count : 12;\n')], by='many_slabs'),
    Fault('overflow', 'a report has the objects of a cache in 12 bits', 'Report', [
        ('            row->live += slab->live;\n',
         '            row->live = (row->live + slab->live) % 4096;\n')], by='many_objects'),
    Fault('reap', 'at most 1,000 slabs are freed at a time', 'Still', [
        ('    for (unsigned at = cache->count; at > 0; at--)\n'
         '        if (cache->slabs[at - 1].live == 0)\n',
         '    for (unsigned at = cache->count; at > 0 && freed < 1000 << cache->order; at--)\n'
         '        if (cache->slabs[at - 1].live == 0)\n')], by='many_slabs'),
    Fault('late', 'take 10,000 is refused', 'Room', [
        ('    while (slab->taken[at])\n',
         '    static unsigned calls;\n'
         '    if (++calls % 10000 == 0)\n'
         '        return NO_FRAMES;\n'
         '    while (slab->taken[at])\n')], by='many_slabs'),
]


def changed(text, fault):
    for old, new in fault.changes:
        if text.count(old) != 1:
            raise ValueError(f'{fault.name}: {old!r} is there {text.count(old)} times')
        text = text.replace(old, new)
    return text
