/* Two functions of partmem.h: one returns the text of a status, the other the version. */
#include "partmem.h"

static const char *const texts[] = {
    [PARTMEM_DONE] = "Done: the call was done",
    [PARTMEM_NO_FRAMES] = "NoFrames: no free block is large enough",
    [PARTMEM_BAD_ORDER] = "BadOrder: the order is larger than a superblock's",
    [PARTMEM_NOT_A_BLOCK] = "NotABlock: no live page block begins there",
    [PARTMEM_OUT_OF_REACH] = "OutOfReach: not inside one live page block or one live object",
    [PARTMEM_BAD_LENGTH] = "BadLength: a read of 0 bytes, or of more than 64",
    [PARTMEM_BAD_SIZE] = "BadSize: the size of an object is 0, or larger than 4096",
    [PARTMEM_BAD_ALIGN] = "BadAlign: the alignment is not 8, 16, 32, 64, 128 or 256",
    [PARTMEM_NO_CACHE_SLOT] = "NoCacheSlot: the tenant has 32 caches",
    [PARTMEM_NO_CACHE] = "NoCache: the tenant has no cache of that number",
    [PARTMEM_CACHE_IN_USE] = "CacheInUse: the cache has a live object",
    [PARTMEM_NOT_AN_OBJECT] = "NotAnObject: no live object of that cache begins there",
    [PARTMEM_NO_TENANT] = "NoTenant: the machine has no tenant of that number",
    [PARTMEM_POOL_EMPTY] = "PoolEmpty: every superblock has an owner",
    [PARTMEM_NO_SLOT] = "NoSlot: the tenant does not hold that slot",
    [PARTMEM_SLOT_BUSY] = "SlotBusy: a page block or a slab, even an empty one, has frames of the slot",
    [PARTMEM_NO_MACHINE] = "NoMachine: no machine was booted there, or it has ended",
    [PARTMEM_HAS_MACHINE] = "HasMachine: there is a machine already",
    [PARTMEM_BAD_CONFIG] = "BadConfig: a number of the partmem_config, or of a heap's, is out of range",
    [PARTMEM_BAD_MEMORY] = "BadMemory: the RAM or the tables are NULL, or not aligned; or a heap with runs has no slots in a row",
    [PARTMEM_NO_MEMORY] = "NoMemory: an allocation failed",
    [PARTMEM_NO_SUPERBLOCK] = "NoSuperblock: the machine has no superblock of that number",
    [PARTMEM_NOT_HELD] = "NotHeld: the address is not in a superblock of that tenant",
    [PARTMEM_NOT_A_LINE] = "NotALine: the text has a line feed",
    [PARTMEM_NOT_AN_EVENT] = "NotAnEvent: there is no such kind, or it has too few or too many bytes",
    [PARTMEM_BUFFER_TOO_SMALL] = "BufferTooSmall: the buffer is smaller than the function requires",
};

const char *partmem_strerror(partmem_status status)
{
    const char *text = (size_t)status < sizeof texts / sizeof *texts ? texts[status] : NULL;
    return text ? text : "Unknown: no status of partmem";
}

uint32_t partmem_version(void)
{
    return PARTMEM_VERSION;
}
