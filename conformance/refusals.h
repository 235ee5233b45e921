/* The name of each refusal of adapter.h, as replies have it, for adapter.c and threads.c. */
#ifndef PARTMEM_REFUSALS_H
#define PARTMEM_REFUSALS_H

static const char *const REFUSALS[] = {
    "", "NoFrames", "BadOrder", "NotABlock", "OutOfReach", "BadLength", "BadSize", "BadAlign", "NoCacheSlot",
    "NoCache", "CacheInUse", "NotAnObject", "NoTenant", "PoolEmpty", "NoSlot", "SlotBusy"};

#endif
