/* Implements tenant.h with the functions of objects.h. A block is at the first frames of the tenant that are free and aligned. */
#include "objects.h"

#include <stdlib.h>
#include <string.h>

struct tenant {
    uint8_t *memory;
    unsigned order, frames; /* the order of a slot, and the frames of all slots */
    bool taken[];           /* by frame; frames of slots that the tenant does not have are taken */
};

static void mark(struct tenant *tenant, size_t first, unsigned order, bool is_taken) {
    memset(tenant->taken + first, is_taken, (size_t)1 << order);
}

struct tenant *tenant_init(void *memory, unsigned order, unsigned slots) {
    struct tenant *tenant = malloc(sizeof *tenant + ((size_t)slots << order));
    if (tenant != NULL) {
        *tenant = (struct tenant){memory, order, slots << order};
        memset(tenant->taken, true, (size_t)slots << order);
    }
    return tenant;
}

void tenant_add(struct tenant *tenant, unsigned slot) { mark(tenant, (size_t)slot << tenant->order, tenant->order, false); }

void tenant_remove(struct tenant *tenant, unsigned slot) { mark(tenant, (size_t)slot << tenant->order, tenant->order, true); }

void *tenant_alloc(struct tenant *tenant, unsigned order) {
    for (size_t first = 0; first < tenant->frames; first += (size_t)1 << order)
        if (memchr(tenant->taken + first, true, (size_t)1 << order) == NULL) {
            mark(tenant, first, order, true);
            return tenant->memory + first * FRAME_BYTES;
        }
    return NULL;
}

void tenant_free(struct tenant *tenant, void *block, unsigned order) {
    mark(tenant, (size_t)((uint8_t *)block - tenant->memory) / FRAME_BYTES, order, false);
}

void tenant_end(struct tenant *tenant) { free(tenant); }

const struct caches *caches(void) {
    static const struct objects objects = {objects_lay_out, objects_init,   objects_take,
                                           objects_give,    objects_shrink, objects_end};
    return caches_of(&objects);
}
