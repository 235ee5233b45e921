/* Makes random calls to a machine, each with the locks that it has to hold, for tests/side-by-side/run.
 *
 *     side_by_side ORDER SUPERBLOCKS TENANTS CALLS SEED GRANULE KIND FAULT OPERANDS
 *
 * The calls run one after another; accesses.c finds accesses that locks do not order. A part of GRANULE bytes counts as
 * one byte. With the KIND `long` each tenant has two caches of 200 slabs, and with the KIND `mixed` fewer. FAULT names a planted
 * fault, or is empty. OPERANDS is the file for steps.c, or is empty if the library was compiled to be seen. The program writes what
 * accesses.c saw, and then the statuses that calls returned.
 *
 * A call with a tenant holds the lock of this tenant. The administrator's calls hold the administrator's lock, and that of the
 * tenant that they name. A line and an event hold the locks of the command in them. Boot and end hold all locks. Faulty lines,
 * calls with a tenant that does not exist, and the functions without a tenant that only look at what boot made hold no lock.
 */
#include "accesses.h"
#include "partmem_heap.h"
#include "traced.h"
#include "trial.h"

enum { MAX_PIECES = 2048, OF_NO_CACHE = 0xff, OF_THE_HEAP = 0xfe, ANY_CACHE = 0xfd, LONG_SLABS = 200, LONG_BYTES = 2000 };

/* The commands by the kind of their request. Each takes `numbers` numbers, and perhaps bytes. */
static const struct command {
    const char *word;
    unsigned numbers;
    bool has_bytes;
} commands[] = {
    [PARTMEM_GRANT] = {"grant", 0, false}, [PARTMEM_TAKE_BACK] = {"takeback", 1, false}, [PARTMEM_RESET] = {"reset", 0, false},
    [PARTMEM_MOVE] = {"move", 1, false},   [PARTMEM_POOL] = {"pool", 0, false},          [PARTMEM_ALLOC] = {"alloc", 1, false},
    [PARTMEM_FREE] = {"free", 1, false},   [PARTMEM_READ] = {"read", 2, false},          [PARTMEM_WRITE] = {"write", 1, true},
    [PARTMEM_CACHE] = {"cache", 2, true},  [PARTMEM_DESTROY] = {"destroy", 1, false},    [PARTMEM_TAKE] = {"take", 1, false},
    [PARTMEM_GIVE] = {"give", 2, false},   [PARTMEM_REAP] = {"reap", 0, false},          [PARTMEM_REPORT] = {"report", 0, false},
};

/* What a tenant has: a page block, an object, or a piece of its heap. */
struct piece {
    uint32_t place, cache; /* OF_NO_CACHE for a page block, OF_THE_HEAP for a piece */
};

/* A caller, with all that its calls get and return. */
struct caller {
    _Alignas(128) uint32_t number;
    partmem_tenant tenant;
    partmem_heap heap;
    uint16_t runs[PARTMEM_MAX_SUPERBLOCKS];
    partmem_request request;
    partmem_reply reply;
    partmem_lent lent;
    partmem_cache made;
    partmem_slot slot;
    partmem_owner owner;
    partmem_block block;
    partmem_object object;
    partmem_sizes sizes;
    partmem_figures figures;
    uint32_t word;
    size_t written;
    uint8_t bytes[2 * PARTMEM_MAX_BYTES];
    char line[512], buffer[PARTMEM_LINE_BUFFER_BYTES];
    struct piece pieces[MAX_PIECES];
    uint32_t count;
    bool is_filling;
};

static partmem_machine machine;
static unsigned char *ram;
static uint32_t order, superblocks, tenants, superblock_bytes;
static bool is_long;
static const char *fault = "";
static _Alignas(128) struct caller callers[CALLERS];
static unsigned long returned[64]; /* by status */

static bool is_planted(const char *name)
{
    return strcmp(fault, name) == 0;
}

static partmem_status note(partmem_status status)
{
    MUST(status < LEN(returned));
    returned[status]++;
    return status;
}

/* ---- Calls, with their locks -------------------------------------------------------------------------------------------- */

static uint32_t lock_of(uint32_t tenant)
{
    return tenant < tenants ? (uint32_t)1 << tenant : NO_LOCK;
}

/* Returns the call that a request makes. */
static struct call call_of(enum way way, const partmem_request *request)
{
    const uint32_t kind = request->kind, t = request->tenant, lock = lock_of(t);
    if (kind == 0 || kind >= LEN(commands)) return (struct call){"no command", way, ANYBODY, 0, NO_LOCK};
    const char *name = kind == PARTMEM_POOL && way == CALLED ? "find_superblock" : commands[kind].word;
    if (kind == PARTMEM_POOL) return (struct call){name, way, ADMINISTRATOR, 0, LOCK_OF_ADMINISTRATOR};
    if (kind > PARTMEM_POOL) return (struct call){name, way, lock ? t : ANYBODY, t, lock};
    const bool is_short = is_planted(name); /* it holds the administrator's lock, and not the tenant's */
    return (struct call){name, way, ADMINISTRATOR, t, LOCK_OF_ADMINISTRATOR | (is_short ? NO_LOCK : lock)};
}

/* Makes the direct call of a request. */
static partmem_status call_directly(struct caller *its, const partmem_request *request, size_t len)
{
    const partmem_tenant tenant = {&machine, request->tenant};
    const uint32_t first = request->first, second = request->second;
    switch (request->kind) {
    case PARTMEM_GRANT: return partmem_grant(tenant, &its->slot);
    case PARTMEM_TAKE_BACK: return partmem_take_back(tenant, first);
    case PARTMEM_RESET: return partmem_reset(tenant);
    case PARTMEM_MOVE: return partmem_move(tenant, first, &its->slot);
    case PARTMEM_POOL: return partmem_find_superblock(&machine, any(superblocks + 1), &its->owner);
    case PARTMEM_ALLOC: return partmem_alloc(tenant, first, &its->lent);
    case PARTMEM_FREE: return partmem_free(tenant, partmem_place_of(first));
    case PARTMEM_READ: return partmem_read(tenant, first, its->bytes, second);
    case PARTMEM_WRITE: return partmem_write(tenant, first, its->bytes, len);
    case PARTMEM_CACHE: return partmem_make_cache(tenant, first, second, its->bytes, len, &its->made);
    case PARTMEM_DESTROY: return partmem_destroy_cache(tenant, first);
    case PARTMEM_TAKE: return partmem_take(tenant, first, &its->lent);
    case PARTMEM_GIVE: return partmem_give(tenant, first, second);
    case PARTMEM_REAP: return partmem_reap(tenant, &its->word);
    case PARTMEM_REPORT: return partmem_report(tenant, &its->figures);
    }
    return PARTMEM_NOT_AN_EVENT;
}

/* Writes the line of a request. Returns its length. A tenth of the lines have blanks or zeros that they do not need. */
static size_t write_line(struct caller *its, const partmem_request *request, size_t len)
{
    const struct command *command = &commands[request->kind];
    const uint32_t numbers[] = {request->first, request->second};
    const char *const blank = rarely(10) ? "\t " : " ", *const zeros = rarely(10) ? "00" : "";
    int at = request->kind > PARTMEM_POOL ? sprintf(its->line, "%s%u%s%s", zeros, request->tenant, blank, command->word)
                                          : sprintf(its->line, "admin%s%s", blank, command->word);
    if (request->kind < PARTMEM_POOL) at += sprintf(its->line + at, "%s%s%u", blank, zeros, request->tenant);
    for (unsigned i = 0; i < command->numbers; i++) at += sprintf(its->line + at, "%s%u", blank, numbers[i]);
    if (command->has_bytes) at += sprintf(its->line + at, "%s", blank);
    for (size_t i = 0; command->has_bytes && i < len; i++) at += sprintf(its->line + at, "%02x", its->bytes[i]);
    return (size_t)at;
}

/* Returns the refusal in the reply lines of a call, or DONE. Then its->reply.first is the first number in them. */
static partmem_status status_of_line(struct caller *its)
{
    unsigned refusal;
    its->buffer[its->written] = 0;
    if (sscanf(its->buffer, "%*[^>]> refused %u", &refusal) == 1) return (partmem_status)refusal;
    (void)!sscanf(its->buffer, "%*[^>]> %*s %u", &its->reply.first);
    return PARTMEM_DONE;
}

/* Does what a planted fault does in a call of a tenant. */
static void plant(const struct caller *its)
{
    const unsigned char *at = callers[(its->number + 1) % tenants].lent.at;
    if (is_planted("count")) plant_count(0);
    if (is_planted("neighbours")) plant_count(its->number);
    if (is_planted("load") && at) (void)plant_load(at);
}

/* Makes the call of its->request, with the first `len` bytes of its->bytes. */
static partmem_status call_in_way(struct caller *its, enum way way, size_t line_len, size_t len)
{
    switch (way) {
    case AS_LINE:
        return partmem_line(&machine, its->line, line_len, its->buffer, sizeof its->buffer, &its->written);
    case AS_EVENT:
        return partmem_event(&machine, &its->request, its->bytes, len, &its->reply, its->buffer, PARTMEM_MAX_BYTES);
    default: return call_directly(its, &its->request, len);
    }
}

/* Makes the call of a request, directly or as an event or a line. Returns its status or the refusal in its reply. Then
 * its->reply.first is the first number of a reply to an alloc or a take. */
static partmem_status run(struct caller *its, partmem_request request, size_t len)
{
    const bool is_command = request.kind > 0 && request.kind < LEN(commands);
    const bool is_callable = is_command && !(request.kind == PARTMEM_READ && request.second > sizeof its->bytes);
    const enum way way = is_command && rarely(3) ? AS_LINE : is_callable && rarely(2) ? CALLED : AS_EVENT;
    const size_t line_len = way == AS_LINE ? write_line(its, &request, len) : 0;
    its->request = request;
    begin_call(call_of(way, &request));
    if (its->number < tenants) plant(its);
    partmem_status status = call_in_way(its, way, line_len, len);
    end_call();
    if (way == AS_LINE && status == PARTMEM_DONE) status = status_of_line(its);
    const bool is_refusal = way == AS_EVENT && status == PARTMEM_DONE && its->reply.kind == PARTMEM_REFUSED;
    if (is_refusal) status = (partmem_status)its->reply.first;
    if (way == CALLED) its->reply.first = request.kind == PARTMEM_ALLOC ? its->lent.place / PARTMEM_FRAME_BYTES : its->lent.place;
    return note(status);
}

/* Begins a call that is no command, with the lock of its caller if this is a tenant. */
static void begin_own(const struct caller *its, enum way way, const char *name)
{
    begin_call((struct call){name, way, its->number, 0, lock_of(its->number)});
}

/* Makes such a call, which returns a status. */
#define CALL(its, way, name, status) (begin_own(its, way, name), last_status = (status), end_call(), note(last_status))
static partmem_status last_status;

/* ---- Numbers for the calls of a tenant ---------------------------------------------------------------------------------- */

static uint32_t wrong_number(void)
{
    const uint32_t numbers[] = {0, 1, 7, 33, 4095, 4097, 1 << 20, UINT32_MAX, any(superblocks * superblock_bytes)};
    return numbers[any(LEN(numbers))];
}

/* Returns one of the caller's pieces of a cache, or of any cache if `cache` is ANY_CACHE. Returns NULL if it finds none. */
static struct piece *some_piece(struct caller *its, uint32_t cache)
{
    for (unsigned tries = 0; its->count && tries < 8; tries++) {
        struct piece *piece = &its->pieces[any(its->count)];
        bool is_fit = cache == ANY_CACHE ? piece->cache < PARTMEM_MAX_CACHES : piece->cache == cache;
        if (is_fit) return piece;
    }
    return NULL;
}

/* Returns a place in a piece of the caller, or near its end, or any number. */
static uint32_t some_place(struct caller *its)
{
    if (!its->count || rarely(12)) return wrong_number();
    return its->pieces[any(its->count)].place + (rarely(3) ? any(200) : 0);
}

static uint32_t some_cache(void)
{
    return rarely(20) ? wrong_number() : any(is_long && !rarely(4) ? 2 : rarely(3) ? PARTMEM_MAX_CACHES : 6);
}

static void keep(struct caller *its, uint32_t place, uint32_t cache)
{
    if (its->count < MAX_PIECES) its->pieces[its->count++] = (struct piece){place, cache};
}

static void drop(struct caller *its, struct piece *piece)
{
    *piece = its->pieces[--its->count];
}

static size_t fill_bytes(struct caller *its, size_t most)
{
    size_t len = 1 + any((uint32_t)most);
    for (size_t i = 0; i < len; i++) its->bytes[i] = (uint8_t)any(256);
    return len;
}

/* ---- The calls of a tenant ---------------------------------------------------------------------------------------------- */

static partmem_request request_of(const struct caller *its, uint32_t kind, uint32_t first, uint32_t second)
{
    return (partmem_request){kind, its->number, first, second};
}

static void alloc(struct caller *its)
{
    const uint32_t k = rarely(3) ? any(order + 2) : is_long ? 0 : any(3);
    if (run(its, request_of(its, PARTMEM_ALLOC, k, 0), 0) == PARTMEM_DONE)
        keep(its, its->reply.first * PARTMEM_FRAME_BYTES, OF_NO_CACHE);
}

static void release(struct caller *its)
{
    struct piece *piece = some_piece(its, OF_NO_CACHE);
    const uint32_t frame = !piece || rarely(12) ? wrong_number() : piece->place / PARTMEM_FRAME_BYTES;
    if (run(its, request_of(its, PARTMEM_FREE, frame, 0), 0) == PARTMEM_DONE && piece) drop(its, piece);
}

static void take(struct caller *its)
{
    const uint32_t cache = some_cache();
    if (run(its, request_of(its, PARTMEM_TAKE, cache, 0), 0) == PARTMEM_DONE) keep(its, its->reply.first, cache);
}

static void give(struct caller *its)
{
    struct piece *piece = some_piece(its, ANY_CACHE);
    if (!piece || rarely(12)) {
        (void)run(its, request_of(its, PARTMEM_GIVE, piece ? piece->cache : some_cache(), some_place(its)), 0);
    } else if (run(its, request_of(its, PARTMEM_GIVE, piece->cache, piece->place), 0) == PARTMEM_DONE) {
        drop(its, piece);
    }
}

/* Gives back or frees what begins at a place, most often that of a piece. A ninth of the caches have another size in the table. */
static void release_place(struct caller *its)
{
    struct piece *piece = some_piece(its, rarely(3) ? OF_NO_CACHE : ANY_CACHE);
    const uint32_t place = piece && !rarely(8) ? piece->place : some_place(its);
    its->object.bytes = 0;
    (void)CALL(its, CALLED, "find_object", partmem_find_object(its->tenant, place, &its->object));
    for (unsigned i = 0; i < LEN(its->sizes.bytes); i++) its->sizes.bytes[i] = (uint16_t)(rarely(9) ? 0 : its->object.bytes);
    partmem_status status = CALL(its, CALLED, "release", partmem_release(its->tenant, place, &its->sizes, &its->object));
    if (status == PARTMEM_DONE && piece && piece->place == place) drop(its, piece);
}

static void read_bytes(struct caller *its)
{
    const uint32_t len = rarely(10) ? wrong_number() : 1 + any(PARTMEM_MAX_BYTES);
    (void)run(its, request_of(its, PARTMEM_READ, some_place(its), len), 0);
}

static void write_bytes(struct caller *its)
{
    (void)run(its, request_of(its, PARTMEM_WRITE, some_place(its), 0), fill_bytes(its, PARTMEM_MAX_BYTES + rarely(20)));
}

static void make_cache(struct caller *its)
{
    static const uint32_t sizes[] = {1, 16, 40, 100, 504, 700, 1500, LONG_BYTES, 3000, 4096};
    static const uint32_t aligns[] = {8, 16, 32, 64, 128, 256};
    const uint32_t size = rarely(12) ? wrong_number() : sizes[any(LEN(sizes))];
    const uint32_t align = rarely(12) ? wrong_number() : aligns[any(LEN(aligns))];
    (void)run(its, request_of(its, PARTMEM_CACHE, size, align), fill_bytes(its, PARTMEM_MAX_PATTERN));
}

static void destroy_cache(struct caller *its)
{
    (void)run(its, request_of(its, PARTMEM_DESTROY, is_long ? 2 + any(30) : any(PARTMEM_MAX_CACHES + 1), 0), 0);
}

static void reap(struct caller *its)
{
    if (!is_long || rarely(20)) (void)run(its, request_of(its, PARTMEM_REAP, 0, 0), 0);
}

static void report(struct caller *its)
{
    (void)run(its, request_of(its, PARTMEM_REPORT, 0, 0), 0);
}

/* Lends bytes in three ways, and stores in them as the tenant's own program. */
static void lend(struct caller *its)
{
    struct piece *piece = some_piece(its, ANY_CACHE);
    const uint32_t place = some_place(its), cache = piece && !rarely(12) ? piece->cache : some_cache();
    const unsigned way = any(3);
    partmem_status status =
        way == 0   ? CALL(its, CALLED, "lend", partmem_lend(its->tenant, place, 1 + any(100), &its->lent))
        : way == 1 ? CALL(its, CALLED, "lend_block", partmem_lend_block(its->tenant, place, &its->lent))
                   : CALL(its, CALLED, "lend_object",
                          partmem_lend_object(its->tenant, cache, piece ? piece->place : place, &its->lent));
    if (status != PARTMEM_DONE) return;
    begin_own(its, OF_NO_WAY, "store in place");
    store_in_place(its->lent.at, its->lent.bytes);
    end_call();
}

/* Looks up what is at a place or an address: its own, another tenant's, or one that is nobody's. */
static void look_up(struct caller *its)
{
    const void *const others[] = {NULL, &machine, ram + any(superblocks * superblock_bytes), ram - 1, its->lent.at};
    const uint32_t place = some_place(its);
    switch (any(4)) {
    case 0: (void)CALL(its, CALLED, "find_object", partmem_find_object(its->tenant, place, &its->object)); break;
    case 1: (void)CALL(its, CALLED, "find_block", partmem_find_block(its->tenant, place, &its->block)); break;
    case 2: (void)CALL(its, CALLED, "find_slot", partmem_find_slot(its->tenant, any(superblocks + 1), &its->slot)); break;
    default: (void)CALL(its, CALLED, "find_place", partmem_find_place(its->tenant, others[any(LEN(others))], &its->word));
    }
}

/* ---- The heap of a tenant ----------------------------------------------------------------------------------------------- */

/* Makes a call of a heap, which returns an address. */
#define HEAP_CALL(its, name, address) (begin_own(its, OF_HEAP, name), last_address = (address), end_call(), last_address)
static unsigned char *last_address;

/* Sets up the heap. Every second tenant gets runs if its slots allow it. A third of the first attempts are refused. */
static void begin_heap(struct caller *its)
{
    static const uint16_t few_sizes[] = {32, 48, 512, 2048}, wrong_sizes[] = {64, 32};
    const uint32_t entries = its->number % 2 ? superblocks : 0;
    const partmem_heap_config configs[] = {{NULL, 0, entries, its->runs},
                                           {few_sizes, LEN(few_sizes), entries, its->runs},
                                           {wrong_sizes, rarely(2) ? LEN(wrong_sizes) : PARTMEM_HEAP_MAX_CLASSES + 1, 0, NULL}};
    const unsigned which = any(LEN(configs));
    const partmem_heap_config *const config = which == 0 && its->number % 2 == 0 ? NULL : &configs[which];
    (void)CALL(its, OF_HEAP, "heap_init", partmem_heap_init(&its->heap, its->tenant, config));
}

static size_t some_size(void)
{
    return rarely(8) ? any(3 * superblock_bytes) : rarely(3) ? any(PARTMEM_FRAME_BYTES + 1) : any(200);
}

static void heap_malloc(struct caller *its)
{
    const size_t bytes = some_size(), align = (size_t)1 << any(14);
    if (!its->heap.tenant.machine) begin_heap(its);
    unsigned way = any(8);
    const unsigned char *at =
        way == 0   ? HEAP_CALL(its, "heap_calloc", partmem_heap_calloc(&its->heap, 2, rarely(9) ? SIZE_MAX : bytes / 2))
        : way == 1 ? HEAP_CALL(its, "heap_aligned_alloc", partmem_heap_aligned_alloc(&its->heap, align, bytes))
                   : HEAP_CALL(its, "heap_malloc", partmem_heap_malloc(&its->heap, bytes));
    if (!at) return;
    begin_own(its, OF_HEAP, "heap_place");
    const uint32_t place = partmem_heap_place(&its->heap, at);
    end_call();
    keep(its, place, OF_THE_HEAP);
}

/* Frees or changes a piece of the heap. A move changes addresses, so it is lent first. */
static void heap_free(struct caller *its)
{
    struct piece *piece = some_piece(its, OF_THE_HEAP);
    const uint32_t place = piece ? piece->place : some_place(its);
    if (CALL(its, CALLED, "lend", partmem_lend(its->tenant, place, 1, &its->lent)) != PARTMEM_DONE) its->lent.at = &machine;
    unsigned char *at = (unsigned char *)its->lent.at + (rarely(12) ? 16 : 0);
    const unsigned way = any(8);
    if (way == 0) {
        begin_own(its, OF_HEAP, "heap_usable_size");
        (void)partmem_heap_usable_size(&its->heap, at);
        end_call();
    } else if (way < 4) {
        at = HEAP_CALL(its, "heap_realloc", partmem_heap_realloc(&its->heap, at, some_size()));
        if (at && piece) drop(its, piece), keep(its, partmem_heap_place(&its->heap, at), OF_THE_HEAP);
    } else if (CALL(its, OF_HEAP, "heap_free", partmem_heap_free(&its->heap, at)) == PARTMEM_DONE && piece) {
        drop(its, piece);
    }
}

/* ---- All callers -------------------------------------------------------------------------------------------------------- */

/* The calls of a tenant, with their shares while it takes more than it gives back, and while it gives back more. */
static const struct turn {
    void (*make)(struct caller *its);
    unsigned filling, emptying;
} turns[] = {
    {alloc, 16, 4},      {release, 4, 16},    {take, 30, 8},       {give, 8, 30}, {read_bytes, 5, 5},
    {write_bytes, 5, 5}, {make_cache, 2, 2},  {destroy_cache, 1, 2}, {reap, 1, 1},  {report, 1, 1},
    {lend, 5, 5},        {look_up, 6, 6},     {heap_malloc, 12, 4},  {heap_free, 4, 12}, {release_place, 3, 9},
};

static void call_of_tenant(struct caller *its)
{
    unsigned all = 0;
    if (its->count > (is_long ? 9 * LONG_SLABS / 2 : MAX_PIECES / 2)) its->is_filling = false;
    else if (is_long ? its->count < LONG_SLABS : rarely(120)) its->is_filling = !its->is_filling;
    for (unsigned i = 0; i < LEN(turns); i++) all += its->is_filling ? turns[i].filling : turns[i].emptying;
    uint32_t drawn = any(all), i = 0;
    for (;; i++) {
        const unsigned share = its->is_filling ? turns[i].filling : turns[i].emptying;
        if (drawn < share) break;
        drawn -= share;
    }
    turns[i].make(its);
}

/* Makes a call of the administrator. A slot of a heap with runs is neither moved nor taken back. */
static void call_of_administrator(void)
{
    static const uint32_t kinds[] = {PARTMEM_GRANT, PARTMEM_GRANT,     PARTMEM_GRANT, PARTMEM_MOVE,
                                     PARTMEM_MOVE,  PARTMEM_TAKE_BACK, PARTMEM_POOL,  PARTMEM_RESET};
    struct caller *its = &callers[ADMINISTRATOR], *named = &callers[any(tenants + rarely(40))];
    uint32_t kind = kinds[any(LEN(kinds))];
    if (kind == PARTMEM_RESET && !rarely(is_long ? 200 : 6)) kind = PARTMEM_GRANT;
    if (named->heap.slots && (kind == PARTMEM_MOVE || kind == PARTMEM_TAKE_BACK)) kind = PARTMEM_POOL;
    const uint32_t slot = rarely(20) ? wrong_number() : any(superblocks / tenants + 1);
    partmem_status status = run(its, (partmem_request){kind, named->number, slot, 0}, 0);
    if (kind != PARTMEM_RESET || status != PARTMEM_DONE) return;
    named->count = 0;
    memset(&named->heap, 0, sizeof named->heap);
}

/* Runs a line that is a comment or faulty, or whose buffer is too small. */
static void run_faulty_line(struct caller *its)
{
    static const char *const faulty[] = {"0 alloc",  "1 frob 2",      "# nothing",    "",           "0 alloc 4294967296",
                                         "0 reap\n", "0 write 0 abc", "admin grant",  "frob",       "0x alloc 1",
                                         "%300s",    "0 write 0 0g",  "admin pool 0", "0 report 1", "\t"};
    const size_t len = (size_t)sprintf(its->line, faulty[any(LEN(faulty))], "");
    const size_t room = rarely(8) ? PARTMEM_LINE_BUFFER_BYTES - 1 : PARTMEM_LINE_BUFFER_BYTES;
    (void)CALL(its, AS_LINE, "faulty line", partmem_line(&machine, its->line, len, its->buffer, room, &its->written));
}

/* Runs an event with a tenant that does not exist, with too many bytes, or with a buffer that is too small. */
static void run_faulty_event(struct caller *its)
{
    its->request = (partmem_request){1 + PARTMEM_POOL + any(10), tenants + any(2) * wrong_number() % 64, wrong_number(), 1};
    const size_t len = any(3) * PARTMEM_MAX_BYTES / 2, room = rarely(4) ? PARTMEM_MAX_BYTES - 1 : PARTMEM_MAX_BYTES;
    (void)CALL(its, AS_EVENT, "faulty event",
               partmem_event(&machine, &its->request, its->bytes, len, &its->reply, its->buffer, room));
}

/* Makes a call that holds no lock. */
static void call_without_lock(void)
{
    struct caller *its = &callers[ANYBODY];
    const unsigned way = any(5);
    if (way == 0) {
        (void)run(its, (partmem_request){1 + PARTMEM_POOL + any(11), tenants + any(2) * 60, wrong_number(), 1}, 0);
    } else if (way == 1) {
        run_faulty_line(its);
    } else if (way == 2) {
        run_faulty_event(its);
    } else if (way == 3) {
        (void)CALL(its, CALLED, "superblock_bytes", (its->word = partmem_superblock_bytes(&machine), PARTMEM_DONE));
    } else {
        (void)CALL(its, CALLED, "superblock_address", (its->lent.at = partmem_superblock_address(&machine, 0), PARTMEM_DONE));
    }
}

/* Grants each tenant the same number of superblocks, one after another. A tenth stays without an owner. */
static void grant_rows(void)
{
    const uint32_t each = superblocks * 9 / 10 / tenants;
    for (uint32_t i = 0; i < tenants * each; i++)
        MUST(run(&callers[ADMINISTRATOR], (partmem_request){PARTMEM_GRANT, i / each, 0, 0}, 0) == PARTMEM_DONE);
}

/* Gives each tenant two caches of LONG_SLABS slabs with two objects each. */
static void fill_lists(void)
{
    for (uint32_t t = 0; t < tenants; t++) {
        struct caller *its = &callers[t];
        for (uint32_t cache = 0; cache < 2; cache++) {
            its->bytes[0] = 1;
            MUST(run(its, request_of(its, PARTMEM_CACHE, LONG_BYTES, 8), 1) == PARTMEM_DONE);
            for (unsigned i = 0; i < 2 * LONG_SLABS; i++) {
                MUST(run(its, request_of(its, PARTMEM_TAKE, cache, 0), 0) == PARTMEM_DONE);
                keep(its, its->reply.first, cache);
            }
        }
    }
}

static void begin(size_t granule)
{
    extern const char __executable_start[], end[];
    const partmem_config config = {order, superblocks, tenants};
    const size_t ram_bytes = PARTMEM_RAM_BYTES(order, superblocks);
    const size_t table_bytes = PARTMEM_TABLE_BYTES(order, superblocks, tenants);
    const partmem_memory memory = {aligned_alloc(4096, ram_bytes), aligned_alloc(4096, (table_bytes + 4095) / 4096 * 4096)};
    MUST(memory.ram && memory.tables);
    ram = memory.ram;
    watch("RAM", memory.ram, ram_bytes, granule);
    watch("tables", memory.tables, table_bytes, granule);
    watch("the program", __executable_start, (size_t)(end - __executable_start), granule);
    begin_call((struct call){"boot", OF_NO_WAY, ADMINISTRATOR, 0, ALL_LOCKS});
    MUST(partmem_boot_in(&machine, &config, &memory) == PARTMEM_DONE);
    end_call();
    for (uint32_t i = 0; i < CALLERS; i++) callers[i].number = i, callers[i].tenant = (partmem_tenant){&machine, i};
}

int main(int words, char **word)
{
    MUST(words == 10 && __builtin_cpu_supports("sse4.2") && __builtin_cpu_supports("popcnt"));
    order = (uint32_t)atoi(word[1]), superblocks = (uint32_t)atoi(word[2]), tenants = (uint32_t)atoi(word[3]);
    random_state = (uint64_t)atoll(word[5]);
    is_long = strcmp(word[7], "long") == 0;
    fault = word[8];
    if (*word[9]) follow_steps(word[9]);
    superblock_bytes = PARTMEM_FRAME_BYTES << order;
    MUST(tenants <= MAX_TENANTS);
    begin((size_t)atol(word[6]));
    grant_rows();
    if (is_long) fill_lists();
    for (long calls = atol(word[4]); calls > 0; calls--) {
        if (rarely(25)) call_of_administrator();
        else if (rarely(60)) call_without_lock();
        else call_of_tenant(&callers[any(tenants)]);
    }
    begin_call((struct call){"end", OF_NO_WAY, ADMINISTRATOR, 0, ALL_LOCKS});
    MUST(partmem_end(&machine) == PARTMEM_DONE);
    end_call();
    write_accesses(stdout);
    for (unsigned i = 0; i < LEN(returned); i++) {
        if (returned[i]) printf("status\t%u\t%lu\n", i, returned[i]);
    }
    return 0;
}
