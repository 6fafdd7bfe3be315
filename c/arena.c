/* The library's memory, out of what iface_new_in was given. A gap is joined with the gaps behind it while a block is looked for.
 *
 * Where pointers have 32 bits, targets/heap32.same.ll has the library's three functions, over iface_heap_take, iface_heap_change and
 * iface_heap_give. A program with a heap of its own may define these three in place of this file. */
#include "arena.h"

void *memcpy(void *restrict to, const void *restrict from, size_t n); /* string.h isn't everywhere */

/* What stands before each block and each gap: how many units of 16 octets they have, with this one. */
struct unit {
    size_t units;
    size_t is_taken;
} __attribute__((aligned(16)));

/* What was given: its units, how many, and the end of the last one that ever was taken. */
struct region {
    struct region *next;
    size_t units, peak;
    struct unit first[];
} __attribute__((aligned(16)));

enum { UNIT = sizeof(struct unit) };

static struct region *regions;
static size_t used;

void *iface_heap_take(size_t size);
void *iface_heap_change(void *old, size_t size);
void iface_heap_give(void *at);

static size_t units_of(size_t size) {
    return (size + UNIT - 1) / UNIT + 1;
}

static void *take_of(struct region *r, size_t wanted) {
    for (size_t at = 0; at < r->units; at += r->first[at].units) {
        struct unit *u = &r->first[at];
        if (u->is_taken) continue;
        while (at + u->units < r->units && !u[u->units].is_taken) u->units += u[u->units].units;
        if (u->units < wanted) continue;
        if (u->units > wanted) u[wanted] = (struct unit){u->units - wanted, 0};
        *u = (struct unit){wanted, 1};
        if (at + wanted > r->peak) r->peak = at + wanted;
        used += wanted * UNIT;
        return u + 1;
    }
    return NULL;
}

void *iface_heap_take(size_t size) {
    void *at = NULL;
    if (size > SIZE_MAX / 2) return NULL;
    for (struct region *r = regions; r && !at; r = r->next) at = take_of(r, units_of(size));
    return at;
}

void iface_heap_give(void *at) {
    struct unit *u = (struct unit *)at - 1;
    u->is_taken = 0;
    used -= u->units * UNIT;
}

void *iface_heap_change(void *old, size_t size) {
    size_t had = (((struct unit *)old)[-1].units - 1) * UNIT;
    void *at = iface_heap_take(size);
    if (!at) return NULL;
    memcpy(at, old, had < size ? had : size);
    iface_heap_give(old);
    return at;
}

#if SIZE_MAX > 0xffffffffu
struct block {
    _Bool is_there;
    void *at;
};

static char none; /* what a refusal points to: the library takes no null pointer */

struct block rattle_alloc(size_t size, size_t align);
struct block rattle_realloc(void *old, size_t old_size, size_t size, size_t align);
void rattle_dealloc(void *at);

struct block rattle_alloc(size_t size, size_t align) {
    void *at = iface_heap_take(size);
    (void)align;
    return (struct block){at != NULL, at ? at : &none};
}

struct block rattle_realloc(void *old, size_t old_size, size_t size, size_t align) {
    void *at = iface_heap_change(old, size);
    (void)old_size, (void)align;
    return (struct block){at != NULL, at ? at : &none};
}

void rattle_dealloc(void *at) {
    iface_heap_give(at);
}
#endif

size_t iface_arena_used(void) {
    return used;
}

size_t iface_arena_peak(void) {
    size_t octets = 0;
    for (const struct region *r = regions; r; r = r->next) octets += sizeof *r + r->peak * UNIT;
    return octets;
}

static uint64_t block_of(uint64_t octets) {
    return octets == 0 ? 0 : (octets + UNIT - 1) / UNIT * UNIT + UNIT;
}

/* What the blocks of a host take, as the library asks for them. The tests compare it with what is taken. */
static uint64_t taken_by(const struct iface_config *c) {
    uint64_t sockets = c->sockets, neighbors = c->neighbors, routes = c->routes < 32 ? c->routes : 32, slots = c->fragmented;
    return block_of(23344) + block_of(3968) + block_of(448 * sockets) + block_of(16 * sockets) + block_of(272 * sockets)
           + block_of(48 * neighbors) + block_of(8 * neighbors) + block_of(112 * routes) + block_of(routes ? 1024 * routes + 16 : 0)
           + block_of(16 * slots) + block_of(4208 * slots);
}

/* Makes the memory a region, from its first octet that is aligned on. Whether it holds so many octets. */
static int give(void *memory, size_t size, uint64_t octets) {
    size_t skipped = (UNIT - (uintptr_t)memory % UNIT) % UNIT;
    if (size < skipped || size - skipped < octets) return 0;
    struct region *r = (void *)((char *)memory + skipped);
    *r = (struct region){regions, (size - skipped - sizeof *r) / UNIT, 0};
    r->first[0] = (struct unit){r->units, 0};
    regions = r;
    return 1;
}

uint32_t iface_new_in(iface *host, const struct iface_config *config, void *memory, size_t size, size_t *wanted) {
    struct iface_config c = *config;
    if (c.routes <= 4) c.routes = 0; /* which says the same, and takes nothing on the way */
    uint64_t octets = taken_by(&c) + sizeof(struct region);
    *wanted = octets < SIZE_MAX ? (size_t)octets : SIZE_MAX;
    if (size > 0 && !give(memory, size, octets)) return IFACE_NO_MEMORY;
    return iface_new(host, &c);
}
