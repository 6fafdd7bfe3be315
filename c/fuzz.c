/* Calls in any order and frames of any octets, at a host with a guard, connections of TCP, a client of DHCP and one of DNS, while memory is
 * refused.
 *
 *   fuzz [EPISODES [SEED]]
 *
 * Two hosts are made alike, and the same is done to both: but of the first one's calls some are refused memory, at their first
 * request, or their second, and so on. Such a call has to answer NO_MEMORY, and then nothing that a call shows may have changed;
 * it is made again, and both hosts go on alike. Some calls may go on without the memory, by the header: from then on the first host
 * goes on alone, and more is refused. In the end there is memory again, and the host has to do all that a host does. A refused call
 * of whatever code has to leave alone what its pointers point to, and only calls by whose comments memory is taken may ask for some. */
#include "iface.h"

#include "examples/octets.h"
#include "lease_reply.h"

#include <stdbool.h>
#include <stdio.h>
#include <stdlib.h>

enum { NAMES = 8, LISTENERS = 4, KEPT = 64, LONGEST = 1514, FIRST = 11, STEPS = 400, DAY = 86400 };

static const int64_t second = 1000000;

static unsigned long failures, checks, calls, refused, gone_on, places, established, leased, found, datagrams;

static void wants(const char *what, uint64_t is, uint64_t want) {
    checks++;
    if (is == want) return;
    if (failures++ < 20) printf("WRONG: %s: %llu, not %llu\n", what, (unsigned long long)is, (unsigned long long)want);
}

/* ---- memory ---- */

struct block {
    bool is_there;
    void *at;
};

/* What is refused: the request of this number within a call, or half of them; and what was. */
static struct {
    unsigned requests, refuse_at, refusals;
    long blocks;
    int refuses_half;
} heap;

enum { NEVER = -1, MOST = 1 << 23 };

static uint64_t seed;

static uint64_t word(void) { /* xorshift64* */
    seed ^= seed >> 12, seed ^= seed << 25, seed ^= seed >> 27;
    return seed * 0x2545f4914f6cdd1d;
}

static uint32_t below(uint32_t n) {
    return (uint32_t)((word() >> 32) * n >> 32);
}

static int is_refused(void) {
    static uint32_t coin = 1;
    unsigned number = heap.requests++;
    coin = coin * 1664525 + 1013904223;
    if (number != heap.refuse_at && !(heap.refuses_half && coin >> 31)) return 0;
    heap.refusals++;
    return 1;
}

struct block rattle_alloc(size_t size, size_t align);
struct block rattle_realloc(void *old, size_t old_size, size_t size, size_t align);
void rattle_dealloc(void *at);

static char none;

struct block rattle_alloc(size_t size, size_t align) {
    void *at = is_refused() || size > MOST ? NULL : malloc(size ? size : align);
    heap.blocks += at != NULL;
    return (struct block){at != NULL, at ? at : &none};
}

struct block rattle_realloc(void *old, size_t old_size, size_t size, size_t align) {
    (void)old_size;
    void *at = is_refused() || size > MOST ? NULL : realloc(old, size ? size : align);
    return (struct block){at != NULL, at ? at : &none};
}

void rattle_dealloc(void *at) {
    heap.blocks--;
    free(at);
}

/* ---- what is done ---- */

/* A host with all that it may have. */
struct world {
    iface host;
    iface_streams tcp;
    iface_dhcp client;
    iface_dns dns;
    struct iface_stream names[NAMES];
    size_t listeners[LISTENERS];
};

/* What a call wrote. */
struct outcome {
    uint32_t code, number;
    uint64_t micros;
    int64_t at;
    size_t size, other_size;
    struct iface_address address, other;
    struct iface_endpoint end, other_end;
    struct iface_segment segment;
    struct iface_queue queues[2];
    struct iface_counts counts;
    struct iface_drops drops;
    struct iface_stream name;
    struct iface_lease lease;
    struct iface_dns_answer found;
    uint8_t hardware[6], flag, octets[4200];
};

enum kind {
    FRAME, NEXT, TCP_POLL, DHCP_POLL, DNS_POLL, /* more often than others */
    NEW, FREE, TCP_NEW, TCP_FREE, DHCP_NEW, DHCP_FREE, DNS_NEW, DNS_FREE, /* less often */
    ADDRESS, NO_ADDRESS, ADDRESSES, GROUP, NO_GROUP, HARDWARE, REASSEMBLY, ANY_IP, DEFAULT, ROUTE, ROUTE_UNTIL, NO_ROUTE, PIN, UNPIN,
    UDP_OPEN, RAW_OPEN, IDENT_OPEN, PORT_OPEN, TCP_OPEN, CLOSE, HOPS, UDP_SEND, RAW_SEND, ICMP_SEND, TCP_SEND, HOLD, TCP_ABORT,
    UDP_RECEIVE, RAW_RECEIVE, ICMP_RECEIVE, TCP_RECEIVE, UDP_PEEK, RAW_PEEK, ICMP_PEEK, TCP_PEEK, GIVEN_UP, CHANGED,
    APPLY, RESET, PROBING, GIVE_BACK, LISTEN, ACCEPT, NEWS, CONNECT, SEND, RECEIVE, PEEK, END, ABORT, RELEASE, NAGLE, ACK_DELAY, KEEP_ALIVE, TIMEOUT,
    CLOSE_LISTENER, HOP_LIMIT, SERVERS, START, CANCEL, RESULT, KINDS
};

/* Which calls take memory, by the header; and which of these may go on without it. */
static int takes_memory(int kind) {
    return kind == NEXT || kind == DHCP_POLL || kind == DNS_POLL || kind == NEW || kind == TCP_NEW || kind == DHCP_NEW || kind == DNS_NEW || kind == LISTEN ||
           kind == SERVERS || kind == START || (kind >= UDP_OPEN && kind <= TCP_OPEN);
}

static int goes_on(int kind) {
    return kind == NEXT || kind == DHCP_POLL || kind == DNS_POLL;
}

/* A call with its arguments, drawn once for both hosts. */
struct choice {
    int kind;
    uint32_t small, other, socket;
    uint64_t large;
    int64_t now;
    struct iface_address address, second;
    struct iface_endpoint end, peer;
    struct iface_rooms rooms;
    struct iface_config config;
    struct iface_streams_config streams;
    uint8_t hardware[6];
    size_t length, room;
    const uint8_t *octets;
};

static const struct iface_address usual[] = {
    {4, {192, 168, 69, 1}}, {4, {192, 168, 69, 2}}, {4, {192, 168, 69, 3}}, {4, {192, 168, 69, 9}}, {4, {10, 0, 0, 1}},
    {4, {239, 1, 1, 1}}, {4, {255, 255, 255, 255}}, {4, {0}}, {0, {0}}, {5, {1}},
    {6, {0xfe, 0x80, [15] = 1}}, {6, {0xfe, 0x80, [15] = 2}}, {6, {0xfe, 0x80, [15] = 3}}, {6, {0xff, 2, [15] = 5}}, {6, {0}},
    {6, {0x20, 1, 0xd, 0xb8, [15] = 1}},
};

static struct iface_address some_address(void) {
    return usual[below(2) ? 10 * below(2) + below(3) : below(sizeof usual / sizeof *usual)];
}

static uint16_t some_port(void) {
    static const uint16_t ports[] = {0, 7, 67, 68, 80, 6969, 50000, 50001};
    return ports[below(8)];
}

static uint8_t *noise(size_t length) {
    static uint8_t octets[4400];
    for (size_t i = 0; i < length; i += 8) {
        uint64_t w = word();
        memcpy(octets + i, &w, 8);
    }
    return octets;
}

static void some_config(struct iface_config *c) {
    iface_config_init(c);
    c->seed = word(), c->hardware_address[0] = 2, c->hardware_address[5] = 1;
    c->sockets = below(4) ? 16 : below(3), c->neighbors = below(2) ? 64 : below(6), c->slaac = (uint8_t)below(2);
    c->frame_len = below(4) ? LONGEST : 589 + below(927), c->patience = below(4) ? c->patience : 0;
    if (below(8) == 0) c->medium = (uint8_t)below(3), c->checksums.udp = (uint8_t)below(5), c->start = (int64_t)word();
    c->guard.on = (uint8_t)below(4), c->guard.fragments = (uint8_t)below(2), c->guard.slots = (uint8_t)below(2), c->guard.longest_error = below(4);
    c->guard.defend = below(2) * 10000000, c->guard.strangers_stay = below(2) * 20000000;
    c->guard.turns = (uint8_t)below(2), c->guard.reports = (uint8_t)below(2), c->guard.routers = (uint8_t)below(2);
}

static void some_streams(struct iface_streams_config *c) {
    iface_streams_config_init(c);
    for (size_t i = 0; i < sizeof c->number_key; i++) c->number_key[i] = (uint8_t)word();
    c->table_key[0] = below(8) ? word() : 0;
    c->places = below(8) ? 1 + below(NAMES) : 0, c->send_room = below(2) ? 2000 : below(50), c->receive_room = below(2) ? 2000 : below(50);
    c->packets = below(32), c->packet_octets = below(20000), c->far_octets = below(4000), c->ipv4 = (uint8_t)(below(8) > 0);
    c->ipv6 = (uint8_t)below(2), c->nagle = (uint8_t)below(2), c->congestion_control = (uint8_t)below(2), c->ack_delay = below(20000);
    c->keep_alive = below(2) * 5000000, c->timeout = below(2) * 9000000, c->time_wait = below(20000000);
    c->release_timeout = below(200000000);
}

/* A moment, or one before it, or one that is none. The guard's rates wait for the latest one to come again, so none is far ahead. */
static int64_t some_moment(int64_t now) {
    switch (below(64)) {
    case 0: return now - second * below(300);
    case 1: return -1 - (int64_t)(word() >> 2);
    case 2: return IFACE_LAST_MOMENT + 1 + (int64_t)(word() >> 3);
    default: return now;
    }
}

static struct choice choose(int kind, int64_t now) {
    struct choice c = {.kind = kind, .now = some_moment(now), .small = below(12), .other = below(40), .large = word()};
    c.socket = below(8), c.address = some_address(), c.second = some_address();
    c.end.address = below(2) ? some_address() : usual[8], c.end.port = some_port();
    c.peer.address = kind == TCP_OPEN && below(2) ? usual[8] : some_address(), c.peer.port = some_port();
    static const struct iface_rooms rooms[] = {IFACE_ROOMS(4, 2048), IFACE_ROOMS(0, 0), IFACE_ROOMS(1, 1), IFACE_ROOMS(40, 9000),
                                               IFACE_ROOMS(UINT32_MAX, UINT32_MAX), {1, 4000, 9, 100}};
    c.rooms = rooms[below(6)];
    some_config(&c.config), some_streams(&c.streams);
    c.hardware[0] = (uint8_t)(2 + below(8) / 7), c.hardware[5] = (uint8_t)below(4);
    c.length = below(4) ? below(200) : below(4200), c.room = below(4) ? 4200 : below(300);
    c.octets = noise(c.length);
    return c;
}

static uint32_t call_host(struct world *w, const struct choice *c, struct outcome *o) {
    iface *h = &w->host;
    switch (c->kind) {
    case FRAME: return iface_receive(h, c->now, c->octets, c->length, o->octets, c->small ? LONGEST : c->room, &o->size);
    case NEXT: return iface_next(h, c->now, o->octets, c->small ? LONGEST : c->room, &o->size);
    case NEW: return iface_new(h, &c->config);
    case FREE: return iface_free(h);
    case ADDRESS: return iface_add_address(h, &c->address, (uint8_t)(c->other * 4));
    case NO_ADDRESS: return iface_remove_address(h, &c->address, (uint8_t)(c->other * 4));
    case ADDRESSES: {
        struct iface_cidr all[5] = {{usual[0], 24}, {usual[10], 64}, {c->address, (uint8_t)(c->other * 4)}, {usual[15], 64}, {usual[0], 24}};
        return iface_set_addresses(h, all, c->small % 6);
    }
    case GROUP: return iface_join_group(h, &c->address);
    case NO_GROUP: return iface_leave_group(h, &c->address);
    case HARDWARE: return iface_set_hardware_address(h, c->hardware);
    case REASSEMBLY: return iface_set_reassembly_timeout(h, c->large % (c->small % 2 ? 20000000 : UINT64_MAX));
    case ANY_IP: return iface_set_any_ip(h, (uint8_t)(c->small % 2));
    case DEFAULT: return iface_set_default_route(h, &c->address);
    case ROUTE: return iface_add_route(h, &c->address, (uint8_t)(c->other * 4), &c->second);
    case ROUTE_UNTIL: return iface_add_route_until(h, &c->address, (uint8_t)(c->other * 4), &c->second, c->now + second);
    case NO_ROUTE: return iface_remove_route(h, &c->address, (uint8_t)(c->other * 4));
    case PIN: return iface_guard_pin(h, &c->address, c->hardware);
    case UNPIN: return iface_guard_unpin(h, &c->address);
    case UDP_OPEN: return iface_udp_open(h, &c->end, &c->rooms, &o->number);
    case RAW_OPEN: return iface_raw_open(h, (uint8_t)(c->small % 3 ? 4 : c->small), (uint8_t)(c->other % 2 ? 17 : c->other), &c->rooms, &o->number);
    case IDENT_OPEN: return iface_icmp_open_ident(h, (uint16_t)c->small, &c->rooms, &o->number);
    case PORT_OPEN: return iface_icmp_open_port(h, c->end.port, &c->rooms, &o->number);
    case TCP_OPEN: return iface_tcp_open(h, &c->end, &c->peer, &c->rooms, &o->number);
    case CLOSE: return iface_close(h, c->socket);
    case HOPS: return iface_set_hop_limit(h, c->socket, (uint8_t)c->other);
    case UDP_SEND: return iface_udp_send(h, c->socket, &c->peer, c->octets, c->length);
    case RAW_SEND: return iface_raw_send(h, c->socket, c->octets, c->length);
    case ICMP_SEND: {
        const uint8_t echo[12] = {c->address.version == 4 ? 8 : 128, 0, 0, 0, 0, (uint8_t)c->small};
        int is_echo = c->other % 4 > 0;
        return iface_icmp_send(h, c->socket, &c->address, is_echo ? echo : c->octets, is_echo ? sizeof echo : c->length);
    }
    case TCP_SEND: {
        struct iface_segment s = {c->peer, (uint32_t)c->large, c->other, 5000, (uint8_t)(c->small % 6), (uint8_t)(c->other % 2)};
        return iface_tcp_send(h, c->socket, &s, c->octets, c->length);
    }
    case HOLD: return iface_tcp_hold(h, c->socket, c->now + second);
    case TCP_ABORT: return iface_tcp_abort(h, c->socket);
    case UDP_RECEIVE: return iface_udp_receive(h, c->socket, &o->end, o->octets, c->room, &o->size);
    case RAW_RECEIVE: return iface_raw_receive(h, c->socket, o->octets, c->room, &o->size);
    case ICMP_RECEIVE: return iface_icmp_receive(h, c->socket, &o->address, o->octets, c->room, &o->size);
    case TCP_RECEIVE: return iface_tcp_receive(h, c->socket, &o->segment, o->octets, c->room, &o->size);
    case UDP_PEEK: return iface_udp_peek(h, c->socket, &o->end, o->octets, c->room, &o->size);
    case RAW_PEEK: return iface_raw_peek(h, c->socket, o->octets, c->room, &o->size);
    case ICMP_PEEK: return iface_icmp_peek(h, c->socket, &o->address, o->octets, c->room, &o->size);
    case TCP_PEEK: return iface_tcp_peek(h, c->socket, &o->segment, o->octets, c->room, &o->size);
    case GIVEN_UP: return iface_given_up(h, c->socket, &o->address);
    default: return iface_sockets_changed(h, &o->flag);
    }
}

static const char name[] = "www.example.com";

static uint32_t call_services(struct world *w, const struct choice *c, struct outcome *o) {
    iface *h = &w->host;
    iface_streams *t = &w->tcp;
    const struct iface_stream *s = &w->names[c->small % NAMES];
    const struct iface_address servers[IFACE_DNS_SERVERS] = {usual[1], c->address, {0, {0}}};
    const uint64_t key[2] = {c->large, 1};
    switch (c->kind) {
    case TCP_POLL: return iface_streams_poll(t, h, c->now);
    case DHCP_POLL: return iface_dhcp_poll(&w->client, h, c->now, &o->number);
    case TCP_NEW: return iface_streams_new(t, h, &c->streams);
    case TCP_FREE: return iface_streams_free(t, h);
    case DHCP_NEW: return iface_dhcp_new(&w->client, h, c->large, &c->end.address);
    case DHCP_FREE: return iface_dhcp_free(&w->client, h);
    case DNS_NEW: return iface_dns_new(&w->dns, c->other % 4, key, servers);
    case DNS_FREE: return iface_dns_free(&w->dns, h);
    case DNS_POLL: return iface_dns_poll(&w->dns, h, c->now);
    case SERVERS: return iface_dns_servers(&w->dns, servers);
    case START: return iface_dns_start(&w->dns, h, c->now, name, sizeof name - 1 - c->other % 4, c->small ? 1 : c->other, &o->size);
    case CANCEL: return iface_dns_cancel(&w->dns, h, c->other % 4);
    case RESULT: return iface_dns_result(&w->dns, c->other % 4, &o->found);
    case APPLY: return iface_dhcp_apply(&w->client, h);
    case RESET: return iface_dhcp_reset(&w->client);
    case PROBING: return iface_dhcp_set_probing(&w->client, (uint8_t)(c->other % 2));
    case GIVE_BACK: return iface_dhcp_release(&w->client, h);
    case LISTEN: return iface_stream_listen(t, &c->end, c->other % 5, &o->size);
    case ACCEPT: return iface_stream_accept(t, c->other % LISTENERS, &o->name);
    case NEWS: return iface_streams_changed(t, &o->name);
    case CONNECT: return iface_stream_connect(t, h, c->now, &c->end, &c->peer, &o->name);
    case SEND: return iface_stream_send(t, s, c->octets, c->length, &o->size);
    case RECEIVE: return iface_stream_receive(t, s, o->octets, c->room, &o->size);
    case PEEK: return iface_stream_peek(t, s, o->octets, c->room, &o->size);
    case END: return iface_stream_close(t, s);
    case ABORT: return iface_stream_abort(t, s);
    case RELEASE: return iface_stream_release(t, s);
    case NAGLE: return iface_stream_set_nagle(t, s, (uint8_t)c->other);
    case ACK_DELAY: return iface_stream_set_ack_delay(t, s, c->other * 1000);
    case KEEP_ALIVE: return iface_stream_set_keep_alive(t, s, c->other % 2 ? c->large : c->other * 100000);
    case TIMEOUT: return iface_stream_set_timeout(t, s, c->other % 2 ? c->large : c->other * 100000);
    case CLOSE_LISTENER: return iface_stream_close_listener(t, w->listeners[c->other % LISTENERS]);
    default: return iface_stream_set_hop_limit(t, s, (uint8_t)c->other);
    }
}

static int is_of_services(int kind) {
    return (kind >= TCP_POLL && kind <= DNS_POLL) || (kind >= TCP_NEW && kind <= DNS_FREE) || kind >= APPLY;
}

/* The octet that no field of an endpoint has, and that of a lease. */
static void clear_padding(struct outcome *o) {
    ((uint8_t *)&o->end)[17] = ((uint8_t *)&o->other_end)[17] = ((uint8_t *)&o->lease)[103] = 0;
}

static void nothing_yet(struct outcome *o) {
    memset(o, 0x77, sizeof *o);
    clear_padding(o);
}

/* Makes a call, and tests what it may write and take. */
static void make_call(struct world *w, const struct choice *c, struct outcome *o) {
    static struct outcome untouched;
    nothing_yet(o);
    nothing_yet(&untouched);
    calls++;
    heap.requests = heap.refusals = 0;
    uint32_t code = is_of_services(c->kind) ? call_services(w, c, o) : call_host(w, c, o);
    clear_padding(o);
    if (code != IFACE_OK) wants("a refused call writes nothing", memcmp(o, &untouched, sizeof untouched) == 0, 1);
    if (heap.requests > 0) wants("who takes memory", (uint64_t)takes_memory(c->kind), 1);
    o->code = code;
    if (code == IFACE_OK && (c->kind == ACCEPT || c->kind == NEWS || c->kind == CONNECT)) w->names[c->small % NAMES] = o->name;
}

/* ---- what is shown ---- */

static uint64_t mix(uint64_t hash, const void *octets, size_t length) {
    const uint8_t *at = octets;
    for (size_t i = 0; i < length; i++) hash = (hash ^ at[i]) * 0x100000001b3;
    return hash;
}

static uint64_t sockets_shown(struct world *w, struct outcome *o, uint64_t hash) {
    for (uint32_t i = 0; i < 17; i++) {
        nothing_yet(o);
        o->code = iface_queues(&w->host, i, &o->queues[0], &o->queues[1]);
        o->number = iface_hop_limit(&w->host, i, &o->flag) * 32 + iface_waiting(&w->host, i, &o->address, &o->at);
        hash = mix(hash, o, offsetof(struct outcome, octets));
    }
    return hash;
}

static uint64_t tables_shown(struct world *w, struct outcome *o, uint64_t hash) {
    for (uint32_t i = 0; i < 9; i++) {
        nothing_yet(o);
        o->code = iface_address_at(&w->host, i, &o->address, &o->flag);
        hash = mix(hash, o, offsetof(struct outcome, octets));
        o->code = iface_route_at(&w->host, i, &o->address, &o->flag, &o->other, &o->at);
        hash = mix(hash, o, offsetof(struct outcome, octets));
        o->code = iface_neighbor_at(&w->host, i, &o->address, o->hardware, &o->at);
        hash = mix(hash, o, offsetof(struct outcome, octets));
    }
    for (size_t i = 0; i < sizeof usual / sizeof *usual; i++) {
        o->code = iface_has_group(&w->host, &usual[i], &o->flag), o->number = iface_source_for(&w->host, &usual[i], &o->address);
        hash = mix(hash, o, offsetof(struct outcome, octets));
    }
    return hash;
}

static uint64_t streams_shown(struct world *w, struct outcome *o, uint64_t hash) {
    for (size_t i = 0; i < NAMES; i++) {
        uint32_t ending = 77;
        nothing_yet(o);
        o->code = iface_stream_state(&w->tcp, &w->names[i], &o->number);
        if (o->code == IFACE_OK && o->number == IFACE_ESTABLISHED) established++;
        iface_stream_ending(&w->tcp, &w->names[i], &ending);
        iface_stream_ends(&w->tcp, &w->names[i], &o->end, &o->other_end);
        iface_stream_rooms(&w->tcp, &w->names[i], &o->size, &o->other_size);
        clear_padding(o), hash = mix(mix(hash, o, offsetof(struct outcome, octets)), &ending, sizeof ending);
    }
    return hash;
}

/* A number of all that calls show which change nothing. */
static uint64_t shown(struct world *w, int64_t now) {
    static struct outcome o;
    uint64_t hash = 0xcbf29ce484222325;
    nothing_yet(&o);
    o.code = iface_counters(&w->host, &o.counts);
    o.number = iface_guard_drops(&w->host, &o.drops), iface_given_up_count(&w->host, &o.micros), iface_poll_at(&w->host, now, &o.at);
    hash = mix(hash, &o, offsetof(struct outcome, octets));
    o.code = iface_hardware_address(&w->host, o.hardware), o.number = iface_any_ip(&w->host, &o.flag);
    iface_reassembly_timeout(&w->host, &o.micros), iface_slaac_updated_at(&w->host, &o.at);
    hash = mix(hash, &o, offsetof(struct outcome, octets));
    o.code = iface_guard_conflict(&w->host, o.hardware, &o.at);
    hash = mix(hash, &o, offsetof(struct outcome, octets));
    o.code = iface_guard_pinned_conflict(&w->host, o.hardware, &o.at), o.number = iface_streams_poll_at(&w->tcp, &o.at);
    hash = mix(hash, &o, offsetof(struct outcome, octets));
    o.number = iface_dhcp_poll_at(&w->client, &o.at), o.code = iface_dhcp_lease(&w->client, &o.lease);
    leased += o.code == IFACE_OK;
    clear_padding(&o), hash = mix(hash, &o, offsetof(struct outcome, octets));
    for (size_t i = 0; i < 4; i++) {
        nothing_yet(&o);
        o.code = iface_dns_result(&w->dns, i, &o.found), o.number = iface_dns_poll_at(&w->dns, &o.at);
        found += o.code == IFACE_OK && o.found.state == IFACE_DNS_FOUND;
        hash = mix(hash, &o, offsetof(struct outcome, octets));
    }
    hash = sockets_shown(w, &o, tables_shown(w, &o, hash));
    return streams_shown(w, &o, hash);
}

/* ---- peers ---- */

static struct {
    uint8_t octets[LONGEST];
    size_t length;
} kept[KEPT];

/* Where those are that came last, as answers to the host come soon. */
static size_t newest[8];
static unsigned new_frames;

/* A frame in the list of those that may come, in place of another one. */
static uint8_t *keep(size_t length) {
    size_t i = below(KEPT);
    if (new_frames < 8) newest[new_frames++] = i;
    memset(kept[i].octets, 0, sizeof kept[i].octets);
    kept[i].length = length;
    return kept[i].octets;
}

/* A packet of either family from a peer to the host, 192.168.69.x or fe80::x, with right checksums. */
static void keep_packet(int version, uint8_t from, uint8_t to, uint8_t protocol, const uint8_t *payload, size_t n) {
    size_t header = version == 4 ? 20 : 40, sum_at = protocol == 6 ? 16 : protocol == 17 ? 6 : 2;
    n = n < LONGEST - 14 - header ? n : LONGEST - 14 - header;
    uint8_t *f = keep(14 + header + n), *p = f + 14, *body = p + header;
    memcpy(f, "\2\0\0\0\0\1\2\0\0\0\0", 11), f[11] = from, put_16(f + 12, version == 4 ? 0x0800 : 0x86dd);
    if (version == 4) {
        p[0] = 0x45, put_16(p + 2, (uint32_t)(20 + n)), p[8] = 64, p[9] = protocol;
        memcpy(p + 12, "\300\250\105\0\300\250\105", 7), p[15] = from, p[19] = to;
        put_16(p + 10, checksum_of(0, p, 20));
    } else {
        p[0] = 0x60, put_16(p + 4, (uint32_t)n), p[6] = protocol, p[7] = 255, p[8] = p[24] = 0xfe, p[9] = p[25] = 0x80;
        p[23] = from, p[39] = to;
    }
    memcpy(body, payload, n);
    if (n < sum_at + 2) return;
    uint32_t pseudo = protocol == 1 ? 0 : sum_of(protocol + (uint32_t)n, version == 4 ? p + 12 : p + 8, version == 4 ? 8 : 32);
    put_16(body + sum_at, 0), put_16(body + sum_at, checksum_of(pseudo, body, n));
}

static uint32_t get_32(const uint8_t *at) {
    return (uint32_t)get_16(at) << 16 | get_16(at + 2);
}

static void keep_segment(int version, uint8_t from, uint16_t port, uint16_t to, uint32_t seq, uint32_t ack, uint8_t flags, uint32_t window,
                         size_t n) {
    uint8_t s[120] = {0};
    put_16(s, port), put_16(s + 2, to), put_16(s + 4, seq >> 16), put_16(s + 6, seq & 0xffff), put_16(s + 8, ack >> 16);
    put_16(s + 10, ack & 0xffff), s[12] = 0x50, s[13] = flags, put_16(s + 14, window);
    for (size_t i = 0; i < n; i++) s[20 + i] = (uint8_t)i;
    keep_packet(version, from, 1, 6, s, 20 + n);
}

/* What a peer answers to a segment: it acknowledges all, sometimes sends, ends or resets. */
static void answer_segment(int version, uint8_t from, const uint8_t *s, size_t n) {
    size_t header = (size_t)(s[12] >> 4) * 4;
    if (header < 20 || header > n || s[13] & 4) return;
    uint32_t is_syn = (s[13] & 2) > 0, taken = (uint32_t)(n - header) + is_syn + (s[13] & 1);
    uint8_t flags = (uint8_t)(is_syn && !(s[13] & 16) ? 0x12 : below(16) ? below(8) ? 16 : 17 : 4);
    if (taken > 0 || below(4) == 0)
        keep_segment(version, from, get_16(s + 2), get_16(s), s[13] & 16 ? get_32(s + 8) : 1000, get_32(s + 4) + taken, flags,
                     below(4) ? 8000 : below(50), flags == 16 ? below(60) : 0);
}

/* What a server of names answers: the question again, and an address. */
static void answer_name(int version, uint8_t from, const uint8_t *asked, size_t n, uint32_t code, uint32_t records) {
    static const uint8_t record[] = {0xc0, 12, 0, 1, 0, 1, 0, 0, 0, 60, 0, 4, 192, 168, 69, 9};
    uint8_t reply[300] = {0};
    if (n < 20 || n > sizeof reply - sizeof record) return;
    memcpy(reply, asked, n), memcpy(reply + n, record, sizeof record);
    put_16(reply, 53), put_16(reply + 2, get_16(asked)), put_16(reply + 4, (uint32_t)(n + sizeof record));
    put_16(reply + 10, 0x8180 | code), put_16(reply + 14, records);
    keep_packet(version, from, 1, 17, reply, n + sizeof record);
}

static void answer_packet(int version, uint8_t from, uint8_t protocol, const uint8_t *body, size_t n) {
    uint8_t message[64] = {0};
    if (n >= 8 && n <= sizeof message && ((protocol == 1 && body[0] == 8) || (protocol == 58 && body[0] == 128))) {
        memcpy(message, body, n), message[0] = protocol == 1 ? 0 : 129;
        keep_packet(version, from, 1, protocol, message, n);
    }
    if (protocol == 6 && n >= 20) answer_segment(version, from, body, n);
    if (protocol == 17 && n >= 8 && get_16(body + 2) == 53) answer_name(version, from, body, n, below(4) ? 0 : below(6), below(8) > 0);
    else if (protocol == 17 && n >= 8 && get_16(body) != 68) keep_packet(version, from, 1, 17, noise(n < 400 ? n : 400), n < 400 ? n : 400);
    if (protocol == 58 && n >= 24 && body[0] == 135) { /* an advertisement for a solicitation (RFC 4861, 7.2.4) */
        memcpy(message + 8, body + 8, 16), message[0] = 136, message[4] = 0x60, message[24] = 2, message[25] = 1;
        memcpy(message + 26, "\2\0\0\0\0", 5), message[31] = body[23];
        keep_packet(6, body[23], 1, 58, message, 32);
    }
}

/* What comes of a frame that the host sent. */
static void answer(const uint8_t *f, size_t n) {
    if (n >= 42 && get_16(f + 12) == 0x0806 && f[21] == 1 && f[41] != 1) {
        uint8_t *reply = keep(42);
        memcpy(reply, f + 6, 6), memcpy(reply + 6, "\2\0\0\0\0", 5), memcpy(reply + 12, f + 12, 8);
        reply[11] = reply[27] = f[41], reply[21] = 2, memcpy(reply + 22, "\2\0\0\0\0", 5);
        memcpy(reply + 28, f + 38, 4), memcpy(reply + 32, f + 22, 6), memcpy(reply + 38, f + 28, 4);
    } else if (n > AT_OPTIONS + 3 && f[23] == 17 && get_16(f + 34) == 68) {
        uint8_t lease[400];
        size_t length = lease_reply(lease, f, f[AT_OPTIONS + 2] == 1 ? OFFER : below(6) ? ACK : NAK, 50, (uint8_t)(4 + below(200)));
        memcpy(keep(length), lease, length);
    } else if (n >= 34 && get_16(f + 12) == 0x0800 && get_16(f + 16) <= n - 14 && get_16(f + 16) >= 20) {
        answer_packet(4, f[33], f[23], f + 34, get_16(f + 16) - 20u);
    } else if (n >= 54 && get_16(f + 12) == 0x86dd && get_16(f + 18) <= n - 54) {
        answer_packet(6, f[53], f[20], f + 54, get_16(f + 18));
    }
}

/* Something that nobody asked for. */
static void speak(void) {
    static const uint8_t protocols[] = {1, 17, 6, 2, 58, 89};
    int version = below(2) ? 4 : 6;
    uint8_t from = (uint8_t)(2 + below(4)), *some = noise(200);
    if (below(3) == 0) {
        keep_segment(version, from, (uint16_t)(1024 + below(3)), below(2) ? 80 : 7, 999, 0, 2, 8000, 0);
        return;
    }
    uint8_t protocol = protocols[below(6)];
    if (protocol == 17) put_16(some, 1024), put_16(some + 2, some_port()), put_16(some + 4, 200);
    if (protocol == 1 && below(2)) some[0] = 8, some[1] = 0;
    if (protocol == 58) some[0] = (uint8_t)(128 + below(16)), some[1] = 0;
    keep_packet(version, from, below(8) ? 1 : 9, protocol, some, 8 + below(192));
}

/* A frame that comes: one that peers sent, as it is or changed in some octets, or noise. */
static void some_frame(struct choice *c) {
    static uint8_t frame[4400];
    size_t i = new_frames > 0 && below(4) ? newest[--new_frames] : below(KEPT);
    if (below(16) == 0 || kept[i].length == 0) return;
    memcpy(frame, kept[i].octets, LONGEST), c->length = kept[i].length;
    if (below(4) == 0) {
        for (uint32_t n = below(4); n > 0; n--) frame[below((uint32_t)c->length)] = (uint8_t)word();
        if (below(4) == 0) c->length = below(LONGEST);
    }
    c->octets = frame;
}

/* ---- episodes ---- */

/* How many requests for memory a call of each kind made at most, and at which of them some was refused. */
static unsigned most[KINDS];
static uint8_t was_refused[KINDS][256];

static int some_kind(void) {
    switch (below(8)) {
    case 0:
    case 1:
    case 2: return FRAME;
    case 3:
    case 4: return (int)(NEXT + below(4));
    case 5: return (int)(below(30) ? UDP_OPEN + below(TCP_PEEK - UDP_OPEN) : NEW + below(ADDRESS - NEW));
    default: return (int)(ADDRESS + below(KINDS - ADDRESS));
    }
}

/* Makes a call that is refused memory, and again where it is refused. Whether it went on without. What is shown is asked of both hosts,
 * as iface_poll_at sets a host's moment. */
static int call_refused(struct world *w, struct world *other, const struct choice *c, struct outcome *o, int64_t now) {
    unsigned at = below(most[c->kind] + 1);
    uint64_t before = shown(w, now);
    wants("the same is shown", shown(other, now), before);
    heap.refuse_at = at;
    make_call(w, c, o);
    heap.refuse_at = (unsigned)NEVER;
    most[c->kind] = heap.requests > most[c->kind] && heap.requests < 255 ? heap.requests : most[c->kind];
    if (heap.refusals == 0) return 0;
    refused++;
    if (at < 256 && !was_refused[c->kind][at]) was_refused[c->kind][at] = 1, places++;
    if (o->code != IFACE_NO_MEMORY) {
        wants("who goes on without memory", (uint64_t)goes_on(c->kind), 1);
        gone_on++;
        return 1;
    }
    wants("nothing has changed", shown(w, now), before);
    make_call(w, c, o);
    return 0;
}

static void begin(struct world *w) {
    static const iface no_host = IFACE_NONE;
    static const iface_streams no_streams = IFACE_STREAMS_NONE;
    static const iface_dhcp no_client = IFACE_DHCP_NONE;
    static const iface_dns no_names = IFACE_DNS_NONE;
    memset(w, 0, sizeof *w);
    w->host = no_host, w->tcp = no_streams, w->client = no_client, w->dns = no_names;
}

static void end(struct world *w) {
    iface_streams_free(&w->tcp, &w->host);
    iface_dhcp_free(&w->client, &w->host);
    iface_dns_free(&w->dns, &w->host);
    iface_free(&w->host);
}

/* The calls with which an episode begins, and which make more than refusals of it. */
static int first_kinds(int step) {
    static const int kinds[] = {NEW, ADDRESSES, TCP_NEW, DHCP_NEW, DNS_NEW, LISTEN, UDP_OPEN, START, DHCP_POLL, DNS_POLL, NEXT};
    return step < FIRST ? kinds[step] : some_kind();
}

static struct choice choose_at(int step, int64_t now) {
    struct choice c = choose(first_kinds(step), now);
    if (c.kind == FRAME) some_frame(&c);
    if (step < FIRST) {
        c.now = now, c.rooms = (struct iface_rooms)IFACE_ROOMS(4, 2048), c.small = 4;
        c.end.address.version = 0, c.end.port = 80;
        c.config.sockets = 16, c.config.medium = IFACE_ETHERNET, c.config.frame_len = LONGEST, c.config.start = 0;
        memset(&c.config.checksums, 0, sizeof c.config.checksums);
        c.streams.places = NAMES, c.streams.ipv4 = 1, c.streams.packets = 8, c.streams.packet_octets = 9000;
    }
    return c;
}

static void recovers(struct world *w, int64_t now);

static void episode(void) {
    static struct world first, other;
    static struct outcome o, also;
    int64_t now = second * (300 + below(DAY));
    int is_alone = 0;
    begin(&first), begin(&other);
    memset(kept, 0, sizeof kept);
    for (int step = 0; step < STEPS; step++) {
        now += below(4) ? below(20000) : below(3000000);
        if (below(5) == 0) speak();
        struct choice c = choose_at(step, now);
        if (is_alone) {
            heap.refuses_half = below(4) == 0;
            make_call(&first, &c, &o);
            heap.refuses_half = 0;
        } else if (takes_memory(c.kind) && below(goes_on(c.kind) ? 40 : 2) == 0) {
            is_alone = call_refused(&first, &other, &c, &o, now);
        } else {
            make_call(&first, &c, &o);
        }
        if (!is_alone) {
            make_call(&other, &c, &also);
            wants("the same outcome", memcmp(&o, &also, sizeof o) == 0, 1);
            if (step % 4 == 0) wants("the same is shown", shown(&first, now), shown(&other, now));
        }
        if (o.code == IFACE_OK && (c.kind == NEXT || c.kind == FRAME) && o.size > 0) answer(o.octets, o.size);
        datagrams += o.code == IFACE_OK && c.kind == UDP_RECEIVE;
    }
    end(&other);
    recovers(&first, now + second * DAY);
    end(&first);
    wants("blocks that stay", (uint64_t)heap.blocks, 0);
}

/* ---- after memory is back ---- */

static uint8_t out[LONGEST];

static void must(const char *what, uint32_t code) {
    wants(what, code, IFACE_OK);
}

/* Hands over the frame that was kept last. The length of the response. */
static size_t come(struct world *w, int64_t now, const uint8_t *frame, size_t length) {
    size_t n = 0;
    must("receive", iface_receive(&w->host, now, frame, length, out, sizeof out, &n));
    return n;
}

/* Keeps nothing but what `speaks` keeps, and hands that over. */
static size_t come_kept(struct world *w, int64_t now) {
    for (size_t i = 0; i < KEPT; i++)
        if (kept[i].length > 0) {
            size_t length = kept[i].length;
            kept[i].length = 0;
            return come(w, now, kept[i].octets, length);
        }
    wants("a frame", 0, 1);
    return 0;
}

/* Asks for frames until one has this protocol of IPv4, and its payload is at least so long. Its length. */
static size_t next_of(struct world *w, int64_t now, uint8_t protocol, size_t least) {
    size_t n = 1;
    for (int i = 0; i < 200 && n > 0; i++) {
        must("next", iface_next(&w->host, now, out, sizeof out, &n));
        if (n >= 34 + least && get_16(out + 12) == 0x0800 && out[23] == protocol) return n;
    }
    return 0;
}

static void answers_neighbors(struct world *w, int64_t now) {
    static const uint8_t request[42] = {255, 255, 255, 255, 255, 255, 2, 0, 0, 0, 0, 2, 8, 6, 0, 1, 8, 0, 6, 4, 0, 1, 2, 0, 0, 0, 0, 2,
                                        192, 168, 69, 2, 0, 0, 0, 0, 0, 0, 192, 168, 69, 1};
    static const uint8_t echo[16] = {8, 0, 0, 0, 0, 1, 0, 1, 'a', 'b'};
    wants("an ARP reply", come(w, now, request, sizeof request), 42);
    keep_packet(4, 2, 1, 1, echo, sizeof echo);
    wants("an echo reply", come_kept(w, now), 14 + 20 + sizeof echo);
    wants("its type", out[34], 0);
}

static void exchanges_datagrams(struct world *w, int64_t now) {
    static const uint8_t datagram[12] = {4, 0, 0, 7, 0, 12, 0, 0, 'o', 'n', 'e', '!'};
    struct iface_endpoint at_7 = {IFACE_ANY, 7}, from;
    struct iface_rooms rooms = IFACE_ROOMS(4, 2048);
    uint32_t socket;
    uint8_t got[64];
    size_t n = 0;
    must("open", iface_udp_open(&w->host, &at_7, &rooms, &socket));
    keep_packet(4, 2, 1, 17, datagram, sizeof datagram);
    wants("no response", come_kept(w, now), 0);
    must("receive", iface_udp_receive(&w->host, socket, &from, got, sizeof got, &n));
    wants("its octets", n == 4 && memcmp(got, "one!", 4) == 0 && from.port == 1024, 1);
    must("send", iface_udp_send(&w->host, socket, &from, got, n));
    wants("the datagram", next_of(w, now, 17, 12), 46), wants("its octets", memcmp(out + 42, "one!", 4) == 0, 1);
    must("close", iface_close(&w->host, socket));
}

static void accepts(struct world *w, int64_t now) {
    struct iface_streams_config config;
    struct iface_endpoint at_80 = {IFACE_ANY, 80};
    struct iface_stream s;
    size_t listener, n = 0;
    uint8_t got[100];
    iface_streams_config_init(&config);
    config.number_key[31] = 1, config.table_key[1] = 2;
    must("connections", iface_streams_new(&w->tcp, &w->host, &config));
    must("listen", iface_stream_listen(&w->tcp, &at_80, 4, &listener));
    keep_segment(4, 2, 5000, 80, 999, 0, 2, 8000, 0), come_kept(w, now), must("poll", iface_streams_poll(&w->tcp, &w->host, now));
    wants("a SYN-ACK", next_of(w, now, 6, 20) > 0 && (out[47] & 0x3f) == 0x12, 1);
    uint32_t ack = get_32(out + 38) + 1;
    keep_segment(4, 2, 5000, 80, 1000, ack, 16, 8000, 3), come_kept(w, now), must("poll", iface_streams_poll(&w->tcp, &w->host, now));
    must("accept", iface_stream_accept(&w->tcp, listener, &s));
    must("receive", iface_stream_receive(&w->tcp, &s, got, sizeof got, &n)), wants("three octets", n == 3 && got[2] == 2, 1);
    must("send", iface_stream_send(&w->tcp, &s, got, 3, &n)), must("poll", iface_streams_poll(&w->tcp, &w->host, now));
    wants("three octets", next_of(w, now, 6, 23), 14 + 20 + 20 + 3);
    must("free", iface_streams_free(&w->tcp, &w->host));
}

static void leases(struct world *w, int64_t now) {
    uint8_t lease[400], asked[LONGEST];
    uint32_t event;
    struct iface_lease got;
    must("client", iface_dhcp_new(&w->client, &w->host, 1, &usual[8])), must("no test", iface_dhcp_set_probing(&w->client, 0));
    for (int i = 0; i < 2; i++) {
        must("poll", iface_dhcp_poll(&w->client, &w->host, now, &event));
        if (next_of(w, now, 17, 240) == 0) wants("a message of DHCP", 0, 1);
        memcpy(asked, out, sizeof asked);
        come(w, now, lease, lease_reply(lease, asked, i == 0 ? OFFER : ACK, 50, 100));
    }
    must("poll", iface_dhcp_poll(&w->client, &w->host, now, &event)), wants("its event", event, IFACE_DHCP_CONFIGURED);
    must("lease", iface_dhcp_lease(&w->client, &got)), wants("its address", got.address.octets[3], 50);
    must("apply", iface_dhcp_apply(&w->client, &w->host)), must("free", iface_dhcp_free(&w->client, &w->host));
}

static void finds(struct world *w, int64_t now) {
    const struct iface_address servers[IFACE_DNS_SERVERS] = {usual[1]};
    const uint64_t key[2] = {1, 2};
    struct iface_dns_answer result;
    size_t query;
    must("names", iface_dns_new(&w->dns, 1, key, servers));
    must("start", iface_dns_start(&w->dns, &w->host, now, name, sizeof name - 1, IFACE_DNS_A, &query));
    must("poll", iface_dns_poll(&w->dns, &w->host, now));
    size_t n = next_of(w, now, 17, 20);
    wants("a question", n > 0 && get_16(out + 36) == 53, 1);
    if (n > 34) answer_name(4, 2, out + 34, n - 34, 0, 1);
    come_kept(w, now), must("poll", iface_dns_poll(&w->dns, &w->host, now));
    must("result", iface_dns_result(&w->dns, query, &result));
    wants("found", result.state == IFACE_DNS_FOUND && result.addresses[0].octets[3] == 9, 1);
    must("free", iface_dns_free(&w->dns, &w->host));
}

/* There is memory again: the same host does all that a host does, if it has places for the sockets and the usual configuration of
 * what is sent; else one that is made anew. */
static void recovers(struct world *w, int64_t now) {
    static const uint8_t own[6] = {2, 0, 0, 0, 0, 1};
    static const struct iface_cidr addresses[] = {{{4, {192, 168, 69, 1}}, 24}, {{6, {0xfe, 0x80, [15] = 1}}, 64}};
    struct iface_rooms rooms = IFACE_ROOMS(1, 1);
    uint32_t socket, sockets = 0;
    iface_streams_free(&w->tcp, &w->host), iface_dhcp_free(&w->client, &w->host), iface_dns_free(&w->dns, &w->host);
    for (uint32_t i = 0; i < 64; i++) iface_close(&w->host, i);
    while (iface_icmp_open_ident(&w->host, 1, &rooms, &socket) == IFACE_OK) sockets++;
    for (uint32_t i = 0; i < 64; i++) iface_close(&w->host, i);
    if (sockets < 8 || iface_set_hardware_address(&w->host, own) != IFACE_OK) {
        struct iface_config config;
        iface_free(&w->host);
        iface_config_init(&config);
        memcpy(config.hardware_address, own, sizeof own);
        must("host", iface_new(&w->host, &config));
    }
    for (size_t i = 0; i < sizeof usual / sizeof *usual; i++) iface_guard_unpin(&w->host, &usual[i]);
    struct iface_address network, router;
    uint8_t prefix;
    int64_t until;
    while (iface_route_at(&w->host, 0, &network, &prefix, &router, &until) == IFACE_OK) must("route", iface_remove_route(&w->host, &network, prefix));
    must("addresses", iface_set_addresses(&w->host, addresses, 2)), must("any address", iface_set_any_ip(&w->host, 0));
    next_of(w, now, 255, 0);
    memset(kept, 0, sizeof kept);
    answers_neighbors(w, now);
    exchanges_datagrams(w, now);
    accepts(w, now);
    finds(w, now);
    leases(w, now);
}

int main(int argc, char **argv) {
    int episodes = argc > 1 ? atoi(argv[1]) : 600;
    seed = argc > 2 ? strtoull(argv[2], NULL, 0) | 1 : 69;
    heap.refuse_at = (unsigned)NEVER;
    for (int i = 0; i < episodes; i++) episode();
    if (episodes >= 600) wants("connections, leases, names, datagrams", established > 0 && leased > 0 && found > 0 && datagrams > 0, 1);
    printf("fuzz: %d episodes, %lu calls, of which %lu were refused memory at %lu places, and %lu went on without\n", episodes, calls, refused,
           places, gone_on);
    printf("fuzz: connections were seen %lu times, leases %lu, names %lu, datagrams %lu; %lu checks: %lu wrong\n", established, leased, found,
           datagrams, checks, failures);
    return failures != 0;
}
