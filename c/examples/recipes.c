/* What a program does for one purpose, a function each: C.md shows them. It runs each of them against a link on which nobody
 * answers, in simulated time, and fails where one doesn't do what it says.
 *
 *   recipes
 */
#include "iface.h"

#include <stdio.h>
#include <stdlib.h>

static void must(const char *what, uint32_t code) {
    if (code == IFACE_OK) return;
    fprintf(stderr, "recipes: %s: %s\n", what, iface_strerror(code));
    exit(1);
}

/* ---- a host that leases its address ---- */

/* Call it after each frame, and at the instant that it returns; then send the frames of iface_next. */
static int64_t lease_address(iface_dhcp *client, iface *host, int64_t now) {
    uint32_t event;
    int64_t at = IFACE_NEVER;
    must("dhcp", iface_dhcp_poll(client, host, now, &event));
    if (event != IFACE_DHCP_NOTHING) must("lease", iface_dhcp_apply(client, host));
    must("dhcp", iface_dhcp_poll_at(client, &at));
    return at;
}

/* ---- a server of TCP ---- */

/* Sends back what came by a connection, as much as there is room for, and then its end. Whether the connection goes on. */
static int serve(iface_streams *tcp, const struct iface_stream *s) {
    uint8_t octets[1024];
    size_t came, sent;
    uint32_t state;
    must("peek", iface_stream_peek(tcp, s, octets, sizeof octets, &came));
    must("send", iface_stream_send(tcp, s, octets, came, &sent));
    must("receive", iface_stream_receive(tcp, s, octets, sent, &sent)); /* what was taken needn't stay */
    must("state", iface_stream_state(tcp, s, &state));
    if (state != IFACE_CLOSED && (came > 0 || state < IFACE_CLOSE_WAIT)) return 1;
    if (state != IFACE_CLOSED) must("close", iface_stream_close(tcp, s));
    must("release", iface_stream_release(tcp, s));
    return 0;
}

enum { PLACES = 16 };
static struct iface_stream open_streams[PLACES];
static size_t open_count;

/* Call it after each frame, and at the instant that it returns; then send the frames of iface_next. */
static int64_t serve_all(iface_streams *tcp, iface *host, size_t listener, int64_t now) {
    int64_t at = IFACE_NEVER;
    must("poll", iface_streams_poll(tcp, host, now));
    while (open_count < PLACES && iface_stream_accept(tcp, listener, &open_streams[open_count]) == IFACE_OK) open_count++;
    for (size_t i = open_count; i-- > 0;)
        if (!serve(tcp, &open_streams[i])) open_streams[i] = open_streams[--open_count];
    must("poll", iface_streams_poll(tcp, host, now)); /* what the service wrote */
    must("poll at", iface_streams_poll_at(tcp, &at));
    return at;
}

/* ---- a link that goes down and up ---- */

/* The cable is in again, perhaps at another network: neighbours are forgotten, and an address is leased anew. */
static void link_is_up(iface *host, iface_dhcp *client, int64_t now) {
    must("reset", iface_dhcp_reset(client)); /* the lease is given up, and its address asked for again */
    lease_address(client, host, now);        /* and its address and route are taken out, if there were any */
}

/* ---- a static fallback ---- */

static const struct iface_address all = {4, {0}}, fallback = {4, {192, 168, 69, 1}}, router = {4, {192, 168, 69, 254}};
static int is_fallen_back;

/* Call it after lease_address: ten seconds after `since` without a lease the host has an address of its own, until there is one. */
static void fall_back(iface_dhcp *client, iface *host, int64_t since, int64_t now) {
    struct iface_lease lease;
    int is_leased = iface_dhcp_lease(client, &lease) == IFACE_OK;
    if (!is_leased && !is_fallen_back && now - since >= 10000000) {
        must("address", iface_add_address(host, &fallback, 24));
        must("router", iface_set_default_route(host, &router));
        is_fallen_back = 1;
    } else if (is_leased && is_fallen_back) {
        must("address", iface_remove_address(host, &fallback, 24));
        must("router", iface_remove_route(host, &all, 0)); /* the first one, before that of the lease */
        is_fallen_back = 0;
    }
}

/* ---- an address of a name ---- */

/* Asks for an IPv4 address of www.example.com. iface_dns_new makes the client, with a random key and up to three servers. */
static size_t ask(iface_dns *dns, iface *host, int64_t now) {
    size_t query;
    must("start", iface_dns_start(dns, host, now, "www.example.com", 15, IFACE_DNS_A, &query));
    must("poll", iface_dns_poll(dns, host, now)); /* after each frame, and at the instant of iface_dns_poll_at, too */
    return query;
}

/* Whether the query has its result, which says why there is no address, or has up to four. */
static int is_answered(iface_dns *dns, iface *host, size_t query, struct iface_dns_answer *result) {
    must("result", iface_dns_result(dns, query, result));
    if (result->state == IFACE_DNS_PENDING) return 0;
    must("cancel", iface_dns_cancel(dns, host, query)); /* its number is free again */
    return 1;
}

/* ---- a link-local address ---- */

static void add_link_local(iface *host, const struct iface_config *config) {
    struct iface_address link_local;
    must("link-local", iface_link_local(config->hardware_address, &link_local));
    must("address", iface_add_address(host, &link_local, 64));
}

/* ---- no heap ---- */

/* The least that a host takes: 26,768 octets, of an array that rattle_alloc hands out (freestanding.c has the six functions). */
static uint32_t make_small(iface *host, uint64_t seed, const uint8_t hardware_address[6]) {
    struct iface_config config;
    iface_config_init(&config);
    for (int i = 0; i < 6; i++) config.hardware_address[i] = hardware_address[i];
    config.seed = seed;
    config.sockets = 1;    /* 736 octets each */
    config.neighbors = 0;  /* four, in the host itself */
    config.routes = 0;     /* likewise */
    config.fragmented = 0; /* two packets in fragments at a time, likewise */
    return iface_new(host, &config);
}

/* ---- thousands of sockets ---- */

/* Opens so many sockets of UDP, from a port on, in a host whose configuration has `sockets` for them. */
static void open_many(iface *host, uint16_t first_port, uint32_t *sockets, uint32_t count) {
    static const struct iface_rooms small = IFACE_ROOMS(2, 512); /* 2,304 octets a socket */
    for (uint32_t i = 0; i < count; i++) {
        struct iface_endpoint local = {.port = (uint16_t)(first_port + i)};
        must("socket", iface_udp_open(host, &local, &small, &sockets[i]));
    }
}

/* Call it after each frame: it looks at the sockets only where something can have come. */
static void take_all(iface *host, const uint32_t *sockets, uint32_t count, void (*take)(uint32_t socket, const uint8_t *, size_t)) {
    struct iface_endpoint remote;
    uint8_t octets[512], changed;
    size_t length;
    must("changed", iface_sockets_changed(host, &changed));
    for (uint32_t i = 0; changed && i < count; i++)
        while (iface_udp_receive(host, sockets[i], &remote, octets, sizeof octets, &length) == IFACE_OK)
            take(sockets[i], octets, length);
}

/* ---- a device that checks sums ---- */

/* The link drops what comes with a wrong checksum, and writes those of what is sent. What it can't do stays IFACE_BOTH. */
static void leave_sums_to_the_link(struct iface_config *config) {
    config->checksums.ipv4 = config->checksums.udp = config->checksums.tcp = IFACE_NEITHER;
    config->checksums.icmpv4 = IFACE_COMPUTED; /* the link verifies, and doesn't compute */
}

/* ---- all of them, where nobody answers ---- */

/* Sends all frames to nobody. */
static void send_all(iface *host, int64_t now) {
    uint8_t frame[IFACE_FRAME_ROOM];
    size_t length;
    do must("next", iface_next(host, now, frame, sizeof frame, &length));
    while (length > 0);
}

static void take_nothing(uint32_t socket, const uint8_t *octets, size_t length) {
    fprintf(stderr, "recipes: socket %u got %zu octets, of nobody: %p\n", socket, length, (const void *)octets);
    exit(1);
}

/* A host that asks for a lease in vain, falls back, serves, and whose link goes down and up. */
static void try_services(void) {
    iface host = IFACE_NONE;
    iface_dhcp client = IFACE_DHCP_NONE;
    iface_streams tcp = IFACE_STREAMS_NONE;
    struct iface_streams_config connections;
    struct iface_config config;
    struct iface_endpoint port = {.port = 80};
    struct iface_address none = IFACE_ANY, own;
    uint8_t bits;
    size_t listener;
    iface_config_init(&config);
    config.seed = 1, config.hardware_address[0] = 2;
    leave_sums_to_the_link(&config);
    must("host", iface_new(&host, &config));
    must("client", iface_dhcp_new(&client, &host, 1, &none));
    iface_streams_config_init(&connections);
    connections.places = PLACES, connections.number_key[0] = 1, connections.table_key[0] = 1; /* a program draws its two keys */
    must("connections", iface_streams_new(&tcp, &host, &connections));
    must("listen", iface_stream_listen(&tcp, &port, PLACES, &listener));
    for (int64_t now = 0, at; now < 20000000; now = at) {
        at = lease_address(&client, &host, now);
        fall_back(&client, &host, 0, now);
        if (now > 10000000 && !is_fallen_back) must("fall back", IFACE_EMPTY);
        int64_t served = serve_all(&tcp, &host, listener, now), sent;
        send_all(&host, now);
        must("poll at", iface_poll_at(&host, now, &sent));
        at = at < served ? at : served, at = at < sent ? at : sent;
        if (at <= now) at = now + 1000;
    }
    must("own address", iface_address_at(&host, 0, &own, &bits));
    link_is_up(&host, &client, 20000000);
    must("free", iface_streams_free(&tcp, &host)), must("free", iface_dhcp_free(&client, &host)), must("free", iface_free(&host));
}

/* A host with a link-local address, which asks a server that isn't there for a name. */
static void try_names(void) {
    static const uint64_t key[2] = {1, 2}; /* a program draws it */
    static const struct iface_address servers[3] = {{4, {192, 168, 69, 100}}};
    iface host = IFACE_NONE;
    iface_dns dns = IFACE_DNS_NONE;
    struct iface_dns_answer result;
    struct iface_config config;
    iface_config_init(&config);
    config.seed = 3, config.hardware_address[0] = 2;
    must("host", iface_new(&host, &config));
    add_link_local(&host, &config);
    must("address", iface_add_address(&host, &fallback, 24));
    must("names", iface_dns_new(&dns, 4, key, servers));
    size_t query = ask(&dns, &host, 0);
    int64_t now = 0;
    while (!is_answered(&dns, &host, query, &result)) {
        send_all(&host, now);
        must("poll at", iface_dns_poll_at(&dns, &now));
        must("poll", iface_dns_poll(&dns, &host, now));
    }
    if (result.state != IFACE_DNS_TIMED_OUT || now != 10000000) must("a time-out after ten seconds", IFACE_EMPTY);
    must("free", iface_dns_free(&dns, &host)), must("free", iface_free(&host));
}

/* A small host, and one with thousands of sockets. */
static void try_sizes(void) {
    static uint32_t sockets[4000];
    static const uint8_t hardware_address[6] = {2, 0, 0, 0, 0, 1};
    iface small = IFACE_NONE, large = IFACE_NONE;
    struct iface_config config;
    must("small host", make_small(&small, 1, hardware_address));
    iface_config_init(&config);
    config.seed = 2, config.hardware_address[0] = 2, config.sockets = 4000;
    must("large host", iface_new(&large, &config));
    open_many(&large, 10000, sockets, 4000);
    send_all(&large, 0);
    take_all(&large, sockets, 4000, take_nothing);
    must("free", iface_free(&small)), must("free", iface_free(&large));
}

int main(void) {
    try_services();
    try_names();
    try_sizes();
    puts("recipes: all did what they say");
    return 0;
}
