/* What calls that set and read a host do, by values of the RFCs: source addresses (RFC 6724, 10.1), the link-local
 * address of a hardware address (RFC 2464, 4), routes with an end, hop limits as they are sent, sockets at any address,
 * queues of two sizes, packets that are looked at, segments of TCP (RFC 9293, 3.1), which socket gets what comes, and what
 * a host counts. */
#include "iface.h"

#include <stdio.h>
#include <string.h>

static int failures, checks;

static uint8_t frame[IFACE_FRAME_ROOM], reply[IFACE_FRAME_ROOM], got[2048];

static const struct iface_rooms rooms = IFACE_ROOMS(4, 1024);

static void wants(const char *what, uint64_t is, uint64_t want) {
    checks++;
    if (is == want) return;
    failures++;
    printf("WRONG: %s: %llu, not %llu\n", what, (unsigned long long)is, (unsigned long long)want);
}

static void must(const char *what, uint32_t code) {
    wants(what, code, IFACE_OK);
}

static void wants_address(const char *what, const struct iface_address *is, const struct iface_address *want) {
    wants(what, memcmp(is, want, sizeof *is) == 0, 1);
}

static struct iface_address v4(uint8_t a, uint8_t b, uint8_t c, uint8_t d) {
    return (struct iface_address){4, {a, b, c, d}};
}

/* 2001:db8:net::last */
static struct iface_address doc(uint8_t net, uint8_t last) {
    return (struct iface_address){6, {0x20, 1, 0x0d, 0xb8, 0, net, [15] = last}};
}

/* fe80::last, or another address with these first octets */
static struct iface_address v6(uint8_t first, uint8_t second, uint8_t last) {
    return (struct iface_address){6, {first, second, [15] = last}};
}

static void make(iface *host, uint8_t medium, uint8_t last) {
    struct iface_config config;
    iface_config_init(&config);
    config.seed = last, config.medium = medium, config.hardware_address[0] = 2, config.hardware_address[5] = last;
    config.start = 1000;
    must("host", iface_new(host, &config));
}

/* Makes two addresses the own ones, and asks for the one that serves a destination. */
static void serves(iface *host, struct iface_address a, struct iface_address b, uint8_t prefix_len, struct iface_address to,
                   struct iface_address want) {
    struct iface_cidr own[2] = {{a, prefix_len}, {b, prefix_len}};
    struct iface_address is;
    must("own addresses", iface_set_addresses(host, own, 2));
    must("source", iface_source_for(host, &to, &is));
    wants_address("source", &is, &want);
    own[0].address = b, own[1].address = a;
    must("in the other order", iface_set_addresses(host, own, 2));
    must("source", iface_source_for(host, &to, &is));
    wants_address("source", &is, &want);
}

static void chooses_sources(void) {
    iface host = IFACE_NONE;
    struct iface_address to = v4(10, 1, 2, 3), is = {77, {0}}, loopback = v6(0, 0, 1);
    make(&host, IFACE_ETHERNET, 1);
    wants("no own address", iface_source_for(&host, &to, &is), IFACE_NOT_THERE);
    wants("nothing written", is.version, 77);
    to = doc(1, 1), must("none of IPv6", iface_source_for(&host, &to, &is));
    wants_address("::1", &is, &loopback);
    /* RFC 6724, 10.1 */
    serves(&host, doc(3, 1), v6(0xfe, 0x80, 1), 64, doc(1, 1), doc(3, 1));
    serves(&host, doc(3, 1), v6(0xfe, 0x80, 1), 64, v6(0xff, 5, 1), doc(3, 1));
    serves(&host, doc(1, 1), doc(2, 1), 64, doc(1, 1), doc(1, 1));
    serves(&host, v6(0xfe, 0x80, 2), doc(1, 1), 64, v6(0xfe, 0x80, 1), v6(0xfe, 0x80, 2));
    serves(&host, doc(1, 2), doc(3, 2), 64, doc(1, 1), doc(1, 2));
    /* IPv4: that of the destination's network, else the first one */
    serves(&host, v4(192, 168, 69, 1), v4(10, 0, 0, 1), 8, v4(10, 1, 2, 3), v4(10, 0, 0, 1));
    to = v4(8, 8, 8, 8), must("by no network", iface_source_for(&host, &to, &is));
    wants("the first one", memcmp(is.octets, "\12\0\0\1", 4) == 0, 1);
    must("no addresses", iface_set_addresses(&host, &(struct iface_cidr){{4, {0}}, 0}, 0));
    wants("none is left", iface_source_for(&host, &to, &is), IFACE_NOT_THERE);
    must("free", iface_free(&host));
}

static void makes_link_local_addresses(void) {
    /* RFC 2464, 4: the identifier of 34-56-78-9A-BC-DE is 36-56-78-FF-FE-9A-BC-DE. */
    static const uint8_t hardware[6] = {0x34, 0x56, 0x78, 0x9a, 0xbc, 0xde};
    static const struct iface_address want = {
        6, {0xfe, 0x80, 0, 0, 0, 0, 0, 0, 0x36, 0x56, 0x78, 0xff, 0xfe, 0x9a, 0xbc, 0xde}};
    struct iface_address is;
    must("link-local", iface_link_local(hardware, &is));
    wants_address("link-local", &is, &want);
}

/* Whether something is sent for a new datagram to 172.16.1.1 at a moment: a request for the router. */
static int is_routed(iface *host, int64_t now) {
    struct iface_endpoint local = {IFACE_ANY, 7}, to = {v4(172, 16, 1, 1), 7};
    uint32_t socket;
    size_t n;
    must("socket", iface_udp_open(host, &local, &(struct iface_rooms)IFACE_ROOMS(1, 64), &socket));
    must("send", iface_udp_send(host, socket, &to, (const uint8_t *)"?", 1));
    must("next", iface_next(host, now, frame, sizeof frame, &n));
    must("close", iface_close(host, socket));
    return n > 0 && frame[12] == 8 && frame[13] == 6 && memcmp(frame + 38, "\300\250\105\144", 4) == 0;
}

static void keeps_routes_until_their_end(void) {
    iface host = IFACE_NONE;
    struct iface_address own = v4(192, 168, 69, 1), network = v4(172, 16, 0, 0), router = v4(192, 168, 69, 100), to, by;
    uint8_t prefix_len;
    int64_t until;
    make(&host, IFACE_ETHERNET, 1);
    must("address", iface_add_address(&host, &own, 24));
    wants("no route", iface_route_at(&host, 0, &to, &prefix_len, &by, &until), IFACE_NOT_THERE);
    must("default", iface_set_default_route(&host, &router));
    must("route", iface_add_route_until(&host, &network, 12, &router, 5000000));
    must("for good", iface_add_route_until(&host, &network, 16, &router, IFACE_NEVER));
    must("route 1", iface_route_at(&host, 1, &to, &prefix_len, &by, &until));
    wants_address("its network", &to, &network);
    wants_address("its router", &by, &router);
    wants("its prefix", prefix_len, 12);
    wants("its end", (uint64_t)until, 5000000);
    must("route 2", iface_route_at(&host, 2, &to, &prefix_len, &by, &until));
    wants("none", (uint64_t)until, IFACE_NEVER);
    must("default", iface_route_at(&host, 0, &to, &prefix_len, &by, &until));
    wants("its prefix", prefix_len, 0);
    wants("none", (uint64_t)until, IFACE_NEVER);
    must("remove", iface_remove_route(&host, &network, 16));
    must("remove", iface_remove_route(&host, &(struct iface_address){4, {0}}, 0));
    wants("up to its end", (uint64_t)is_routed(&host, 5000000), 1);
    wants("not behind it", (uint64_t)is_routed(&host, 7000000), 0);
    must("it stays", iface_route_at(&host, 0, &to, &prefix_len, &by, &until));
    must("free", iface_free(&host));
}

/* Hands over the one packet that a host has to send. It has its hop limit at this place. */
static void sends_with(iface *from, iface *to, size_t place, uint8_t hop_limit) {
    size_t n = 0, m = 0;
    must("next", iface_next(from, 2000, frame, sizeof frame, &n));
    wants("a packet", n > 0, 1);
    wants("its hop limit", frame[place], hop_limit);
    must("receive", iface_receive(to, 2000, frame, n, reply, sizeof reply, &m));
    wants("no response", m, 0);
}

static void asks(iface *host, const char *what, uint8_t want) {
    uint8_t is = 77;
    must(what, iface_sockets_changed(host, &is));
    wants(what, is, want);
    must(what, iface_sockets_changed(host, &is));
    wants("asked again", is, 0);
}

/* What waits in what a socket received; nothing is to be sent. */
static void wants_queues(iface *host, uint32_t socket, uint32_t packets, uint32_t octets, uint32_t first) {
    struct iface_queue received, to_send;
    must("queues", iface_queues(host, socket, &received, &to_send));
    wants("packets", received.packets, packets);
    wants("octets", received.octets, octets);
    wants("the first", received.first, first);
    wants("nothing to send", to_send.packets == 0 && to_send.octets == 0 && to_send.first == 0, 1);
    wants("room for packets", received.most_packets == 4 && to_send.most_packets == 4, 1);
    wants("room for octets", received.most_octets == 1024 && to_send.most_octets == 1024, 1);
}

/* Over packets without a header of the link, one host sends to sockets of the other one at any address. */
static void sends_to_any_address(void) {
    static const uint8_t hop_limits[] = {64, 1, 255};
    iface a = IFACE_NONE, b = IFACE_NONE;
    struct iface_address a4 = v4(192, 168, 69, 1), b4 = v4(192, 168, 69, 2), a6 = doc(1, 1), b6 = doc(1, 2);
    struct iface_endpoint any[3] = {{IFACE_ANY, 7}, {v4(0, 0, 0, 0), 8}, {v6(0, 0, 0), 9}}, from;
    struct iface_counts counters;
    uint32_t at_a, at_b[3];
    uint8_t limit;
    size_t n;
    make(&a, IFACE_IP, 1), make(&b, IFACE_IP, 2);
    must("address", iface_add_address(&a, &a4, 24)), must("address", iface_add_address(&a, &a6, 64));
    must("address", iface_add_address(&b, &b4, 24)), must("address", iface_add_address(&b, &b6, 64));
    must("socket", iface_udp_open(&a, &any[0], &rooms, &at_a));
    for (int i = 0; i < 3; i++) must("socket", iface_udp_open(&b, &any[i], &rooms, &at_b[i]));
    asks(&a, "at first", 0), asks(&b, "at first", 0);
    for (int i = 0; i < 3; i++) {
        struct iface_endpoint to4 = {b4, (uint16_t)(7 + i)}, to6 = {b6, (uint16_t)(7 + i)};
        if (i > 0) must("set hop limit", iface_set_hop_limit(&a, at_a, hop_limits[i]));
        must("hop limit", iface_hop_limit(&a, at_a, &limit));
        wants("as set", limit, hop_limits[i]);
        must("send", iface_udp_send(&a, at_a, &to4, (const uint8_t *)"four", 4));
        asks(&a, "queued alone", 0);
        sends_with(&a, &b, 8, hop_limits[i]); /* time to live: RFC 791, 3.1 */
        asks(&a, "sent", 1), asks(&b, "received", 1);
        must("send", iface_udp_send(&a, at_a, &to6, (const uint8_t *)"six", 3));
        sends_with(&a, &b, 7, hop_limits[i]); /* RFC 8200, 3 */
        asks(&a, "sent", 1);
        must("over IPv4", iface_udp_receive(&b, at_b[i], &from, got, sizeof got, &n));
        wants("its octets", n == 4 && memcmp(got, "four", 4) == 0, 1);
        must("over IPv6", iface_udp_receive(&b, at_b[i], &from, got, sizeof got, &n));
        wants("its octets", n == 3 && memcmp(got, "six", 3) == 0, 1);
        asks(&b, "received", 1);
    }
    wants_queues(&b, at_b[1], 0, 0, 0);
    for (uint8_t i = 1; i < 4; i++) {
        struct iface_endpoint to = {b4, 8};
        must("send", iface_udp_send(&a, at_a, &to, (const uint8_t *)"three", i));
        sends_with(&a, &b, 8, 255);
        wants_queues(&b, at_b[1], i, (uint32_t)(i * (i + 1) / 2), 1);
    }
    must("take the first", iface_udp_receive(&b, at_b[1], &from, got, sizeof got, &n));
    wants_queues(&b, at_b[1], 2, 5, 2);
    asks(&b, "received", 1);
    must("empty frame", iface_receive(&b, 2000, frame, 0, reply, sizeof reply, &n));
    asks(&b, "an empty frame", 0);
    must("counters", iface_counters(&a, &counters));
    wants("of the sender", counters.frames_in == 0 && counters.frames_out == 9, 1);
    must("counters", iface_counters(&b, &counters));
    wants("of the receiver", counters.frames_in == 10 && counters.frames_out == 0, 1);
    wants("nothing else", counters.given_up == 0 && counters.no_memory == 0, 1);
    must("free", iface_free(&a)), must("free", iface_free(&b));
}

/* An echo request is answered: the response is counted, and the request with it (RFC 792). */
static void counts_responses(void) {
    static const uint8_t request[28] = {0x45, 0, 0, 28, 0, 1, 0, 0, 64, 1, 0x6f, 0x8c, 192, 168, 69, 2,
                                        192, 168, 69, 1, 8, 0, 0xf7, 0xd5, 0, 42, 0, 0};
    iface host = IFACE_NONE;
    struct iface_address own = v4(192, 168, 69, 1);
    struct iface_counts counters;
    size_t n;
    make(&host, IFACE_IP, 1);
    must("address", iface_add_address(&host, &own, 24));
    must("receive", iface_receive(&host, 2000, request, sizeof request, reply, sizeof reply, &n));
    wants("an echo reply", n == 28 && reply[20] == 0, 1);
    must("counters", iface_counters(&host, &counters));
    wants("both", counters.frames_in == 1 && counters.frames_out == 1, 1);
    must("free", iface_free(&host));
}

/* Learns a neighbour from its request (RFC 826), and knows it for twenty seconds, as a guard says; once it sent a datagram, for a
 * minute. A list of own addresses forgets it. */
static void knows_neighbors(void) {
    static const uint8_t arp[42] = {2, 0, 0, 0, 0, 1, 2, 0, 0, 0, 0, 9, 8, 6, 0, 1, 8, 0, 6, 4, 0, 1, 2, 0, 0, 0, 0, 9,
                                    192, 168, 69, 9, 0, 0, 0, 0, 0, 0, 192, 168, 69, 1};
    static const uint8_t datagram[42] = {2, 0, 0, 0, 0, 1, 2, 0, 0, 0, 0, 9, 8, 0, 0x45, 0, 0, 28, 0, 0, 0, 0, 64, 17, 0x6f, 0x76,
                                         192, 168, 69, 9, 192, 168, 69, 1, 0, 9, 0, 9, 0, 8, 0, 0};
    iface host = IFACE_NONE;
    struct iface_cidr own = {v4(192, 168, 69, 1), 24};
    struct iface_address is = {77, {0}}, want = v4(192, 168, 69, 9);
    uint8_t hardware[6];
    int64_t until;
    size_t n;
    make(&host, IFACE_ETHERNET, 1);
    must("addresses", iface_set_addresses(&host, &own, 1));
    wants("none", iface_neighbor_at(&host, 0, &is, hardware, &until), IFACE_NOT_THERE);
    must("receive", iface_receive(&host, 2000, arp, sizeof arp, reply, sizeof reply, &n));
    wants("a reply", n, 42);
    must("neighbour", iface_neighbor_at(&host, 0, &is, hardware, &until));
    wants_address("its address", &is, &want);
    wants("that on Ethernet", memcmp(hardware, arp + 6, 6) == 0, 1);
    wants("for twenty seconds", (uint64_t)until, 20002000);
    must("receive", iface_receive(&host, 3000, datagram, sizeof datagram, reply, sizeof reply, &n));
    must("neighbour", iface_neighbor_at(&host, 0, &is, hardware, &until));
    wants("for a minute", (uint64_t)until, 60003000);
    wants("no other", iface_neighbor_at(&host, 1, &is, hardware, &until), IFACE_NOT_THERE);
    must("the same addresses", iface_set_addresses(&host, &own, 1));
    wants("forgotten", iface_neighbor_at(&host, 0, &is, hardware, &until), IFACE_NOT_THERE);
    must("free", iface_free(&host));
}

/* A guard drops an ARP packet that claims the own address (RFC 5227, 2.4), and tells who sent it; a host without one learns
 * it. The packet counts among those that were dropped alone. */
static void guards(uint8_t on, uint8_t own_addresses) {
    static const uint8_t arp[42] = {2, 0, 0, 0, 0, 1, 2, 0, 0, 0, 0, 9, 8, 6, 0, 1, 8, 0, 6, 4, 0, 2, 2, 0, 0, 0, 0, 9,
                                    192, 168, 69, 1, 2, 0, 0, 0, 0, 1, 192, 168, 69, 1};
    iface host = IFACE_NONE;
    struct iface_config config;
    struct iface_address own = v4(192, 168, 69, 1), is;
    struct iface_drops drops;
    struct iface_counts counters;
    uint8_t hardware[6] = {0}, keeps = on != 0 && own_addresses != 0;
    int64_t at = 77;
    size_t n;
    iface_config_init(&config);
    wants("a guard", config.guard.on == 1 && config.guard.own_addresses == 1 && config.guard.loops == 1 && config.guard.slots == 1 && config.guard.fragments == 0, 1);
    wants("its rates", config.guard.errors.interval == 10000 && config.guard.errors.at_once == 10 && config.guard.strangers_stay == 20000000, 1);
    config.hardware_address[0] = 2, config.hardware_address[5] = 1, config.guard.on = on, config.guard.own_addresses = own_addresses;
    must("host", iface_new(&host, &config));
    must("address", iface_add_address(&host, &own, 24));
    wants("no conflict", iface_guard_conflict(&host, hardware, &at), IFACE_NOT_THERE);
    wants("nothing written", at == 77 && hardware[5] == 0, 1);
    must("receive", iface_receive(&host, 2000, arp, sizeof arp, reply, sizeof reply, &n));
    wants("no response", n, 0);
    wants("learnt", iface_neighbor_at(&host, 0, &is, reply, &at), keeps ? IFACE_NOT_THERE : IFACE_OK);
    must("drops", iface_guard_drops(&host, &drops));
    must("counters", iface_counters(&host, &counters));
    wants("dropped", drops.own_address == keeps && drops.own_source == 0 && drops.reset == 0, 1);
    wants("taken", counters.frames_in == !keeps, 1);
    wants("conflict", iface_guard_conflict(&host, hardware, &at), keeps ? IFACE_OK : IFACE_NOT_THERE);
    if (keeps) wants("who, and when", memcmp(hardware, arp + 6, 6) == 0 && at == 2000, 1);
    must("free", iface_free(&host));
}

/* A guard that defends an own address answers a claim of it by an announcement (RFC 5227, 2.4 c), but no other one within the time
 * between two. */
static void defends(void) {
    static const uint8_t arp[42] = {255, 255, 255, 255, 255, 255, 2, 0, 0, 0, 0, 9, 8, 6, 0, 1, 8, 0, 6, 4, 0, 1, 2, 0, 0, 0, 0, 9,
                                    192, 168, 69, 1, 0, 0, 0, 0, 0, 0, 192, 168, 69, 1};
    static const uint8_t announcement[42] = {255, 255, 255, 255, 255, 255, 2, 0, 0, 0, 0, 1, 8, 6, 0, 1, 8, 0, 6, 4, 0, 1, 2, 0, 0, 0, 0, 1,
                                             192, 168, 69, 1, 0, 0, 0, 0, 0, 0, 192, 168, 69, 1};
    static const int64_t at[5] = {2000, 2001, 10001999, 10002000, 10002001};
    iface host = IFACE_NONE;
    struct iface_config config;
    struct iface_address own = v4(192, 168, 69, 1);
    struct iface_counts counters;
    size_t n;
    iface_config_init(&config);
    wants("not by itself", config.guard.defend, 0);
    config.hardware_address[0] = 2, config.hardware_address[5] = 1, config.guard.defend = 10000000;
    must("host", iface_new(&host, &config));
    must("address", iface_add_address(&host, &own, 24));
    for (unsigned i = 0; i < 5; i++) {
        must("receive", iface_receive(&host, at[i], arp, sizeof arp, reply, sizeof reply, &n));
        wants("an announcement", n, i == 0 || i == 3 ? 42 : 0);
        if (n > 0) wants("its octets", memcmp(reply, announcement, 42) == 0, 1);
    }
    must("counters", iface_counters(&host, &counters));
    wants("two were handed over, and none was taken", counters.frames_out == 2 && counters.frames_in == 0, 1);
    must("free", iface_free(&host));
}

/* What the host itself sent may come back: a claim from the own hardware address that tells this one is no conflict. */
static void takes_its_own_back(void) {
    uint8_t arp[42] = {2, 0, 0, 0, 0, 1, 2, 0, 0, 0, 0, 1, 8, 6, 0, 1, 8, 0, 6, 4, 0, 2, 2, 0, 0, 0, 0, 1,
                       192, 168, 69, 1, 2, 0, 0, 0, 0, 1, 192, 168, 69, 1};
    iface host = IFACE_NONE;
    struct iface_config config;
    struct iface_address own = v4(192, 168, 69, 1), is;
    struct iface_drops drops;
    int64_t at = 77;
    size_t n;
    iface_config_init(&config);
    config.hardware_address[0] = 2, config.hardware_address[5] = 1;
    must("host", iface_new(&host, &config));
    must("address", iface_add_address(&host, &own, 24));
    must("receive", iface_receive(&host, 2000, arp, sizeof arp, reply, sizeof reply, &n));
    must("learnt", iface_neighbor_at(&host, 0, &is, reply, &at));
    arp[27] = 9; /* it tells another one */
    must("receive", iface_receive(&host, 2001, arp, sizeof arp, reply, sizeof reply, &n));
    must("drops", iface_guard_drops(&host, &drops));
    wants("dropped", drops.own_address, 1);
    must("learnt", iface_neighbor_at(&host, 0, &is, reply, &at));
    wants("the own one still", reply[5], 1);
    must("free", iface_free(&host));
}

/* A pinned neighbour is learnt from what tells the pinned hardware address, and from nothing else. */
static void pins(void) {
    uint8_t arp[42] = {2, 0, 0, 0, 0, 1, 2, 0, 0, 0, 0, 66, 8, 6, 0, 1, 8, 0, 6, 4, 0, 2, 2, 0, 0, 0, 0, 66,
                       192, 168, 69, 2, 2, 0, 0, 0, 0, 1, 192, 168, 69, 1};
    const uint8_t true_one[6] = {2, 0, 0, 0, 0, 2}, group[6] = {3, 0, 0, 0, 0, 2};
    iface host = IFACE_NONE;
    struct iface_config config;
    struct iface_address own = v4(192, 168, 69, 1), two = v4(192, 168, 69, 2), other = v4(10, 0, 0, 0), is, none = {5, {0}};
    struct iface_drops drops;
    uint8_t hardware[6] = {0};
    int64_t at = 77;
    size_t n;
    iface_config_init(&config);
    config.hardware_address[0] = 2, config.hardware_address[5] = 1;
    must("host", iface_new(&host, &config));
    must("address", iface_add_address(&host, &own, 24));
    wants("no version", iface_guard_pin(&host, &none, true_one), IFACE_BAD_ARGUMENT);
    wants("a group", iface_guard_pin(&host, &two, group), IFACE_NOT_UNICAST);
    wants("not pinned", iface_guard_unpin(&host, &two), IFACE_NOT_THERE);
    must("pin", iface_guard_pin(&host, &two, true_one));
    wants("no conflict", iface_guard_pinned_conflict(&host, hardware, &at), IFACE_NOT_THERE);
    must("receive", iface_receive(&host, 2000, arp, sizeof arp, reply, sizeof reply, &n));
    wants("not learnt", iface_neighbor_at(&host, 0, &is, hardware, &at), IFACE_NOT_THERE);
    must("conflict", iface_guard_pinned_conflict(&host, hardware, &at));
    wants("who, and when", hardware[5] == 66 && at == 2000, 1);
    must("drops", iface_guard_drops(&host, &drops));
    wants("dropped", drops.pinned == 1 && drops.own_address == 0, 1);
    arp[11] = arp[27] = 2;
    must("receive", iface_receive(&host, 2001, arp, sizeof arp, reply, sizeof reply, &n));
    must("learnt", iface_neighbor_at(&host, 0, &is, hardware, &at));
    wants("the pinned one", hardware[5], 2);
    for (uint8_t last = 3; last < 10; last++) other.octets[3] = last, must("pin", iface_guard_pin(&host, &other, true_one));
    other.octets[3] = 10, wants("eight are pinned", iface_guard_pin(&host, &other, true_one), IFACE_TABLE_FULL);
    must("again", iface_guard_pin(&host, &two, true_one));
    must("unpin", iface_guard_unpin(&host, &two));
    arp[11] = arp[27] = 66;
    must("receive", iface_receive(&host, 2002, arp, sizeof arp, reply, sizeof reply, &n));
    must("learnt", iface_neighbor_at(&host, 0, &is, hardware, &at));
    wants("pinned no more", hardware[5], 66);
    must("free", iface_free(&host));
}

/* A datagram whose checksums are wrong comes where they aren't verified, and one is sent with 0 where none is computed. */
static void leaves_checksums_to_the_link(void) {
    static const uint8_t datagram[29] = {0x45, 0, 0, 29, 0, 1, 0, 0, 64, 17, 0xde, 0xad, 192, 168, 69, 2,
                                         192, 168, 69, 1, 0, 9, 0, 7, 0, 9, 0xbe, 0xef, '!'};
    struct iface_address own = v4(192, 168, 69, 1);
    struct iface_endpoint local = {IFACE_ANY, 7}, from;
    uint32_t socket;
    size_t n;
    for (uint8_t how = IFACE_BOTH; how <= IFACE_NEITHER; how++) {
        int is_verified = how == IFACE_BOTH || how == IFACE_VERIFIED, is_computed = how == IFACE_BOTH || how == IFACE_COMPUTED;
        iface host = IFACE_NONE;
        struct iface_config config;
        iface_config_init(&config);
        config.medium = IFACE_IP, config.checksums.ipv4 = config.checksums.udp = how;
        must("host", iface_new(&host, &config));
        must("address", iface_add_address(&host, &own, 24));
        must("socket", iface_udp_open(&host, &local, &rooms, &socket));
        must("receive", iface_receive(&host, 2000, datagram, sizeof datagram, reply, sizeof reply, &n));
        wants("it came", iface_udp_receive(&host, socket, &from, got, sizeof got, &n), is_verified ? IFACE_EMPTY : IFACE_OK);
        from = (struct iface_endpoint){v4(192, 168, 69, 2), 9};
        must("send", iface_udp_send(&host, socket, &from, datagram, 5));
        must("next", iface_next(&host, 2000, frame, sizeof frame, &n));
        wants("a packet", n, 33);
        wants("its header's sum", (frame[10] | frame[11]) != 0, (uint64_t)is_computed);
        wants("its own sum", (frame[26] | frame[27]) != 0, (uint64_t)is_computed);
        must("free", iface_free(&host));
    }
}

/* Each queue holds what it is given, and the other one what that is given. */
static void holds_two_sizes(void) {
    static const struct iface_rooms two = {3, 500, 2, 40};
    iface host = IFACE_NONE;
    struct iface_endpoint local = {IFACE_ANY, 7}, any = {IFACE_ANY, 0}, to = {v4(192, 168, 69, 2), 9};
    struct iface_queue received, to_send;
    uint32_t socket[5];
    make(&host, IFACE_IP, 1);
    must("socket", iface_udp_open(&host, &local, &two, &socket[0]));
    must("socket", iface_raw_open(&host, 4, 89, &two, &socket[1]));
    must("socket", iface_icmp_open_ident(&host, 7, &two, &socket[2]));
    must("socket", iface_icmp_open_port(&host, 7, &two, &socket[3]));
    must("socket", iface_tcp_open(&host, &local, &any, &two, &socket[4]));
    for (int i = 0; i < 5; i++) {
        must("queues", iface_queues(&host, socket[i], &received, &to_send));
        wants("for what comes", received.most_packets == 3 && received.most_octets == 500, 1);
        wants("for what goes", to_send.most_packets == 2 && to_send.most_octets == 40, 1);
    }
    const struct iface_address own = v4(192, 168, 69, 1);
    wants("no network has it, and no route", iface_udp_send(&host, socket[0], &to, frame, 40), IFACE_NO_ROUTE);
    wants("nor its address", iface_icmp_send(&host, socket[2], &to.address, frame, 8), IFACE_NO_ROUTE);
    must("address", iface_add_address(&host, &own, 24));
    wants("41 octets", iface_udp_send(&host, socket[0], &to, frame, 41), IFACE_QUEUE_FULL);
    must("40 octets", iface_udp_send(&host, socket[0], &to, frame, 40));
    must("free", iface_free(&host));
}

/* Looks at an echo request that a raw socket and an ICMP socket got, as often as it likes, and then takes it. */
static void looks_at_packets(void) {
    static const uint8_t message[28] = {0x45, 0, 0, 28, 0, 1, 0, 0, 64, 1, 0x6f, 0x8c, 192, 168, 69, 2,
                                        192, 168, 69, 1, 0, 0, 0xff, 0xd5, 0, 42, 0, 0};
    iface host = IFACE_NONE;
    struct iface_address own = v4(192, 168, 69, 1), from = {77, {0}}, peer = v4(192, 168, 69, 2);
    uint32_t raw, icmp;
    size_t n = 77;
    make(&host, IFACE_IP, 1);
    must("address", iface_add_address(&host, &own, 24));
    must("socket", iface_raw_open(&host, 4, 1, &rooms, &raw));
    must("socket", iface_icmp_open_ident(&host, 42, &rooms, &icmp));
    wants("none", iface_icmp_peek(&host, icmp, &from, got, sizeof got, &n), IFACE_EMPTY);
    must("an echo reply", iface_receive(&host, 2000, message, sizeof message, reply, sizeof reply, &n));
    wants("too short for it", iface_icmp_peek(&host, icmp, &from, got, 7, &n), IFACE_NO_ROOM);
    wants("too short for it", iface_raw_peek(&host, raw, got, 27, &n), IFACE_NO_ROOM);
    wants("nothing written", n == 0 && from.version == 77, 1);
    for (int i = 0; i < 2; i++) {
        memset(got, 0, sizeof got);
        must("look", iface_icmp_peek(&host, icmp, &from, got, 8, &n));
        wants_address("from", &from, &peer);
        wants("the message", n == 8 && memcmp(got, message + 20, 8) == 0, 1);
        must("look", iface_raw_peek(&host, raw, got, sizeof got, &n));
        wants("the packet", n == 28 && memcmp(got + 12, message + 12, 16) == 0, 1); /* the rest is written anew */
    }
    must("take", iface_icmp_receive(&host, icmp, &from, got, sizeof got, &n));
    wants("taken", iface_icmp_peek(&host, icmp, &from, got, sizeof got, &n), IFACE_EMPTY);
    must("take", iface_raw_receive(&host, raw, got, sizeof got, &n));
    wants("taken", iface_raw_peek(&host, raw, got, sizeof got, &n), IFACE_EMPTY);
    must("free", iface_free(&host));
}

/* What stands in the header of a segment in `frame`, behind 20 octets of IPv4 (RFC 9293, 3.1). */
static void wants_header(const uint8_t ports[4], const uint8_t numbers[8], uint8_t flags, uint16_t window) {
    wants("its ports", memcmp(frame + 20, ports, 4) == 0, 1);
    wants("its numbers", memcmp(frame + 24, numbers, 8) == 0, 1);
    wants("five words", frame[32] >> 4, 5);
    wants("its flags", frame[33], flags);
    wants("its window", (uint64_t)(frame[34] << 8 | frame[35]), window);
}

static void wants_segment(const struct iface_segment *is, const struct iface_segment *want) {
    wants_address("its address", &is->remote.address, &want->remote.address);
    wants("its port", is->remote.port, want->remote.port);
    wants("its number", is->seq, want->seq);
    wants("its acknowledgement", is->ack, want->ack);
    wants("its window", is->window, want->window);
    wants("its control", is->control, want->control);
    wants("whether it acknowledges", is->has_ack, want->has_ack);
}

/* A hands out a SYN, B a SYN that acknowledges it; B holds back, and aborts, so that A's data is answered by a reset
 * (RFC 9293, 3.5.2). */
static void hands_segments_in_and_out(void) {
    static const uint8_t to_b[4] = {0x04, 0, 0, 80}, to_a[4] = {0, 80, 0x04, 0};
    iface a = IFACE_NONE, b = IFACE_NONE;
    struct iface_address own_a = v4(192, 168, 69, 1), own_b = v4(192, 168, 69, 2);
    struct iface_endpoint end_a = {IFACE_ANY, 1024}, end_b = {IFACE_ANY, 80}, any = {IFACE_ANY, 0};
    struct iface_segment syn = {{own_b, 80}, 0x01020304, 0x05060708, 64240, IFACE_TCP_SYN, 0}, is;
    uint32_t at_a, at_b;
    uint8_t limit;
    size_t n, m;
    int64_t at;
    make(&a, IFACE_IP, 1), make(&b, IFACE_IP, 2);
    must("address", iface_add_address(&a, &own_a, 24)), must("address", iface_add_address(&b, &own_b, 24));
    must("socket", iface_tcp_open(&a, &end_a, &syn.remote, &rooms, &at_a));
    must("socket", iface_tcp_open(&b, &end_b, &any, &rooms, &at_b));
    must("set hop limit", iface_set_hop_limit(&a, at_a, 9)), must("hop limit", iface_hop_limit(&a, at_a, &limit));
    wants("as set", limit, 9);
    must("send", iface_tcp_send(&a, at_a, &syn, frame, 0));
    must("next", iface_next(&a, 2000, frame, sizeof frame, &n));
    wants("a header alone", n, 40);
    wants("its hop limit", frame[8], 9);
    wants_header(to_b, (const uint8_t[]){1, 2, 3, 4, 0, 0, 0, 0}, 0x02, 64240);
    must("receive", iface_receive(&b, 2000, frame, n, reply, sizeof reply, &m));
    wants("no response", m, 0);
    syn.remote = (struct iface_endpoint){own_a, 1024}, syn.ack = 0;
    must("look", iface_tcp_peek(&b, at_b, &is, got, sizeof got, &n));
    wants("no payload", n, 0), wants_segment(&is, &syn);
    must("take", iface_tcp_receive(&b, at_b, &is, got, sizeof got, &n));
    wants("no payload", n, 0), wants_segment(&is, &syn);
    wants("taken", iface_tcp_peek(&b, at_b, &is, got, sizeof got, &n), IFACE_EMPTY);
    syn = (struct iface_segment){is.remote, 0xfffffffe, is.seq + 1, 65535, IFACE_TCP_SYN, 77};
    must("hold", iface_tcp_hold(&b, at_b, 5000000));
    must("send", iface_tcp_send(&b, at_b, &syn, frame, 0));
    must("next", iface_next(&b, 4999999, frame, sizeof frame, &n));
    wants("held back", n, 0);
    must("poll_at", iface_poll_at(&b, 4999999, &at));
    wants("until then", (uint64_t)at, 5000000);
    must("next", iface_next(&b, 5000000, frame, sizeof frame, &n));
    wants_header(to_a, (const uint8_t[]){0xff, 0xff, 0xff, 0xfe, 1, 2, 3, 5}, 0x12, 65535);
    must("receive", iface_receive(&a, 5000000, frame, n, reply, sizeof reply, &m));
    must("take", iface_tcp_receive(&a, at_a, &is, got, sizeof got, &n));
    syn.remote = (struct iface_endpoint){own_b, 80}, syn.has_ack = 1;
    wants_segment(&is, &syn);
    syn = (struct iface_segment){is.remote, is.ack, is.seq + 1, 1000, IFACE_TCP_PSH, 1};
    must("send", iface_tcp_send(&a, at_a, &syn, (const uint8_t *)"hello", 5));
    must("next", iface_next(&a, 5000000, frame, sizeof frame, &n));
    wants_header(to_b, (const uint8_t[]){1, 2, 3, 5, 0xff, 0xff, 0xff, 0xff}, 0x18, 1000);
    wants("its payload", n == 45 && memcmp(frame + 40, "hello", 5) == 0, 1);
    must("abort", iface_tcp_abort(&b, at_b));
    memcpy(reply, frame, n), must("receive", iface_receive(&b, 5000000, reply, n, frame, sizeof frame, &m));
    wants("a reset", m, 40);
    wants_header(to_a, (const uint8_t[]){0xff, 0xff, 0xff, 0xff, 0, 0, 0, 0}, 0x04, 0);
    wants("not taken", iface_tcp_receive(&b, at_b, &is, got, sizeof got, &n), IFACE_EMPTY);
    must("free", iface_free(&a)), must("free", iface_free(&b));
}

/* A link that takes two frames one after the other: a window of at most twice 1514 - 40 octets, as smoltcp's. */
static void bounds_windows(void) {
    iface host = IFACE_NONE;
    struct iface_config config;
    struct iface_address own = v4(192, 168, 69, 1);
    struct iface_endpoint local = {IFACE_ANY, 1024}, any = {IFACE_ANY, 0};
    struct iface_segment segment = {.remote = {v4(192, 168, 69, 2), 80}};
    uint32_t socket;
    size_t n;
    iface_config_init(&config);
    config.medium = IFACE_IP, config.burst = 2;
    must("host", iface_new(&host, &config));
    must("address", iface_add_address(&host, &own, 24));
    must("socket", iface_tcp_open(&host, &local, &any, &rooms, &socket));
    for (uint16_t window = 2947; window <= 2949; window++) {
        segment.window = window;
        must("send", iface_tcp_send(&host, socket, &segment, frame, 0));
        must("next", iface_next(&host, 2000, frame, sizeof frame, &n));
        wants_header((const uint8_t[]){4, 0, 0, 80}, (const uint8_t[8]){0}, 0, window < 2948 ? window : 2948);
    }
    must("free", iface_free(&host));
}

/* Writes an IPv4 packet from 192.168.69.2 (RFC 791, 3.1), with a type of service and an identification, whose payload begins
 * with these octets, and hands it over: a datagram without a checksum, or another protocol. */
static void arrives(iface *host, struct iface_address to, uint8_t protocol, uint8_t ttl, const uint8_t *payload, size_t len) {
    uint8_t packet[64] = {0x45, 0x10, 0, (uint8_t)(20 + len), 0, 77, 0, 0, ttl, protocol, 0, 0, 192, 168, 69, 2};
    uint32_t sum = 0;
    size_t n;
    memcpy(packet + 16, to.octets, 4), memcpy(packet + 20, payload, len);
    for (int i = 0; i < 20; i += 2) sum += (uint32_t)(packet[i] << 8 | packet[i + 1]);
    sum = (sum & 0xffff) + (sum >> 16), sum = ~(sum + (sum >> 16));
    packet[10] = (uint8_t)(sum >> 8), packet[11] = (uint8_t)sum;
    must("receive", iface_receive(host, 2000, packet, 20 + len, reply, sizeof reply, &n));
}

/* How many packets wait in what a socket received. */
static uint32_t count_received(iface *host, uint32_t socket) {
    struct iface_queue in = {0}, out;
    must("queues", iface_queues(host, socket, &in, &out));
    return in.packets;
}

/* A datagram comes to the first socket that accepts it, also one to a broadcast address; and so does a segment. */
static void chooses_sockets(void) {
    static const uint8_t datagram[9] = {0, 9, 0, 7, 0, 9, 0, 0, '!'};
    iface host = IFACE_NONE;
    struct iface_address own = v4(192, 168, 69, 1), peer = v4(192, 168, 69, 2);
    struct iface_endpoint at_own = {own, 7}, any = {IFACE_ANY, 7}, end = {peer, 1024}, none = {IFACE_ANY, 0};
    struct iface_segment syn = {{own, 7}, 1, 0, 100, IFACE_TCP_SYN, 0};
    uint32_t socket[2], tcp[2], sender;
    iface other = IFACE_NONE;
    size_t n, m;
    make(&host, IFACE_IP, 1), make(&other, IFACE_IP, 2);
    must("address", iface_add_address(&host, &own, 24)), must("address", iface_add_address(&other, &peer, 24));
    must("socket", iface_udp_open(&host, &at_own, &rooms, &socket[0]));
    must("socket", iface_udp_open(&host, &any, &rooms, &socket[1]));
    arrives(&host, own, 17, 64, datagram, sizeof datagram);
    arrives(&host, v4(192, 168, 69, 255), 17, 64, datagram, sizeof datagram);
    arrives(&host, v4(255, 255, 255, 255), 17, 64, datagram, sizeof datagram);
    wants("all of the first", count_received(&host, socket[0]), 3);
    wants("none of the second", count_received(&host, socket[1]), 0);
    must("close", iface_close(&host, socket[0])), must("close", iface_close(&host, socket[1]));
    must("from each end", iface_tcp_open(&host, &any, &none, &rooms, &tcp[0]));
    must("from one end", iface_tcp_open(&host, &any, &end, &rooms, &tcp[1]));
    must("socket", iface_tcp_open(&other, &(struct iface_endpoint){IFACE_ANY, 1024}, &none, &rooms, &sender));
    must("send", iface_tcp_send(&other, sender, &syn, frame, 0));
    must("next", iface_next(&other, 2000, frame, sizeof frame, &n));
    must("receive", iface_receive(&host, 2000, frame, n, reply, sizeof reply, &m));
    wants("the least number", count_received(&host, tcp[0]), 1), wants("not the other", count_received(&host, tcp[1]), 0);
    must("port 0", iface_icmp_open_port(&host, 0, &rooms, &sender));
    must("free", iface_free(&host)), must("free", iface_free(&other));
}

/* The header of a raw packet is written anew in both directions, but for its time to live; packets for others come, too. */
static void writes_raw_headers_anew(void) {
    static const uint8_t header[12] = {0x45, 0, 0, 24, 0, 0, 0x40, 0, 0, 89}, packet[24] = {
        0x45, 0x10, 0, 24, 0, 77, 0, 0, 0, 89, 0, 0, 192, 168, 69, 1, 192, 168, 69, 2, 'a', 'b', 'c', 'd'};
    iface host = IFACE_NONE;
    struct iface_address own = v4(192, 168, 69, 1);
    uint32_t raw;
    size_t n;
    make(&host, IFACE_IP, 1);
    must("address", iface_add_address(&host, &own, 24));
    must("socket", iface_raw_open(&host, 4, 89, &rooms, &raw));
    arrives(&host, v4(192, 168, 69, 77), 89, 0, (const uint8_t *)"abcd", 4);
    must("one for another host", iface_raw_receive(&host, raw, got, sizeof got, &n));
    wants("its header", n == 24 && memcmp(got, header, 10) == 0, 1);
    must("send", iface_raw_send(&host, raw, packet, sizeof packet));
    must("next", iface_next(&host, 2000, frame, sizeof frame, &n));
    wants("its header", n == 24 && memcmp(frame, header, 10) == 0, 1);
    must("free", iface_free(&host));
}

/* A default route that takes another's place is put last; a router may be of the other family; and frames of a round that
 * wait keep the hardware address of their time. */
static void keeps_what_it_has(void) {
    static const uint8_t hardware[6] = {2, 0, 0, 0, 0, 77};
    iface host = IFACE_NONE;
    struct iface_address own = v4(192, 168, 69, 1), first = v4(192, 168, 69, 9), second = v4(192, 168, 69, 8), net = v4(10, 0, 0, 0);
    struct iface_address six = v6(0xfe, 0x80, 9), is, router, groups[2] = {v4(239, 1, 1, 1), v4(239, 1, 1, 2)};
    uint8_t len;
    int64_t until;
    size_t n;
    make(&host, IFACE_ETHERNET, 1);
    must("address", iface_add_address(&host, &own, 24));
    must("default", iface_set_default_route(&host, &first)), must("route", iface_add_route(&host, &net, 8, &six));
    must("default", iface_set_default_route(&host, &second));
    must("route", iface_route_at(&host, 0, &is, &len, &router, &until));
    wants_address("by the other family", &router, &six);
    must("route", iface_route_at(&host, 1, &is, &len, &router, &until));
    wants_address("last", &router, &second);
    for (int i = 0; i < 2; i++) must("join", iface_join_group(&host, &groups[i]));
    must("next", iface_next(&host, 2000, frame, sizeof frame, &n));
    must("set hardware address", iface_set_hardware_address(&host, hardware));
    must("next", iface_next(&host, 2000, frame, sizeof frame, &n));
    wants("the second report", n > 0 && frame[33] == 2, 1);
    wants("from the old address", frame[11], 1);
    must("free", iface_free(&host));
}

/* How many own addresses, routes and groups a host of this configuration takes before its tables are full. */
static void has_room(const struct iface_config *config, unsigned addresses, unsigned routes, unsigned groups) {
    iface host = IFACE_NONE;
    struct iface_address a = v4(10, 0, 0, 1), network = v4(172, 16, 0, 0), group = v4(239, 1, 0, 1), to, by;
    uint8_t prefix;
    int64_t until;
    must("host", iface_new(&host, config));
    for (unsigned i = 0; i < addresses; i++) a.octets[1] = (uint8_t)i, must("address", iface_add_address(&host, &a, 24));
    a.octets[1]++, wants("one more address", iface_add_address(&host, &a, 24), IFACE_TABLE_FULL);
    wants("the last address", iface_address_at(&host, addresses - 1, &to, &prefix), IFACE_OK);
    wants("its octets", to.octets[1], addresses - 1);
    for (unsigned i = 0; i < routes; i++) network.octets[1] = (uint8_t)i, must("route", iface_add_route(&host, &network, 16, &a));
    network.octets[1]++, wants("one more route", iface_add_route(&host, &network, 16, &a), IFACE_TABLE_FULL);
    wants("the last route", iface_route_at(&host, routes - 1, &to, &prefix, &by, &until), IFACE_OK);
    wants("its octets", to.octets[1], routes - 1);
    network.octets[1] = 0, must("remove", iface_remove_route(&host, &network, 16));
    if (routes > 1) wants("the others move up", iface_route_at(&host, 0, &to, &prefix, &by, &until) == IFACE_OK && to.octets[1] == 1, 1);
    for (unsigned i = 0; i < groups; i++) group.octets[2] = (uint8_t)i, must("group", iface_join_group(&host, &group));
    group.octets[2]++, wants("one more group", iface_join_group(&host, &group), IFACE_TABLE_FULL);
    must("free", iface_free(&host));
}

/* One of the two pieces of a datagram of 16 octets to port 7 from 192.168.69.`from`, without a checksum of UDP (RFC 768). */
static void piece(uint8_t octets[42], uint8_t from, int second) {
    static const uint8_t head[42] = {2, 0, 0, 0, 0, 1, 2, 0, 0, 0, 0, 9, 8, 0, 0x45, 0, 0, 28, 0, 1, 0, 0, 64, 17, 0, 0, 192, 168, 69, 0,
                                     192, 168, 69, 1, 0, 9, 0, 7, 0, 16, 0, 0};
    uint32_t sum = 0;
    memcpy(octets, head, sizeof head);
    octets[29] = from, octets[second ? 21 : 20] = second ? 1 : 0x20;
    if (second) memset(octets + 34, 'a', 8);
    for (int i = 14; i < 34; i += 2) sum += (uint32_t)(octets[i] << 8 | octets[i + 1]);
    sum = (sum & 0xffff) + (sum >> 16), sum = ~(sum + (sum >> 16));
    octets[24] = (uint8_t)(sum >> 8), octets[25] = (uint8_t)sum;
}

/* The first pieces of twenty datagrams, each from another host, and then the second ones: as many arrive as the host puts together at a
 * time. */
static void puts_together(const struct iface_config *config, unsigned at_once) {
    iface host = IFACE_NONE;
    struct iface_address own = v4(192, 168, 69, 1);
    struct iface_endpoint from, local = {{0, {0}}, 7};
    uint32_t socket;
    unsigned arrived = 0;
    size_t n;
    must("host", iface_new(&host, config)), must("address", iface_add_address(&host, &own, 24));
    must("socket", iface_udp_open(&host, &local, &(struct iface_rooms)IFACE_ROOMS(32, 1024), &socket));
    for (int second = 0; second < 2; second++)
        for (uint8_t peer = 10; peer < 30; peer++) {
            piece(frame, peer, second);
            must("receive", iface_receive(&host, 1000, frame, 42, reply, sizeof reply, &n));
        }
    while (iface_udp_receive(&host, socket, &from, got, sizeof got, &n) == IFACE_OK) arrived++, wants("whole", n, 8);
    wants("put together", arrived, at_once);
    must("free", iface_free(&host));
}

static void has_capacities(void) {
    struct iface_config config;
    iface_config_init(&config);
    config.hardware_address[0] = 2, config.hardware_address[5] = 1, config.guard.on = 0;
    has_room(&config, 8, 8, 16), puts_together(&config, 16);
    config.addresses = 4, config.routes = 0, config.groups = 8, config.fragmented = 0;
    has_room(&config, 4, 4, 8), puts_together(&config, 2);
    config.addresses = 0, config.routes = 1, config.groups = 1, config.fragmented = 1;
    has_room(&config, 4, 1, 1), puts_together(&config, 1);
    config.addresses = 0xffffffff, config.routes = 0xffffffff, config.groups = 0xffffffff, config.fragmented = 20;
    has_room(&config, 16, 32, 16), puts_together(&config, 20);
    config.fragmented = 0xffffffff;
    iface host = IFACE_NONE;
    wants("more memory than there is", iface_new(&host, &config), IFACE_NO_MEMORY);
}

int main(void) {
    leaves_checksums_to_the_link();
    has_capacities();
    chooses_sources();
    knows_neighbors();
    guards(1, 1), guards(1, 0), guards(0, 1);
    defends();
    takes_its_own_back(), pins();
    makes_link_local_addresses();
    keeps_routes_until_their_end();
    sends_to_any_address();
    counts_responses();
    holds_two_sizes();
    looks_at_packets();
    hands_segments_in_and_out();
    bounds_windows();
    chooses_sockets();
    writes_raw_headers_anew();
    keeps_what_it_has();
    printf("calls: %d checks: %d wrong\n", checks, failures);
    return failures != 0;
}
