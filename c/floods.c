/* What the peers of a host get while a stranger sends so many frames a second: without a guard and with room for 64 neighbours,
 * without one and with room for 128, and with the guard as iface_config_init makes it. With the guard no share is less than without
 * one and room for 64, but for two in a hundred. Prints the lines of the tables in docs/floods.txt.
 *
 *   floods        at thirteen rates, from a frame in five seconds to a thousand a second
 *   floods few    at three of them, for a slow machine
 *
 * Time is virtual, and a frame arrives at once. A peer answers when the host asks for it, so do the strangers of one flood. All
 * addresses are 10.x.x.x and fe80::x by the same number of 24 bits, and so are the hardware addresses; the host is number 1.
 */
#include "iface.h"

#include "examples/octets.h"

#include <stdio.h>

enum { SECOND = 1000000, TICK = SECOND / 20, OWN = 1, PEERS = 0x10000, STRANGERS = 0x100000, MOST_PEERS = 400 };
enum { ECHO_PORT = 7, OTHER_PORT = 1000, CLOSED_PORT = 4000 };

static int failures;

static void must(const char *what, uint32_t code) {
    if (code == IFACE_OK) return;
    printf("WRONG: %s: code %u\n", what, code);
    failures++;
}

/* The host, its two sockets, and the time. */
static iface host;
static uint32_t echo_socket, other_socket;
static int64_t now;

/* How many are to be answered, and how many are. */
static unsigned wanted, answered;

/* Nothing counts before this instant. */
static int64_t counted_from;

/* ---- peers ---- */

struct peer {
    int64_t next_at; /* when it speaks again, or asks */
    int64_t spoke_at; /* when it did, if no answer came yet */
    unsigned times; /* how often it speaks still */
    uint8_t v6, is_told, waits, is_counted;
};

static struct peer peers[MOST_PEERS];
static unsigned peer_count;
/* To which port they send datagrams; 0: they ping. */
static uint16_t port;

/* How many strangers the host asked for and was answered. */
static uint32_t strangers_asked;

/* ---- frames ---- */

static void put_24(uint8_t *at, uint32_t id) {
    at[0] = (uint8_t)(id >> 16), at[1] = (uint8_t)(id >> 8), at[2] = (uint8_t)id;
}

static uint32_t get_24(const uint8_t *at) {
    return (uint32_t)at[0] << 16 | (uint32_t)at[1] << 8 | at[2];
}

static uint8_t frame[IFACE_FRAME_ROOM];

static void ethernet(uint32_t from, uint16_t type) {
    memset(frame, 0, sizeof frame);
    frame[0] = frame[6] = 2, put_24(frame + 3, OWN), put_24(frame + 9, from), put_16(frame + 12, type);
}

static struct iface_address address_of(uint8_t v6, uint32_t id) {
    struct iface_address a = {4, {10}};
    if (v6) a = (struct iface_address){6, {0xfe, 0x80}};
    put_24(a.octets + (v6 ? 13 : 1), id);
    return a;
}

/* One in no network of the host. */
static struct iface_address far_address(uint8_t v6, uint32_t id) {
    struct iface_address a = {4, {172}};
    if (v6) a = (struct iface_address){6, {0x20, 1, 0x0d, 0xb8}};
    put_24(a.octets + (v6 ? 13 : 1), id);
    return a;
}

/* A packet to the host, or to another destination, around a payload that is at octet 34 or 54 already. */
static size_t packet(uint8_t v6, struct iface_address from, struct iface_address to, uint8_t protocol, size_t length) {
    uint8_t *ip = frame + 14;
    if (v6) {
        ip[0] = 0x60, put_16(ip + 4, (uint32_t)length), ip[6] = protocol, ip[7] = 255;
        memcpy(ip + 8, from.octets, 16), memcpy(ip + 24, to.octets, 16);
        return 54 + length;
    }
    ip[0] = 0x45, put_16(ip + 2, 20 + (uint32_t)length), ip[8] = 64, ip[9] = protocol;
    memcpy(ip + 12, from.octets, 4), memcpy(ip + 16, to.octets, 4);
    put_16(ip + 10, checksum_of(0, ip, 20));
    return 34 + length;
}

/* A message of ICMPv6 at octet 54 gets its checksum. */
static void sum_icmpv6(size_t length) {
    put_16(frame + 56, 0);
    put_16(frame + 56, checksum_of(icmpv6_sum(frame + 14, length), frame + 54, length));
}

/* A neighbour message of `type`, or ARP with `operation`, of one number about another. */
static size_t message(uint8_t v6, uint8_t operation, uint32_t from, uint32_t about) {
    ethernet(from, v6 ? 0x86dd : 0x806);
    if (!v6) {
        memcpy(frame + 14, (uint8_t[]){0, 1, 8, 0, 6, 4, 0, operation}, 8);
        frame[22] = 2, put_24(frame + 25, from), frame[28] = 10, put_24(frame + 29, from);
        if (operation == 2) frame[32] = 2, put_24(frame + 35, OWN);
        frame[38] = 10, put_24(frame + 39, about);
        return 42;
    }
    struct iface_address target = address_of(1, operation == 2 ? from : about);
    frame[54] = operation == 2 ? 136 : 135, frame[58] = operation == 2 ? 0x60 : 0, memcpy(frame + 62, target.octets, 16);
    frame[78] = operation == 2 ? 2 : 1, frame[79] = 1, frame[80] = 2, put_24(frame + 83, from);
    size_t n = packet(1, address_of(1, from), address_of(1, OWN), 58, 32);
    sum_icmpv6(32);
    return n;
}

/* An echo request from an address (RFC 792, RFC 4443). */
static size_t ping_from(struct iface_address source, uint32_t from) {
    uint8_t v6 = source.version == 6;
    ethernet(from, v6 ? 0x86dd : 0x800);
    uint8_t *at = frame + (v6 ? 54 : 34);
    at[0] = v6 ? 128 : 8, at[5] = at[7] = 1;
    size_t n = packet(v6, source, address_of(v6, OWN), v6 ? 58 : 1, 16);
    if (v6) sum_icmpv6(16);
    else put_16(at + 2, checksum_of(0, at, 16));
    return n;
}

static size_t ping(uint8_t v6, uint32_t from) {
    return ping_from(address_of(v6, from), from);
}

/* A datagram of one octet from an address. Over IPv4 its checksum is 0: none. */
static size_t datagram(struct iface_address source, uint32_t from, uint16_t to) {
    uint8_t v6 = source.version == 6;
    ethernet(from, v6 ? 0x86dd : 0x800);
    uint8_t *at = frame + (v6 ? 54 : 34);
    put_16(at, 9999), put_16(at + 2, to), put_16(at + 4, 9), at[8] = 'x';
    size_t n = packet(v6, source, address_of(v6, OWN), 17, 9);
    if (v6) put_16(at + 6, checksum_of(sum_of(17 + 9, frame + 22, 32), at, 9));
    return n;
}

/* ---- the host among them ---- */

static void see(const uint8_t *sent, size_t length);

/* Hands the frame over, of so many octets, and what is sent in response to whom it is for. */
static void give(size_t length) {
    uint8_t out[IFACE_FRAME_ROOM];
    size_t n = 0;
    must("receive", iface_receive(&host, now, frame, length, out, sizeof out, &n));
    if (n > 0) see(out, n);
}

static struct peer *peer_of(uint32_t id) {
    return id >= PEERS && id < PEERS + peer_count ? &peers[id - PEERS] : NULL;
}

static void speak(uint32_t id) {
    struct peer *peer = peer_of(id);
    give(port != 0 ? datagram(address_of(peer->v6, id), id, port) : ping(peer->v6, id));
}

static void see_answer(struct peer *peer) {
    if (peer == NULL || !peer->waits) return;
    peer->waits = 0;
    answered += peer->is_counted && now - peer->spoke_at <= SECOND;
}

/* What a report of IGMP or MLD is for. */
static void (*see_report)(const uint8_t *report, size_t length);

/* A frame that the host sent: who is asked for answers, and who was told where the host is speaks. */
static void see(const uint8_t *sent, size_t length) {
    unsigned type = get_16(sent + 12), v6 = type == 0x86dd, icmp = v6 && sent[20] == 58;
    uint32_t to = get_24(sent + (v6 ? 51 : type == 0x806 ? 39 : 31)), target = v6 ? get_24(sent + 75) : to;
    if ((type == 0x806 && sent[21] == 1) || (icmp && sent[54] == 135)) {
        strangers_asked += target >= 2 * STRANGERS;
        if (peer_of(target) || target >= 2 * STRANGERS) give(message((uint8_t)v6, 2, target, OWN));
    } else if (type == 0x806 || (icmp && sent[54] == 136)) {
        if (peer_of(to) && !peer_of(to)->is_told) peer_of(to)->is_told = 1, speak(to);
    } else if (sent[v6 ? 20 : 23] == 17 || (icmp && (sent[54] == 129 || sent[54] == 1)) || (!v6 && sent[23] == 1 && sent[34] % 3 == 0)) {
        see_answer(peer_of(to));
    } else if (see_report != NULL) {
        see_report(sent, length);
    }
}

/* The program: it sends back what is short, and counts what is long. Then the host sends what it has. */
static void settle(void) {
    static uint8_t payload[2048], out[IFACE_FRAME_ROOM];
    struct iface_endpoint from;
    size_t n;
    while (iface_udp_receive(&host, echo_socket, &from, payload, sizeof payload, &n) == IFACE_OK) {
        if (n <= 1) (void)iface_udp_send(&host, echo_socket, &from, payload, n);
        else see_answer(peer_of(get_24(from.address.octets + 1)));
    }
    for (must("next", iface_next(&host, now, out, sizeof out, &n)); n > 0; must("next", iface_next(&host, now, out, sizeof out, &n)))
        see(out, n);
}

/* ---- floods ---- */

/* The frame of this number is sent. */
typedef void flood_frame(uint8_t v6, uint32_t k);

static void claims(uint8_t v6, uint32_t k) {
    give(message(v6, 1, STRANGERS + k, OWN));
}

static void claims_of_others(uint8_t v6, uint32_t k) {
    give(message(v6, 1, STRANGERS + k, 5));
}

static void renewed(uint8_t v6, uint32_t k) {
    give(message(v6, 1, STRANGERS + k % 127, OWN));
}

static void ask_and_speak(uint8_t v6, uint32_t k) {
    give(k % 2 == 0 ? message(v6, 1, STRANGERS + k / 2, OWN) : ping(v6, STRANGERS + k / 2));
}

/* Once a second a new stranger pings, for whom the host asks, and who answers; each of 110 such pings in turn, and all else are
 * claims. */
static void answering(uint8_t v6, uint32_t k) {
    static int64_t new_at, again_at;
    static uint32_t last, next;
    if (k == 0) new_at = again_at = now, last = next = 0;
    if (now >= new_at && last < 110) give(ping(v6, 2 * STRANGERS + last++)), new_at = now + SECOND + SECOND / 20;
    else if (now >= again_at && last > 0) give(ping(v6, 2 * STRANGERS + next++ % last)), again_at = now + SECOND / 3;
    else claims(v6, k);
}

/* A solicitation that came by a router, which has no checksum. */
static void from_afar(uint8_t v6, uint32_t k) {
    size_t n = message(v6, 1, STRANGERS + k, OWN);
    frame[21] = 57, put_16(frame + 56, 0);
    give(n);
}

static void absent_pings(uint8_t v6, uint32_t k) {
    give(ping(v6, STRANGERS + k));
}

static void closed_port(uint8_t v6, uint32_t k) {
    give(datagram(address_of(v6, STRANGERS + k), STRANGERS + k, CLOSED_PORT));
}

/* From beyond the gateway, which is the first peer. */
static void closed_port_from_afar(uint8_t v6, uint32_t k) {
    give(datagram(far_address(v6, STRANGERS + k), PEERS, CLOSED_PORT));
}

static void open_port(uint8_t v6, uint32_t k) {
    give(datagram(address_of(v6, STRANGERS + k), STRANGERS + k, ECHO_PORT));
}

/* To the open port, from an address to which the host has no route. */
static void without_route(uint8_t v6, uint32_t k) {
    give(datagram(far_address(v6, STRANGERS + k), STRANGERS, ECHO_PORT));
}

/* An advertisement of a router for so many seconds (RFC 4861 4.2). */
static void advertise(uint32_t from, uint32_t lifetime) {
    ethernet(from, 0x86dd);
    frame[54] = 134, frame[58] = 64, put_16(frame + 60, lifetime);
    size_t n = packet(1, address_of(1, from), address_of(1, OWN), 58, 16);
    sum_icmpv6(16);
    give(n);
}

static void rogues(uint8_t v6, uint32_t k) {
    (void)v6, advertise(STRANGERS + k, 1800);
}

static void short_rogues(uint8_t v6, uint32_t k) {
    (void)v6, advertise(STRANGERS + k, 1);
}

/* Two fragments that belong to no other. */
static void stray_fragments(uint8_t v6, uint32_t k) {
    (void)v6;
    ethernet(STRANGERS + k, 0x800);
    put_16(frame + 18, k & 0xffff), put_16(frame + 20, 0x2000);
    give(packet(0, address_of(0, STRANGERS + k), address_of(0, OWN), 17, 8));
}

/* A query to a group (RFC 2236 2; RFC 3810 5.1) about a group, all zeros for all, to be answered within a time. */
static void query(uint8_t v6, struct iface_address to, struct iface_address group, uint16_t code, int is_summed) {
    uint8_t *at = frame + (v6 ? 54 : 34);
    ethernet(STRANGERS, v6 ? 0x86dd : 0x800);
    if (v6) memcpy(frame, (uint8_t[]){0x33, 0x33}, 2), memcpy(frame + 2, to.octets + 12, 4);
    else memcpy(frame, (uint8_t[]){1, 0, 0x5e}, 3), memcpy(frame + 3, to.octets + 1, 3);
    memcpy(at + (v6 ? 8 : 4), group.octets, v6 ? 16 : 4);
    at[0] = v6 ? 130 : 0x11, at[1] = v6 ? 0 : (uint8_t)code;
    if (v6) put_16(at + 4, code), at[24] = 2, at[25] = 125;
    size_t n = packet(v6, address_of(v6, STRANGERS), to, v6 ? 58 : 2, v6 ? 28 : 8);
    if (v6) frame[21] = 1, sum_icmpv6(28);
    else put_16(at + 2, checksum_of(0, at, 8));
    if (!is_summed) at[2] ^= 1;
    give(n);
}

static struct iface_address every_group(uint8_t v6) {
    return (struct iface_address){v6 ? 6 : 4, {0}};
}

static struct iface_address all_hosts(uint8_t v6) {
    return v6 ? (struct iface_address){6, {0xff, 2, [15] = 1}} : (struct iface_address){4, {224, 0, 0, 1}};
}

/* The host is in number 1 of these, and in no other. */
static struct iface_address group_of(uint8_t v6, uint8_t number) {
    return v6 ? (struct iface_address){6, {0xff, 0x0e, [15] = number}} : (struct iface_address){4, {239, 1, 1, number}};
}

static uint16_t ten_seconds(uint8_t v6) {
    return v6 ? 10000 : 100;
}

static uint16_t longest(uint8_t v6) {
    return v6 ? 0xffff : 255;
}

static void about_another(uint8_t v6, uint32_t k) {
    (void)k, query(v6, all_hosts(v6), group_of(v6, 2), ten_seconds(v6), 1);
}

static void about_all_hosts(uint8_t v6, uint32_t k) {
    (void)k, query(v6, all_hosts(v6), all_hosts(v6), ten_seconds(v6), 1);
}

static void about_every(uint8_t v6, uint32_t k) {
    (void)k, query(v6, all_hosts(v6), every_group(v6), ten_seconds(v6), 1);
}

static void about_the_own(uint8_t v6, uint32_t k) {
    (void)k, query(v6, group_of(v6, 1), group_of(v6, 1), ten_seconds(v6), 1);
}

static void unsummed(uint8_t v6, uint32_t k) {
    (void)k, query(v6, all_hosts(v6), every_group(v6), ten_seconds(v6), 0);
}

static void about_every_for_long(uint8_t v6, uint32_t k) {
    (void)k, query(v6, all_hosts(v6), every_group(v6), longest(v6), 1);
}

static void about_the_own_for_long(uint8_t v6, uint32_t k) {
    (void)k, query(v6, group_of(v6, 1), group_of(v6, 1), longest(v6), 1);
}

/* ---- flows ---- */

struct flow {
    const char *name;
    unsigned peers;    /* how many there are; every other one over IPv6 in a flow of both families */
    int64_t apart;     /* one begins so long after the other */
    int64_t every;     /* each speaks so often */
    unsigned times;    /* and so many times, 0 for ever */
    int64_t lasts;     /* so long is counted */
    uint8_t are_known; /* the host knows them before the flood */
    uint8_t are_told;  /* they know where the host is, so they never ask */
    uint8_t both, slaac;
    uint16_t port;     /* they send datagrams to it; 0: they ping */
    void (*begin)(uint8_t v6), (*tick)(uint8_t v6, int64_t since);
};

static const struct flow *flow;

/* A peer asks until it is told, and pings then. */
static void turn_of(uint32_t id) {
    struct peer *peer = peer_of(id);
    if (now < peer->next_at || (flow->times > 0 && peer->times == flow->times)) return;
    peer->next_at += flow->every, peer->times++;
    peer->waits = 1, peer->spoke_at = now, peer->is_counted = now >= counted_from;
    wanted += peer->is_counted;
    if (peer->is_told) speak(id);
    else give(message(peer->v6, 1, id, OWN));
    settle();
}

/* A datagram of the host to one new peer after the other. */
static void own_datagram(uint8_t v6, int64_t since) {
    if (since < 0 || since % (5 * SECOND / 2) != 0) return;
    uint32_t at = (uint32_t)(since / (5 * SECOND / 2));
    if (at >= peer_count) return;
    struct iface_endpoint to = {address_of(v6, PEERS + at), 9};
    peers[at].waits = peers[at].is_counted = 1, peers[at].spoke_at = now, wanted++;
    (void)iface_udp_send(&host, other_socket, &to, (const uint8_t *)"!", 1);
}

/* Packets by a gateway, which asks for the host each half a minute. */
static void set_gateway(uint8_t v6) {
    struct iface_address gateway = address_of(v6, PEERS);
    must("route", iface_set_default_route(&host, &gateway));
}

static void far_pings(uint8_t v6, int64_t since) {
    if (since % (30 * SECOND) == 0) give(message(v6, 1, PEERS, OWN)), settle();
    if (since < 0 || since % (SECOND / 2) != 0) return;
    peers[0].waits = peers[0].is_counted = 1, peers[0].spoke_at = now, wanted++;
    give(ping_from(far_address(v6, PEERS), PEERS));
}

/* The true router is number PEERS - 1. */
static int has_route(void) {
    struct iface_address network, router;
    uint8_t prefix_len;
    int64_t until;
    for (uint32_t place = 0; iface_route_at(&host, place, &network, &prefix_len, &router, &until) == IFACE_OK; place++)
        if (get_24(router.octets + 13) == PEERS - 1 && until > now) return 1;
    return 0;
}

static void first_advertisement(uint8_t v6) {
    (void)v6, advertise(PEERS - 1, 30), settle();
}

static void true_router(uint8_t v6, int64_t since) {
    (void)v6;
    if (since % (10 * SECOND) == 0) advertise(PEERS - 1, 30), settle();
    if (since >= 0 && since % SECOND == 0) wanted++, answered += (unsigned)has_route();
}

/* When the last true query was sent, if it isn't answered yet. */
static int64_t asked_at;

static void see_group(const uint8_t *report, size_t length) {
    int is_there = 0;
    const uint8_t *at = report + 14 + 4 * (report[14] % 16);
    if (get_16(report + 12) == 0x800) is_there = report[23] == 2 && at[0] == 0x16 && memcmp(at + 4, group_of(0, 1).octets, 4) == 0;
    else if (length > 62 && report[62] == 143)
        for (size_t k = 74; k + 16 <= length; k += 20) is_there |= memcmp(report + k, group_of(1, 1).octets, 16) == 0;
    if (!is_there || asked_at < 0 || now - asked_at > 10 * SECOND) return;
    asked_at = -1, answered++;
}

static void join(uint8_t v6) {
    struct iface_address group = group_of(v6, 1);
    asked_at = -1, see_report = see_group;
    must("group", iface_join_group(&host, &group));
    for (int i = 0; i < 200; i++, now += TICK) settle();
}

static void true_queries(uint8_t v6, int64_t since) {
    if (since < 0 || since % (12 * SECOND) != SECOND) return;
    wanted++, asked_at = now;
    query(v6, all_hosts(v6), every_group(v6), ten_seconds(v6), 1);
}

/* The second of two comes when the first one has just been answered. */
static void repeated_queries(uint8_t v6, int64_t since) {
    if (since < 0 || (since % (24 * SECOND) != SECOND && since % (24 * SECOND) != 7 * SECOND)) return;
    wanted++, asked_at = now;
    query(v6, all_hosts(v6), every_group(v6), ten_seconds(v6), 1);
}

/* Long datagrams of the peers, in two pieces each. */
static void long_datagrams(uint8_t v6, int64_t since) {
    if (since < 0 || since % SECOND != 0) return;
    for (uint32_t id = PEERS; id < PEERS + peer_count; id++) {
        struct peer *peer = peer_of(id);
        peer->waits = peer->is_counted = 1, peer->spoke_at = now, wanted++;
        for (uint32_t piece = 0; piece < 2; piece++) {
            ethernet(id, 0x800);
            put_16(frame + 18, (uint32_t)(since / SECOND)), put_16(frame + 20, piece == 0 ? 0x2000 : 100);
            if (piece == 0) put_16(frame + 34, 9999), put_16(frame + 36, ECHO_PORT), put_16(frame + 38, 1600);
            give(packet(v6, address_of(v6, id), address_of(v6, OWN), 17, 800));
        }
        settle();
    }
}

/* ---- cases ---- */

enum { NO_GUARD, NO_GUARD_WIDE, GUARD, WAYS };

struct flood {
    const char *name;
    flood_frame *send;
    int64_t before;  /* so long before what is counted it begins */
    uint8_t is_slow; /* also where it sends much */
};

static void begin(unsigned way, uint8_t v6) {
    struct iface_config config;
    struct iface_address own4 = address_of(0, OWN), own6 = address_of(1, OWN);
    struct iface_endpoint at = {.port = ECHO_PORT};
    const struct iface_rooms rooms = IFACE_ROOMS(128, 16384);
    now += 1000 * SECOND;
    iface_config_init(&config);
    config.seed = 1, config.start = now, config.hardware_address[0] = 2, config.hardware_address[5] = OWN, config.slaac = flow->slaac;
    if (way != GUARD) config.guard.on = 0, config.neighbors = way == NO_GUARD ? 64 : 128;
    host = (iface)IFACE_NONE;
    must("host", iface_new(&host, &config));
    must("address", iface_add_address(&host, &own4, 8)), must("address", iface_add_address(&host, &own6, 64));
    must("socket", iface_udp_open(&host, &at, &rooms, &echo_socket));
    at.port = OTHER_PORT, must("socket", iface_udp_open(&host, &at, &rooms, &other_socket));
    wanted = answered = 0, strangers_asked = 0, see_report = NULL, port = flow->port, peer_count = flow->peers;
    for (uint32_t i = 0; i < peer_count; i++)
        peers[i] = (struct peer){.v6 = flow->both ? i % 2 : v6, .is_told = flow->are_told};
    settle();
    for (uint32_t id = PEERS; flow->are_known && id < PEERS + peer_count; id++) give(message(peer_of(id)->v6, 1, id, OWN)), settle();
    if (flow->begin) flow->begin(v6);
}

/* How long a flood goes on before anything counts, and how long it counts: not as long where it sends much. */
static int64_t time_before(const struct flood *flood, double rate) {
    if (flood == NULL) return 10 * SECOND;
    return flood->is_slow || rate < 50 || flood->before < 10 * SECOND ? flood->before : 10 * SECOND;
}

static int64_t time_counted(double rate) {
    return rate < 500 ? flow->lasts : flow->lasts / 2;
}

static void begin_peers(void) {
    for (uint32_t i = 0; i < peer_count; i++)
        peers[i].next_at = flow->every == 0 ? INT64_MAX : (flow->are_known ? now : counted_from) + i * flow->apart;
}

/* So many of a thousand are answered. */
static unsigned share_of(unsigned way, const struct flood *flood, double rate, uint8_t v6) {
    begin(way, v6);
    int64_t begun = now, due;
    counted_from = begun + time_before(flood, rate);
    begin_peers();
    for (uint32_t k = 0; now < counted_from + time_counted(rate);) {
        int64_t tick = now + TICK;
        for (; flood != NULL && (due = begun + (int64_t)((k + .37) * SECOND / rate)) < tick; k++) now = due, flood->send(v6, k), settle();
        now = tick;
        if (flow->tick) flow->tick(v6, now - counted_from), settle();
        for (uint32_t id = PEERS; id < PEERS + peer_count; id++) turn_of(id);
        settle();
    }
    must("free", iface_free(&host));
    return wanted == 0 ? 0 : (1000 * answered + wanted / 2) / wanted;
}

static const double rates[] = {2, 10, 100, 1000, .2, .5, .7, 1, 3, 5, 30, 55, 64};
enum { RATES = sizeof rates / sizeof rates[0], SHOWN = 4 };
static unsigned rates_tried = RATES;

/* The shares of a case by the three ways. That of the guard is no less than without one and room for 64. */
static void compare(const char *name, const struct flood *flood, double rate, uint8_t v6, unsigned *shares) {
    for (unsigned way = 0; way < WAYS; way++) shares[way] = share_of(way, flood, rate, v6);
    if (shares[GUARD] + 20 >= shares[NO_GUARD]) return;
    printf("WRONG: %s, %s, %g a second: %u of 1,000 without a guard, %u with room for 128, %u with it\n", flow->name, name, rate,
           shares[NO_GUARD], shares[NO_GUARD_WIDE], shares[GUARD]);
    failures++;
}

static unsigned percent(unsigned share) {
    return (share + 5) / 10;
}

/* The end of a line: the shares at the rates that are shown, beside a flood over one family. */
static void write_shares(char *text, size_t room, const struct flood *flood, uint8_t v6) {
    unsigned shares[WAYS];
    for (unsigned i = 0, n = 0; i < rates_tried; i++) {
        compare(flood->name, flood, rates[i], v6, shares);
        if (i < SHOWN) n += (unsigned)snprintf(text + n, room - n, " %u · %u · %u |", percent(shares[0]), percent(shares[1]), percent(shares[2]));
    }
}

enum { OVER_4 = 1, OVER_6 = 2, OVER_BOTH = OVER_4 | OVER_6 };

/* A line of the table: a flow beside a flood; two, where the families differ. */
static void line(const struct flow *of, const struct flood *flood, unsigned families) {
    char over4[256] = "", over6[256] = "";
    flow = of;
    if (families & OVER_4) write_shares(over4, sizeof over4, flood, 0);
    if (families & OVER_6) write_shares(over6, sizeof over6, flood, 1);
    int are_same = strcmp(over4, over6) == 0;
    if (are_same) printf("| %s | %s | both |%s\n", of->name, flood->name, over4);
    else if (families & OVER_4) printf("| %s | %s | IPv4 |%s\n", of->name, flood->name, over4);
    if (!are_same && families & OVER_6) printf("| %s | %s | IPv6 |%s\n", of->name, flood->name, over6);
    fflush(stdout);
}

static const struct flow newcomers = {.name = "20 newcomers", .peers = 20, .apart = 59 * TICK, .every = SECOND, .times = 10, .lasts = 66 * SECOND},
    known = {.name = "20 known, each 5 s", .peers = 20, .apart = 5 * TICK, .every = 5 * SECOND, .lasts = 60 * SECOND, .are_known = 1},
    rarely = {.name = "20 known, each 30 s", .peers = 20, .apart = 30 * TICK, .every = 30 * SECOND, .lasts = 120 * SECOND, .are_known = 1},
    crowd = {.name = "datagrams of 100, each second", .peers = 100, .apart = TICK / 5, .every = SECOND, .lasts = 30 * SECOND, .are_known = 1, .port = ECHO_PORT},
    rare_crowd = {.name = "datagrams of 100, each 30 s", .peers = 100, .apart = 6 * TICK, .every = 30 * SECOND, .lasts = 120 * SECOND,
                  .are_known = 1, .port = ECHO_PORT},
    silent = {.name = "pings of 40 who never ask", .peers = 40, .apart = TICK / 2, .every = SECOND, .lasts = 60 * SECOND, .are_told = 1},
    by_gateway = {.name = "pings by a gateway, each 0.5 s", .peers = 1, .lasts = 60 * SECOND, .are_known = 1, .begin = set_gateway, .tick = far_pings},
    own = {.name = "own datagrams to 24 new neighbours", .peers = 24, .lasts = 59 * SECOND, .tick = own_datagram},
    routed = {.name = "the true router's route", .lasts = 60 * SECOND, .slaac = 1, .begin = first_advertisement, .tick = true_router},
    service = {.name = "10 known, each 5 s, routers on", .peers = 10, .apart = 10 * TICK, .every = 5 * SECOND, .lasts = 60 * SECOND, .are_known = 1, .slaac = 1},
    queries = {.name = "true queries for all groups", .lasts = 120 * SECOND, .begin = join, .tick = true_queries},
    repeated = {.name = "true queries of IGMP, 6 s apart", .lasts = 120 * SECOND, .begin = join, .tick = repeated_queries},
    errors = {.name = "errors to 20 known, each 5 s", .peers = 20, .apart = 5 * TICK, .every = 5 * SECOND, .lasts = 60 * SECOND, .are_known = 1,
              .port = CLOSED_PORT, .begin = set_gateway},
    pieces = {.name = "long datagrams of 4 known", .peers = 4, .lasts = 30 * SECOND, .are_known = 1, .tick = long_datagrams},
    storm60 = {.name = "60 of both families begin at once", .peers = 120, .every = SECOND, .times = 10, .lasts = 15 * SECOND, .both = 1},
    storm200 = {.name = "200 of both families begin at once", .peers = 400, .every = SECOND, .times = 10, .lasts = 15 * SECOND, .both = 1},
    rare_storm = {.name = "200 of both families, each 30 s", .peers = 400, .apart = 6 * TICK, .every = 30 * SECOND, .times = 4, .lasts = 240 * SECOND, .both = 1};

static const struct flood of_new = {"forged claims of ever new addresses", claims, 60 * SECOND, 0},
    of_others = {"solicitations for other hosts", claims_of_others, 60 * SECOND, 0},
    of_a_set = {"claims of 127 addresses in turn", renewed, 60 * SECOND, 0},
    speaking = {"strangers who ask and ping", ask_and_speak, 60 * SECOND, 0},
    asked = {"strangers who ping and answer", answering, 120 * SECOND, 1},
    far = {"solicitations from beyond a router", from_afar, 60 * SECOND, 0},
    absent = {"pings of absent ones", absent_pings, 10 * SECOND, 0},
    closed = {"datagrams to a closed port", closed_port, 10 * SECOND, 0},
    far_closed = {"datagrams from afar to a closed port", closed_port_from_afar, 10 * SECOND, 0},
    open = {"datagrams of absent ones", open_port, 10 * SECOND, 0},
    lost = {"datagrams without a way back", without_route, 10 * SECOND, 0},
    advertised = {"rogue routers", rogues, 0, 0},
    for_a_second = {"rogue routers, for a second each", short_rogues, 0, 0},
    strays = {"stray fragments", stray_fragments, 10 * SECOND, 0};

static const struct flood asked_groups[] = {{"about another group", about_another, 0, 0}, {"about all hosts", about_all_hosts, 0, 0},
    {"for all, 10 s", about_every, 0, 0}, {"for the own group, 10 s", about_the_own, 0, 0}, {"with a wrong checksum", unsummed, 0, 0},
    {"for all, the longest time", about_every_for_long, 0, 0}, {"for the own group, the longest time", about_the_own_for_long, 0, 0}};

static void neighbor_lines(void) {
    static const struct flow *const flows[] = {&newcomers, &known, &rarely, &by_gateway};
    static const struct flood *const floods[] = {&of_new, &of_a_set, &speaking, &asked};
    for (unsigned i = 0; i < sizeof flows / sizeof flows[0]; i++) {
        for (unsigned k = 0; k < sizeof floods / sizeof floods[0]; k++) line(flows[i], floods[k], OVER_BOTH);
        line(flows[i], &of_others, OVER_6), line(flows[i], &far, OVER_6);
    }
    line(&crowd, &of_new, OVER_BOTH), line(&rare_crowd, &of_new, OVER_BOTH);
}

static void other_lines(void) {
    static const struct flood *const floods[] = {&absent, &closed, &open, &lost};
    for (unsigned i = 0; i < sizeof floods / sizeof floods[0]; i++) line(&own, floods[i], OVER_BOTH), line(&silent, floods[i], OVER_BOTH);
    line(&routed, &advertised, OVER_6), line(&service, &advertised, OVER_6);
    line(&routed, &for_a_second, OVER_6), line(&service, &for_a_second, OVER_6);
    for (unsigned i = 0; i < sizeof asked_groups / sizeof asked_groups[0]; i++) line(&queries, &asked_groups[i], OVER_BOTH);
    line(&errors, &far_closed, OVER_BOTH);
    line(&pieces, &strays, OVER_4);
}

/* Without a flood. */
static void calm_lines(void) {
    static const struct flow *const flows[] = {&storm60, &storm200, &rare_storm, &crowd, &rare_crowd, &silent, &repeated};
    for (unsigned i = 0; i < sizeof flows / sizeof flows[0]; i++) {
        unsigned shares[WAYS];
        flow = flows[i];
        compare("no flood", NULL, 0, 0, shares);
        printf("| %s | %u | %u | %u |\n", flow->name, percent(shares[0]), percent(shares[1]), percent(shares[2]));
    }
}

int main(int count, char **words) {
    (void)words;
    if (count > 1) rates_tried = SHOWN - 1;
    calm_lines();
    neighbor_lines();
    other_lines();
    return failures != 0;
}
