/* Connections whose path carries shorter packets than their links, and peers that can't be reached: two hosts in one process, and a router
 * between them that drops what is too long for it. It tells so by ICMP (RFC 1191, RFC 8201), or doesn't (RFC 2923 2.1).
 *
 *  - 100,000 octets each way of telling, over both versions: they arrive, and no packet is longer than the router takes, once it told.
 *  - Messages that quote a segment which isn't on its way, or another connection, or that tell of less than every path carries.
 *  - A connection that is being opened: after a hard error it ends, after a soft one it goes on, and that is told once it times out (RFC 9293
 *    3.9.2.2). One that is open lives on.
 *  - A neighbour that isn't there ends a connection that is being opened to it.
 */
#include "iface.h"

#include <stdio.h>
#include <string.h>

enum { SECOND = 1000000, PORT = 80, OCTETS = 100000 };

static int failures;

static void must(const char *what, uint32_t code) {
    if (code == IFACE_OK) return;
    printf("WRONG: %s: code %u\n", what, code), failures++;
}

static void wants(const char *what, int is_right) {
    if (is_right) return;
    printf("WRONG: %s\n", what), failures++;
}

static int64_t now;

/* A host with its connections, the own address of each version, and the one behind which all others are. */
struct end {
    iface host;
    iface_streams tcp;
};

static const uint8_t router_v4[4] = {10, 0, 0, 9};
static const uint8_t router_v6[16] = {0x20, 0x01, 0x0d, 0xb8, [15] = 9};

static struct iface_address v4(uint8_t net) {
    return (struct iface_address){4, {10, 0, net, 1}};
}

static struct iface_address v6(uint8_t net) {
    return (struct iface_address){6, {0x20, 0x01, 0x0d, 0xb8, [7] = net, [15] = 1}};
}

static void make_with(struct end *e, uint8_t net, uint32_t medium, int64_t timeout) {
    struct iface_config config;
    struct iface_streams_config streams;
    struct iface_address own4 = v4(net), own6 = v6(net), any4 = {.version = 4}, any6 = {.version = 6};
    struct iface_address by4 = {4, {10, 0, net, 9}}, by6 = {6, {0x20, 0x01, 0x0d, 0xb8, [7] = net, [15] = 9}};
    *e = (struct end){IFACE_NONE, IFACE_NONE};
    iface_config_init(&config);
    config.seed = net + 1u, config.medium = (uint8_t)medium, config.frame_len = medium == IFACE_IP ? 1500 : 1514;
    config.hardware_address[0] = 2, config.hardware_address[5] = (uint8_t)(net + 1);
    must("host", iface_new(&e->host, &config));
    must("address", iface_add_address(&e->host, &own4, 24)), must("address", iface_add_address(&e->host, &own6, 64));
    must("route", iface_add_route(&e->host, &any4, 0, &by4)), must("route", iface_add_route(&e->host, &any6, 0, &by6));
    iface_streams_config_init(&streams);
    for (uint8_t i = 0; i < 32; i++) streams.number_key[i] = (uint8_t)(i + net + 1);
    streams.table_key[0] = 7, streams.table_key[1] = net + 1u, streams.places = 4, streams.timeout = (uint64_t)timeout;
    must("connections", iface_streams_new(&e->tcp, &e->host, &streams));
}

static void end(struct end *e) {
    must("free", iface_streams_free(&e->tcp, &e->host)), must("free", iface_free(&e->host));
}

/* ---- the router ---- */

static void put(uint8_t *at, size_t n, uint32_t number) {
    for (size_t i = n; i-- > 0; number >>= 8) at[i] = (uint8_t)number;
}

static uint32_t get(const uint8_t *at, size_t n) {
    uint32_t number = 0;
    for (size_t i = 0; i < n; i++) number = number << 8 | at[i];
    return number;
}

static uint32_t sum_of(const uint8_t *at, size_t n, uint32_t sum) {
    for (size_t i = 0; i < n; i++) sum += (uint32_t)at[i] << (i % 2 ? 0 : 8);
    while (sum >> 16) sum = (sum & 0xffff) + (sum >> 16);
    return sum;
}

/* A message of ICMP to the sender of a packet, which it quotes (RFC 792, RFC 4443 3): its header and 8 octets, or as much as 1,280 hold. */
static void message(struct end *to, const uint8_t *quoted, size_t length, uint8_t type, uint8_t code, uint32_t mtu) {
    static uint8_t packet[1280], out[IFACE_FRAME_ROOM];
    size_t n = 77;
    memset(packet, 0, sizeof packet);
    if (quoted[0] >> 4 == 4) {
        memcpy(packet, (uint8_t[]){0x45, 0, 0, 56, 0, 0, 0, 0, 64, 1}, 10);
        memcpy(packet + 12, router_v4, 4), memcpy(packet + 16, quoted + 12, 4);
        put(packet + 10, 2, 0xffff & ~sum_of(packet, 20, 0));
        packet[20] = type, packet[21] = code, put(packet + 26, 2, mtu), memcpy(packet + 28, quoted, 28);
        put(packet + 22, 2, 0xffff & ~sum_of(packet + 20, 36, 0));
        length = 56;
    } else {
        size_t kept = length < 1232 ? length : 1232, rest = 8 + kept;
        packet[0] = 0x60, put(packet + 4, 2, (uint32_t)rest), packet[6] = 58, packet[7] = 64;
        memcpy(packet + 8, router_v6, 16), memcpy(packet + 24, quoted + 8, 16);
        packet[40] = type, packet[41] = code, put(packet + 44, 4, mtu), memcpy(packet + 48, quoted, kept);
        put(packet + 42, 2, 0xffff & ~sum_of(packet + 8, 32 + rest, 58 + (uint32_t)rest));
        length = 40 + rest;
    }
    must("receive", iface_receive(&to->host, now, packet, length, out, sizeof out, &n));
    wants("a message of ICMP isn't answered", n == 0);
}

/* How long packets may be, whether that is told, and what is told; how many were dropped, and how long one was at most since the first. */
static struct {
    size_t mtu;
    int tells;
    uint32_t told;
    unsigned dropped;
    size_t longest;
} path;

/* Carries what one end sends to the other; whether there was something. */
static int carry(struct end *from, struct end *to) {
    static uint8_t packet[IFACE_FRAME_ROOM];
    size_t n;
    must("next", iface_next(&from->host, now, packet, sizeof packet, &n));
    if (n == 0) return 0;
    if (n > path.mtu) {
        path.dropped++;
        if (path.tells) message(from, packet, n, packet[0] >> 4 == 4 ? 3 : 2, packet[0] >> 4 == 4 ? 4 : 0, path.told);
    } else {
        static uint8_t reply[IFACE_FRAME_ROOM];
        size_t m = 0;
        if (path.dropped > 0 && n > path.longest) path.longest = n;
        must("receive", iface_receive(&to->host, now, packet, n, reply, sizeof reply, &m));
    }
    return 1;
}

/* Both ends do what is due at this instant. */
static void settle(struct end *a, struct end *b) {
    for (int moves = 1; moves;) {
        must("poll", iface_streams_poll(&a->tcp, &a->host, now)), must("poll", iface_streams_poll(&b->tcp, &b->host, now));
        moves = carry(a, b), moves |= carry(b, a);
    }
}

/* Time goes on by ten milliseconds, and then both ends do what is due. */
static void later(struct end *a, struct end *b) {
    now += SECOND / 100;
    settle(a, b);
}

static struct iface_stream meet(struct end *a, struct end *b, uint8_t version, struct iface_stream *served) {
    struct iface_endpoint any = {.port = PORT}, here = {.port = 5000}, there = {version == 4 ? v4(1) : v6(1), PORT};
    struct iface_stream s;
    size_t listener;
    must("listen", iface_stream_listen(&b->tcp, &any, 4, &listener));
    must("connect", iface_stream_connect(&a->tcp, &a->host, now, &here, &there, &s));
    settle(a, b);
    must("accept", iface_stream_accept(&b->tcp, listener, served));
    return s;
}

/* 100,000 octets over a path with an MTU. */
static void sends(const char *what, uint8_t version, size_t mtu, int tells, uint32_t told, size_t longest, int64_t within) {
    static uint8_t octets[OCTETS], got[OCTETS];
    struct end a, b;
    struct iface_stream s, served;
    size_t written = 0, read = 0, n;
    now += 10 * SECOND;
    make_with(&a, 0, IFACE_IP, 0), make_with(&b, 1, IFACE_IP, 0);
    for (size_t i = 0; i < OCTETS; i++) octets[i] = (uint8_t)(i * 7 + i / 251);
    path.mtu = 1500, path.tells = tells, path.told = told, path.dropped = 0, path.longest = 0;
    s = meet(&a, &b, version, &served);
    path.mtu = mtu;
    int64_t begun = now;
    while (read < OCTETS && now < begun + 60 * (int64_t)SECOND) {
        must("send", iface_stream_send(&a.tcp, &s, octets + written, OCTETS - written, &n)), written += n;
        later(&a, &b);
        must("receive", iface_stream_receive(&b.tcp, &served, got + read, OCTETS - read, &n)), read += n;
    }
    printf("%s, IPv%u: %zu of 100,000 octets after %lld ms, %u packets dropped, then none longer than %zu\n", what, (unsigned)version, read,
           (long long)(now - begun) / 1000, path.dropped, path.longest);
    wants("all arrive in time", read == OCTETS && memcmp(octets, got, OCTETS) == 0 && now - begun <= within);
    wants("some were dropped", path.dropped > 0);
    wants("none is longer than told", path.longest <= longest);
    end(&a), end(&b);
}

/* The next packet of a connection that has 1,460 octets or more to send, after it was acknowledged so far. */
static size_t next_length(struct end *a, uint8_t *packet) {
    size_t n;
    must("poll", iface_streams_poll(&a->tcp, &a->host, now));
    must("next", iface_next(&a->host, now, packet, IFACE_FRAME_ROOM, &n));
    return n;
}

/* What a message changes: the length of the packet that is sent next. */
static void believes(const char *what, uint32_t number, uint8_t port, uint32_t told, size_t length) {
    static uint8_t packet[IFACE_FRAME_ROOM], octets[4000];
    struct end a, b;
    struct iface_stream s, served;
    size_t n;
    now += 10 * SECOND;
    make_with(&a, 0, IFACE_IP, 0), make_with(&b, 1, IFACE_IP, 0);
    path.mtu = 1500;
    s = meet(&a, &b, 4, &served);
    must("send", iface_stream_send(&a.tcp, &s, octets, sizeof octets, &n));
    wants("a whole packet", next_length(&a, packet) == 1500);
    put(packet + 24, 4, get(packet + 24, 4) + number), packet[23] = (uint8_t)(packet[23] + port);
    message(&a, packet, 1500, 3, 4, told);
    n = next_length(&a, packet);
    printf("%s: the next packet has %zu octets\n", what, n);
    wants("it has as many as it has to have", n == length);
    end(&a), end(&b);
}

/* All that is due is sent, and is lost. */
static void lose_all(struct end *a) {
    static uint8_t packet[IFACE_FRAME_ROOM];
    size_t n;
    do n = next_length(a, packet);
    while (n > 0);
}

static uint32_t ending_of(struct end *e, const struct iface_stream *s) {
    uint32_t is = 77;
    must("ending", iface_stream_ending(&e->tcp, s, &is));
    return is;
}

/* A SYN that is answered by a message of ICMP. */
static void cannot_reach(const char *what, uint8_t version, uint8_t type, uint8_t code, uint32_t at_once, uint32_t in_the_end) {
    static uint8_t packet[IFACE_FRAME_ROOM];
    struct end a;
    struct iface_endpoint here = {.port = 5000}, there = {version == 4 ? v4(1) : v6(1), PORT};
    struct iface_stream s;
    size_t n;
    now += 10 * SECOND;
    make_with(&a, 0, IFACE_IP, 10 * SECOND);
    must("connect", iface_stream_connect(&a.tcp, &a.host, now, &here, &there, &s));
    n = next_length(&a, packet);
    message(&a, packet, n, type, code, 0);
    must("poll", iface_streams_poll(&a.tcp, &a.host, now));
    uint32_t first = ending_of(&a, &s);
    for (int64_t until = now + 20 * SECOND; now < until; now += SECOND / 100) lose_all(&a);
    printf("%s, IPv%u: ending %u at once, %u in the end\n", what, version, first, ending_of(&a, &s));
    wants("how it ended at once", first == at_once);
    wants("how it ended", ending_of(&a, &s) == in_the_end);
    end(&a);
}

/* A connection that is open lives through a hard error, and its octets arrive. */
static void lives(void) {
    static uint8_t packet[IFACE_FRAME_ROOM], got[16], reply[IFACE_FRAME_ROOM];
    struct end a, b;
    struct iface_stream s, served;
    size_t n, m;
    now += 10 * SECOND;
    make_with(&a, 0, IFACE_IP, 0), make_with(&b, 1, IFACE_IP, 0);
    path.mtu = 1500;
    s = meet(&a, &b, 4, &served);
    must("send", iface_stream_send(&a.tcp, &s, (const uint8_t *)"x", 1, &n));
    n = next_length(&a, packet);
    message(&a, packet, n, 3, 3, 0);
    must("poll", iface_streams_poll(&a.tcp, &a.host, now));
    wants("it isn't cut", ending_of(&a, &s) == IFACE_NOT_CUT);
    must("receive", iface_receive(&b.host, now, packet, n, reply, sizeof reply, &m));
    settle(&a, &b);
    must("receive", iface_stream_receive(&b.tcp, &served, got, sizeof got, &n));
    wants("its octet arrives", n == 1 && got[0] == 'x');
    end(&a), end(&b);
}

/* A neighbour that isn't there. */
static void absent(uint8_t version) {
    struct end a;
    struct iface_endpoint here = {.port = 5000}, there = {version == 4 ? v4(0) : v6(0), PORT};
    struct iface_stream s;
    there.address.octets[version == 4 ? 3 : 15] = 77;
    now += 10 * SECOND;
    make_with(&a, 0, IFACE_ETHERNET, 0);
    for (int64_t until = now + 5 * SECOND; now < until; now += SECOND / 100) lose_all(&a);
    must("connect", iface_stream_connect(&a.tcp, &a.host, now, &here, &there, &s));
    int64_t begun = now;
    while (ending_of(&a, &s) == IFACE_NOT_CUT && now < begun + 600 * (int64_t)SECOND) {
        lose_all(&a);
        now += SECOND / 100;
    }
    printf("an absent neighbour, IPv%u: ending %u after %lld ms\n", version, ending_of(&a, &s), (long long)(now - begun) / 1000);
    wants("it can't be reached", ending_of(&a, &s) == IFACE_UNREACHABLE);
    wants("that is told after the patience of three seconds, and at most one more", now - begun <= 4 * SECOND + SECOND / 10);
    end(&a);
}

int main(void) {
    for (uint8_t version = 4; version <= 6; version += 2) {
        sends("a router that takes 1,400 octets tells it", version, 1400, 1, 1400, 1400, SECOND);
        sends("a router that takes 1,300 octets tells nothing", version, 1300, 0, 0, 1500, 5 * SECOND);
        absent(version);
    }
    sends("an old router tells no length", 4, 1400, 1, 0, 576, SECOND);
    believes("a router told 1,400", 0, 0, 1400, 1400);
    believes("a message about a segment that was acknowledged", (uint32_t)-1, 0, 1400, 1500);
    believes("a message about a segment that wasn't sent", 4000, 0, 1400, 1500);
    believes("a message about another port", 0, 1, 1400, 1500);
    believes("a message that tells 68", 0, 0, 68, 576);
    believes("a message that tells more", 0, 0, 1501, 1500);
    cannot_reach("a port that is closed", 4, 3, 3, IFACE_UNREACHABLE, IFACE_UNREACHABLE);
    cannot_reach("a port that is closed", 6, 1, 4, IFACE_UNREACHABLE, IFACE_UNREACHABLE);
    cannot_reach("a network without a route", 4, 3, 0, IFACE_NOT_CUT, IFACE_UNREACHABLE);
    cannot_reach("a network without a route", 6, 1, 0, IFACE_NOT_CUT, IFACE_UNREACHABLE);
    cannot_reach("an echo request, which tells nothing", 4, 0, 0, IFACE_NOT_CUT, IFACE_TIMED_OUT);
    lives();
    printf(failures == 0 ? "all as it has to be\n" : "%d WRONG\n", failures);
    return failures != 0;
}
