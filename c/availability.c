/* What a stranger on the link may stop, and for how long: hosts in one process, and frames that a stranger writes.
 *
 *  - A datagram from an absent neighbour: a service that answers it answers others again after a second.
 *  - An absent neighbour of the first socket: the neighbour of the second one is asked for in turn.
 *  - Two sockets that send to absent neighbours again and again: the neighbour of a third is found.
 *  - Datagrams from absent neighbours, one every three seconds and more: a service answers others all the while.
 *  - Datagrams for neighbours that aren't known yet, behind one another: all arrive.
 *  - Bursts of eight datagrams in three and four pieces, of two sockets at once: all arrive, in order, beside small ones.
 *  - Datagrams in pieces behind short ones: all arrive.
 *  - Datagrams in pieces for absent neighbours: each is given up after the patience.
 *  - Pings of 3,000 octets, three at a time, and under half a percent of loss.
 *  - Datagrams of 3,000 octets, a hundred a second, over a link that loses frames or repeats them.
 *  - Stray fragments: packets in fragments are put together again after the time that fragments wait.
 *
 *  - Eight and sixty neighbours, each of which asks once a second: all are answered, where there is room for them.
 *
 * All these are without a guard. Then come attacks without one and with one, as docs/SECURITY.md has them.
 */
#include "iface.h"

#include <stdio.h>
#include <stdlib.h>
#include <string.h>

enum { SECOND = 1000000, ECHO_PORT = 7 };

static int failures;

static void must(const char *what, uint32_t code) {
    if (code == IFACE_OK) return;
    printf("WRONG: %s: code %u\n", what, code);
    failures++;
}

static void wants(const char *what, int is_right) {
    if (is_right) return;
    printf("WRONG: %s\n", what);
    failures++;
}

static int64_t now;

static struct iface_address v4(uint8_t last) {
    return (struct iface_address){4, {192, 168, 69, last}};
}

/* ---- hosts, and the link between them ---- */

/* How often in 10,000 the link loses a frame. */
static unsigned loss;

/* How often it repeats one, after another one. */
static unsigned repeats;

static int is_drawn(unsigned in_10000) {
    static uint64_t state = 42;
    state ^= state << 13, state ^= state >> 7, state ^= state << 17; /* xorshift */
    return state % 10000 < in_10000;
}

static int is_lost(void) {
    return is_drawn(loss);
}

/* Whether hosts have a guard: the usual one, with a rate of echo replies beside it. */
static uint8_t guarded;

/* How many neighbours a host knows at once; 0 is what iface_config_init writes. */
static uint32_t room;
/* How long a packet waits for its neighbour, in microseconds; 0 is what iface_config_init writes. */
static uint64_t patience;
/* How many packets in fragments it puts together at once; 0 is what iface_config_init writes. */
static uint32_t slots;

/* A host at 192.168.69.`last`, whose frames have at most so many octets. */
static void make(iface *host, uint8_t last, uint32_t frame_len) {
    struct iface_config config;
    struct iface_address own = v4(last);
    iface_config_init(&config);
    config.guard.on = guarded, config.guard.echo_requests = (struct iface_rate){10000, 10};
    config.seed = last, config.frame_len = frame_len, config.hardware_address[0] = 2, config.hardware_address[5] = last;
    if (room > 0) config.neighbors = room;
    if (slots > 0) config.fragmented = slots;
    if (patience > 0) config.patience = patience, config.sockets = 16;
    must("host", iface_new(host, &config));
    must("address", iface_add_address(host, &own, 24));
}

static uint32_t udp_at(iface *host, uint16_t port, uint32_t packets, uint32_t octets) {
    struct iface_endpoint any = {.port = port};
    uint32_t socket = 0;
    must("socket", iface_udp_open(host, &any, &(struct iface_rooms)IFACE_ROOMS(packets, octets), &socket));
    return socket;
}

static void hear(iface *host, iface *from, const uint8_t *frame, size_t length);

/* All that a host has to send, to another. How many frames that is. */
static unsigned drain(iface *one, iface *other) {
    uint8_t frame[IFACE_FRAME_ROOM];
    unsigned frames = 0;
    size_t n;
    for (must("next", iface_next(one, now, frame, sizeof frame, &n)); n > 0; must("next", iface_next(one, now, frame, sizeof frame, &n))) {
        frames++;
        hear(other, one, frame, n);
    }
    return frames;
}

/* Hands a frame over, unless the link loses it; then what is sent in response, and all else that is sent behind it. */
static void hear(iface *host, iface *from, const uint8_t *frame, size_t length) {
    uint8_t reply[IFACE_FRAME_ROOM];
    size_t n = 0;
    if (is_lost()) return;
    must("receive", iface_receive(host, now, frame, length, reply, sizeof reply, &n));
    if (n > 0) hear(from, host, reply, n);
    drain(host, from);
}

/* Hands a frame over, and what is sent in response. */
static void hear_only(iface *host, iface *from, const uint8_t *frame, size_t length) {
    uint8_t reply[IFACE_FRAME_ROOM];
    size_t n = 0;
    must("receive", iface_receive(host, now, frame, length, reply, sizeof reply, &n));
    if (n > 0) {
        uint8_t last[IFACE_FRAME_ROOM];
        size_t none = 0;
        must("response", iface_receive(from, now, reply, n, last, sizeof last, &none));
    }
}

/* The earlier of the instants at which two hosts are to be asked again. */
static int64_t due(iface *a, iface *b) {
    int64_t at_a = IFACE_NEVER, at_b = IFACE_NEVER;
    must("poll_at", iface_poll_at(a, now, &at_a));
    must("poll_at", iface_poll_at(b, now, &at_b));
    return at_a < at_b ? at_a : at_b;
}

/* ---- frames that a stranger writes ---- */

static uint16_t sum_of(const uint8_t *octets, size_t length) {
    uint32_t sum = 0;
    for (size_t i = 0; i + 1 < length; i += 2) sum += (uint32_t)(octets[i] << 8 | octets[i + 1]);
    if (length % 2) sum += (uint32_t)octets[length - 1] << 8;
    while (sum >> 16) sum = (sum & 0xffff) + (sum >> 16);
    return (uint16_t)~sum;
}

/* A packet of IPv4 from 192.168.69.`from` to .`to` in a frame; how many octets that has. `fragment` is the field of
 * flags and offset. */
static size_t packet(uint8_t *frame, uint8_t from, uint8_t to, uint8_t protocol, uint16_t id, uint16_t fragment, const uint8_t *payload,
                     size_t length) {
    uint8_t header[34] = {2, 0, 0, 0, 0, to, 2, 0, 0, 0, 0, from, 8, 0, 0x45, 0};
    uint8_t *ip = header + 14;
    size_t total = 20 + length;
    ip[2] = (uint8_t)(total >> 8), ip[3] = (uint8_t)total, ip[4] = (uint8_t)(id >> 8), ip[5] = (uint8_t)id;
    ip[6] = (uint8_t)(fragment >> 8), ip[7] = (uint8_t)fragment, ip[8] = 64, ip[9] = protocol;
    memcpy(ip + 12, (uint8_t[]){192, 168, 69, from, 192, 168, 69, to}, 8);
    uint16_t sum = sum_of(ip, 20);
    ip[10] = (uint8_t)(sum >> 8), ip[11] = (uint8_t)sum;
    memcpy(frame, header, 34);
    memcpy(frame + 34, payload, length);
    return 34 + length;
}

/* A datagram of one octet to the echo port. Its checksum is 0: none. */
static void send_datagram(iface *host, uint8_t from, uint8_t to) {
    static uint8_t frame[IFACE_FRAME_ROOM], out[IFACE_FRAME_ROOM];
    const uint8_t datagram[9] = {0x27, 0x0f, 0, ECHO_PORT, 0, 9, 0, 0, 'x'};
    size_t n, length = packet(frame, from, to, 17, 1, 0, datagram, sizeof datagram);
    must("receive", iface_receive(host, now, frame, length, out, sizeof out, &n));
}

/* ---- the programs ---- */

/* Sends back each datagram that came. */
static void echo(iface *host, uint32_t socket) {
    static uint8_t payload[4096];
    struct iface_endpoint from;
    size_t n;
    while (iface_udp_receive(host, socket, &from, payload, sizeof payload, &n) == IFACE_OK)
        must("echo", iface_udp_send(host, socket, &from, payload, n));
}

/* The same, but for those for which there is no room. */
static void echo_or_drop(iface *host, uint32_t socket) {
    static uint8_t payload[4096];
    struct iface_endpoint from;
    size_t n;
    while (iface_udp_receive(host, socket, &from, payload, sizeof payload, &n) == IFACE_OK) iface_udp_send(host, socket, &from, payload, n);
}

/* One datagram from an absent neighbour, which is given up after the patience, and a client that asks once a second: when it is answered. */
static void spoofed_datagram(void) {
    iface service = IFACE_NONE, client = IFACE_NONE;
    make(&service, 1, 1514), make(&client, 2, 1514);
    uint32_t at = udp_at(&service, ECHO_PORT, 8, 4096), mine = udp_at(&client, 9000, 8, 4096);
    struct iface_endpoint to = {v4(1), ECHO_PORT}, from;
    struct iface_address told;
    int64_t begun = now += 10 * SECOND, since, answered = 0;
    uint64_t count;
    uint8_t got[16];
    size_t n;
    send_datagram(&service, 77, 1), echo(&service, at);
    drain(&service, &client);
    must("waiting", iface_waiting(&service, at, &told, &since));
    wants("it waits for 192.168.69.77, since then", told.octets[3] == 77 && since == begun);
    for (int i = 0; i < 8 && answered == 0; i++, now += SECOND) {
        must("send", iface_udp_send(&client, mine, &to, (const uint8_t *)"?", 1));
        for (int turn = 0; turn < 4; turn++) {
            drain(&client, &service), echo(&service, at), drain(&service, &client);
            if (iface_udp_receive(&client, mine, &from, got, sizeof got, &n) == IFACE_OK && answered == 0) answered = now;
        }
    }
    printf("a datagram from an absent neighbour: others are answered after %lld ms\n", (long long)(answered - begun) / 1000);
    wants("others are answered at once", answered == begun);
    for (; now <= begun + 4 * SECOND; now += SECOND) drain(&service, &client);
    must("given up", iface_given_up(&service, at, &told));
    wants("192.168.69.77 was given up", told.octets[3] == 77);
    wants("it is told once", iface_given_up(&service, at, &told) == IFACE_EMPTY);
    must("count", iface_given_up_count(&service, &count));
    wants("one was given up", count == 1);
    must("free", iface_free(&service)), must("free", iface_free(&client));
}

/* A datagram from one absent neighbour after the other, one each `every` microseconds, and a client that asks once a second,
 * as often as told: how many of its questions are answered, and how many of them within a second. */
static unsigned asked_beside(int64_t every, unsigned questions, unsigned *soon) {
    iface service = IFACE_NONE, client = IFACE_NONE;
    make(&service, 1, 1514), make(&client, 2, 1514);
    uint32_t at = udp_at(&service, ECHO_PORT, 8, 4096), mine = udp_at(&client, 9000, 8, 4096);
    struct iface_endpoint to = {v4(1), ECHO_PORT}, from;
    int64_t begun = now += 10 * SECOND, spoofed = begun, asked_at[256] = {0};
    unsigned answered = 0, asked = 0;
    uint8_t got[16];
    size_t n;
    for (*soon = 0; now < begun + (questions + 10) * (int64_t)SECOND; now += now < spoofed ? 1000 : 0) {
        if (now >= spoofed && asked < questions) {
            send_datagram(&service, (uint8_t)(100 + spoofed / every % 100), 1), echo_or_drop(&service, at);
            spoofed += every;
        } else if (now >= spoofed) {
            spoofed = INT64_MAX;
        }
        if (asked < questions && now >= begun + asked * (int64_t)SECOND + SECOND / 2) {
            asked_at[asked] = now;
            uint8_t number = (uint8_t)asked++;
            must("send", iface_udp_send(&client, mine, &to, &number, 1));
        }
        drain(&client, &service), echo_or_drop(&service, at), drain(&service, &client);
        while (iface_udp_receive(&client, mine, &from, got, sizeof got, &n) == IFACE_OK) {
            answered++;
            *soon += now - asked_at[got[0]] <= SECOND;
        }
    }
    must("free", iface_free(&service)), must("free", iface_free(&client));
    return answered;
}

static void spoofed_datagrams(void) {
    static const int64_t every[] = {3 * SECOND, SECOND, SECOND / 10, SECOND / 1000};
    for (unsigned i = 0; i < sizeof every / sizeof every[0]; i++) {
        unsigned soon, answered = asked_beside(every[i], 60, &soon);
        printf("datagrams from absent neighbours, one each %lld ms: %u of 60 others are answered, %u of them within a second\n",
               (long long)every[i] / 1000, answered, soon);
        wants("others are answered", answered >= 59 && soon >= 50);
    }
}

/* Datagrams from absent neighbours as above, at a service with so many places, and a client that it knows, which asks a hundred times, once a
 * second: how many of its questions are answered within 200 ms. */
static unsigned known_beside(int64_t every, uint32_t places) {
    iface service = IFACE_NONE, client = IFACE_NONE;
    make(&service, 1, 1514), make(&client, 2, 1514);
    uint32_t at = udp_at(&service, ECHO_PORT, places, places * 512), mine = udp_at(&client, 9000, 8, 4096);
    struct iface_endpoint to = {v4(1), ECHO_PORT}, from;
    int64_t begun = now += 10 * SECOND, spoofed = begun + SECOND, asked_at[101] = {0};
    unsigned asked = 0, quick = 0;
    uint8_t got[16];
    size_t n;
    while (now < begun + 102 * (int64_t)SECOND) {
        if (now >= spoofed) send_datagram(&service, (uint8_t)(100 + spoofed / every % 100), 1), spoofed += every;
        if (asked < 101 && now >= begun + asked * (int64_t)SECOND) {
            asked_at[asked] = now;
            uint8_t number = (uint8_t)asked++;
            must("send", iface_udp_send(&client, mine, &to, &number, 1));
        }
        echo_or_drop(&service, at), drain(&service, &client), drain(&client, &service), echo_or_drop(&service, at), drain(&service, &client);
        while (iface_udp_receive(&client, mine, &from, got, sizeof got, &n) == IFACE_OK)
            quick += got[0] > 0 && now - asked_at[got[0]] <= SECOND / 5;
        int64_t next = begun + asked * (int64_t)SECOND, at_once = due(&service, &client);
        if (asked == 101 || spoofed < next) next = spoofed;
        now = at_once > now && at_once < next ? at_once : next;
    }
    must("free", iface_free(&service)), must("free", iface_free(&client));
    return quick;
}

static void known_beside_absent(void) {
    static const int64_t every[] = {2 * SECOND, SECOND, 2 * SECOND / 3, SECOND / 2, SECOND / 3, SECOND / 5, SECOND / 10, SECOND / 20, SECOND / 100, SECOND / 1000};
    unsigned least = 100;
    for (uint32_t places = 8; places <= 64; places += places == 8 ? 8 : 48)
        for (unsigned seconds = 1; seconds <= 9; seconds += seconds == 1 ? 2 : 6) {
            patience = seconds * (uint64_t)SECOND;
            for (unsigned i = 0; i < sizeof every / sizeof every[0]; i++) {
                unsigned quick = known_beside(every[i], places);
                if (quick < least) least = quick;
                if (getenv("AVAILABILITY_ROWS")) printf("  room %u, patience %u, one each %lld ms: %u\n", places, seconds, (long long)every[i] / 1000, quick);
            }
        }
    patience = 0;
    printf("datagrams from absent neighbours, at rates from one in two seconds to 1,000 a second: of 100 questions of a neighbour that is known at least %u "
           "are answered within 200 ms\n", least);
    wants("99 of 100 are answered", least >= 99);
}

/* Datagrams of one socket for four neighbours that are there, and aren't known: one request goes in a second, all arrive, and
 * none is given up. */
static void neighbors_in_turn(void) {
    iface host = IFACE_NONE, peer = IFACE_NONE;
    make(&host, 1, 1514), make(&peer, 2, 1514);
    uint32_t socket = udp_at(&host, 1001, 8, 4096), at = udp_at(&peer, 9, 16, 4096);
    struct iface_endpoint from;
    int64_t begun = now += 10 * SECOND, last = 0;
    uint64_t given_up;
    unsigned arrived = 0;
    uint8_t got[16];
    size_t n;
    for (uint8_t i = 3; i < 6; i++) must("address", iface_add_address(&peer, &(struct iface_address){4, {192, 168, 69, i}}, 24));
    for (uint8_t i = 2; i < 6; i++) must("send", iface_udp_send(&host, socket, &(struct iface_endpoint){v4(i), 9}, &i, 1));
    for (int i = 0; i < 100; i++, now += SECOND / 10) {
        drain(&host, &peer), drain(&peer, &host), drain(&host, &peer);
        for (; iface_udp_receive(&peer, at, &from, got, sizeof got, &n) == IFACE_OK; last = now) arrived++;
    }
    must("count", iface_given_up_count(&host, &given_up));
    printf("one socket's datagrams for four neighbours that are there: %u of 4 arrive, the last one after %lld ms\n", arrived,
           (long long)(last - begun) / 1000);
    wants("all arrive, and none is given up", arrived == 4 && given_up == 0);
    must("free", iface_free(&host)), must("free", iface_free(&peer));
}

/* A link of many hosts, each at its last octet. */
static iface *linked[256];

static void empty(uint8_t last);

/* Hands a frame to the host that it is for, or to all others. */
static void carry(uint8_t from, const uint8_t *frame, size_t length) {
    for (uint8_t last = 1; last < 255; last++) {
        uint8_t reply[IFACE_FRAME_ROOM];
        size_t n = 0;
        if (linked[last] == NULL || last == from || !(frame[0] % 2 == 1 || frame[5] == last)) continue;
        must("receive", iface_receive(linked[last], now, frame, length, reply, sizeof reply, &n));
        if (n > 0) carry(last, reply, n);
        empty(last);
    }
}

/* Hands over all that a host has to send. */
static void empty(uint8_t last) {
    uint8_t frame[IFACE_FRAME_ROOM];
    size_t n;
    for (must("next", iface_next(linked[last], now, frame, sizeof frame, &n)); n > 0;
         must("next", iface_next(linked[last], now, frame, sizeof frame, &n)))
        carry(last, frame, n);
}

static struct iface_address v6(uint8_t last) {
    return (struct iface_address){6, {0xfe, 0x80, [15] = last}};
}

/* A service, and so many neighbours, of which each asks it once a second for a minute over IPv4, and over IPv6 if they have
 * both, with room for so many neighbours, or as most programs have it where that is 0. All are answered if `are_all`. */
static void many_neighbors(uint8_t count, int have_both, uint32_t places, int are_all) {
    static iface hosts[61];
    uint32_t sockets[61];
    unsigned asked = 0, answered = 0;
    int64_t begun = now += 10 * SECOND;
    for (uint8_t i = 0; i <= count; i++) {
        uint8_t last = i == 0 ? 1 : (uint8_t)(99 + i);
        room = i == 0 ? places : 0;
        make(linked[last] = &hosts[i], last, 1514);
        if (have_both) must("address", iface_add_address(&hosts[i], &(struct iface_address){6, {0xfe, 0x80, [15] = last}}, 64));
        sockets[i] = udp_at(&hosts[i], i == 0 ? ECHO_PORT : 1000, 16, 4096);
    }
    for (unsigned i = 0; i < 60u * count; i++) {
        now = begun + (int64_t)i * SECOND / count;
        uint8_t got[16], peer = (uint8_t)(1 + i % count);
        size_t n;
        struct iface_endpoint from;
        (void)iface_udp_send(&hosts[peer], sockets[peer], &(struct iface_endpoint){v4(1), ECHO_PORT}, (const uint8_t *)"4", 1), asked++;
        if (have_both) (void)iface_udp_send(&hosts[peer], sockets[peer], &(struct iface_endpoint){v6(1), ECHO_PORT}, (const uint8_t *)"6", 1), asked++;
        empty((uint8_t)(99 + peer)), echo_or_drop(&hosts[0], sockets[0]), empty(1);
        while (iface_udp_receive(&hosts[peer], sockets[peer], &from, got, sizeof got, &n) == IFACE_OK) answered++;
    }
    printf("%u neighbours%s ask once a second each, ", count, have_both ? " of both versions" : "");
    printf(places > 0 ? "room for %u: " : "the usual room: ", places);
    printf("%u of %u questions are answered\n", answered, asked);
    if (are_all) wants("all are", answered == asked);
    for (uint8_t i = 0; i <= count; i++) must("free", iface_free(&hosts[i])), hosts[i] = (iface)IFACE_NONE;
    memset(linked, 0, sizeof linked);
    room = 0;
}

/* The first socket sends to an absent neighbour again and again, the second to one that is there. Time goes from one
 * instant of poll_at to the next. */
static void absent_neighbor_first(void) {
    iface host = IFACE_NONE, peer = IFACE_NONE;
    make(&host, 1, 1514), make(&peer, 2, 1514);
    uint32_t first = udp_at(&host, 1001, 8, 4096), second = udp_at(&host, 1002, 8, 4096), at = udp_at(&peer, 9, 8, 4096);
    struct iface_endpoint absent = {v4(77), 9}, other = {v4(78), 9}, there = {v4(2), 9}, from;
    int64_t begun = now += 10 * SECOND;
    uint8_t got[16];
    size_t n;
    for (int i = 0; i < 4; i++) {
        must("send", iface_udp_send(&host, first, &absent, (const uint8_t *)"a", 1));
        must("send", iface_udp_send(&host, first, &other, (const uint8_t *)"b", 1));
    }
    must("send", iface_udp_send(&host, second, &there, (const uint8_t *)"c", 1));
    int has_come = 0;
    for (int i = 0; i < 100 && !has_come; i++) {
        drain(&host, &peer), drain(&peer, &host), drain(&host, &peer);
        has_come = iface_udp_receive(&peer, at, &from, got, sizeof got, &n) == IFACE_OK;
        int64_t next = due(&host, &peer);
        if (!has_come && next != IFACE_NEVER && next > now) now = next;
    }
    printf("an absent neighbour of the first socket: the second one's datagram arrives after %lld ms\n", (long long)(now - begun) / 1000);
    wants("it arrives within two seconds", has_come && now - begun <= 2 * SECOND);
    must("free", iface_free(&host)), must("free", iface_free(&peer));
}

/* How long it takes until a datagram of the last socket arrives at a neighbour that is there, and that isn't known yet, beside so many
 * sockets that each send a datagram to an absent neighbour each `every`; 60 seconds where none does. */
static int64_t found_beside(unsigned absent, int64_t every) {
    iface host = IFACE_NONE, peer = IFACE_NONE;
    make(&host, 1, 1514), make(&peer, 2, 1514);
    uint32_t others[9], at = udp_at(&peer, 9, 8, 4096);
    for (unsigned i = 0; i < absent; i++) others[i] = udp_at(&host, (uint16_t)(1001 + i), 8, 4096);
    uint32_t last = udp_at(&host, 1100, 8, 4096);
    struct iface_endpoint there = {v4(2), 9}, from;
    int64_t begun = now += 10 * SECOND, sends = begun;
    int has_come = 0;
    while (!has_come && now < begun + 60 * SECOND) {
        if (now >= sends) {
            for (unsigned i = 0; i < absent; i++)
                (void)iface_udp_send(&host, others[i], &(struct iface_endpoint){v4((uint8_t)(70 + i)), 9}, (const uint8_t *)"a", 1);
            (void)iface_udp_send(&host, last, &there, (const uint8_t *)"c", 1), sends += every;
        }
        uint8_t got[16];
        size_t n;
        drain(&host, &peer), drain(&peer, &host), drain(&host, &peer);
        has_come = iface_udp_receive(&peer, at, &from, got, sizeof got, &n) == IFACE_OK;
        int64_t next = due(&host, &peer);
        if (!has_come) now = next == IFACE_NEVER || next <= now || next > sends ? sends : next;
    }
    must("free", iface_free(&host)), must("free", iface_free(&peer));
    return now - begun;
}

static void found_beside_absent(void) {
    static const int64_t every[] = {2 * SECOND, SECOND, 2 * SECOND / 3, SECOND / 2, SECOND / 3, SECOND / 5, SECOND / 10, SECOND / 100, SECOND / 1000};
    int64_t latest = 0;
    for (unsigned seconds = 3; seconds <= 9; seconds += 6) {
        patience = seconds * (uint64_t)SECOND;
        for (unsigned i = 0; i < sizeof every / sizeof every[0]; i++) {
            int64_t found = found_beside(2, every[i]);
            if (found > latest) latest = found;
        }
    }
    patience = 0;
    printf("two sockets that send to absent neighbours, at rates from one datagram in two seconds to 1,000 a second: the neighbour of a third is "
           "found after %lld ms at most\n", (long long)latest / 1000);
    wants("it is found within three seconds", latest <= 3 * SECOND);
}

/* Two sockets with eight long datagrams each, and one with eight short ones: all arrive, each socket's in order. */
static void bursts(uint32_t frame_len, size_t length) {
    static uint8_t payload[4068], got[4096];
    iface host = IFACE_NONE, peer = IFACE_NONE;
    make(&host, 1, frame_len), make(&peer, 2, frame_len);
    uint32_t sockets[3], at[3];
    unsigned arrived[3] = {0, 0, 0}, frames = 0;
    struct iface_endpoint from;
    size_t n;
    now += 10 * SECOND;
    for (uint16_t i = 0; i < 3; i++) {
        sockets[i] = udp_at(&host, (uint16_t)(1000 + i), 8, 40000), at[i] = udp_at(&peer, (uint16_t)(2000 + i), 8, 40000);
        struct iface_endpoint to = {v4(2), (uint16_t)(2000 + i)};
        for (uint8_t k = 0; k < 8; k++) {
            memset(payload, 8 * i + k, sizeof payload);
            must("send", iface_udp_send(&host, sockets[i], &to, payload, i == 1 ? 10 : length));
        }
    }
    for (int turn = 0; turn < 4; turn++, now += SECOND) frames += drain(&host, &peer) + drain(&peer, &host);
    for (unsigned i = 0; i < 3; i++)
        while (iface_udp_receive(&peer, at[i], &from, got, sizeof got, &n) == IFACE_OK) {
            memset(payload, (int)(8 * i + arrived[i]), sizeof payload);
            wants("each arrives as it was, in order", n == (i == 1 ? 10 : length) && memcmp(got, payload, n) == 0);
            arrived[i]++;
        }
    printf("bursts of %zu octets over frames of %u: %u, %u and %u of 8 arrive, by %u frames\n", length, frame_len, arrived[0], arrived[1],
           arrived[2], frames);
    wants("all arrive", arrived[0] == 8 && arrived[1] == 8 && arrived[2] == 8);
    must("free", iface_free(&host)), must("free", iface_free(&peer));
}

/* Sockets that each queue datagrams of these lengths, the last one 0: how many arrive as they were. */
static unsigned arrive(unsigned sockets, const size_t *lengths) {
    static uint8_t payload[4068], got[4096];
    iface host = IFACE_NONE, peer = IFACE_NONE;
    make(&host, 1, 1514), make(&peer, 2, 1514);
    uint32_t at = udp_at(&peer, 2000, 16, 65536);
    struct iface_endpoint to = {v4(2), 2000}, from;
    unsigned arrived = 0;
    size_t n;
    now += 10 * SECOND;
    for (uint16_t i = 0; i < sockets; i++) {
        uint32_t socket = udp_at(&host, (uint16_t)(1000 + i), 8, 40000);
        for (unsigned k = 0; lengths[k] > 0; k++) {
            memset(payload, (int)(16 * i + k), sizeof payload);
            must("send", iface_udp_send(&host, socket, &to, payload, lengths[k]));
        }
    }
    for (int turn = 0; turn < 20; turn++, now += SECOND / 5) drain(&host, &peer), drain(&peer, &host);
    while (iface_udp_receive(&peer, at, &from, got, sizeof got, &n) == IFACE_OK) {
        unsigned i = from.port - 1000u, k = got[0] % 16u;
        memset(payload, (int)(16 * i + k), sizeof payload);
        arrived += n == lengths[k] && memcmp(got, payload, n) == 0;
    }
    must("free", iface_free(&host)), must("free", iface_free(&peer));
    return arrived;
}

/* Long datagrams behind short ones, and behind long ones. */
static void long_behind_short(void) {
    unsigned one = arrive(1, (const size_t[]){1, 4000, 4000, 0}), two = arrive(2, (const size_t[]){1, 3000, 0}),
             three = arrive(3, (const size_t[]){1, 1, 4000, 1, 3000, 0});
    printf("1, 4,000 and 4,000 octets of one socket: %u of 3 arrive; 1 and 3,000 of two: %u of 4; of three: %u of 15\n", one, two, three);
    wants("all arrive", one == 3 && two == 4 && three == 15);
}

/* Long datagrams of so many sockets for absent neighbours, beside `others` that send long ones to a neighbour that is there
 * all the time: after how many milliseconds the last one is given up. Time goes on by a tenth of a second. */
static int64_t given_up_beside(unsigned absent, unsigned others) {
    static uint8_t payload[3000], got[4096];
    iface host = IFACE_NONE, peer = IFACE_NONE;
    make(&host, 1, 1514), make(&peer, 2, 1514);
    uint32_t sockets[8], at = udp_at(&peer, 2000, 16, 65536);
    struct iface_endpoint there = {v4(2), 2000}, from;
    int64_t begun = now += 10 * SECOND;
    uint64_t count = 0;
    size_t n;
    for (uint16_t i = 0; i < absent + others; i++) {
        struct iface_endpoint nobody = {v4((uint8_t)(77 + i)), 9};
        sockets[i] = udp_at(&host, (uint16_t)(1000 + i), 8, 40000);
        if (i < absent) must("send", iface_udp_send(&host, sockets[i], &nobody, payload, sizeof payload));
    }
    for (; count < absent && now < begun + 60 * SECOND; now += SECOND / 10) {
        for (unsigned i = absent; i < absent + others; i++) (void)iface_udp_send(&host, sockets[i], &there, payload, sizeof payload);
        uint8_t frame[IFACE_FRAME_ROOM];
        for (int k = 0; k < 2; k++) {
            must("next", iface_next(&host, now, frame, sizeof frame, &n));
            if (n > 0) hear_only(&peer, &host, frame, n);
        }
        while (iface_udp_receive(&peer, at, &from, got, sizeof got, &n) == IFACE_OK) {}
        must("count", iface_given_up_count(&host, &count));
    }
    must("free", iface_free(&host)), must("free", iface_free(&peer));
    return (now - SECOND / 10 - begun) / 1000;
}

static void long_for_absent(void) {
    int64_t one = given_up_beside(1, 0), three = given_up_beside(3, 0), beside = given_up_beside(1, 1), busy = given_up_beside(2, 3);
    printf("long datagrams for absent neighbours: given up after %lld ms, of three sockets %lld, beside long ones %lld, of many %lld\n",
           (long long)one, (long long)three, (long long)beside, (long long)busy);
    wants("each within the patience and a second", one <= 4000 && three <= 4000 && beside <= 4000 && busy <= 5000);
}

/* Pings of 3,000 octets, so many at a time, once a second: how many of them are answered. */
static unsigned pings(unsigned at_a_time, unsigned seconds) {
    static uint8_t message[3008], got[4096];
    iface host = IFACE_NONE, peer = IFACE_NONE;
    make(&host, 1, 1514), make(&peer, 2, 1514);
    uint32_t socket = 0;
    unsigned answered = 0;
    struct iface_address to = v4(2), from;
    size_t n;
    now += 10 * SECOND;
    must("socket", iface_icmp_open_ident(&host, 42, &(struct iface_rooms)IFACE_ROOMS(8, 32768), &socket));
    for (unsigned i = 0; i < seconds; i++, now += SECOND) {
        for (unsigned k = 0; k < at_a_time; k++) {
            memcpy(message, (uint8_t[]){8, 0, 0, 0, 0, 42, (uint8_t)i, (uint8_t)k}, 8);
            memset(message + 8, (int)(i + k), sizeof message - 8);
            must("send", iface_icmp_send(&host, socket, &to, message, sizeof message));
        }
        for (int turn = 0; turn < 3; turn++) drain(&host, &peer), drain(&peer, &host);
        while (iface_icmp_receive(&host, socket, &from, got, sizeof got, &n) == IFACE_OK)
            answered += n == sizeof message && got[0] == 0 && got[8] == (uint8_t)(got[6] + got[7]);
    }
    must("free", iface_free(&host)), must("free", iface_free(&peer));
    return answered;
}

static void long_pings(void) {
    unsigned all = pings(3, 100);
    printf("pings of 3,000 octets, three at a time: %u of 300 answered\n", all);
    wants("all are answered", all == 300);
    loss = 50;
    unsigned some = pings(1, 1000);
    loss = 0;
    printf("the same, one at a time, with 0.5 %% of frames lost: %u of 1000 answered\n", some);
    wants("most are answered", some >= 930);
}

/* Of a thousand datagrams of 3,000 octets, a hundred a second, between two neighbours that know each other: how many arrive. A frame
 * is repeated behind the next one. */
static unsigned long_datagrams(void) {
    static uint8_t frame[IFACE_FRAME_ROOM], last[IFACE_FRAME_ROOM], out[IFACE_FRAME_ROOM], payload[3000], got[4096];
    iface host = IFACE_NONE, peer = IFACE_NONE;
    make(&host, 1, 1514), make(&peer, 2, 1514);
    uint32_t socket = udp_at(&host, 1000, 8, 32768), at = udp_at(&peer, 2000, 8, 32768);
    struct iface_endpoint to = {v4(2), 2000}, from;
    size_t n, held = 0, answer;
    unsigned arrived = 0, lost = loss;
    now += 10 * SECOND;
    loss = 0;
    must("send", iface_udp_send(&host, socket, &to, payload, 1));
    for (int turn = 0; turn < 3; turn++) drain(&host, &peer), drain(&peer, &host);
    loss = lost;
    for (int i = 0; i < 1000; i++, now += SECOND / 100) {
        must("send", iface_udp_send(&host, socket, &to, payload, sizeof payload));
        for (must("next", iface_next(&host, now, frame, sizeof frame, &n)); n > 0; must("next", iface_next(&host, now, frame, sizeof frame, &n))) {
            if (!is_lost()) must("receive", iface_receive(&peer, now, frame, n, out, sizeof out, &answer));
            if (held > 0) must("repeat", iface_receive(&peer, now, last, held, out, sizeof out, &answer));
            held = is_drawn(repeats) ? n : 0;
            memcpy(last, frame, n);
        }
        while (iface_udp_receive(&peer, at, &from, got, sizeof got, &n) == IFACE_OK) arrived += n == sizeof payload;
    }
    must("free", iface_free(&host)), must("free", iface_free(&peer));
    return arrived;
}

static void lossy_link(void) {
    static const struct { unsigned loss, repeats, least; } links[] = {{100, 0, 950}, {500, 0, 840}, {0, 1000, 990}};
    for (unsigned i = 0; i < sizeof links / sizeof links[0]; i++) {
        loss = links[i].loss, repeats = links[i].repeats;
        unsigned arrived = long_datagrams();
        printf("datagrams of 3,000 octets, 100 a second, %u %% of frames lost, %u %% repeated: %u of 1000 arrive\n", loss / 100, repeats / 100, arrived);
        wants("as many arrive as have all their pieces", arrived >= links[i].least);
    }
    loss = repeats = 0;
}

/* Eight fragments of packets that never end: how long datagrams in pieces don't arrive. */
static void stray_fragments(void) {
    static uint8_t frame[IFACE_FRAME_ROOM], out[IFACE_FRAME_ROOM], payload[3000], got[4096];
    iface host = IFACE_NONE, peer = IFACE_NONE;
    make(&host, 1, 1514), make(&peer, 2, 1514);
    uint32_t socket = udp_at(&host, 1000, 8, 32768), at = udp_at(&peer, 2000, 8, 32768);
    struct iface_endpoint to = {v4(2), 2000}, from;
    int64_t begun = now += 10 * SECOND, arrived = 0;
    size_t n;
    for (uint16_t id = 1; id <= 8; id++) {
        size_t length = packet(frame, 77, 2, 17, id, 0x2000, payload, 8);
        must("receive", iface_receive(&peer, now, frame, length, out, sizeof out, &n));
    }
    for (int i = 0; i < 100 && arrived == 0; i++, now += SECOND) {
        must("send", iface_udp_send(&host, socket, &to, payload, sizeof payload));
        for (int turn = 0; turn < 3; turn++) drain(&host, &peer), drain(&peer, &host);
        if (iface_udp_receive(&peer, at, &from, got, sizeof got, &n) == IFACE_OK) arrived = now;
    }
    printf("eight stray fragments: datagrams in pieces arrive after %lld ms\n", (long long)(arrived - begun) / 1000);
    wants("they arrive at once", arrived > 0 && arrived == begun);
    must("free", iface_free(&host)), must("free", iface_free(&peer));
}

/* ---- attacks, without a guard and with one ---- */

/* An ARP packet to 192.168.69.1 which says that 192.168.69.`sender` is at a hardware address (RFC 826). */
static void send_arp(iface *host, uint8_t sender, uint8_t hardware) {
    static uint8_t out[IFACE_FRAME_ROOM];
    const uint8_t frame[42] = {2, 0, 0, 0, 0, 1, 2, 0, 0, 0, 0, hardware, 8, 6, 0, 1, 8, 0, 6, 4, 0, 2, 2, 0, 0, 0, 0, hardware,
                               192, 168, 69, sender, 2, 0, 0, 0, 0, 1, 192, 168, 69, 1};
    size_t n;
    must("receive", iface_receive(host, now, frame, sizeof frame, out, sizeof out, &n));
}

/* The last frame that was sent in response. */
static uint8_t response[IFACE_FRAME_ROOM];

/* An echo request of one octet from 192.168.69.`from` (RFC 792). How many octets the answer in the same call has. */
static size_t forge_ping(iface *host, uint8_t from) {
    static uint8_t frame[IFACE_FRAME_ROOM];
    uint8_t message[9] = {8, 0, 0, 0, 0, 1, 0, 1, 'x'};
    uint16_t sum = sum_of(message, sizeof message);
    size_t n;
    message[2] = (uint8_t)(sum >> 8), message[3] = (uint8_t)sum;
    size_t length = packet(frame, from, 1, 1, 1, 0, message, sizeof message);
    must("receive", iface_receive(host, now, frame, length, response, sizeof response, &n));
    return n;
}

static struct iface_drops drops_of(iface *host) {
    struct iface_drops drops;
    must("drops", iface_guard_drops(host, &drops));
    return drops;
}

/* How many entries for neighbours have an address. */
static unsigned entries_of(iface *host, uint8_t last) {
    struct iface_address address;
    uint8_t hardware[6];
    int64_t until;
    unsigned found = 0;
    for (uint32_t place = 0; iface_neighbor_at(host, place, &address, hardware, &until) == IFACE_OK; place++)
        found += address.octets[3] == last;
    return found;
}

/* Messages that claim the host's own address: whether one takes an entry, and who sent it. */
static void own_address(void) {
    iface host = IFACE_NONE;
    uint8_t hardware[6] = {0};
    int64_t at = 0;
    now += 10 * SECOND;
    make(&host, 1, 1514);
    send_arp(&host, 1, 66);
    unsigned taken = entries_of(&host, 1);
    uint32_t told = iface_guard_conflict(&host, hardware, &at);
    printf("own address claimed, guard %s: %u entries taken, %s\n", guarded ? "on" : "off", taken,
           told == IFACE_OK ? "and it is told who did" : "and nothing is told");
    wants("it is dropped and told with a guard alone",
          guarded ? taken == 0 && told == IFACE_OK && hardware[5] == 66 && at == now && drops_of(&host).own_address == 1
                  : taken == 1 && told == IFACE_NOT_THERE);
    must("free", iface_free(&host));
}

/* A neighbour that pings so often in a second for a minute, and tells its hardware address when it is asked, beside so many
 * forged ARP packets between two pings, in its name or in others': how many pings are answered to it. */
static unsigned answered_beside(unsigned pings, unsigned forged, int in_its_name) {
    iface host = IFACE_NONE;
    unsigned answered = 0;
    now += 10 * SECOND;
    make(&host, 1, 1514);
    send_arp(&host, 2, 2);
    for (unsigned i = 0; i < 60 * pings; i++) {
        for (unsigned k = 0; k < forged; k++, now += SECOND / (pings * forged)) send_arp(&host, in_its_name ? 2 : (uint8_t)(100 + (forged * i + k) % 100), 66);
        size_t n = forge_ping(&host, 2);
        answered += n == 43 && response[5] == 2 && response[34] == 0;
        if (n == 42 && response[13] == 6 && response[41] == 2) send_arp(&host, 2, 2);
    }
    must("free", iface_free(&host));
    return answered;
}

static void forged_neighbors(void) {
    static const unsigned rates[] = {30, 60, 100, 1000};
    room = 64;
    unsigned many = answered_beside(10, 10, 0), known = answered_beside(10, 10, 1);
    room = 4;
    unsigned few = answered_beside(10, 10, 0);
    room = 64;
    printf("100 forged neighbours a second, guard %s: %u of 600 pings of a neighbour are answered, %u with room for four; in its own name: %u\n",
           guarded ? "on" : "off", many, few, known);
    wants("a neighbour that is known is served with a guard, or with room", many >= 580 && (guarded ? few >= 580 : few <= 100));
    for (unsigned i = 0; i < sizeof rates / sizeof rates[0]; i++) {
        unsigned answered = answered_beside(1, rates[i], 0);
        printf("%u forged neighbours a second, guard %s: %u of 60 pings, one a second, are answered\n", rates[i], guarded ? "on" : "off", answered);
        wants("all are if fewer are forged between two of them than there is room for, and with a guard all but the first",
              rates[i] < 64 ? answered == 60 : guarded ? answered >= 59 : answered == 0);
    }
    room = 0;
}

/* The same in the name of a neighbour that is pinned, which a guard alone can do: how many pings are answered to it. */
static void forged_pinned(void) {
    iface host = IFACE_NONE;
    struct iface_address two = v4(2);
    const uint8_t hardware[6] = {2, 0, 0, 0, 0, 2};
    unsigned answered = 0;
    now += 10 * SECOND;
    make(&host, 1, 1514);
    must("pin", iface_guard_pin(&host, &two, hardware));
    send_arp(&host, 2, 2);
    for (unsigned i = 0; i < 600; i++, now += SECOND / 10) {
        for (unsigned k = 0; k < 10; k++) send_arp(&host, 2, 66);
        size_t n = forge_ping(&host, 2);
        answered += n == 43 && response[5] == 2 && response[34] == 0;
    }
    printf("100 forged ARP packets a second in the name of a pinned neighbour, guard %s: %u of 600 pings of it are answered\n",
           guarded ? "on" : "off", answered);
    wants("a pinned neighbour is served with a guard alone", guarded ? answered == 600 && drops_of(&host).pinned == 6000 : answered == 0);
    must("free", iface_free(&host));
}

/* Pings from absent neighbours, a thousand a second, and a datagram to a neighbour that is there and not known: after how
 * many milliseconds it arrives, if it does within a minute. */
static void discovery_for_nothing(void) {
    iface host = IFACE_NONE, peer = IFACE_NONE;
    now += 10 * SECOND;
    make(&host, 1, 1514), make(&peer, 2, 1514);
    uint32_t socket = udp_at(&host, 1000, 8, 4096), at = udp_at(&peer, 2000, 8, 4096);
    struct iface_endpoint to = {v4(2), 2000}, from;
    int64_t begun = 0, arrived = 0;
    uint8_t got[16], frame[IFACE_FRAME_ROOM];
    size_t n;
    for (unsigned i = 0; i < 65000 && arrived == 0; i++, now += SECOND / 1000) {
        (void)forge_ping(&host, (uint8_t)(100 + i % 100));
        if (i % 1000 == 500) { /* again each second, since it is given up after the patience */
            if (begun == 0) begun = now;
            (void)iface_udp_send(&host, socket, &to, (const uint8_t *)"!", 1);
        }
        must("next", iface_next(&host, now, frame, sizeof frame, &n));
        if (n > 0) hear_only(&peer, &host, frame, n);
        if (iface_udp_receive(&peer, at, &from, got, sizeof got, &n) == IFACE_OK) arrived = now;
    }
    printf("1,000 pings a second from absent neighbours, guard %s: a datagram to a neighbour that isn't known ", guarded ? "on" : "off");
    if (arrived > 0) printf("arrives after %lld ms\n", (long long)(arrived - begun) / 1000);
    else printf("doesn't arrive within a minute\n");
    wants("it arrives within three seconds with a guard alone", guarded ? arrived > 0 && arrived - begun <= 3 * SECOND : arrived == 0);
    must("free", iface_free(&host)), must("free", iface_free(&peer));
}

/* Pings in the name of a known neighbour, a thousand in a second: how many answers are sent. */
static void reflection(void) {
    iface host = IFACE_NONE;
    unsigned answers = 0;
    now += 10 * SECOND;
    make(&host, 1, 1514);
    send_arp(&host, 2, 2);
    for (unsigned i = 0; i < 1000; i++, now += SECOND / 1000) answers += forge_ping(&host, 2) > 0;
    printf("1,000 pings in a second in a neighbour's name, guard %s: %u are answered\n", guarded ? "on" : "off", answers);
    wants("at most ten at once and a hundred in the second with a guard", answers == (guarded ? 109 : 1000));
    must("free", iface_free(&host));
}

/* Two echo services, and one datagram in the name of one of them to the other: how many datagrams go to and fro. */
static void loop(void) {
    static uint8_t frame[IFACE_FRAME_ROOM], out[IFACE_FRAME_ROOM];
    const uint8_t datagram[9] = {0, ECHO_PORT, 0, ECHO_PORT, 0, 9, 0, 0, 'x'};
    iface one = IFACE_NONE, two = IFACE_NONE;
    unsigned sent = 0;
    size_t n, length = packet(frame, 2, 1, 17, 1, 0, datagram, sizeof datagram);
    now += 10 * SECOND;
    make(&one, 1, 1514), make(&two, 2, 1514);
    uint32_t at_one = udp_at(&one, ECHO_PORT, 8, 4096), at_two = udp_at(&two, ECHO_PORT, 8, 4096);
    must("receive", iface_receive(&one, now, frame, length, out, sizeof out, &n));
    for (int turn = 0; turn < 100; turn++)
        echo(&one, at_one), sent += drain(&one, &two), echo(&two, at_two), sent += drain(&two, &one);
    printf("a datagram from one echo service to another, guard %s: %u frames in a hundred turns\n", guarded ? "on" : "off", sent);
    wants("none with a guard", guarded ? sent == 0 && drops_of(&one).loops == 1 : sent >= 200);
    must("free", iface_free(&one)), must("free", iface_free(&two));
}

/* Fragments of packets that never end, of one stranger and of many, and a datagram in pieces once a second: how many of
 * sixty arrive. */
static unsigned arrived_beside(unsigned strangers) {
    static uint8_t frame[IFACE_FRAME_ROOM], out[IFACE_FRAME_ROOM], payload[3000], got[4096];
    iface host = IFACE_NONE, peer = IFACE_NONE;
    now += 10 * SECOND;
    make(&host, 2, 1514), make(&peer, 1, 1514);
    uint32_t socket = udp_at(&host, 1000, 8, 32768), at = udp_at(&peer, 2000, 8, 32768);
    struct iface_endpoint to = {v4(1), 2000}, from;
    unsigned arrived = 0;
    size_t n;
    for (int i = 0; i < 60; i++, now += SECOND) {
        for (unsigned k = 0; k < 8; k++) {
            size_t length = packet(frame, (uint8_t)(100 + k % strangers), 1, 17, (uint16_t)(8 * i + (int)k), 0x2000, payload, 8);
            must("receive", iface_receive(&peer, now, frame, length, out, sizeof out, &n));
        }
        must("send", iface_udp_send(&host, socket, &to, payload, sizeof payload));
        for (int turn = 0; turn < 3; turn++) drain(&host, &peer), drain(&peer, &host);
        while (iface_udp_receive(&peer, at, &from, got, sizeof got, &n) == IFACE_OK) arrived++;
    }
    must("free", iface_free(&host)), must("free", iface_free(&peer));
    return arrived;
}

static void fragments(void) {
    unsigned one = arrived_beside(1), many = arrived_beside(8);
    slots = 96;
    unsigned beside = arrived_beside(8);
    slots = 0;
    printf("eight stray fragments a second, guard %s: %u of 60 datagrams in pieces arrive beside one stranger, %u beside eight; with room "
           "for 96: %u\n",
           guarded ? "on" : "off", one, many, beside);
    wants("all arrive", one == 60 && many == 60 && beside == 60);
}

/* A router advertisement of fe80::`last`, for half an hour, to ff02::1 (RFC 4861 4.2). */
static void send_advertisement(iface *host, uint8_t last) {
    static uint8_t out[IFACE_FRAME_ROOM];
    uint8_t frame[70] = {0x33, 0x33, 0, 0, 0, 1, 2, 0, 0, 0, 0, last, 0x86, 0xdd, 0x60, 0, 0, 0, 0, 16, 58, 255};
    uint8_t sum_over[56] = {0};
    frame[22] = 0xfe, frame[23] = 0x80, frame[37] = last, frame[38] = 0xff, frame[39] = 2, frame[53] = 1;
    frame[54] = 134, frame[58] = 64, frame[60] = 1800 >> 8, frame[61] = 1800 & 255;
    memcpy(sum_over, frame + 22, 32), sum_over[35] = 16, sum_over[39] = 58, memcpy(sum_over + 40, frame + 54, 16);
    uint16_t sum = sum_of(sum_over, sizeof sum_over);
    frame[56] = (uint8_t)(sum >> 8), frame[57] = (uint8_t)sum;
    size_t n;
    must("receive", iface_receive(host, now, frame, sizeof frame, out, sizeof out, &n));
}

/* Advertisements of a hundred routers in ten seconds, and then a neighbour, and a hundred more: how many are routes of a host that
 * takes them, and whether the neighbour is still known. */
static void router_flood(void) {
    iface host = IFACE_NONE;
    struct iface_config config;
    struct iface_address own = {6, {0xfe, 0x80, [15] = 1}}, network, router;
    uint8_t prefix_len, frame[IFACE_FRAME_ROOM];
    unsigned routes = 0;
    int64_t until;
    size_t n;
    now += 10 * SECOND;
    iface_config_init(&config);
    config.guard.on = guarded, config.slaac = 1, config.hardware_address[0] = 2, config.hardware_address[5] = 1;
    must("host", iface_new(&host, &config));
    must("address", iface_add_address(&host, &own, 64)), own = v4(1), must("address", iface_add_address(&host, &own, 24));
    for (unsigned i = 0; i < 200; i++, now += SECOND / 10) {
        if (i == 100) send_arp(&host, 2, 2);
        send_advertisement(&host, (uint8_t)(50 + i));
        must("next", iface_next(&host, now, frame, sizeof frame, &n));
    }
    unsigned known = entries_of(&host, 2);
    while (iface_route_at(&host, routes, &network, &prefix_len, &router, &until) == IFACE_OK) routes++;
    printf("advertisements of 100 routers in ten seconds, guard %s: %u are routes, and after 100 more %u of 1 neighbour is known\n",
           guarded ? "on" : "off", routes, known);
    wants("as many are as there is room for, and the neighbour stays with a guard alone", routes == 4 && known == guarded);
    must("free", iface_free(&host));
}

/* A query of IGMP to 224.0.0.1 about a group, 0 for all (RFC 2236 2), to be answered within so many tenths of a second. */
static void send_query(iface *host, uint8_t group, uint8_t within) {
    static uint8_t frame[IFACE_FRAME_ROOM], out[IFACE_FRAME_ROOM];
    uint8_t query[8] = {0x11, within, 0, 0, group, 0, 0, group ? 1 : 0};
    uint16_t sum = sum_of(query, sizeof query);
    query[2] = (uint8_t)(sum >> 8), query[3] = (uint8_t)sum;
    size_t n, length = packet(frame, 3, 1, 2, 1, 0, query, sizeof query);
    memcpy(frame, (uint8_t[]){1, 0, 0x5e, 0, 0, 1}, 6), memcpy(frame + 30, (uint8_t[]){224, 0, 0, 1}, 4);
    frame[24] = frame[25] = 0, sum = sum_of(frame + 14, 20), frame[24] = (uint8_t)(sum >> 8), frame[25] = (uint8_t)sum;
    must("receive", iface_receive(host, now, frame, length, out, sizeof out, &n));
}

/* A query once a minute, to be answered within ten seconds, and a forged one for 224.0.0.1 so long after each: how many of
 * ten are answered by a report of the host's group. */
static unsigned reports_beside(int64_t after) {
    iface host = IFACE_NONE;
    uint8_t frame[IFACE_FRAME_ROOM];
    unsigned reports = 0;
    size_t n;
    now += 10 * SECOND;
    make(&host, 1, 1514);
    must("group", iface_join_group(&host, &(struct iface_address){4, {239, 1, 1, 1}}));
    for (int i = 0; i < 10; i++) must("next", iface_next(&host, now, frame, sizeof frame, &n));
    for (unsigned i = 0; i < 10; i++) {
        for (int64_t since = 0; since < 60 * SECOND; since += SECOND / 10, now += SECOND / 10) {
            if (since == 0) send_query(&host, 0, 100);
            if (since == after) send_query(&host, 224, 100);
            must("next", iface_next(&host, now, frame, sizeof frame, &n));
            reports += n > 0 && frame[23] == 2 && frame[14 + 4 * (frame[14] % 16)] == 0x16 && frame[30] == 239;
        }
    }
    must("free", iface_free(&host));
    return reports;
}

/* A query of MLD to ff02::1 about a group, :: for all, to be answered within ten seconds (RFC 3810 5.1). */
static void send_listener_query(iface *host, const uint8_t group[16]) {
    static uint8_t out[IFACE_FRAME_ROOM];
    static const uint8_t all_nodes[16] = {0xff, 2, [15] = 1};
    uint8_t frame[82] = {0x33, 0x33, 0, 0, 0, 1, 2, 0, 0, 0, 0, 3, 0x86, 0xdd, 0x60, 0, 0, 0, 0, 28, 58, 1, 0xfe, 0x80};
    uint8_t summed[68] = {[35] = 28, [39] = 58};
    size_t n;
    frame[37] = 3, frame[54] = 130, frame[58] = 10000 >> 8, frame[59] = 10000 & 255, memcpy(frame + 38, all_nodes, 16);
    memcpy(frame + 62, group, 16), frame[78] = 2, frame[79] = 125;
    memcpy(summed, frame + 22, 32), memcpy(summed + 40, frame + 54, 28);
    uint16_t sum = sum_of(summed, sizeof summed);
    frame[56] = (uint8_t)(sum >> 8), frame[57] = (uint8_t)sum;
    must("receive", iface_receive(host, now, frame, sizeof frame, out, sizeof out, &n));
}

/* The same of MLD, where the forged one is about ff02::1: how many of ten are answered by a report that has the host's group. */
static unsigned listener_reports_beside(int64_t after) {
    static const uint8_t every[16], all_nodes[16] = {0xff, 2, [15] = 1};
    struct iface_address group = {6, {0xff, 0x0e, [15] = 9}}, own = v6(1);
    iface host = IFACE_NONE;
    uint8_t frame[IFACE_FRAME_ROOM];
    unsigned reports = 0;
    size_t n;
    now += 10 * SECOND;
    make(&host, 1, 1514);
    must("address", iface_add_address(&host, &own, 64)), must("group", iface_join_group(&host, &group));
    for (int i = 0; i < 10; i++) must("next", iface_next(&host, now, frame, sizeof frame, &n));
    for (unsigned i = 0; i < 10; i++) {
        unsigned answered = 0;
        for (int64_t since = 0; since < 60 * SECOND; since += SECOND / 10, now += SECOND / 10) {
            if (since == 0) send_listener_query(&host, every);
            if (since == after) send_listener_query(&host, all_nodes);
            must("next", iface_next(&host, now, frame, sizeof frame, &n));
            for (size_t at = 74; n > 62 && frame[62] == 143 && at + 16 <= n; at += 20) answered += memcmp(frame + at, group.octets, 16) == 0;
        }
        reports += answered > 0;
    }
    must("free", iface_free(&host));
    return reports;
}

static void queries(void) {
    unsigned none = reports_beside(-1), soon = reports_beside(SECOND / 10), later = reports_beside(SECOND * 11 / 10);
    printf("ten queries, guard %s: %u are answered; %u with a forged one 0.1 s after each, %u after 1.1 s\n", guarded ? "on" : "off", none, soon,
           later);
    wants("all are answered where none is forged", none == 10);
    wants("all are with a guard, and none or few without", guarded ? soon == 10 && later == 10 : soon <= 2 && later <= 2);
    none = listener_reports_beside(-1), later = listener_reports_beside(SECOND * 11 / 10);
    printf("ten queries of MLD, guard %s: %u are answered; %u with a forged one 1.1 s after each\n", guarded ? "on" : "off", none, later);
    wants("all are where none is forged, or with a guard, and most aren't without", none == 10 && (guarded ? later == 10 : later <= 5));
}

/* Claims of the host's own address, one each second for a minute, and a guard that announces the address each ten seconds: how many
 * announcements are sent. */
static void defended_address(void) {
    const uint8_t claim[42] = {255, 255, 255, 255, 255, 255, 2, 0, 0, 0, 0, 66, 8, 6, 0, 1, 8, 0, 6, 4, 0, 1, 2, 0, 0, 0, 0, 66,
                               192, 168, 69, 1, 0, 0, 0, 0, 0, 0, 192, 168, 69, 2};
    iface host = IFACE_NONE;
    struct iface_config config;
    struct iface_address own = v4(1);
    uint8_t out[IFACE_FRAME_ROOM];
    unsigned announced = 0;
    size_t n;
    now += 10 * SECOND;
    iface_config_init(&config);
    config.guard.on = guarded, config.guard.defend = 10 * SECOND, config.hardware_address[0] = 2, config.hardware_address[5] = 1;
    must("host", iface_new(&host, &config)), must("address", iface_add_address(&host, &own, 24));
    for (unsigned i = 0; i < 60; i++, now += SECOND) {
        must("claim", iface_receive(&host, now, claim, sizeof claim, out, sizeof out, &n));
        announced += n == 42 && out[11] == 1 && out[27] == 1 && out[31] == 1 && out[41] == 1;
    }
    printf("own address claimed each second for a minute, guard %s that defends it: %u announcements\n", guarded ? "on" : "off", announced);
    wants("one each ten seconds with a guard alone", announced == (guarded ? 6 : 0));
    must("free", iface_free(&host));
}

static void attacks(void) {
    own_address();
    defended_address();
    forged_neighbors();
    forged_pinned();
    discovery_for_nothing();
    reflection();
    loop();
    router_flood();
    queries();
    fragments();
}

int main(void) {
    spoofed_datagram();
    spoofed_datagrams();
    absent_neighbor_first();
    found_beside_absent();
    neighbors_in_turn();
    many_neighbors(8, 1, 0, 1), many_neighbors(60, 0, 0, 1), many_neighbors(60, 1, 0, 1);
    many_neighbors(5, 0, 4, 0), many_neighbors(8, 1, 4, 0);
    bursts(1514, 3000), bursts(1514, 4000), bursts(1114, 4000);
    long_behind_short();
    long_for_absent();
    long_pings();
    lossy_link();
    stray_fragments();
    known_beside_absent();
    attacks();
    guarded = 1;
    attacks();
    return failures != 0;
}
