/* Many hosts on one Ethernet in memory, each of which sends numbered datagrams to another one. The link loses, repeats,
 * delays and so reorders frames, by a seed: the same arguments always print the same. No clock is read. Time goes on to
 * what happens next: a frame arrives, a datagram is due, or the instant comes that iface_poll_at told. So a quiet
 * network takes no step, whatever time passes.
 *
 *   many_hosts [HOSTS [SEED [LOST [REPEATED]]]]     20, 1, 100 and 50, if left out; the last two are per mille
 *
 * It prints each datagram that a socket gets, and tables. It fails if one wasn't sent by the host whose address it has,
 * to the host that got it, octet by octet.
 */
#include "iface.h"

#include <inttypes.h>
#include <stdio.h>
#include <stdlib.h>
#include <string.h>

enum {
    PORT = 7777,
    DATAGRAMS = 10,             /* that each host sends, */
    EVERY = 50000,              /* so far apart; all times are in microseconds */
    SHORTEST = 8, LENGTHS = 256, /* a payload has 8 to 263 octets */
    LEAST_DELAY = 100, DELAYS = 5000 /* a copy of a frame takes 100 to 5,099 */
};

/* ---- what happens, and when ---- */

/* A copy of a frame arrives at a host; or, if there is none, the host is to be polled. */
struct event {
    int64_t at;
    uint64_t order; /* of two at one instant the one that was planned first comes first */
    uint32_t to;
    size_t length;
    uint8_t *frame;
};

static struct event *events; /* a heap: none is before that at half its place */
static size_t event_count, event_room;
static int64_t now;
static uint64_t steps;

static void *allocate(void *old, size_t size) {
    void *new = realloc(old, size);
    if (new) return new;
    fprintf(stderr, "many_hosts: out of memory\n");
    exit(1);
}

static int is_before(const struct event *one, const struct event *other) {
    return one->at != other->at ? one->at < other->at : one->order < other->order;
}

static void plan(int64_t at, uint32_t to, const uint8_t *frame, size_t length) {
    static uint64_t order;
    struct event new = {at, order++, to, length, NULL};
    size_t place = event_count++;
    if (length > 0) new.frame = memcpy(allocate(NULL, length), frame, length);
    if (event_count > event_room) events = allocate(events, (event_room = 2 * event_count) * sizeof *events);
    for (; place > 0 && is_before(&new, &events[(place - 1) / 2]); place = (place - 1) / 2)
        events[place] = events[(place - 1) / 2];
    events[place] = new;
}

static struct event take_first(void) {
    struct event first = events[0], last = events[--event_count];
    size_t place = 0, next;
    for (; (next = 2 * place + 1) < event_count; place = next) {
        if (next + 1 < event_count && is_before(&events[next + 1], &events[next])) next++;
        if (is_before(&last, &events[next])) break;
        events[place] = events[next];
    }
    events[place] = last;
    return first;
}

/* ---- the hosts ---- */

/* A host with a socket, and its program, which sends datagrams to a peer. */
struct station {
    iface host;
    uint32_t socket, peer;
    uint32_t sent;            /* how many datagrams its socket took */
    int64_t next_send, wake;  /* when the next one is due, and when the host is to be polled */
    uint32_t came[DATAGRAMS]; /* how often each one came to the peer */
};

static struct station *stations;
static uint32_t station_count;

static void must(const char *what, uint32_t code) {
    if (code == IFACE_OK) return;
    fprintf(stderr, "many_hosts: %s: %s\n", what, iface_strerror(code));
    exit(1);
}

/* Random numbers (xorshift). */
static uint64_t word;

static uint32_t draw(uint32_t below) {
    word ^= word << 13;
    word ^= word >> 7;
    word ^= word << 17;
    return (uint32_t)(word % below);
}

/* A number in four octets. Host i has i + 1 in its addresses: 10.0.0.1, and 02:00 with four octets. */
static void put(uint8_t *octets, uint32_t number) {
    for (int i = 0; i < 4; i++) octets[i] = (uint8_t)(number >> (24 - 8 * i));
}

static uint32_t number_in(const uint8_t *octets) {
    return (uint32_t)octets[0] << 24 | (uint32_t)octets[1] << 16 | (uint32_t)octets[2] << 8 | octets[3];
}

static struct iface_address address_of(uint32_t i) {
    struct iface_address address = {4, {0}};
    put(address.octets, (10u << 24) + i + 1);
    return address;
}

static void make(uint32_t i) {
    struct station *own = &stations[i];
    struct iface_config config;
    struct iface_endpoint any = {.port = PORT};
    struct iface_address address = address_of(i);
    iface_config_init(&config);
    config.seed = i, config.sockets = 1, config.hardware_address[0] = 2;
    put(&config.hardware_address[2], i + 1);
    *own = (struct station){.host = IFACE_NONE, .next_send = 1000 * (int64_t)i, .wake = 1000 * (int64_t)i};
    own->peer = (i + 1 + draw(station_count - 1)) % station_count;
    must("a host", iface_new(&own->host, &config));
    must("an address", iface_add_address(&own->host, &address, 8));
    must("a socket", iface_udp_open(&own->host, &any, &(struct iface_rooms)IFACE_ROOMS(DATAGRAMS, DATAGRAMS * (SHORTEST + LENGTHS)), &own->socket));
    plan(own->wake, i, NULL, 0);
}

/* ---- the link ---- */

static uint32_t lost_per_mille, repeated_per_mille;
static uint64_t copies, copies_lost, copies_repeated;

/* Takes a copy of a frame to a host: late, perhaps twice, perhaps never. */
static void carry(uint32_t to, const uint8_t *frame, size_t length) {
    int is_lost = draw(1000) < lost_per_mille, is_repeated = draw(1000) < repeated_per_mille;
    copies++, copies_lost += (uint64_t)is_lost, copies_repeated += (uint64_t)(!is_lost && is_repeated);
    for (int left = is_lost ? 0 : 1 + is_repeated; left > 0; left--)
        plan(now + LEAST_DELAY + draw(DELAYS), to, frame, length);
}

/* Takes a frame to the hosts that its destination names: to all others if it is broadcast, or a group's. */
static void transmit(uint32_t from, const uint8_t *frame, size_t length) {
    uint32_t to = number_in(&frame[2]) - 1;
    if (frame[0] == 2 && to < station_count) carry(to, frame, length);
    for (to = 0; frame[0] & 1 && to < station_count; to++)
        if (to != from) carry(to, frame, length);
}

/* ---- what a host's program does ---- */

/* The payload of a datagram: who sends it, its number, and octets that follow from these. Returns its length. */
static size_t write_payload(uint8_t *payload, uint32_t from, uint32_t number) {
    size_t length = SHORTEST + (from * 7 + number * 31) % LENGTHS;
    put(payload, from), put(&payload[4], number);
    for (size_t i = SHORTEST; i < length; i++) payload[i] = (uint8_t)(from + number + i);
    return length;
}

static void send(uint32_t i) {
    struct station *own = &stations[i];
    struct iface_endpoint to = {address_of(own->peer), PORT};
    uint8_t payload[SHORTEST + LENGTHS];
    must("sending", iface_udp_send(&own->host, own->socket, &to, payload, write_payload(payload, i, own->sent++)));
    own->next_send = own->sent < DATAGRAMS ? now + EVERY : IFACE_NEVER;
}

/* Takes what a host's socket got, each of which is a datagram of the host whose address it has. */
static void receive(uint32_t i) {
    struct station *own = &stations[i];
    struct iface_endpoint from;
    uint8_t got[SHORTEST + LENGTHS], sent[SHORTEST + LENGTHS];
    size_t length;
    while (iface_udp_receive(&own->host, own->socket, &from, got, sizeof got, &length) == IFACE_OK) {
        uint32_t sender = number_in(from.address.octets) - (10u << 24) - 1;
        uint32_t number = length < SHORTEST ? DATAGRAMS : number_in(&got[4]);
        int is_right = sender < station_count && stations[sender].peer == i && number < stations[sender].sent
            && write_payload(sent, sender, number) == length && memcmp(got, sent, length) == 0;
        if (!is_right) printf("WRONG: h%" PRIu32 " got a datagram that wasn't sent to it\n", i + 1), exit(1);
        stations[sender].came[number]++;
        printf("%" PRId64 ".%06" PRId64 "  h%" PRIu32 " gets datagram %" PRIu32 " of h%" PRIu32 ", %u octets\n",
               now / 1000000, now % 1000000, i + 1, number, sender + 1, (unsigned)length);
    }
}

/* The whole of a host at an instant: it takes the frame that arrived, if one did, sends what is to be sent, and is
 * polled again when it tells. */
static void step(uint32_t i, const uint8_t *frame, size_t length) {
    static uint8_t out[IFACE_FRAME_ROOM];
    struct station *own = &stations[i];
    int64_t at;
    size_t n = 0;
    if (length > 0) {
        must("a frame", iface_receive(&own->host, now, frame, length, out, sizeof out, &n));
        if (n > 0) transmit(i, out, n);
        receive(i);
    }
    if (own->next_send <= now) send(i);
    for (must("a round", iface_next(&own->host, now, out, sizeof out, &n)); n > 0;
         must("a round", iface_next(&own->host, now, out, sizeof out, &n)))
        transmit(i, out, n);
    must("poll_at", iface_poll_at(&own->host, now, &at));
    if (at <= now) at = now + 1; /* time goes on */
    if (at > own->next_send) at = own->next_send;
    if (at == own->wake) return;
    own->wake = at;
    if (at != IFACE_NEVER) plan(at, i, NULL, 0);
}

/* ---- the end ---- */

static void print_row(const char *flow, uint32_t sent, uint32_t delivered, uint32_t repeated) {
    printf("%-16s %9" PRIu32 " %9" PRIu32 " %9" PRIu32 " %9" PRIu32 "\n", flow, sent, delivered, sent - delivered,
           repeated);
}

static void print_tables(void) {
    uint32_t sent = 0, all_delivered = 0, all_repeated = 0;
    uint64_t given_up = 0, count;
    printf("%-16s %9s %9s %9s %9s\n", "flow", "sent", "delivered", "lost", "repeated");
    for (uint32_t i = 0; i < station_count; i++) {
        uint32_t delivered = 0, repeated = 0;
        char flow[32];
        for (int k = 0; k < DATAGRAMS; k++)
            if (stations[i].came[k] > 0) delivered++, repeated += stations[i].came[k] - 1;
        snprintf(flow, sizeof flow, "h%" PRIu32 " to h%" PRIu32, i + 1, stations[i].peer + 1);
        print_row(flow, stations[i].sent, delivered, repeated);
        must("counting", iface_given_up_count(&stations[i].host, &count));
        sent += stations[i].sent, all_delivered += delivered, all_repeated += repeated, given_up += count;
    }
    printf("link: %" PRIu64 " copies, %" PRIu64 " lost, %" PRIu64 " repeated\n", copies, copies_lost, copies_repeated);
    printf("hosts: %" PRIu64 " steps until %" PRId64 ".%06" PRId64 ", %" PRIu64 " packets given up\n", steps,
           now / 1000000, now % 1000000, given_up);
    print_row("all", sent, all_delivered, all_repeated);
}

/* A number among the arguments, or what stands for one that is left out. */
static uint32_t argument(int argc, char **argv, int place, uint32_t usual, uint32_t least, uint32_t most) {
    char *end;
    if (place >= argc) return usual;
    unsigned long number = strtoul(argv[place], &end, 10);
    if (*argv[place] != '\0' && *end == '\0' && number >= least && number <= most) return (uint32_t)number;
    fprintf(stderr, "usage: many_hosts [HOSTS [SEED [LOST [REPEATED]]]]\n");
    exit(2);
}

int main(int argc, char **argv) {
    station_count = argument(argc, argv, 1, 20, 2, 50000);
    word = 0x9e3779b97f4a7c15u ^ argument(argc, argv, 2, 1, 0, UINT32_MAX);
    lost_per_mille = argument(argc, argv, 3, 100, 0, 1000);
    repeated_per_mille = argument(argc, argv, 4, 50, 0, 1000);
    stations = allocate(NULL, station_count * sizeof *stations);
    for (uint32_t i = 0; i < station_count; i++) make(i);
    while (event_count > 0) {
        struct event first = take_first();
        /* An instant that the host didn't tell last is past. */
        if (first.length > 0 || stations[first.to].wake == first.at) {
            now = first.at;
            steps++;
            step(first.to, first.frame, first.length);
        }
        free(first.frame);
    }
    print_tables();
    for (uint32_t i = 0; i < station_count; i++) must("freeing", iface_free(&stations[i].host));
    free(stations), free(events);
    return 0;
}
