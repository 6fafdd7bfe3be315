/* Tests arena.c: a host takes just what iface_new_in writes, and is refused with an octet less; two hosts in one arena exchange octets by a
 * connection of the least rooms; what is given back is taken again. */
#include "arena.h"

#include <stdio.h>
#include <stdlib.h>
#include <string.h>

enum { UNIT = 16, REGION = 2 * UNIT, PORT = 7, OCTETS = 5000 };

static int failures;

static void wants(const char *what, int is_right) {
    if (is_right) return;
    printf("WRONG: %s\n", what);
    failures++;
}

static void must(const char *what, uint32_t code) {
    if (code == IFACE_OK) return;
    printf("WRONG: %s: %s\n", what, iface_strerror(code));
    exit(1);
}

/* Memory that begins at a multiple of UNIT, and is the arena's until the program ends. */
static char *memory_of(size_t size) {
    char *memory = malloc(size + UNIT);
    if (!memory) exit(1);
    return memory + (UNIT - (uintptr_t)memory % UNIT) % UNIT;
}

static struct iface_config least(uint8_t last) {
    struct iface_config config;
    iface_config_init(&config);
    config.seed = last, config.hardware_address[0] = 2, config.hardware_address[5] = last;
    config.sockets = config.neighbors = config.routes = config.fragmented = 0;
    return config;
}

/* In memory that begins so many octets after a multiple of 16. The memory stays the arena's. */
static void takes_what_it_wants(const struct iface_config *config, size_t after) {
    iface host = IFACE_NONE;
    size_t wanted, again, used = iface_arena_used(), skipped = (UNIT - after) % UNIT;
    if (iface_new_in(&host, config, NULL, 0, &wanted) == IFACE_OK) must("its end", iface_free(&host));
    char *memory = memory_of(wanted + UNIT) + after;
    wants("an octet less is refused", iface_new_in(&host, config, memory, skipped + wanted - 1, &again) == IFACE_NO_MEMORY);
    wants("and wants the same", again == wanted && iface_arena_used() == used);
    must("a host", iface_new_in(&host, config, memory, skipped + wanted, &again));
    wants("it takes what it wants", again == wanted && iface_arena_used() - used == wanted - REGION);
    must("its end", iface_free(&host));
    wants("it gives that back", iface_arena_used() == used);
}

static void each_table(void) {
    static const uint32_t counts[] = {1, 2, 3, 4, 5, 8, 31, 32, 33, 128};
    struct iface_config config;
    takes_what_it_wants((config = least(1), &config), 0);
    for (size_t i = 0; i < sizeof counts / sizeof *counts; i++) {
        uint32_t count = counts[i];
        takes_what_it_wants((config = least(1), config.sockets = count, &config), 0);
        takes_what_it_wants((config = least(1), config.neighbors = count, &config), 4);
        takes_what_it_wants((config = least(1), config.routes = count, &config), 8);
        takes_what_it_wants((config = least(1), config.fragmented = count, &config), 15);
    }
    iface_config_init(&config);
    config.hardware_address[0] = 2;
    takes_what_it_wants(&config, 1);
}

static void refusals(void) {
    iface host = IFACE_NONE;
    struct iface_config config = least(1);
    size_t wanted, used = iface_arena_used();
    char few[UNIT];
    config.sockets = config.fragmented = UINT32_MAX;
    wants("more than there is", iface_new_in(&host, &config, few, sizeof few, &wanted) == IFACE_NO_MEMORY && wanted > UINT32_MAX);
    config = least(1), config.frame_len = 1515;
    wants("what iface_new refuses", iface_new_in(&host, &config, memory_of(65536), 65536, &wanted) == IFACE_BAD_MTU);
    wants("takes nothing", iface_arena_used() == used);
}

/* ---- two hosts with a connection ---- */

struct end {
    iface host;
    iface_streams tcp;
    struct iface_stream stream;
    uint8_t sent[OCTETS], came[OCTETS];
    size_t sent_count, came_count;
};

static int64_t now;

static void make(struct end *e, uint8_t last, uint32_t room) {
    const struct iface_address own = {4, {10, 0, 0, last}};
    struct iface_config config = least(last);
    struct iface_streams_config streams;
    size_t wanted;
    static const struct end none = {.host = IFACE_NONE, .tcp = IFACE_STREAMS_NONE};
    *e = none;
    config.sockets = 2;
    must("a host", iface_new_in(&e->host, &config, NULL, 0, &wanted));
    must("an address", iface_add_address(&e->host, &own, 24));
    iface_streams_config_init(&streams);
    streams.number_key[0] = last, streams.table_key[0] = last;
    streams.places = 1, streams.send_room = streams.receive_room = room, streams.ipv6 = 0;
    streams.packets = 1, streams.packet_octets = 576, streams.far_octets = 576;
    must("connections", iface_streams_new(&e->tcp, &e->host, &streams));
    for (size_t i = 0; i < OCTETS; i++) e->sent[i] = (uint8_t)(i * 7 + i / 256 + last);
}

static void hand_over(struct end *from, struct end *to) {
    uint8_t frame[IFACE_FRAME_ROOM], response[IFACE_FRAME_ROOM];
    size_t length, n;
    must("poll", iface_streams_poll(&from->tcp, &from->host, now));
    while (must("next", iface_next(&from->host, now, frame, sizeof frame, &length)), length > 0) {
        must("receive", iface_receive(&to->host, now, frame, length, response, sizeof response, &n));
        if (n > 0) must("receive", iface_receive(&from->host, now, response, n, frame, sizeof frame, &length));
        must("poll", iface_streams_poll(&from->tcp, &from->host, now));
        must("poll", iface_streams_poll(&to->tcp, &to->host, now));
    }
}

static void write_and_read(struct end *e) {
    size_t count;
    if (iface_stream_send(&e->tcp, &e->stream, e->sent + e->sent_count, OCTETS - e->sent_count, &count) == IFACE_OK) e->sent_count += count;
    if (iface_stream_receive(&e->tcp, &e->stream, e->came + e->came_count, OCTETS - e->came_count, &count) == IFACE_OK)
        e->came_count += count;
}

/* Five thousand octets go each way, at the same time, by rooms of so many octets. */
static void connection_with(uint32_t room) {
    static struct end a, b;
    const struct iface_endpoint at_port = {IFACE_ANY, PORT}, to = {{4, {10, 0, 0, 2}}, PORT}, from = {IFACE_ANY, 49152};
    size_t listener, used = iface_arena_used();
    int is_accepted = 0;
    make(&a, 1, room), make(&b, 2, room);
    must("listen", iface_stream_listen(&b.tcp, &at_port, 1, &listener));
    must("connect", iface_stream_connect(&a.tcp, &a.host, now, &from, &to, &a.stream));
    for (int turns = 0; turns < 100000 && (a.came_count < OCTETS || b.came_count < OCTETS); turns++, now += 10000) {
        hand_over(&a, &b), hand_over(&b, &a);
        if (!is_accepted) is_accepted = iface_stream_accept(&b.tcp, listener, &b.stream) == IFACE_OK;
        write_and_read(&a);
        if (is_accepted) write_and_read(&b);
    }
    wants("the octets came", a.came_count == OCTETS && memcmp(a.came, b.sent, OCTETS) == 0);
    wants("and those the other way", b.came_count == OCTETS && memcmp(b.came, a.sent, OCTETS) == 0);
    must("its end", iface_streams_free(&a.tcp, &a.host)), must("its end", iface_streams_free(&b.tcp, &b.host));
    must("its end", iface_free(&a.host)), must("its end", iface_free(&b.host));
    wants("connections and hosts give all back", iface_arena_used() == used);
}

/* Sockets are opened and closed, and frames wait and are handed over, for long: no more is taken. */
static void gaps_are_joined(void) {
    static struct end e;
    const struct iface_endpoint local = {IFACE_ANY, PORT};
    const struct iface_rooms rooms = IFACE_ROOMS(2, 512), wide = IFACE_ROOMS(3, 1500);
    size_t peak = 0;
    make(&e, 1, 536);
    must("their end", iface_streams_free(&e.tcp, &e.host));
    for (int i = 0; i < 1000; i++) {
        uint32_t first, second;
        must("a socket", iface_udp_open(&e.host, &local, i % 2 ? &rooms : &wide, &first));
        must("a socket", iface_udp_open(&e.host, &local, i % 3 ? &rooms : &wide, &second));
        must("close", iface_close(&e.host, i % 2 ? first : second)), must("close", iface_close(&e.host, i % 2 ? second : first));
        if (i == 20) peak = iface_arena_peak();
    }
    wants("the arena doesn't grow", iface_arena_peak() == peak);
    must("its end", iface_free(&e.host));
}

int main(void) {
    each_table();
    refusals();
    connection_with(536);
    connection_with(1);
    gaps_are_joined();
    wants("all is given back", iface_arena_used() == 0);
    return failures != 0;
}
