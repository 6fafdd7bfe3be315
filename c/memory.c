/* Counts the octets that the library asks of rattle_alloc, exactly, and prints the table of docs/C.md. It fails where what it takes
 * isn't what the table says by its last column, where a call takes more on its way than it keeps, where a call takes memory that
 * isn't told to, and where not all is given back. What an allocator adds to a block isn't counted.
 */
#include "iface.h"

#include "examples/octets.h"
#include "lease_reply.h"

#include <stdbool.h>
#include <stdio.h>
#include <stdlib.h>

enum { SECOND = 1000000, PORT = 7 };

static int failures;

static void wants(const char *what, int is_right) {
    if (is_right) return;
    printf("WRONG: %s\n", what);
    failures++;
}

static void must(const char *what, uint32_t code) {
    if (code != IFACE_OK) printf("WRONG: %s: %s\n", what, iface_strerror(code)), failures++;
}

/* ---- the heap: what is held, the most that was held since `begin`, how many requests there were, and the largest of these ---- */

static size_t held, most, requests, largest;

struct block {
    bool is_there;
    void *at;
};

/* What stands before each block, as long as no block's alignment is broken by it. */
struct head {
    size_t size;
    size_t unused;
};

struct block rattle_alloc(size_t size, size_t align);
struct block rattle_realloc(void *old, size_t old_size, size_t size, size_t align);
void rattle_dealloc(void *at);

static struct block resized(struct head *old, size_t old_size, size_t size) {
    struct head *head = realloc(old, sizeof *head + size);
    if (!head) printf("WRONG: no memory\n"), exit(1);
    requests++, held += size - old_size, head->size = size;
    if (held > most) most = held;
    if (size > largest) largest = size;
    return (struct block){true, head + 1};
}

struct block rattle_alloc(size_t size, size_t align) {
    (void)align;
    return resized(NULL, 0, size);
}

struct block rattle_realloc(void *old, size_t old_size, size_t size, size_t align) {
    (void)align;
    return resized((struct head *)old - 1, old_size, size);
}

void rattle_dealloc(void *at) {
    struct head *head = (struct head *)at - 1;
    held -= head->size;
    free(head);
}

static size_t begin(void) {
    most = held;
    return held;
}

/* What was taken since `begin`, which is what was held then. */
static size_t taken(size_t before) {
    wants("a call takes no more on its way than it keeps", most == held);
    return held - before;
}

/* ---- the table ---- */

/* A number as in the pages, with a comma before each three digits. It stays until seven others were written. */
static const char *text_of(size_t number) {
    static char texts[8][32];
    static unsigned used;
    char plain[32], *text = texts[used++ % 8], *to = text;
    int length = snprintf(plain, sizeof plain, "%zu", number);
    for (int i = 0; i < length; i++) {
        if (i > 0 && (length - i) % 3 == 0) *to++ = ',';
        *to++ = plain[i];
    }
    *to = '\0';
    return text;
}

static void row(const char *what, size_t usual, size_t least, const char *more) {
    printf("| %s | %s | %s |%s%s |\n", what, text_of(usual), text_of(least), *more ? " " : "", more);
}

/* What one more takes, of what takes so many octets: each one from `first` on takes the same. */
static size_t each_from(uint32_t first, size_t (*octets_of)(uint32_t count), uint32_t many) {
    size_t octets = octets_of(first), one = octets_of(first + 1) - octets;
    wants("each one takes the same", octets_of(many) == octets + (many - first) * one);
    return one;
}

static size_t each(size_t (*octets_of)(uint32_t count), uint32_t many) {
    return each_from(1, octets_of, many);
}

/* ---- hosts ---- */

static iface host = IFACE_NONE;

static struct iface_config usual(void) {
    struct iface_config config;
    iface_config_init(&config);
    config.hardware_address[0] = 2;
    return config;
}

/* With none of what memory is taken for. */
static struct iface_config bare(void) {
    struct iface_config config = usual();
    config.sockets = config.neighbors = config.routes = config.fragmented = 0;
    return config;
}

static size_t octets_of_host(struct iface_config config) {
    size_t before = begin();
    must("a host", iface_new(&host, &config));
    /* Up to four routes stand in the host itself, and what was taken for them is given back at once. */
    size_t octets = config.routes > 0 && config.routes <= 4 ? held - before : taken(before);
    must("its end", iface_free(&host));
    wants("a host gives back what it took", held == before);
    return octets;
}

static size_t by_sockets(uint32_t count) {
    struct iface_config config = bare();
    config.sockets = count;
    return octets_of_host(config);
}

static size_t by_neighbors(uint32_t count) {
    struct iface_config config = bare();
    config.neighbors = count;
    return octets_of_host(config);
}

static size_t by_routes(uint32_t count) {
    struct iface_config config = bare();
    config.routes = count;
    return octets_of_host(config);
}

static size_t by_fragmented(uint32_t count) {
    struct iface_config config = bare();
    config.fragmented = count;
    return octets_of_host(config);
}

static void host_row(void) {
    struct iface_config config = usual();
    size_t least = octets_of_host(bare()), interface = largest, all = octets_of_host(config);
    size_t sockets = each(by_sockets, 1000), neighbors = each(by_neighbors, 1000), fragmented = each(by_fragmented, 100);
    size_t routes = each_from(5, by_routes, 32), roots = by_routes(5) - 5 * routes - least;
    char more[200];
    wants("four routes take nothing", by_routes(1) == least && by_routes(4) == least && by_routes(33) == by_routes(32));
    wants("no more for the first socket, neighbour, packet in fragments",
          by_sockets(1) - sockets == least && by_neighbors(1) - neighbors == least && by_fragmented(1) - fragmented == least);
    wants("a host takes the sum", all == least + config.sockets * sockets + config.neighbors * neighbors + roots
                                             + config.routes * routes + config.fragmented * fragmented);
    snprintf(more, sizeof more, "%s for each of `neighbors`, %s of `fragmented`, %s of `sockets`; from five `routes` on %s for each, and %s",
             text_of(neighbors), text_of(fragmented), text_of(sockets), text_of(routes), text_of(roots));
    row("a host, by `iface_new`", all, least, more);
    row("of these the block of its interface", interface, interface, "");
}

/* ---- what goes through a host ---- */

static int64_t now;
static uint8_t out[IFACE_FRAME_ROOM];
static const struct iface_address own = {4, {10, 0, 0, 1}}, everybody = {4, {10, 0, 0, 255}};
static const struct iface_endpoint at_port = {IFACE_ANY, PORT}, to_all = {{4, {10, 0, 0, 255}}, PORT};

static void make_host(uint32_t sockets) {
    struct iface_config config = usual();
    config.sockets = sockets;
    must("a host", iface_new(&host, &config));
    must("an address", iface_add_address(&host, &own, 24));
}

/* The length of the next frame that is to be sent. */
static size_t next(void) {
    size_t length = 0;
    must("a round", iface_next(&host, now, out, sizeof out, &length));
    return length;
}

/* So many sockets send a datagram each, in one round. Writes what is held once the first frame was handed over. */
static size_t while_waiting(uint32_t count) {
    struct iface_rooms rooms = IFACE_ROOMS(1, 1);
    uint32_t socket = 0;
    uint8_t octet = 0;
    make_host(count);
    for (uint32_t i = 0; i < count; i++) {
        must("a socket", iface_udp_open(&host, &at_port, &rooms, &socket));
        must("a datagram", iface_udp_send(&host, socket, &to_all, &octet, 1));
    }
    size_t before = begin();
    wants("the first frame", next() > 0);
    size_t octets = taken(before);
    for (uint32_t i = 1; i < count; i++) wants("a frame of each socket", next() > 0);
    wants("no frame more", next() == 0);
    must("its end", iface_free(&host));
    return octets;
}

/* The list of frames that wait has room for four, or for twice as many as it had. */
static void round_row(void) {
    char more[160];
    make_host(0);
    size_t before = begin();
    wants("nothing is sent", next() == 0);
    size_t first = taken(before);
    wants("nothing is taken again", next() == 0 && held == before + first);
    must("its end", iface_free(&host));
    size_t frame = while_waiting(3) - while_waiting(2), places = first - frame;
    wants("each frame takes the same, and the list has places for four", while_waiting(5) == 4 * frame + places);
    wants("the list is doubled", while_waiting(6) == 5 * frame + 2 * places && while_waiting(10) == 9 * frame + 4 * places);
    snprintf(more, sizeof more, "%s for each frame that waits, until it is handed over; %s for each place in the list of these, four at "
             "first, then twice as many", text_of(frame), text_of(places / 4));
    row("its first round, which keeps them", first, first, more);
}

/* ---- sockets ---- */

enum kind { UDP, ICMP, RAW, TCP };

static enum kind kind;

static size_t octets_of_socket(struct iface_rooms rooms) {
    static const struct iface_endpoint any = {IFACE_ANY, 0};
    uint32_t socket = 0;
    size_t before = begin();
    switch (kind) {
    case UDP: must("UDP", iface_udp_open(&host, &at_port, &rooms, &socket)); break;
    case ICMP: must("ICMP", iface_icmp_open_ident(&host, 1, &rooms, &socket)); break;
    case RAW: must("raw", iface_raw_open(&host, 4, 17, &rooms, &socket)); break;
    case TCP: must("TCP", iface_tcp_open(&host, &at_port, &any, &rooms, &socket)); break;
    }
    size_t octets = taken(before);
    must("its end", iface_close(&host, socket));
    wants("a socket gives back what it took", held == before);
    return octets;
}

static size_t by_packets(uint32_t count) {
    return octets_of_socket((struct iface_rooms){count, 1, 1, 1});
}

static size_t by_octets(uint32_t count) {
    return octets_of_socket((struct iface_rooms){1, count, 1, 1});
}

static void socket_rows(void) {
    static const char *const names[] = {"a UDP socket, of `IFACE_ROOMS(4, 2048)`", "an ICMP socket, likewise", "a raw socket, likewise",
                                        "a socket of segments of TCP, likewise"};
    const struct iface_rooms rooms = IFACE_ROOMS(4, 2048), one = IFACE_ROOMS(1, 1);
    make_host(1);
    for (kind = UDP; kind <= TCP; kind++) {
        char more[100];
        size_t packets = each(by_packets, 100), octets = each(by_octets, 10000), all = octets_of_socket(rooms);
        wants("a socket takes the sum", all == 8 * packets + 4096 * octets);
        snprintf(more, sizeof more, "%s for each packet that a queue holds, %s for each octet", text_of(packets), text_of(octets));
        row(names[kind], all, octets_of_socket(one), more);
        if (kind == TCP) break;
    }
    must("its end", iface_free(&host));
}

/* ---- connections ---- */

static iface_streams tcp = IFACE_STREAMS_NONE;

static struct iface_streams_config usual_connections(void) {
    struct iface_streams_config config;
    iface_streams_config_init(&config);
    config.number_key[0] = 1, config.table_key[0] = 2;
    return config;
}

static struct iface_streams_config bare_connections(void) {
    struct iface_streams_config config = usual_connections();
    config.places = config.packets = config.packet_octets = config.far_octets = config.send_room = config.receive_room = 1;
    config.ipv6 = 0;
    return config;
}

static size_t octets_of_connections(struct iface_streams_config config) {
    size_t before = begin();
    must("connections", iface_streams_new(&tcp, &host, &config));
    size_t octets = taken(before);
    must("their end", iface_streams_free(&tcp, &host));
    wants("connections give back what they took", held == before);
    return octets;
}

static size_t by_places(uint32_t count) {
    struct iface_streams_config config = bare_connections();
    config.places = count;
    return octets_of_connections(config);
}

static size_t by_rooms(uint32_t count) {
    struct iface_streams_config config = bare_connections();
    config.send_room = config.receive_room = count;
    return octets_of_connections(config);
}

/* For each family. */
static size_t by_queued_packets(uint32_t count) {
    struct iface_streams_config config = bare_connections();
    config.packets = count;
    return octets_of_connections(config);
}

static size_t by_queued_octets(uint32_t count) {
    struct iface_streams_config config = bare_connections();
    config.packet_octets = count;
    return octets_of_connections(config);
}

static size_t by_far_octets(uint32_t count) {
    struct iface_streams_config config = bare_connections();
    config.far_octets = count;
    return octets_of_connections(config);
}

static size_t octets_of_listener(uint32_t backlog) {
    size_t before = begin(), listener;
    must("a listener", iface_stream_listen(&tcp, &at_port, backlog, &listener));
    return taken(before);
}

/* Listeners have room for four, or for twice as many as before. */
static void listener_row(void) {
    const struct iface_streams_config config = usual_connections();
    char more[160];
    size_t before = begin();
    must("connections", iface_streams_new(&tcp, &host, &config));
    size_t first = octets_of_listener(16), second = octets_of_listener(1), third = octets_of_listener(2), backlog = third - second;
    size_t places = first - 16 * backlog;
    wants("a listener takes as much for each of its backlog", second == backlog && octets_of_listener(1000) == 1000 * backlog);
    wants("the fifth makes room for eight", octets_of_listener(1) == places + backlog && octets_of_listener(1) == backlog);
    must("their end", iface_streams_free(&tcp, &host));
    wants("listeners give back what they took", held == before);
    snprintf(more, sizeof more, "%s for each of its backlog; %s for each place in the list of listeners, four at first, then twice as many",
             text_of(backlog), text_of(places / 4));
    row("the first listener, with a backlog of 16", first, places + backlog, more);
}

static void connection_rows(void) {
    const struct iface_streams_config config = usual_connections();
    char more[260];
    make_host(8);
    size_t all = octets_of_connections(config), least = octets_of_connections(bare_connections());
    size_t rooms = each(by_rooms, 10000), place = each(by_places, 100) - rooms, packets = each(by_queued_packets, 100);
    size_t octets = each(by_queued_octets, 10000), far = each(by_far_octets, 10000);
    struct iface_streams_config both = bare_connections();
    both.ipv6 = 1;
    size_t family = octets_of_connections(both) - least;
    wants("connections take the sum",
          all == least + family + 7 * (place + rooms) + 8 * 4095 * rooms + 2 * (7 * packets + 1535 * octets + 1023 * far));
    wants("twice both rooms", rooms == 4);
    snprintf(more, sizeof more, "%s for each place and twice its two rooms; of each family %s for each of `packets`, %s of `packet_octets`, "
             "%s of `far_octets`", text_of(place), text_of(packets), text_of(octets), text_of(far));
    row("connections of TCP, by `iface_streams_new`", all, least, more);
    listener_row();
    must("its end", iface_free(&host));
}

/* ---- clients ---- */

/* Answers what was sent, and what the client sends then waits in `out`. Returns what has become of the lease. */
static uint32_t is_answered(iface_dhcp *client, uint8_t type) {
    static uint8_t reply[IFACE_FRAME_ROOM];
    uint32_t event = 77;
    size_t length = lease_reply(reply, out, type, 50, 120), answered;
    must("a reply", iface_receive(&host, now, reply, length, out, sizeof out, &answered));
    must("the client", iface_dhcp_poll(client, &host, now, &event));
    next();
    return event;
}

static void dhcp_row(void) {
    const struct iface_address none = IFACE_ANY;
    iface_dhcp client = IFACE_DHCP_NONE;
    uint32_t event;
    char more[100];
    make_host(2);
    next();
    size_t before = begin();
    must("a client", iface_dhcp_new(&client, &host, 1, &none)), must("no test", iface_dhcp_set_probing(&client, 0));
    size_t octets = taken(before);
    begin();
    must("DISCOVER", iface_dhcp_poll(&client, &host, now += 20 * SECOND, &event));
    size_t message = taken(before + octets);
    wants("DISCOVER is sent", message > 0 && next() > 0);
    wants("nothing else is taken until there is a lease", is_answered(&client, OFFER) == 0 && held == before + octets + message);
    wants("the message's memory is given back then", is_answered(&client, ACK) == IFACE_DHCP_CONFIGURED && held == before + octets);
    must("its end", iface_dhcp_free(&client, &host));
    wants("a client of DHCP gives back what it took", held == before);
    must("its end", iface_free(&host));
    snprintf(more, sizeof more, "%s from the first message on, until there is a lease", text_of(message));
    row("a client of DHCP, by `iface_dhcp_new`", octets, octets, more);
}

static iface_dns dns = IFACE_DNS_NONE;

static size_t octets_of_dns(uint32_t queries, uint32_t servers) {
    const uint64_t key[2] = {1, 2};
    struct iface_address asked[IFACE_DNS_SERVERS] = {IFACE_ANY, IFACE_ANY, IFACE_ANY};
    for (uint32_t i = 0; i < servers; i++) asked[i] = (struct iface_address){4, {10, 0, 0, (uint8_t)(2 + i)}};
    size_t before = begin();
    must("a client", iface_dns_new(&dns, queries, key, asked));
    size_t octets = taken(before);
    must("its end", iface_dns_free(&dns, &host));
    wants("a client of DNS gives back what it took", held == before);
    must("a client", iface_dns_new(&dns, queries, key, asked));
    return octets;
}

static size_t by_queries(uint32_t count) {
    size_t octets = octets_of_dns(count, 1);
    must("its end", iface_dns_free(&dns, &host));
    return octets;
}

static size_t by_servers(uint32_t count) {
    size_t octets = octets_of_dns(1, count);
    must("its end", iface_dns_free(&dns, &host));
    return octets;
}

static void dns_rows(void) {
    char more[100];
    size_t query = 0;
    make_host(1);
    size_t least = by_queries(1), queries = each(by_queries, 1000), servers = each(by_servers, 3), all = octets_of_dns(4, 3);
    wants("a client takes the sum", all == least + 3 * queries + 2 * servers);
    snprintf(more, sizeof more, "%s for each query, %s for each server", text_of(queries), text_of(servers));
    row("a client of DNS, by `iface_dns_new`, with 4 queries and 3 servers", all, least, more);
    size_t before = begin();
    must("a query", iface_dns_start(&dns, &host, now, "www.example.com", 15, IFACE_DNS_A, &query));
    size_t octets = taken(before);
    must("its end", iface_dns_cancel(&dns, &host, query));
    wants("a query gives back what it took", held == before);
    row("a query of it that waits", octets, octets, "");
    must("its end", iface_dns_free(&dns, &host));
    must("its end", iface_free(&host));
}

/* ---- what takes no memory ---- */

/* An ARP request of 10.0.0.2, an echo request, and a datagram to the socket, all from there. */
static void take_frames(void) {
    static const uint8_t request[42] = {255, 255, 255, 255, 255, 255, 2, 0, 0, 0, 0, 2, 8, 6, 0, 1, 8, 0, 6, 4, 0, 1,
                                        2, 0, 0, 0, 0, 2, 10, 0, 0, 2, 0, 0, 0, 0, 0, 0, 10, 0, 0, 1};
    uint8_t ping[42] = {2, 0, 0, 0, 0, 0, 2, 0, 0, 0, 0, 2, 8, 0, 0x45, 0, 0, 28, 0, 0, 0, 0, 64, 1, 0, 0, 10, 0, 0, 2, 10, 0, 0, 1, 8},
            datagram[43] = {2, 0, 0, 0, 0, 0, 2, 0, 0, 0, 0, 2, 8, 0, 0x45, 0, 0, 29, 0, 0, 0, 0, 64, 17, 0, 0, 10, 0, 0, 2, 10, 0, 0, 1,
                            16, 0, 0, PORT, 0, 9};
    size_t length;
    put_16(ping + 24, checksum_of(0, ping + 14, 20)), put_16(datagram + 24, checksum_of(0, datagram + 14, 20));
    put_16(ping + 36, checksum_of(0, ping + 34, 8));
    must("ARP", iface_receive(&host, now, request, sizeof request, out, sizeof out, &length));
    wants("ARP is answered", length == 42);
    must("a ping", iface_receive(&host, now, ping, sizeof ping, out, sizeof out, &length));
    wants("a ping is answered", length == 42);
    must("a datagram", iface_receive(&host, now, datagram, sizeof datagram, out, sizeof out, &length));
}

/* After its first round a host takes none for addresses, routes, groups, frames that come, and one frame that goes. */
static void take_none(void) {
    const struct iface_rooms rooms = IFACE_ROOMS(4, 2048);
    const struct iface_address other = {4, {10, 0, 1, 1}}, group = {4, {224, 1, 1, 1}};
    struct iface_endpoint from;
    uint32_t socket = 0;
    uint8_t octets[8];
    size_t length = 0;
    int64_t at;
    make_host(1);
    must("a socket", iface_udp_open(&host, &at_port, &rooms, &socket));
    next();
    size_t before = requests;
    must("an address", iface_add_address(&host, &other, 24));
    must("a route", iface_set_default_route(&host, &everybody));
    must("a group", iface_join_group(&host, &group));
    take_frames();
    must("it came", iface_udp_receive(&host, socket, &from, octets, sizeof octets, &length));
    must("back", iface_udp_send(&host, socket, &from, octets, length));
    while (next() > 0);
    must("poll_at", iface_poll_at(&host, now, &at));
    wants("nothing else takes memory", length == 1 && requests == before);
    must("its end", iface_free(&host));
}

/* ---- connections that take no memory: from this host to one beside it ---- */

static iface beside = IFACE_NONE;
static iface_streams tcp_beside = IFACE_STREAMS_NONE;

/* A host without hardware addresses, and its connections. */
static void make_end(iface *end, iface_streams *streams, uint8_t last) {
    struct iface_config config = usual();
    struct iface_streams_config connections = usual_connections();
    const struct iface_address address = {4, {10, 0, 0, last}};
    config.medium = IFACE_IP, config.frame_len = 1500;
    must("a host", iface_new(end, &config));
    must("an address", iface_add_address(end, &address, 24));
    must("connections", iface_streams_new(streams, end, &connections));
}

/* Polls connections, and hands over what their host sends. */
static void turn(iface *from, iface_streams *streams, iface *to) {
    static uint8_t answer[IFACE_FRAME_ROOM];
    size_t length = 0, none, before = requests;
    must("a poll", iface_streams_poll(streams, from, now));
    wants("a poll of connections takes no memory", requests == before);
    for (must("a round", iface_next(from, now, out, sizeof out, &length)); length > 0;
         must("a round", iface_next(from, now, out, sizeof out, &length)))
        must("a packet", iface_receive(to, now, out, length, answer, sizeof answer, &none));
}

static void turns(void) {
    for (int i = 0; i < 20; i++, now += SECOND / 10) turn(&host, &tcp, &beside), turn(&beside, &tcp_beside, &host);
}

/* The calls of a connection's life on this side. */
static void live(const struct iface_endpoint *server, size_t listener) {
    static uint8_t octets[16384], came[16384];
    const struct iface_endpoint from = {IFACE_ANY, 50000};
    struct iface_stream stream, accepted;
    size_t count = 0, got = 0, before = requests;
    must("connect", iface_stream_connect(&tcp, &host, now, &from, server, &stream));
    wants("connect takes no memory", requests == before);
    turns();
    before = requests;
    must("accept", iface_stream_accept(&tcp_beside, listener, &accepted));
    must("send", iface_stream_send(&tcp, &stream, octets, sizeof octets, &count));
    must("close", iface_stream_close(&tcp, &stream));
    wants("accept, send and close take no memory", requests == before);
    turns();
    before = requests;
    must("receive", iface_stream_receive(&tcp_beside, &accepted, came, sizeof came, &got));
    must("close", iface_stream_close(&tcp_beside, &accepted));
    must("release", iface_stream_release(&tcp_beside, &accepted));
    must("release", iface_stream_release(&tcp, &stream));
    wants("receive and release take no memory", requests == before && count > 1000 && got == count);
    turns();
}

static void take_none_for_connections(void) {
    const struct iface_endpoint server = {{4, {10, 0, 0, 2}}, PORT};
    size_t listener = 0;
    make_end(&host, &tcp, 1), make_end(&beside, &tcp_beside, 2);
    must("listen", iface_stream_listen(&tcp_beside, &at_port, 4, &listener));
    live(&server, listener);
    must("their end", iface_streams_free(&tcp, &host)), must("their end", iface_streams_free(&tcp_beside, &beside));
    must("its end", iface_free(&host)), must("its end", iface_free(&beside));
}

int main(void) {
    printf("| What takes octets | By default | At the least | More |\n|---|---|---|---|\n");
    host_row();
    round_row();
    socket_rows();
    connection_rows();
    dhcp_row();
    dns_rows();
    take_none();
    take_none_for_connections();
    wants("all is given back", held == 0);
    return failures != 0;
}
