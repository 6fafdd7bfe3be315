/* What the calls for DHCP do, against a server's messages by RFC 2131: a lease, its renewal, a refusal, a lease that ends; and wrong
 * use, which each call refuses by its code. */
#include "iface.h"
#include "lease_reply.h"

#include <stdio.h>

static int failures, checks;

static uint8_t sent[IFACE_FRAME_ROOM], frame[IFACE_FRAME_ROOM], out[IFACE_FRAME_ROOM];

static const int64_t second = 1000000;

static void wants(const char *what, uint64_t is, uint64_t want) {
    checks++;
    if (is == want) return;
    failures++;
    printf("WRONG: %s: %llu, not %llu\n", what, (unsigned long long)is, (unsigned long long)want);
}

static void must(const char *what, uint32_t code) {
    wants(what, code, IFACE_OK);
}

static void wants_octets(const char *what, const uint8_t *is, const char *want, size_t n) {
    wants(what, memcmp(is, want, n) == 0, 1);
}

static void make(iface *host, uint8_t medium, uint32_t sockets) {
    struct iface_config config;
    iface_config_init(&config);
    config.seed = 1, config.medium = medium, config.sockets = sockets;
    config.hardware_address[0] = 2, config.hardware_address[5] = 1;
    must("host", iface_new(host, &config));
}

/* A client that tests no address, so that each lease can be used at once. */
static void make_client(iface_dhcp *client, iface *host, uint64_t seed, const struct iface_address *known) {
    must("client", iface_dhcp_new(client, host, seed, known));
    must("no test", iface_dhcp_set_probing(client, 0));
}

static uint32_t poll_once(iface_dhcp *client, iface *host, int64_t now) {
    uint32_t event = 77;
    must("poll", iface_dhcp_poll(client, host, now, &event));
    return event;
}

/* How many octets the next frame has that the host sends. */
static size_t next_frame(iface *host, int64_t now) {
    size_t n = 77;
    must("next", iface_next(host, now, sent, sizeof sent, &n));
    return n;
}

/* The value of an option of the message that was sent, or nothing. */
static const uint8_t *option(uint8_t code) {
    for (const uint8_t *at = sent + AT_OPTIONS; *at != 255; at += 2 + at[1])
        if (*at == code) return at + 2;
    return NULL;
}

static void wants_option(const char *what, uint8_t code, const char *want, size_t n) {
    const uint8_t *at = option(code);
    wants(what, at && at[-1] == n && memcmp(at, want, n) == 0, 1);
}

/* What the host answers to the message that it sent last. */
static void answer(iface *host, int64_t now, uint8_t type, uint8_t last, uint8_t seconds) {
    size_t n = 77, length = lease_reply(frame, sent, type, last, seconds);
    must("receive", iface_receive(host, now, frame, length, out, sizeof out, &n));
    wants("no frame in response", n, 0);
}

/* A message to all servers, of a host without an address (RFC 2131 4.1), of a type. */
static void wants_broadcast(iface *host, int64_t now, const char *type) {
    wants("a message", next_frame(host, now) > AT_OPTIONS, 1);
    wants_octets("to everybody", sent, "\377\377\377\377\377\377\2\0\0\0\0\1\10\0", 14);
    wants_octets("from no address", sent + AT_IP + 12, "\0\0\0\0\377\377\377\377", 8);
    wants_octets("from port 68 to port 67", sent + AT_UDP, "\0\104\0\103", 4);
    wants_octets("a request over Ethernet", sent + AT_MESSAGE, "\1\1\6\0", 4);
    wants_octets("the broadcast flag", sent + AT_XID + 6, "\200\0\0\0\0\0", 6);
    wants_octets("its hardware address", sent + AT_CLIENT, "\2\0\0\0\0\1", 6);
    wants_octets("the cookie", sent + AT_COOKIE, "\143\202\123\143", 4);
    wants_option("its type", 53, type, 1);
    wants("nothing more", next_frame(host, now), 0);
}

/* A lease of so many seconds that begins at a moment: DISCOVER, OFFER, REQUEST, ACK (RFC 2131 3.1). */
static void lease(iface_dhcp *client, iface *host, int64_t now, uint8_t last, uint8_t seconds) {
    const char wanted[] = {(char)192, (char)168, 69, (char)last};
    wants("no event", poll_once(client, host, now), IFACE_DHCP_NOTHING);
    wants_broadcast(host, now, "\1");
    wants("no address is asked for", option(50) == NULL, 1);
    answer(host, now, OFFER, last, seconds);
    wants("no event", poll_once(client, host, now), IFACE_DHCP_NOTHING);
    wants_broadcast(host, now, "\3");
    wants_option("what was offered", 50, wanted, 4);
    wants_option("of this server", 54, "\300\250\105\144", 4);
    answer(host, now, ACK, last, seconds);
    wants("a lease", poll_once(client, host, now), IFACE_DHCP_CONFIGURED);
    wants("told once", poll_once(client, host, now), IFACE_DHCP_NOTHING);
    must("apply", iface_dhcp_apply(client, host));
}

static void wants_v4(const char *what, const struct iface_address *is, uint8_t last) {
    const uint8_t want[4] = {192, 168, 69, last};
    wants(what, is->version == 4 && memcmp(is->octets, want, 4) == 0, 1);
}

static void wants_own(iface *host, uint8_t last) {
    struct iface_address a, network;
    uint8_t bits = 77;
    int64_t end = 77;
    must("own address", iface_address_at(host, 0, &a, &bits));
    wants_v4("own address", &a, last), wants("its network", bits, 24);
    wants("no other", iface_address_at(host, 1, &a, &bits), IFACE_NOT_THERE);
    must("route", iface_route_at(host, 0, &network, &bits, &a, &end));
    wants_octets("to all", network.octets, "\0\0\0\0", 4), wants("of no prefix", bits, 0);
    wants_v4("by its router", &a, 1);
    wants("for good", end == IFACE_NEVER, 1);
    wants("no other", iface_route_at(host, 1, &network, &bits, &a, &end), IFACE_NOT_THERE);
}

static void wants_nothing_own(iface *host) {
    struct iface_address a, network;
    uint8_t bits;
    int64_t end;
    wants("no address", iface_address_at(host, 0, &a, &bits), IFACE_NOT_THERE);
    wants("no route", iface_route_at(host, 0, &network, &bits, &a, &end), IFACE_NOT_THERE);
}

static void leases_and_renews(void) {
    iface host = IFACE_NONE;
    iface_dhcp client = IFACE_DHCP_NONE;
    struct iface_address none = IFACE_ANY;
    struct iface_lease got;
    int64_t at = 77, now = 5 * second;
    size_t n;
    make(&host, IFACE_ETHERNET, 2);
    make_client(&client, &host, 42, &none);
    must("due", iface_dhcp_poll_at(&client, &at)), wants("at once", (uint64_t)at, 0);
    wants("no lease", iface_dhcp_lease(&client, &got), IFACE_EMPTY);
    lease(&client, &host, now, 50, 120);
    must("lease", iface_dhcp_lease(&client, &got));
    wants_v4("address", &got.address, 50), wants("prefix", got.prefix_len, 24);
    wants_v4("router", &got.router, 1), wants_v4("server", &got.server, 100);
    wants_v4("names", &got.dns_servers[0], 2), wants_v4("names", &got.dns_servers[1], 3);
    wants("no third server of names", got.dns_servers[2].version, 0);
    wants("its end", (uint64_t)got.expires_at, (uint64_t)(now + 120 * second));
    wants_own(&host, 50);
    /* half of the time later the server is asked, and the host asks for its hardware address first (RFC 2131 4.4.5) */
    must("due", iface_dhcp_poll_at(&client, &at)), wants("half of the time later", (uint64_t)at, (uint64_t)(now + 60 * second));
    wants("before that nothing", poll_once(&client, &host, at - 1), IFACE_DHCP_NOTHING), wants("no frame", next_frame(&host, at - 1), 0);
    now = at;
    wants("no event", poll_once(&client, &host, now), IFACE_DHCP_NOTHING);
    wants("a request", next_frame(&host, now), 42), wants_octets("of ARP", sent + 12, "\10\6", 2);
    wants_octets("for the server", sent + 38, "\300\250\105\144", 4);
    memset(frame, 0, 42), memcpy(frame, "\2\0\0\0\0\1\2\0\0\0\0\144\10\6\0\1\10\0\6\4\0\2\2\0\0\0\0\144\300\250\105\144\2\0\0\0\0\1\300\250\105\62", 42);
    must("reply", iface_receive(&host, now, frame, 42, out, sizeof out, &n));
    wants("the message", next_frame(&host, now) > AT_OPTIONS, 1);
    wants_octets("to the server", sent, "\2\0\0\0\0\144\2\0\0\0\0\1\10\0", 14);
    wants_octets("from its address", sent + AT_IP + 12, "\300\250\105\62\300\250\105\144", 8);
    wants_octets("which it has", sent + AT_XID + 8, "\300\250\105\62", 4);
    wants_option("a request", 53, "\3", 1);
    wants("no server is named", option(54) == NULL && option(50) == NULL, 1);
    answer(&host, now, ACK, 50, 120);
    wants("renewed", poll_once(&client, &host, now), IFACE_DHCP_CONFIGURED);
    must("apply", iface_dhcp_apply(&client, &host));
    must("lease", iface_dhcp_lease(&client, &got)), wants("a later end", (uint64_t)got.expires_at, (uint64_t)(now + 120 * second));
    wants_own(&host, 50);
    /* the neighbour is still known, since nothing changed */
    struct iface_address neighbor;
    uint8_t hardware[6];
    must("neighbour", iface_neighbor_at(&host, 0, &neighbor, hardware, &at)), wants_v4("the server", &neighbor, 100);
    /* without an answer it ends */
    wants("not before", poll_once(&client, &host, got.expires_at - 1), IFACE_DHCP_NOTHING);
    wants("its end", poll_once(&client, &host, got.expires_at), IFACE_DHCP_DECONFIGURED);
    must("apply", iface_dhcp_apply(&client, &host));
    wants_nothing_own(&host);
    wants("no lease", iface_dhcp_lease(&client, &got), IFACE_EMPTY);
    must("free", iface_dhcp_free(&client, &host));
    must("free", iface_free(&host));
}

static void begins_anew_after_a_refusal(void) {
    iface host = IFACE_NONE;
    iface_dhcp client = IFACE_DHCP_NONE;
    struct iface_address known = {4, {192, 168, 69, 7}};
    struct iface_queue received, to_send;
    int64_t now = 0;
    make(&host, IFACE_ETHERNET, 8);
    make_client(&client, &host, 42, &known);
    wants("no event", poll_once(&client, &host, now), IFACE_DHCP_NOTHING);
    wants_broadcast(&host, now, "\3");
    wants_option("what it had", 50, "\300\250\105\7", 4);
    wants("no server is named", option(54) == NULL, 1);
    answer(&host, now, NAK, 0, 0);
    lease(&client, &host, now + 3 * second, 51, 120);
    wants_own(&host, 51);
    must("what keeps its second place", iface_queues(&host, 1, &received, &to_send));
    wants("has room for nothing", received.most_packets + to_send.most_packets + received.most_octets + to_send.most_octets, 0);
    must("its UDP socket", iface_queues(&host, 0, &received, &to_send));
    must("reset", iface_dhcp_reset(&client));
    wants_own(&host, 51);
    wants("gone", poll_once(&client, &host, now + 4 * second), IFACE_DHCP_DECONFIGURED);
    must("apply", iface_dhcp_apply(&client, &host));
    wants_nothing_own(&host);
    /* and its address is asked for again, of all servers (RFC 2131 4.3.2): three seconds after the request before */
    wants("no event", poll_once(&client, &host, now + 6 * second), IFACE_DHCP_NOTHING);
    wants_broadcast(&host, now + 6 * second, "\3");
    wants_option("what it had", 50, "\300\250\105\63", 4);
    wants("no server is named", option(54) == NULL, 1);
    answer(&host, now + 6 * second, ACK, 51, 120);
    wants("leased again", poll_once(&client, &host, now + 6 * second), IFACE_DHCP_CONFIGURED);
    must("apply", iface_dhcp_apply(&client, &host));
    wants_own(&host, 51);
    must("free", iface_dhcp_free(&client, &host));
    wants("its socket is closed", iface_queues(&host, 0, &received, &to_send), IFACE_NO_SOCKET);
    must("free", iface_free(&host));
}

/* Other messages than those that are waited for. */
static void ignores_others(void) {
    iface host = IFACE_NONE;
    iface_dhcp client = IFACE_DHCP_NONE;
    struct iface_address none = IFACE_ANY;
    struct iface_lease got;
    size_t n, length;
    make(&host, IFACE_ETHERNET, 2);
    make_client(&client, &host, 42, &none);
    wants("no event", poll_once(&client, &host, 0), IFACE_DHCP_NOTHING);
    wants_broadcast(&host, 0, "\1");
    answer(&host, 0, ACK, 50, 120); /* no request was sent */
    wants("no event", poll_once(&client, &host, 0), IFACE_DHCP_NOTHING), wants("no message", next_frame(&host, 0), 0);
    for (size_t at = AT_XID; at <= AT_CLIENT + 5; at += at == AT_XID ? AT_CLIENT + 5 - AT_XID : 1) {
        length = lease_reply(frame, sent, OFFER, 50, 120), frame[at] ^= 1; /* another number, another hardware address */
        must("receive", iface_receive(&host, 0, frame, length, out, sizeof out, &n));
        wants("no event", poll_once(&client, &host, 0), IFACE_DHCP_NOTHING), wants("no message", next_frame(&host, 0), 0);
    }
    length = lease_reply(frame, sent, OFFER, 50, 120), frame[AT_UDP + 1] = 66; /* another port */
    must("receive", iface_receive(&host, 0, frame, length, out, sizeof out, &n));
    wants("no event", poll_once(&client, &host, 0), IFACE_DHCP_NOTHING), wants("no message", next_frame(&host, 0), 0);
    wants("no lease", iface_dhcp_lease(&client, &got), IFACE_EMPTY);
    must("apply", iface_dhcp_apply(&client, &host)), wants_nothing_own(&host);
    must("free", iface_dhcp_free(&client, &host));
    must("free", iface_free(&host));
}

/* ---- what a program asks for, and what it reads ---- */

static size_t read_option(iface_dhcp *client, uint8_t code, uint8_t *octets, size_t room) {
    size_t n = 77;
    must("option", iface_dhcp_option(client, code, octets, room, &n));
    return n;
}

static void wants_route(iface *host, uint32_t at, const char *network, uint8_t bits, uint8_t last) {
    struct iface_address a, router;
    uint8_t is = 77;
    int64_t end = 77;
    must("route", iface_route_at(host, at, &a, &is, &router, &end));
    wants_octets("to its network", a.octets, network, 4), wants("of its prefix", is, bits);
    wants_v4("by its router", &router, last), wants("for good", end == IFACE_NEVER, 1);
}

/* A lease whose agreement has these options besides. */
static void lease_with(iface_dhcp *client, iface *host, int64_t now, const uint8_t *more, size_t count) {
    size_t n = 77, length;
    poll_once(client, host, now), next_frame(host, now), answer(host, now, OFFER, 50, 120);
    poll_once(client, host, now), next_frame(host, now);
    length = lease_reply_with(frame, sent, ACK, 50, 120, more, count);
    must("receive", iface_receive(host, now, frame, length, out, sizeof out, &n));
    wants("a lease", poll_once(client, host, now), IFACE_DHCP_CONFIGURED);
    must("apply", iface_dhcp_apply(client, host));
}

static void asks_and_reads(void) {
    /* 42: in two parts (RFC 3396); 26: 1,400 octets; 121 (RFC 3442): the rest by .9, 10.17.0.0/16 by .4, 10.18.0.0/16 on the link */
    static const uint8_t more[] = {42, 2, 192, 168, 26, 2, 5, 120, 42, 2, 69, 7, 121, 19, 0, 192, 168, 69, 9, 16, 10, 17, 192, 168, 69, 4,
                                   16, 10, 18, 0, 0, 0, 0};
    static const uint8_t too_wide[] = {121, 9, 33, 10, 17, 0, 0, 192, 168, 69, 4};
    iface host = IFACE_NONE;
    iface_dhcp client = IFACE_DHCP_NONE;
    struct iface_address none = IFACE_ANY, network, router;
    struct iface_lease got;
    uint8_t octets[64], bits;
    int64_t end;
    size_t n = 77;
    make(&host, IFACE_ETHERNET, 2);
    make_client(&client, &host, 1, &none);
    memset(octets, 7, sizeof octets);
    wants("seventeen codes", iface_dhcp_parameters(&client, octets, 17), IFACE_TOO_LONG);
    wants("a long name", iface_dhcp_host_name(&client, "abcdefghijklmnopqrstuvwxyz-abcdefghijklmnopqrstuvwxyz-abcdefghij", 64), IFACE_TOO_LONG);
    must("codes", iface_dhcp_parameters(&client, (const uint8_t *)"\52\17", 2));
    must("name", iface_dhcp_host_name(&client, "fern", 4));
    wants("no lease", iface_dhcp_option(&client, 6, octets, sizeof octets, &n), IFACE_EMPTY), wants("nothing written", n == 77 && octets[0] == 7, 1);
    poll_once(&client, &host, 0), next_frame(&host, 0);
    wants_option("what is asked for, routes before the router", 55, "\1\171\3\6\32\52\17", 7);
    wants_option("the name", 12, "fern", 4);
    must("free", iface_dhcp_free(&client, &host));
    make_client(&client, &host, 1, &none);
    lease_with(&client, &host, 10 * second, more, sizeof more);
    must("lease", iface_dhcp_lease(&client, &got));
    wants("the longest packet", got.mtu, 1400), wants_v4("the router of the default route", &got.router, 9);
    wants("its data", read_option(&client, 42, octets, 4), 4), wants_octets("put together", octets, "\300\250\105\7", 4);
    wants("behind it nothing", octets[4], 7);
    wants("no room", iface_dhcp_option(&client, 42, octets, 3, &n), IFACE_NO_ROOM), wants("nothing written", n == 77, 1);
    wants("no such option", iface_dhcp_option(&client, 15, octets, sizeof octets, &n), IFACE_EMPTY);
    wants("the server", read_option(&client, 54, octets, sizeof octets), 4), wants_octets("as told", octets, "\300\250\105\144", 4);
    wants_route(&host, 0, "\0\0\0\0", 0, 9), wants_route(&host, 1, "\12\21\0\0", 16, 4);
    wants("none on the link", iface_route_at(&host, 2, &network, &bits, &router, &end), IFACE_NOT_THERE);
    /* the next lease has a malformed option: option 3 counts, and the route is gone */
    must("reset", iface_dhcp_reset(&client));
    wants("no lease", iface_dhcp_option(&client, 42, octets, sizeof octets, &n), IFACE_EMPTY);
    wants("gone", poll_once(&client, &host, 20 * second), IFACE_DHCP_DECONFIGURED);
    must("apply", iface_dhcp_apply(&client, &host)), wants_nothing_own(&host);
    must("free", iface_dhcp_free(&client, &host));
    make_client(&client, &host, 1, &none);
    while (next_frame(&host, 20 * second) > 0) {}
    lease_with(&client, &host, 30 * second, too_wide, sizeof too_wide);
    must("lease", iface_dhcp_lease(&client, &got)), wants("no longest packet", got.mtu, 0), wants_v4("the router", &got.router, 1);
    wants_own(&host, 50);
    must("free", iface_dhcp_free(&client, &host)), must("free", iface_free(&host));
}

/* Of eight places for routes seven are taken: the default route is put, the other one is left out, and those of the program stay. */
static void leaves_out_routes_without_room(void) {
    static const uint8_t more[] = {121, 12, 0, 192, 168, 69, 9, 16, 10, 17, 192, 168, 69, 4};
    iface host = IFACE_NONE;
    iface_dhcp client = IFACE_DHCP_NONE;
    struct iface_address none = IFACE_ANY, network = {4, {10, 17}}, router = {4, {192, 168, 69, 7}};
    uint8_t bits;
    int64_t end;
    make(&host, IFACE_ETHERNET, 2);
    make_client(&client, &host, 1, &none);
    for (uint8_t i = 0; i < 7; i++) must("route", iface_add_route(&host, &network, (uint8_t)(16 - i), &router));
    lease_with(&client, &host, 0, more, sizeof more);
    wants_route(&host, 0, "\12\21\0\0", 16, 7), wants_route(&host, 7, "\0\0\0\0", 0, 9);
    wants("no ninth", iface_route_at(&host, 8, &network, &bits, &router, &end), IFACE_NOT_THERE);
    must("reset", iface_dhcp_reset(&client)), must("apply", iface_dhcp_apply(&client, &host));
    wants_route(&host, 0, "\12\21\0\0", 16, 7);
    wants("seven are left", iface_route_at(&host, 7, &network, &bits, &router, &end), IFACE_NOT_THERE);
    must("free", iface_dhcp_free(&client, &host)), must("free", iface_free(&host));
}

/* ---- a server that ignores the broadcast flag ---- */

/* What the host answers to a message that goes to the address that is leased. */
static void answer_to_the_leased(iface *host, int64_t now, uint8_t type, uint8_t last) {
    size_t n = 77, length = lease_reply(frame, sent, type, last, 120);
    to_the_leased(frame, length, last);
    must("receive", iface_receive(host, now, frame, length, out, sizeof out, &n));
    wants("no frame in response", n, 0);
}

static void takes_what_is_sent_to_its_address(void) {
    iface host = IFACE_NONE;
    iface_dhcp client = IFACE_DHCP_NONE;
    struct iface_address none = IFACE_ANY;
    struct iface_queue received, waiting;
    size_t n;
    make(&host, IFACE_ETHERNET, 2);
    make_client(&client, &host, 1, &none);
    wants("no event", poll_once(&client, &host, 0), IFACE_DHCP_NOTHING), wants_broadcast(&host, 0, "\1");
    /* a flood of other datagrams leaves room for an offer to everybody */
    for (int i = 0; i < 20; i++) {
        size_t length = lease_reply(frame, sent, OFFER, 60, 120);
        to_the_leased(frame, length, 60), frame[AT_UDP + 3] = 69;
        must("receive", iface_receive(&host, 0, frame, length, out, sizeof out, &n));
    }
    answer(&host, 0, OFFER, 50, 120);
    wants("no event", poll_once(&client, &host, 0), IFACE_DHCP_NOTHING), wants_broadcast(&host, 0, "\3");
    answer_to_the_leased(&host, 0, ACK, 50);
    wants("a lease", poll_once(&client, &host, 0), IFACE_DHCP_CONFIGURED);
    must("apply", iface_dhcp_apply(&client, &host)), wants_own(&host, 50);
    wants("told once", poll_once(&client, &host, 0), IFACE_DHCP_NOTHING);
    wants("its raw socket is closed", iface_queues(&host, 1, &received, &waiting), IFACE_OK), wants("and its place kept", received.packets, 0);
    must("free", iface_dhcp_free(&client, &host)), must("free", iface_free(&host));
    /* the offer comes so too, and both again to everybody: the copy changes nothing */
    make(&host, IFACE_ETHERNET, 2);
    make_client(&client, &host, 1, &none);
    wants("no event", poll_once(&client, &host, 0), IFACE_DHCP_NOTHING), wants_broadcast(&host, 0, "\1");
    answer_to_the_leased(&host, 0, OFFER, 50), answer(&host, 0, OFFER, 50, 120);
    wants("no event", poll_once(&client, &host, 0), IFACE_DHCP_NOTHING), wants_broadcast(&host, 0, "\3");
    wants_option("what was offered", 50, "\300\250\105\62", 4);
    answer_to_the_leased(&host, 0, ACK, 50), answer(&host, 0, ACK, 50, 120);
    wants("a lease", poll_once(&client, &host, 0), IFACE_DHCP_CONFIGURED);
    wants("told once", poll_once(&client, &host, 0), IFACE_DHCP_NOTHING);
    must("free", iface_dhcp_free(&client, &host)), must("free", iface_free(&host));
}

static void refuses(void) {
    iface host = IFACE_NONE, other = IFACE_NONE;
    iface_dhcp client = IFACE_DHCP_NONE;
    struct iface_address none = IFACE_ANY, bad = {6, {0}}, a = {4, {10, 0, 0, 1}};
    struct iface_lease got = {.prefix_len = 77};
    struct iface_rooms rooms = IFACE_ROOMS(1, 64);
    struct iface_endpoint end = {IFACE_ANY, 9};
    uint32_t event = 77, socket;
    int64_t at = 77;
    size_t n;
    wants("no client", iface_dhcp_poll(&client, &host, 0, &event), IFACE_NO_CLIENT);
    wants("no client", iface_dhcp_poll_at(&client, &at), IFACE_NO_CLIENT);
    wants("no client", iface_dhcp_lease(&client, &got), IFACE_NO_CLIENT);
    wants("no client", iface_dhcp_lost(&client, &event), IFACE_NO_CLIENT);
    wants("no client", iface_dhcp_apply(&client, &host), IFACE_NO_CLIENT);
    wants("no client", iface_dhcp_reset(&client), IFACE_NO_CLIENT);
    wants("no client", iface_dhcp_parameters(&client, &got.prefix_len, 1), IFACE_NO_CLIENT);
    wants("no client", iface_dhcp_host_name(&client, "fern", 4), IFACE_NO_CLIENT);
    wants("no client", iface_dhcp_option(&client, 6, &got.prefix_len, 1, &n), IFACE_NO_CLIENT);
    wants("no client", iface_dhcp_set_probing(&client, 0), IFACE_NO_CLIENT);
    wants("no client", iface_dhcp_declined(&client, &got.prefix_len), IFACE_NO_CLIENT);
    wants("no client", iface_dhcp_release(&client, &host), IFACE_NO_CLIENT);
    wants("no client", iface_dhcp_free(&client, &host), IFACE_NO_CLIENT);
    wants("bad argument first", iface_dhcp_new(&client, &host, 1, &bad), IFACE_BAD_ARGUMENT);
    wants("no host", iface_dhcp_new(&client, &host, 1, &none), IFACE_NO_HOST);
    make(&host, IFACE_IP, 2);
    wants("no hardware addresses", iface_dhcp_new(&client, &host, 1, &none), IFACE_NOT_THERE);
    must("free", iface_free(&host));
    make(&host, IFACE_ETHERNET, 2);
    must("socket", iface_udp_open(&host, &end, &rooms, &socket));
    wants("one place of two", iface_dhcp_new(&client, &host, 1, &none), IFACE_TABLE_FULL);
    must("close", iface_close(&host, socket));
    make_client(&client, &host, 1, &none);
    wants("both places are the client's", iface_udp_open(&host, &end, &rooms, &socket), IFACE_TABLE_FULL);
    iface_dhcp copy = client;
    wants("a client is there", iface_dhcp_new(&client, &host, 1, &bad), IFACE_HAS_CLIENT);
    wants("handle kept", memcmp(&copy, &client, sizeof client) == 0, 1);
    wants("moment", iface_dhcp_poll(&client, &host, -1, &event), IFACE_BAD_MOMENT);
    wants("moment", iface_dhcp_poll(&client, &host, IFACE_LAST_MOMENT + 1, &event), IFACE_BAD_MOMENT);
    wants("no host", iface_dhcp_poll(&client, &other, 0, &event), IFACE_NO_HOST);
    wants("no host", iface_dhcp_apply(&client, &other), IFACE_NO_HOST);
    wants("no host", iface_dhcp_release(&client, &other), IFACE_NO_HOST);
    make(&other, IFACE_ETHERNET, 8);
    wants("another host", iface_dhcp_poll(&client, &other, 0, &event), IFACE_NO_SOCKET);
    wants("no lease", iface_dhcp_lease(&client, &got), IFACE_EMPTY);
    wants("nothing written", event == 77 && at == 77 && got.prefix_len == 77, 1);
    /* its second place is the raw socket's from the first message on, as long as there is no lease */
    wants("no event", poll_once(&client, &host, 0), IFACE_DHCP_NOTHING);
    wants("none is left", iface_udp_open(&host, &end, &rooms, &socket), IFACE_TABLE_FULL);
    wants_broadcast(&host, 0, "\1");
    must("lost", iface_dhcp_lost(&client, &event)), wants("nothing is lost", event, 0);
    must("due", iface_dhcp_poll_at(&client, &at)), wants("later", at >= 3 * second && at <= 5 * second, 1);
    wants("no event", poll_once(&client, &host, 0), IFACE_DHCP_NOTHING);
    wants("none is left", iface_udp_open(&host, &end, &rooms, &socket), IFACE_TABLE_FULL);
    must("free", iface_dhcp_free(&client, &other));
    wants("free again", iface_dhcp_free(&client, &other), IFACE_NO_CLIENT);
    must("free", iface_free(&host)), must("free", iface_free(&other));
    /* with eight own addresses there is no room for that of a lease, and nothing changes until there is */
    make(&host, IFACE_ETHERNET, 2);
    make_client(&client, &host, 1, &none);
    for (uint8_t i = 0; i < 8; i++) a.octets[3] = (uint8_t)(i + 1), must("address", iface_add_address(&host, &a, 8));
    must("poll", iface_dhcp_poll(&client, &host, 0, &event)), next_frame(&host, 0), answer(&host, 0, OFFER, 50, 120);
    must("poll", iface_dhcp_poll(&client, &host, 0, &event)), next_frame(&host, 0), answer(&host, 0, ACK, 50, 120);
    must("poll", iface_dhcp_poll(&client, &host, 0, &event)), wants("a lease", event, IFACE_DHCP_CONFIGURED);
    wants("no room", iface_dhcp_apply(&client, &host), IFACE_TABLE_FULL);
    wants("eight are there", iface_address_at(&host, 7, &a, &got.prefix_len), IFACE_OK), wants("the eighth", a.octets[3], 8);
    must("remove", iface_remove_address(&host, &a, 8));
    must("apply", iface_dhcp_apply(&client, &host));
    must("the eighth", iface_address_at(&host, 7, &a, &got.prefix_len)), wants_v4("is the lease's", &a, 50);
    must("free", iface_dhcp_free(&client, &other));
    must("free", iface_free(&host));
}

/* ---- whether another host has the address (RFC 5227) ---- */

enum { NOBODY = 0, LAST = 50 };

/* An ARP packet from 02-00-00-00-00-N to all, of an operation, of a sender for a target, each 192.168.69.X or 0.0.0.0. */
static void receive_arp(iface *host, int64_t now, uint8_t hardware, uint8_t operation, uint8_t sender, uint8_t target) {
    size_t n;
    memset(frame, 0, 42), memset(frame, 255, 6), memcpy(frame + 6, "\2\0\0\0\0\0\10\6\0\1\10\0\6\4\0\0\2\0\0\0\0\0", 22);
    frame[11] = frame[27] = hardware, frame[21] = operation;
    if (sender != NOBODY) memcpy(frame + 28, "\300\250\105", 3), frame[31] = sender;
    memcpy(frame + 38, "\300\250\105", 3), frame[41] = target;
    must("receive", iface_receive(host, now, frame, 42, out, sizeof out, &n));
}

/* The next frame is a request from the own hardware address to all, of this sender for the address of the lease. */
static void wants_request(iface *host, int64_t now, uint8_t sender) {
    const char from[4] = {(char)(sender == NOBODY ? 0 : 192), (char)(sender == NOBODY ? 0 : 168), (char)(sender == NOBODY ? 0 : 69), (char)sender};
    wants("a frame of ARP", next_frame(host, now), 42);
    wants_octets("to all", sent, "\377\377\377\377\377\377\2\0\0\0\0\1\10\6\0\1\10\0\6\4\0\1\2\0\0\0\0\1", 28);
    wants_octets("of this sender", sent + 28, from, 4);
    wants_octets("for the lease's address", sent + 32, "\0\0\0\0\0\0\300\250\105\62", 10);
}

/* A new lease is tested first, and it is not told. Returns when the first probe is due: within a second (PROBE_WAIT). */
static int64_t begins_a_test(iface_dhcp *client, iface *host, int64_t now) {
    struct iface_lease got;
    int64_t at = 77;
    poll_once(client, host, now), next_frame(host, now), answer(host, now, OFFER, LAST, 120);
    poll_once(client, host, now), next_frame(host, now), answer(host, now, ACK, LAST, 120);
    wants("not told yet", poll_once(client, host, now), IFACE_DHCP_NOTHING);
    wants("not to be used yet", iface_dhcp_lease(client, &got), IFACE_EMPTY);
    must("nothing", iface_dhcp_apply(client, host)), wants_nothing_own(host);
    must("due", iface_dhcp_poll_at(client, &at)), wants("within a second", at >= now && at <= now + second, 1);
    return at;
}

/* Polls where something is due, and returns the instant. */
static int64_t poll_when_due(iface_dhcp *client, iface *host, uint32_t event) {
    int64_t at = 77;
    must("due", iface_dhcp_poll_at(client, &at));
    wants("before that nothing", poll_once(client, host, at - 1), IFACE_DHCP_NOTHING), wants("no frame", next_frame(host, at - 1), 0);
    wants("what is told", poll_once(client, host, at), event);
    return at;
}

static void tests_an_address_and_announces_it(void) {
    iface host = IFACE_NONE;
    iface_dhcp client = IFACE_DHCP_NONE;
    struct iface_address none = IFACE_ANY;
    struct iface_lease got;
    uint8_t declined = 77;
    int64_t first, at, third, now;
    make(&host, IFACE_ETHERNET, 2);
    must("client", iface_dhcp_new(&client, &host, 42, &none));
    first = begins_a_test(&client, &host, 0);
    wants("the first probe", (uint64_t)poll_when_due(&client, &host, IFACE_DHCP_NOTHING), (uint64_t)first), wants_request(&host, first, NOBODY);
    receive_arp(&host, first, 9, 1, 7, LAST); /* somebody asks for it: that is no conflict */
    receive_arp(&host, first, 1, 1, NOBODY, LAST); /* nor is the own probe, which comes back */
    at = poll_when_due(&client, &host, IFACE_DHCP_NOTHING), wants_request(&host, at, NOBODY);
    wants("one to two seconds later", at >= first + second && at <= first + 2 * second, 1);
    third = poll_when_due(&client, &host, IFACE_DHCP_NOTHING), wants_request(&host, third, NOBODY);
    wants("one to two seconds later", third >= at + second && third <= at + 2 * second, 1);
    wants("not to be used yet", iface_dhcp_lease(&client, &got), IFACE_EMPTY);
    now = poll_when_due(&client, &host, IFACE_DHCP_CONFIGURED), wants("two seconds later", (uint64_t)now, (uint64_t)(third + 2 * second));
    must("lease", iface_dhcp_lease(&client, &got)), must("apply", iface_dhcp_apply(&client, &host)), wants_own(&host, LAST);
    wants_request(&host, now, LAST);
    at = poll_when_due(&client, &host, IFACE_DHCP_NOTHING), wants("two seconds later", (uint64_t)at, (uint64_t)(now + 2 * second));
    wants_request(&host, at, LAST);
    must("due", iface_dhcp_poll_at(&client, &at)), wants("then the renewal", (uint64_t)at, (uint64_t)(60 * second));
    /* a host that probes for it later learns that it is used: once each two seconds at most */
    now += 20 * second;
    receive_arp(&host, now, 9, 1, NOBODY, LAST), wants("nothing else", poll_once(&client, &host, now), IFACE_DHCP_NOTHING);
    wants_request(&host, now, LAST);
    receive_arp(&host, now + second, 9, 1, NOBODY, LAST), wants("nothing", poll_once(&client, &host, now + second), IFACE_DHCP_NOTHING);
    wants("not yet", next_frame(&host, now + second), 0);
    wants("then", poll_once(&client, &host, now + 2 * second), IFACE_DHCP_NOTHING), wants_request(&host, now + 2 * second, LAST);
    must("declined", iface_dhcp_declined(&client, &declined)), wants("none", declined, 0);
    must("free", iface_dhcp_free(&client, &host)), must("free", iface_free(&host));
}

/* RFC 2131 4.4.4, table 5: to all, from no address, naming the address and the server, and nothing else. */
static void wants_decline(iface *host, int64_t now) {
    wants("a message", next_frame(host, now) > AT_OPTIONS, 1);
    wants_octets("from no address to everybody", sent + AT_IP + 12, "\0\0\0\0\377\377\377\377", 8);
    wants_octets("no flag, and no address of its own", sent + AT_XID + 6, "\0\0\0\0\0\0", 6);
    wants_option("a DHCPDECLINE", 53, "\4", 1), wants_option("of this address", 50, "\300\250\105\62", 4);
    wants_option("to this server", 54, "\300\250\105\144", 4);
    wants("it asks for nothing", option(55) == NULL && option(57) == NULL && option(12) == NULL, 1);
}

/* An address that another host has, by an answer, or one that another host probes for at once, is declined. */
static void declines_what_another_has(uint8_t operation, uint8_t sender, int while_waiting) {
    iface host = IFACE_NONE;
    iface_dhcp client = IFACE_DHCP_NONE;
    struct iface_address none = IFACE_ANY;
    struct iface_lease got;
    uint8_t declined = 77;
    int64_t at, now;
    make(&host, IFACE_ETHERNET, 2);
    must("client", iface_dhcp_new(&client, &host, 42, &none));
    must("name", iface_dhcp_host_name(&client, "fern", 4));
    begins_a_test(&client, &host, 0);
    now = poll_when_due(&client, &host, IFACE_DHCP_NOTHING), wants_request(&host, now, NOBODY);
    for (int i = 0; while_waiting && i < 2; i++) now = poll_when_due(&client, &host, IFACE_DHCP_NOTHING), wants_request(&host, now, NOBODY);
    receive_arp(&host, now, 9, operation, sender, LAST);
    wants("told", poll_once(&client, &host, now), IFACE_DHCP_DECONFIGURED), wants_decline(&host, now);
    wants("no lease", iface_dhcp_lease(&client, &got), IFACE_EMPTY);
    must("declined", iface_dhcp_declined(&client, &declined)), wants("one", declined, 1);
    wants("no probe", next_frame(&host, now), 0);
    answer(&host, now, ACK, LAST, 120);
    wants("an old answer", poll_once(&client, &host, now), IFACE_DHCP_NOTHING), wants("no lease", iface_dhcp_lease(&client, &got), IFACE_EMPTY);
    must("due", iface_dhcp_poll_at(&client, &at)), wants("ten seconds later", (uint64_t)at, (uint64_t)(now + 10 * second));
    must("reset", iface_dhcp_reset(&client)), must("due", iface_dhcp_poll_at(&client, &at));
    wants("a reset doesn't shorten that", (uint64_t)at, (uint64_t)(now + 10 * second));
    wants("before that nothing", poll_once(&client, &host, at - 1), IFACE_DHCP_NOTHING), wants("no frame", next_frame(&host, at - 1), 0);
    wants("it begins anew", poll_once(&client, &host, at), IFACE_DHCP_NOTHING), wants_broadcast(&host, at, "\1");
    must("free", iface_dhcp_free(&client, &host)), must("free", iface_free(&host));
}

/* A server that leases one address for ever, which another host has: from the tenth time on a minute passes (RFC 5227 2.1.1). */
static void declines_more_seldom(void) {
    iface host = IFACE_NONE;
    iface_dhcp client = IFACE_DHCP_NONE;
    struct iface_address none = IFACE_ANY;
    int64_t now = 0, at;
    make(&host, IFACE_ETHERNET, 2);
    must("client", iface_dhcp_new(&client, &host, 42, &none));
    for (int i = 1; i <= 11; i++) {
        begins_a_test(&client, &host, now);
        receive_arp(&host, now, 9, 2, LAST, 1);
        wants("told", poll_once(&client, &host, now), IFACE_DHCP_DECONFIGURED), wants_decline(&host, now);
        must("due", iface_dhcp_poll_at(&client, &at)), wants("the pause", (uint64_t)(at - now), (uint64_t)(i < 10 ? 10 * second : 60 * second));
        now = at;
    }
    must("free", iface_dhcp_free(&client, &host)), must("free", iface_free(&host));
}

/* A frame that one host sends is received by another, and what that answers goes back. */
static void carry(iface *from, iface *to, int64_t now) {
    size_t n, m;
    while ((n = next_frame(from, now)) > 0) must("receive", iface_receive(to, now, sent, n, out, sizeof out, &m));
}

/* A bad server leases one address to two hosts of a link. Where both begin at once one of them declines it at least; where one has it
 * already the other one does. */
static void two_hosts_of_one_address(int64_t later) {
    iface host[2] = {IFACE_NONE, IFACE_NONE};
    iface_dhcp client[2] = {IFACE_DHCP_NONE, IFACE_DHCP_NONE};
    struct iface_address none = IFACE_ANY;
    struct iface_lease got;
    uint8_t declined[2] = {77, 77};
    static const uint8_t hardware[6] = {2, 0, 0, 0, 0, 2};
    make(&host[0], IFACE_ETHERNET, 2), make(&host[1], IFACE_ETHERNET, 2);
    must("another hardware address", iface_set_hardware_address(&host[1], hardware));
    for (int i = 0; i < 2; i++) must("client", iface_dhcp_new(&client[i], &host[i], 42 + (uint64_t)i, &none));
    begins_a_test(&client[0], &host[0], 0);
    for (int64_t now = 0; now < later + 8 * second; now += second / 10) {
        if (now == later) begins_a_test(&client[1], &host[1], now);
        for (int i = 0; i < 2; i++) {
            if (i == 1 && now < later) continue;
            if (poll_once(&client[i], &host[i], now) == IFACE_DHCP_CONFIGURED) must("apply", iface_dhcp_apply(&client[i], &host[i]));
            carry(&host[i], &host[1 - i], now);
        }
    }
    for (int i = 0; i < 2; i++) must("declined", iface_dhcp_declined(&client[i], &declined[i]));
    wants("one of them declined it", declined[0] + declined[1] >= 1, 1);
    wants("both don't use it", iface_dhcp_lease(&client[0], &got) == IFACE_OK && iface_dhcp_lease(&client[1], &got) == IFACE_OK, 0);
    if (later > 0) wants("the first one keeps it", declined[0], 0);
    for (int i = 0; i < 2; i++) must("free", iface_dhcp_free(&client[i], &host[i])), must("free", iface_free(&host[i]));
}

/* RFC 2131 4.4.6, table 5: to the server, from the address. */
static void releases(void) {
    iface host = IFACE_NONE;
    iface_dhcp client = IFACE_DHCP_NONE;
    struct iface_address none = IFACE_ANY;
    struct iface_lease got;
    make(&host, IFACE_ETHERNET, 2);
    make_client(&client, &host, 42, &none);
    wants("no lease", iface_dhcp_release(&client, &host), IFACE_EMPTY);
    lease(&client, &host, 0, LAST, 120);
    receive_arp(&host, 0, 100, 1, 100, LAST); /* the server asks, so that the host knows it */
    must("release", iface_dhcp_release(&client, &host));
    wants("no lease", iface_dhcp_lease(&client, &got), IFACE_EMPTY), wants("once", iface_dhcp_release(&client, &host), IFACE_EMPTY);
    wants("a message", next_frame(&host, second) > AT_OPTIONS, 1);
    wants_octets("to the server", sent, "\2\0\0\0\0\144\2\0\0\0\0\1\10\0", 14);
    wants_octets("from its address", sent + AT_IP + 12, "\300\250\105\62\300\250\105\144", 8);
    wants_octets("which it has had", sent + AT_XID + 6, "\0\0\300\250\105\62", 6);
    wants_option("a DHCPRELEASE", 53, "\7", 1), wants_option("to this server", 54, "\300\250\105\144", 4);
    wants("it asks for nothing", option(50) == NULL && option(55) == NULL && option(57) == NULL, 1);
    must("apply", iface_dhcp_apply(&client, &host)), wants_nothing_own(&host);
    wants("gone", poll_once(&client, &host, second), IFACE_DHCP_DECONFIGURED);
    must("free", iface_dhcp_free(&client, &host)), must("free", iface_free(&host));
}

/* A host with a static address hears other hosts' datagrams no more, though there is no lease. */
static void a_static_address_closes_the_raw_socket(void) {
    iface host = IFACE_NONE;
    iface_dhcp client = IFACE_DHCP_NONE;
    struct iface_address none = IFACE_ANY, fallback = {4, {10, 0, 0, 7}};
    struct iface_queue received, waiting;
    make(&host, IFACE_ETHERNET, 2);
    must("client", iface_dhcp_new(&client, &host, 42, &none));
    poll_once(&client, &host, 0), wants_broadcast(&host, 0, "\1"), poll_once(&client, &host, second);
    must("its raw socket", iface_queues(&host, 1, &received, &waiting)), wants("is kept", received.most_packets > 0, 1);
    must("address", iface_add_address(&host, &fallback, 24));
    poll_once(&client, &host, 2 * second);
    must("its place", iface_queues(&host, 1, &received, &waiting)), wants("has room for nothing", received.most_packets, 0);
    answer(&host, 3 * second, OFFER, LAST, 120);
    poll_once(&client, &host, 3 * second), wants_broadcast(&host, 3 * second, "\3");
    must("free", iface_dhcp_free(&client, &host)), must("free", iface_free(&host));
}

int main(void) {
    tests_an_address_and_announces_it();
    declines_what_another_has(2, LAST, 0), declines_what_another_has(1, LAST, 1), declines_what_another_has(1, NOBODY, 0);
    declines_more_seldom();
    two_hosts_of_one_address(0), two_hosts_of_one_address(20 * second);
    releases();
    a_static_address_closes_the_raw_socket();
    leases_and_renews();
    begins_anew_after_a_refusal();
    ignores_others();
    asks_and_reads();
    leaves_out_routes_without_room();
    takes_what_is_sent_to_its_address();
    refuses();
    printf("leases: %d checks: %d wrong\n", checks, failures);
    return failures != 0;
}
