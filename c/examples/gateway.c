/* A gateway of two TAP devices of Linux: it hands packets of IPv4 and IPv6 from one link to the other.
 *
 *   gateway DEVICE OWN/PREFIX[,OWN/PREFIX..] DEVICE OWN/PREFIX[,..] [-m OCTETS] [-r NETWORK/PREFIX,ROUTER]..
 *
 *   gateway tap0 10.1.0.1/24,fd01::1/64 tap1 10.2.0.1/24,fd02::1/64
 *
 * -m is the longest packet of the second link, -r a route by a router of either link. It ends by SIGTERM, and prints what it
 * counted. docs/SERVICES.md says which packets are forwarded, and which errors are sent.
 *
 * Each link has a host of the library. It answers for the gateway's own addresses (those of the other link count by AnyIP,
 * so that they answer on both), asks for neighbours, and sends the errors, by raw sockets of ICMP. The packets themselves
 * don't go by raw sockets. Those write the header anew, without the type of service, the identification and DF, which a
 * gateway has to leave alone. Over IPv6 they get just packets to own addresses, and with AnyIP for all destinations the host
 * would answer the echo requests of others. So packets in transit stay as they are but for the hop limit and its checksum.
 */
#include "link.h"

#include <signal.h>

/* How many errors are sent in a row, and in a second. */
enum { BURST = 10, ERRORS = 100, SECOND = 1000000 };

/* Type and code of the errors, over IPv4 (RFC 792, RFC 1812 5.2.7) and over IPv6 (RFC 4443, 3). */
enum error { NO_ROUTE, NO_NEIGHBOR, TOO_LONG, EXPIRED, BEYOND_SCOPE };
static const uint8_t errors[2][5][2] = {{{3, 0}, {3, 1}, {3, 4}, {11, 0}, {3, 0}}, {{1, 0}, {1, 3}, {2, 0}, {3, 0}, {1, 2}}};

struct gateway {
    struct link links[2];
    int64_t next_error; /* when errors have been sent at their rate */
    unsigned long told, dropped; /* errors; packets that weren't forwarded */
};

struct route {
    struct iface_address hop;
    int link, is_own, is_end; /* the link that it leads to; an own address; a network's first or last address */
};

static volatile sig_atomic_t is_over;

static void on_signal(int number) {
    (void)number;
    is_over = 1;
}

/* Weighs the addresses and routes of a link: how good the best one is. Own networks come before routes, as in the library. */
static int weigh(iface *host, const struct iface_address *to, int link, int best, struct route *r) {
    struct iface_address a, router;
    uint8_t bits;
    int64_t until, now = now_micros();
    for (uint32_t i = 0; iface_address_at(host, i, &a, &bits) == IFACE_OK; i++) {
        int is_own = memcmp(&a, to, sizeof a) == 0, weight = is_own ? 1000 : 500 + bits;
        if (!is_in(to, &a, bits) || weight <= best) continue;
        *r = (struct route){*to, link, is_own, is_end_of_network(to, bits)};
        best = weight;
    }
    for (uint32_t i = 0; iface_route_at(host, i, &a, &bits, &router, &until) == IFACE_OK; i++) {
        if (!is_in(to, &a, bits) || until < now || bits <= best) continue;
        *r = (struct route){router, link, 0, 0};
        best = bits;
    }
    return best;
}

/* Where a packet to an address goes. Whether there is a way. */
static int find_route(struct gateway *g, const struct iface_address *to, struct route *r) {
    int best = weigh(&g->links[0].host, to, 0, -1, r);
    return weigh(&g->links[1].host, to, 1, best, r) >= 0;
}

/* Drops a packet, and sends an error about it to its source, by the host of the link that it came from, unless too many were
 * sent. */
static void tell(struct gateway *g, int in, const uint8_t *packet, size_t length, enum error error, size_t mtu) {
    static uint8_t out[1280];
    struct link *l = &g->links[in];
    struct iface_address source = source_of(packet), own;
    int64_t now = now_micros(), gap = SECOND / ERRORS;
    int is_v6 = source.version == 6;
    g->dropped++;
    if (!may_be_told(packet, length) || g->next_error > now + (BURST - 1) * gap) return;
    if (iface_source_for(&l->host, &source, &own) != IFACE_OK) return;
    size_t size = write_error(out, &own, packet, length, errors[is_v6][error], (uint32_t)mtu);
    if (iface_raw_send(&l->host, l->errors[is_v6], out, size) != IFACE_OK) return;
    g->next_error = (g->next_error > now ? g->next_error : now) + gap;
    g->told++;
}

/* Ends what was asked for: packets that wait for it are sent to this hardware address, or told of where there is none. */
static void end_probe(struct gateway *g, struct link *l, struct probe *p, const uint8_t *hardware) {
    must("close", iface_close(&l->host, p->socket));
    p->is_open = 0;
    for (struct held *h = l->held; h < l->held + HELD; h++) {
        if (h->length == 0 || memcmp(&h->hop, &p->hop, sizeof p->hop) != 0) continue;
        if (hardware) emit(l, hardware, h->frame + 14, h->length);
        else tell(g, h->in, h->frame + 14, h->length, NO_NEIGHBOR, 0);
        h->length = 0;
    }
}

/* Looks at what is asked for: whether the neighbour is known by now, or was given up. */
static void look_at_probes(struct gateway *g, struct link *l) {
    struct iface_address silent;
    for (struct probe *p = l->probes; p < l->probes + PROBES; p++) {
        const uint8_t *hardware = p->is_open ? hardware_of(l, &p->hop) : NULL;
        if (hardware || (p->is_open && iface_given_up(&l->host, p->socket, &silent) == IFACE_OK))
            end_probe(g, l, p, hardware);
    }
}

/* Forwards a packet that isn't for the gateway, or drops it, with an error where one is due. */
static void forward(struct gateway *g, int in, uint8_t *packet, size_t length, const struct route *way) {
    struct iface_address source = source_of(packet);
    struct route back;
    if (is_link_local(&source) && source.version == 6) {
        tell(g, in, packet, length, BEYOND_SCOPE, 0);
        return;
    }
    int has_way_back = is_forwardable(&source) && find_route(g, &source, &back);
    if (!has_way_back || back.link != in || back.is_own || back.is_end || has_source_route(packet)) g->dropped++;
    else if (!way) tell(g, in, packet, length, NO_ROUTE, 0);
    else if (hop_limit_of(packet) <= 1) tell(g, in, packet, length, EXPIRED, 0);
    else if (length > g->links[way->link].mtu && (!is_ipv4(packet) || has_dont_fragment(packet)))
        tell(g, in, packet, length, TOO_LONG, g->links[way->link].mtu);
    else {
        struct link *out = &g->links[way->link];
        const uint8_t *hardware = hardware_of(out, &way->hop);
        lower_hop_limit(packet);
        if (hardware) emit(out, hardware, packet, length);
        else if (!hold(out, in, &way->hop, packet, length)) g->dropped++;
    }
}

/* Takes a frame: the host of its link gets it, unless it is for the gateway's hardware address, and has a packet to another
 * host beyond the link. */
static void take(struct gateway *g, int in, uint8_t *frame, size_t size) {
    static uint8_t out[IFACE_FRAME_ROOM];
    struct link *l = &g->links[in];
    uint8_t *packet = frame + 14;
    size_t length = size < 14 ? 0 : size - 14;
    int type = size < 14 ? 0 : get_16(frame + 12);
    int64_t at;
    if (length > 0 && type == (is_ipv4(packet) ? 0x0800 : 0x86dd) && memcmp(frame, l->hardware, 6) == 0
        && is_packet(packet, &length)) {
        struct iface_address to = destination_of(packet);
        struct route way;
        int has_way = is_forwardable(&to) && find_route(g, &to, &way);
        if (is_forwardable(&to) && !(has_way && (way.is_own || way.is_end))) {
            forward(g, in, packet, length, has_way ? &way : NULL);
            return;
        }
    }
    must("receive", iface_receive(&l->host, now_micros(), frame, size, out, sizeof out, &length));
    send_frame(l->tap, out, length);
    remember(l);
    send_all(&l->host, l->tap, &at);
}

/* Takes the frames that came from a link, some at a time. */
static void take_some(struct gateway *g, int in) {
    static uint8_t frame[65536];
    ssize_t got;
    for (int i = 0; i < 16 && (got = read(g->links[in].tap, frame, sizeof frame)) > 0; i++) take(g, in, frame, (size_t)got);
}

/* Sleeps until a frame comes, or a host has something to do, or a signal. */
static void sleep_on(struct gateway *g) {
    struct pollfd wait[2] = {{.fd = g->links[0].tap, .events = POLLIN}, {.fd = g->links[1].tap, .events = POLLIN}};
    int64_t now = now_micros(), at = IFACE_NEVER, due;
    for (int i = 0; i < 2; i++) {
        must("poll_at", iface_poll_at(&g->links[i].host, now, &due));
        if (due < at) at = due;
    }
    poll(wait, 2, at == IFACE_NEVER ? -1 : at <= now ? 0 : at - now < SECOND ? (int)((at - now + 999) / 1000) : 1000);
}

/* Makes the host of a link, at addresses with commas between them, and at its link-local one. */
static void make_link(struct link *l, const char *device, char *own, uint8_t number, size_t mtu) {
    const struct iface_rooms rooms = {0, 0, 2 * BURST, 2 * BURST * 1280};
    struct iface_config config;
    struct iface_address link_local;
    iface_config_init(&config);
    config.seed = (uint64_t)now_micros(), config.hardware_address[0] = 2, config.hardware_address[5] = number;
    config.frame_len = (uint32_t)(14 + mtu);
    config.patience = (PROBES + 2) * SECOND; /* a second for each socket that may wait */
    l->tap = open_tap(device), l->mtu = mtu;
    memcpy(l->hardware, config.hardware_address, 6);
    must("host", iface_new(&l->host, &config));
    for (const char *word = strtok(own, ","); word; word = strtok(NULL, ",")) {
        struct iface_cidr c = cidr_of(word);
        must(word, iface_add_address(&l->host, &c.address, c.prefix_len));
    }
    must("link-local", iface_link_local(l->hardware, &link_local));
    must("link-local", iface_add_address(&l->host, &link_local, 64));
    must("any address", iface_set_any_ip(&l->host, 1));
    must("socket", iface_raw_open(&l->host, 4, ICMP, &rooms, &l->errors[0]));
    must("socket", iface_raw_open(&l->host, 6, ICMPV6, &rooms, &l->errors[1]));
}

/* Lets the addresses of another link count as own ones: each is routed to this host itself. */
static void add_addresses_of(struct link *l, iface *other) {
    struct iface_address a, own;
    uint8_t bits;
    for (uint32_t i = 0; iface_address_at(other, i, &a, &bits) == IFACE_OK; i++)
        for (uint32_t k = 0; !is_link_local(&a) && iface_address_at(&l->host, k, &own, &bits) == IFACE_OK; k++)
            if (own.version == a.version) {
                must("own address", iface_add_route(&l->host, &a, a.version == 4 ? 32 : 128, &own));
                break;
            }
}

/* Adds a route, as 10.3.0.0/16,10.2.0.9, to the link that its router is on. */
static void add_route(struct gateway *g, char *text) {
    const char *word = strtok(text, ","), *by = strtok(NULL, ",");
    struct route way;
    struct iface_cidr network = cidr_of(word ? word : text);
    struct iface_address router = address_of(by ? by : "no router");
    if (!find_route(g, &router, &way) || way.is_own) must("router", IFACE_NOT_THERE);
    must(text, iface_add_route(&g->links[way.link].host, &network.address, network.prefix_len, &router));
}

static int usage(void) {
    fprintf(stderr, "usage: gateway DEVICE OWN/PREFIX[,OWN/PREFIX..] DEVICE OWN/PREFIX[,..] [-m OCTETS] "
                    "[-r NETWORK/PREFIX,ROUTER]..\n");
    return 2;
}

int main(int argc, char **argv) {
    static struct gateway g = {.links = {{.host = IFACE_NONE}, {.host = IFACE_NONE}}};
    size_t mtu = 1500;
    char *routes[8];
    int route_count = 0;
    int64_t at;
    for (int option; (option = getopt(argc, argv, "m:r:")) != -1;) {
        if (option == 'm') mtu = (size_t)number_of(optarg, 1280, 1500);
        else if (option == 'r' && route_count < 8) routes[route_count++] = optarg;
        else return usage();
    }
    if (argc - optind != 4) return usage();
    make_link(&g.links[0], argv[optind], argv[optind + 1], 1, 1500);
    make_link(&g.links[1], argv[optind + 2], argv[optind + 3], 2, mtu);
    for (int i = 0; i < 2; i++) add_addresses_of(&g.links[i], &g.links[!i].host);
    for (int i = 0; i < route_count; i++) add_route(&g, routes[i]);
    signal(SIGTERM, on_signal);
    signal(SIGINT, on_signal);
    while (!is_over) {
        for (int i = 0; i < 2; i++) send_all(&g.links[i].host, g.links[i].tap, &at), look_at_probes(&g, &g.links[i]);
        sleep_on(&g);
        for (int i = 0; i < 2; i++) take_some(&g, i);
    }
    printf("gateway: %lu packets forwarded to %s, %lu to %s, %lu not, %lu errors sent\n", g.links[0].sent, argv[optind],
           g.links[1].sent, argv[optind + 2], g.dropped, g.told);
    for (int i = 0; i < 2; i++) must("free", iface_free(&g.links[i].host));
    return 0;
}
