/* Replays a script on a host, and prints all that the library answers: the same on each target.
 *
 * A script is records: a letter, a length of two octets (low first) and so many octets. F: a frame. T: four octets of
 * microseconds to go on. S: a datagram, to one of three ends by its first octet. */
#include "arena.h"

long sys_read(void *at, unsigned long room);
void sys_write(const void *at, unsigned long length);

static uint8_t record[65536], out[IFACE_FRAME_ROOM], packet[8192];
static uint64_t memory[65536] __attribute__((aligned(16)));
static char text[4 * IFACE_FRAME_ROOM];
static unsigned long filled;

static void put(char c) {
    text[filled++] = c;
    if (c == '\n' || filled == sizeof text) sys_write(text, filled), filled = 0;
}

static void line(const char *what, const uint8_t *octets, unsigned long length) {
    static const char digits[] = "0123456789abcdef";
    while (*what) put(*what++);
    put(' ');
    for (unsigned long i = 0; i < length; i++) put(digits[octets[i] >> 4]), put(digits[octets[i] & 15]);
    put('\n');
}

static void number(const char *what, uint64_t n) {
    uint8_t octets[8];
    for (int i = 0; i < 8; i++) octets[i] = (uint8_t)(n >> (56 - 8 * i));
    line(what, octets, 8);
}

static void must(uint32_t code) {
    if (code) number("code", code);
}

static int take(uint8_t *at, unsigned long length) {
    while (length > 0) {
        long got = sys_read(at, length);
        if (got <= 0) return 0;
        at += got, length -= (unsigned long)got;
    }
    return 1;
}

static struct iface_address v4(uint8_t a, uint8_t b, uint8_t c, uint8_t d) {
    struct iface_address address = {4, {a, b, c, d}};
    return address;
}

static struct iface_address v6(uint8_t a, uint8_t b, uint8_t last) {
    struct iface_address address = {6, {a, b}};
    address.octets[15] = last;
    return address;
}

/* In just what it wants, and then with room for sockets too. */
static void make_in_memory(iface *host, const struct iface_config *config) {
    size_t wanted, half = sizeof memory / 2;
    must(iface_new_in(host, config, memory, 0, &wanted) == IFACE_NO_MEMORY ? IFACE_OK : IFACE_HAS_HOST);
    must(iface_new_in(host, config, memory, wanted, &wanted));
    must(wanted - iface_arena_used() <= 32 ? IFACE_OK : IFACE_NO_MEMORY); /* the rest is the head of the memory */
    must(iface_free(host));
    must(iface_new_in(host, config, memory + half / sizeof *memory, half, &wanted));
}

int run(void);

int run(void) {
    iface host = IFACE_NONE;
    struct iface_config config;
    struct iface_address own[] = {v4(192, 168, 69, 1), v6(0xfe, 0x80, 1), v6(0xfd, 0x69, 1)};
    struct iface_address group = v4(239, 69, 69, 69), gateway = v4(192, 168, 69, 3);
    struct iface_endpoint any = {{0, {0}}, 7};
    struct iface_endpoint ends[] = {{v4(192, 168, 69, 2), 9}, {v6(0xfe, 0x80, 2), 9}, {v4(10, 1, 2, 3), 9}};
    uint32_t udp, raw, ident, port;
    int64_t now = 1000000, at;
    uint64_t n;
    iface_config_init(&config);
    config.seed = 1, config.slaac = 1, config.hardware_address[0] = 2, config.hardware_address[5] = 1;
    make_in_memory(&host, &config);
    must(iface_add_address(&host, &own[0], 24));
    must(iface_add_address(&host, &own[1], 64));
    must(iface_add_address(&host, &own[2], 64));
    must(iface_join_group(&host, &group));
    must(iface_set_default_route(&host, &gateway));
    must(iface_udp_open(&host, &any, &(struct iface_rooms)IFACE_ROOMS(8, 8192), &udp));
    must(iface_raw_open(&host, 4, 253, &(struct iface_rooms)IFACE_ROOMS(8, 8192), &raw));
    must(iface_icmp_open_ident(&host, 0x22b, &(struct iface_rooms)IFACE_ROOMS(8, 8192), &ident));
    must(iface_icmp_open_port(&host, 7, &(struct iface_rooms)IFACE_ROOMS(8, 8192), &port));
    while (take(record, 3)) {
        uint8_t kind = record[0];
        unsigned long length = record[1] | (unsigned long)record[2] << 8;
        if (!take(record, length)) break;
        if (kind == 'T') now += record[0] | record[1] << 8 | record[2] << 16 | (int64_t)record[3] << 24;
        if (kind == 'S') must(iface_udp_send(&host, udp, &ends[record[0] % 3], record, length));
        if (kind == 'F') {
            must(iface_receive(&host, now, record, length, out, sizeof out, &n));
            if (n > 0) line("reply", out, (unsigned long)n);
        }
        struct iface_endpoint from;
        while (iface_udp_receive(&host, udp, &from, packet, sizeof packet, &n) == IFACE_OK) {
            line("from", from.address.octets, 16);
            line("udp", packet, (unsigned long)n);
            (void)iface_udp_send(&host, udp, &from, packet, n); /* where there is no route, it is lost */
        }
        while (iface_raw_receive(&host, raw, packet, sizeof packet, &n) == IFACE_OK)
            line("raw", packet, (unsigned long)n);
        while (iface_icmp_receive(&host, ident, &from.address, packet, sizeof packet, &n) == IFACE_OK)
            line("ident", packet, (unsigned long)n);
        while (iface_icmp_receive(&host, port, &from.address, packet, sizeof packet, &n) == IFACE_OK)
            line("port", packet, (unsigned long)n);
        do {
            must(iface_next(&host, now, out, sizeof out, &n));
            if (n > 0) line("next", out, (unsigned long)n);
        } while (n > 0);
        must(iface_poll_at(&host, now, &at));
        number("at", (uint64_t)at);
    }
    for (uint32_t place = 0;; place++) {
        struct iface_address address = {0, {0}};
        uint8_t prefix_len;
        if (iface_address_at(&host, place, &address, &prefix_len) != IFACE_OK) break;
        line("address", address.octets, 16);
    }
    must(iface_free(&host));
    return 0;
}
