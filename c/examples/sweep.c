/* Who is on the link, on a TAP device of Linux.
 *
 *   sweep DEVICE OWN/PREFIX [-q REQUESTS] [-W SECONDS]
 *
 *   sweep tap0 192.168.69.4/24         each address of the network but the own one, by ARP (RFC 826)
 *   sweep tap0 fe80::4/64              who answers an echo request to all nodes, ff02::1 (RFC 4443, 4.2; RFC 4291, 2.7.1)
 *
 * The library itself asks for one neighbour a second. A network of 254 addresses would take over four minutes by that,
 * so the requests are frames of the program's own, at most REQUESTS a second: 50 unless told, 1000 at most. Each address
 * is asked for once, and SECONDS after the last request, 2 unless told, it ends. Over IPv6 three echo requests go, one a
 * second. What is received goes to the library as well, which answers who asks for the host.
 */
#include "tap.h"

#include "octets.h"

enum { SECOND = 1000000, IDENT = 43, MOST_HOSTS = 1024 };
static const uint8_t hardware_address[6] = {2, 0, 0, 0, 0, 4};

struct answer {
    int64_t asked;
    uint8_t hardware[6];
    uint8_t is_there;
};

struct sweep {
    iface host;
    int tap;
    struct iface_cidr own;
    int64_t gap, wait;
    uint32_t first, count, asked; /* of the addresses of the network: the first, how many, for how many it asked */
    struct answer *answers;       /* over IPv4 by address */
    struct iface_address *hosts;  /* over IPv6 those that answered */
    unsigned found;
    uint8_t frame[65536], out[IFACE_FRAME_ROOM];
};

static void tell(struct sweep *s, const struct iface_address *from, const uint8_t *hardware, int64_t took) {
    printf("%s is at %s: %.3f ms\n", text_of(from), hardware_text(hardware), (double)took / 1000);
    fflush(stdout);
    s->found++;
}

/* A request for an address, broadcast (RFC 826). */
static void ask_by_arp(struct sweep *s, uint32_t address) {
    uint8_t frame[42] = {255, 255, 255, 255, 255, 255, 0, 0, 0, 0, 0, 0, 8, 6, 0, 1, 8, 0, 6, 4, 0, 1};
    memcpy(frame + 6, hardware_address, 6);
    memcpy(frame + 22, hardware_address, 6);
    memcpy(frame + 28, s->own.address.octets, 4);
    put_16(frame + 38, address >> 16), put_16(frame + 40, address);
    s->answers[address - s->first].asked = now_micros();
    send_frame(s->tap, frame, sizeof frame);
}

/* An answer by ARP: a reply to this host whose sender is of the network. Another host's answer for the same address is told, too. */
static void take_arp(struct sweep *s, const uint8_t *frame, size_t length) {
    static const uint8_t form[8] = {0, 1, 8, 0, 6, 4, 0, 2};
    if (length < 42 || get_16(frame + 12) != 0x0806 || memcmp(frame + 14, form, sizeof form) != 0) return;
    if (memcmp(frame + 32, hardware_address, 6) != 0 || memcmp(frame + 38, s->own.address.octets, 4) != 0) return;
    uint32_t place = ((uint32_t)get_16(frame + 28) << 16 | get_16(frame + 30)) - s->first;
    if (place >= s->count || s->answers[place].asked == 0) return;
    struct answer *a = &s->answers[place];
    if (a->is_there && memcmp(a->hardware, frame + 22, 6) == 0) return;
    struct iface_address from = {4, {0}};
    memcpy(from.octets, frame + 28, 4);
    memcpy(a->hardware, frame + 22, 6);
    a->is_there = 1;
    tell(s, &from, a->hardware, now_micros() - a->asked);
}

/* Echo replies that came by this frame, of hosts that haven't answered before. */
static void take_replies(struct sweep *s, uint32_t socket, const uint8_t *frame) {
    uint8_t message[64];
    struct iface_address from;
    size_t length;
    while (iface_icmp_receive(&s->host, socket, &from, message, sizeof message, &length) == IFACE_OK) {
        unsigned i = 0;
        int64_t then;
        if (length != 8 + sizeof then || message[0] != 129) continue;
        while (i < s->found && memcmp(&s->hosts[i], &from, sizeof from) != 0) i++;
        if (i < s->found || s->found == MOST_HOSTS) continue;
        memcpy(&then, message + 8, sizeof then);
        s->hosts[s->found] = from;
        tell(s, &from, frame + 6, now_micros() - then);
    }
}

/* Sends what the host has to send, sleeps until an instant or a frame, and takes frames. */
static void serve(struct sweep *s, uint32_t socket, int64_t until) {
    int64_t at;
    size_t length;
    send_all(&s->host, s->tap, &at);
    sleep_until(s->tap, at < until ? at : until);
    for (ssize_t got; (got = read(s->tap, s->frame, sizeof s->frame)) > 0;) {
        must("receive", iface_receive(&s->host, now_micros(), s->frame, (size_t)got, s->out, sizeof s->out, &length));
        send_frame(s->tap, s->out, length);
        if (s->answers) take_arp(s, s->frame, (size_t)got);
        else take_replies(s, socket, s->frame);
    }
}

/* Each address of the network but the own one, the network's and the broadcast address (RFC 3021: of a /31 both are hosts'). */
static void sweep_ipv4(struct sweep *s) {
    uint32_t own = (uint32_t)get_16(s->own.address.octets) << 16 | get_16(s->own.address.octets + 2);
    uint32_t size = (uint32_t)1 << (32 - s->own.prefix_len), ends = size > 2;
    s->first = (own & ~(size - 1)) + ends, s->count = size - 2 * ends;
    s->answers = calloc(s->count, sizeof *s->answers);
    if (!s->answers) must("answers", IFACE_NO_MEMORY);
    int64_t next = now_micros();
    for (uint32_t i = 0; i < s->count;) {
        if (now_micros() >= next) {
            if (s->first + i != own) ask_by_arp(s, s->first + i), s->asked++;
            i++, next += s->gap;
        } else serve(s, 0, next);
    }
    for (int64_t end = now_micros() + s->wait; now_micros() < end;) serve(s, 0, end);
    free(s->answers);
}

/* Three echo requests to all nodes of the link, a second apart. */
static void sweep_ipv6(struct sweep *s) {
    const struct iface_rooms rooms = IFACE_ROOMS(64, 4096);
    const struct iface_address all = {6, {0xff, 2, [15] = 1}};
    uint32_t socket;
    s->hosts = calloc(MOST_HOSTS, sizeof *s->hosts);
    if (!s->hosts) must("hosts", IFACE_NO_MEMORY);
    must("socket", iface_icmp_open_ident(&s->host, IDENT, &rooms, &socket));
    must("hop limit", iface_set_hop_limit(&s->host, socket, 1));
    for (s->asked = 0; s->asked < 3;) {
        uint8_t message[16] = {128, 0, 0, 0, 0, IDENT, 0, (uint8_t)++s->asked};
        int64_t now = now_micros(), end = now + (s->asked < 3 ? SECOND : s->wait);
        memcpy(message + 8, &now, sizeof now);
        must("request", iface_icmp_send(&s->host, socket, &all, message, sizeof message));
        while (now_micros() < end) serve(s, socket, end);
    }
    free(s->hosts);
}

static int usage(void) {
    fprintf(stderr, "usage: sweep DEVICE OWN/PREFIX [-q REQUESTS_A_SECOND] [-W SECONDS]; over IPv4 a prefix of 16 to 31\n");
    return 2;
}

int main(int argc, char **argv) {
    static struct sweep s = {.host = IFACE_NONE, .gap = SECOND / 50, .wait = 2 * SECOND};
    struct iface_config config;
    for (int option; (option = getopt(argc, argv, "q:W:")) != -1;) {
        if (option == 'q') s.gap = (int64_t)(SECOND / number_of(optarg, 0.1, 1000));
        else if (option == 'W') s.wait = (int64_t)(number_of(optarg, 0, 3600) * SECOND);
        else return usage();
    }
    if (argc - optind != 2) return usage();
    s.own = cidr_of(argv[optind + 1]);
    int is_v4 = s.own.address.version == 4;
    if (is_v4 && (s.own.prefix_len < 16 || s.own.prefix_len > 31)) return usage();
    s.tap = open_tap(argv[optind]);
    await_link(argv[optind]);
    iface_config_init(&config);
    config.seed = (uint64_t)now_micros();
    memcpy(config.hardware_address, hardware_address, 6);
    must("host", iface_new(&s.host, &config));
    must(argv[optind + 1], iface_set_addresses(&s.host, &s.own, 1));
    int64_t begin = now_micros();
    if (is_v4) sweep_ipv4(&s);
    else sweep_ipv6(&s);
    printf("%u requests, %u hosts, %.1f s\n", s.asked, s.found, (double)(now_micros() - begin) / SECOND);
    must("free", iface_free(&s.host));
    return 0;
}
