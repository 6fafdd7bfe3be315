/* arping, on a TAP device of Linux: who has an address, by ARP (RFC 826) over IPv4 and by neighbour discovery (RFC 4861, 7.2)
 * over IPv6.
 *
 *   arping DEVICE OWN/PREFIX DESTINATION [-c COUNT] [-i SECONDS]
 *
 *   arping tap0 192.168.69.4/24 192.168.69.100
 *
 * COUNT is 3, the interval 1 s and no shorter, since the library asks once a second. The requests are the library's own: a
 * packet is queued for a neighbour that isn't known, and dropped when an answer came, so just the request is on the link.
 * Each answer is printed, another host's too. It fails unless each request is answered.
 */
#include "tap.h"

#include "octets.h"

enum { SECOND = 1000000 };

struct arping {
    iface host;
    int tap;
    struct iface_cidr own;
    struct iface_address to;
    int64_t asked, known_until; /* when the request was sent, IFACE_NEVER before; the end of what was learnt last */
    unsigned answers;           /* to this request */
    uint8_t out[IFACE_FRAME_ROOM], frame[65536];
};

/* Whether a frame is a request, as the library sends them, or an answer. ICMPv6 types: RFC 4861, 4.3 and 4.4. */
static int is_frame(const uint8_t *frame, size_t length, uint8_t operation, uint8_t type) {
    if (length >= 42 && get_16(frame + 12) == 0x0806) return get_16(frame + 20) == operation;
    return length >= 78 && get_16(frame + 12) == 0x86dd && frame[20] == 58 && frame[54] == type;
}

/* Sends all that is to be sent, and notes when a request went. */
static int64_t send_noting(struct arping *a) {
    int64_t now = now_micros(), at = now;
    size_t length = 0;
    while (iface_next(&a->host, now, a->out, sizeof a->out, &length) == IFACE_OK && length > 0) {
        if (is_frame(a->out, length, 1, 135)) a->asked = now_micros();
        send_frame(a->tap, a->out, length);
    }
    must("poll_at", iface_poll_at(&a->host, now, &at));
    return at;
}

/* Prints what the library learnt of the destination by the frame that it was just given, if it did. */
static void tell_answer(struct arping *a, int64_t now) {
    struct iface_address neighbor;
    uint8_t hardware[6];
    int64_t until;
    for (uint32_t i = 0; iface_neighbor_at(&a->host, i, &neighbor, hardware, &until) == IFACE_OK; i++) {
        if (memcmp(&neighbor, &a->to, sizeof neighbor) != 0 || until <= a->known_until || a->asked == IFACE_NEVER) continue;
        a->known_until = until;
        a->answers++;
        printf("%s is at %s: %.3f ms\n", text_of(&neighbor), hardware_text(hardware), (double)(now - a->asked) / 1000);
        fflush(stdout);
    }
}

/* Takes the frames that came, and sends the responses. */
static void take_all(struct arping *a) {
    size_t length;
    for (ssize_t got; (got = read(a->tap, a->frame, sizeof a->frame)) > 0;) {
        int64_t now = now_micros();
        must("receive", iface_receive(&a->host, now, a->frame, (size_t)got, a->out, sizeof a->out, &length));
        send_frame(a->tap, a->out, length);
        if (is_frame(a->frame, (size_t)got, 2, 136)) tell_answer(a, now);
    }
}

/* Asks, and prints the answers for so long from the request on. The library may send it a second later, if it asked before. */
static void ask(struct arping *a, int64_t interval) {
    const struct iface_rooms rooms = IFACE_ROOMS(1, 64);
    const uint8_t echo[8] = {a->to.version == 4 ? 8 : 128};
    int64_t begin = now_micros(), end = begin + SECOND + interval;
    uint32_t socket;
    int is_open = 1, is_asked = 0;
    a->asked = IFACE_NEVER, a->known_until = 0, a->answers = 0;
    must("addresses", iface_set_addresses(&a->host, &a->own, 1)); /* all neighbours are forgotten */
    must("socket", iface_icmp_open_ident(&a->host, 0, &rooms, &socket));
    must("request", iface_icmp_send(&a->host, socket, &a->to, echo, sizeof echo));
    while (now_micros() < end) {
        int64_t at = send_noting(a);
        if (!is_asked && a->asked != IFACE_NEVER) is_asked = 1, end = a->asked + interval;
        sleep_until(a->tap, at < end ? at : end);
        take_all(a);
        if (is_open && a->answers > 0) must("close", iface_close(&a->host, socket)), is_open = 0;
    }
    if (is_open) must("close", iface_close(&a->host, socket));
}

static int usage(void) {
    fprintf(stderr, "usage: arping DEVICE OWN/PREFIX DESTINATION [-c COUNT] [-i SECONDS]\n");
    return 2;
}

int main(int argc, char **argv) {
    static struct arping a = {.host = IFACE_NONE};
    struct iface_config config;
    unsigned count = 3, answered = 0, more = 0;
    int64_t interval = SECOND;
    for (int option; (option = getopt(argc, argv, "c:i:")) != -1;) {
        if (option == 'c') count = (unsigned)number_of(optarg, 1, 1e6);
        else if (option == 'i') interval = (int64_t)(number_of(optarg, 1, 3600) * SECOND);
        else return usage();
    }
    if (argc - optind != 3) return usage();
    a.own = cidr_of(argv[optind + 1]), a.to = address_of(argv[optind + 2]);
    a.tap = open_tap(argv[optind]);
    await_link(argv[optind]);
    iface_config_init(&config);
    config.seed = (uint64_t)now_micros(), config.hardware_address[0] = 2, config.hardware_address[5] = 4;
    config.patience = (uint64_t)interval + 2 * SECOND;
    must("host", iface_new(&a.host, &config));
    must(argv[optind + 1], iface_set_addresses(&a.host, &a.own, 1));
    need_way(&a.host, &a.to);
    for (unsigned i = 0; i < count; i++) {
        ask(&a, interval);
        if (a.answers == 0) printf("%s: no answer\n", text_of(&a.to));
        answered += a.answers > 0, more += a.answers > 1 ? a.answers - 1 : 0;
    }
    printf("%u requests, %u answered", count, answered);
    printf(more ? ", %u answers more: another host has the address\n" : "\n", more);
    must("free", iface_free(&a.host));
    return answered != count;
}
