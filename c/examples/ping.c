/* ping, on a TAP device of Linux: echo requests of either ICMP (RFC 792, RFC 4443), what came back, and after what time.
 *
 *   ping DEVICE OWN/PREFIX DESTINATION [-c COUNT] [-i SECONDS] [-s OCTETS] [-t HOPS] [-W SECONDS] [-r ROUTER]
 *
 *   ping tap0 192.168.69.4/24 192.168.69.100 -c 4
 *
 * COUNT is 4, and 0 is until it is stopped; the interval 1 s; the payload 56 octets; the hop limit 64. After the last request it
 * waits 4 s for replies. It fails unless each request is answered. Without a way to the destination nothing is sent. Beside
 * replies it prints who doesn't answer its requests for a hardware address, and errors about its echo requests, which come to a
 * raw socket: the library verifies the header's checksum of these, and the program that of the message.
 */
#include "tap.h"

#include "octets.h"

#include <signal.h>

enum { IDENT = 42, HEADER = 8, KEPT = 1024, LONGEST = 4096, SECOND = 1000000 };

static volatile sig_atomic_t is_over;

static void on_signal(int number) {
    (void)number;
    is_over = 1;
}

struct options {
    unsigned count;
    int64_t interval, wait;
    size_t size;
    uint8_t hop_limit;
    const char *router;
};

struct ping {
    iface host;
    int tap;
    uint32_t socket, errors; /* of echo messages, and of all messages of ICMP */
    struct iface_address to;
    struct iface_cidr own;
    struct options wanted;
    struct {
        int64_t at;
        unsigned number; /* 0 where none is kept */
        int is_answered;
    } requests[KEPT];
    unsigned sent, received, repeated, told;
    int64_t least, most, sum;
};

/* Queues a request: type, code, checksum (which the library computes), identifier, number, and the payload. */
static void request(struct ping *p) {
    uint8_t message[HEADER + LONGEST] = {p->to.version == 4 ? 8 : 128, 0, 0, 0, 0, IDENT};
    unsigned number = ++p->sent;
    put_16(message + 6, number);
    for (size_t i = 0; i < p->wanted.size; i++) message[HEADER + i] = (uint8_t)i;
    p->requests[number % KEPT].at = now_micros();
    p->requests[number % KEPT].number = number, p->requests[number % KEPT].is_answered = 0;
    uint32_t code = iface_icmp_send(&p->host, p->socket, &p->to, message, HEADER + p->wanted.size);
    if (code != IFACE_OK) fprintf(stderr, "ping: request %u: %s\n", number, iface_strerror(code));
}

/* Counts a reply to a request that is kept, and prints it. */
static void count_reply(struct ping *p, const struct iface_address *from, uint16_t number, size_t length) {
    unsigned slot = number % KEPT;
    if (!p->requests[slot].number || (p->requests[slot].number & 0xffff) != number) return;
    int64_t took = now_micros() - p->requests[slot].at;
    int is_again = p->requests[slot].is_answered;
    printf("%zu octets from %s: icmp_seq=%u time=%.3f ms%s\n", length, text_of(from), number, (double)took / 1000,
           is_again ? " (again)" : "");
    fflush(stdout);
    p->requests[slot].is_answered = 1;
    if (is_again) p->repeated++;
    else {
        p->least = p->received == 0 || took < p->least ? took : p->least;
        p->most = took > p->most ? took : p->most;
        p->received++, p->sum += took;
    }
}

/* Takes the replies that came: those of the length of the requests count. */
static void replies(struct ping *p) {
    static uint8_t message[HEADER + LONGEST];
    struct iface_address from;
    size_t length;
    while (iface_icmp_receive(&p->host, p->socket, &from, message, sizeof message, &length) == IFACE_OK)
        if (length == HEADER + p->wanted.size && message[0] == (from.version == 4 ? 0 : 129))
            count_reply(p, &from, get_16(message + 6), length);
}

/* Prints an error, if it is about a request: its message quotes the request's header and eight octets (RFC 792, RFC 4443). */
static void tell_error(struct ping *p, const uint8_t *packet, size_t length) {
    int is_v4 = packet[0] >> 4 == 4;
    size_t header = is_v4 ? 20 : 40, quoted = header + 8;
    if (length < quoted + header + 8) return;
    const uint8_t *message = packet + header, *about = packet + quoted + (is_v4 ? (packet[quoted] & 15) * 4 : 40);
    if (checksum_of(is_v4 ? 0 : icmpv6_sum(packet, length - header), message, length - header) != 0) return;
    if (about + 8 > packet + length || about[0] != (is_v4 ? 8 : 128) || get_16(about + 4) != IDENT) return;
    struct iface_address from = {is_v4 ? 4 : 6, {0}};
    memcpy(from.octets, packet + (is_v4 ? 12 : 8), is_v4 ? 4 : 16);
    const char *what = message[0] == (is_v4 ? 11 : 3) ? "time exceeded" : message[0] == (is_v4 ? 3 : 1) ? "unreachable"
                       : !is_v4 && message[0] == 2 ? "packet too big" : NULL;
    if (!what) return;
    printf("from %s: icmp_seq=%u %s, code %u\n", text_of(&from), get_16(about + 6), what, message[1]);
    fflush(stdout);
    p->told++;
}

static void errors(struct ping *p) {
    static uint8_t packet[LONGEST];
    size_t length;
    while (iface_raw_receive(&p->host, p->errors, packet, sizeof packet, &length) == IFACE_OK)
        if (length >= 48) tell_error(p, packet, length);
}

/* The host, and its sockets. */
static void open_all(struct ping *p, const char *device, const char *own) {
    const struct iface_rooms rooms = IFACE_ROOMS(64, 32 * LONGEST);
    struct iface_config config;
    p->own = cidr_of(own);
    p->tap = open_tap(device);
    await_link(device);
    iface_config_init(&config);
    config.seed = (uint64_t)now_micros(), config.hardware_address[0] = 2, config.hardware_address[5] = 4;
    must("host", iface_new(&p->host, &config));
    must(own, iface_add_address(&p->host, &p->own.address, p->own.prefix_len));
    if (p->wanted.router) {
        struct iface_address router = address_of(p->wanted.router);
        must(p->wanted.router, iface_set_default_route(&p->host, &router));
    }
    need_way(&p->host, &p->to);
    must("socket", iface_icmp_open_ident(&p->host, IDENT, &rooms, &p->socket));
    must("hop limit", iface_set_hop_limit(&p->host, p->socket, p->wanted.hop_limit));
    must("socket", iface_raw_open(&p->host, p->to.version, p->to.version == 4 ? 1 : 58, &rooms, &p->errors));
}

/* Prints who was asked for its hardware address and didn't answer, if the host gave up a request for that. */
static void tell_silence(struct ping *p) {
    struct iface_address silent;
    if (iface_given_up(&p->host, p->socket, &silent) != IFACE_OK) return;
    if (is_in(&silent, &p->own.address, p->own.prefix_len)) printf("%s doesn't answer\n", text_of(&silent));
    else printf("%s: the router %s doesn't answer\n", text_of(&silent), p->wanted.router);
    fflush(stdout);
}

/* Sends requests and takes replies until all are there, the last one has waited long enough, or a signal. */
static void run(struct ping *p) {
    int64_t at, next = now_micros(), end = IFACE_NEVER;
    unsigned count = p->wanted.count;
    while (!is_over && (!count || p->received < count) && now_micros() < end) {
        int has_more = !count || p->sent < count;
        if (has_more && now_micros() >= next) {
            request(p);
            next += p->wanted.interval;
            if (count && p->sent == count) has_more = 0, end = now_micros() + p->wanted.wait;
        }
        send_all(&p->host, p->tap, &at);
        tell_silence(p);
        int64_t until = has_more ? next : end;
        sleep_until(p->tap, at < until ? at : until);
        for (int burst = 0; burst < 64 && take_frame(&p->host, p->tap); burst++) {
            replies(p);
            errors(p);
            send_all(&p->host, p->tap, &at);
        }
    }
}

static void print_statistics(const struct ping *p, int64_t took) {
    printf("--- %s ping statistics ---\n%u packets transmitted, %u received", text_of(&p->to), p->sent, p->received);
    if (p->repeated) printf(", +%u duplicates", p->repeated);
    if (p->told) printf(", +%u errors", p->told);
    printf(", %.4g%% packet loss, time %lld ms\n", p->sent ? 100.0 * (p->sent - p->received) / p->sent : 0.0,
           (long long)took / 1000);
    if (p->received) printf("rtt min/avg/max = %.3f/%.3f/%.3f ms\n", (double)p->least / 1000,
                            (double)p->sum / 1000 / p->received, (double)p->most / 1000);
}

/* The options, and whether just the three words are left. */
static int read_options(int argc, char **argv, struct options *o) {
    for (int option; (option = getopt(argc, argv, "c:i:s:t:W:r:")) != -1;) switch (option) {
        case 'c': o->count = (unsigned)number_of(optarg, 0, 1e9); break;
        case 'i': o->interval = (int64_t)(number_of(optarg, 0.002, 3600) * SECOND); break;
        case 's': o->size = (size_t)number_of(optarg, 0, LONGEST - 28); break;
        case 't': o->hop_limit = (uint8_t)number_of(optarg, 1, 255); break;
        case 'W': o->wait = (int64_t)(number_of(optarg, 0, 3600) * SECOND); break;
        case 'r': o->router = optarg; break;
        default: return 0;
        }
    return argc - optind == 3;
}

int main(int argc, char **argv) {
    static struct ping p = {.host = IFACE_NONE, .wanted = {4, SECOND, 4 * SECOND, 56, 64, NULL}};
    if (!read_options(argc, argv, &p.wanted)) {
        fprintf(stderr, "usage: ping DEVICE OWN/PREFIX DESTINATION [-c COUNT] [-i SECONDS] [-s OCTETS] [-t HOPS] "
                        "[-W SECONDS] [-r ROUTER]; COUNT 0 is until it is stopped\n");
        return 2;
    }
    p.to = address_of(argv[optind + 2]);
    open_all(&p, argv[optind], argv[optind + 1]);
    signal(SIGINT, on_signal);
    signal(SIGTERM, on_signal);
    printf("PING %s: %zu octets of payload%s\n", text_of(&p.to), p.wanted.size, p.wanted.count ? "" : ", until it is stopped");
    fflush(stdout);
    int64_t begin = now_micros();
    run(&p);
    print_statistics(&p, now_micros() - begin);
    must("free", iface_free(&p.host));
    return p.received != p.sent || p.sent == 0;
}
