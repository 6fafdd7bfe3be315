/* Has a host do one thing over and over, so that its instructions can be counted:
 *
 *   bench WORK ROUNDS [SOCKETS [GUARD]]   WORK: arp, echo, deliver (and read), back (delivered, read and sent back), send, next
 *                                    (nothing to send), waiting (the same while each socket waits for a neighbour), poll_at,
 *                                    until (poll_at while each socket waits)
 *
 * The socket of the work is the last of SOCKETS, 1 if not given. GUARD is 1 if not given, and 0 turns the guard off; echo
 * replies have no rate here.
 * valgrind --tool=callgrind counts them; the difference of two runs, divided by the rounds between them, is a call's.
 */
#include "iface.h"

#include <stdio.h>
#include <stdlib.h>
#include <string.h>

enum { DATA = 56, PAYLOAD = 64 };

static const uint8_t ETHERNET[] = {2, 0, 0, 0, 0, 1, 2, 0, 0, 0, 0, 2, 8, 0};

static uint8_t frame[IFACE_FRAME_ROOM], out[IFACE_FRAME_ROOM], payload[2048];

static void must(const char *what, uint32_t code) {
    if (code == IFACE_OK) return;
    printf("%s: code %u\n", what, code);
    exit(1);
}

static void sum_into(uint8_t *place, const uint8_t *octets, size_t length) {
    uint32_t sum = 0;
    for (size_t i = 0; i + 1 < length; i += 2) sum += (uint32_t)(octets[i] << 8 | octets[i + 1]);
    if (length % 2) sum += (uint32_t)octets[length - 1] << 8;
    while (sum >> 16) sum = (sum & 0xffff) + (sum >> 16);
    place[0] = (uint8_t)(~sum >> 8), place[1] = (uint8_t)~sum;
}

/* A packet of IPv4 from 192.168.69.100 to 192.168.69.1 with this protocol, and room for its payload. */
static size_t ipv4(uint8_t protocol, size_t length) {
    static const uint8_t addresses[] = {192, 168, 69, 100, 192, 168, 69, 1};
    uint8_t *p = frame + 14;
    memset(frame, 0, sizeof frame);
    memcpy(frame, ETHERNET, 14);
    p[0] = 0x45, p[2] = (uint8_t)((20 + length) >> 8), p[3] = (uint8_t)(20 + length), p[8] = 64, p[9] = protocol;
    memcpy(p + 12, addresses, 8);
    sum_into(p + 10, p, 20);
    return 34 + length;
}

static size_t echo_request(void) {
    size_t length = ipv4(1, 8 + DATA);
    frame[34] = 8, frame[39] = 7, frame[41] = 1;
    sum_into(frame + 36, frame + 34, 8 + DATA);
    return length;
}

/* A datagram of 64 octets from port 5000 to port 4000, with its checksum over the pseudo-header of RFC 768. */
static size_t datagram(void) {
    size_t length = ipv4(17, 8 + PAYLOAD);
    uint8_t summed[12 + 8 + PAYLOAD] = {[9] = 17, [11] = 8 + PAYLOAD};
    frame[34] = 0x13, frame[35] = 0x88, frame[36] = 0x0f, frame[37] = 0xa0, frame[39] = 8 + PAYLOAD;
    memcpy(summed, frame + 26, 8);
    memcpy(summed + 12, frame + 34, 8 + PAYLOAD);
    sum_into(frame + 40, summed, sizeof summed);
    return length;
}

static size_t arp_request(void) {
    static const uint8_t request[] = {0xff, 0xff, 0xff, 0xff, 0xff, 0xff, 2, 0, 0, 0, 0, 2, 8, 6, 0, 1, 8, 0, 6, 4, 0, 1, 2, 0, 0, 0, 0, 2,
                                      192,  168,  69,   100,  0,    0,    0, 0, 0, 0, 192, 168, 69, 1};
    memcpy(frame, request, sizeof request);
    return sizeof request;
}

/* Has each of so many sockets wait for a neighbour that isn't there. */
static void wait_all(iface *host, const uint32_t *sockets, long count) {
    struct iface_endpoint absent = {{4, {192, 168, 69, 200}}, 5000};
    size_t n = 1;
    for (long i = 0; i < count; i++) must("send", iface_udp_send(host, sockets[i], &absent, payload, PAYLOAD));
    while (n > 0) must("next", iface_next(host, 0, out, sizeof out, &n));
}

int main(int argc, char **argv) {
    static uint32_t sockets[4096];
    if (argc < 3 || argc > 5) return 2;
    long rounds = atol(argv[2]), count = argc > 3 ? atol(argv[3]) : 1, octets = 0;
    if (count < 1 || count > 4096) return 2;
    iface host = IFACE_NONE;
    struct iface_config config;
    iface_config_init(&config);
    config.guard.on = argc < 5 || atol(argv[4]) != 0, config.guard.echo_requests.interval = 0;
    config.seed = 1, config.sockets = (uint32_t)count, config.hardware_address[0] = 2, config.hardware_address[5] = 1;
    struct iface_address own = {4, {192, 168, 69, 1}};
    struct iface_endpoint local = {{0, {0}}, 4000}, remote = {{4, {192, 168, 69, 100}}, 5000}, from;
    uint32_t socket;
    size_t n, length = arp_request();
    int64_t at;
    must("host", iface_new(&host, &config));
    must("address", iface_add_address(&host, &own, 24));
    for (long i = 0; i < count; i++) {
        local.port = (uint16_t)(4000 + count - 1 - i);
        must("socket", iface_udp_open(&host, &local, &(struct iface_rooms)IFACE_ROOMS(4, 8192), &sockets[i]));
    }
    socket = sockets[count - 1];
    must("receive", iface_receive(&host, 0, frame, length, out, sizeof out, &n));
    must("next", iface_next(&host, 0, out, sizeof out, &n)); /* as any program asks, once before all */
    char work = argv[1][0]; /* arp, echo, deliver, back, send, next, waiting, poll_at, until */
    if (work == 'w' || work == 'u') wait_all(&host, sockets, count);
    if (work == 'e') length = echo_request();
    if (work == 'd' || work == 'b') length = datagram();
    for (long i = 0; i < rounds; i++) {
        if (work == 's') {
            must("send", iface_udp_send(&host, socket, &remote, payload, 1400));
            must("next", iface_next(&host, 0, out, sizeof out, &n));
            octets += (long)n;
        } else if (work == 'n' || work == 'w') {
            must("next", iface_next(&host, 0, out, sizeof out, &n));
            octets += (long)n;
        } else if (work == 'p' || work == 'u') {
            must("poll_at", iface_poll_at(&host, 0, &at));
            octets += at == IFACE_NEVER;
        } else {
            must("receive", iface_receive(&host, 0, frame, length, out, sizeof out, &n));
            octets += (long)n;
            if (work == 'd' || work == 'b') {
                must("read", iface_udp_receive(&host, socket, &from, payload, sizeof payload, &n));
                octets += (long)n;
            }
            if (work == 'b') {
                must("send", iface_udp_send(&host, socket, &from, payload, n));
                must("next", iface_next(&host, 0, out, sizeof out, &n));
                octets += (long)n;
            }
        }
    }
    printf("%s: %ld octets in %ld rounds\n", argv[1], octets, rounds);
    must("free", iface_free(&host));
    return 0;
}
