/* Groups (RFC 1112, RFC 4291 2.7), by two hosts in one process: one sends a datagram to a group of either family, and
 * the other gets it while it is in the group. It fails if that isn't so.
 *
 *   groups
 */
#include "iface.h"

#include <stdio.h>
#include <stdlib.h>
#include <string.h>

enum { PORT = 6969, QUEUE_PACKETS = 8, QUEUE_OCTETS = 8192 };
static const struct iface_rooms rooms = IFACE_ROOMS(QUEUE_PACKETS, QUEUE_OCTETS);

static int64_t now; /* in microseconds */

static void must(const char *what, uint32_t code) {
    if (code == IFACE_OK) return;
    fprintf(stderr, "groups: %s: %s\n", what, iface_strerror(code));
    exit(1);
}

/* A host at 192.168.69.`last` and fe80::`last`, with a socket at the port. */
static uint32_t make(iface *host, uint8_t last) {
    struct iface_address v4 = {4, {192, 168, 69, last}}, v6 = {6, {0xfe, 0x80, [15] = last}};
    struct iface_endpoint any = {.port = PORT};
    struct iface_config config;
    uint32_t socket = 0;
    iface_config_init(&config);
    config.seed = last, config.hardware_address[0] = 2, config.hardware_address[5] = last;
    must("host", iface_new(host, &config));
    must("address", iface_add_address(host, &v4, 24));
    must("address", iface_add_address(host, &v6, 64));
    must("socket", iface_udp_open(host, &any, &rooms, &socket));
    return socket;
}

/* Hands over all that a host has to send, reports of groups among it. */
static void hand_over(iface *from, iface *to) {
    static uint8_t frame[IFACE_FRAME_ROOM], out[IFACE_FRAME_ROOM];
    size_t length, response;
    for (must("next", iface_next(from, now, frame, sizeof frame, &length)); length > 0;
         must("next", iface_next(from, now, frame, sizeof frame, &length)))
        must("receive", iface_receive(to, now, frame, length, out, sizeof out, &response));
}

/* Sends a datagram to a group. Whether the other host gets it. */
static int comes(iface *a, uint32_t at_a, iface *b, uint32_t at_b, const struct iface_address *group) {
    struct iface_endpoint to = {*group, PORT}, from;
    uint8_t got[QUEUE_OCTETS];
    size_t length = 0;
    must("send", iface_udp_send(a, at_a, &to, (const uint8_t *)"hello", 5));
    hand_over(a, b);
    return iface_udp_receive(b, at_b, &from, got, sizeof got, &length) == IFACE_OK && length == 5
        && memcmp(got, "hello", 5) == 0;
}

int main(void) {
    static const struct iface_address groups[] = {{4, {239, 69, 69, 69}}, {6, {0xff, 0x15, [15] = 0x69}}};
    iface a = IFACE_NONE, b = IFACE_NONE;
    uint32_t at_a = make(&a, 1), at_b = make(&b, 2);
    int is_wrong = 0;
    for (int i = 0; i < 2; i++, now += 1000000) {
        int before = comes(&a, at_a, &b, at_b, &groups[i]);
        must("join", iface_join_group(&b, &groups[i]));
        hand_over(&b, &a);
        int during = comes(&a, at_a, &b, at_b, &groups[i]);
        must("leave", iface_leave_group(&b, &groups[i]));
        hand_over(&b, &a);
        int after = comes(&a, at_a, &b, at_b, &groups[i]);
        printf("IPv%u: before it joined %d, in the group %d, after it left %d datagrams came\n", groups[i].version,
               before, during, after);
        is_wrong |= before || !during || after;
    }
    must("free", iface_free(&a));
    must("free", iface_free(&b));
    return is_wrong;
}
