/* Two hosts in one program: one sends a datagram, and the other prints it. It needs no device and no rights.
 *
 *   first
 */
#include "iface.h"

#include <stdio.h>

static const struct iface_rooms rooms = IFACE_ROOMS(4, 2048); /* a queue holds 4 packets, of 2,048 octets together */

/* Makes a host at 10.0.0.`last`, with a UDP socket at port 6969. */
static uint32_t make(iface *host, uint8_t last, uint32_t *socket) {
    struct iface_config config;
    struct iface_address own = {4, {10, 0, 0, last}};
    struct iface_endpoint port = {.port = 6969}; /* of any own address */
    iface_config_init(&config);
    config.seed = last, config.hardware_address[0] = 2, config.hardware_address[5] = last;
    uint32_t code = iface_new(host, &config);
    if (code == IFACE_OK) code = iface_add_address(host, &own, 24);
    if (code == IFACE_OK) code = iface_udp_open(host, &port, &rooms, socket);
    return code;
}

/* Hands each frame that one host sends to the other one, and the response back. A program with a device has it in their place. */
static void exchange(iface *from, iface *to, int64_t now) {
    uint8_t frame[IFACE_FRAME_ROOM], response[IFACE_FRAME_ROOM];
    size_t length, n;
    while (iface_next(from, now, frame, sizeof frame, &length) == IFACE_OK && length > 0)
        if (iface_receive(to, now, frame, length, response, sizeof response, &n) == IFACE_OK && n > 0)
            iface_receive(from, now, response, n, frame, sizeof frame, &length);
}

int main(void) {
    iface a = IFACE_NONE, b = IFACE_NONE;
    struct iface_endpoint to = {{4, {10, 0, 0, 2}}, 6969}, from;
    uint32_t at_a = 0, at_b = 0, code = make(&a, 1, &at_a);
    uint8_t came[2048];
    size_t length = 0;
    if (code == IFACE_OK) code = make(&b, 2, &at_b);
    if (code == IFACE_OK) code = iface_udp_send(&a, at_a, &to, (const uint8_t *)"hello", 5);
    for (int64_t now = 0; code == IFACE_OK && length == 0 && now != IFACE_NEVER;) {
        exchange(&a, &b, now), exchange(&b, &a, now);
        code = iface_udp_receive(&b, at_b, &from, came, sizeof came, &length);
        if (code == IFACE_EMPTY) code = iface_poll_at(&a, now, &now); /* a program with a clock sleeps until then */
    }
    if (code == IFACE_OK) printf("from 10.0.0.%u: %.*s\n", from.address.octets[3], (int)length, (const char *)came);
    else fprintf(stderr, "first: %s\n", iface_strerror(code));
    iface_free(&a), iface_free(&b);
    return code != IFACE_OK;
}
