/* A service of UDP: it sends back what comes to port 7. */
#include "host.h"

enum { MEMORY = 34 * 1024, LONGEST = 512 };

static uint64_t memory[MEMORY / sizeof(uint64_t)];
static iface host = IFACE_NONE;
static uint32_t service;

static void echo(void) {
    static uint8_t octets[LONGEST];
    struct iface_endpoint from;
    uint64_t length;
    while (iface_udp_receive(&host, service, &from, octets, sizeof octets, &length) == IFACE_OK)
        (void)iface_udp_send(&host, service, &from, octets, length); /* where there is no room, it is lost */
}

static int64_t take_turn(void) {
    echo();
    return send_all(&host);
}

int main(void) {
    const struct iface_endpoint local = {IFACE_ANY, 7};
    const struct iface_rooms rooms = IFACE_ROOMS(2, LONGEST);
    make_host(&host, 1, memory, sizeof memory);
    add_address(&host);
    must("service", iface_udp_open(&host, &local, &rooms, &service));
    say("started: ", iface_build());
    for (;;) {
        int64_t at = take_turn();
        tell_memory();
        if (!take_frame(&host)) board_sleep(at);
    }
}
