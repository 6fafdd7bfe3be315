/* A UDP service that takes its IPv6 addresses from routers (RFC 4862), on a TAP device of Linux. It prints each
 * address that it has, sends back each datagram that comes to its port 7, and sleeps until a frame comes or something
 * is due.
 *
 *   slaac_echo DEVICE SECONDS
 *
 * It solicits routers from its link-local address, which the program makes of the hardware address.
 */
#include "tap.h"

enum { PORT = 7, QUEUE_PACKETS = 16, QUEUE_OCTETS = 16384, SECOND = 1000000 };
static const struct iface_rooms rooms = IFACE_ROOMS(QUEUE_PACKETS, QUEUE_OCTETS);

/* Prints the addresses that weren't printed yet. */
static void tell_addresses(iface *host) {
    static struct iface_address told[4];
    struct iface_address a;
    uint8_t prefix_len;
    for (uint32_t i = 0; i < 4 && iface_address_at(host, i, &a, &prefix_len) == IFACE_OK; i++) {
        if (memcmp(&told[i], &a, sizeof a) == 0) continue;
        told[i] = a;
        printf("%s/%u\n", text_of(&a), prefix_len);
        fflush(stdout);
    }
}

/* Sends back each datagram that came, and tells of one that isn't sent, as when its queue is full. */
static void echo(iface *host, uint32_t socket) {
    static uint8_t payload[QUEUE_OCTETS];
    struct iface_endpoint remote;
    size_t length;
    while (iface_udp_receive(host, socket, &remote, payload, sizeof payload, &length) == IFACE_OK) {
        uint32_t code = iface_udp_send(host, socket, &remote, payload, length);
        if (code != IFACE_OK)
            fprintf(stderr, "slaac_echo: to %s: %s\n", text_of(&remote.address), iface_strerror(code));
    }
}

/* Tells of a datagram that was given up, since its neighbour didn't answer. */
static void tell_given_up(iface *host, uint32_t socket) {
    struct iface_address a;
    if (iface_given_up(host, socket, &a) == IFACE_OK) fprintf(stderr, "slaac_echo: %s doesn't answer\n", text_of(&a));
}

int main(int argc, char **argv) {
    if (argc != 3) {
        fprintf(stderr, "usage: slaac_echo DEVICE SECONDS\n");
        return 2;
    }
    int64_t at, end = now_micros() + (int64_t)number_of(argv[2], 1, 1e9) * SECOND;
    int tap = open_tap(argv[1]);
    iface host = IFACE_NONE;
    struct iface_config config;
    struct iface_endpoint any = {.port = PORT};
    uint32_t socket;
    iface_config_init(&config);
    config.seed = (uint64_t)now_micros(), config.slaac = 1;
    config.hardware_address[0] = 2, config.hardware_address[5] = 3;
    struct iface_address link_local = link_local_of(config.hardware_address);
    must("host", iface_new(&host, &config));
    must("address", iface_add_address(&host, &link_local, 64));
    must("socket", iface_udp_open(&host, &any, &rooms, &socket));
    while (now_micros() < end) {
        send_all(&host, tap, &at);
        tell_addresses(&host);
        tell_given_up(&host, socket);
        sleep_until(tap, at < end ? at : end);
        if (take_frame(&host, tap)) echo(&host, socket);
    }
    must("free", iface_free(&host));
    return 0;
}
