/* A host on a TAP device of Linux: it answers ARP, neighbour solicitations and ping over IPv4 and IPv6, echoes UDP on
 * port 6969, and is in the groups 239.69.69.69 and ff15::69.
 *
 *   tap_host DEVICE SECONDS      the device exists; it ends by itself after so many seconds, or by SIGTERM
 *
 * Its addresses are 192.168.69.1/24, fd69::1/64 and fe80::1/64. It sleeps until a frame comes or something is due.
 */
#include "tap.h"

#include <signal.h>

enum { ECHO_PORT = 6969, QUEUE_PACKETS = 64, QUEUE_OCTETS = 65536 };
static const struct iface_rooms rooms = IFACE_ROOMS(QUEUE_PACKETS, QUEUE_OCTETS);

static struct {
    unsigned long frames, datagrams, unsent, sleeps;
} counts;

static volatile sig_atomic_t is_over;

static void on_signal(int number) {
    (void)number;
    is_over = 1;
}

static void make_host(iface *host, uint32_t *socket) {
    static const char *const own[] = {"192.168.69.1", "fd69::1", "fe80::1"};
    static const char *const groups[] = {"239.69.69.69", "ff15::69"};
    struct iface_config config;
    struct iface_endpoint any = {.port = ECHO_PORT};
    iface_config_init(&config);
    config.seed = (uint64_t)now_micros(), config.hardware_address[0] = 2, config.hardware_address[5] = 1;
    must("host", iface_new(host, &config));
    for (size_t i = 0; i < 3; i++) {
        struct iface_address a = address_of(own[i]);
        must(own[i], iface_add_address(host, &a, a.version == 6 ? 64 : 24));
    }
    for (size_t i = 0; i < 2; i++) {
        struct iface_address group = address_of(groups[i]);
        must(groups[i], iface_join_group(host, &group));
    }
    struct iface_address gateway = address_of("192.168.69.100");
    must("route", iface_set_default_route(host, &gateway));
    must("socket", iface_udp_open(host, &any, &rooms, socket));
}

/* Sends back each datagram that came. */
static void echo(iface *host, uint32_t socket) {
    static uint8_t payload[QUEUE_OCTETS];
    struct iface_endpoint remote;
    size_t length;
    while (iface_udp_receive(host, socket, &remote, payload, sizeof payload, &length) == IFACE_OK) {
        counts.datagrams++;
        if (iface_udp_send(host, socket, &remote, payload, length) != IFACE_OK) counts.unsent++;
    }
}

int main(int argc, char **argv) {
    if (argc != 3) {
        fprintf(stderr, "usage: tap_host DEVICE SECONDS\n");
        return 2;
    }
    unsigned seconds = (unsigned)number_of(argv[2], 1, 1e9);
    int tap = open_tap(argv[1]);
    iface host = IFACE_NONE;
    uint32_t socket;
    make_host(&host, &socket);
    signal(SIGTERM, on_signal);
    signal(SIGINT, on_signal);
    signal(SIGALRM, on_signal);
    alarm(seconds);
    while (!is_over) {
        int64_t at;
        send_all(&host, tap, &at);
        sleep_until(tap, at);
        counts.sleeps++;
        /* After each frame what is to be sent: of a reply in pieces the others wait, and the next one replaces them. */
        for (int burst = 0; burst < 64 && take_frame(&host, tap); burst++) {
            counts.frames++;
            echo(&host, socket);
            send_all(&host, tap, &at);
        }
    }
    printf("tap_host: %lu frames, %lu datagrams, of which %lu found no room; slept %lu times\n", counts.frames,
           counts.datagrams, counts.unsent, counts.sleeps);
    must("free", iface_free(&host));
    return 0;
}
