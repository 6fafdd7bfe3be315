/* A host that sends back each datagram that comes to its port 7, over a link of standard input and output: a frame is a
 * line of hex. It is at 192.168.69.1/24, answers ARP and ping, sleeps until a frame comes or something is due, and ends
 * with its input. A datagram to a neighbour that doesn't answer is given up after three seconds, and told of.
 *
 *   udp_echo < ../crates/udp_echo/stdin
 */
#define _POSIX_C_SOURCE 200809L
#include "iface.h"

#include <poll.h>
#include <stdio.h>
#include <time.h>
#include <unistd.h>

enum { PORT = 7, QUEUE_PACKETS = 16, QUEUE_OCTETS = 16384 };
static const struct iface_rooms rooms = IFACE_ROOMS(QUEUE_PACKETS, QUEUE_OCTETS);

static uint8_t frame[IFACE_FRAME_ROOM], out[IFACE_FRAME_ROOM], payload[QUEUE_OCTETS];

/* The clock. */
static int64_t now_micros(void) {
    struct timespec t;
    clock_gettime(CLOCK_MONOTONIC, &t);
    return (int64_t)t.tv_sec * 1000000 + t.tv_nsec / 1000;
}

/* The link: sends a frame. */
static void send_on_the_link(const uint8_t *octets, size_t length) {
    for (size_t i = 0; i < length; i++) printf("%02x", octets[i]);
    if (length > 0) putchar('\n');
    fflush(stdout);
}

/* How long it is until an instant, in milliseconds, at most an hour: -1 if there is none. */
static int millis_until(int64_t at) {
    int64_t rest = at - now_micros();
    if (at == IFACE_NEVER) return -1;
    return rest <= 0 ? 0 : rest < 3600000000 ? (int)((rest + 999) / 1000) : 3600000;
}

/* The link: waits for a frame until an instant, and tells how many octets came: 0 if none did, -1 if none comes any more. */
static int wait_for_a_frame(int64_t at) {
    static char line[2 * sizeof frame + 2];
    struct pollfd input = {.fd = STDIN_FILENO, .events = POLLIN};
    int length = 0;
    if (poll(&input, 1, millis_until(at)) <= 0) return 0;
    if (!fgets(line, sizeof line, stdin)) return -1;
    while (length < IFACE_FRAME_ROOM && sscanf(&line[2 * length], "%2hhx", &frame[length]) == 1) length++;
    return length;
}

/* Sends back each datagram that came, if there is room for it. */
static void echo(iface *host, uint32_t socket) {
    struct iface_endpoint remote;
    size_t length;
    while (iface_udp_receive(host, socket, &remote, payload, sizeof payload, &length) == IFACE_OK) {
        uint32_t code = iface_udp_send(host, socket, &remote, payload, length);
        if (code != IFACE_OK) fprintf(stderr, "udp_echo: dropped: %s\n", iface_strerror(code));
    }
}

/* Tells of a datagram whose neighbour didn't answer. */
static void tell_given_up(iface *host, uint32_t socket) {
    struct iface_address a;
    if (iface_given_up(host, socket, &a) == IFACE_OK && a.version == 4)
        fprintf(stderr, "udp_echo: %u.%u.%u.%u doesn't answer\n", a.octets[0], a.octets[1], a.octets[2], a.octets[3]);
}

int main(void) {
    iface host = IFACE_NONE;
    struct iface_config config;
    iface_config_init(&config);
    config.seed = (uint64_t)now_micros(), config.hardware_address[0] = 2, config.hardware_address[5] = 1;
    struct iface_address own = {4, {192, 168, 69, 1}};
    struct iface_endpoint any = {.port = PORT};
    uint32_t socket;
    setvbuf(stdin, NULL, _IONBF, 0); /* so that no line waits where poll doesn't see it */
    if (iface_version() != IFACE_VERSION || iface_new(&host, &config) || iface_add_address(&host, &own, 24)
        || iface_udp_open(&host, &any, &rooms, &socket)) return 1;
    for (;;) {
        size_t n = 0;
        int64_t now = now_micros(), at = now;
        do {                             /* what is to be sent */
            if (iface_next(&host, now, out, sizeof out, &n) != IFACE_OK) break;
            send_on_the_link(out, n);
        } while (n > 0);
        tell_given_up(&host, socket);
        iface_poll_at(&host, now, &at);  /* sleep until something is due, or a frame comes */
        int got = wait_for_a_frame(at);
        if (got < 0) return iface_free(&host) != IFACE_OK;
        if (got == 0) continue;
        if (iface_receive(&host, now_micros(), frame, (size_t)got, out, sizeof out, &n) != IFACE_OK) continue;
        send_on_the_link(out, n);
        echo(&host, socket);
    }
}
