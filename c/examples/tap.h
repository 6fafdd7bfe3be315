/* What the examples on a TAP device of Linux share: the device, the clock, and sleeping until a frame comes or an
 * instant. */
#ifndef EXAMPLES_TAP_H
#define EXAMPLES_TAP_H

#ifndef _GNU_SOURCE
#define _GNU_SOURCE
#endif
#include "iface.h"

#include <arpa/inet.h>
#include <errno.h>
#include <fcntl.h>
#include <linux/if.h>
#include <linux/if_tun.h>
#include <poll.h>
#include <stdio.h>
#include <stdlib.h>
#include <string.h>
#include <sys/ioctl.h>
#include <sys/socket.h>
#include <time.h>
#include <unistd.h>

/* Ends the program where a call was refused. */
static inline void must(const char *what, uint32_t code) {
    if (code == IFACE_OK) return;
    fprintf(stderr, "%s: %s\n", what, iface_strerror(code));
    exit(1);
}

/* The clock, in microseconds. */
static inline int64_t now_micros(void) {
    struct timespec t;
    clock_gettime(CLOCK_MONOTONIC, &t);
    return (int64_t)t.tv_sec * 1000000 + t.tv_nsec / 1000;
}

/* An address by its text. */
static inline struct iface_address address_of(const char *text) {
    struct iface_address a = {.version = strchr(text, ':') ? 6 : 4};
    if (inet_pton(a.version == 6 ? AF_INET6 : AF_INET, text, a.octets) != 1) must(text, IFACE_BAD_ADDRESS);
    return a;
}

/* An address with its network by its text, as 192.168.69.1/24. */
static inline struct iface_cidr cidr_of(const char *text) {
    char address[INET6_ADDRSTRLEN] = "", *end = NULL;
    size_t length = strcspn(text, "/");
    unsigned long bits = text[length] ? strtoul(text + length + 1, &end, 10) : 0;
    if (length >= sizeof address || !end || *end || end == text + length + 1) must(text, IFACE_BAD_ADDRESS);
    struct iface_cidr c = {.address = address_of(memcpy(address, text, length < sizeof address ? length : 0))};
    if (bits > (c.address.version == 6 ? 128 : 32)) must(text, IFACE_BAD_ARGUMENT);
    c.prefix_len = (uint8_t)bits;
    return c;
}

/* A number by its text, from one to another, or the program ends. */
static inline double number_of(const char *text, double least, double most) {
    char *end;
    double number = strtod(text, &end);
    if (end == text || *end || !(number >= least && number <= most)) {
        fprintf(stderr, "%s: not a number from %g to %g\n", text, least, most);
        exit(2);
    }
    return number;
}

/* The text of an address, until the next call. */
static inline const char *text_of(const struct iface_address *a) {
    static char text[INET6_ADDRSTRLEN];
    return inet_ntop(a->version == 6 ? AF_INET6 : AF_INET, a->octets, text, sizeof text);
}

/* The text of an address of Ethernet, until the next call. */
static inline const char *hardware_text(const uint8_t m[6]) {
    static char text[18];
    snprintf(text, sizeof text, "%02x:%02x:%02x:%02x:%02x:%02x", m[0], m[1], m[2], m[3], m[4], m[5]);
    return text;
}

/* The link-local address of a hardware address (RFC 4291 appendix A, RFC 4862 5.3). */
static inline struct iface_address link_local_of(const uint8_t m[6]) {
    struct iface_address a = {6, {0xfe, 0x80}};
    const uint8_t identifier[8] = {m[0] ^ 2, m[1], m[2], 0xff, 0xfe, m[3], m[4], m[5]};
    memcpy(a.octets + 8, identifier, sizeof identifier);
    return a;
}

/* Ends the program unless there is a device of this name: the system would make one of a name that is misspelt. */
static inline void need_device(const char *name) {
    struct ifreq asked;
    int any = socket(AF_INET, SOCK_DGRAM, 0);
    memset(&asked, 0, sizeof asked);
    strncpy(asked.ifr_name, name, IFNAMSIZ - 1);
    if (strlen(name) >= IFNAMSIZ || ioctl(any, SIOCGIFINDEX, &asked) < 0) {
        fprintf(stderr, "%s: no such device\n", name);
        exit(1);
    }
    close(any);
}

/* A TAP device, by its name: it exists, and is up. @3 is descriptor 3, at which relay.c gives a program its frames. */
static inline int open_tap(const char *name) {
    struct ifreq wanted;
    if (name[0] == '@') return (int)number_of(name + 1, 0, 1023);
    need_device(name);
    memset(&wanted, 0, sizeof wanted);
    wanted.ifr_flags = IFF_TAP | IFF_NO_PI;
    strncpy(wanted.ifr_name, name, IFNAMSIZ - 1);
    int tap = open("/dev/net/tun", O_RDWR | O_NONBLOCK | O_CLOEXEC);
    if (tap < 0 || ioctl(tap, TUNSETIFF, &wanted) < 0) {
        fprintf(stderr, "%s, as a TAP device of /dev/net/tun: %s\n", name, strerror(errno));
        exit(1);
    }
    return tap;
}

/* Waits until the system uses a device that was just opened, two seconds at most: before that, what it sends is lost. */
static inline void await_link(const char *name) {
    if (name[0] == '@') return;
    struct ifreq asked;
    int any = socket(AF_INET, SOCK_DGRAM, 0), is_running = 0;
    memset(&asked, 0, sizeof asked);
    strncpy(asked.ifr_name, name, IFNAMSIZ - 1);
    for (int i = 0; !is_running && i < 200; i++) {
        poll(NULL, 0, 10);
        is_running = ioctl(any, SIOCGIFFLAGS, &asked) == 0 && (asked.ifr_flags & IFF_RUNNING);
    }
    if (!is_running) fprintf(stderr, "%s isn't up\n", name);
    close(any);
}

/* Whether an address is in a network. */
static inline int is_in(const struct iface_address *a, const struct iface_address *network, uint8_t prefix_len) {
    size_t whole = prefix_len / 8;
    if (a->version != network->version || memcmp(a->octets, network->octets, whole) != 0) return 0;
    return prefix_len % 8 == 0 || (a->octets[whole] ^ network->octets[whole]) >> (8 - prefix_len % 8) == 0;
}

/* Whether a host knows where to send a packet for a destination: to a group or to all, into an own network, or by a route. */
static inline int knows_way(iface *host, const struct iface_address *to) {
    static const uint8_t all[4] = {255, 255, 255, 255};
    struct iface_address a, router;
    uint8_t bits;
    int64_t until, now = now_micros();
    if (to->version == 6 ? to->octets[0] == 0xff : to->octets[0] >> 4 == 14 || memcmp(to->octets, all, 4) == 0) return 1;
    for (uint32_t i = 0; iface_address_at(host, i, &a, &bits) == IFACE_OK; i++)
        if (is_in(to, &a, bits)) return 1;
    for (uint32_t i = 0; iface_route_at(host, i, &a, &bits, &router, &until) == IFACE_OK; i++)
        if (is_in(to, &a, bits) && until >= now) return 1;
    return 0;
}

/* Ends the program where a host doesn't: a packet for the destination would wait, and be given up, as one for a neighbour that
 * doesn't answer. */
static inline void need_way(iface *host, const struct iface_address *to) {
    if (knows_way(host, to)) return;
    fprintf(stderr, "%s: no route\n", text_of(to));
    exit(1);
}

/* Sends a frame: one that the device doesn't take is told of, and lost. */
static inline void send_frame(int tap, const uint8_t *frame, size_t length) {
    if (length > 0 && write(tap, frame, length) != (ssize_t)length) perror("write");
}

/* Sends all that a host has to send, and writes when it has to be asked again. How many frames it sent. */
static inline unsigned send_all(iface *host, int tap, int64_t *at) {
    static uint8_t out[IFACE_FRAME_ROOM];
    int64_t now = now_micros();
    size_t length;
    uint32_t code;
    unsigned frames = 0;
    for (; (code = iface_next(host, now, out, sizeof out, &length)) == IFACE_OK && length > 0; frames++)
        send_frame(tap, out, length);
    if (code == IFACE_OK) must("poll_at", iface_poll_at(host, now, at));
    else *at = now + 10000; /* no memory for a frame: again in a hundredth of a second */
    return frames;
}

/* Takes a frame, if there is one, and sends the response. Whether there was one. */
static inline int take_frame(iface *host, int tap) {
    static uint8_t frame[65536], out[IFACE_FRAME_ROOM];
    size_t length;
    ssize_t got = read(tap, frame, sizeof frame);
    if (got <= 0) return 0;
    must("receive", iface_receive(host, now_micros(), frame, (size_t)got, out, sizeof out, &length));
    send_frame(tap, out, length);
    return 1;
}

/* Sleeps until a frame comes, or an instant, or a signal. */
static inline void sleep_until(int tap, int64_t at) {
    struct pollfd wait = {.fd = tap, .events = POLLIN};
    int64_t rest = at - now_micros();
    int millis = at == IFACE_NEVER ? -1 : rest <= 0 ? 0 : rest < 3600000000 ? (int)((rest + 999) / 1000) : 3600000;
    poll(&wait, 1, millis);
}

#endif
