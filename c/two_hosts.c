/* Two hosts in one process, whose frames go from one to the other: datagrams are echoed over both families, and sockets
 * take turns however few frames are asked for. Prints what a round trip costs. */
#define _POSIX_C_SOURCE 199309L
#include "iface.h"

#include <stdio.h>
#include <string.h>
#include <time.h>

static uint8_t frame[IFACE_FRAME_ROOM], reply[IFACE_FRAME_ROOM], sent[4068], got[4096];

static int64_t now; /* in microseconds */

static int failures;

static void must(const char *what, uint32_t code) {
    if (code == IFACE_OK) return;
    printf("WRONG: %s: code %u\n", what, code);
    failures++;
}

static void make(iface *host, uint8_t last, uint16_t port, uint32_t *socket) {
    struct iface_config config;
    struct iface_address v4 = {4, {192, 168, 69, last}}, v6 = {6, {[0] = 0xfe, [1] = 0x80, [15] = last}};
    struct iface_endpoint local = {{0, {0}}, port};
    iface_config_init(&config);
    config.seed = last, config.sockets = 4, config.hardware_address[0] = 2, config.hardware_address[5] = last;
    must("host", iface_new(host, &config));
    must("address", iface_add_address(host, &v4, 24));
    must("address", iface_add_address(host, &v6, 64));
    must("socket", iface_udp_open(host, &local, &(struct iface_rooms)IFACE_ROOMS(8, 16384), socket));
}

/* Hands over what one host sends to the other, and what goes in response, until both have nothing. */
static long exchange(iface *one, iface *other) {
    long frames = 0;
    size_t n, m;
    for (must("next", iface_next(one, now, frame, sizeof frame, &n)); n > 0; must("next", iface_next(one, now, frame, sizeof frame, &n))) {
        frames++;
        must("receive", iface_receive(other, now, frame, n, reply, sizeof reply, &m));
        if (m > 0) frames++, must("receive", iface_receive(one, now, reply, m, frame, sizeof frame, &n));
    }
    return frames;
}

/* Sends a datagram from a to b, which echoes it. Whether it came back as it was. */
static int echoes(iface *a, uint32_t at_a, iface *b, uint32_t at_b, const struct iface_endpoint *to, size_t length, long *frames) {
    struct iface_endpoint from;
    size_t n = 0;
    must("send", iface_udp_send(a, at_a, to, sent, length));
    for (int turn = 0; turn < 3; turn++) {
        *frames += exchange(a, b) + exchange(b, a);
        if (iface_udp_receive(b, at_b, &from, got, sizeof got, &n) == IFACE_OK) must("echo", iface_udp_send(b, at_b, &from, got, n));
        if (iface_udp_receive(a, at_a, &from, got, sizeof got, &n) == IFACE_OK) return n == length && memcmp(sent, got, n) == 0;
    }
    return 0;
}

static void round_trips(iface *a, uint32_t at_a, iface *b, uint32_t at_b, const struct iface_endpoint *to, size_t length, long rounds) {
    struct timespec start, end;
    long equal = 0, frames = 0;
    now += 2000000; /* so that a neighbour may be asked for */
    clock_gettime(CLOCK_MONOTONIC, &start);
    for (long i = 0; i < rounds; i++, now++) {
        memset(sent, (int)i, length);
        equal += echoes(a, at_a, b, at_b, to, length, &frames);
    }
    clock_gettime(CLOCK_MONOTONIC, &end);
    double spent = (double)(end.tv_sec - start.tv_sec) + (double)(end.tv_nsec - start.tv_nsec) * 1e-9;
    printf("IPv%u, %zu octets: %ld of %ld echoed equal, %ld frames, %.0f ns a round trip\n", to->address.version, length, equal, rounds,
           frames, spent / (double)rounds * 1e9);
    failures += equal != rounds;
}

/* Three sockets with two datagrams each: asked for one frame at a time, they take turns. */
static void takes_turns(iface *a, uint32_t first, const struct iface_endpoint *to) {
    static const uint8_t wanted[] = {1, 2, 3, 1, 2, 3};
    uint32_t sockets[3] = {first};
    uint8_t order[8] = {0};
    size_t n, count = 0;
    for (uint16_t i = 1; i < 3; i++) {
        struct iface_endpoint local = {{0, {0}}, (uint16_t)(3000 + i)};
        must("socket", iface_udp_open(a, &local, &(struct iface_rooms)IFACE_ROOMS(8, 1024), &sockets[i]));
    }
    for (uint8_t k = 0; k < 2; k++)
        for (uint8_t i = 0; i < 3; i++) {
            uint8_t payload = (uint8_t)(i + 1);
            must("send", iface_udp_send(a, sockets[i], to, &payload, 1));
        }
    for (must("next", iface_next(a, now, frame, sizeof frame, &n)); n > 0 && count < 8; must("next", iface_next(a, now, frame, sizeof frame, &n)))
        order[count++] = frame[42]; /* behind the headers of Ethernet, IPv4 and UDP */
    if (count != 6 || memcmp(order, wanted, 6) != 0) {
        printf("WRONG: of %zu frames the order is", count);
        for (size_t i = 0; i < count; i++) printf(" %u", order[i]);
        printf("\n");
        failures++;
    }
    must("close", iface_close(a, sockets[1]));
    must("close", iface_close(a, sockets[2]));
}

int main(int argc, char **argv) {
    long rounds = argc > 1 && strcmp(argv[1], "--short") == 0 ? 2000 : 200000;
    iface a = IFACE_NONE, b = IFACE_NONE;
    uint32_t at_a, at_b;
    struct iface_endpoint v4 = {{4, {192, 168, 69, 2}}, 2000}, v6 = {{6, {[0] = 0xfe, [1] = 0x80, [15] = 2}}, 2000};
    int64_t at;
    make(&a, 1, 1000, &at_a);
    make(&b, 2, 2000, &at_b);
    round_trips(&a, at_a, &b, at_b, &v4, 64, rounds);
    round_trips(&a, at_a, &b, at_b, &v4, 1472, rounds);
    round_trips(&a, at_a, &b, at_b, &v6, 64, rounds);
    round_trips(&a, at_a, &b, at_b, &v6, 1452, rounds);
    round_trips(&a, at_a, &b, at_b, &v4, 4068, rounds / 100); /* in pieces */
    takes_turns(&a, at_a, &v4);
    must("poll_at", iface_poll_at(&a, now, &at));
    if (at != IFACE_NEVER) printf("WRONG: something is due after all\n"), failures++;
    must("free", iface_free(&a));
    must("free", iface_free(&b));
    return failures != 0;
}
