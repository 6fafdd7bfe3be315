/* What the services over connections of TCP share: a host at 192.168.69.7/24, fd69::7/64 and fe80::7/64 on a TAP device of Linux,
 * which listens at a port, and the loop that calls a service for each of its connections. */
#ifndef EXAMPLES_SERVICE_H
#define EXAMPLES_SERVICE_H

#include "streams.h"

#include <signal.h>

enum { PLACES = 256, ROOM = 65535 };

static volatile sig_atomic_t is_over;

static void on_signal(int number) {
    (void)number;
    is_over = 1;
}

/* Makes a host, and connections for it. */
static inline void make_host(iface *host, iface_streams *tcp) {
    static const char *const own[] = {"192.168.69.7", "fd69::7", "fe80::7"};
    struct iface_config config;
    iface_config_init(&config);
    config.seed = (uint64_t)now_micros(), config.hardware_address[0] = 2, config.hardware_address[5] = 7;
    must("host", iface_new(host, &config));
    for (size_t i = 0; i < 3; i++) {
        struct iface_address a = address_of(own[i]);
        must(own[i], iface_add_address(host, &a, a.version == 6 ? 64 : 24));
    }
    make_streams(tcp, host, PLACES, ROOM);
}

/* Prints where a service listens. */
static inline void tell_ends(iface *host, uint16_t port) {
    struct iface_address own;
    uint8_t bits;
    printf("listening at port %u of", port);
    for (uint32_t i = 0; iface_address_at(host, i, &own, &bits) == IFACE_OK; i++) printf("%s %s", i ? "," : "", text_of(&own));
    printf("\n");
    fflush(stdout);
}

/* Calls a service for each connection, until it says that one is over: then that is released. */
static inline void serve_all(iface_streams *tcp, size_t listener, int (*serve)(iface_streams *, const struct iface_stream *)) {
    static struct iface_stream open[PLACES];
    static size_t count;
    while (count < PLACES && iface_stream_accept(tcp, listener, &open[count]) == IFACE_OK) count++;
    for (size_t i = count; i-- > 0;) {
        if (serve(tcp, &open[i])) continue;
        must("release", iface_stream_release(tcp, &open[i]));
        open[i] = open[--count];
    }
}

/* A service at a port, on a device, for so many seconds. */
static inline int run_service(int argc, char **argv, uint16_t port, int (*serve)(iface_streams *, const struct iface_stream *)) {
    struct iface_endpoint local = {IFACE_ANY, port};
    iface host = IFACE_NONE;
    iface_streams tcp = IFACE_STREAMS_NONE;
    size_t listener;
    if (argc != 3) {
        fprintf(stderr, "usage: %s DEVICE SECONDS\n", argv[0]);
        return 2;
    }
    unsigned seconds = (unsigned)number_of(argv[2], 1, 1e9);
    int tap = open_tap(argv[1]);
    make_host(&host, &tcp);
    must("listen", iface_stream_listen(&tcp, &local, PLACES, &listener));
    tell_ends(&host, port);
    signal(SIGTERM, on_signal), signal(SIGINT, on_signal), signal(SIGALRM, on_signal);
    alarm(seconds);
    while (!is_over) {
        serve_all(&tcp, listener, serve);
        take_turn(&host, &tcp, tap, IFACE_NEVER);
    }
    must("free", iface_streams_free(&tcp, &host)), must("free", iface_free(&host));
    return 0;
}

#endif
