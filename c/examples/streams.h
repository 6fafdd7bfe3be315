/* What programs with connections of TCP on a TAP device of Linux share: making connections, sending what they have to send, and
 * sleeping until there is more to do. */
#ifndef EXAMPLES_STREAMS_H
#define EXAMPLES_STREAMS_H

#include "tap.h"

#include <sys/random.h>

/* Random octets. */
static inline void draw(void *octets, size_t length) {
    if (getrandom(octets, length, 0) != (ssize_t)length) must("random octets", IFACE_NO_ROOM);
}

/* Makes connections for a host: at most so many, each with this room for what is sent and for what comes. */
static inline void make_streams(iface_streams *tcp, iface *host, uint32_t places, uint32_t room) {
    struct iface_streams_config config;
    iface_streams_config_init(&config);
    config.places = places, config.send_room = config.receive_room = room;
    config.packets = 64, config.packet_octets = 64 * 1500;
    draw(config.number_key, sizeof config.number_key), draw(config.table_key, sizeof config.table_key);
    must("connections", iface_streams_new(tcp, host, &config));
}

/* Lets the connections do what is due, and sends all frames: again, as long as there is room for more then. Writes when something
 * is due next. */
static inline void exchange(iface *host, iface_streams *tcp, int tap, int64_t *at) {
    int64_t due;
    do must("poll", iface_streams_poll(tcp, host, now_micros()));
    while (send_all(host, tap, at));
    must("due", iface_streams_poll_at(tcp, &due));
    if (due < *at) *at = due;
}

/* When the host or a connection has something to do, or the program just gave them something. */
static inline int64_t due_at(iface *host, iface_streams *tcp) {
    int64_t at, due;
    must("due", iface_poll_at(host, now_micros(), &at));
    must("due", iface_streams_poll_at(tcp, &due));
    return due < at ? due : at;
}

/* Sleeps until something is due, or that instant, or a frame comes; then does what is due, and takes the frames. It sleeps first, since
 * what it does may end a connection, and the program has to see that before it sleeps again. */
static inline void take_turn(iface *host, iface_streams *tcp, int tap, int64_t instant) {
    int64_t at = due_at(host, tcp);
    sleep_until(tap, at < instant ? at : instant);
    exchange(host, tcp, tap, &at);
    for (int burst = 0; burst < 64 && take_frame(host, tap); burst++) exchange(host, tcp, tap, &at);
}

#endif
