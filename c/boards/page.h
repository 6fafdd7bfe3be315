/* A page at port 80, of a host that has four connections at most. */
#ifndef BOARDS_PAGE_H
#define BOARDS_PAGE_H

#include "host.h"

enum { CONNECTIONS = 4, ROOM = 536 };

static const char page[] = "HTTP/1.1 200 OK\r\nContent-Type: text/html; charset=utf-8\r\nContent-Length: 28\r\nConnection: close\r\n\r\n"
                           "<h1>Hello, connections!</h1>";

static iface_streams tcp = IFACE_STREAMS_NONE;
static uint64_t listener;

/* Connections of the least room: each holds a segment of 536 octets either way (RFC 9293, 3.7.1). */
static inline void make_connections(iface *host, uint32_t count) {
    struct iface_streams_config config;
    iface_streams_config_init(&config);
    board_draw(config.number_key, sizeof config.number_key), board_draw(config.table_key, sizeof config.table_key);
    config.places = count, config.send_room = ROOM, config.receive_room = ROOM;
    config.packets = 4, config.packet_octets = 1152, config.far_octets = 576, config.ipv6 = 0;
    config.time_wait = 2 * SECOND;
    must("connections", iface_streams_new(&tcp, host, &config));
}

static inline void listen_at_80(void) {
    const struct iface_endpoint local = {IFACE_ANY, 80};
    must("listener", iface_stream_listen(&tcp, &local, CONNECTIONS, &listener));
}

/* Sends the page once the empty line that ends a request came, and closes. Whether the connection goes on. */
static inline int serve(const struct iface_stream *s) {
    static uint8_t octets[ROOM];
    uint64_t came, sent;
    uint32_t state;
    must("peek", iface_stream_peek(&tcp, s, octets, sizeof octets, &came));
    must("state", iface_stream_state(&tcp, s, &state));
    if (state == IFACE_ESTABLISHED || state == IFACE_CLOSE_WAIT) {
        uint64_t end = 0, is_whole = came == sizeof octets;
        for (; !is_whole && end + 4 <= came; end++)
            is_whole = octets[end] == '\r' && octets[end + 1] == '\n' && octets[end + 2] == '\r' && octets[end + 3] == '\n';
        if (!is_whole) return state == IFACE_ESTABLISHED;
        must("send", iface_stream_send(&tcp, s, (const uint8_t *)page, sizeof page - 1, &sent));
        must("close", iface_stream_close(&tcp, s));
    }
    must("receive", iface_stream_receive(&tcp, s, octets, sizeof octets, &came));
    must("state", iface_stream_state(&tcp, s, &state));
    return state != IFACE_CLOSED && state < IFACE_CLOSE_WAIT;
}

static inline void serve_all(void) {
    static struct iface_stream open[CONNECTIONS];
    static int count;
    while (count < CONNECTIONS && iface_stream_accept(&tcp, listener, &open[count]) == IFACE_OK) count++;
    for (int i = count; i-- > 0;) {
        if (serve(&open[i])) continue;
        must("release", iface_stream_release(&tcp, &open[i]));
        open[i] = open[--count];
    }
}

/* What is due of the connections. */
static inline void poll_connections(iface *host, int64_t now) {
    must("connections", iface_streams_poll(&tcp, host, now));
    serve_all();
    must("connections", iface_streams_poll(&tcp, host, now));
}

#endif
