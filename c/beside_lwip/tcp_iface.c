/* The library behind tcp_host.h: a frame is handed over, and what is sent is asked for, as a program with a buffer of its own
 * does. */
#include "../iface.h"
#include "tcp_host.h"

#include <stdio.h>
#include <stdlib.h>
#include <string.h>

static iface host = IFACE_NONE;
static iface_streams tcp = IFACE_STREAMS_NONE;
static size_t listener;
static struct iface_stream streams[MOST_CONNECTIONS];
static uint8_t is_used[MOST_CONNECTIONS];
static int unused;
static int64_t moment;

static void must(uint32_t code, const char *what) {
    if (code == IFACE_OK) return;
    fprintf(stderr, "tcp_iface: %s: %u\n", what, code);
    exit(1);
}

void host_at(int64_t now) {
    moment = now;
}

static void send_frames(void) {
    static uint8_t frame[IFACE_FRAME_ROOM];
    size_t length;
    while (iface_next(&host, moment, frame, sizeof frame, &length) == IFACE_OK && length > 0) bench_sent(frame, length);
}

void host_new(void) {
    static const uint8_t own[] = {2, 0, 0, 0, 0, 1};
    struct iface_config config;
    struct iface_streams_config connections;
    struct iface_address address = {4, {192, 168, 69, 1}};
    struct iface_endpoint local = {IFACE_ANY, 7};
    iface_config_init(&config);
    memcpy(config.hardware_address, own, sizeof own), config.start = moment;
    must(iface_new(&host, &config), "host");
    must(iface_add_address(&host, &address, 24), "address");
    iface_streams_config_init(&connections);
    memset(connections.number_key, 7, sizeof connections.number_key);
    connections.table_key[0] = 7, connections.table_key[1] = 69;
    connections.places = MOST_CONNECTIONS, connections.ipv6 = 0;
    connections.accepted_keep_alive = 0; /* nothing is due where nothing happens */
    connections.send_room = connections.receive_room = 8192;
    must(iface_streams_new(&tcp, &host, &connections), "connections");
    must(iface_stream_listen(&tcp, &local, 255, &listener), "listen");
}

void host_take(const uint8_t *frame, size_t length) {
    static uint8_t reply[IFACE_FRAME_ROOM];
    size_t reply_length;
    must(iface_receive(&host, moment, frame, length, reply, sizeof reply, &reply_length), "receive");
    if (reply_length > 0) bench_sent(reply, reply_length);
}

void host_poll(void) {
    must(iface_streams_poll(&tcp, &host, moment), "poll");
    send_frames();
}

int host_accept(void) {
    while (unused < MOST_CONNECTIONS && is_used[unused]) unused++;
    if (unused == MOST_CONNECTIONS) return -1;
    if (iface_stream_accept(&tcp, listener, &streams[unused]) != IFACE_OK) return -1;
    is_used[unused] = 1;
    return unused;
}

size_t host_read(int connection, uint8_t *octets, size_t room) {
    size_t count;
    must(iface_stream_receive(&tcp, &streams[connection], octets, room, &count), "read");
    return count;
}

size_t host_write(int connection, const uint8_t *octets, size_t length) {
    size_t count;
    must(iface_stream_send(&tcp, &streams[connection], octets, length, &count), "write");
    return count;
}

void host_close(int connection) {
    must(iface_stream_close(&tcp, &streams[connection]), "close");
    must(iface_stream_release(&tcp, &streams[connection]), "release");
    is_used[connection] = 0;
    if (connection < unused) unused = connection;
}
