/* A host of this library, for path_speed.sh: at 192.168.69.7 it throws away at port 9 what comes (RFC 863), and at port 19 it sends
 * octets without end, too (RFC 864).
 *
 *   path_host DEVICE ROOM      the device exists; each connection may hold so many octets each way; SIGTERM ends it
 */
#include "examples/streams.h"

#include <signal.h>

enum { PLACES = 4, DISCARD = 9, GENERATOR = 19 };

static volatile sig_atomic_t is_over;

static void on_signal(int number) {
    (void)number;
    is_over = 1;
}

/* Throws away what came, and sends as much as there is room for, if that is to be. Whether the connection goes on. */
static int serve(iface_streams *tcp, const struct iface_stream *s, int sends) {
    static uint8_t octets[65536];
    size_t count;
    uint32_t state;
    do must("receive", iface_stream_receive(tcp, s, octets, sizeof octets, &count));
    while (count > 0);
    must("state", iface_stream_state(tcp, s, &state));
    if (state != IFACE_SYN_RECEIVED && state != IFACE_ESTABLISHED) return 0;
    if (sends) {
        do must("send", iface_stream_send(tcp, s, octets, sizeof octets, &count));
        while (count > 0);
    }
    return 1;
}

/* Serves all connections of a listener, and lets go of those that are over. */
static void serve_all(iface_streams *tcp, size_t listener, int sends, struct iface_stream *open, size_t *count) {
    while (*count < PLACES && iface_stream_accept(tcp, listener, &open[*count]) == IFACE_OK) (*count)++;
    for (size_t i = *count; i-- > 0;) {
        if (serve(tcp, &open[i], sends)) continue;
        must("release", iface_stream_release(tcp, &open[i]));
        open[i] = open[--*count];
    }
}

int main(int argc, char **argv) {
    static struct iface_stream open[2][PLACES];
    const struct iface_endpoint ends[] = {{IFACE_ANY, DISCARD}, {IFACE_ANY, GENERATOR}};
    const struct iface_address own = {4, {192, 168, 69, 7}};
    struct iface_config config;
    iface host = IFACE_NONE;
    iface_streams tcp = IFACE_STREAMS_NONE;
    size_t listeners[2], counts[2] = {0, 0};
    if (argc != 3) {
        fprintf(stderr, "usage: path_host DEVICE ROOM\n");
        return 2;
    }
    uint32_t room = (uint32_t)number_of(argv[2], 1, 1 << 30);
    int tap = open_tap(argv[1]);
    iface_config_init(&config);
    config.seed = (uint64_t)now_micros(), config.hardware_address[0] = 2, config.hardware_address[5] = 7;
    must("host", iface_new(&host, &config)), must("address", iface_add_address(&host, &own, 24));
    make_streams(&tcp, &host, PLACES, room);
    for (size_t i = 0; i < 2; i++) must("listen", iface_stream_listen(&tcp, &ends[i], PLACES, &listeners[i]));
    signal(SIGTERM, on_signal), signal(SIGINT, on_signal);
    while (!is_over) {
        for (size_t i = 0; i < 2; i++) serve_all(&tcp, listeners[i], ends[i].port == GENERATOR, open[i], &counts[i]);
        take_turn(&host, &tcp, tap, IFACE_NEVER);
    }
    must("free", iface_streams_free(&tcp, &host)), must("free", iface_free(&host));
    return 0;
}
