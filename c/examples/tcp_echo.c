/* A TCP service on a TAP device of Linux: it sends back what comes to its port 7, over IPv4 and IPv6 (RFC 862), for up to 256
 * connections at once.
 *
 *   tcp_echo DEVICE SECONDS      the device exists; it ends by itself after so many seconds, or by SIGTERM
 */
#include "service.h"

/* Sends back what came by a connection, as much as there is room for, and its end. Whether it goes on. */
static int echo(iface_streams *tcp, const struct iface_stream *s) {
    static uint8_t octets[ROOM];
    size_t came, sent;
    uint32_t state;
    do {
        must("peek", iface_stream_peek(tcp, s, octets, sizeof octets, &came));
        must("send", iface_stream_send(tcp, s, octets, came, &sent));
        must("receive", iface_stream_receive(tcp, s, octets, sent, &sent)); /* what was taken is sent: it needn't stay */
    } while (sent > 0);
    must("state", iface_stream_state(tcp, s, &state));
    if (state == IFACE_CLOSED) return 0;
    if (came > 0 || state < IFACE_CLOSE_WAIT) return 1;
    must("close", iface_stream_close(tcp, s));
    return 0;
}

int main(int argc, char **argv) {
    return run_service(argc, argv, 7, echo);
}
