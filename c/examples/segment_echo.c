/* A TCP service over segments (RFC 9293), on a TAP device of Linux: it sends back what comes to its port 7, over IPv4 and
 * IPv6. tcp_echo.c is the same over the library's connections. Here the library hands segments in and out; the connection is kept here, by a state machine of the plainest kind: one
 * connection at a time, and one segment on the way, which is sent again each second until it is acknowledged, five times
 * at most. Who comes meanwhile is answered by a reset.
 *
 *   segment_echo DEVICE SECONDS      the device exists; it ends by itself after so many seconds, or by SIGTERM
 *
 * Its addresses are 192.168.69.7/24, fd69::7/64 and fe80::7/64.
 */
#include "tap.h"

#include <signal.h>

/* A window of one segment, as long as a peer sends it without an option that says more (RFC 9293, 3.7.1). */
enum { PORT = 7, WINDOW = 536, TRIES = 5, SECOND = 1000000 };

/* The states that it has of RFC 9293, 3.3.2. */
enum state { LISTEN, SYN_RECEIVED, ESTABLISHED, LAST_ACK };

static struct {
    enum state state;
    struct iface_endpoint peer;
    uint32_t unacked;  /* the first number that the peer hasn't acknowledged */
    uint32_t next;     /* the next one that is sent */
    uint32_t expected; /* the next one that the peer sends */
    uint8_t control;   /* of the segment on the way, with its payload */
    uint8_t payload[WINDOW];
    size_t length;
    int64_t again_at; /* when it is sent again */
    int tries;
} tcp;

static unsigned long connections, octets, repeated;

static volatile sig_atomic_t is_over;

static void on_signal(int number) {
    (void)number;
    is_over = 1;
}

static int is_same(const struct iface_endpoint *a, const struct iface_endpoint *b) {
    return a->port == b->port && memcmp(&a->address, &b->address, sizeof a->address) == 0;
}

/* How many numbers a segment takes: one for each octet, and one for SYN or FIN. */
static uint32_t numbers_of(uint8_t control, size_t length) {
    return (uint32_t)length + (control == IFACE_TCP_SYN || control == IFACE_TCP_FIN);
}

/* Queues a segment to the peer that acknowledges what came. If there is no room for it, it is as if it was lost. */
static void send_segment(iface *host, uint32_t socket, uint32_t seq, uint8_t control, const uint8_t *payload, size_t length) {
    struct iface_segment segment = {tcp.peer, seq, tcp.expected, WINDOW, control, 1};
    iface_tcp_send(host, socket, &segment, payload, length);
}

/* Sends what then is on the way: until it is acknowledged nothing else is. */
static void send_new(iface *host, uint32_t socket, uint8_t control, size_t length) {
    tcp.control = control, tcp.length = length, tcp.tries = 0, tcp.again_at = now_micros() + SECOND;
    send_segment(host, socket, tcp.next, control, tcp.payload, length);
    tcp.next += numbers_of(control, length);
}

/* Sends what is on the way again, if its second is over, and gives the connection up in the end. */
static void send_again(iface *host, uint32_t socket) {
    if (tcp.state == LISTEN || tcp.unacked == tcp.next || now_micros() < tcp.again_at) return;
    if (++tcp.tries > TRIES) {
        tcp.state = LISTEN;
        return;
    }
    repeated++;
    tcp.again_at = now_micros() + SECOND;
    send_segment(host, socket, tcp.unacked, tcp.control, tcp.payload, tcp.length);
}

/* The reset that answers a segment of no connection (RFC 9293, 3.10.7.1). */
static void reset(iface *host, uint32_t socket, const struct iface_segment *came, size_t length) {
    struct iface_segment answer = {.remote = came->remote, .control = IFACE_TCP_RST};
    if (came->control == IFACE_TCP_RST) return;
    if (came->has_ack) answer.seq = came->ack;
    else answer.ack = came->seq + numbers_of(came->control, length), answer.has_ack = 1;
    iface_tcp_send(host, socket, &answer, tcp.payload, 0);
}

/* A SYN begins a connection, by a number that nobody guesses easily. */
static void begin(iface *host, uint32_t socket, const struct iface_segment *came) {
    tcp.state = SYN_RECEIVED, tcp.peer = came->remote, tcp.expected = came->seq + 1;
    tcp.unacked = tcp.next = (uint32_t)now_micros() * 2654435761u;
    send_new(host, socket, IFACE_TCP_SYN, 0);
}

/* A segment of the connection: what it acknowledges, and what it brings, if that is what is expected and can be sent
 * back at once. */
static void go_on(iface *host, uint32_t socket, const struct iface_segment *came, const uint8_t *payload, size_t length) {
    if (came->control == IFACE_TCP_RST) {
        if (came->seq == tcp.expected) tcp.state = LISTEN;
        return;
    }
    if (came->control == IFACE_TCP_SYN) return; /* ours is sent again by itself */
    if (came->has_ack && came->ack == tcp.next) {
        tcp.unacked = tcp.next;
        if (tcp.state == LAST_ACK) tcp.state = LISTEN;
        if (tcp.state == SYN_RECEIVED) tcp.state = ESTABLISHED, connections++;
    }
    if (tcp.state != ESTABLISHED || tcp.unacked != tcp.next) return;
    if (came->seq != tcp.expected) { /* it is repeated, or one is missing: say what is expected */
        if (numbers_of(came->control, length)) send_segment(host, socket, tcp.next, IFACE_TCP_DATA, payload, 0);
        return;
    }
    if (length > came->window || length > sizeof tcp.payload) return; /* the peer sends it again */
    tcp.expected += (uint32_t)length;
    if (length > 0) {
        octets += length;
        memcpy(tcp.payload, payload, length);
        if (came->control != IFACE_TCP_FIN) send_new(host, socket, IFACE_TCP_PSH, length);
    }
    if (came->control == IFACE_TCP_FIN) { /* one segment sends the last octets back, and ends our direction */
        tcp.expected++, tcp.state = LAST_ACK;
        send_new(host, socket, IFACE_TCP_FIN, length);
    }
}

/* Takes all segments that came. */
static void serve(iface *host, uint32_t socket) {
    static uint8_t payload[4096];
    struct iface_segment came;
    size_t length;
    while (iface_tcp_receive(host, socket, &came, payload, sizeof payload, &length) == IFACE_OK) {
        if (tcp.state != LISTEN && is_same(&came.remote, &tcp.peer)) go_on(host, socket, &came, payload, length);
        else if (tcp.state == LISTEN && came.control == IFACE_TCP_SYN && !came.has_ack) begin(host, socket, &came);
        else reset(host, socket, &came, length);
    }
}

int main(int argc, char **argv) {
    static const char *const own[] = {"192.168.69.7", "fd69::7", "fe80::7"};
    static const struct iface_rooms rooms = IFACE_ROOMS(16, 16384);
    struct iface_endpoint local = {IFACE_ANY, PORT}, any = {IFACE_ANY, 0};
    struct iface_config config;
    iface host = IFACE_NONE;
    uint32_t socket;
    if (argc != 3) {
        fprintf(stderr, "usage: segment_echo DEVICE SECONDS\n");
        return 2;
    }
    unsigned seconds = (unsigned)number_of(argv[2], 1, 1e9);
    int tap = open_tap(argv[1]);
    iface_config_init(&config);
    config.seed = (uint64_t)now_micros(), config.hardware_address[0] = 2, config.hardware_address[5] = 7;
    must("host", iface_new(&host, &config));
    for (size_t i = 0; i < 3; i++) {
        struct iface_address a = address_of(own[i]);
        must(own[i], iface_add_address(&host, &a, a.version == 6 ? 64 : 24));
    }
    must("socket", iface_tcp_open(&host, &local, &any, &rooms, &socket));
    signal(SIGTERM, on_signal), signal(SIGINT, on_signal), signal(SIGALRM, on_signal);
    alarm(seconds);
    while (!is_over) {
        int64_t at;
        send_again(&host, socket);
        send_all(&host, tap, &at);
        if (tcp.state != LISTEN && tcp.unacked != tcp.next && tcp.again_at < at) at = tcp.again_at;
        sleep_until(tap, at);
        for (int burst = 0; burst < 64 && take_frame(&host, tap); burst++) {
            serve(&host, socket);
            send_all(&host, tap, &at);
        }
    }
    printf("segment_echo: %lu connections, %lu octets, %lu segments sent again\n", connections, octets, repeated);
    must("free", iface_free(&host));
    return 0;
}
