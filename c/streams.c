/* What the calls for connections of TCP do, against a peer's segments that are computed here by RFC 9293: handshakes both ways, octets
 * both ways, half-close, resets, names, full tables; and wrong use, which each call refuses by its code. The link has no hardware
 * addresses, so that a frame is a packet. */
#include "iface.h"

#include <stdio.h>
#include <string.h>

static int failures, checks;

static uint8_t sent[IFACE_FRAME_ROOM], out[IFACE_FRAME_ROOM], octets[IFACE_FRAME_ROOM];

static const int64_t second = 1000000;

enum { FIN = 1, SYN = 2, RST = 4, PSH = 8, ACK = 16, URG = 32 };

/* From where the peer's segments come, and their urgent pointer. */
static uint8_t source[4] = {10, 0, 0, 2}, urgent;

/* Where a peer stands in a connection: its port, its next number, and what it expects. */
struct peer {
    uint16_t port, to;
    uint32_t seq, ack;
};

/* A segment that the host sent. */
struct segment {
    uint16_t from, to, window, mss;
    uint32_t seq, ack;
    uint8_t flags;
    size_t length;
    const uint8_t *payload;
};

static void wants(const char *what, uint64_t is, uint64_t want) {
    checks++;
    if (is == want) return;
    failures++;
    printf("WRONG: %s: %llu, not %llu\n", what, (unsigned long long)is, (unsigned long long)want);
}

static void must(const char *what, uint32_t code) {
    wants(what, code, IFACE_OK);
}

static void put(uint8_t *at, size_t n, uint32_t number) {
    for (size_t i = n; i-- > 0; number >>= 8) at[i] = (uint8_t)number;
}

static uint32_t get(const uint8_t *at, size_t n) {
    uint32_t number = 0;
    for (size_t i = 0; i < n; i++) number = number << 8 | at[i];
    return number;
}

/* The sum of RFC 1071 over octets, after another. */
static uint32_t sum_of(const uint8_t *at, size_t n, uint32_t sum) {
    for (size_t i = 0; i < n; i++) sum += (uint32_t)at[i] << (i % 2 ? 0 : 8);
    while (sum >> 16) sum = (sum & 0xffff) + (sum >> 16);
    return sum;
}

/* The sum of a segment in a packet of IPv4, with the pseudo header (RFC 9293 3.1). */
static uint32_t sum_of_segment(const uint8_t *packet, size_t length) {
    return sum_of(packet + 20, length - 20, sum_of(packet + 12, 8, 6 + (uint32_t)(length - 20)));
}

/* Hands the host a segment of a peer to 10.0.0.1, with a window. */
static void come_with(iface *host, int64_t now, const struct peer *p, uint8_t flags, uint16_t window, const char *text) {
    uint8_t packet[600] = {0x45, 0, 0, 0, 0, 0, 0x40, 0, 64, 6, 0, 0, 10, 0, 0, 2, 10, 0, 0, 1};
    size_t n = 77, length = 40 + strlen(text);
    memcpy(packet + 12, source, 4), put(packet + 2, 2, (uint32_t)length);
    put(packet + 10, 2, 0xffff & ~sum_of(packet, 20, 0));
    put(packet + 20, 2, p->port), put(packet + 22, 2, p->to), put(packet + 24, 4, p->seq), put(packet + 28, 4, p->ack);
    packet[32] = 0x50, packet[33] = flags;
    put(packet + 34, 2, window);
    memcpy(packet + 40, text, length - 40), packet[39] = urgent;
    put(packet + 36, 2, 0xffff & ~sum_of_segment(packet, length));
    must("receive", iface_receive(host, now, packet, length, out, sizeof out, &n));
    wants("no frame in response", n, 0);
}

static void come(iface *host, int64_t now, const struct peer *p, uint8_t flags, const char *text) {
    come_with(host, now, p, flags, 8192, text);
}

/* The next segment that the host sends, with a right checksum; or there is none, of length -1 and no flags. */
static struct segment next(iface *host, int64_t now) {
    struct segment s = {.length = (size_t)-1};
    size_t n = 77;
    must("next", iface_next(host, now, sent, sizeof sent, &n));
    if (n == 0) return s;
    wants("a header without options", sent[0], 0x45), wants("of TCP", sent[9], 6), wants("its length", get(sent + 2, 2), n);
    wants("between these", memcmp(sent + 12, "\12\0\0\1\12\0\0", 7) == 0 && (sent[19] == 2 || sent[19] == 3), 1);
    wants("its sum", sum_of(sent, 20, 0), 0xffff), wants("the segment's", sum_of_segment(sent, n), 0xffff);
    s.from = (uint16_t)get(sent + 20, 2), s.to = (uint16_t)get(sent + 22, 2);
    s.seq = get(sent + 24, 4), s.ack = get(sent + 28, 4);
    s.flags = sent[33], s.window = (uint16_t)get(sent + 34, 2);
    s.payload = sent + 20 + (sent[32] >> 4) * 4, s.length = n - 20 - (size_t)(sent[32] >> 4) * 4;
    for (const uint8_t *o = sent + 40; o < s.payload && *o != 0; o += *o == 1 ? 1 : o[1])
        if (*o == 2) s.mss = (uint16_t)get(o + 2, 2);
    return s;
}

static struct segment turn(iface_streams *tcp, iface *host, int64_t now) {
    must("poll", iface_streams_poll(tcp, host, now));
    return next(host, now);
}

static void wants_nothing(const char *what, iface_streams *tcp, iface *host, int64_t now) {
    wants(what, turn(tcp, host, now).length, (size_t)-1);
}

static void wants_state(iface_streams *tcp, const struct iface_stream *s, uint32_t want) {
    uint32_t is = 77;
    must("state", iface_stream_state(tcp, s, &is)), wants("its state", is, want);
}

static void wants_ending(iface_streams *tcp, const struct iface_stream *s, uint32_t want) {
    uint32_t is = 77;
    must("ending", iface_stream_ending(tcp, s, &is)), wants("why it ended", is, want);
}

static void make(iface *host, uint32_t sockets) {
    struct iface_config config;
    struct iface_address own = {4, {10, 0, 0, 1}};
    iface_config_init(&config);
    config.seed = 1, config.medium = IFACE_IP, config.frame_len = 1500, config.sockets = sockets;
    must("host", iface_new(host, &config));
    must("address", iface_add_address(host, &own, 24));
}

static void make_streams(iface_streams *tcp, iface *host, uint32_t places) {
    struct iface_streams_config config;
    iface_streams_config_init(&config);
    for (uint8_t i = 0; i < 32; i++) config.number_key[i] = (uint8_t)(i + 1);
    config.table_key[0] = 7, config.table_key[1] = 69, config.places = places, config.ack_delay = 0;
    config.send_room = config.receive_room = 16384;
    must("connections", iface_streams_new(tcp, host, &config));
}

static size_t listen_at(iface_streams *tcp, uint16_t port, uint32_t backlog) {
    struct iface_endpoint local = {IFACE_ANY, port};
    size_t listener = 77;
    must("listen", iface_stream_listen(tcp, &local, backlog, &listener));
    return listener;
}

static const struct iface_endpoint at_peer = {{4, {10, 0, 0, 2}}, 80};

/* A peer opens a connection to a port (RFC 9293 3.5, figure 6). */
static struct peer come_in(iface_streams *tcp, iface *host, int64_t now, uint16_t port, uint16_t to) {
    struct peer p = {port, to, 1000, 0};
    come(host, now, &p, SYN, "");
    struct segment s = turn(tcp, host, now);
    wants("a SYN that acknowledges", s.flags, SYN | ACK), wants("its number", s.ack, 1001);
    wants("from the port", s.from, to), wants("to the peer", s.to, port), wants("40 less than a packet", s.mss, 1460);
    p.seq = 1001, p.ack = s.seq + 1;
    come(host, now, &p, ACK, "");
    wants_nothing("nothing more", tcp, host, now);
    return p;
}

/* The host opens one to the peer's port 80, from a port. */
static struct peer go_out(iface_streams *tcp, iface *host, int64_t now, uint16_t port, struct iface_stream *stream) {
    struct iface_endpoint local = {IFACE_ANY, port};
    must("connect", iface_stream_connect(tcp, host, now, &local, &at_peer, stream));
    wants_state(tcp, stream, IFACE_SYN_SENT);
    struct segment s = turn(tcp, host, now);
    wants("a SYN", s.flags, SYN), wants("from the port", s.from, port), wants("to port 80", s.to, 80);
    wants("without octets", s.length, 0), wants("40 less than a packet", s.mss, 1460);
    struct peer p = {80, port, 5000, s.seq + 1};
    come(host, now, &p, SYN | ACK, "");
    p.seq++;
    s = turn(tcp, host, now);
    wants("it is acknowledged", s.flags, ACK), wants("its number", s.ack, 5001), wants("after the SYN", s.seq, p.ack);
    wants_state(tcp, stream, IFACE_ESTABLISHED);
    return p;
}

static void wants_rooms(iface_streams *tcp, const struct iface_stream *s, size_t writable, size_t readable) {
    size_t w = 77, r = 77;
    must("rooms", iface_stream_rooms(tcp, s, &w, &r)), wants("room to write", w, writable), wants("octets to read", r, readable);
}

/* Its ends are the host's port, and the peer's. */
static void wants_ends(iface_streams *tcp, const struct iface_stream *s, const struct peer *p) {
    struct iface_endpoint own = {IFACE_ANY, 77}, other = own;
    must("ends", iface_stream_ends(tcp, s, &own, &other)), wants("own port", own.port, p->to), wants("the peer's", other.port, p->port);
    wants("own address", own.address.version == 4 && memcmp(own.address.octets, "\12\0\0\1", 4) == 0, 1);
    wants("the peer's", other.address.version == 4 && memcmp(other.address.octets, "\12\0\0\2", 4) == 0, 1);
}

/* Octets that come are read and acknowledged. */
static void reads(iface_streams *tcp, iface *host, int64_t now, const struct iface_stream *s, struct peer *p, const char *text) {
    size_t n = 77;
    come(host, now, p, ACK | PSH, text);
    p->seq += (uint32_t)strlen(text);
    struct segment answer = turn(tcp, host, now);
    wants("an acknowledgement", answer.flags, ACK), wants("of the octets", answer.ack, p->seq);
    wants_rooms(tcp, s, 16384, strlen(text));
    must("peek", iface_stream_peek(tcp, s, octets, 2, &n)), wants("two octets", n, 2), wants("the first", memcmp(octets, text, 2) == 0, 1);
    must("receive", iface_stream_receive(tcp, s, octets, sizeof octets, &n));
    wants("all octets", n, strlen(text)), wants("these", memcmp(octets, text, strlen(text)) == 0, 1);
    must("receive", iface_stream_receive(tcp, s, octets, sizeof octets, &n)), wants("no more", n, 0);
}

/* Octets that are written are sent, and their acknowledgement ends that. */
static void writes(iface_streams *tcp, iface *host, int64_t now, const struct iface_stream *s, struct peer *p, const char *text) {
    size_t n = 77;
    must("send", iface_stream_send(tcp, s, (const uint8_t *)text, strlen(text), &n)), wants("all octets", n, strlen(text));
    wants_rooms(tcp, s, 16384 - strlen(text), 0);
    struct segment segment = turn(tcp, host, now);
    wants("its number", segment.seq, p->ack), wants("it acknowledges", segment.ack, p->seq);
    wants("its octets", segment.length == strlen(text) && memcmp(segment.payload, text, strlen(text)) == 0, 1);
    p->ack += (uint32_t)strlen(text);
    come(host, now, p, ACK, "");
    wants_nothing("nothing more", tcp, host, now);
}

/* A peer comes, both send, the peer closes, and then the program (RFC 9293 3.6, case 2). */
static void serves(void) {
    iface host = IFACE_NONE;
    iface_streams tcp = IFACE_STREAMS_NONE;
    struct iface_stream s = {77, 77}, none = {77, 77};
    int64_t at = 77;
    size_t n = 77;
    make(&host, 4), make_streams(&tcp, &host, 4);
    must("due", iface_streams_poll_at(&tcp, &at)), wants("never", at == IFACE_NEVER, 1);
    size_t listener = listen_at(&tcp, 7, 4);
    wants("the first one", listener, 0), wants("the second one", listen_at(&tcp, 9, 4), 1);
    wants("none waits", iface_stream_accept(&tcp, listener, &none), IFACE_EMPTY);
    struct peer p = come_in(&tcp, &host, second, 4000, 7);
    must("accept", iface_stream_accept(&tcp, listener, &s)), wants_state(&tcp, &s, IFACE_ESTABLISHED);
    wants_ends(&tcp, &s, &p);
    wants("only one", iface_stream_accept(&tcp, listener, &none), IFACE_EMPTY);
    wants("nothing written", none.place == 77 && none.generation == 77, 1);
    reads(&tcp, &host, second, &s, &p, "hello");
    writes(&tcp, &host, second, &s, &p, "hello, too");
    come(&host, second, &p, ACK | FIN, ""), p.seq++;
    struct segment answer = turn(&tcp, &host, second);
    wants("the end is acknowledged", answer.ack, p.seq), wants_state(&tcp, &s, IFACE_CLOSE_WAIT);
    must("receive", iface_stream_receive(&tcp, &s, octets, sizeof octets, &n)), wants("no octets", n, 0);
    writes(&tcp, &host, second, &s, &p, "last");
    must("close", iface_stream_close(&tcp, &s)), wants_state(&tcp, &s, IFACE_LAST_ACK);
    must("send", iface_stream_send(&tcp, &s, octets, 5, &n)), wants("nothing is taken any more", n, 0);
    answer = turn(&tcp, &host, second);
    wants("an end", answer.flags & (FIN | ACK), FIN | ACK), wants("its number", answer.seq, p.ack);
    p.ack++, come(&host, second, &p, ACK, "");
    wants_nothing("nothing more", &tcp, &host, second);
    wants_state(&tcp, &s, IFACE_CLOSED), wants_ending(&tcp, &s, IFACE_NOT_CUT);
    must("release", iface_stream_release(&tcp, &s));
    wants("its name names nothing", iface_stream_release(&tcp, &s), IFACE_NO_SOCKET);
    must("free", iface_streams_free(&tcp, &host)), must("free", iface_free(&host));
}

/* The program connects, closes, and reads on until the peer's end (RFC 9293 3.6, case 1). */
static void connects(void) {
    iface host = IFACE_NONE;
    iface_streams tcp = IFACE_STREAMS_NONE;
    struct iface_stream s = {77, 77};
    size_t n = 77;
    int64_t at = 77;
    make(&host, 4), make_streams(&tcp, &host, 4);
    struct peer p = go_out(&tcp, &host, second, 40000, &s);
    wants_ends(&tcp, &s, &p);
    writes(&tcp, &host, second, &s, &p, "a question");
    must("close", iface_stream_close(&tcp, &s)), wants_state(&tcp, &s, IFACE_FIN_WAIT_1);
    struct segment end = turn(&tcp, &host, second);
    wants("an end", end.flags & FIN, FIN), wants("its number", end.seq, p.ack);
    p.ack++, come(&host, second, &p, ACK, ""), wants_nothing("nothing more", &tcp, &host, second);
    wants_state(&tcp, &s, IFACE_FIN_WAIT_2);
    come(&host, second, &p, ACK, "an answer"), p.seq += 9, wants("it is acknowledged", turn(&tcp, &host, second).ack, p.seq);
    wants_rooms(&tcp, &s, 0, 9);
    come(&host, second, &p, ACK | FIN, "!"), p.seq += 2;
    end = turn(&tcp, &host, second);
    wants("the end is acknowledged", end.ack, p.seq), wants_state(&tcp, &s, IFACE_TIME_WAIT);
    must("receive", iface_stream_receive(&tcp, &s, octets, sizeof octets, &n)), wants("all octets", n == 10 && memcmp(octets, "an answer!", 10) == 0, 1);
    wants_nothing("nothing more", &tcp, &host, second);
    /* a reset changes nothing in TIME-WAIT (RFC 1337) */
    come(&host, 2 * second, &p, RST, ""), wants_nothing("no answer", &tcp, &host, 2 * second), wants_state(&tcp, &s, IFACE_TIME_WAIT);
    /* calls that move no octet change nothing */
    must("receive", iface_stream_receive(&tcp, &s, octets, sizeof octets, &n)), wants("no octets", n, 0);
    must("send", iface_stream_send(&tcp, &s, octets, 0, &n)), wants("no octets", n, 0);
    must("due", iface_streams_poll_at(&tcp, &at)), wants("a minute later", (uint64_t)at, (uint64_t)(61 * second));
    wants_nothing("nothing more", &tcp, &host, 61 * second);
    wants_state(&tcp, &s, IFACE_CLOSED), wants_ending(&tcp, &s, IFACE_NOT_CUT);
    must("free", iface_streams_free(&tcp, &host)), must("free", iface_free(&host));
}

/* Resets both ways, and nobody who answers. */
static void cuts(void) {
    iface host = IFACE_NONE;
    iface_streams tcp = IFACE_STREAMS_NONE;
    struct iface_stream s = {77, 77};
    struct iface_endpoint local = {IFACE_ANY, 40001};
    int64_t at = 77;
    size_t n = 77;
    make(&host, 4), make_streams(&tcp, &host, 4);
    struct peer p = go_out(&tcp, &host, second, 40000, &s);
    must("abort", iface_stream_abort(&tcp, &s)), wants_state(&tcp, &s, IFACE_CLOSED), wants_ending(&tcp, &s, IFACE_ABORTED);
    struct segment reset = turn(&tcp, &host, second);
    wants("a reset", reset.flags & RST, RST), wants("its number", reset.seq, p.ack);
    must("send", iface_stream_send(&tcp, &s, octets, 5, &n)), wants("nothing is taken", n, 0);
    must("release", iface_stream_release(&tcp, &s));
    /* the peer has nobody at the port (RFC 9293 3.5.2, case 1) */
    must("connect", iface_stream_connect(&tcp, &host, second, &local, &at_peer, &s));
    reset = turn(&tcp, &host, second), p = (struct peer){80, 40001, 0, reset.seq + 1};
    come(&host, second, &p, RST | ACK, "");
    wants_nothing("no reset answers a reset", &tcp, &host, second);
    wants_state(&tcp, &s, IFACE_CLOSED), wants_ending(&tcp, &s, IFACE_REFUSED);
    must("release", iface_stream_release(&tcp, &s));
    /* it resets a connection */
    p = go_out(&tcp, &host, second, 40002, &s);
    come(&host, second, &p, RST, ""), wants_nothing("no reset answers a reset", &tcp, &host, second);
    wants_state(&tcp, &s, IFACE_CLOSED), wants_ending(&tcp, &s, IFACE_BY_PEER);
    must("release", iface_stream_release(&tcp, &s));
    /* a segment of no connection is answered (RFC 9293 3.10.7.1) */
    p = (struct peer){4000, 9, 300, 7}, come(&host, second, &p, SYN, "");
    reset = turn(&tcp, &host, second), wants("a reset", reset.flags, RST | ACK);
    wants("of number 0", reset.seq, 0), wants("of the SYN", reset.ack, 301);
    come(&host, second, &p, ACK, "x"), reset = turn(&tcp, &host, second);
    wants("a reset", reset.flags, RST), wants("of the number", reset.seq, 7);
    /* nobody answers: the SYN is sent again after a second, and given up when its timeout ends (RFC 6298 2.1, RFC 9293 3.8.3) */
    must("connect", iface_stream_connect(&tcp, &host, second, &local, &at_peer, &s));
    must("timeout", iface_stream_set_timeout(&tcp, &s, 2500000));
    uint32_t number = turn(&tcp, &host, second).seq;
    must("due", iface_streams_poll_at(&tcp, &at)), wants("a second later", (uint64_t)at, (uint64_t)(2 * second));
    wants_nothing("not before", &tcp, &host, at - 1);
    reset = turn(&tcp, &host, at), wants("the SYN again", reset.flags == SYN && reset.seq == number, 1);
    must("due", iface_streams_poll_at(&tcp, &at)), wants("at the end", (uint64_t)at, (uint64_t)(second + 2500000));
    wants_nothing("not before", &tcp, &host, at - 1), wants_state(&tcp, &s, IFACE_SYN_SENT);
    wants_nothing("given up", &tcp, &host, at);
    wants_state(&tcp, &s, IFACE_CLOSED), wants_ending(&tcp, &s, IFACE_TIMED_OUT);
    must("free", iface_streams_free(&tcp, &host)), must("free", iface_free(&host));
}

/* A thousand SYNs in a second, with another number or with the peer's own, at a handshake that is under way: at most ten are
 * answered, and the handshake goes on (RFC 9293 3.10.7.4, RFC 5961 7). */
static void answers_few(uint32_t step) {
    iface host = IFACE_NONE;
    iface_streams tcp = IFACE_STREAMS_NONE;
    struct iface_stream s = {77, 77};
    make(&host, 4), make_streams(&tcp, &host, 8);
    size_t listener = listen_at(&tcp, 7, 4);
    struct peer half = {4000, 7, 1000, 0};
    come(&host, second, &half, SYN, "");
    struct segment answer = turn(&tcp, &host, second);
    wants("a SYN that acknowledges", answer.flags, SYN | ACK), half.ack = answer.seq + 1;
    uint32_t answers = 0;
    for (uint32_t i = 0; i < 1000; i++) {
        int64_t now = second + 999 * (int64_t)i;
        struct peer forged = {4000, 7, 1000 + i * step, 0};
        come(&host, now, &forged, SYN, "");
        for (answer = turn(&tcp, &host, now); answer.length != (size_t)-1; answer = turn(&tcp, &host, now)) answers++;
    }
    wants("some answers, and few", answers > 0 && answers <= 10, 1);
    half.seq++, come(&host, 2 * second - 1, &half, ACK, ""), wants_nothing("nothing more", &tcp, &host, 2 * second - 1);
    must("accept", iface_stream_accept(&tcp, listener, &s)), wants_state(&tcp, &s, IFACE_ESTABLISHED);
    must("free", iface_streams_free(&tcp, &host)), must("free", iface_free(&host));
}

/* Eight connections at once, each with octets of its own, as many as there are places. */
static void serves_eight(void) {
    iface host = IFACE_NONE;
    iface_streams tcp = IFACE_STREAMS_NONE;
    struct iface_stream s[8], more = {77, 77};
    struct iface_endpoint local = {IFACE_ANY, 40000};
    struct peer p[8];
    make(&host, 4), make_streams(&tcp, &host, 8);
    size_t listener = listen_at(&tcp, 7, 8);
    for (uint16_t i = 0; i < 8; i++) p[i] = come_in(&tcp, &host, second, (uint16_t)(4000 + i), 7);
    for (int i = 0; i < 8; i++) must("accept", iface_stream_accept(&tcp, listener, &s[i]));
    wants("no more", iface_stream_accept(&tcp, listener, &more), IFACE_EMPTY);
    for (int i = 0; i < 8; i++) {
        char text[] = "octets of .";
        text[10] = (char)('0' + i);
        reads(&tcp, &host, second, &s[i], &p[i], text), writes(&tcp, &host, second, &s[i], &p[i], text + 3);
    }
    wants("no place", iface_stream_connect(&tcp, &host, second, &local, &at_peer, &more), IFACE_TABLE_FULL);
    struct peer late = {4008, 7, 1000, 0};
    come(&host, second, &late, SYN, ""), wants_nothing("no place for a ninth", &tcp, &host, second);
    /* a place that is free again has another name */
    come(&host, second, &p[3], RST, ""), wants_nothing("gone", &tcp, &host, second);
    must("release", iface_stream_release(&tcp, &s[3])), wants_nothing("free", &tcp, &host, second);
    must("connect", iface_stream_connect(&tcp, &host, second, &local, &at_peer, &more));
    wants("the same place", more.place, s[3].place), wants("another name", more.generation != s[3].generation, 1);
    wants("the old one", iface_stream_abort(&tcp, &s[3]), IFACE_NO_SOCKET), wants_state(&tcp, &more, IFACE_SYN_SENT);
    must("free", iface_streams_free(&tcp, &host)), must("free", iface_free(&host));
}

/* What is written waits in the connection's room: no more is taken, and nothing is lost. */
static void fills_a_room(void) {
    iface host = IFACE_NONE;
    iface_streams tcp = IFACE_STREAMS_NONE;
    struct iface_stream s = {77, 77};
    static uint8_t many[20000];
    size_t n = 77, all = 0;
    make(&host, 4), make_streams(&tcp, &host, 1);
    for (size_t i = 0; i < sizeof many; i++) many[i] = (uint8_t)(i * 7 + i / 256);
    struct peer p = go_out(&tcp, &host, second, 40000, &s);
    must("send", iface_stream_send(&tcp, &s, many, sizeof many, &n)), wants("as many as it has room for", n, 16384);
    must("send", iface_stream_send(&tcp, &s, many, sizeof many, &n)), wants("no more", n, 0);
    for (int i = 0; i < 100 && all < 16384; i++) {
        struct segment segment = turn(&tcp, &host, second);
        if (segment.length == (size_t)-1) come(&host, second, &p, ACK, "");
        else {
            wants("in order", segment.seq, p.ack), wants("these", memcmp(segment.payload, many + all, segment.length) == 0, 1);
            wants("at most 536 octets, as the peer told no MSS", segment.length <= 536, 1);
            p.ack += (uint32_t)segment.length, all += segment.length;
        }
    }
    wants("all of them", all, 16384);
    must("free", iface_streams_free(&tcp, &host)), must("free", iface_free(&host));
}

/* The packets of one connection may pass as many routers as the program says (RFC 9293 3.9.2), from the next one on. */
static void passes_routers(void) {
    iface host = IFACE_NONE;
    iface_streams tcp = IFACE_STREAMS_NONE;
    struct iface_stream s = {77, 77}, other = {77, 77};
    make(&host, 4), make_streams(&tcp, &host, 4);
    struct peer p = go_out(&tcp, &host, second, 40000, &s);
    wants("64 routers at first", sent[8], 64);
    must("hop limit", iface_stream_set_hop_limit(&tcp, &s, 1));
    wants_nothing("nothing is due", &tcp, &host, second);
    writes(&tcp, &host, second, &s, &p, "near"), wants("no router", sent[8], 1);
    wants("0 is refused", iface_stream_set_hop_limit(&tcp, &s, 0), IFACE_BAD_ARGUMENT);
    must("hop limit", iface_stream_set_hop_limit(&tcp, &s, 255));
    reads(&tcp, &host, second, &s, &p, "far"), wants("255 routers", sent[8], 255);
    p = go_out(&tcp, &host, second, 40001, &other), wants("another one's stays", sent[8], 64);
    must("abort", iface_stream_abort(&tcp, &s)), wants("a reset", turn(&tcp, &host, second).flags & RST, RST);
    wants("as far", sent[8], 255);
    /* the next connection of the place begins with 64 again */
    must("release", iface_stream_release(&tcp, &s)), wants_nothing("nothing more", &tcp, &host, second);
    p = go_out(&tcp, &host, second, 40002, &s), wants("64 routers", sent[8], 64);
    must("free", iface_streams_free(&tcp, &host)), must("free", iface_free(&host));
}

/* A closed listener takes no SYN, completes no handshake, and gives those that wait (RFC 9293 3.10.4, 3.10.7.1). */
static void closes_a_listener(void) {
    iface host = IFACE_NONE;
    iface_streams tcp = IFACE_STREAMS_NONE;
    struct iface_stream s = {77, 77};
    make(&host, 4), make_streams(&tcp, &host, 8);
    size_t listener = listen_at(&tcp, 7, 4), other = listen_at(&tcp, 9, 4);
    struct peer waits = come_in(&tcp, &host, second, 4000, 7);
    struct peer half = {4001, 7, 1000, 0};
    come(&host, second, &half, SYN, "");
    struct segment answer = turn(&tcp, &host, second);
    wants("a SYN that acknowledges", answer.flags, SYN | ACK), half.seq = 1001, half.ack = answer.seq + 1;
    must("close", iface_stream_close_listener(&tcp, listener)), must("once more", iface_stream_close_listener(&tcp, listener));
    wants("no such one", iface_stream_close_listener(&tcp, 2), IFACE_NOT_THERE);
    struct peer late = {4002, 7, 300, 0};
    come(&host, second, &late, SYN, "");
    answer = turn(&tcp, &host, second), wants("a reset", answer.flags, RST | ACK), wants("of the SYN", answer.ack, 301);
    /* the handshake that was under way */
    come(&host, second, &half, ACK, "");
    answer = turn(&tcp, &host, second), wants("a reset", answer.flags & RST, RST), wants("to this peer", answer.to, 4001);
    wants("of the number", answer.seq, half.ack);
    /* the one that waits */
    must("accept", iface_stream_accept(&tcp, listener, &s)), wants_state(&tcp, &s, IFACE_ESTABLISHED);
    writes(&tcp, &host, second, &s, &waits, "accepted");
    wants("no more", iface_stream_accept(&tcp, listener, &s), IFACE_EMPTY);
    /* another listener serves on, and a new one at the port has another number */
    struct peer p = come_in(&tcp, &host, second, 4003, 9);
    must("accept", iface_stream_accept(&tcp, other, &s)), reads(&tcp, &host, second, &s, &p, "hello");
    wants("the next number", listen_at(&tcp, 7, 4), 2);
    p = come_in(&tcp, &host, second, 4004, 7);
    must("accept", iface_stream_accept(&tcp, 2, &s)), reads(&tcp, &host, second, &s, &p, "again");
    must("free", iface_streams_free(&tcp, &host)), must("free", iface_free(&host));
}

/* The program closes first, the peer then, and the program lets go of it: TIME-WAIT (RFC 9293 3.6, case 1). */
static void closes_first(iface_streams *tcp, iface *host, int64_t now, const struct iface_stream *s, struct peer *p) {
    must("close", iface_stream_close(tcp, s));
    struct segment end = turn(tcp, host, now);
    wants("an end", end.flags & FIN, FIN), wants("its number", end.seq, p->ack);
    p->ack++, come(host, now, p, ACK | FIN, ""), p->seq++;
    wants("the end is acknowledged", turn(tcp, host, now).ack, p->seq), wants_state(tcp, s, IFACE_TIME_WAIT);
}

static void lets_go(iface_streams *tcp, iface *host, int64_t now, const struct iface_stream *s) {
    must("release", iface_stream_release(tcp, s)), wants_nothing("nothing more", tcp, host, now);
}

/* A server that closes first, with four places: a hundred connections in a second. The oldest one in TIME-WAIT gives its place. */
static void serves_beyond_time_wait(void) {
    iface host = IFACE_NONE;
    iface_streams tcp = IFACE_STREAMS_NONE;
    struct iface_stream s = {77, 77}, opened[5];
    struct iface_endpoint local = {IFACE_ANY, 40000};
    struct peer p, old = {0, 0, 0, 0};
    make(&host, 4), make_streams(&tcp, &host, 4);
    size_t listener = listen_at(&tcp, 7, 4);
    for (uint16_t i = 0; i < 100; i++) {
        int64_t now = second + 10000 * i;
        p = come_in(&tcp, &host, now, (uint16_t)(4000 + i), 7);
        must("accept", iface_stream_accept(&tcp, listener, &s)), writes(&tcp, &host, now, &s, &p, "a page");
        closes_first(&tcp, &host, now, &s, &p), lets_go(&tcp, &host, now, &s);
        if (i == 96) old = p;
    }
    /* the last four wait: the peer's end once more is acknowledged */
    int64_t now = 2 * second;
    struct peer again = p;
    again.seq--, come(&host, now, &again, ACK | FIN, "");
    struct segment answer = turn(&tcp, &host, now);
    wants("an acknowledgement", answer.flags, ACK), wants("of the end", answer.ack, p.seq);
    wants_nothing("nothing more", &tcp, &host, now);
    /* a connection that the program opens takes the place of the oldest one, whose peer is now answered by a reset */
    must("connect", iface_stream_connect(&tcp, &host, now, &local, &at_peer, &opened[0]));
    wants("a SYN", turn(&tcp, &host, now).flags, SYN);
    old.seq--, come(&host, now, &old, ACK | FIN, "");
    answer = turn(&tcp, &host, now), wants("a reset", answer.flags, RST), wants("of the number", answer.seq, old.ack);
    for (uint16_t i = 1; i < 4; i++) {
        local.port++, must("connect", iface_stream_connect(&tcp, &host, now, &local, &at_peer, &opened[i]));
        wants("a SYN", turn(&tcp, &host, now).flags, SYN);
    }
    /* no other one gives its place */
    local.port++, wants("no place", iface_stream_connect(&tcp, &host, now, &local, &at_peer, &opened[4]), IFACE_TABLE_FULL);
    for (int i = 0; i < 4; i++) wants_state(&tcp, &opened[i], IFACE_SYN_SENT);
    must("free", iface_streams_free(&tcp, &host)), must("free", iface_free(&host));
}

/* A connection in TIME-WAIT that its program hasn't let go of keeps its place, its name and its octets. */
static void keeps_time_wait(void) {
    iface host = IFACE_NONE;
    iface_streams tcp = IFACE_STREAMS_NONE;
    struct iface_stream s = {77, 77}, other = {77, 77};
    struct iface_endpoint local = {IFACE_ANY, 40001};
    size_t n = 77;
    make(&host, 4), make_streams(&tcp, &host, 1);
    struct peer p = go_out(&tcp, &host, second, 40000, &s);
    come(&host, second, &p, ACK, "the last"), p.seq += 8, wants("acknowledged", turn(&tcp, &host, second).ack, p.seq);
    closes_first(&tcp, &host, second, &s, &p);
    wants("no place", iface_stream_connect(&tcp, &host, second, &local, &at_peer, &other), IFACE_TABLE_FULL);
    must("receive", iface_stream_receive(&tcp, &s, octets, sizeof octets, &n)), wants("all octets", n, 8);
    lets_go(&tcp, &host, second, &s);
    must("connect", iface_stream_connect(&tcp, &host, second, &local, &at_peer, &other));
    must("free", iface_streams_free(&tcp, &host)), must("free", iface_free(&host));
}

/* Ten thousand pages in a row, one each millisecond, at 256 places, where the server closes first: each is served at once. */
static void serves_pages(void) {
    iface host = IFACE_NONE;
    iface_streams tcp = IFACE_STREAMS_NONE;
    struct iface_stream s = {77, 77};
    make(&host, 4), make_streams(&tcp, &host, 256);
    size_t listener = listen_at(&tcp, 7, 16);
    for (uint16_t i = 0; i < 10000; i++) {
        int64_t now = second + 1000 * i;
        struct peer p = come_in(&tcp, &host, now, (uint16_t)(4000 + i), 7);
        must("accept", iface_stream_accept(&tcp, listener, &s)), writes(&tcp, &host, now, &s, &p, "a page");
        closes_first(&tcp, &host, now, &s, &p), lets_go(&tcp, &host, now, &s);
    }
    must("free", iface_streams_free(&tcp, &host)), must("free", iface_free(&host));
}

/* A SYN between the ends of a connection in TIME-WAIT begins the next one, if its number is larger than all that came, and the own
 * one larger than all that was sent (RFC 9293 3.6.1, RFC 6191 2). */
static void reopens(void) {
    iface host = IFACE_NONE;
    iface_streams tcp = IFACE_STREAMS_NONE;
    struct iface_stream s = {77, 77};
    make(&host, 4), make_streams(&tcp, &host, 4);
    size_t listener = listen_at(&tcp, 7, 4);
    struct peer p = come_in(&tcp, &host, second, 4000, 7);
    must("accept", iface_stream_accept(&tcp, listener, &s)), reads(&tcp, &host, second, &s, &p, "a question");
    writes(&tcp, &host, second, &s, &p, "an answer"), closes_first(&tcp, &host, second, &s, &p);
    /* while the program has it, and at the same instant, when the own number isn't beyond */
    struct peer again = {4000, 7, p.seq, 0};
    come(&host, 2 * second, &again, SYN, "");
    struct segment answer = turn(&tcp, &host, 2 * second);
    wants("an acknowledgement", answer.flags, ACK), wants("of the end", answer.ack, p.seq);
    lets_go(&tcp, &host, 2 * second, &s);
    /* the number of the end, which was used */
    again.seq = p.seq - 1, come(&host, 2 * second, &again, SYN, "");
    answer = turn(&tcp, &host, 2 * second), wants("an acknowledgement", answer.flags, ACK), wants("of the end", answer.ack, p.seq);
    /* where nobody listens */
    must("close", iface_stream_close_listener(&tcp, listener));
    again.seq = p.seq, come(&host, 2 * second, &again, SYN, "");
    answer = turn(&tcp, &host, 2 * second), wants("an acknowledgement", answer.flags, ACK), wants("of the end", answer.ack, p.seq);
    /* a larger one, with a listener */
    listener = listen_at(&tcp, 7, 4);
    come(&host, 2 * second, &again, SYN, "");
    answer = turn(&tcp, &host, 2 * second), wants("a SYN that acknowledges", answer.flags, SYN | ACK);
    wants("its number", answer.ack, again.seq + 1), wants("beyond all that was sent", answer.seq - p.ack < 1u << 31, 1);
    again.seq++, again.ack = answer.seq + 1, come(&host, 2 * second, &again, ACK, "");
    wants_nothing("nothing more", &tcp, &host, 2 * second);
    must("accept", iface_stream_accept(&tcp, listener, &s)), reads(&tcp, &host, 2 * second, &s, &again, "another");
    /* the own number of this instant was used: it isn't beyond */
    closes_first(&tcp, &host, 2 * second, &s, &again), lets_go(&tcp, &host, 2 * second, &s);
    come(&host, 2 * second, &again, SYN, "");
    answer = turn(&tcp, &host, 2 * second), wants("an acknowledgement", answer.flags, ACK), wants("of the end", answer.ack, again.seq);
    must("free", iface_streams_free(&tcp, &host)), must("free", iface_free(&host));
}

/* Half-open connections hold only places that nobody else needs (RFC 4987 3.2): one of the listener with the most of them gives its place
 * to a handshake that another listener completes, and to connect. Those whose handshake is over stay. */
static void gives_way(void) {
    iface host = IFACE_NONE;
    iface_streams tcp = IFACE_STREAMS_NONE;
    struct iface_stream kept = {77, 77}, own = {77, 77}, other = {77, 77}, none = {77, 77};
    struct iface_endpoint local = {IFACE_ANY, 40001};
    make(&host, 4), make_streams(&tcp, &host, 4);
    size_t flooded = listen_at(&tcp, 7, 16), quiet = listen_at(&tcp, 8, 16);
    struct peer p = come_in(&tcp, &host, second, 4000, 7), q;
    must("accept", iface_stream_accept(&tcp, flooded, &kept));
    for (uint16_t i = 0; i < 17; i++) {
        struct peer half = {(uint16_t)(5000 + i), 7, 300, 0};
        come(&host, second, &half, SYN, ""), wants("a SYN that acknowledges", turn(&tcp, &host, second).flags, SYN | ACK);
    }
    q = go_out(&tcp, &host, second, 40000, &own), writes(&tcp, &host, second, &own, &q, "connect finds a place");
    q = come_in(&tcp, &host, second, 4001, 8);
    must("so does a handshake of another listener", iface_stream_accept(&tcp, quiet, &other));
    writes(&tcp, &host, second, &other, &q, "page");
    writes(&tcp, &host, second, &kept, &p, "nothing was lost"), reads(&tcp, &host, second, &kept, &p, "and none came before");
    struct peer more = {4002, 8, 300, 0};
    come(&host, second, &more, SYN, ""), wants("nothing is kept of it", turn(&tcp, &host, second).flags, SYN | ACK);
    must("the last half-open one gives way", iface_stream_connect(&tcp, &host, second, &local, &at_peer, &none));
    wants("a SYN", turn(&tcp, &host, second).flags, SYN);
    more.port++, come(&host, second, &more, SYN, ""), wants_nothing("no place is half-open", &tcp, &host, second);
    local.port++, wants("no place", iface_stream_connect(&tcp, &host, second, &local, &at_peer, &none), IFACE_TABLE_FULL);
    must("free", iface_streams_free(&tcp, &host)), must("free", iface_free(&host));
}

/* The SYN-ACK of a listener whose one handshake is under way: its number is a cookie (RFC 4987 3.6). */
static struct peer asks(iface_streams *tcp, iface *host, int64_t now, uint16_t port) {
    struct peer half = {5000, 7, 300, 0}, p = {port, 7, 1000, 0};
    come(host, now, &half, SYN, ""), turn(tcp, host, now), come(host, now, &p, SYN, "");
    struct segment s = turn(tcp, host, now);
    wants("a SYN that acknowledges", s.flags, SYN | ACK), wants("its number", s.ack, 1001), wants("to the peer", s.to, port);
    wants("40 less than a packet", s.mss, 1460), wants("what the ring takes", s.window, 16384);
    p.seq = 1001, p.ack = s.seq + 1;
    return p;
}

static void wants_reset(iface_streams *tcp, iface *host, int64_t now, const struct peer *p) {
    come(host, now, p, ACK, "");
    struct segment s = turn(tcp, host, now);
    wants("a reset", s.flags, RST), wants("of its number", s.seq, p->ack);
}

/* Of a SYN beyond the backlog nothing is kept. Who acknowledges the answer within two minutes has a connection, octets that come with it are
 * received, and it goes on as any other one. Another number, another peer and an answer of long ago are nobody's: each brings a reset. */
static void takes_cookies(void) {
    iface host = IFACE_NONE;
    iface_streams tcp = IFACE_STREAMS_NONE;
    struct iface_stream s = {77, 77};
    make(&host, 4), make_streams(&tcp, &host, 2);
    size_t listener = listen_at(&tcp, 7, 1);
    struct peer p = asks(&tcp, &host, 63 * second, 4000), wrong = p, again = {4000, 7, 1000, 0};
    come(&host, 63 * second + 1000, &again, SYN, "");
    wants("the same number again", turn(&tcp, &host, 63 * second + 1000).seq, p.ack - 1);
    wants_nothing("and not by itself", &tcp, &host, 63 * second + 999999);
    for (int i = 0; i < 32; i++) wrong.ack = p.ack ^ (1u << i), wants_reset(&tcp, &host, 64 * second + 10000 * i, &wrong);
    wrong = p, wrong.seq++, wants_reset(&tcp, &host, 65 * second, &wrong);
    wrong = p, wrong.port++, wants_reset(&tcp, &host, 65 * second, &wrong);
    wrong = p, wrong.to = 8, wants_reset(&tcp, &host, 65 * second, &wrong);
    come(&host, 191 * second, &p, ACK | PSH, "after two minutes");
    wants("it is acknowledged", turn(&tcp, &host, 191 * second).ack, 1001 + 17);
    must("accept", iface_stream_accept(&tcp, listener, &s)), p.seq += 17;
    size_t n = 77;
    must("receive", iface_stream_receive(&tcp, &s, octets, sizeof octets, &n)), wants("all", n, 17);
    wants("these", memcmp(octets, "after two minutes", 17) == 0, 1);
    reads(&tcp, &host, 191 * second, &s, &p, "and these"), writes(&tcp, &host, 191 * second, &s, &p, "back");
    p = asks(&tcp, &host, 255 * second, 4001);
    wants_reset(&tcp, &host, 385 * second, &p), wants("none", iface_stream_accept(&tcp, listener, &s), IFACE_EMPTY);
    must("free", iface_streams_free(&tcp, &host)), must("free", iface_free(&host));
}

/* In SYN-RECEIVED a reset of the next number ends the handshake, and another one in the window is answered (RFC 5961 3.2). */
static void resets_a_handshake(void) {
    iface host = IFACE_NONE;
    iface_streams tcp = IFACE_STREAMS_NONE;
    struct iface_stream s = {77, 77};
    struct segment answer;
    make(&host, 4), make_streams(&tcp, &host, 1);
    size_t listener = listen_at(&tcp, 7, 1);
    struct peer half = {4000, 7, 300, 0};
    come(&host, second, &half, SYN, ""), answer = turn(&tcp, &host, second), wants("a SYN that acknowledges", answer.flags, SYN | ACK);
    half.ack = answer.seq + 1, half.seq = 302, come(&host, second, &half, RST, "");
    answer = turn(&tcp, &host, second), wants("a challenge", answer.flags, ACK), wants("of the next number", answer.ack, 301);
    half.seq = 300, come(&host, second, &half, RST, ""), wants_nothing("before the window", &tcp, &host, second);
    half.seq = 301 + 20000, come(&host, second, &half, RST, ""), wants_nothing("beyond it", &tcp, &host, second);
    half.seq = 301, come(&host, second, &half, RST, ""), wants_nothing("of the next number", &tcp, &host, second);
    come(&host, second, &half, ACK, ""), wants("it is gone", turn(&tcp, &host, second).flags, RST);
    wants("none waits", iface_stream_accept(&tcp, listener, &s), IFACE_EMPTY);
    must("free", iface_streams_free(&tcp, &host)), must("free", iface_free(&host));
}

/* The urgent pointer is skipped, and the octets stand in the stream (RFC 6093 3.1, 6), wherever it points. */
static void skips_urgent(void) {
    iface host = IFACE_NONE;
    iface_streams tcp = IFACE_STREAMS_NONE;
    struct iface_stream s = {77, 77};
    uint8_t read[8];
    size_t n = 77;
    make(&host, 4), make_streams(&tcp, &host, 1);
    size_t listener = listen_at(&tcp, 7, 1);
    struct peer p = come_in(&tcp, &host, second, 4000, 7);
    must("accept", iface_stream_accept(&tcp, listener, &s));
    for (unsigned at = 0; at < 256; at += 51) {
        urgent = (uint8_t)at, come(&host, second, &p, URG | ACK | PSH, "abc"), p.seq += 3, urgent = 0;
        wants("acknowledged", turn(&tcp, &host, second).ack, p.seq);
        must("receive", iface_stream_receive(&tcp, &s, read, sizeof read, &n));
        wants("three octets", n, 3), wants("as they came", memcmp(read, "abc", 3) == 0, 1);
    }
    must("free", iface_streams_free(&tcp, &host)), must("free", iface_free(&host));
}

/* A segment from 127/8 that came by a link is neither heard nor answered (RFC 1122 3.2.1.3), a SYN neither. */
static void leaves_loopback(void) {
    static const uint8_t flags[] = {SYN, ACK, SYN | ACK, FIN | ACK, RST, 0};
    static const uint8_t sources[][4] = {{127, 0, 0, 1}, {127, 255, 255, 254}}, peer[4] = {10, 0, 0, 2};
    iface host = IFACE_NONE;
    iface_streams tcp = IFACE_STREAMS_NONE;
    make(&host, 4), make_streams(&tcp, &host, 1), listen_at(&tcp, 7, 1);
    for (size_t i = 0; i < 2 * sizeof flags; i++) {
        struct peer p = {4000, i % 4 < 2 ? 7 : 9, 300, 7};
        memcpy(source, sources[i % 2], 4), come(&host, second, &p, flags[i / 2], ""), memcpy(source, peer, 4);
        wants_nothing("no answer", &tcp, &host, second);
    }
    come_in(&tcp, &host, second, 4000, 7);
    must("free", iface_streams_free(&tcp, &host)), must("free", iface_free(&host));
}

/* An accepted connection whose peer is gone without a word ends after twenty minutes (RFC 9293 3.8.4), unless it isn't asked. */
static void ends_in_silence(int is_asked) {
    iface host = IFACE_NONE;
    iface_streams tcp = IFACE_STREAMS_NONE;
    struct iface_stream s = {77, 77};
    int64_t at = 77, now = second;
    unsigned questions = 0;
    make(&host, 4), make_streams(&tcp, &host, 1);
    size_t listener = listen_at(&tcp, 7, 1);
    struct peer p = come_in(&tcp, &host, second, 4000, 7);
    must("accept", iface_stream_accept(&tcp, listener, &s));
    if (!is_asked) must("keep-alive", iface_stream_set_keep_alive(&tcp, &s, 0));
    wants_nothing("nothing is sent", &tcp, &host, second), must("due", iface_streams_poll_at(&tcp, &at));
    if (!is_asked) wants("never due", at == IFACE_NEVER, 1), wants_state(&tcp, &s, IFACE_ESTABLISHED);
    for (; at != IFACE_NEVER && questions < 20; must("due", iface_streams_poll_at(&tcp, &at))) {
        struct segment asked = turn(&tcp, &host, now = at);
        if (asked.length == (size_t)-1) continue;
        if (!(asked.flags & RST)) questions++, wants("before the next number", asked.seq, p.ack - 1);
    }
    if (is_asked) {
        wants("nine questions", questions, 9), wants("twenty minutes", now == second + 1200 * second, 1);
        wants_state(&tcp, &s, IFACE_CLOSED), wants_ending(&tcp, &s, IFACE_TIMED_OUT);
    }
    must("free", iface_streams_free(&tcp, &host)), must("free", iface_free(&host));
}

/* Beside 100,000 SYNs in five seconds, with sixteen places, a connection that was there loses nothing. connect makes one in a round trip of
 * any length, and so does a peer. */
static void stands_a_flood(int64_t round_trip) {
    iface host = IFACE_NONE;
    iface_streams tcp = IFACE_STREAMS_NONE;
    struct iface_stream kept = {77, 77}, own = {77, 77};
    struct iface_endpoint local = {IFACE_ANY, 40000};
    struct peer far = {80, 40000, 5000, 0}, late = {4500, 7, 1000, 0};
    struct iface_stream fresh = {77, 77};
    uint32_t came = 0, went = 0;
    size_t n = 77;
    make(&host, 4), make_streams(&tcp, &host, 16);
    size_t listener = listen_at(&tcp, 7, 16);
    struct peer p = come_in(&tcp, &host, second, 4000, 7);
    must("accept", iface_stream_accept(&tcp, listener, &kept));
    for (int64_t i = 0; i < 100000; i++) {
        int64_t now = second + 50 * i;
        struct peer half = {(uint16_t)(5000 + i % 60000), 7, (uint32_t)i, 0};
        source[3] = 3, come(&host, now, &half, SYN, ""), source[3] = 2;
        if (now == 2 * second) must("connect", iface_stream_connect(&tcp, &host, now, &local, &at_peer, &own));
        if (now == 2 * second + round_trip) come(&host, now, &far, SYN | ACK, "");
        if (now == 3 * second) come(&host, now, &late, SYN, ""), late.seq++;
        if (now == 3 * second + round_trip) come(&host, now, &late, ACK | PSH, "late"), late.seq += 4;
        if (i % 1000 == 0) {
            come(&host, now, &p, ACK | PSH, "a"), p.seq++, must("poll", iface_streams_poll(&tcp, &host, now));
            must("receive", iface_stream_receive(&tcp, &kept, octets, sizeof octets, &n)), came += (uint32_t)n;
            must("send", iface_stream_send(&tcp, &kept, (const uint8_t *)"b", 1, &n)), wants("taken", n, 1);
        }
        must("poll", iface_streams_poll(&tcp, &host, now));
        for (struct segment s = next(&host, now); s.length != (size_t)-1; s = next(&host, now)) {
            if (s.to == 80 && s.flags == SYN) far.ack = s.seq + 1;
            if (s.to == 4500 && s.flags == (SYN | ACK)) late.ack = s.seq + 1;
            if (s.to != 4000 || s.length != 1) continue;
            wants("the next octet", s.seq, p.ack), p.ack++, went++, come(&host, now, &p, ACK, "");
        }
    }
    wants("a hundred octets came", came, 100), wants("and went", went, 100), wants_state(&tcp, &kept, IFACE_ESTABLISHED);
    wants_state(&tcp, &own, IFACE_ESTABLISHED);
    must("accept", iface_stream_accept(&tcp, listener, &fresh));
    must("receive", iface_stream_receive(&tcp, &fresh, octets, sizeof octets, &n)), wants("what came first", n, 4);
    writes(&tcp, &host, 6 * second, &fresh, &late, "and went on");
    must("free", iface_streams_free(&tcp, &host)), must("free", iface_free(&host));
}

static void wants_change(iface_streams *tcp, const char *what, const struct iface_stream *want) {
    struct iface_stream is = {77, 77};
    uint32_t code = iface_streams_changed(tcp, &is);
    if (want == NULL) wants(what, code, IFACE_EMPTY), wants("nothing is written", is.place == 77 && is.generation == 77, 1);
    else must(what, code), wants("this one", is.place == want->place && is.generation == want->generation, 1);
}

/* A program is told of each connection that changed, once, and of no other one: of those that changed first first. */
static void tells_changes(void) {
    iface host = IFACE_NONE;
    iface_streams tcp = IFACE_STREAMS_NONE;
    struct iface_stream a = {77, 77}, b = a, c = a;
    size_t n = 77;
    wants("no connections", iface_streams_changed(&tcp, &a), IFACE_NO_STREAMS);
    make(&host, 4), make_streams(&tcp, &host, 4), wants_change(&tcp, "none", NULL);
    size_t listener = listen_at(&tcp, 7, 4);
    struct peer p = come_in(&tcp, &host, second, 4000, 7), q = come_in(&tcp, &host, second, 4001, 7), r;
    wants_change(&tcp, "none is the program's", NULL);
    must("accept", iface_stream_accept(&tcp, listener, &a)), wants_change(&tcp, "accepted", &a), wants_change(&tcp, "no more", NULL);
    must("accept", iface_stream_accept(&tcp, listener, &b)), wants_change(&tcp, "accepted", &b), wants_change(&tcp, "no more", NULL);
    r = go_out(&tcp, &host, second, 40000, &c), wants_change(&tcp, "established", &c), wants_change(&tcp, "no more", NULL);
    /* octets that came, first at the second, and no second time before more come */
    come(&host, 2 * second, &q, ACK | PSH, "b"), q.seq++, turn(&tcp, &host, 2 * second);
    come(&host, 3 * second, &p, ACK | PSH, "a"), p.seq++, turn(&tcp, &host, 3 * second);
    come(&host, 4 * second, &q, ACK | PSH, "b"), q.seq++, turn(&tcp, &host, 4 * second);
    wants_change(&tcp, "came first", &b), wants_change(&tcp, "came then", &a), wants_change(&tcp, "no more", NULL);
    must("receive", iface_stream_receive(&tcp, &a, octets, sizeof octets, &n)), wants_change(&tcp, "who reads knows", NULL);
    /* what tells nothing new: the same octet again, and an acknowledgement alone */
    p.seq--, come(&host, 5 * second, &p, ACK | PSH, "a"), p.seq++, come(&host, 5 * second, &p, ACK, "");
    turn(&tcp, &host, 5 * second), wants_change(&tcp, "nothing new", NULL);
    /* room to write comes back */
    must("send", iface_stream_send(&tcp, &a, (const uint8_t *)"abc", 3, &n)), wants("sent", turn(&tcp, &host, 5 * second).length, 3);
    wants_change(&tcp, "who writes knows", NULL);
    p.ack += 3, come(&host, 5 * second, &p, ACK, ""), turn(&tcp, &host, 5 * second), wants_change(&tcp, "acknowledged", &a);
    /* ends: by the peer's end, by a reset, by a timer, and by who released it */
    come(&host, 6 * second, &p, ACK | FIN, ""), turn(&tcp, &host, 6 * second), wants_change(&tcp, "its end", &a);
    come(&host, 6 * second, &q, RST, ""), turn(&tcp, &host, 6 * second), wants_change(&tcp, "a reset", &b);
    wants_state(&tcp, &b, IFACE_CLOSED), wants_change(&tcp, "no more", NULL);
    must("timeout", iface_stream_set_timeout(&tcp, &c, 1000000)), must("send", iface_stream_send(&tcp, &c, (const uint8_t *)"a", 1, &n));
    turn(&tcp, &host, 6 * second), wants_change(&tcp, "not yet", NULL), turn(&tcp, &host, 7 * second), wants_change(&tcp, "a timer", &c);
    wants_ending(&tcp, &c, IFACE_TIMED_OUT), wants_change(&tcp, "no more", NULL);
    come(&host, 8 * second, &r, ACK, ""), come(&host, 8 * second, &p, ACK | PSH, "a"), turn(&tcp, &host, 8 * second);
    must("release", iface_stream_release(&tcp, &a)), turn(&tcp, &host, 8 * second), wants_change(&tcp, "no more", NULL);
    must("free", iface_streams_free(&tcp, &host)), must("free", iface_free(&host));
}

/* A connection that was released ends within two minutes, though its peer keeps its window closed and answers each probe (RFC 6429 5):
 * with a user time-out, or keep-alive, too. Its place is free then. */
static void ends_after_release(uint64_t timeout, uint64_t keep_alive) {
    iface host = IFACE_NONE;
    iface_streams tcp = IFACE_STREAMS_NONE;
    struct iface_stream s = {77, 77}, other = {77, 77};
    struct iface_endpoint local = {IFACE_ANY, 40000};
    int64_t now = second, end = now + 120 * second;
    size_t n = 77;
    make(&host, 4), make_streams(&tcp, &host, 1);
    size_t listener = listen_at(&tcp, 7, 4);
    struct peer p = come_in(&tcp, &host, second, 4000, 7);
    must("accept", iface_stream_accept(&tcp, listener, &s));
    must("timeout", iface_stream_set_timeout(&tcp, &s, timeout)), must("keep-alive", iface_stream_set_keep_alive(&tcp, &s, keep_alive));
    come_with(&host, second, &p, ACK | FIN, 0, ""), p.seq++;
    wants("the end is acknowledged", turn(&tcp, &host, second).ack, p.seq);
    must("send", iface_stream_send(&tcp, &s, (const uint8_t *)"page", 4, &n)), wants("all octets", n, 4);
    must("close", iface_stream_close(&tcp, &s)), wants_state(&tcp, &s, IFACE_LAST_ACK);
    must("release", iface_stream_release(&tcp, &s)), wants_nothing("nothing is sent", &tcp, &host, now);
    struct segment segment = {.length = (size_t)-1};
    int probes = 0;
    while (now < end) {
        must("due", iface_streams_poll_at(&tcp, &now)), wants("no later than the end", now <= end, 1);
        segment = turn(&tcp, &host, now);
        if (segment.length == (size_t)-1 || segment.flags & RST) continue;
        wants("a probe of an octet, or a question", segment.length <= 1, 1), probes++;
        wants("no place", iface_stream_connect(&tcp, &host, now, &local, &at_peer, &other), IFACE_TABLE_FULL);
        come_with(&host, now, &p, ACK, 0, "");
    }
    wants("some were answered", probes > 2, 1), wants("at the end", now == end, 1);
    wants("a reset", segment.flags & RST, RST), wants("to this peer", segment.to, 4000);
    wants_nothing("nothing more", &tcp, &host, now);
    must("connect", iface_stream_connect(&tcp, &host, now, &local, &at_peer, &other));
    must("free", iface_streams_free(&tcp, &host)), must("free", iface_free(&host));
}

/* So does one in TIME-WAIT, though its peer sends its end again and again. */
static void ends_time_wait(void) {
    iface host = IFACE_NONE;
    iface_streams tcp = IFACE_STREAMS_NONE;
    struct iface_stream s = {77, 77};
    int64_t at = 77;
    make(&host, 4), make_streams(&tcp, &host, 1);
    struct peer p = go_out(&tcp, &host, second, 40000, &s);
    closes_first(&tcp, &host, second, &s, &p), lets_go(&tcp, &host, second, &s);
    p.seq--;
    for (int64_t now = 31 * second; now < 121 * second; now += 30 * second) {
        come(&host, now, &p, ACK | FIN, "");
        wants("the end is acknowledged", turn(&tcp, &host, now).flags, ACK), wants_nothing("nothing more", &tcp, &host, now);
    }
    must("due", iface_streams_poll_at(&tcp, &at)), wants("two minutes after release", (uint64_t)at, (uint64_t)(121 * second));
    wants("a reset", turn(&tcp, &host, at).flags & RST, RST), wants_nothing("nothing more", &tcp, &host, at);
    must("due", iface_streams_poll_at(&tcp, &at)), wants("never", at == IFACE_NEVER, 1);
    must("free", iface_streams_free(&tcp, &host)), must("free", iface_free(&host));
}

static void wants_no_stream(iface_streams *tcp, const struct iface_stream *s, uint32_t want) {
    struct iface_endpoint end = {IFACE_ANY, 77};
    uint32_t number = 77;
    size_t n = 77, m = 77;
    octets[0] = 77;
    wants("send", iface_stream_send(tcp, s, octets, 1, &n), want), wants("receive", iface_stream_receive(tcp, s, octets, 1, &n), want);
    wants("peek", iface_stream_peek(tcp, s, octets, 1, &n), want), wants("close", iface_stream_close(tcp, s), want);
    wants("abort", iface_stream_abort(tcp, s), want), wants("release", iface_stream_release(tcp, s), want);
    wants("rooms", iface_stream_rooms(tcp, s, &n, &m), want), wants("ends", iface_stream_ends(tcp, s, &end, &end), want);
    wants("state", iface_stream_state(tcp, s, &number), want), wants("ending", iface_stream_ending(tcp, s, &number), want);
    wants("nagle", iface_stream_set_nagle(tcp, s, 1), want), wants("delay", iface_stream_set_ack_delay(tcp, s, 1), want);
    wants("keep-alive", iface_stream_set_keep_alive(tcp, s, 1), want), wants("timeout", iface_stream_set_timeout(tcp, s, 1), want);
    wants("hop limit", iface_stream_set_hop_limit(tcp, s, 1), want);
    wants("nothing written", number == 77 && n == 77 && m == 77 && octets[0] == 77 && end.port == 77, 1);
}

static void refuses_new(iface_streams *tcp, iface *host, struct iface_streams_config config, const char *what) {
    wants(what, iface_streams_new(tcp, host, &config), IFACE_BAD_ARGUMENT);
}

static void refuses(void) {
    iface host = IFACE_NONE, other = IFACE_NONE;
    iface_streams tcp = IFACE_STREAMS_NONE;
    struct iface_streams_config config;
    struct iface_stream s = {77, 77}, wrong;
    struct iface_endpoint local = {IFACE_ANY, 7}, end = {IFACE_ANY, 40000}, bad = {{5, {0}}, 7}, group = {{4, {224, 0, 0, 1}}, 7};
    struct iface_endpoint at_port_0 = at_peer, v6 = {{6, {0x20, 1}}, 80};
    struct iface_queue received, to_send;
    size_t listener = 77;
    int64_t at = 77;
    wants("no connections", iface_streams_poll(&tcp, &host, 0), IFACE_NO_STREAMS);
    wants("no connections", iface_streams_poll_at(&tcp, &at), IFACE_NO_STREAMS);
    wants("no connections", iface_streams_free(&tcp, &host), IFACE_NO_STREAMS);
    wants("no connections", iface_stream_listen(&tcp, &local, 1, &listener), IFACE_NO_STREAMS);
    wants("no connections", iface_stream_accept(&tcp, 0, &s), IFACE_NO_STREAMS);
    wants("no connections", iface_stream_close_listener(&tcp, 0), IFACE_NO_STREAMS);
    wants("no connections", iface_stream_connect(&tcp, &host, 0, &end, &at_peer, &s), IFACE_NO_STREAMS);
    wants_no_stream(&tcp, &s, IFACE_NO_STREAMS);
    iface_streams_config_init(&config);
    refuses_new(&tcp, &host, config, "no secrets");
    config.table_key[1] = 1, refuses_new(&tcp, &host, config, "no secret of numbers");
    config.table_key[1] = 0, config.number_key[31] = 1, refuses_new(&tcp, &host, config, "no secret of ends");
    config.table_key[1] = 1;
    wants("no host", iface_streams_new(&tcp, &host, &config), IFACE_NO_HOST);
    make(&host, 3);
    wants("three sockets", iface_streams_new(&tcp, &host, &config), IFACE_TABLE_FULL);
    wants("none was opened", iface_queues(&host, 0, &received, &to_send), IFACE_NO_SOCKET);
    struct iface_streams_config no = config;
    no.places = 0, refuses_new(&tcp, &host, no, "no places");
    no.places = (1u << 30) + 1, refuses_new(&tcp, &host, no, "too many places");
    no = config, no.send_room = (1u << 30) + 1, refuses_new(&tcp, &host, no, "too much room");
    no = config, no.receive_room = (1u << 30) + 1, refuses_new(&tcp, &host, no, "too much room");
    no = config, no.ipv4 = no.ipv6 = 0, refuses_new(&tcp, &host, no, "neither family");
    no = config, no.places = 1u << 30, no.send_room = 1u << 30, no.ipv6 = 0;
    wants("no memory", iface_streams_new(&tcp, &host, &no), IFACE_NO_MEMORY);
    wants("none was opened", iface_queues(&host, 0, &received, &to_send), IFACE_NO_SOCKET);
    config.ipv6 = 0, config.places = 1, must("over IPv4", iface_streams_new(&tcp, &host, &config));
    must("a socket", iface_queues(&host, 1, &received, &to_send));
    wants("no third", iface_queues(&host, 2, &received, &to_send), IFACE_NO_SOCKET);
    iface_streams copy = tcp;
    no.places = 0;
    wants("connections are there", iface_streams_new(&tcp, &host, &no), IFACE_HAS_STREAMS);
    wants("handle kept", memcmp(&copy, &tcp, sizeof tcp) == 0, 1);
    wants("no host", iface_streams_poll(&tcp, &other, 0), IFACE_NO_HOST);
    wants("moment", iface_streams_poll(&tcp, &host, -1), IFACE_BAD_MOMENT);
    wants("moment", iface_streams_poll(&tcp, &host, IFACE_LAST_MOMENT + 1), IFACE_BAD_MOMENT);
    wants("bad address", iface_stream_listen(&tcp, &bad, 1, &listener), IFACE_BAD_ARGUMENT);
    local.port = 0, wants("port 0", iface_stream_listen(&tcp, &local, 1, &listener), IFACE_BAD_PORT);
    wants("a group", iface_stream_listen(&tcp, &group, 1, &listener), IFACE_BAD_ADDRESS);
    wants("no listener", iface_stream_accept(&tcp, 3, &s), IFACE_EMPTY);
    wants("no listener", iface_stream_close_listener(&tcp, 0), IFACE_NOT_THERE);
    wants("bad address", iface_stream_connect(&tcp, &host, -1, &bad, &at_peer, &s), IFACE_BAD_ARGUMENT);
    wants("bad address", iface_stream_connect(&tcp, &host, -1, &end, &bad, &s), IFACE_BAD_ARGUMENT);
    wants("no host", iface_stream_connect(&tcp, &other, -1, &end, &at_peer, &s), IFACE_NO_HOST);
    wants("moment", iface_stream_connect(&tcp, &host, -1, &local, &at_peer, &s), IFACE_BAD_MOMENT);
    wants("port 0", iface_stream_connect(&tcp, &host, 0, &local, &at_peer, &s), IFACE_BAD_PORT);
    at_port_0.port = 0, wants("port 0", iface_stream_connect(&tcp, &host, 0, &end, &at_port_0, &s), IFACE_BAD_PORT);
    wants("a group", iface_stream_connect(&tcp, &host, 0, &end, &group, &s), IFACE_BAD_ADDRESS);
    wants("a group", iface_stream_connect(&tcp, &host, 0, &group, &at_peer, &s), IFACE_BAD_ADDRESS);
    end.address = at_peer.address, wants("two families", iface_stream_connect(&tcp, &host, 0, &end, &v6, &s), IFACE_BAD_ADDRESS);
    /* beyond the own network without a route, and by one that ends at a moment (RFC 1122, 3.3.1) */
    const struct iface_endpoint far = {{4, {198, 51, 100, 1}}, 80};
    const struct iface_address far_network = {4, {198, 51, 100, 0}};
    end.address.version = 0;
    wants("no route", iface_stream_connect(&tcp, &host, 0, &end, &far, &s), IFACE_NO_ROUTE);
    must("a route", iface_add_route_until(&host, &far_network, 24, &at_peer.address, second));
    wants("that has ended", iface_stream_connect(&tcp, &host, second + 1, &end, &far, &s), IFACE_NO_ROUTE);
    wants_no_stream(&tcp, &s, IFACE_NO_SOCKET);
    wants("nothing written", s.place == 77 && s.generation == 77 && listener == 77 && at == 77, 1);
    end.address.version = 0, must("connect", iface_stream_connect(&tcp, &host, 0, &end, &at_peer, &s));
    wants("in use", iface_stream_connect(&tcp, &host, 0, &end, &at_peer, &wrong), IFACE_IN_USE);
    end.port++, wants("no place", iface_stream_connect(&tcp, &host, 0, &end, &at_peer, &wrong), IFACE_TABLE_FULL);
    wrong = s, wrong.generation++, wants_no_stream(&tcp, &wrong, IFACE_NO_SOCKET);
    wrong = s, wrong.place++, wants_no_stream(&tcp, &wrong, IFACE_NO_SOCKET);
    must("nagle", iface_stream_set_nagle(&tcp, &s, 0)), must("delay", iface_stream_set_ack_delay(&tcp, &s, 1000));
    must("keep-alive", iface_stream_set_keep_alive(&tcp, &s, 0)), must("release", iface_stream_release(&tcp, &s));
    must("free", iface_streams_free(&tcp, &host));
    wants("its sockets are closed", iface_queues(&host, 0, &received, &to_send), IFACE_NO_SOCKET);
    wants("free again", iface_streams_free(&tcp, &host), IFACE_NO_STREAMS);
    must("again", iface_streams_new(&tcp, &host, &config)), must("free", iface_free(&host));
    must("without the host", iface_streams_free(&tcp, &host));
}

int main(void) {
    serves();
    connects();
    cuts();
    answers_few(0);
    answers_few(77);
    serves_eight();
    fills_a_room();
    passes_routers();
    closes_a_listener();
    serves_beyond_time_wait();
    serves_pages();
    keeps_time_wait();
    reopens();
    gives_way();
    takes_cookies();
    resets_a_handshake();
    skips_urgent();
    leaves_loopback();
    ends_in_silence(1);
    ends_in_silence(0);
    tells_changes();
    stands_a_flood(50), stands_a_flood(1000), stands_a_flood(20000), stands_a_flood(100000), stands_a_flood(1000000);
    ends_after_release(0, 0);
    ends_after_release(300000000, 0);
    ends_after_release(0, 1000000);
    ends_after_release(300000000, 7000000);
    ends_time_wait();
    refuses();
    printf("streams: %d checks: %d wrong\n", checks, failures);
    return failures != 0;
}
