/* Does one thing of TCP over and over, to a host behind tcp_host.h, for callgrind to count what the host takes. The peer's
 * segments are written here by hand, so each host gets the same ones, but for the numbers that it chose itself. The peer
 * acknowledges each second segment; its window is 65,535.
 *
 *   tcp_bench WORK ROUNDS [CONNECTIONS]
 *
 *   receive    a segment of 1,460 octets arrives and is read
 *   send       1,460 octets are written, sent and acknowledged
 *   echo       a request of 64 octets arrives and is read, and an answer of 64 is written and sent; connections by turns
 *   connect    a connection comes, an octet each way, and ends: the peer ends first
 *   poll       nothing is due; a poll at the same moment
 *   tick       nothing is due; a poll each 250 ms
 */
#include "../examples/octets.h"
#include "tcp_host.h"

#include <stdio.h>
#include <stdlib.h>

enum { FULL = 1460, SHORT = 64, HEADERS = 54, FIN = 1, SYN = 2, PSH = 8, ACK = 16 };

/* The peer's end of a connection. */
static struct peer {
    uint16_t port;
    uint32_t seq, expected;
} peers[MOST_CONNECTIONS];

static int64_t now = 1000000;
static unsigned long frames, octets_sent;
/* Of the host's last segment. */
static uint8_t last[HEADERS];

static void put_32(uint8_t *at, uint32_t n) {
    put_16(at, n >> 16), put_16(at + 2, n & 0xffff);
}

void bench_sent(const uint8_t *frame, size_t length) {
    memcpy(last, frame, length < HEADERS ? length : HEADERS);
    frames++;
    octets_sent += length;
}

static void must(int is_so, const char *what) {
    if (is_so) return;
    fprintf(stderr, "tcp_bench: %s\n", what);
    exit(1);
}

/* A segment of a peer arrives, and the host does what is due. */
static void segment(struct peer *p, uint8_t control, size_t length) {
    static uint8_t frame[HEADERS + 4 + FULL];
    static const uint8_t head[] = {2, 0, 0, 0, 0, 1, 2, 0, 0, 0, 0, 2, 8, 0, 0x45, 0, 0, 0, 0, 0, 0x40, 0, 64, 6, 0, 0,
                                   192, 168, 69, 2, 192, 168, 69, 1};
    size_t options = control & SYN ? 4 : 0, tcp_length = 20 + options + length;
    uint8_t *ip = frame + 14, *tcp = frame + 34;
    memcpy(frame, head, sizeof head);
    put_16(ip + 2, (uint32_t)(20 + tcp_length));
    put_16(ip + 10, checksum_of(0, ip, 20));
    memset(tcp, 0, 24);
    put_16(tcp, p->port), put_16(tcp + 2, 7);
    put_32(tcp + 4, p->seq), put_32(tcp + 8, control & ACK ? p->expected : 0);
    tcp[12] = (uint8_t)((5 + options / 4) << 4), tcp[13] = control;
    put_16(tcp + 14, 65535);
    if (options) tcp[20] = 2, tcp[21] = 4, put_16(tcp + 22, FULL);
    put_16(tcp + 16, checksum_of(sum_of(6 + (uint32_t)tcp_length, ip + 12, 8), tcp, tcp_length));
    p->seq += (uint32_t)length + !!(control & (SYN | FIN));
    now += 100;
    host_at(now);
    host_take(frame, 34 + tcp_length);
    host_poll();
}

/* The number that the host's last segment leaves to be sent next. */
static uint32_t after_last(void) {
    return (uint32_t)get_16(last + 38) << 16 | get_16(last + 40);
}

/* A connection comes, and the host accepts it. Returns its number. */
static int begin(struct peer *p, uint16_t port) {
    p->port = port, p->seq = 1000000u * port, p->expected = 0;
    segment(p, SYN, 0);
    must((last[47] & (SYN | ACK)) == (SYN | ACK), "no connection");
    p->expected = after_last() + 1;
    segment(p, ACK, 0);
    int c = host_accept();
    must(c >= 0, "nothing to accept");
    return c;
}

static uint8_t octets[FULL];

static void receive(int c, struct peer *p) {
    segment(p, ACK | PSH, FULL);
    must(host_read(c, octets, sizeof octets) == FULL, "not read");
}

static void send(int c, struct peer *p, unsigned long round) {
    unsigned long before = octets_sent;
    host_at(now += 100);
    must(host_write(c, octets, FULL) == FULL, "not written");
    host_poll();
    must(octets_sent - before == HEADERS + FULL, "not sent");
    p->expected += FULL;
    if (round % 2) segment(p, ACK, 0);
}

static void echo(int c, struct peer *p) {
    segment(p, ACK | PSH, SHORT);
    must(host_read(c, octets, sizeof octets) == SHORT && host_write(c, octets, SHORT) == SHORT, "not read and written");
    host_poll();
    must(after_last() == p->expected, "no answer");
    p->expected += SHORT;
}

static void connect(struct peer *p, unsigned long round) {
    int c = begin(p, (uint16_t)(20000 + round % 20000));
    segment(p, ACK | PSH, 1);
    must(host_read(c, octets, 1) == 1 && host_write(c, octets, 1) == 1, "no octet");
    host_poll();
    p->expected++;
    segment(p, ACK | FIN, 0);
    host_close(c);
    host_poll();
    must(last[47] & FIN, "no end");
    p->expected++;
    segment(p, ACK, 0);
}

int main(int argc, char **argv) {
    static const uint8_t arp[] = {2, 0, 0, 0, 0, 1, 2, 0, 0, 0, 0, 2, 8, 6, 0, 1, 8, 0, 6, 4, 0, 1, 2, 0, 0, 0, 0, 2,
                                  192, 168, 69, 2, 0, 0, 0, 0, 0, 0, 192, 168, 69, 1};
    if (argc < 3) return 2;
    const char *work = argv[1];
    unsigned long rounds = strtoul(argv[2], NULL, 10);
    int count = argc > 3 ? atoi(argv[3]) : 1;
    must(count >= 1 && count < MOST_CONNECTIONS, "so many connections aren't there");
    for (size_t i = 0; i < FULL; i++) octets[i] = (uint8_t)i;
    host_at(now);
    host_new();
    host_take(arp, sizeof arp);
    host_poll();
    for (int i = 0; i < count; i++) must(begin(&peers[i], (uint16_t)(1024 + i)) == i, "another number");
    for (unsigned long round = 0; round < rounds; round++) {
        int c = (int)(round % (unsigned long)count);
        if (strcmp(work, "receive") == 0) receive(c, &peers[c]);
        else if (strcmp(work, "send") == 0) send(c, &peers[c], round);
        else if (strcmp(work, "echo") == 0) echo(c, &peers[c]);
        else if (strcmp(work, "connect") == 0) connect(&peers[count], round);
        else if (strcmp(work, "poll") == 0) host_poll();
        else if (strcmp(work, "tick") == 0) host_at(now += 250000), host_poll();
        else return 2;
    }
    printf("%s: %lu rounds, %lu frames, %lu octets sent\n", work, rounds, frames, octets_sent);
    return 0;
}
