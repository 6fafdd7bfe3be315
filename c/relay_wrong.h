/* What a relay does wrong on purpose, so that who measures by it can show that such a thing is seen. A host that did it would
 * break RFC 9293, so each of these stands for a host with this bug. */
#ifndef RELAY_WRONG_H
#define RELAY_WRONG_H

#include "examples/octets.h"

#include <stdio.h>

enum { TO, FROM }; /* the ways: to the program, and from it */

enum { FIN = 1, SYN = 2, RST = 4, PSH = 8, ACK = 16 };

/* A segment in a frame. */
struct segment {
    int way, version;
    uint8_t *ip, *tcp, *payload;
    size_t length; /* of the payload */
    uint8_t control;
    uint32_t seq, ack;
    unsigned port; /* of the peer, which is not the program */
};

static uint32_t get_32(const uint8_t *at) {
    return (uint32_t)get_16(at) << 16 | get_16(at + 2);
}

static void put_32(uint8_t *at, uint32_t n) {
    put_16(at, n >> 16), put_16(at + 2, n & 0xffff);
}

/* Whether a frame has a segment of TCP, and which. */
static int read_segment(struct segment *s, int way, uint8_t *frame, size_t length) {
    unsigned type = length < 14 + 40 ? 0 : get_16(frame + 12);
    uint8_t *ip = frame + 14;
    if (type != 0x0800 && type != 0x86dd) return 0;
    size_t header = type == 0x0800 ? (size_t)(ip[0] & 15) * 4 : 40;
    size_t whole = type == 0x0800 ? get_16(ip + 2) : 40u + get_16(ip + 4);
    if (ip[type == 0x0800 ? 9 : 6] != 6 || whole > length - 14 || whole < header + 20) return 0;
    uint8_t *tcp = ip + header;
    size_t offset = (size_t)(tcp[12] >> 4) * 4;
    if (offset < 20 || header + offset > whole) return 0;
    *s = (struct segment){.way = way, .version = type == 0x0800 ? 4 : 6, .ip = ip, .tcp = tcp, .payload = tcp + offset,
                          .length = whole - header - offset, .control = tcp[13], .seq = get_32(tcp + 4),
                          .ack = get_32(tcp + 8), .port = get_16(tcp + (way == TO ? 0 : 2))};
    return 1;
}

/* Writes the checksum of a segment that was changed. */
static void mend(const struct segment *s) {
    size_t length = (size_t)(s->payload - s->tcp) + s->length;
    const uint8_t *addresses = s->ip + (s->version == 4 ? 12 : 8);
    put_16(s->tcp + 16, 0);
    uint32_t sum = sum_of(6 + (uint32_t)length, addresses, s->version == 4 ? 8 : 32);
    put_16(s->tcp + 16, checksum_of(sum, s->tcp, length));
}

/* Whether so many things of a kind have come: of these each n-th one, since one of them may be lost afterwards. */
static int is_turn(unsigned long *count, unsigned long n) {
    return ++*count % n == 0;
}

static int is_data_from(const struct segment *s) {
    return s->way == FROM && s->length > 0;
}

/* The wrongs: whether the segment goes on, changed or not. */

static int one_octet(struct segment *s) {
    static unsigned long count;
    if (!is_data_from(s) || !is_turn(&count, 100)) return 1;
    s->payload[s->length / 2] ^= 0x20;
    mend(s);
    return 1;
}

static int no_checksum(struct segment *s) {
    if (is_data_from(s)) put_16(s->tcp + 16, get_16(s->tcp + 16) ^ 1u);
    return 1;
}

static int no_end(struct segment *s) {
    return s->way == TO || !(s->control & FIN);
}

static int end_too_early(struct segment *s) {
    static unsigned long count;
    if (!is_data_from(s) || !is_turn(&count, 100)) return 1;
    s->tcp[13] |= FIN;
    mend(s);
    return 1;
}

/* What is sent again isn't what was sent before. */
static int other_octets_again(struct segment *s) {
    static uint32_t top;
    static unsigned port;
    if (!is_data_from(s)) return 1;
    if (s->port != port) port = s->port, top = s->seq;
    int32_t ahead = (int32_t)(s->seq + (uint32_t)s->length - top);
    if (ahead > 0) top += (uint32_t)ahead;
    else s->payload[0] ^= 0x20, mend(s);
    return 1;
}

static int no_reset(struct segment *s) {
    return s->way == TO || !(s->control & RST);
}

static int wrong_reset(struct segment *s) {
    if (s->way == FROM && (s->control & RST)) put_32(s->tcp + 8, s->ack + 1), mend(s);
    return 1;
}

static int other_reset(struct segment *s) {
    if (s->way == FROM && (s->control & RST)) put_32(s->tcp + 4, s->seq + 1), mend(s);
    return 1;
}

static int refuses(struct segment *s) {
    if (s->way == TO || (s->control & (SYN | ACK)) != (SYN | ACK)) return 1;
    s->tcp[13] = RST | ACK;
    put_32(s->tcp + 4, 0);
    mend(s);
    return 1;
}

static int deaf_to_resets(struct segment *s) {
    return s->way == FROM || !(s->control & RST);
}

static int closed_window(struct segment *s) {
    static unsigned long count;
    if (s->way == TO || ++count < 200) return 1;
    put_16(s->tcp + 14, 0);
    mend(s);
    return 1;
}

static int window_ignored(struct segment *s) {
    if (s->way == TO && get_16(s->tcp + 14) == 0 && !(s->control & RST)) put_16(s->tcp + 14, 2000), mend(s);
    return 1;
}

/* It doesn't probe a closed window, and so doesn't learn that it was opened. */
static int no_probe(struct segment *s) {
    static unsigned closed;
    if (s->way == TO && get_16(s->tcp + 14) == 0 && !(s->control & (RST | SYN))) closed = s->port;
    return s->port != closed || s->control & RST;
}

static int half_close_resets(struct segment *s) {
    static unsigned ended;
    if (s->way == TO && (s->control & FIN)) ended = s->port;
    if (s->way == TO || s->port != ended || s->control & (RST | SYN)) return 1;
    s->tcp[13] = RST | ACK;
    mend(s);
    return 1;
}

/* It doesn't acknowledge the peer's end once it has sent its own. */
static int end_not_acknowledged(struct segment *s) {
    static unsigned ended;
    if (s->way == FROM && (s->control & FIN)) {
        ended = s->port;
        return 1;
    }
    return s->way == TO || s->port != ended || s->control & RST;
}

static int octets_twice(struct segment *s) {
    static uint8_t last[2048];
    static size_t length;
    static unsigned long count;
    if (!is_data_from(s)) return 1;
    if (s->length == length && length > 16 && is_turn(&count, 50)) memcpy(s->payload, last, length), mend(s);
    length = s->length;
    memcpy(last, s->payload, length);
    return 1;
}

/* Octets of one connection come in another one. */
static int crossed(struct segment *s) {
    static uint8_t last[2048];
    static size_t length;
    static unsigned port;
    if (!is_data_from(s)) return 1;
    if (s->length == length && port != s->port) {
        memcpy(s->payload, last, length);
        mend(s);
        return 1;
    }
    port = s->port, length = s->length;
    memcpy(last, s->payload, length);
    return 1;
}

/* Octets that it never took are acknowledged. */
static int acknowledged_unread(struct segment *s) {
    static unsigned long count;
    static uint32_t seq, length;
    static unsigned port;
    if (s->way == TO && s->length > 1000 && ++count == 100) seq = s->seq, length = (uint32_t)s->length, port = s->port;
    if (length == 0 || s->port != port) return 1;
    if (s->way == TO) return (int32_t)(s->seq - seq) >= (int32_t)length || (int32_t)(s->seq + (uint32_t)s->length - seq) <= 0;
    if (s->ack == seq) put_32(s->tcp + 8, seq + length), mend(s);
    return 1;
}

/* A SYN of a port of which none came before is lost, after so many ports. */
static int few(const struct segment *s, unsigned most) {
    static uint8_t known[65536];
    static unsigned count;
    if (s->way == FROM || !(s->control & SYN) || known[s->port]) return 1;
    if (count == most) return 0;
    known[s->port] = 1;
    count++;
    return 1;
}

static int few_at_once(struct segment *s) {
    return few(s, 100);
}

static int few_in_all(struct segment *s) {
    return few(s, 600);
}

static int drowned(struct segment *s) {
    static unsigned long count;
    return s->way == FROM || !(s->control & SYN) || ++count < 5000;
}

static int only_ipv4(struct segment *s) {
    return s->version == 4;
}

/* What isn't acknowledged is sent again at once, and not by a timer. */
static int impatient(struct segment *s) {
    return is_data_from(s) ? 3 : 1;
}

static int edge_goes_back(struct segment *s) {
    static unsigned long count;
    if (s->way == FROM && !(s->control & (SYN | RST)) && is_turn(&count, 50))
        put_16(s->tcp + 14, get_16(s->tcp + 14) / 2u), mend(s);
    return 1;
}

static int acknowledges_too_much(struct segment *s) {
    static unsigned long count;
    if (is_data_from(s) && is_turn(&count, 50)) put_32(s->tcp + 8, s->ack + 1000000), mend(s);
    return 1;
}

/* Octets are sent, and others in their place before the peer has taken these: its checksum keeps the first ones out. */
static int changes_its_mind(struct segment *s) {
    static unsigned long count;
    if (is_data_from(s) && is_turn(&count, 50)) s->payload[0] ^= 0x20;
    return 1;
}

/* It takes a reset of any number, as RFC 5961 3 says that it must not. */
static int believes_resets(struct segment *s) {
    static uint32_t expected[65536];
    if (s->way == FROM && s->control & ACK) expected[s->port] = s->ack;
    if (s->way == TO && s->control & RST && expected[s->port]) put_32(s->tcp + 4, expected[s->port]), s->tcp[13] = RST, mend(s);
    return 1;
}

static const struct wrong {
    const char *name;
    int (*spoil)(struct segment *);
} wrongs[] = {
    {"one-octet", one_octet},
    {"octets-twice", octets_twice},
    {"checksum", no_checksum},
    {"end-missing", no_end},
    {"end-too-early", end_too_early},
    {"other-octets-again", other_octets_again},
    {"reset-missing", no_reset},
    {"reset-acknowledges-more", wrong_reset},
    {"reset-with-a-number", other_reset},
    {"refuses", refuses},
    {"deaf-to-resets", deaf_to_resets},
    {"window-stays-closed", closed_window},
    {"window-ignored", window_ignored},
    {"no-probe", no_probe},
    {"half-close-resets", half_close_resets},
    {"end-not-acknowledged", end_not_acknowledged},
    {"crossed", crossed},
    {"acknowledged-unread", acknowledged_unread},
    {"few-at-once", few_at_once},
    {"few-in-all", few_in_all},
    {"drowned", drowned},
    {"only-ipv4", only_ipv4},
    {"impatient", impatient},
    {"believes-resets", believes_resets},
    {"edge-goes-back", edge_goes_back},
    {"acknowledges-too-much", acknowledges_too_much},
    {"changes-its-mind", changes_its_mind},
};

static const struct wrong *wrong;

/* Chooses one by its name. Whether there is one; if not, all are told. */
static int choose_wrong(const char *name) {
    for (size_t i = 0; i < sizeof wrongs / sizeof *wrongs; i++)
        if (strcmp(name, wrongs[i].name) == 0) wrong = &wrongs[i];
    for (size_t i = 0; !wrong && i < sizeof wrongs / sizeof *wrongs; i++) fprintf(stderr, "%s\n", wrongs[i].name);
    return wrong != NULL;
}

/* How many copies of a frame go on: one, unless something is wrong on purpose. */
static int copies_after_wrong(int way, uint8_t *frame, size_t length) {
    struct segment s;
    return wrong && read_segment(&s, way, frame, length) ? wrong->spoil(&s) : 1;
}

#endif
