/* What the calls for DNS do, against a server's answers by RFC 1035: addresses, aliases, errors, what isn't an answer, answers that are
 * lost; names as text; and wrong use, which each call refuses by its code. */
#include "iface.h"
#include "name_answer.h"

#include <stdio.h>

static int failures, checks;

static uint8_t sent[IFACE_FRAME_ROOM], query_sent[IFACE_FRAME_ROOM], frame[IFACE_FRAME_ROOM], out[IFACE_FRAME_ROOM];

static const int64_t second = 1000000;
static const uint64_t key[2] = {0x0706050403020100, 0x0f0e0d0c0b0a0908};
static const struct iface_address none = IFACE_ANY;

static void wants(const char *what, uint64_t is, uint64_t want) {
    checks++;
    if (is == want) return;
    failures++;
    printf("WRONG: %s: %llu, not %llu\n", what, (unsigned long long)is, (unsigned long long)want);
}

static void must(const char *what, uint32_t code) {
    wants(what, code, IFACE_OK);
}

static void wants_octets(const char *what, const uint8_t *is, const char *want, size_t n) {
    wants(what, memcmp(is, want, n) == 0, 1);
}

static struct iface_address v4(uint8_t last) {
    return (struct iface_address){4, {192, 168, 69, last}};
}

/* A host of 192.168.69.1 on a link without hardware addresses, so that nobody asks for any. */
static void make_host(iface *host, uint32_t sockets) {
    struct iface_config config;
    struct iface_address own = v4(1);
    iface_config_init(&config);
    config.seed = 1, config.medium = IFACE_IP, config.frame_len = 1500, config.sockets = sockets;
    must("host", iface_new(host, &config));
    must("address", iface_add_address(host, &own, 24));
}

/* The same, and a client for two queries that asks 192.168.69.100, and where that is silent 192.168.69.101. */
static void make(iface *host, iface_dns *dns, int servers) {
    struct iface_address list[IFACE_DNS_SERVERS] = {v4(100), servers > 1 ? v4(101) : none, none};
    make_host(host, 4);
    must("client", iface_dns_new(dns, 2, key, list));
}

static void unmake(iface *host, iface_dns *dns) {
    must("free", iface_dns_free(dns, host));
    must("free", iface_free(host));
}

static size_t start(iface *host, iface_dns *dns, int64_t now, const char *name, uint32_t type) {
    size_t query = 77;
    must("start", iface_dns_start(dns, host, now, name, strlen(name), type, &query));
    return query;
}

static size_t next_frame(iface *host, int64_t now) {
    size_t n = 77;
    must("next", iface_next(host, now, sent, sizeof sent, &n));
    return n;
}

/* The client asks a server now, by a query of this question (RFC 1035, 4.1). */
static void wants_query(iface *host, iface_dns *dns, int64_t now, uint8_t server, const char *question, size_t n) {
    uint8_t to[4] = {192, 168, 69, server};
    must("poll", iface_dns_poll(dns, host, now));
    wants("a query", next_frame(host, now), IP_QUESTION + n);
    wants("of UDP over IPv4", sent[0] == 0x45 && sent[9] == 17, 1);
    wants_octets("from its address", sent + IP_SOURCE, "\300\250\105\1", 4);
    wants("to the server", memcmp(sent + IP_SOURCE + 4, to, 4) == 0, 1);
    wants("from a dynamic port", sent[IP_UDP] >= 192, 1);
    wants_octets("to port 53", sent + IP_UDP + 2, "\0\65", 2);
    wants_octets("a standard query, recursion desired, of one question", sent + IP_MESSAGE + 2, "\1\0\0\1\0\0\0\0\0\0", 10);
    wants_octets("its question", sent + IP_QUESTION, question, n);
    memcpy(query_sent, sent, sizeof sent);
    wants("nothing more", next_frame(host, now), 0);
}

/* www.example.com, of type A and class IN. */
#define WWW "\3www\7example\3com\0\0\1\0\1"
#define ASKS_WWW WWW, sizeof WWW - 1

/* An answer to the query that was sent. */
static size_t answer(const uint8_t *query, size_t query_length, const char *flags, uint8_t records, const char *octets, size_t n) {
    return name_answer(frame, query, query_length, flags, records, octets, n);
}

/* The frame arrives, and the client is called. Returns how many octets the host answers. */
static size_t arrives(iface *host, iface_dns *dns, int64_t now, size_t length) {
    size_t n = 77;
    must("receive", iface_receive(host, now, frame, length, out, sizeof out, &n));
    must("poll", iface_dns_poll(dns, host, now));
    return n;
}

static void wants_state(iface_dns *dns, size_t query, uint32_t state) {
    struct iface_dns_answer got = {.state = 77};
    must("result", iface_dns_result(dns, query, &got));
    wants("its state", got.state, state);
    if (state != IFACE_DNS_FOUND && state != IFACE_DNS_FOUND_TRUNCATED)
        for (int i = 0; i < IFACE_DNS_ADDRESSES; i++) wants("no address", got.addresses[i].version, 0);
}

static void wants_address(iface_dns *dns, size_t query, int place, uint8_t version, const char *octets) {
    struct iface_dns_answer got;
    must("result", iface_dns_result(dns, query, &got));
    wants("found", got.state, IFACE_DNS_FOUND);
    wants("its version", got.addresses[place].version, version);
    wants_octets("the address", got.addresses[place].octets, octets, version == 4 ? 4 : 16);
}

/* What an answer to a query of www.example.com makes of it. */
static void answered(const char *what, const char *flags, uint8_t records, const char *octets, size_t n, uint32_t state) {
    iface host = IFACE_NONE;
    iface_dns dns = IFACE_DNS_NONE;
    make(&host, &dns, 1);
    size_t query = start(&host, &dns, 0, "www.example.com", IFACE_DNS_A);
    wants_query(&host, &dns, 0, 100, ASKS_WWW);
    wants(what, arrives(&host, &dns, 0, answer(query_sent, IP_QUESTION + sizeof WWW - 1, flags, records, octets, n)), 0);
    wants_state(&dns, query, state);
    if (state == IFACE_DNS_FOUND) wants_address(&dns, query, 0, 4, "\300\0\2\1");
    unmake(&host, &dns);
}

static void takes_answers(void) {
    static char loop[9 * 16 + 1];
    answered("an address", GOOD, 1, RECORD_1, sizeof RECORD_1 - 1, IFACE_DNS_FOUND);
    /* www is an alias of web.example.com: its last two labels are those of the question, and the next record has its name by
     * a pointer to the data of this one, at 45 */
    static const char alias[] = "\300\14\0\5\0\1\0\0\1\54\0\6\3web\300\20" "\300\55\0\1\0\1\0\0\1\54\0\4\300\0\2\1";
    answered("an alias", GOOD, 2, alias, sizeof alias - 1, IFACE_DNS_FOUND);
    /* a chain of two, whose names are written out in capital letters once */
    static const char chain[] = "\300\14\0\5\0\1\0\0\1\54\0\6\3web\300\20" "\3WEB\7EXAMPLE\3COM\0\0\5\0\1\0\0\1\54\0\4\1a\300\20"
                                "\1a\7example\3com\0\0\1\0\1\0\0\1\54\0\4\300\0\2\1";
    answered("a chain of aliases", GOOD, 3, chain, sizeof chain - 1, IFACE_DNS_FOUND);
    /* the name is an alias of itself, nine times */
    for (int i = 0; i < 9; i++) memcpy(loop + i * 14, "\300\14\0\5\0\1\0\0\1\54\0\2\300\14", 14);
    answered("an alias of itself", GOOD, 9, loop, 9 * 14, IFACE_DNS_TOO_MANY_ALIASES);
    /* an address of another name, and text of this one, type 16 */
    static const char others[] = "\3ftp\300\20\0\1\0\1\0\0\1\54\0\4\300\0\2\11" "\300\14\0\20\0\1\0\0\1\54\0\2\1a";
    answered("records of others", GOOD, 2, others, sizeof others - 1, IFACE_DNS_NO_ADDRESS);
    answered("no record", GOOD, 0, "", 0, IFACE_DNS_NO_ADDRESS);
    answered("no such name", NO_NAME, 0, "", 0, IFACE_DNS_NO_SUCH_NAME);
    answered("truncated", CUT, 0, "", 0, IFACE_DNS_TRUNCATED);
    answered("truncated, and not whole", CUT, 2, RECORD_1, sizeof RECORD_1 - 1, IFACE_DNS_TRUNCATED);
    answered("truncated with an address", CUT, 1, RECORD_1, sizeof RECORD_1 - 1, IFACE_DNS_FOUND_TRUNCATED);
    answered("failed", FAILED, 0, "", 0, IFACE_DNS_SERVER_FAILURE);
    answered("refused", REFUSED, 0, "", 0, IFACE_DNS_SERVER_FAILURE);
    /* what isn't whole isn't counted: a record that runs out of the message, a pointer that goes forward, an address of three octets */
    answered("a short record", GOOD, 1, RECORD_1, sizeof RECORD_1 - 2, IFACE_DNS_PENDING);
    answered("a record less", GOOD, 2, RECORD_1, sizeof RECORD_1 - 1, IFACE_DNS_PENDING);
    answered("a pointer forward", GOOD, 1, "\300\77\0\1\0\1\0\0\1\54\0\4\300\0\2\1", 16, IFACE_DNS_PENDING);
    answered("three octets", GOOD, 1, "\300\14\0\1\0\1\0\0\1\54\0\3\300\0\2", 15, IFACE_DNS_PENDING);
    answered("a query", "\1\0", 1, RECORD_1, sizeof RECORD_1 - 1, IFACE_DNS_PENDING);
}

/* IPv6 addresses, the first four of five, whose socket is closed (RFC 3596). */
static void takes_ipv6(void) {
    iface host = IFACE_NONE;
    iface_dns dns = IFACE_DNS_NONE;
    struct iface_queue received, to_send;
    char records[5 * 28], want[16] = "\40\1\15\270";
    make(&host, &dns, 1);
    size_t query = start(&host, &dns, 0, "www.example.com.", IFACE_DNS_AAAA);
    wants_query(&host, &dns, 0, 100, "\3www\7example\3com\0\0\34\0\1", 21);
    must("its socket", iface_queues(&host, 0, &received, &to_send));
    for (int i = 0; i < 5; i++) memcpy(records + i * 28, "\300\14\0\34\0\1\0\0\1\54\0\20\40\1\15\270\0\0\0\0\0\0\0\0\0\0\0", 27), records[i * 28 + 27] = (char)(i + 1);
    wants("no answer", arrives(&host, &dns, 0, answer(query_sent, IP_QUESTION + 21, GOOD, 5, records, sizeof records)), 0);
    for (int i = 0; i < 4; i++) want[15] = (char)(i + 1), wants_address(&dns, query, i, 6, want);
    wants("its socket is closed", iface_queues(&host, 0, &received, &to_send), IFACE_NO_SOCKET);
    unmake(&host, &dns);
}

/* A datagram counts only if it comes from the server's port 53 to the query's port, with its number and its question (RFC 5452, 9.1). */
static void ignores_forged(void) {
    iface host = IFACE_NONE;
    iface_dns dns = IFACE_DNS_NONE;
    const size_t at[] = {IP_MESSAGE, IP_MESSAGE + 1, IP_QUESTION + 1, IP_QUESTION + 18, IP_QUESTION + 20, IP_UDP + 1, IP_MESSAGE + 5};
    const size_t asked = IP_QUESTION + sizeof WWW - 1;
    make(&host, &dns, 1);
    size_t query = start(&host, &dns, 0, "www.example.com", IFACE_DNS_A);
    wants_query(&host, &dns, 0, 100, ASKS_WWW);
    for (size_t i = 0; i < sizeof at / sizeof *at; i++) {
        size_t length = answer(query_sent, asked, GOOD, 1, RECORD_1, sizeof RECORD_1 - 1);
        frame[at[i]] ^= 1; /* its number, a letter, the type, the class, port 52, no question */
        wants("no answer", arrives(&host, &dns, 0, length), 0);
        wants_state(&dns, query, IFACE_DNS_PENDING);
    }
    /* another server, of which all else is right */
    query_sent[IP_SOURCE + 7] = 102;
    wants("no answer", arrives(&host, &dns, 0, answer(query_sent, asked, GOOD, 1, RECORD_1, sizeof RECORD_1 - 1)), 0);
    wants_state(&dns, query, IFACE_DNS_PENDING);
    query_sent[IP_SOURCE + 7] = 100;
    /* another port of the host, at which nobody listens (RFC 792) */
    query_sent[IP_UDP + 1] ^= 1;
    wants("an error", arrives(&host, &dns, 0, answer(query_sent, asked, GOOD, 1, RECORD_1, sizeof RECORD_1 - 1)) > 0, 1);
    wants_state(&dns, query, IFACE_DNS_PENDING);
    query_sent[IP_UDP + 1] ^= 1;
    wants("no answer", arrives(&host, &dns, 0, answer(query_sent, asked, GOOD, 1, RECORD_1, sizeof RECORD_1 - 1)), 0);
    wants_address(&dns, query, 0, 4, "\300\0\2\1");
    unmake(&host, &dns);
}

/* Without answers one server is asked behind the other, after two seconds, again after three, and after five, and then the query has
 * failed. */
static void gives_up(void) {
    iface host = IFACE_NONE;
    iface_dns dns = IFACE_DNS_NONE;
    const int64_t after[] = {0, 2, 4, 7, 10, 15};
    int64_t at = 77, begin = 5 * second;
    uint8_t first[IP_QUESTION + sizeof WWW - 1];
    make(&host, &dns, 2);
    must("due", iface_dns_poll_at(&dns, &at)), wants("never", at == IFACE_NEVER, 1);
    size_t query = start(&host, &dns, begin, "www.example.com", IFACE_DNS_A);
    must("due", iface_dns_poll_at(&dns, &at)), wants("at once", at <= begin, 1);
    for (int i = 0; i < 6; i++) {
        int64_t now = begin + after[i] * second;
        if (i) {
            must("due", iface_dns_poll_at(&dns, &at)), wants("its instant", (uint64_t)at, (uint64_t)now);
            must("poll", iface_dns_poll(&dns, &host, now - 1)), wants("not before", next_frame(&host, now - 1), 0);
        }
        wants_query(&host, &dns, now, (uint8_t)(100 + i % 2), ASKS_WWW);
        if (i == 0) memcpy(first, query_sent, sizeof first);
        /* the first server's answer comes when the second one has been asked */
        if (i == 1) wants("no answer", arrives(&host, &dns, now, answer(first, sizeof first, GOOD, 1, RECORD_1, sizeof RECORD_1 - 1)), 0);
        wants_state(&dns, query, IFACE_DNS_PENDING);
    }
    must("due", iface_dns_poll_at(&dns, &at)), wants("its end", (uint64_t)at, (uint64_t)(begin + 20 * second));
    must("poll", iface_dns_poll(&dns, &host, at - 1)), wants_state(&dns, query, IFACE_DNS_PENDING);
    must("poll", iface_dns_poll(&dns, &host, at)), wants_state(&dns, query, IFACE_DNS_TIMED_OUT);
    wants("no query", next_frame(&host, at), 0);
    must("due", iface_dns_poll_at(&dns, &at)), wants("never", at == IFACE_NEVER, 1);
    unmake(&host, &dns);
}

/* A server that fails or refuses isn't waited for, and the one that answers is asked first from then on (RFC 1034, 5.3.3). */
static void moves_on(void) {
    iface host = IFACE_NONE;
    iface_dns dns = IFACE_DNS_NONE;
    const size_t asked = IP_QUESTION + sizeof WWW - 1;
    const char *const refusals[] = {"\201\201", FAILED, REFUSED};
    for (size_t i = 0; i < sizeof refusals / sizeof *refusals; i++) {
        make(&host, &dns, 2);
        size_t query = start(&host, &dns, 0, "www.example.com", IFACE_DNS_A);
        wants_query(&host, &dns, 0, 100, ASKS_WWW);
        size_t length = answer(query_sent, asked, refusals[i], 0, "", 0), n = 77;
        must("receive", iface_receive(&host, 0, frame, length, out, sizeof out, &n)), wants("no answer", n, 0);
        wants_query(&host, &dns, 0, 101, ASKS_WWW), wants_state(&dns, query, IFACE_DNS_PENDING);
        wants("no answer", arrives(&host, &dns, 0, answer(query_sent, asked, GOOD, 1, RECORD_1, sizeof RECORD_1 - 1)), 0);
        wants_address(&dns, query, 0, 4, "\300\0\2\1");
        must("cancel", iface_dns_cancel(&dns, &host, query));
        start(&host, &dns, second, "www.example.com", IFACE_DNS_A), wants_query(&host, &dns, second, 101, ASKS_WWW);
        unmake(&host, &dns);
    }
}

/* A message of ICMP about the query that was sent (RFC 792), by its type and its code: from its server, with its header and eight octets. */
static size_t error_about(const uint8_t *query, uint8_t type, uint8_t code) {
    memset(frame, 0, IP_UDP + 8);
    frame[0] = 0x45, frame[3] = 56, frame[8] = 64, frame[9] = 1;
    memcpy(frame + IP_SOURCE, query + IP_SOURCE + 4, 4), memcpy(frame + IP_SOURCE + 4, query + IP_SOURCE, 4);
    frame[IP_UDP] = type, frame[IP_UDP + 1] = code, memcpy(frame + IP_UDP + 8, query, 28);
    const size_t parts[3] = {0, IP_UDP, 56};
    for (int part = 0; part < 2; part++) {
        uint32_t sum = 0;
        uint8_t *at = frame + parts[part] + (part ? 2 : 10);
        for (size_t i = parts[part]; i < parts[part + 1]; i += 2) sum += (uint32_t)(frame[i] << 8 | frame[i + 1]);
        while (sum >> 16) sum = (sum & 0xffff) + (sum >> 16);
        at[0] = (uint8_t)(~sum >> 8), at[1] = (uint8_t)~sum;
    }
    return 56;
}

/* It arrives, and nothing answers it. */
static void error_arrives(iface *host, int64_t now, size_t length) {
    size_t n = 77;
    must("receive", iface_receive(host, now, frame, length, out, sizeof out, &n)), wants("no answer", n, 0);
}

/* A closed port isn't waited for (RFC 1034, 5.3.3): at the same instant the next server is asked, and where all are closed the query has
 * failed. */
static void passes_a_closed_port(void) {
    iface host = IFACE_NONE;
    iface_dns dns = IFACE_DNS_NONE;
    uint8_t first[28];
    for (uint8_t code = 2; code <= 3; code++) {
        make(&host, &dns, 2);
        size_t query = start(&host, &dns, 0, "www.example.com", IFACE_DNS_A);
        wants_query(&host, &dns, 0, 100, ASKS_WWW), memcpy(first, query_sent, sizeof first);
        error_arrives(&host, 0, error_about(query_sent, 3, code));
        wants_query(&host, &dns, 0, 101, ASKS_WWW), wants_state(&dns, query, IFACE_DNS_PENDING);
        /* once more of the first server, which isn't the one that was asked last */
        error_arrives(&host, 0, error_about(first, 3, code));
        must("poll", iface_dns_poll(&dns, &host, 0)), wants("no query", next_frame(&host, 0), 0), wants_state(&dns, query, IFACE_DNS_PENDING);
        error_arrives(&host, 0, error_about(query_sent, 3, code));
        must("poll", iface_dns_poll(&dns, &host, 0)), wants_state(&dns, query, IFACE_DNS_SERVER_FAILURE);
        unmake(&host, &dns);
    }
}

/* The same over IPv6 (RFC 4443, 3.1): code 4 is a closed port; code 3, no such address, does nothing. */
static void passes_a_closed_port_v6(void) {
    const struct iface_address own = {6, {0xfd, [15] = 1}};
    for (uint8_t code = 3; code <= 4; code++) {
        iface host = IFACE_NONE;
        iface_dns dns = IFACE_DNS_NONE;
        struct iface_config config;
        const struct iface_address list[IFACE_DNS_SERVERS] = {{6, {0xfd, [15] = 100}}, {6, {0xfd, [15] = 101}}, none};
        iface_config_init(&config);
        config.seed = 1, config.medium = IFACE_IP, config.frame_len = 1500;
        must("host", iface_new(&host, &config)), must("address", iface_add_address(&host, &own, 64));
        must("client", iface_dns_new(&dns, 1, key, list));
        size_t query = start(&host, &dns, 0, "www.example.com", IFACE_DNS_A);
        must("poll", iface_dns_poll(&dns, &host, 0)), wants("a query", next_frame(&host, 0), IP_QUESTION + 20 + sizeof WWW - 1);
        wants("to the first server", sent[39], 100);
        /* its header, from that server; the message, which quotes 48 octets; and its sum with the pseudo-header's (RFC 8200, 8.1) */
        memset(frame, 0, 96), frame[0] = 0x60, frame[5] = 56, frame[6] = 58, frame[7] = 64;
        memcpy(frame + 8, sent + 24, 16), memcpy(frame + 24, sent + 8, 16);
        frame[40] = 1, frame[41] = code, memcpy(frame + 48, sent, 48);
        uint32_t sum = 56 + 58;
        for (int at = 8; at < 96; at += 2) sum += (uint32_t)(frame[at] << 8 | frame[at + 1]);
        while (sum >> 16) sum = (sum & 0xffff) + (sum >> 16);
        frame[42] = (uint8_t)(~sum >> 8), frame[43] = (uint8_t)~sum;
        error_arrives(&host, 0, 96);
        must("poll", iface_dns_poll(&dns, &host, 0));
        wants("a query", next_frame(&host, 0), code == 4 ? IP_QUESTION + 20 + sizeof WWW - 1 : 0);
        if (code == 4) wants("to the second server", sent[39], 101);
        wants_state(&dns, query, IFACE_DNS_PENDING);
        unmake(&host, &dns);
    }
}

/* What else a message of ICMP may say does nothing: the next server is asked after two seconds. */
static void ignores_other_errors(void) {
    iface host = IFACE_NONE;
    iface_dns dns = IFACE_DNS_NONE;
    /* no network, no host, too big, the host for this service, time exceeded, a wrong header, an echo reply */
    const uint8_t soft[][2] = {{3, 0}, {3, 1}, {3, 4}, {3, 12}, {11, 0}, {12, 0}, {0, 3}};
    /* the quoted packet has another source, destination, port of the source or of the destination, or protocol; or is a later fragment */
    const size_t turned[] = {15, IP_SOURCE + 7, IP_UDP + 1, IP_UDP + 3, 9, 7};
    make(&host, &dns, 2);
    size_t query = start(&host, &dns, 0, "www.example.com", IFACE_DNS_A);
    wants_query(&host, &dns, 0, 100, ASKS_WWW);
    for (size_t i = 0; i < sizeof soft / sizeof *soft; i++) {
        error_arrives(&host, 0, error_about(query_sent, soft[i][0], soft[i][1]));
        must("poll", iface_dns_poll(&dns, &host, 0)), wants("no query", next_frame(&host, 0), 0);
    }
    for (size_t i = 0; i < sizeof turned / sizeof *turned; i++) {
        uint8_t quoted[28];
        memcpy(quoted, query_sent, sizeof quoted), quoted[turned[i]] ^= 2;
        size_t length = error_about(quoted, 3, 3);
        /* it comes from the server to the host all the same */
        memcpy(frame + IP_SOURCE, query_sent + IP_SOURCE + 4, 4), memcpy(frame + IP_SOURCE + 4, query_sent + IP_SOURCE, 4);
        frame[10] = frame[11] = 0;
        uint32_t sum = 0;
        for (int at = 0; at < IP_UDP; at += 2) sum += (uint32_t)(frame[at] << 8 | frame[at + 1]);
        while (sum >> 16) sum = (sum & 0xffff) + (sum >> 16);
        frame[10] = (uint8_t)(~sum >> 8), frame[11] = (uint8_t)~sum;
        error_arrives(&host, 0, length);
        must("poll", iface_dns_poll(&dns, &host, 0)), wants("no query", next_frame(&host, 0), 0);
    }
    error_about(query_sent, 3, 3), frame[IP_UDP + 2] ^= 1;
    error_arrives(&host, 0, 56);
    must("poll", iface_dns_poll(&dns, &host, 0)), wants("no query", next_frame(&host, 0), 0);
    error_about(query_sent, 3, 3), frame[10] ^= 1;
    error_arrives(&host, 0, 56);
    must("poll", iface_dns_poll(&dns, &host, 0)), wants("no query", next_frame(&host, 0), 0), wants_state(&dns, query, IFACE_DNS_PENDING);
    unmake(&host, &dns);
}

/* The last four messages count: four about another port push one out, and then the time does its work; three don't. */
static void keeps_four_errors(void) {
    for (int others = 3; others <= 4; others++) {
        iface host = IFACE_NONE;
        iface_dns dns = IFACE_DNS_NONE;
        make(&host, &dns, 2);
        size_t query = start(&host, &dns, 0, "www.example.com", IFACE_DNS_A);
        wants_query(&host, &dns, 0, 100, ASKS_WWW);
        error_arrives(&host, 0, error_about(query_sent, 3, 3));
        for (int i = 0; i < others; i++) {
            uint8_t quoted[28];
            memcpy(quoted, query_sent, sizeof quoted), quoted[IP_UDP + 1] ^= 1;
            error_arrives(&host, 0, error_about(quoted, 3, 3));
        }
        if (others == 4) must("poll", iface_dns_poll(&dns, &host, 0)), wants("no query", next_frame(&host, 0), 0);
        wants_query(&host, &dns, others == 4 ? 2 * second : 0, 101, ASKS_WWW), wants_state(&dns, query, IFACE_DNS_PENDING);
        unmake(&host, &dns);
    }
}

/* On Ethernet a first server that isn't there costs its two seconds, whatever waits for its hardware address: the question for it gives
 * way to that for the second one. */
static void passes_an_absent_server(void) {
    iface host = IFACE_NONE;
    iface_dns dns = IFACE_DNS_NONE;
    struct iface_config config;
    struct iface_address own = v4(1), list[IFACE_DNS_SERVERS] = {v4(100), v4(101), none};
    size_t n;
    iface_config_init(&config);
    config.seed = 1, config.sockets = 4, config.hardware_address[0] = 2, config.hardware_address[5] = 1;
    must("host", iface_new(&host, &config));
    must("address", iface_add_address(&host, &own, 24));
    must("client", iface_dns_new(&dns, 1, key, list));
    size_t query = start(&host, &dns, 0, "www.example.com", IFACE_DNS_A);
    for (int64_t now = 0; now < 2 * second; now += second) {
        must("poll", iface_dns_poll(&dns, &host, now));
        wants("a request", next_frame(&host, now), 42), wants_octets("for the first server", sent + 38, "\300\250\105\144", 4);
    }
    must("poll", iface_dns_poll(&dns, &host, 2 * second));
    wants("a request", next_frame(&host, 2 * second), 42), wants_octets("for the second server", sent + 38, "\300\250\105\145", 4);
    memcpy(frame, "\2\0\0\0\0\1\2\0\0\0\0\145\10\6\0\1\10\0\6\4\0\2\2\0\0\0\0\145\300\250\105\145\2\0\0\0\0\1\300\250\105\1", 42);
    must("reply", iface_receive(&host, 2 * second, frame, 42, out, sizeof out, &n));
    wants("the question", next_frame(&host, 2 * second), 14 + IP_QUESTION + sizeof WWW - 1);
    wants_octets("to the second server", sent + 14 + IP_SOURCE + 4, "\300\250\105\145", 4);
    wants_state(&dns, query, IFACE_DNS_PENDING);
    unmake(&host, &dns);
}

/* Two at once, each by its own port and number, and each with its own answer. */
static void asks_two_at_once(void) {
    iface host = IFACE_NONE;
    iface_dns dns = IFACE_DNS_NONE;
    uint8_t first[IP_QUESTION + sizeof WWW - 1];
    size_t other = 77;
    make(&host, &dns, 1);
    size_t a = start(&host, &dns, 0, "www.example.com", IFACE_DNS_A);
    wants_query(&host, &dns, 0, 100, ASKS_WWW), memcpy(first, query_sent, sizeof first);
    size_t b = start(&host, &dns, 0, "ftp.example.com", IFACE_DNS_A);
    wants("their numbers", a == 0 && b == 1, 1);
    wants("a third", iface_dns_start(&dns, &host, 0, "a", 1, IFACE_DNS_A, &other), IFACE_TABLE_FULL);
    wants_query(&host, &dns, 0, 100, "\3ftp\7example\3com\0\0\1\0\1", 21);
    wants("another port", memcmp(query_sent + IP_UDP, first + IP_UDP, 2) != 0, 1);
    wants("another number", memcmp(query_sent + IP_MESSAGE, first + IP_MESSAGE, 2) != 0, 1);
    wants("no answer", arrives(&host, &dns, 0, answer(query_sent, sizeof first, NO_NAME, 0, "", 0)), 0);
    wants_state(&dns, a, IFACE_DNS_PENDING), wants_state(&dns, b, IFACE_DNS_NO_SUCH_NAME);
    wants("no answer", arrives(&host, &dns, 0, answer(first, sizeof first, GOOD, 1, RECORD_1, sizeof RECORD_1 - 1)), 0);
    wants_address(&dns, a, 0, 4, "\300\0\2\1"), wants_state(&dns, b, IFACE_DNS_NO_SUCH_NAME);
    must("cancel", iface_dns_cancel(&dns, &host, a));
    wants("the least number", start(&host, &dns, second, "www.example.com", IFACE_DNS_A), 0);
    unmake(&host, &dns);
}

/* Two that drew the same port, by a key that was searched for: each has its own answer, by number and question. */
static void asks_from_one_port(void) {
    iface host = IFACE_NONE;
    iface_dns dns = IFACE_DNS_NONE;
    const uint64_t chosen[2] = {3798, 0};
    const struct iface_address servers[IFACE_DNS_SERVERS] = {v4(100), none, none};
    uint8_t first[IP_QUESTION + sizeof WWW - 1];
    make_host(&host, 4);
    must("client", iface_dns_new(&dns, 2, chosen, servers));
    size_t a = start(&host, &dns, 0, "www.example.com", IFACE_DNS_A);
    wants_query(&host, &dns, 0, 100, ASKS_WWW), memcpy(first, query_sent, sizeof first);
    size_t b = start(&host, &dns, 0, "ftp.example.com", IFACE_DNS_A);
    wants_query(&host, &dns, 0, 100, "\3ftp\7example\3com\0\0\1\0\1", 21);
    wants("the same port", memcmp(query_sent + IP_UDP, first + IP_UDP, 2) == 0, 1);
    wants("no answer", arrives(&host, &dns, 0, answer(query_sent, sizeof first, NO_NAME, 0, "", 0)), 0);
    wants_state(&dns, a, IFACE_DNS_PENDING), wants_state(&dns, b, IFACE_DNS_NO_SUCH_NAME);
    wants("no answer", arrives(&host, &dns, 0, answer(first, sizeof first, GOOD, 1, RECORD_1, sizeof RECORD_1 - 1)), 0);
    wants_address(&dns, a, 0, 4, "\300\0\2\1"), wants_state(&dns, b, IFACE_DNS_NO_SUCH_NAME);
    unmake(&host, &dns);
}

/* Names as text, and the labels that they are asked by. */
static void reads_names(void) {
    iface host = IFACE_NONE;
    iface_dns dns = IFACE_DNS_NONE;
    char longest[256], question[256 + 4];
    size_t query = 77;
    make(&host, &dns, 1);
    for (int i = 0; i < 255; i++) longest[i] = i % 64 == 63 ? '.' : 'a';
    const char *wrong[] = {"", ".", "..", ".com", "example..com", "example.com..", longest};
    for (size_t i = 0; i < sizeof wrong / sizeof *wrong; i++)
        wants(wrong[i], iface_dns_start(&dns, &host, 0, wrong[i], i == 6 ? 254 : strlen(wrong[i]), IFACE_DNS_A, &query), IFACE_BAD_NAME);
    longest[63] = 'a', wants("a label of 64", iface_dns_start(&dns, &host, 0, longest, 64, IFACE_DNS_A, &query), IFACE_BAD_NAME);
    wants("and more", iface_dns_start(&dns, &host, 0, longest, 100, IFACE_DNS_A, &query), IFACE_BAD_NAME);
    longest[63] = '.';
    wants("nothing written", query, 77);
    /* three labels of 63 octets, and one of 61: 255 octets with their lengths and the end */
    must("the longest", iface_dns_start(&dns, &host, 0, longest, 253, IFACE_DNS_A, &query));
    memset(question, 'a', 254), question[0] = question[64] = question[128] = 63, question[192] = 61;
    memcpy(question + 254, "\0\0\1\0\1", 5);
    wants_query(&host, &dns, 0, 100, question, 259);
    must("cancel", iface_dns_cancel(&dns, &host, query));
    longest[253] = '.', must("and a dot", iface_dns_start(&dns, &host, 0, longest, 254, IFACE_DNS_A, &query));
    wants_query(&host, &dns, 0, 100, question, 259);
    must("cancel", iface_dns_cancel(&dns, &host, query));
    must("any octets", iface_dns_start(&dns, &host, 0, "a\0\377.b", 5, IFACE_DNS_A, &query));
    wants_query(&host, &dns, 0, 100, "\3a\0\377\1b\0\0\1\0\1", 11);
    unmake(&host, &dns);
}

/* A name that is an address in text has it at once, and nobody is asked. */
static void reads_addresses(void) {
    iface host = IFACE_NONE;
    iface_dns dns = IFACE_DNS_NONE;
    const struct { const char *text; uint32_t type, state; uint8_t version; const char *octets; } cases[] = {
        {"192.0.2.9", IFACE_DNS_A, IFACE_DNS_FOUND, 4, "\300\0\2\11"},
        {"2001:db8::7", IFACE_DNS_AAAA, IFACE_DNS_FOUND, 6, "\40\1\15\270\0\0\0\0\0\0\0\0\0\0\0\7"},
        {"192.0.2.9", IFACE_DNS_AAAA, IFACE_DNS_NO_ADDRESS, 0, ""},
        {"2001:db8::7", IFACE_DNS_A, IFACE_DNS_NO_ADDRESS, 0, ""},
    };
    make(&host, &dns, 1);
    for (size_t i = 0; i < sizeof cases / sizeof *cases; i++) {
        struct iface_queue received, to_send;
        size_t query = start(&host, &dns, 0, cases[i].text, cases[i].type);
        wants_state(&dns, query, cases[i].state);
        if (cases[i].version) wants_address(&dns, query, 0, cases[i].version, cases[i].octets);
        must("poll", iface_dns_poll(&dns, &host, 0)), wants("no query", next_frame(&host, 0), 0);
        wants("its socket is closed", iface_queues(&host, 0, &received, &to_send), IFACE_NO_SOCKET);
        must("cancel", iface_dns_cancel(&dns, &host, query));
    }
    /* a number more is a name */
    start(&host, &dns, 0, "192.0.2.300", IFACE_DNS_A), wants_query(&host, &dns, 0, 100, "\003" "192" "\1" "0" "\1" "2" "\003" "300" "\0\0\1\0\1", 17);
    unmake(&host, &dns);
}

/* Servers that are set later, as those of a lease. */
static void changes_servers(void) {
    iface host = IFACE_NONE;
    iface_dns dns = IFACE_DNS_NONE;
    struct iface_address servers[IFACE_DNS_SERVERS] = {none, none, none};
    size_t query = 77;
    make_host(&host, 4);
    must("client", iface_dns_new(&dns, 2, key, servers));
    wants("no server", iface_dns_start(&dns, &host, 0, "a", 1, IFACE_DNS_A, &query), IFACE_NO_SERVER);
    servers[1] = v4(100), must("servers", iface_dns_servers(&dns, servers));
    query = start(&host, &dns, 0, "www.example.com", IFACE_DNS_A);
    wants_query(&host, &dns, 0, 100, ASKS_WWW);
    servers[0] = v4(101), servers[1] = none, must("another", iface_dns_servers(&dns, servers));
    wants("no answer", arrives(&host, &dns, 0, answer(query_sent, IP_QUESTION + sizeof WWW - 1, GOOD, 1, RECORD_1, sizeof RECORD_1 - 1)), 0);
    wants_state(&dns, query, IFACE_DNS_PENDING);
    wants_query(&host, &dns, 2 * second, 101, ASKS_WWW);
    servers[2].version = 5, wants("a version", iface_dns_servers(&dns, servers), IFACE_BAD_ARGUMENT);
    /* none of these is another host's address: unspecified, of this network, loopback, of a group, reserved (RFC 1122, 3.2.1.3) */
    const struct iface_address wrong[] = {
        {4, {0}}, {4, {0, 1, 2, 3}}, {4, {127, 0, 0, 1}}, {4, {127, 0, 0, 53}}, {4, {224, 0, 0, 1}}, {4, {240, 0, 0, 1}}, {4, {255, 255, 255, 255}},
        {6, {0}}, {6, {[15] = 1}}, {6, {0xff, 2, [15] = 1}}};
    for (size_t i = 0; i < sizeof wrong / sizeof *wrong; i++)
        servers[2] = wrong[i], wants("no server", iface_dns_servers(&dns, servers), IFACE_NOT_UNICAST);
    servers[0] = servers[2] = none, must("none", iface_dns_servers(&dns, servers));
    must("poll", iface_dns_poll(&dns, &host, 2 * second)), wants_state(&dns, query, IFACE_DNS_TIMED_OUT);
    unmake(&host, &dns);
}

static void refuses(void) {
    iface host = IFACE_NONE, other = IFACE_NONE;
    iface_dns dns = IFACE_DNS_NONE;
    struct iface_address servers[IFACE_DNS_SERVERS] = {v4(100), none, none}, bad[IFACE_DNS_SERVERS] = {v4(100), none, {7, {0}}};
    struct iface_dns_answer got = {.state = 77};
    size_t query = 77;
    int64_t at = 77;
    wants("no client", iface_dns_servers(&dns, servers), IFACE_NO_CLIENT);
    wants("servers first", iface_dns_servers(&dns, bad), IFACE_BAD_ARGUMENT);
    wants("no client", iface_dns_start(&dns, &host, -1, "", 0, IFACE_DNS_A, &query), IFACE_NO_CLIENT);
    wants("its type first", iface_dns_start(&dns, &host, -1, "", 0, 5, &query), IFACE_BAD_ARGUMENT);
    wants("no client", iface_dns_poll(&dns, &host, -1), IFACE_NO_CLIENT);
    wants("no client", iface_dns_poll_at(&dns, &at), IFACE_NO_CLIENT);
    wants("no client", iface_dns_result(&dns, 0, &got), IFACE_NO_CLIENT);
    wants("no client", iface_dns_cancel(&dns, &host, 0), IFACE_NO_CLIENT);
    wants("no client", iface_dns_free(&dns, &host), IFACE_NO_CLIENT);
    wants("a server", iface_dns_new(&dns, 1, key, bad), IFACE_BAD_ARGUMENT);
    must("client", iface_dns_new(&dns, 1, key, servers));
    iface_dns copy = dns;
    wants("a client is there", iface_dns_new(&dns, 1, key, bad), IFACE_HAS_CLIENT);
    wants("handle kept", memcmp(&copy, &dns, sizeof dns) == 0, 1);
    wants("no host", iface_dns_start(&dns, &host, -1, "", 0, IFACE_DNS_A, &query), IFACE_NO_HOST);
    wants("no host", iface_dns_poll(&dns, &host, -1), IFACE_NO_HOST);
    wants("no host", iface_dns_cancel(&dns, &host, 0), IFACE_NO_HOST);
    make_host(&host, 1);
    wants("moment", iface_dns_start(&dns, &host, -1, "", 0, IFACE_DNS_A, &query), IFACE_BAD_MOMENT);
    wants("moment", iface_dns_start(&dns, &host, IFACE_LAST_MOMENT + 1, "", 0, IFACE_DNS_A, &query), IFACE_BAD_MOMENT);
    wants("moment", iface_dns_poll(&dns, &host, -1), IFACE_BAD_MOMENT);
    wants("moment", iface_dns_poll(&dns, &host, IFACE_LAST_MOMENT + 1), IFACE_BAD_MOMENT);
    wants("type 0", iface_dns_start(&dns, &host, 0, "a", 1, 0, &query), IFACE_BAD_ARGUMENT);
    wants("no query", iface_dns_result(&dns, 0, &got), IFACE_NOT_THERE);
    wants("no place", iface_dns_result(&dns, SIZE_MAX, &got), IFACE_NOT_THERE);
    wants("no query", iface_dns_cancel(&dns, &host, 0), IFACE_NOT_THERE);
    wants("no place", iface_dns_cancel(&dns, &host, SIZE_MAX), IFACE_NOT_THERE);
    struct iface_rooms rooms = IFACE_ROOMS(1, 64);
    struct iface_endpoint end = {IFACE_ANY, 9};
    uint32_t socket;
    must("socket", iface_udp_open(&host, &end, &rooms, &socket));
    wants("no place for a socket", iface_dns_start(&dns, &host, 0, "a", 1, IFACE_DNS_A, &query), IFACE_TABLE_FULL);
    must("close", iface_close(&host, socket));
    wants("nothing written", query == 77 && at == 77 && got.state == 77, 1);
    query = start(&host, &dns, 0, "a", IFACE_DNS_A);
    wants("each place has a query", iface_dns_start(&dns, &host, 0, "a", 1, IFACE_DNS_A, &query), IFACE_TABLE_FULL);
    must("cancel", iface_dns_cancel(&dns, &host, query));
    wants("cancel again", iface_dns_cancel(&dns, &host, query), IFACE_NOT_THERE);
    wants("no query", iface_dns_result(&dns, query, &got), IFACE_NOT_THERE);
    struct iface_queue received, to_send;
    wants("its socket is closed", iface_queues(&host, 0, &received, &to_send), IFACE_NO_SOCKET);
    /* a host that isn't its own: nothing comes, and nothing goes */
    make_host(&other, 1);
    query = start(&host, &dns, 0, "a", IFACE_DNS_A);
    must("poll", iface_dns_poll(&dns, &other, 0)), wants("no frame", next_frame(&other, 0), 0);
    must("free", iface_dns_free(&dns, &host));
    wants("its socket is closed", iface_queues(&host, 0, &received, &to_send), IFACE_NO_SOCKET);
    wants("free again", iface_dns_free(&dns, &host), IFACE_NO_CLIENT);
    must("none", iface_dns_new(&dns, 0, key, servers));
    wants("no place", iface_dns_start(&dns, &host, 0, "a", 1, IFACE_DNS_A, &query), IFACE_TABLE_FULL);
    must("free", iface_free(&host)), must("free without its host", iface_dns_free(&dns, &host));
    must("free", iface_free(&other));
}

int main(void) {
    takes_answers();
    takes_ipv6();
    ignores_forged();
    gives_up();
    moves_on();
    passes_an_absent_server();
    passes_a_closed_port();
    passes_a_closed_port_v6();
    ignores_other_errors();
    keeps_four_errors();
    asks_two_at_once();
    asks_from_one_port();
    reads_names();
    reads_addresses();
    changes_servers();
    refuses();
    printf("names: %d checks: %d wrong\n", checks, failures);
    return failures != 0;
}
