/* Answers of a server of names by RFC 1035, as the tests need them: over UDP in packets of IPv4. */
#ifndef NAME_ANSWER_H
#define NAME_ANSWER_H

#include <stddef.h>
#include <stdint.h>
#include <string.h>

/* Where in a packet of IPv4 the parts of a message stand. */
enum { IP_SOURCE = 12, IP_UDP = 20, IP_MESSAGE = 28, IP_QUESTION = 40 };

/* QR, RD and RA; and with TC, and RCODE 2, 3 and 5 (RFC 1035, 4.1.1). */
#define GOOD "\201\200"
#define CUT "\203\200"
#define FAILED "\201\202"
#define NO_NAME "\201\203"
#define REFUSED "\201\205"

/* 192.0.2.1 of the name at offset 12, which is the question's, for 300 seconds. */
#define RECORD_1 "\300\14\0\1\0\1\0\0\1\54\0\4\300\0\2\1"

/* Writes the packet that answers a query, which is one, too: with these flags, the question, and so many records. Its length. */
static inline size_t name_answer(uint8_t *packet, const uint8_t *query, size_t query_length, const char *flags, uint8_t records,
                                 const char *octets, size_t n) {
    size_t asked = query_length - IP_QUESTION, whole = query_length + n;
    uint32_t sum = 0;
    memset(packet, 0, IP_QUESTION);
    packet[0] = 0x45, packet[2] = (uint8_t)(whole >> 8), packet[3] = (uint8_t)whole, packet[8] = 64, packet[9] = 17;
    memcpy(packet + IP_SOURCE, query + IP_SOURCE + 4, 4), memcpy(packet + IP_SOURCE + 4, query + IP_SOURCE, 4);
    for (int i = 0; i < 20; i += 2) sum += (uint32_t)(packet[i] << 8 | packet[i + 1]);
    while (sum >> 16) sum = (sum & 0xffff) + (sum >> 16);
    packet[10] = (uint8_t)(~sum >> 8), packet[11] = (uint8_t)~sum;
    /* a checksum of 0 is none (RFC 768) */
    memcpy(packet + IP_UDP, query + IP_UDP + 2, 2), memcpy(packet + IP_UDP + 2, query + IP_UDP, 2);
    packet[IP_UDP + 4] = (uint8_t)((whole - 20) >> 8), packet[IP_UDP + 5] = (uint8_t)(whole - 20);
    memcpy(packet + IP_MESSAGE, query + IP_MESSAGE, 2), memcpy(packet + IP_MESSAGE + 2, flags, 2);
    packet[IP_MESSAGE + 5] = 1, packet[IP_MESSAGE + 7] = records;
    memcpy(packet + IP_QUESTION, query + IP_QUESTION, asked);
    if (n) memcpy(packet + query_length, octets, n);
    return whole;
}

#endif
