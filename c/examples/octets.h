/* Numbers in packets, and checksums: for the examples that write packets of their own. */
#ifndef EXAMPLES_OCTETS_H
#define EXAMPLES_OCTETS_H

#include <stddef.h>
#include <stdint.h>
#include <string.h>

/* A number of two octets, the first one first. */
static inline uint16_t get_16(const uint8_t *at) {
    return (uint16_t)(at[0] << 8 | at[1]);
}

static inline void put_16(uint8_t *at, uint32_t number) {
    at[0] = (uint8_t)(number >> 8), at[1] = (uint8_t)number;
}

/* The sum of words of 16 bits, after another sum, of at most 65,535 octets (RFC 1071). */
static inline uint32_t sum_of(uint32_t sum, const uint8_t *octets, size_t length) {
    for (size_t i = 0; i + 1 < length; i += 2) sum += get_16(octets + i);
    if (length % 2) sum += (uint32_t)octets[length - 1] << 8;
    while (sum >> 16) sum = (sum & 0xffff) + (sum >> 16);
    return sum;
}

/* The checksum of octets: 0 if the one among them is right. */
static inline uint16_t checksum_of(uint32_t sum, const uint8_t *octets, size_t length) {
    return (uint16_t)~sum_of(sum, octets, length);
}

/* The sum of the pseudo-header of a message of ICMPv6 whose header of IPv6 is given (RFC 8200, 8.1). */
static inline uint32_t icmpv6_sum(const uint8_t *header, size_t length) {
    return sum_of(58 + (uint32_t)length, header + 8, 32);
}

#endif
