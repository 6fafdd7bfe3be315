/* A server's message of DHCP as an Ethernet frame, for the tests: by RFC 2131 2 and RFC 2132, from 192.168.69.100 and port 67 to
 * everybody and port 68. */
#ifndef LEASE_REPLY_H
#define LEASE_REPLY_H

#include <stdint.h>
#include <string.h>

enum { OFFER = 2, REQUEST = 3, ACK = 5, NAK = 6 };

/* Where in a frame the fields of the message begin. */
enum { AT_IP = 14, AT_UDP = 34, AT_MESSAGE = 42, AT_XID = 46, AT_ADDRESS = 58, AT_CLIENT = 70, AT_COOKIE = 278, AT_OPTIONS = 282 };

static void write_sum(uint8_t *place, const uint8_t *octets, size_t n) {
    uint32_t sum = 0;
    for (size_t i = 0; i < n; i++) sum += (uint32_t)octets[i] << (i % 2 ? 0 : 8);
    while (sum >> 16) sum = (sum & 0xffff) + (sum >> 16);
    place[0] = (uint8_t)(~sum >> 8), place[1] = (uint8_t)~sum;
}

/* Writes the lengths of IPv4 and UDP of a frame that ends here, and the header's checksum. */
static void write_lengths(uint8_t *frame, size_t length) {
    frame[AT_IP + 2] = (uint8_t)((length - AT_IP) >> 8), frame[AT_IP + 3] = (uint8_t)(length - AT_IP);
    frame[AT_UDP + 4] = (uint8_t)((length - AT_UDP) >> 8), frame[AT_UDP + 5] = (uint8_t)(length - AT_UDP);
    frame[AT_IP + 10] = frame[AT_IP + 11] = 0;
    write_sum(frame + AT_IP + 10, frame + AT_IP, 20);
}

/* Answers a client's message: leases 192.168.69.`last`/24 for so many seconds, with other options besides. Returns how many octets
 * the frame has. */
static size_t lease_reply_with(uint8_t *frame, const uint8_t *asked, uint8_t type, uint8_t last, uint8_t seconds, const uint8_t *more,
                               size_t count) {
    const uint8_t options[] = {53, 1, type, 54, 4, 192, 168, 69, 100, 51, 4, 0, 0, 0, seconds, 1, 4, 255, 255, 255, 0,
                               3, 4, 192, 168, 69, 1, 6, 8, 192, 168, 69, 2, 192, 168, 69, 3};
    size_t reply_length = AT_OPTIONS + sizeof options + count + 1;
    memset(frame, 0, reply_length);
    memset(frame, 0xff, 6), memcpy(frame + 6, "\2\0\0\0\0\144\10\0", 8);
    memcpy(frame + AT_IP, "\105\0\0\0\0\0\0\0\100\21\0\0\300\250\105\144\377\377\377\377", 20);
    memcpy(frame + AT_UDP, "\0\103\0\104", 4); /* without a checksum (RFC 768) */
    write_lengths(frame, reply_length);
    memcpy(frame + AT_MESSAGE, "\2\1\6", 3);
    memcpy(frame + AT_XID, asked + AT_XID, 4);
    if (type != NAK) memcpy(frame + AT_ADDRESS, "\300\250\105", 3), frame[AT_ADDRESS + 3] = last;
    memcpy(frame + AT_CLIENT, asked + AT_CLIENT, 6);
    memcpy(frame + AT_COOKIE, "\143\202\123\143", 4);
    memcpy(frame + AT_OPTIONS, options, sizeof options);
    if (count > 0) memcpy(frame + AT_OPTIONS + sizeof options, more, count);
    frame[reply_length - 1] = 255;
    return reply_length;
}

/* The same with no others. */
static inline size_t lease_reply(uint8_t *frame, const uint8_t *asked, uint8_t type, uint8_t last, uint8_t seconds) {
    return lease_reply_with(frame, asked, type, last, seconds, NULL, 0);
}

/* Sends it to the address that it leases, as a server does that ignores the broadcast flag (RFC 2131 4.1), and to the hardware address
 * 02-00-00-00-00-01. */
static inline void to_the_leased(uint8_t *frame, size_t length, uint8_t last) {
    memcpy(frame, "\2\0\0\0\0\1", 6);
    memcpy(frame + AT_IP + 16, "\300\250\105", 3), frame[AT_IP + 19] = last;
    write_lengths(frame, length);
}

#endif
