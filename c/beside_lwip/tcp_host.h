/* A host of TCP as tcp_bench.c drives it, so that one beside another gets the same frames and the same calls. It is at
 * 192.168.69.1 with the Ethernet address 02:00:00:00:00:01, and listens at port 7. Connections are numbers from 0. */
#ifndef TCP_HOST_H
#define TCP_HOST_H

#include <stddef.h>
#include <stdint.h>

enum { MOST_CONNECTIONS = 10016 };

void host_new(void);

/* What time it is, in microseconds. */
void host_at(int64_t now);

/* A frame arrives. */
void host_take(const uint8_t *frame, size_t length);

/* Does what is due. A program calls it after each frame, and when it has slept. */
void host_poll(void);

/* A connection that is established and wasn't accepted before, or -1. */
int host_accept(void);

/* Copies what has arrived, and says so to the peer when it has to. Returns how many octets. */
size_t host_read(int connection, uint8_t *octets, size_t room);

/* Takes octets to be sent. Returns how many. */
size_t host_write(int connection, const uint8_t *octets, size_t length);

/* Ends this direction; the connection's number may be used again once both have ended. */
void host_close(int connection);

/* The host calls it for each frame that it sends, from any of its functions. */
void bench_sent(const uint8_t *frame, size_t length);

#endif
