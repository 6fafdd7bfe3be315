/* What a program of here asks of its board. A frame that came lies in a buffer of the device until it is done with, and one that is
 * to be sent is written where the device takes it. */
#ifndef BOARDS_BOARD_H
#define BOARDS_BOARD_H

#include <stddef.h>
#include <stdint.h>

/* Starts the clock and the device, and writes the device's hardware address. */
void board_start(uint8_t hardware_address[6]);

/* Microseconds since the start. It is to be called once in a minute at least, as board_sleep does. */
int64_t board_now(void);

/* The next frame that came, and its length; NULL where none waits. It stays there until board_frame_done. */
const uint8_t *board_frame(size_t *length);
void board_frame_done(void);

/* Room for a frame of IFACE_FRAME_ROOM octets. It is sent by board_send; the next call gives room for another one. */
uint8_t *board_room(void);
void board_send(size_t length);

/* Sleeps until a frame comes or an instant, or a while less: with no interrupt before, the processor stands still. */
void board_sleep(int64_t until);

/* Fills in random octets. The boards of here have no generator of these, so theirs can be guessed: one with secrets needs a better. */
void board_draw(void *to, size_t length);

void board_light(int is_on);

/* The most octets of stack that were ever in use. */
size_t board_stack(void);

void board_print(const char *text);

/* Stops for good, with status 0 or another one. */
void board_stop(int status) __attribute__((noreturn));

#endif
