/* What board.c asks of the Ethernet controller. */
#include <stdint.h>

void lan9118_start(uint8_t hardware_address[6]);
int lan9118_has_frame(void);
void lan9118_listen(void);
void on_lan9118(void);
