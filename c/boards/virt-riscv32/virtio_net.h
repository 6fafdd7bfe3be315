/* What board.c asks of the network device. */
#include <stdint.h>

int virtio_net_start(uint8_t hardware_address[6]); /* the device's slot, or -1 */
int virtio_net_has_frame(void);
void virtio_net_done(void); /* its interrupt has been seen */
