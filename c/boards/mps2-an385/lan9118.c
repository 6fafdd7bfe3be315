/* The Ethernet controller LAN9118 (SMSC), by its FIFOs: a frame is copied in and out word by word, and there is no DMA. An interrupt
 * tells that a frame came; its handler does nothing but keep it from being taken again. */
#include "../board.h"

#include "lan9118.h"

#define AT(offset) (*(volatile uint32_t *)(uintptr_t)(0x40200000u + (offset)))
#define RX_DATA AT(0x00)
#define TX_DATA AT(0x20)
#define RX_STATUS AT(0x40)
#define TX_STATUS AT(0x48)
#define IRQ_CFG AT(0x54)
#define INT_STS AT(0x58)
#define INT_EN AT(0x5c)
#define BYTE_TEST AT(0x64)
#define FIFO_INT AT(0x68)
#define RX_CFG AT(0x6c)
#define TX_CFG AT(0x70)
#define HW_CFG AT(0x74)
#define RX_FIFO_INF AT(0x7c)
#define TX_FIFO_INF AT(0x80)
#define MAC_CSR_CMD AT(0xa4)
#define MAC_CSR_DATA AT(0xa8)

enum {
    BUSY = (int)0x80000000, READ = 0x40000000,       /* of MAC_CSR_CMD */
    MAC_CR = 1, ADDRH = 2, ADDRL = 3, MII_ACC = 6, MII_DATA = 7,
    TXEN = 0x8, RXEN = 0x4, ALL_GROUPS = 0x80000,    /* of MAC_CR: the host drops what goes to groups that it isn't in */
    PHY = 1 << 11, MII_WRITE = 2, MII_BUSY = 1,      /* of MII_ACC */
    NEGOTIATE_ANEW = 0x1200,                         /* of the PHY's register 0 */
    RESET = 1, WHOLE_FRAMES = 1 << 20, TX_5_KB = 5 << 16, /* of HW_CFG */
    TX_ON = 2,                                       /* of TX_CFG */
    CAME = 1 << 3,                                   /* of INT_STS and INT_EN: more frames than FIFO_INT says */
    PUSH_PULL_HIGH = 0x111,                          /* of IRQ_CFG, with its enabling bit */
    WHOLE = 0x3000,                                  /* of a frame to be sent: its first and last piece */
    IS_WRONG = 1 << 15,                              /* of RX_STATUS */
    CHECK = 4, LONGEST = 1514
};

static uint32_t came[(LONGEST + CHECK + 3) / 4], to_send[(LONGEST + 3) / 4];
static int is_waiting; /* a frame in `came` */
static size_t came_length;

static uint32_t mac(uint32_t number) {
    MAC_CSR_CMD = (uint32_t)BUSY | READ | number;
    while (MAC_CSR_CMD & (uint32_t)BUSY) {}
    return MAC_CSR_DATA;
}

static void set_mac(uint32_t number, uint32_t value) {
    MAC_CSR_DATA = value;
    MAC_CSR_CMD = (uint32_t)BUSY | number;
    while (MAC_CSR_CMD & (uint32_t)BUSY) {}
}

void lan9118_start(uint8_t hardware_address[6]) {
    while (BYTE_TEST != 0x87654321) {}
    HW_CFG = RESET;
    while (HW_CFG & RESET) {}
    HW_CFG = WHOLE_FRAMES | TX_5_KB;
    uint32_t low = mac(ADDRL), high = mac(ADDRH); /* as its EEPROM has them */
    for (int i = 0; i < 6; i++) hardware_address[i] = (uint8_t)(i < 4 ? low >> (8 * i) : high >> (8 * (i - 4)));
    set_mac(MII_DATA, NEGOTIATE_ANEW);
    set_mac(MII_ACC, PHY | MII_WRITE | MII_BUSY);
    while (mac(MII_ACC) & MII_BUSY) {}
    set_mac(MAC_CR, TXEN | RXEN | ALL_GROUPS);
    TX_CFG = TX_ON;
    RX_CFG = 0;
    FIFO_INT = 0;
    INT_STS = 0xffffffff;
    IRQ_CFG = PUSH_PULL_HIGH;
}

int lan9118_has_frame(void) {
    return is_waiting || (RX_FIFO_INF >> 16 & 0xff) > 0;
}

/* Has an interrupt tell of frames that come from now on. */
void lan9118_listen(void) {
    INT_STS = CAME;
    INT_EN = CAME;
}

void on_lan9118(void) {
    INT_EN = 0;
}

const uint8_t *board_frame(size_t *length) {
    while (!is_waiting && lan9118_has_frame()) {
        uint32_t status = RX_STATUS;
        size_t octets = status >> 16 & 0x3fff, words = (octets + 3) / 4;
        for (size_t i = 0; i < words; i++) {
            uint32_t word = RX_DATA;
            if (i < sizeof came / sizeof *came) came[i] = word;
        }
        is_waiting = !(status & IS_WRONG) && octets > CHECK && octets <= sizeof came;
        came_length = octets - CHECK;
    }
    *length = came_length;
    return is_waiting ? (const uint8_t *)came : NULL;
}

void board_frame_done(void) {
    is_waiting = 0;
}

uint8_t *board_room(void) {
    return (uint8_t *)to_send;
}

/* Where the FIFO has no room the cable may be out: the frame is lost. */
void board_send(size_t length) {
    while (TX_FIFO_INF >> 16 & 0xff) (void)TX_STATUS;
    if ((TX_FIFO_INF & 0xffff) < length + 16) return;
    TX_DATA = WHOLE | (uint32_t)length;
    TX_DATA = (uint32_t)(length << 16 | length);
    for (size_t i = 0; i < (length + 3) / 4; i++) TX_DATA = to_send[i];
}
