/* A network device by virtio (OASIS, version 1.1: 4.2, memory-mapped; 5.1), with DMA: frames lie where the device wrote them. */
#include "../board.h"

#include "virtio_net.h"

enum {
    MAGIC = 0x000, VERSION = 0x004, DEVICE = 0x008, FEATURES_OF = 0x020, FEATURES_OF_PART = 0x024, QUEUE = 0x030, QUEUE_LENGTH = 0x038,
    QUEUE_READY = 0x044, NOTIFY = 0x050, INTERRUPTS = 0x060, INTERRUPTS_DONE = 0x064, STATUS = 0x070, QUEUE_DESCRIPTORS = 0x080,
    QUEUE_OURS = 0x090, QUEUE_THEIRS = 0x0a0, ADDRESS = 0x100, /* registers */
    SEEN = 1, DRIVEN = 2, IS_READY = 4, FEATURES_TOLD = 8,     /* of STATUS */
    HAS_ADDRESS = 1 << 5, MODERN = 1,                          /* features, MODERN of the second part */
    WRITTEN_BY_DEVICE = 2,                                     /* of a descriptor */
    IN = 0, OUT = 1, BUFFERS = 4, HEAD = 12, LONGEST = 1514, FIRST = 0x10001000, SLOTS = 8, APART = 0x1000
};

struct descriptor {
    uint64_t at;
    uint32_t length;
    uint16_t flags, next;
};

/* A queue: what we hand to the device by `ours`, it hands back by `theirs`. */
struct queue {
    struct descriptor descriptors[BUFFERS];
    struct {
        uint16_t flags, count, ring[BUFFERS];
    } ours;
    struct {
        uint16_t flags, count;
        struct {
            uint32_t descriptor, length;
        } ring[BUFFERS];
    } theirs __attribute__((aligned(4)));
} __attribute__((aligned(16)));

static volatile struct queue queues[2];
static uint8_t came[BUFFERS][HEAD + LONGEST + 2], to_send[HEAD + LONGEST + 2];
static uint16_t taken; /* of the frames that came */
static uintptr_t base;

static volatile uint32_t *at(uint32_t offset) {
    return (volatile uint32_t *)(base + offset);
}

static void fence(void) {
    __asm__ volatile("fence" ::: "memory");
}

/* Hands a descriptor to the device. */
static void give(uint32_t number, uint16_t descriptor) {
    volatile struct queue *q = &queues[number];
    q->ours.ring[q->ours.count % BUFFERS] = descriptor;
    fence();
    q->ours.count++;
    fence();
    *at(NOTIFY) = number;
}

static void set_pointer(uint32_t offset, const volatile void *to) {
    *at(offset) = (uint32_t)(uintptr_t)to;
    *at(offset + 4) = 0;
}

static void make_queue(uint32_t number) {
    volatile struct queue *q = &queues[number];
    *at(QUEUE) = number;
    *at(QUEUE_LENGTH) = BUFFERS;
    set_pointer(QUEUE_DESCRIPTORS, q->descriptors), set_pointer(QUEUE_OURS, &q->ours), set_pointer(QUEUE_THEIRS, &q->theirs);
    *at(QUEUE_READY) = 1;
}

int virtio_net_start(uint8_t hardware_address[6]) {
    uint32_t slot = 0;
    do base = FIRST + slot * APART;
    while ((*at(MAGIC) != 0x74726976 || *at(VERSION) != 2 || *at(DEVICE) != 1) && ++slot < SLOTS);
    if (slot == SLOTS) return -1;
    *at(STATUS) = 0;
    *at(STATUS) = SEEN | DRIVEN;
    *at(FEATURES_OF_PART) = 0, *at(FEATURES_OF) = HAS_ADDRESS;
    *at(FEATURES_OF_PART) = 1, *at(FEATURES_OF) = MODERN;
    *at(STATUS) = SEEN | DRIVEN | FEATURES_TOLD;
    make_queue(IN), make_queue(OUT);
    *at(STATUS) = SEEN | DRIVEN | FEATURES_TOLD | IS_READY;
    for (uint16_t i = 0; i < BUFFERS; i++) {
        queues[IN].descriptors[i] = (struct descriptor){(uintptr_t)came[i], sizeof came[i], WRITTEN_BY_DEVICE, 0};
        give(IN, i);
    }
    for (int i = 0; i < 6; i++) hardware_address[i] = *(volatile uint8_t *)(base + ADDRESS + (uint32_t)i);
    return (int)slot;
}

int virtio_net_has_frame(void) {
    return queues[IN].theirs.count != taken;
}

void virtio_net_done(void) {
    *at(INTERRUPTS_DONE) = *at(INTERRUPTS);
}

const uint8_t *board_frame(size_t *length) {
    if (!virtio_net_has_frame()) return NULL;
    fence();
    uint32_t i = queues[IN].theirs.ring[taken % BUFFERS].descriptor;
    *length = queues[IN].theirs.ring[taken % BUFFERS].length - HEAD;
    return came[i] + HEAD;
}

void board_frame_done(void) {
    give(IN, (uint16_t)queues[IN].theirs.ring[taken % BUFFERS].descriptor);
    taken++;
}

/* There is one buffer, whose last frame has to be gone. */
uint8_t *board_room(void) {
    while (queues[OUT].theirs.count != queues[OUT].ours.count) {}
    return to_send + HEAD;
}

void board_send(size_t length) {
    queues[OUT].descriptors[0] = (struct descriptor){(uintptr_t)to_send, (uint32_t)(HEAD + length), 0, 0};
    give(OUT, 0);
}
