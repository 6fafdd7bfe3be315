/* qemu's machine `virt` with a riscv32, in machine mode: its start, its clock of 10 MHz, and its lines of text. No interrupt is let in:
 * `wfi` ends by one that waits all the same. */
#include "../board.h"

#include "virtio_net.h"

#define REGISTER(at) (*(volatile uint32_t *)(uintptr_t)(at))
#define TIME REGISTER(0x0200bff8)
#define TIME_HIGH REGISTER(0x0200bffc)
#define ALARM REGISTER(0x02004000)
#define ALARM_HIGH REGISTER(0x02004004)
#define PLIC 0x0c000000u
#define CLAIMED REGISTER(PLIC + 0x200004u)
#define UART ((volatile uint8_t *)0x10000000)

enum { TICKS = 10, UNUSED = 0xa5, BY_CLOCK = 1 << 7, BY_DEVICE = 1 << 11 };

/* Of board.ld: where parts of the memory begin, and how many words they have, as addresses. */
extern uint32_t stack[], stack_end[], data[], data_kept[], bss[], stack_words[], data_words[], bss_words[];

int main(void);
void begin(void);

__asm__(".pushsection .start, \"ax\"\n"
        ".globl start\n"
        "start: la sp, stack_end\n"
        "    j begin\n"
        ".popsection");

void board_stop(int status) {
    (void)status;
    for (;;) __asm__ volatile("csrw mie, zero\n wfi");
}

__attribute__((aligned(4))) static void on_fault(void) {
    board_print("fault\n");
    board_stop(1);
}

__attribute__((noinline, used)) void begin(void) {
    __asm__ volatile("csrw mtvec, %0" ::"r"(on_fault));
    for (size_t i = 0; i < (uintptr_t)data_words; i++) data[i] = data_kept[i];
    for (size_t i = 0; i < (uintptr_t)bss_words; i++) bss[i] = 0;
    for (size_t i = 0; i < (uintptr_t)stack_words - 64; i++) stack[i] = UNUSED; /* the last 64 words are in use */
    main();
    board_stop(0);
}

size_t board_stack(void) {
    size_t words = (uintptr_t)stack_words, at = 0;
    while (at < words && stack[at] == UNUSED) at++;
    return (words - at) * sizeof *stack;
}

void board_start(uint8_t hardware_address[6]) {
    int slot = virtio_net_start(hardware_address);
    if (slot < 0) board_print("no device\n"), board_stop(1);
    REGISTER(PLIC + 4 * (1 + (uint32_t)slot)) = 1;
    REGISTER(PLIC + 0x2000u) = 2u << slot;
    REGISTER(PLIC + 0x200000u) = 0;
    __asm__ volatile("csrw mie, %0" ::"r"(BY_CLOCK | BY_DEVICE));
}

static uint64_t ticks(void) {
    uint32_t high, low;
    do high = TIME_HIGH, low = TIME;
    while (high != TIME_HIGH);
    return (uint64_t)high << 32 | low;
}

int64_t board_now(void) {
    return (int64_t)(ticks() / TICKS);
}

void board_sleep(int64_t until) {
    int64_t rest = until - board_now();
    if (rest > 60000000) rest = 60000000;
    if (rest > 0 && !virtio_net_has_frame()) {
        uint64_t at = ticks() + (uint64_t)rest * TICKS;
        ALARM_HIGH = 0xffffffff, ALARM = (uint32_t)at, ALARM_HIGH = (uint32_t)(at >> 32);
        __asm__ volatile("wfi");
    }
    uint32_t source = CLAIMED;
    virtio_net_done();
    if (source) CLAIMED = source;
}

/* Of the clock. */
void board_draw(void *to, size_t length) {
    static uint32_t state = 2463534242u;
    for (size_t i = 0; i < length; i++) {
        state ^= TIME;
        state ^= state << 13, state ^= state >> 17, state ^= state << 5;
        ((uint8_t *)to)[i] = (uint8_t)(state >> 11);
    }
}

void board_light(int is_on) {
    (void)is_on;
}

void board_print(const char *text) {
    for (; *text; text++) {
        while (!(UART[5] & 0x20)) {}
        UART[0] = (uint8_t)*text;
    }
}
