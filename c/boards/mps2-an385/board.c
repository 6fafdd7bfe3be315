/* The board MPS2 of ARM with the image AN385, a Cortex-M3 at 25 MHz: its start, its clock, its lines of text and its light. */
#include "../board.h"

#include "lan9118.h"

#define REGISTER(at) (*(volatile uint32_t *)(uintptr_t)(at))

struct timer { /* CMSDK: it counts down */
    volatile uint32_t control, value, reload, interrupt;
};

#define CLOCK ((struct timer *)0x40000000)
#define ALARM ((struct timer *)0x40001000)
#define UART ((volatile uint32_t *)0x40004000) /* data, state, control, divisor */
#define LIGHTS REGISTER(0x40028000)
#define INTERRUPTS_ON REGISTER(0xe000e100)

enum { ON = 1, WITH_INTERRUPT = 8, TICKS = 25, ALARM_IRQ = 9, LAN9118_IRQ = 13, UNUSED = 0xa5 };

/* Of board.ld: where parts of the memory begin, and how many words they have, as addresses. */
extern uint32_t stack[], stack_end[], data[], data_kept[], bss[], stack_words[], data_words[], bss_words[];

int main(void);
void start(void);

void board_stop(int status) {
    (void)status;
    for (;;) __asm__ volatile("cpsid i\n wfi");
}

static void on_fault(void) {
    board_print("fault\n");
    board_stop(1);
}

static void on_alarm(void) {
    ALARM->control = 0, ALARM->interrupt = 1;
}

/* Where it begins: the stack, what is entered, and the handlers of interrupts. */
__attribute__((section(".vectors"), used)) static const struct {
    uint32_t *stack;
    void (*handlers[15 + 32])(void);
} vectors = {
    stack_end,
    {start, on_fault, on_fault, on_fault, on_fault, on_fault, [10] = on_fault, [13] = on_fault, [14] = on_fault,
     [15 + ALARM_IRQ] = on_alarm, [15 + LAN9118_IRQ] = on_lan9118},
};

__attribute__((noinline)) void start(void) {
    for (size_t i = 0; i < (uintptr_t)data_words; i++) data[i] = data_kept[i];
    for (size_t i = 0; i < (uintptr_t)bss_words; i++) bss[i] = 0;
    for (size_t i = 0; i < (uintptr_t)stack_words - 64; i++) stack[i] = UNUSED; /* the last 64 words are in use */
    UART[3] = 16, UART[2] = ON;
    main();
    board_stop(0);
}

size_t board_stack(void) {
    size_t words = (uintptr_t)stack_words, at = 0;
    while (at < words && stack[at] == UNUSED) at++;
    return (words - at) * sizeof *stack;
}

void board_start(uint8_t hardware_address[6]) {
    CLOCK->reload = CLOCK->value = 0xffffffff, CLOCK->control = ON;
    lan9118_start(hardware_address);
    INTERRUPTS_ON = 1u << ALARM_IRQ | 1u << LAN9118_IRQ;
}

/* The counter begins again each 171 seconds. */
int64_t board_now(void) {
    static uint32_t last = 0xffffffff, rest;
    static int64_t micros;
    uint32_t value = CLOCK->value, ticks = last - value + rest;
    last = value, rest = ticks % TICKS;
    return micros += ticks / TICKS;
}

/* An interrupt that comes between the question and `wfi` ends that at once, since it waits until these are let in again. */
void board_sleep(int64_t until) {
    __asm__ volatile("cpsid i");
    lan9118_listen();
    int64_t rest = until - board_now();
    if (rest > 60000000) rest = 60000000;
    if (rest > 0 && !lan9118_has_frame()) {
        ALARM->reload = ALARM->value = (uint32_t)rest * TICKS, ALARM->control = ON | WITH_INTERRUPT;
        __asm__ volatile("dsb\n wfi");
    }
    on_alarm();
    __asm__ volatile("cpsie i\n isb");
}

/* Of the clock and the device's address. */
void board_draw(void *to, size_t length) {
    static uint32_t state = 2463534242u;
    for (size_t i = 0; i < length; i++) {
        state ^= CLOCK->value;
        state ^= state << 13, state ^= state >> 17, state ^= state << 5;
        ((uint8_t *)to)[i] = (uint8_t)(state >> 11);
    }
}

void board_light(int is_on) {
    LIGHTS = is_on != 0;
}

void board_print(const char *text) {
    for (; *text; text++) {
        while (UART[1] & 1) {}
        UART[0] = (uint8_t)*text;
    }
}
