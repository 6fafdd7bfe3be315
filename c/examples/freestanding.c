/* A host without a C library, whose heap is an array: for a board, or a kernel. The library wants six functions,
 * which stand below: memcpy, memmove, memset, rattle_alloc, rattle_realloc and rattle_dealloc. It is linked without
 * heap.c:
 *
 *   cc -std=c99 -O2 -I. -ffreestanding -fno-stack-protector -nostdlib -static examples/freestanding.c build/libiface.a
 *
 * It sends back each datagram that comes to its port 7, and answers ping, as udp_echo does: a frame is a line of hex.
 * A board has a driver in place of `read_octet`, `write_octets` and `end`, and its timer in place of `now`.
 */
#include "iface.h"

#include <stdbool.h>

/* ---- what the library wants ---- */

/* Through volatile pointers, so that no compiler makes a call of the function itself of its loop. */
void *memmove(void *to, const void *from, size_t length) {
    volatile uint8_t *t = to;
    const volatile uint8_t *f = from;
    if ((uintptr_t)to < (uintptr_t)from)
        for (size_t i = 0; i < length; i++) t[i] = f[i];
    else
        for (size_t i = length; i > 0; i--) t[i - 1] = f[i - 1];
    return to;
}

void *memcpy(void *to, const void *from, size_t length) {
    return memmove(to, from, length);
}

void *memset(void *at, int octet, size_t length) {
    volatile uint8_t *t = at;
    for (size_t i = 0; i < length; i++) t[i] = (uint8_t)octet;
    return at;
}

/* The heap: blocks one behind the other, each behind a header that says how many units it has, and whether it is
 * free. The first one that is long enough serves, and free ones are joined on the way. */
enum { HEAP_OCTETS = 128 * 1024, UNIT = 16, UNITS = HEAP_OCTETS / UNIT };

static union unit {
    struct {
        size_t units;
        bool is_free;
    } head;
    uint8_t octets[UNIT];
} heap[UNITS] = {{{UNITS, true}}};

static void *take(size_t size) {
    size_t wanted = size / UNIT + 2;
    for (size_t at = 0; wanted <= UNITS && at < UNITS; at += heap[at].head.units) {
        size_t *units = &heap[at].head.units;
        if (!heap[at].head.is_free) continue;
        while (at + *units < UNITS && heap[at + *units].head.is_free) *units += heap[at + *units].head.units;
        if (*units < wanted) continue;
        if (*units > wanted) heap[at + wanted].head.units = *units - wanted, heap[at + wanted].head.is_free = true;
        *units = wanted, heap[at].head.is_free = false;
        return &heap[at + 1];
    }
    return NULL;
}

struct block {
    bool is_there;
    void *at;
};

static union unit none; /* what a refusal points to: the library takes no null pointer */

struct block rattle_alloc(size_t size, size_t align) {
    void *at = take(size);
    (void)align; /* at most 16 */
    return (struct block){at != NULL, at ? at : &none};
}

void rattle_dealloc(void *at) {
    ((union unit *)at - 1)->head.is_free = true;
}

struct block rattle_realloc(void *old, size_t old_size, size_t size, size_t align) {
    struct block new_one = rattle_alloc(size, align);
    if (!new_one.is_there) return new_one;
    memcpy(new_one.at, old, old_size < size ? old_size : size);
    rattle_dealloc(old);
    return new_one;
}

/* ---- the link: standard input and output, by system calls of Linux ---- */

#if defined(__x86_64__)
enum { READ = 0, WRITE = 1, EXIT = 60 };
static long call(long number, long a, long b, long c) {
    long result;
    __asm__ volatile("syscall" : "=a"(result) : "0"(number), "D"(a), "S"(b), "d"(c) : "rcx", "r11", "memory");
    return result;
}
#elif defined(__aarch64__)
enum { READ = 63, WRITE = 64, EXIT = 93 };
static long call(long number, long a, long b, long c) {
    register long x8 __asm__("x8") = number, x0 __asm__("x0") = a, x1 __asm__("x1") = b, x2 __asm__("x2") = c;
    __asm__ volatile("svc 0" : "+r"(x0) : "r"(x8), "r"(x1), "r"(x2) : "memory");
    return x0;
}
#endif

static int read_octet(void) {
    uint8_t octet;
    return call(READ, 0, (long)&octet, 1) == 1 ? octet : -1;
}

static void write_octets(const char *octets, size_t length) {
    call(WRITE, 1, (long)octets, (long)length);
}

static void end(int status) {
    for (;;) call(EXIT, status, 0, 0);
}

static void send_frame(const uint8_t *frame, size_t length) {
    static const char digits[] = "0123456789abcdef";
    static char line[2 * IFACE_FRAME_ROOM + 1];
    size_t n = 0;
    for (size_t i = 0; i < length; i++) line[n++] = digits[frame[i] >> 4], line[n++] = digits[frame[i] & 15];
    line[n++] = '\n';
    if (length > 0) write_octets(line, n);
}

static int digit_of(int c) {
    return c >= '0' && c <= '9' ? c - '0' : c >= 'a' && c <= 'f' ? c - 'a' + 10 : -1;
}

/* Reads a frame: how many octets it has, or -1 at the end. */
static long read_frame(uint8_t *frame, size_t room) {
    size_t digits = 0;
    for (int c = read_octet(); c != '\n'; c = read_octet()) {
        int digit = digit_of(c);
        if (c < 0) return -1;
        if (digit < 0 || digits / 2 == room) continue;
        frame[digits / 2] = (uint8_t)(digits % 2 ? frame[digits / 2] | digit : digit << 4);
        digits++;
    }
    return (long)(digits / 2);
}

/* ---- the host ---- */

enum { PORT = 7, QUEUE_PACKETS = 4, QUEUE_OCTETS = 4096 };
static const struct iface_rooms rooms = IFACE_ROOMS(QUEUE_PACKETS, QUEUE_OCTETS);

static uint8_t frame[IFACE_FRAME_ROOM], out[IFACE_FRAME_ROOM], payload[QUEUE_OCTETS];

static void must(uint32_t code) {
    if (code != IFACE_OK) end((int)code);
}

static void run(void) {
    iface host = IFACE_NONE;
    struct iface_config config;
    struct iface_address own = {4, {192, 168, 69, 1}};
    struct iface_endpoint any = {.port = PORT}, remote;
    uint32_t socket;
    size_t length;
    int64_t now = 0;
    iface_config_init(&config);
    config.seed = 1, config.sockets = 1, config.hardware_address[0] = 2, config.hardware_address[5] = 1;
    must(iface_version() == IFACE_VERSION ? iface_new(&host, &config) : IFACE_BAD_ARGUMENT);
    must(iface_add_address(&host, &own, 24));
    must(iface_udp_open(&host, &any, &rooms, &socket));
    for (long got; (got = read_frame(frame, sizeof frame)) >= 0; now += 1000) {
        must(iface_receive(&host, now, frame, (size_t)got, out, sizeof out, &length));
        send_frame(out, length);
        while (iface_udp_receive(&host, socket, &remote, payload, sizeof payload, &length) == IFACE_OK)
            (void)iface_udp_send(&host, socket, &remote, payload, length); /* without room in the queue it is dropped */
        for (must(iface_next(&host, now, out, sizeof out, &length)); length > 0;
             must(iface_next(&host, now, out, sizeof out, &length)))
            send_frame(out, length);
    }
    end(0);
}

#if defined(__x86_64__)
__attribute__((force_align_arg_pointer)) /* the kernel enters without a return address */
#endif
void _start(void) {
    run();
}
