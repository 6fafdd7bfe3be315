/* For qemu's user mode: a start, and three system calls of Linux. */
typedef unsigned char u8;

#if defined(__aarch64__)
static long call(long n, long a, long b, long c) {
    register long x8 __asm__("x8") = n, x0 __asm__("x0") = a, x1 __asm__("x1") = b, x2 __asm__("x2") = c;
    __asm__ volatile("svc 0" : "+r"(x0) : "r"(x8), "r"(x1), "r"(x2) : "memory");
    return x0;
}
enum { READ = 63, WRITE = 64, EXIT = 93 };
#elif defined(__riscv)
static long call(long n, long a, long b, long c) {
    register long a7 __asm__("a7") = n, a0 __asm__("a0") = a, a1 __asm__("a1") = b, a2 __asm__("a2") = c;
    __asm__ volatile("ecall" : "+r"(a0) : "r"(a7), "r"(a1), "r"(a2) : "memory");
    return a0;
}
enum { READ = 63, WRITE = 64, EXIT = 93 };
#elif defined(__arm__)
static long call(long n, long a, long b, long c) {
    register long r0 __asm__("r0") = a, r1 __asm__("r1") = b, r2 __asm__("r2") = c;
    __asm__ volatile("push {r7}\n mov r7, %1\n svc 0\n pop {r7}" : "+r"(r0) : "r"(n), "r"(r1), "r"(r2) : "memory");
    return r0;
}
enum { READ = 3, WRITE = 4, EXIT = 1 };
#else
static long call(long n, long a, long b, long c) {
    long result;
    __asm__ volatile("syscall" : "=a"(result) : "0"(n), "D"(a), "S"(b), "d"(c) : "rcx", "r11", "memory");
    return result;
}
enum { READ = 0, WRITE = 1, EXIT = 60 };
#endif

long sys_read(void *at, unsigned long room) { return call(READ, 0, (long)at, (long)room); }

void sys_write(const void *at, unsigned long length) {
    while (length > 0) {
        long done = call(WRITE, 1, (long)at, (long)length);
        if (done <= 0) call(EXIT, 1, 0, 0);
        at = (const u8 *)at + done, length -= (unsigned long)done;
    }
}

int run(void);

#if defined(__x86_64__)
__attribute__((force_align_arg_pointer))
#endif
void _start(void) {
    long status = run();
    call(EXIT, status, 0, 0);
    __builtin_unreachable();
}
