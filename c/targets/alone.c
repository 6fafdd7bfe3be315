/* What a program without a C library needs beside memory (arena.c): memcpy, memmove, memset, and on processors of 32 bits division of
 * 64 bits. The plainest there is: the C library of a compiler has faster ones. */
typedef __SIZE_TYPE__ size_t;
typedef unsigned char u8;

void *memcpy(void *restrict to, const void *restrict from, size_t n) {
    /* cppcheck-suppress useStandardLibrary */
    for (size_t i = 0; i < n; i++) ((u8 *)to)[i] = ((const u8 *)from)[i];
    return to;
}

void *memmove(void *to, const void *from, size_t n) {
    if ((u8 *)to <= (const u8 *)from) return memcpy(to, from, n);
    while (n-- > 0) ((u8 *)to)[n] = ((const u8 *)from)[n];
    return to;
}

void *memset(void *at, int octet, size_t n) {
    for (size_t i = 0; i < n; i++) ((u8 *)at)[i] = (u8)octet;
    return at;
}

#if defined(__arm__)
/* The same by the names of ARM's run-time ABI. */
#define THREE(name) void name(void *to, const void *from, size_t n)
#define FILLS(name) void name(void *at, size_t n, int octet)
#define CLEARS(name) void name(void *at, size_t n)
THREE(__aeabi_memcpy) { memcpy(to, from, n); }
THREE(__aeabi_memcpy4) { memcpy(to, from, n); }
THREE(__aeabi_memcpy8) { memcpy(to, from, n); }
THREE(__aeabi_memmove) { memmove(to, from, n); }
THREE(__aeabi_memmove4) { memmove(to, from, n); }
THREE(__aeabi_memmove8) { memmove(to, from, n); }
FILLS(__aeabi_memset) { memset(at, octet, n); }
FILLS(__aeabi_memset4) { memset(at, octet, n); }
FILLS(__aeabi_memset8) { memset(at, octet, n); }
CLEARS(__aeabi_memclr) { memset(at, 0, n); }
CLEARS(__aeabi_memclr4) { memset(at, 0, n); }
CLEARS(__aeabi_memclr8) { memset(at, 0, n); }
#endif

#if defined(__arm__) || (defined(__riscv) && __riscv_xlen == 32)
/* Division of 64 bits, bit by bit. */
unsigned long long divide(unsigned long long a, unsigned long long b, unsigned long long *rest) {
    unsigned long long quotient = 0, r = 0;
    for (int bit = 63; bit >= 0; bit--) {
        r = r << 1 | (a >> bit & 1);
        if (r >= b) r -= b, quotient |= 1ull << bit;
    }
    *rest = r;
    return quotient;
}
unsigned long long __udivdi3(unsigned long long a, unsigned long long b) {
    unsigned long long rest;
    return divide(a, b, &rest);
}
unsigned long long __umoddi3(unsigned long long a, unsigned long long b) {
    unsigned long long rest;
    return divide(a, b, &rest), rest;
}
#endif

#if defined(__arm__)
/* The quotient in r0 and r1, the rest in r2 and r3. */
__attribute__((naked)) void __aeabi_uldivmod(void) {
    __asm__("push {r4, lr}\n sub sp, #16\n add r4, sp, #8\n str r4, [sp]\n bl divide\n ldr r2, [sp, #8]\n ldr r3, [sp, #12]\n"
            "add sp, #16\n pop {r4, pc}");
}
#endif
