/* Refuses one of a program's requests for memory: the one whose number REFUSE_AT tells, counted from 1; none for 0. If
 * REFUSE_CALLS names a file, it writes there for each request from where it was made: 64 bits that are the same for the
 * same calls, one inside the other.
 *
 *     cc -O2 -fno-omit-frame-pointer -shared -fPIC -o refuse.so refuse.c
 *     LD_PRELOAD=./refuse.so REFUSE_AT=0 REFUSE_CALLS=calls ./program
 *     LD_PRELOAD=./refuse.so REFUSE_AT=3 ./program
 *
 * The programs of this repository ask for memory by malloc and realloc alone, on x86-64.
 *
 * They have no tables by which a stack could be walked. So a function is where a call leads; what it takes of the stack
 * is read off its first instructions; and above that the first word is sought that follows a call of it. Where this
 * goes wrong, places are told apart that are one, or the calls further out are left out. */
#define _GNU_SOURCE
#include <dlfcn.h>
#include <fcntl.h>
#include <link.h>
#include <stdint.h>
#include <stdlib.h>
#include <string.h>
#include <sys/mman.h>
#include <unistd.h>

/* A call of a function by its distance: one octet, and four for the distance. */
enum { CALL = 0xe8, CALL_LEN = 5 };

extern void *__libc_stack_end;

static uint64_t refused_number;
static uint64_t number;
static int calls = -1;
/* Whether the program itself runs. */
static int has_begun;
/* The program's instructions, and where its functions begin, by address. */
static const unsigned char *text, *text_end;
static const unsigned char **functions;
static size_t function_count;
static void *(*next_malloc)(size_t);
static void *(*next_realloc)(void *, size_t);

/* Notes where the instructions of the program are, which is the first object that is told of. */
static int note_text(struct dl_phdr_info *info, size_t size, void *unused)
{
    int i;

    (void)size;
    (void)unused;
    for (i = 0; i < info->dlpi_phnum; i++)
        if (info->dlpi_phdr[i].p_type == PT_LOAD && info->dlpi_phdr[i].p_flags & PF_X) {
            text = (const unsigned char *)info->dlpi_addr + info->dlpi_phdr[i].p_vaddr;
            text_end = text + info->dlpi_phdr[i].p_memsz;
        }
    return 1;
}

/* Where a call leads. */
static const unsigned char *target(const unsigned char *call)
{
    int32_t distance;

    memcpy(&distance, call + 1, sizeof distance);
    return call + CALL_LEN + distance;
}

static int by_address(const void *a, const void *b)
{
    uintptr_t x = *(const uintptr_t *)a, y = *(const uintptr_t *)b;

    return (x > y) - (x < y);
}

static void find_functions(void)
{
    size_t most = (size_t)(text_end - text) + 1;
    const unsigned char *at;

    functions = mmap(NULL, most * sizeof *functions, PROT_READ | PROT_WRITE, MAP_PRIVATE | MAP_ANONYMOUS, -1, 0);
    if (functions == MAP_FAILED)
        abort();
    for (at = text; at + CALL_LEN <= text_end; at++)
        if (*at == CALL && target(at) >= text && target(at) < text_end)
            functions[function_count++] = target(at);
    qsort(functions, function_count, sizeof *functions, by_address);
}

/* The beginning of the function that has this instruction. */
static const unsigned char *function_of(const unsigned char *at)
{
    size_t low = 0, high = function_count;

    while (low < high) {
        size_t middle = (low + high) / 2;

        if (functions[middle] <= at)
            low = middle + 1;
        else
            high = middle;
    }
    return low ? functions[low - 1] : text;
}

/* How many words a function takes of the stack: what it pushes at first, and then subtracts. */
static size_t words_of(const unsigned char *at)
{
    size_t words = 0;
    uint32_t octets;

    if (!memcmp(at, "\xf3\x0f\x1e\xfa", 4)) /* endbr64 */
        at += 4;
    for (;;)
        if ((*at & 0xf8) == 0x50) { /* push */
            words++;
            at++;
        } else if (*at == 0x41 && (at[1] & 0xf8) == 0x50) { /* push of r8 to r15 */
            words++;
            at += 2;
        } else if (!memcmp(at, "\x48\x89\xe5", 3)) { /* mov %rsp,%rbp */
            at += 3;
        } else {
            break;
        }
    if (!memcmp(at, "\x48\x83\xec", 3)) /* sub of one octet from %rsp */
        return words + at[3] / sizeof(uintptr_t);
    if (!memcmp(at, "\x48\x81\xec", 3)) { /* of four */
        memcpy(&octets, at + 3, sizeof octets);
        return words + octets / sizeof(uintptr_t);
    }
    return words;
}

/* The calls that lead to an instruction, where the stack ends at a word. */
static uint64_t calls_to(const unsigned char *at, const uintptr_t *stack)
{
    const uintptr_t *end = (const uintptr_t *)__libc_stack_end;
    uint64_t hash = 0xcbf29ce484222325u;

    while (at >= text && at < text_end) {
        const unsigned char *function = function_of(at);

        hash = (hash ^ (uint64_t)(at - text)) * 0x100000001b3u;
        for (at = NULL, stack += words_of(function); !at && stack < end; stack++) {
            const unsigned char *back = (const unsigned char *)*stack;

            if (back >= text + CALL_LEN && back < text_end && back[-CALL_LEN] == CALL &&
                target(back - CALL_LEN) == function)
                at = back;
        }
    }
    return hash;
}

__attribute__((constructor)) static void begin(void)
{
    const char *at = getenv("REFUSE_AT");
    const char *path = getenv("REFUSE_CALLS");

    next_malloc = (void *(*)(size_t))dlsym(RTLD_NEXT, "malloc");
    next_realloc = (void *(*)(void *, size_t))dlsym(RTLD_NEXT, "realloc");
    refused_number = at ? strtoull(at, NULL, 10) : 0;
    if (path) {
        dl_iterate_phdr(note_text, NULL);
        find_functions();
        calls = open(path, O_WRONLY | O_CREAT | O_TRUNC | O_CLOEXEC, 0600);
        if (calls < 0)
            abort();
    }
    has_begun = 1;
}

/* Whether this request is the one: it was made by the call before an instruction, where the stack ended at a word. */
static int is_refused(const void *at, const void *stack)
{
    uint64_t from;

    if (!has_begun)
        return 0;
    if (calls >= 0) {
        from = calls_to(at, stack);
        if (write(calls, &from, sizeof from) != sizeof from)
            abort();
    }
    return ++number == refused_number;
}

/* Above a frame are the pointer to the one before it and the address to return to. */
#define STACK ((const uintptr_t *)__builtin_frame_address(0) + 2)

void *malloc(size_t size)
{
    if (!next_malloc)
        next_malloc = (void *(*)(size_t))dlsym(RTLD_NEXT, "malloc");
    return is_refused(__builtin_return_address(0), STACK) ? NULL : next_malloc(size);
}

void *realloc(void *old, size_t size)
{
    if (!next_realloc)
        next_realloc = (void *(*)(void *, size_t))dlsym(RTLD_NEXT, "realloc");
    return is_refused(__builtin_return_address(0), STACK) ? NULL : next_realloc(old, size);
}
