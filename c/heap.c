/* The memory of the library, by the program's malloc, realloc and free. Another allocator serves too, if its blocks are
 * aligned to each power of two up to 16 that divides their size, as the C standard asks of malloc. */
#include <stdbool.h>
#include <stddef.h>
#include <stdlib.h>

struct block {
    bool is_there;
    void *at;
};

static char none; /* what a refusal points to: the library takes no null pointer */

struct block rattle_alloc(size_t size, size_t align) {
    void *at = malloc(size ? size : align);
    return (struct block){at != NULL, at ? at : &none};
}

struct block rattle_realloc(void *old, size_t old_size, size_t size, size_t align) {
    (void)old_size;
    void *at = realloc(old, size ? size : align);
    return (struct block){at != NULL, at ? at : &none};
}

void rattle_dealloc(void *at) {
    free(at);
}
