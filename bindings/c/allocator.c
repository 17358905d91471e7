/*
 * What Rattle's allocator calls in a static library, over the program's malloc, realloc and free. It is trusted: nothing
 * proves it. A failed call answers false and a pointer that nothing is read or written at. malloc may answer null for 0
 * bytes, so such a block has as many as its alignment, which is 16 at most.
 */
#include <stdbool.h>
#include <stddef.h>
#include <stdlib.h>

typedef struct tried {
    bool ok;
    void *at;
} tried;

tried rattle_alloc(size_t size, size_t alignment);
tried rattle_realloc(void *block, size_t kept, size_t size, size_t alignment);
void rattle_dealloc(void *block);

static tried tried_of(void *block) {
    static char nothing;
    return (tried){block != NULL, block != NULL ? block : &nothing};
}

tried rattle_alloc(size_t size, size_t alignment) {
    return tried_of(malloc(size != 0 ? size : alignment));
}

tried rattle_realloc(void *block, size_t kept, size_t size, size_t alignment) {
    (void)kept;
    return tried_of(realloc(block, size != 0 ? size : alignment));
}

void rattle_dealloc(void *block) {
    free(block);
}
