/* Memory, as the program and the library for C ask for it, for processors that the kit brings no archives for (aarch64).

   Each function's contract is the kit's, as its crate `libc` states it: nothing proves that what stands here keeps it, so tests/c/runtime.c tries each. */
#include <stdbool.h>
#include <stddef.h>
#include <stdlib.h>

/* The answer of what asks for memory: whether there is some, and where. The place is never null, also where there is none. */
struct tried {
    bool is_there;
    void *place;
};

static char nowhere;

static struct tried tried(void *place) { return (struct tried){place != NULL, place != NULL ? place : &nowhere}; }

/* New memory of so many octets, aligned to a divisor of 16, as malloc aligns it. Of no octets as many are asked for as the alignment: null then means want of memory. */
struct tried rattle_alloc(size_t octets, size_t alignment) { return tried(malloc(octets ? octets : alignment)); }

/* Another size for a block, whose first `kept` octets stay as they are; it may move. Where that fails the block is as it was. */
struct tried rattle_realloc(void *block, size_t kept, size_t octets, size_t alignment) {
    (void)kept;
    return tried(realloc(block, octets ? octets : alignment));
}

/* Frees what either of them answered. */
void rattle_dealloc(void *block) { free(block); }
