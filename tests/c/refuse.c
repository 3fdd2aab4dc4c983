/* Preloaded into a program, it refuses the request for memory whose number, from 1, REFUSE_AT gives, and then
   writes one octet to the file that REFUSE_TOLD names: a run that leaves it empty met no such request. */
#include <errno.h>
#include <fcntl.h>
#include <stddef.h>
#include <stdlib.h>
#include <unistd.h>

extern void *__libc_malloc(size_t);
extern void *__libc_calloc(size_t, size_t);
extern void *__libc_realloc(void *, size_t);
extern void *__libc_memalign(size_t, size_t);

static long met, refused_at = -1;

static int is_refused(void) {
    if (refused_at < 0) {
        const char *at = getenv("REFUSE_AT");
        refused_at = at ? atol(at) : 0;
    }
    if (++met != refused_at)
        return 0;
    const char *file = getenv("REFUSE_TOLD");
    int told = file ? open(file, O_WRONLY | O_CREAT | O_TRUNC, 0600) : -1;
    if (told >= 0) {
        if (write(told, "1", 1) != 1)
            _exit(99);
        close(told);
    }
    errno = ENOMEM;
    return 1;
}

void *malloc(size_t size) { return is_refused() ? NULL : __libc_malloc(size); }
void *calloc(size_t count, size_t size) { return is_refused() ? NULL : __libc_calloc(count, size); }
void *realloc(void *old, size_t size) { return is_refused() ? NULL : __libc_realloc(old, size); }
void *aligned_alloc(size_t align, size_t size) { return is_refused() ? NULL : __libc_memalign(align, size); }
void *memalign(size_t align, size_t size) { return is_refused() ? NULL : __libc_memalign(align, size); }
int posix_memalign(void **to, size_t align, size_t size) {
    if (is_refused())
        return ENOMEM;
    void *made = __libc_memalign(align, size);
    if (!made)
        return ENOMEM;
    *to = made;
    return 0;
}
