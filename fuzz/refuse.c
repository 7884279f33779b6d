/* Loaded before the C library, refuses requests for memory: number REFUSE_FIRST, counted from 1, and where REFUSE_STEP is
   not 0 each REFUSE_STEP-th one behind it too. Where one was refused, the file REFUSE_TOLD is there at the end. */
#include <errno.h>
#include <fcntl.h>
#include <stddef.h>
#include <stdlib.h>
#include <unistd.h>

extern void *__libc_malloc(size_t size);
extern void *__libc_calloc(size_t count, size_t size);
extern void *__libc_realloc(void *old, size_t size);
extern void *__libc_memalign(size_t alignment, size_t size);

static unsigned long made, first, step;

__attribute__((constructor)) static void begin(void) {
    const char *text = getenv("REFUSE_FIRST");
    first = text ? strtoul(text, NULL, 10) : 0;
    text = getenv("REFUSE_STEP");
    step = text ? strtoul(text, NULL, 10) : 0;
}

__attribute__((destructor)) static void end(void) {
    const char *told = getenv("REFUSE_TOLD");
    int file = told && first && made >= first ? open(told, O_WRONLY | O_CREAT, 0600) : -1;
    if (file >= 0)
        close(file);
}

static int refuses(void) {
    if (first == 0)
        return 0;
    made++;
    if (made < first || (made > first && (step == 0 || (made - first) % step != 0)))
        return 0;
    errno = ENOMEM;
    return 1;
}

void *malloc(size_t size) { return refuses() ? NULL : __libc_malloc(size); }

void *calloc(size_t count, size_t size) { return refuses() ? NULL : __libc_calloc(count, size); }

void *realloc(void *old, size_t size) { return refuses() ? NULL : __libc_realloc(old, size); }

void *aligned_alloc(size_t alignment, size_t size) { return refuses() ? NULL : __libc_memalign(alignment, size); }

int posix_memalign(void **out, size_t alignment, size_t size) {
    void *found = refuses() ? NULL : __libc_memalign(alignment, size);
    if (!found)
        return ENOMEM;
    *out = found;
    return 0;
}
