/* Loaded into a program (LD_PRELOAD), makes one of its allocations fail: the one whose number, counted from 1, is in the
   variable REFUSE. When it fails, a byte is written to the file descriptor whose number is in REFUSE_FD. */
#include <errno.h>
#include <stdlib.h>
#include <unistd.h>

extern void *__libc_malloc(size_t size);
extern void *__libc_calloc(size_t count, size_t size);
extern void *__libc_realloc(void *old, size_t size);
extern void *__libc_memalign(size_t alignment, size_t size);

static long left;
static int told = -1;

__attribute__((constructor)) static void start(void) {
    const char *number = getenv("REFUSE");
    const char *file = getenv("REFUSE_FD");
    told = file ? atoi(file) : -1;
    left = number ? atol(number) : 0;
}

static int is_refused(void) {
    if (left == 0 || --left != 0) {
        return 0;
    }
    if (told >= 0 && write(told, "r", 1) != 1) {
        _exit(99);
    }
    errno = ENOMEM;
    return 1;
}

void *malloc(size_t size) {
    return is_refused() ? NULL : __libc_malloc(size);
}

void *calloc(size_t count, size_t size) {
    return is_refused() ? NULL : __libc_calloc(count, size);
}

void *realloc(void *old, size_t size) {
    return is_refused() ? NULL : __libc_realloc(old, size);
}

void *aligned_alloc(size_t alignment, size_t size) {
    return is_refused() ? NULL : __libc_memalign(alignment, size);
}

void *memalign(size_t alignment, size_t size) {
    return is_refused() ? NULL : __libc_memalign(alignment, size);
}

int posix_memalign(void **made, size_t alignment, size_t size) {
    void *memory = is_refused() ? NULL : __libc_memalign(alignment, size);
    if (memory == NULL) {
        return ENOMEM;
    }
    *made = memory;
    return 0;
}
