/* Refuses growths of a program: the one that REFUSE_AT numbers, from 1 on, once main is near, or each where that is 0.
   Where REFUSE_MARKED is set those alone count that are met behind a '[' and before the next ']', each of them written
   alone to standard error. A byte on the file that REFUSE_TOLD numbers says that a growth was refused.
   For LD_PRELOAD, over the C library's own allocator and its write. */
#define _GNU_SOURCE
#include <errno.h>
#include <malloc.h>
#include <stdlib.h>
#include <sys/syscall.h>
#include <unistd.h>

void *__libc_malloc(size_t size);
void *__libc_calloc(size_t count, size_t size);
void *__libc_realloc(void *old, size_t size);
void *__libc_memalign(size_t alignment, size_t size);

static long at = -1, met;
static int told, marked, counts;

__attribute__((constructor)) static void begin(void) {
    const char *number = getenv("REFUSE_AT"), *file = getenv("REFUSE_TOLD");
    told = file ? atoi(file) : -1;
    at = number ? atol(number) : -1;
    marked = getenv("REFUSE_MARKED") != NULL;
    counts = !marked;
}

ssize_t write(int file, const void *bytes, size_t size) {
    if (marked && file == STDERR_FILENO && size == 1) {
        char mark = *(const char *)bytes;
        counts = mark == '[' ? 1 : mark == ']' ? 0 : counts;
    }
    return syscall(SYS_write, file, bytes, size);
}

static int refused(void) {
    if (at < 0 || !counts)
        return 0;
    ++met;
    if (at != 0 && met != at)
        return 0;
    if (syscall(SYS_write, told, "r", 1) != 1)
        _exit(99);
    errno = ENOMEM;
    return 1;
}

void *malloc(size_t size) {
    return refused() ? NULL : __libc_malloc(size);
}

void *calloc(size_t count, size_t size) {
    return refused() ? NULL : __libc_calloc(count, size);
}

void *realloc(void *old, size_t size) {
    int grows = old == NULL || size > malloc_usable_size(old);
    return grows && refused() ? NULL : __libc_realloc(old, size);
}

void *memalign(size_t alignment, size_t size) {
    return refused() ? NULL : __libc_memalign(alignment, size);
}

void *aligned_alloc(size_t alignment, size_t size) {
    return memalign(alignment, size);
}

int posix_memalign(void **there, size_t alignment, size_t size) {
    void *made = memalign(alignment, size);
    if (made == NULL)
        return ENOMEM;
    *there = made;
    return 0;
}
