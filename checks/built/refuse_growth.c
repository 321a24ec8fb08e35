// Loaded before the C library, it refuses one growth of memory of a program: that whose count, from 1, is in the
// environment as REFUSED. Where the program comes so far, the file that MET names is made.
#define _GNU_SOURCE
#include <errno.h>
#include <fcntl.h>
#include <stdlib.h>
#include <unistd.h>

static long growths;
static long refused = -1;

void *__libc_malloc(size_t size);
void *__libc_calloc(size_t count, size_t size);
void *__libc_realloc(void *old, size_t size);
void *__libc_memalign(size_t align, size_t size);

static void tell(void) {
    const char *path = getenv("MET");
    int file = path ? open(path, O_CREAT | O_WRONLY, 0600) : -1;
    if (file >= 0) {
        close(file);
    }
}

static int is_refused(void) {
    if (refused < 0) {
        const char *text = getenv("REFUSED");
        refused = text ? atol(text) : 0;
    }
    if (__atomic_add_fetch(&growths, 1, __ATOMIC_SEQ_CST) != refused) {
        return 0;
    }
    tell();
    errno = ENOMEM;
    return 1;
}

void *malloc(size_t size) {
    return is_refused() ? NULL : __libc_malloc(size);
}

void *calloc(size_t count, size_t size) {
    return is_refused() ? NULL : __libc_calloc(count, size);
}

void *realloc(void *old, size_t size) {
    return is_refused() ? NULL : __libc_realloc(old, size);
}

void *aligned_alloc(size_t align, size_t size) {
    return is_refused() ? NULL : __libc_memalign(align, size);
}

int posix_memalign(void **place, size_t align, size_t size) {
    if (is_refused()) {
        return ENOMEM;
    }
    *place = __libc_memalign(align, size);
    return *place ? 0 : ENOMEM;
}
