/* Fails one growth of host memory: the nth call, counted from 1, of malloc, calloc, realloc, aligned_alloc and mmap together.
 * HOST_REFUSE is n; HOST_COUNT names a file that has the number of calls, as a long. */
#define _GNU_SOURCE
#include <dlfcn.h>
#include <errno.h>
#include <fcntl.h>
#include <stdatomic.h>
#include <stdlib.h>
#include <sys/mman.h>
#include <unistd.h>

static atomic_long own;
static atomic_long *calls = &own;
static long refused = -1;
/* Until the start is over, the calls are those of the loader and of this file. */
static int counts;

typedef void *(*taking)(size_t);
typedef void *(*changing)(void *, size_t);
typedef void *(*aligning)(size_t, size_t);
typedef void *(*mapping)(void *, size_t, int, int, int, off_t);

static int refuses(void) {
    return counts && atomic_fetch_add(calls, 1) + 1 == refused;
}

#define NEXT(name, type) static type real; if (!real) real = (type)dlsym(RTLD_NEXT, name)

void *malloc(size_t size) {
    NEXT("malloc", taking);
    if (refuses()) { errno = ENOMEM; return NULL; }
    return real(size);
}

extern void *__libc_calloc(size_t, size_t);
void *calloc(size_t count, size_t size) {
    if (refuses()) { errno = ENOMEM; return NULL; }
    return __libc_calloc(count, size);
}

void *realloc(void *block, size_t size) {
    NEXT("realloc", changing);
    if (refuses()) { errno = ENOMEM; return NULL; }
    return real(block, size);
}

void *aligned_alloc(size_t align, size_t size) {
    NEXT("aligned_alloc", aligning);
    if (refuses()) { errno = ENOMEM; return NULL; }
    return real(align, size);
}

void *mmap(void *at, size_t size, int protection, int flags, int file, off_t offset) {
    NEXT("mmap", mapping);
    if (refuses()) { errno = ENOMEM; return MAP_FAILED; }
    return real(at, size, protection, flags, file, offset);
}

/* The program may end without its destructors, so the number lies in the file at every moment. */
__attribute__((constructor)) static void begin(void) {
    const char *text = getenv("HOST_REFUSE");
    const char *path = getenv("HOST_COUNT");
    int file = path ? open(path, O_RDWR | O_CREAT | O_TRUNC, 0600) : -1;
    refused = text ? atol(text) : -1;
    if (file >= 0 && ftruncate(file, sizeof(long)) == 0) {
        void *at = mmap(NULL, sizeof(long), PROT_READ | PROT_WRITE, MAP_SHARED, file, 0);
        if (at != MAP_FAILED) calls = at;
    }
    counts = 1;
}
