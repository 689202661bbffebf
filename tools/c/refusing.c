/* Wraps the C library's allocator (LD_PRELOAD): the request for memory whose number is REFUSED_REQUEST, counted from 1,
 * finds none. The number of requests made, and of blocks that aren't freed, is kept in the first sixteen bytes of the file
 * that REQUESTS names. */
#define _GNU_SOURCE
#include <errno.h>
#include <fcntl.h>
#include <stdint.h>
#include <stdlib.h>
#include <sys/mman.h>
#include <unistd.h>

void *__libc_malloc(size_t);
void *__libc_calloc(size_t, size_t);
void *__libc_realloc(void *, size_t);
void *__libc_memalign(size_t, size_t);
void __libc_free(void *);

struct counts {
    uint64_t requests, blocks;
};

static struct counts own, *made = &own;
static uint64_t refused;

__attribute__((constructor)) static void begin(void) {
    const char *number = getenv("REFUSED_REQUEST"), *file = getenv("REQUESTS");
    int opened = file ? open(file, O_RDWR) : -1;
    if (opened >= 0) {
        void *shared = mmap(NULL, sizeof *made, PROT_READ | PROT_WRITE, MAP_SHARED, opened, 0);
        if (shared != MAP_FAILED)
            made = shared;
        close(opened);
    }
    made->requests = made->blocks = 0;
    refused = number ? strtoull(number, NULL, 10) : 0;
}

static int is_refused(void) {
    if (__atomic_add_fetch(&made->requests, 1, __ATOMIC_RELAXED) != refused)
        return 0;
    errno = ENOMEM;
    return 1;
}

static void *counted(void *block) {
    if (block)
        __atomic_add_fetch(&made->blocks, 1, __ATOMIC_RELAXED);
    return block;
}

void *malloc(size_t size) {
    return is_refused() ? NULL : counted(__libc_malloc(size));
}

void *realloc(void *block, size_t size) {
    if (is_refused())
        return NULL;
    return block ? __libc_realloc(block, size) : counted(__libc_malloc(size));
}

void *calloc(size_t count, size_t size) {
    return counted(__libc_calloc(count, size));
}

int posix_memalign(void **place, size_t alignment, size_t size) {
    void *block = counted(__libc_memalign(alignment, size));
    if (!block)
        return ENOMEM;
    *place = block;
    return 0;
}

void *aligned_alloc(size_t alignment, size_t size) {
    return counted(__libc_memalign(alignment, size));
}

void free(void *block) {
    if (block)
        __atomic_sub_fetch(&made->blocks, 1, __ATOMIC_RELAXED);
    __libc_free(block);
}
