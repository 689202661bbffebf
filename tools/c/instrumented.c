/* What code that a newer clang instrumented calls, for an older runtime of the thread sanitizer, which looks at the calls
 * of memmove, memcpy and memset. */
#include <string.h>

__attribute__((weak)) void *__tsan_memmove(void *to, const void *from, size_t n) {
    return memmove(to, from, n);
}

__attribute__((weak)) void *__tsan_memcpy(void *to, const void *from, size_t n) {
    return memcpy(to, from, n);
}

__attribute__((weak)) void *__tsan_memset(void *to, int byte, size_t n) {
    return memset(to, byte, n);
}
