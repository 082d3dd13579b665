/* Lets allocations fail between two marks.

   `rt try` links the address sanitizer, whose `malloc` calls the function `__interceptor_malloc` if a
   program defines it. The program's function can call the sanitizer's own `malloc`, whose name has
   three underscores. */
#include <errno.h>
#include <stddef.h>
#include <stdint.h>

static uint64_t first, last, count, asked;
static int marked;

/* The allocations with the numbers `from` to `to` fail, counted from the next mark on. */
void calls_refuse(uint64_t from, uint64_t to) { first = from, last = to, count = asked = 0; }
void calls_begin(void) { marked = 1; }
void calls_end(void) { marked = 0; }
uint64_t calls_count(void) { return count; }
uint64_t calls_asked(void) { return asked; }

static int refused(size_t size) {
    if (!marked) return 0;
    asked += size;
    if (++count < first || count > last) return 0;
    errno = ENOMEM;
    return 1;
}

void *___interceptor_malloc(size_t);
void *___interceptor_realloc(void *, size_t);
void *___interceptor_calloc(size_t, size_t);
void *___interceptor_aligned_alloc(size_t, size_t);
int ___interceptor_posix_memalign(void **, size_t, size_t);

void *__interceptor_malloc(size_t size) { return refused(size) ? 0 : ___interceptor_malloc(size); }

void *__interceptor_realloc(void *old, size_t size) {
    return refused(size) ? 0 : ___interceptor_realloc(old, size);
}

void *__interceptor_calloc(size_t number, size_t size) {
    return refused(number * size) ? 0 : ___interceptor_calloc(number, size);
}

void *__interceptor_aligned_alloc(size_t align, size_t size) {
    return refused(size) ? 0 : ___interceptor_aligned_alloc(align, size);
}

int __interceptor_posix_memalign(void **place, size_t align, size_t size) {
    return refused(size) ? ENOMEM : ___interceptor_posix_memalign(place, align, size);
}
