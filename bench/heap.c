/* Stands between a program and the allocator of the GNU C library (LD_PRELOAD). At the end the file that
 * HEAP names has, for each call of the allocator, by how many octets what the program holds grew: a signed
 * number of 64 bits. bench/memory reads it. The octets of a block are those that it has room for. */
#define _GNU_SOURCE
#include <fcntl.h>
#include <malloc.h>
#include <stdint.h>
#include <stdlib.h>
#include <unistd.h>

extern void *__libc_malloc(size_t);
extern void *__libc_calloc(size_t, size_t);
extern void *__libc_realloc(void *, size_t);
extern void *__libc_memalign(size_t, size_t);
extern void __libc_free(void *);

#define MOST ((size_t)1 << 24)

static int64_t steps[MOST];
static size_t count;

static void step(size_t before, size_t after) {
    if (count < MOST && before != after) steps[count++] = (int64_t)after - (int64_t)before;
}

static void *made(void *block) {
    step(0, malloc_usable_size(block));
    return block;
}

void *malloc(size_t size) {
    return made(__libc_malloc(size));
}

void *calloc(size_t number, size_t size) {
    return made(__libc_calloc(number, size));
}

void *memalign(size_t align, size_t size) {
    return made(__libc_memalign(align, size));
}

void *aligned_alloc(size_t align, size_t size) {
    return memalign(align, size);
}

int posix_memalign(void **block, size_t align, size_t size) {
    *block = memalign(align, size);
    return *block ? 0 : 12;
}

void *realloc(void *old, size_t size) {
    size_t before = malloc_usable_size(old);
    void *block = __libc_realloc(old, size);
    if (block) step(before, malloc_usable_size(block));
    return block;
}

void free(void *block) {
    step(malloc_usable_size(block), 0);
    __libc_free(block);
}

__attribute__((destructor)) static void end(void) {
    const char *name = getenv("HEAP");
    int file = name ? open(name, O_WRONLY | O_CREAT | O_TRUNC, 0666) : -1;
    size_t done = 0;
    while (file >= 0 && done < count * sizeof *steps) {
        ssize_t some = write(file, (const char *)steps + done, count * sizeof *steps - done);
        if (some <= 0) break;
        done += (size_t)some;
    }
}
