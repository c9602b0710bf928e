/* Stands between a program and the allocator of the GNU C library (LD_PRELOAD), and refuses memory.
 * The environment says what it refuses:
 *
 * REFUSE_AT=N     the Nth growth, and no other
 * REFUSE_PAST=N   each growth by which the program would hold more than N octets
 * REFUSALS=FILE   at the end FILE has how many growths there were, and how many of them were refused */
#define _GNU_SOURCE
#include <errno.h>
#include <fcntl.h>
#include <malloc.h>
#include <stdint.h>
#include <stdio.h>
#include <stdlib.h>
#include <unistd.h>

extern void *__libc_malloc(size_t);
extern void *__libc_calloc(size_t, size_t);
extern void *__libc_realloc(void *, size_t);
extern void *__libc_memalign(size_t, size_t);
extern void __libc_free(void *);

static size_t at, past, growths, refused, held;

static size_t number(const char *name) {
    const char *text = getenv(name);
    return text ? strtoull(text, NULL, 10) : 0;
}

__attribute__((constructor)) static void begin(void) {
    at = number("REFUSE_AT");
    past = number("REFUSE_PAST");
    growths = 0;
}

/* Where the size of what was made stands: behind it, in the last octets that the library gave. */
static size_t *size_of(void *made) {
    return (size_t *)((char *)made + malloc_usable_size(made)) - 1;
}

/* Whether it refuses SIZE octets in the place of BEFORE octets. A growth is what isn't smaller. */
static int refuses(size_t size, size_t before) {
    if (before && size <= before) return 0;
    growths++;
    if (size > SIZE_MAX / 2) return 1;
    if (growths != at && !(past && held - before + size > past)) return 0;
    refused++;
    errno = ENOMEM;
    return 1;
}

/* What was made, in the place of BEFORE octets. */
static void *counted(void *made, size_t size, size_t before) {
    if (!made) return NULL;
    *size_of(made) = size;
    held += size - before;
    return made;
}

void *malloc(size_t size) {
    if (refuses(size, 0)) return NULL;
    return counted(__libc_malloc(size + sizeof size), size, 0);
}

void *calloc(size_t count, size_t size) {
    size_t all = size && count > SIZE_MAX / size ? SIZE_MAX : count * size;
    if (refuses(all, 0)) return NULL;
    return counted(__libc_calloc(1, all + sizeof size), all, 0);
}

void *realloc(void *old, size_t size) {
    size_t before = old ? *size_of(old) : 0;
    if (refuses(size, before)) return NULL;
    return counted(__libc_realloc(old, size + sizeof size), size, before);
}

void *memalign(size_t align, size_t size) {
    if (refuses(size, 0)) return NULL;
    return counted(__libc_memalign(align, size + sizeof size), size, 0);
}

void *aligned_alloc(size_t align, size_t size) {
    return memalign(align, size);
}

int posix_memalign(void **out, size_t align, size_t size) {
    void *made = memalign(align, size);
    if (made) *out = made;
    return made ? 0 : ENOMEM;
}

void free(void *old) {
    if (old) held -= *size_of(old);
    __libc_free(old);
}

__attribute__((destructor)) static void end(void) {
    const char *name = getenv("REFUSALS");
    int file = name ? open(name, O_WRONLY | O_CREAT | O_TRUNC, 0600) : -1;
    char text[64];
    int count = snprintf(text, sizeof text, "%zu %zu\n", growths, refused);
    if (name && write(file, text, (size_t)count) != count) _exit(70);
}
