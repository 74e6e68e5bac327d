/* Measures the memory that a process holds at most. The process loads this by LD_PRELOAD.
 *
 * At its end the process writes the greatest number of bytes of all blocks in use to the file that
 * PEAK names. The size of a block is that of malloc_usable_size. */
#include <errno.h>
#include <malloc.h>
#include <stdio.h>
#include <stdlib.h>

void *__libc_malloc(size_t size);
void *__libc_calloc(size_t count, size_t size);
void *__libc_realloc(void *block, size_t size);
void *__libc_memalign(size_t align, size_t size);
void __libc_free(void *block);

static size_t held, peak;

/* Counts a block that is in use from now on, and returns it. */
static void *counted(void *block) {
    held += malloc_usable_size(block);
    if (peak < held)
        peak = held;
    return block;
}

void *malloc(size_t size) {
    return counted(__libc_malloc(size));
}

void *calloc(size_t count, size_t size) {
    return counted(__libc_calloc(count, size));
}

void *realloc(void *block, size_t size) {
    size_t before = malloc_usable_size(block);
    void *moved = __libc_realloc(block, size);
    if (moved != NULL || size == 0)
        held -= before;
    return counted(moved);
}

void *aligned_alloc(size_t align, size_t size) {
    return counted(__libc_memalign(align, size));
}

int posix_memalign(void **block, size_t align, size_t size) {
    *block = counted(__libc_memalign(align, size));
    return *block == NULL ? ENOMEM : 0;
}

void free(void *block) {
    held -= malloc_usable_size(block);
    __libc_free(block);
}

__attribute__((destructor)) static void write_peak(void) {
    size_t most = peak;
    FILE *file = fopen(getenv("PEAK"), "w");
    if (file == NULL || fprintf(file, "%zu\n", most) < 0 || fclose(file) != 0)
        abort();
}
