/* Makes each allocation of a process fail in turn. The process loads this by LD_PRELOAD.
 *
 * Before an allocation the process is copied twice. In the first copy this allocation fails, and in
 * the second this one and all later ones. If REFUSED_ALONE is set, there is no second copy. Both
 * copies run to their end. A record of each copy is appended to the file that REFUSED names:
 *
 *     one 7 80 0 0 12   `one` or `all`, the number of the allocation, its bytes, the bytes of the
 *                       old block, the status, and the number of bytes that follow
 *     1 rows hold..     the text on both standard outputs, and a line end
 *
 * The process itself then continues without a failure. */
#include <errno.h>
#include <fcntl.h>
#include <malloc.h>
#include <stdio.h>
#include <stdlib.h>
#include <sys/wait.h>
#include <unistd.h>

/* The number of seconds after which a copy is ended. */
#define SECONDS 60

void *__libc_malloc(size_t size);
void *__libc_calloc(size_t count, size_t size);
void *__libc_realloc(void *block, size_t size);
void *__libc_memalign(size_t align, size_t size);

static int records = -1, alone;
static unsigned long number;
static size_t asked, before;
static enum { COPIES, REFUSES_ALL, REFUSES_NONE } state = REFUSES_NONE;
static char printed[1 << 16];

/* Ends the process with a status that the program does not have. */
static void fail(void) {
    _exit(99);
}

/* Reads the output of a copy. Returns its length. */
static size_t read_all(int from) {
    size_t size = 0;
    ssize_t count;
    while ((count = read(from, printed + size, sizeof printed - size)) > 0)
        size += count;
    if (count < 0 || size == sizeof printed)
        fail();
    return size;
}

/* Copies the process. Returns 1 in the copy, and 0 in the process itself after the copy's end. */
static int is_copy(const char *how) {
    int pipes[2], status;
    char head[96];
    if (pipe(pipes) != 0)
        fail();
    pid_t copy = fork();
    if (copy < 0)
        fail();
    if (copy == 0) {
        alarm(SECONDS);
        if (dup2(pipes[1], 1) < 0 || dup2(pipes[1], 2) < 0)
            fail();
        close(pipes[0]);
        close(pipes[1]);
        return 1;
    }
    close(pipes[1]);
    size_t size = read_all(pipes[0]);
    close(pipes[0]);
    if (waitpid(copy, &status, 0) != copy)
        fail();
    status = WIFEXITED(status) ? WEXITSTATUS(status) : 128 + WTERMSIG(status);
    const char *form = "%s %lu %zu %zu %d %zu\n";
    int length = snprintf(head, sizeof head, form, how, number, asked, before, status, size);
    printed[size] = '\n';
    if (write(records, head, length) != length || write(records, printed, size + 1) < 0)
        fail();
    return 0;
}

/* Returns 1 if an allocation of `size` bytes, for `block` or a new one, must fail. */
static int is_refused(void *block, size_t size) {
    if (state == REFUSES_NONE)
        return 0;
    if (state == COPIES) {
        number++;
        asked = size;
        before = malloc_usable_size(block);
        if (is_copy("one")) {
            state = REFUSES_NONE;
        } else if (!alone && is_copy("all")) {
            state = REFUSES_ALL;
        } else {
            return 0;
        }
    }
    errno = ENOMEM;
    return 1;
}

void *malloc(size_t size) {
    return is_refused(NULL, size) ? NULL : __libc_malloc(size);
}

void *calloc(size_t count, size_t size) {
    return is_refused(NULL, count * size) ? NULL : __libc_calloc(count, size);
}

void *realloc(void *block, size_t size) {
    return is_refused(block, size) ? NULL : __libc_realloc(block, size);
}

void *aligned_alloc(size_t align, size_t size) {
    return is_refused(NULL, size) ? NULL : __libc_memalign(align, size);
}

int posix_memalign(void **block, size_t align, size_t size) {
    if (is_refused(NULL, size))
        return ENOMEM;
    *block = __libc_memalign(align, size);
    return *block == NULL ? ENOMEM : 0;
}

__attribute__((constructor)) static void begin(void) {
    const char *file = getenv("REFUSED");
    if (file == NULL)
        return;
    alone = getenv("REFUSED_ALONE") != NULL;
    records = open(file, O_WRONLY | O_CREAT | O_TRUNC | O_CLOEXEC, 0600);
    if (records < 0)
        fail();
    state = COPIES;
}

/* Stops the copying at the end of the program, before the C library's own work. */
__attribute__((destructor)) static void end(void) {
    state = REFUSES_NONE;
}
