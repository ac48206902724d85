/* Preloaded into the program (LD_PRELOAD): with REFUSE=N the Nth growth of memory is refused, a call of malloc, calloc, realloc,
 * aligned_alloc or posix_memalign, and says so on standard error; with SHORT=N the Nth write moves half of its bytes. Growths and
 * writes are counted from 1, from the program's start on, over all threads. */
#define _GNU_SOURCE
#include <errno.h>
#include <stdatomic.h>
#include <stdlib.h>
#include <string.h>
#include <sys/syscall.h>
#include <unistd.h>

void *__libc_malloc(size_t);
void *__libc_calloc(size_t, size_t);
void *__libc_realloc(void *, size_t);
void *__libc_memalign(size_t, size_t);

static long refused, cut;
static atomic_long growths, writes;

__attribute__((constructor)) static void begin(void) {
    const char *growth = getenv("REFUSE"), *write_of = getenv("SHORT");
    cut = write_of ? atol(write_of) : 0;
    atomic_store(&growths, 0);
    atomic_store(&writes, 0);
    refused = growth ? atol(growth) : 0;
}

static void say(const char *what) {
    syscall(SYS_write, 2, what, strlen(what));
}

static int is_refused(void) {
    if (refused == 0 || atomic_fetch_add(&growths, 1) + 1 != refused)
        return 0;
    say("refused a growth\n");
    errno = ENOMEM;
    return 1;
}

void *malloc(size_t size) {
    return is_refused() ? NULL : __libc_malloc(size);
}

void *calloc(size_t count, size_t size) {
    return is_refused() ? NULL : __libc_calloc(count, size);
}

void *realloc(void *old, size_t size) {
    return is_refused() ? NULL : __libc_realloc(old, size);
}

void *aligned_alloc(size_t align, size_t size) {
    return is_refused() ? NULL : __libc_memalign(align, size);
}

int posix_memalign(void **place, size_t align, size_t size) {
    void *got = is_refused() ? NULL : __libc_memalign(align, size);
    if (got == NULL)
        return ENOMEM;
    *place = got;
    return 0;
}

/* Half of the bytes where this is the write that is cut, and they are two at least. */
static size_t within(size_t size) {
    if (cut == 0 || size < 2 || atomic_fetch_add(&writes, 1) + 1 != cut)
        return size;
    say("cut a write\n");
    return size / 2;
}

ssize_t write(int file, const void *bytes, size_t size) {
    return syscall(SYS_write, file, bytes, within(size));
}

ssize_t pwrite64(int file, const void *bytes, size_t size, off64_t at) {
    return syscall(SYS_pwrite64, file, bytes, within(size), at);
}

ssize_t pwrite(int file, const void *bytes, size_t size, off_t at) {
    return pwrite64(file, bytes, size, at);
}
