/* Lets one call of a program fail: the FAIL_ALLOCth growth of memory, the FAIL_IOth read, write, seek, sync or cut of a
 * file or a stream; or lets the SHORT_IOth read or write of several bytes move one. The file named by FAIL_MARK is made
 * where that call came. Load it by LD_PRELOAD. */
#define _GNU_SOURCE
#include <dlfcn.h>
#include <errno.h>
#include <fcntl.h>
#include <stdatomic.h>
#include <stdlib.h>
#include <sys/types.h>
#include <sys/uio.h>
#include <unistd.h>

static long left(const char *name) {
    const char *text = getenv(name);
    return text ? atol(text) : 0;
}

static atomic_long growths, moves, shorts;

__attribute__((constructor)) static void count(void) {
    growths = left("FAIL_ALLOC");
    moves = left("FAIL_IO");
    shorts = left("SHORT_IO");
}

static void mark(void) {
    const char *name = getenv("FAIL_MARK");
    int file = name ? open(name, O_CREAT | O_WRONLY, 0600) : -1;
    if (file >= 0) close(file);
}

/* Whether the call that is counted down to has come. A counter goes on below 0, and never comes to it again. */
static int is_now(atomic_long *counter) {
    if (atomic_fetch_sub(counter, 1) != 1) return 0;
    mark();
    return 1;
}

#define REAL(type, name, ...) \
    static type (*real)(__VA_ARGS__); \
    if (!real) real = (type (*)(__VA_ARGS__))dlsym(RTLD_NEXT, #name)

void *malloc(size_t size) {
    REAL(void *, malloc, size_t);
    return is_now(&growths) ? NULL : real(size);
}

void *realloc(void *old, size_t size) {
    REAL(void *, realloc, void *, size_t);
    return is_now(&growths) ? NULL : real(old, size);
}

int posix_memalign(void **out, size_t align, size_t size) {
    REAL(int, posix_memalign, void **, size_t, size_t);
    return is_now(&growths) ? ENOMEM : real(out, align, size);
}

void *aligned_alloc(size_t align, size_t size) {
    REAL(void *, aligned_alloc, size_t, size_t);
    return is_now(&growths) ? NULL : real(align, size);
}

static int fails(void) {
    if (!is_now(&moves)) return 0;
    errno = EIO;
    return 1;
}

static size_t moved(size_t size) { return size > 1 && is_now(&shorts) ? 1 : size; }

ssize_t read(int file, void *bytes, size_t size) {
    REAL(ssize_t, read, int, void *, size_t);
    return fails() ? -1 : real(file, bytes, moved(size));
}

ssize_t write(int file, const void *bytes, size_t size) {
    REAL(ssize_t, write, int, const void *, size_t);
    return fails() ? -1 : real(file, bytes, moved(size));
}

int fsync(int file) {
    REAL(int, fsync, int);
    return fails() ? -1 : real(file);
}

int ftruncate(int file, off_t length) {
    REAL(int, ftruncate, int, off_t);
    return fails() ? -1 : real(file, length);
}

off_t lseek(int file, off_t offset, int whence) {
    REAL(off_t, lseek, int, off_t, int);
    return fails() ? -1 : real(file, offset, whence);
}
