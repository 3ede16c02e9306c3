// A library to load before a program's own (LD_PRELOAD): it counts the calls of malloc, calloc, realloc,
// posix_memalign and aligned_alloc, and refuses one of them.
//
// REFUSE_AT=N     the N-th call is refused, counted from 1; with none or 0 each call is granted
// REFUSE_MARK=F   the file F is made when a call is refused
//
// The count begins when this library is set up, after the loader's own work and before `main`, so what the
// program allocates for its arguments counts too.
#include <errno.h>
#include <fcntl.h>
#include <stddef.h>
#include <stdint.h>
#include <stdlib.h>
#include <unistd.h>

// glibc's own, under the names that no library takes over
extern void *__libc_malloc(size_t size);
extern void *__libc_calloc(size_t count, size_t size);
extern void *__libc_realloc(void *old, size_t size);
extern void *__libc_memalign(size_t alignment, size_t size);

static unsigned long refuse_at;
static const char *mark;
static unsigned long calls;

__attribute__((constructor)) static void begin(void) {
    const char *at = getenv("REFUSE_AT");
    mark = getenv("REFUSE_MARK");
    refuse_at = at ? strtoul(at, NULL, 10) : 0;
}

// whether this call is the one that is refused
static int refused(void) {
    if (refuse_at == 0 || __atomic_add_fetch(&calls, 1, __ATOMIC_SEQ_CST) != refuse_at) return 0;
    if (mark) {
        int file = open(mark, O_CREAT | O_WRONLY, 0666);
        if (file >= 0) close(file);
    }
    errno = ENOMEM;
    return 1;
}

void *malloc(size_t size) { return refused() ? NULL : __libc_malloc(size); }

void *calloc(size_t count, size_t size) { return refused() ? NULL : __libc_calloc(count, size); }

void *realloc(void *old, size_t size) { return refused() ? NULL : __libc_realloc(old, size); }

void *aligned_alloc(size_t alignment, size_t size) { return refused() ? NULL : __libc_memalign(alignment, size); }

int posix_memalign(void **result, size_t alignment, size_t size) {
    if (alignment < sizeof(void *) || (alignment & (alignment - 1)) != 0) return EINVAL;
    if (refused()) return ENOMEM;
    void *made = __libc_memalign(alignment, size);
    if (!made) return ENOMEM;
    *result = made;
    return 0;
}
