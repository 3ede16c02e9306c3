// A library to load before a program's own (LD_PRELOAD): it counts the calls of malloc, calloc, realloc,
// posix_memalign and aligned_alloc from `main` on, and writes their number to the file ALLOCATIONS_TO when the program
// ends, by exit or by _exit.
#include <errno.h>
#include <stddef.h>
#include <stdint.h>
#include <stdio.h>
#include <stdlib.h>
#include <sys/syscall.h>
#include <unistd.h>

// glibc's own, under the names that no library takes over
extern void *__libc_malloc(size_t size);
extern void *__libc_calloc(size_t count, size_t size);
extern void *__libc_realloc(void *old, size_t size);
extern void *__libc_memalign(size_t alignment, size_t size);

static unsigned long calls;

static void count(void) { __atomic_add_fetch(&calls, 1, __ATOMIC_RELAXED); }

__attribute__((constructor)) static void begin(void) { calls = 0; }

__attribute__((destructor)) static void end(void) {
    unsigned long counted = calls;
    const char *to = getenv("ALLOCATIONS_TO");
    FILE *file = to ? fopen(to, "w") : NULL;
    if (!file) return;
    fprintf(file, "%lu\n", counted);
    fclose(file);
}

// a program with threads ends by _exit, which runs no destructor
void _exit(int status) {
    end();
    for (;;) syscall(SYS_exit_group, status);
}

void *malloc(size_t size) { count(); return __libc_malloc(size); }

void *calloc(size_t number, size_t size) { count(); return __libc_calloc(number, size); }

void *realloc(void *old, size_t size) { count(); return __libc_realloc(old, size); }

void *aligned_alloc(size_t alignment, size_t size) { count(); return __libc_memalign(alignment, size); }

int posix_memalign(void **result, size_t alignment, size_t size) {
    if (alignment < sizeof(void *) || (alignment & (alignment - 1)) != 0) return EINVAL;
    count();
    void *made = __libc_memalign(alignment, size);
    if (!made) return ENOMEM;
    *result = made;
    return 0;
}
