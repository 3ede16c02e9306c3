// A library to load before a program's own (LD_PRELOAD): it counts the program's calls of the system by kind, makes one of
// them fail, and makes reads and writes short or interrupted.
//
// FAULT_CALL=K    the kind: read, write, open, close, loss (a close that loses half of a file that is written), sync, rename, cut,
//                 thread or random
// FAULT_AT=N      the N-th call of that kind fails, counted from 1; with none or 0 none does
// FAULT_MARK=F    the file F is made when a call fails
// SHORT_READ=B    a read gets B bytes at most; SHORT_WRITE=B likewise
// SHORT_INPUT=B   a read of the standard input gets B bytes at most
// INTERRUPT=M     each M-th read or write is interrupted
// CRASH_AT=N      the N-th call that changes a file or the output, counted from 1, does a part of its work, a write half of its bytes and
//                 any other nothing, and the process ends at once, as by kill -9. A sync is such a call
// CRASH_LOSES=K   what isn't synced by then is lost, as by a power cut: a name that a rename gave, which the file that it replaced has
//                 again, and the bytes that were written behind a file's end; K is 1 if all of these are gone, 2 if they are zeros, and
//                 3 if half of them are gone. What a rename replaces has a second name, NAME.replaced, until its folder is synced
// FULL_AT=B       regular files take B bytes more in all, as on a disk that becomes full
// QUICK_SYNC=1    a sync isn't waited for
// CALLS_TOLD=F    how many calls of kind K there were, or without FAULT_CALL how many that change something, is in the file F at the end
#define _GNU_SOURCE
#include <dlfcn.h>
#include <errno.h>
#include <fcntl.h>
#include <limits.h>
#include <pthread.h>
#include <signal.h>
#include <stdarg.h>
#include <stdio.h>
#include <stdlib.h>
#include <string.h>
#include <sys/stat.h>
#include <sys/syscall.h>
#include <unistd.h>

static const char *kind, *mark, *calls_told;
static unsigned long fault_at, short_read, short_write, short_input, interrupt, crash_at, crash_loses, quick_sync;
static unsigned long calls, moves, changes;
// how many bytes regular files still take, and whether that is bounded
static unsigned long room;
static int is_bounded;

static unsigned long number(const char *name) {
    const char *text = getenv(name);
    return text ? strtoul(text, NULL, 10) : 0;
}

__attribute__((constructor)) static void begin(void) {
    kind = getenv("FAULT_CALL");
    mark = getenv("FAULT_MARK");
    calls_told = getenv("CALLS_TOLD");
    fault_at = kind ? number("FAULT_AT") : 0;
    short_read = number("SHORT_READ");
    short_write = number("SHORT_WRITE");
    short_input = number("SHORT_INPUT");
    interrupt = number("INTERRUPT");
    crash_at = number("CRASH_AT");
    crash_loses = number("CRASH_LOSES");
    quick_sync = number("QUICK_SYNC");
    is_bounded = getenv("FULL_AT") != NULL;
    room = number("FULL_AT");
}

__attribute__((destructor)) static void end(void) {
    char text[24];
    long file = calls_told ? syscall(SYS_openat, AT_FDCWD, calls_told, O_CREAT | O_WRONLY | O_TRUNC, 0666) : -1;
    if (file < 0) return;
    int length = snprintf(text, sizeof text, "%lu", kind ? calls : changes);
    syscall(SYS_write, file, text, length);
    syscall(SYS_close, file);
}

// a process that ends so has no destructor run
__attribute__((noreturn)) void _exit(int status) {
    end();
    syscall(SYS_exit_group, status);
    __builtin_unreachable();
}

// ---- crashes

// the regular files that are written: where each is, and how many of its bytes are on the disk whatever happens
static struct written {
    char path[PATH_MAX];
    dev_t device;
    ino_t inode;
    off_t synced;
} files[16];
static int count;
// a rename that no sync of a folder has brought to the disk, and a second name of the file that it replaced, if any
static char old_name[PATH_MAX], new_name[PATH_MAX], replaced[PATH_MAX];

static struct written *written_at(int file) {
    struct stat found;
    if (fstat(file, &found) != 0 || !S_ISREG(found.st_mode)) return NULL;
    for (int i = 0; i < count; i++)
        if (files[i].device == found.st_dev && files[i].inode == found.st_ino) return &files[i];
    return NULL;
}

// notes a file that was opened to be written: what it has is on the disk
static void note_opened(int file, const char *path, int flags) {
    struct stat found;
    if (crash_loses == 0 || file < 0 || (flags & O_ACCMODE) == O_RDONLY || fstat(file, &found) != 0 || !S_ISREG(found.st_mode)) return;
    struct written *it = written_at(file);
    if (it == NULL && count < (int)(sizeof files / sizeof files[0])) it = &files[count++];
    if (it == NULL || strlen(path) >= PATH_MAX) return;
    strcpy(it->path, path);
    it->device = found.st_dev;
    it->inode = found.st_ino;
    it->synced = found.st_size;
}

// what was replaced is gone for good
static void drop_replaced(void) {
    if (!replaced[0]) return;
    syscall(SYS_unlinkat, AT_FDCWD, replaced, 0);
    for (int i = count - 1; i >= 0; i--)
        if (strcmp(files[i].path, replaced) == 0) files[i] = files[--count];
    replaced[0] = 0;
}

// keeps what a rename replaces, if anything has the name
static void keep_replaced(const char *new) {
    drop_replaced();
    if (crash_loses == 0 || strlen(new) + sizeof ".replaced" > PATH_MAX) return;
    stpcpy(stpcpy(replaced, new), ".replaced");
    if (syscall(SYS_linkat, AT_FDCWD, new, AT_FDCWD, replaced, 0) != 0) replaced[0] = 0;
}

static void note_synced(int file) {
    struct stat found;
    struct written *it = written_at(file);
    if (fstat(file, &found) != 0) return;
    if (it != NULL) it->synced = found.st_size;
    if (!S_ISDIR(found.st_mode)) return;
    old_name[0] = 0;
    drop_replaced();
}

static void note_renamed(const char *old, const char *new) {
    if (strlen(old) >= PATH_MAX || strlen(new) >= PATH_MAX) return;
    strcpy(old_name, old);
    strcpy(new_name, new);
    for (int i = 0; i < count; i++) {
        if (strcmp(files[i].path, new) == 0) strcpy(files[i].path, replaced);
        else if (strcmp(files[i].path, old) == 0) strcpy(files[i].path, new);
    }
}

// what was renamed has its old name again, and what it replaced the new one
static void undo_rename(void) {
    if (!old_name[0]) return;
    syscall(SYS_renameat2, AT_FDCWD, new_name, AT_FDCWD, old_name, 0);
    if (replaced[0]) syscall(SYS_renameat2, AT_FDCWD, replaced, AT_FDCWD, new_name, 0);
}

// the bytes behind a file's synced end
static void lose_end(const struct written *it) {
    struct stat found;
    if (stat(it->path, &found) != 0 || found.st_size <= it->synced) return;
    off_t lost = found.st_size - it->synced;
    if (crash_loses == 2) {
        char *zeros = calloc(1, lost);
        long file = syscall(SYS_openat, AT_FDCWD, it->path, O_WRONLY);
        if (zeros && file >= 0) syscall(SYS_pwrite64, file, zeros, lost, it->synced);
    } else if (truncate(it->path, it->synced + (crash_loses == 3 ? lost / 2 : 0)) != 0) {
        perror("faults.c: a file can't be cut");
    }
}

static void crash(void) {
    for (int i = 0; crash_loses != 0 && i < count; i++) lose_end(&files[i]);
    if (crash_loses != 0) undo_rename();
    syscall(SYS_kill, syscall(SYS_getpid), SIGKILL);
    for (;;) pause();
}

// whether this call that changes something is the one at which the process ends
static int is_last(void) { return __atomic_add_fetch(&changes, 1, __ATOMIC_SEQ_CST) == crash_at; }

// ---- faults

// whether this call is the one that fails
static int fails(const char *of, int error) {
    if (!kind || strcmp(kind, of) != 0 || __atomic_add_fetch(&calls, 1, __ATOMIC_SEQ_CST) != fault_at) return 0;
    if (mark) {
        long file = syscall(SYS_openat, AT_FDCWD, mark, O_CREAT | O_WRONLY, 0666);
        if (file >= 0) syscall(SYS_close, file);
    }
    errno = error;
    return 1;
}

// whether this read or write is interrupted
static int interrupted(void) {
    if (interrupt == 0 || __atomic_add_fetch(&moves, 1, __ATOMIC_SEQ_CST) % interrupt != 0) return 0;
    errno = EINTR;
    return 1;
}

static size_t at_most(size_t count, unsigned long limit) { return limit != 0 && count > limit ? limit : count; }

ssize_t read(int file, void *to, size_t count) {
    if (interrupted() || fails("read", EIO)) return -1;
    return syscall(SYS_read, file, to, at_most(count, file == 0 && short_input != 0 ? short_input : short_read));
}

// how many bytes of a write a disk has room for
static size_t room_for(int file, size_t count) {
    struct stat found;
    if (!is_bounded || fstat(file, &found) != 0 || !S_ISREG(found.st_mode)) return count;
    size_t taken = count < room ? count : room;
    room -= taken;
    return taken;
}

ssize_t write(int file, const void *from, size_t count) {
    // what the program says on standard error isn't counted
    if (file == 2) return syscall(SYS_write, file, from, count);
    if (interrupted() || fails("write", EIO)) return -1;
    if (is_last()) {
        syscall(SYS_write, file, from, count / 2);
        crash();
    }
    size_t taken = room_for(file, count);
    if (taken == 0 && count != 0) {
        errno = ENOSPC;
        return -1;
    }
    return syscall(SYS_write, file, from, at_most(taken, short_write));
}

ssize_t __write(int file, const void *from, size_t count) { return write(file, from, count); }

static int opened(int folder, const char *path, int flags, unsigned mode) {
    struct stat found;
    if (fails("open", EACCES)) return -1;
    int is_made = flags & O_CREAT && fstatat(folder, path, &found, 0) != 0;
    if ((is_made || flags & O_TRUNC) && is_last()) crash();
    int file = syscall(SYS_openat, folder, path, flags, mode);
    note_opened(file, path, flags);
    return file;
}

#define MODE_OF(mode, flags) \
    va_list rest; \
    va_start(rest, flags); \
    unsigned mode = flags & (O_CREAT | O_TMPFILE) ? va_arg(rest, unsigned) : 0; \
    va_end(rest)

int openat(int folder, const char *path, int flags, ...) {
    MODE_OF(mode, flags);
    return opened(folder, path, flags, mode);
}

int openat64(int folder, const char *path, int flags, ...) {
    MODE_OF(mode, flags);
    return opened(folder, path, flags, mode);
}

int open(const char *path, int flags, ...) {
    MODE_OF(mode, flags);
    return opened(AT_FDCWD, path, flags, mode);
}

int open64(const char *path, int flags, ...) {
    MODE_OF(mode, flags);
    return opened(AT_FDCWD, path, flags, mode);
}

int mkdirat(int folder, const char *path, mode_t mode) {
    if (is_last()) crash();
    return syscall(SYS_mkdirat, folder, path, mode);
}

int mkdir(const char *path, mode_t mode) { return mkdirat(AT_FDCWD, path, mode); }

int unlinkat(int folder, const char *path, int flags) {
    if (is_last()) crash();
    return syscall(SYS_unlinkat, folder, path, flags);
}

int unlink(const char *path) { return unlinkat(AT_FDCWD, path, 0); }

int ftruncate(int file, off_t length) {
    if (fails("cut", EIO)) return -1;
    if (is_last()) crash();
    return syscall(SYS_ftruncate, file, length);
}

int ftruncate64(int file, off_t length) { return ftruncate(file, length); }

// whether the file is a regular one that is written
static int is_written(int file) {
    struct stat found;
    int flags = fcntl(file, F_GETFL);
    return flags >= 0 && (flags & O_ACCMODE) != O_RDONLY && fstat(file, &found) == 0 && S_ISREG(found.st_mode);
}

// cuts the file in half
static int is_cut(int file) {
    struct stat found;
    return fstat(file, &found) == 0 && syscall(SYS_ftruncate, file, found.st_size / 2) == 0;
}

int close(int file) {
    int lost = file > 2 && is_written(file) && fails("loss", EIO) && is_cut(file);
    long result = syscall(SYS_close, file);
    if (lost) {
        errno = EIO;
        return -1;
    }
    return file > 2 && fails("close", EIO) ? -1 : result;
}

static int synced(int file, long call) {
    if (fails("sync", EIO)) return -1;
    if (is_last()) crash();
    int result = quick_sync ? 0 : syscall(call, file);
    if (result == 0) note_synced(file);
    return result;
}

int fsync(int file) { return synced(file, SYS_fsync); }

int fdatasync(int file) { return synced(file, SYS_fdatasync); }

int renameat(int old_folder, const char *old, int new_folder, const char *new) {
    if (fails("rename", EIO)) return -1;
    if (is_last()) crash();
    keep_replaced(new);
    int result = syscall(SYS_renameat2, old_folder, old, new_folder, new, 0);
    if (result == 0) note_renamed(old, new);
    else drop_replaced();
    return result;
}

int rename(const char *old, const char *new) { return renameat(AT_FDCWD, old, AT_FDCWD, new); }

int pthread_create(pthread_t *thread, const pthread_attr_t *how, void *(*run)(void *), void *given) {
    int (*create)(pthread_t *, const pthread_attr_t *, void *(*)(void *), void *) = dlsym(RTLD_NEXT, "pthread_create");
    if (fails("thread", EAGAIN)) return EAGAIN;
    return create(thread, how, run, given);
}

int getentropy(void *to, size_t count) {
    if (fails("random", EIO)) return -1;
    return syscall(SYS_getrandom, to, count, 0) == (long)count ? 0 : -1;
}
