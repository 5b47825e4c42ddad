/* Put before a program by LD_PRELOAD, this makes one of its calls fail, or moves few bytes a call, and counts the calls.

       FAILING=alloc:3        the third allocation finds no memory
       FAILING=read:1:5       the first read of standard input fails with error number 5
       FAILING=write:1:5      the first write to standard output
       FAILING=folder:1:5     the first call on folders and files: open, stat, list, or read or write of another descriptor; or one
                              that makes a folder, gives a file a name, or takes one away
       FAILING=short:2        the second read or write of several bytes moves one byte
       STOP=folder:4          before its fourth call on folders and files the program stops (SIGSTOP), until it is continued
       PIECE=2                each read and each write moves at most two bytes
       COUNTS=FILE            the counts of calls are kept in this file, as `struct counts`

   glibc's own names for its allocator are used, and the system's calls directly, so nothing else is loaded. */

#define _GNU_SOURCE
#include <dirent.h>
#include <errno.h>
#include <fcntl.h>
#include <signal.h>
#include <stdarg.h>
#include <stdint.h>
#include <stdlib.h>
#include <string.h>
#include <sys/mman.h>
#include <sys/stat.h>
#include <sys/syscall.h>
#include <unistd.h>

extern void *__libc_malloc(size_t);
extern void *__libc_calloc(size_t, size_t);
extern void *__libc_realloc(void *, size_t);
extern void *__libc_memalign(size_t, size_t);

enum kind { ALLOC, READ, WRITE, FOLDER, SHORT, KINDS };
static const char *const names[KINDS] = {"alloc", "read", "write", "folder", "short"};

/* How many calls of each kind were made, how many failed, and how many writes were tried after one that failed. */
struct counts {
    uint64_t made[KINDS];
    uint64_t failed;
    uint64_t writes_after;
};

/* One call, and the error with which it fails. */
struct plan {
    enum kind kind;
    uint64_t at;
    int error;
};

static struct counts unshared;
static struct counts *counts = &unshared;
static struct plan failing = {KINDS}, stopping = {KINDS};
static size_t piece = SIZE_MAX;
static int write_failed;

static void read_plan(const char *text, struct plan *plan) {
    char *number = text ? strchr(text, ':') : 0;
    if (!number)
        return;
    for (int kind = 0; kind < KINDS; kind++)
        if (strlen(names[kind]) == (size_t)(number - text) && !strncmp(text, names[kind], number - text))
            plan->kind = kind;
    char *error;
    plan->at = strtoull(number + 1, &error, 10);
    plan->error = *error == ':' ? atoi(error + 1) : EIO;
}

__attribute__((constructor)) static void begin(void) {
    char *text = getenv("COUNTS");
    int file = text ? syscall(SYS_openat, AT_FDCWD, text, O_RDWR | O_CLOEXEC) : -1;
    if (file >= 0) {
        void *shared = mmap(0, sizeof unshared, PROT_READ | PROT_WRITE, MAP_SHARED, file, 0);
        if (shared != MAP_FAILED)
            counts = shared;
        syscall(SYS_close, file);
    }
    memset(counts, 0, sizeof *counts);
    if ((text = getenv("PIECE")))
        piece = strtoull(text, 0, 10);
    read_plan(getenv("FAILING"), &failing);
    read_plan(getenv("STOP"), &stopping);
}

/* Counts a call, and says whether it is the one that is to fail. */
static int fails(enum kind kind) {
    uint64_t number = __atomic_add_fetch(&counts->made[kind], 1, __ATOMIC_RELAXED);
    if (kind == stopping.kind && number == stopping.at)
        raise(SIGSTOP);
    if (kind != failing.kind || number != failing.at)
        return 0;
    __atomic_add_fetch(&counts->failed, 1, __ATOMIC_RELAXED);
    errno = kind == ALLOC ? ENOMEM : failing.error;
    return 1;
}

/* The most bytes that a read or write of so many moves. */
static size_t moved(size_t size) {
    if (size > 1 && fails(SHORT))
        return 1;
    return size < piece ? size : piece;
}

void *malloc(size_t size) { return fails(ALLOC) ? 0 : __libc_malloc(size); }

void *calloc(size_t number, size_t size) { return fails(ALLOC) ? 0 : __libc_calloc(number, size); }

void *realloc(void *old, size_t size) { return fails(ALLOC) ? 0 : __libc_realloc(old, size); }

void *aligned_alloc(size_t align, size_t size) { return fails(ALLOC) ? 0 : __libc_memalign(align, size); }

int posix_memalign(void **to, size_t align, size_t size) {
    if (fails(ALLOC))
        return ENOMEM;
    *to = __libc_memalign(align, size);
    return *to ? 0 : ENOMEM;
}

ssize_t read(int file, void *into, size_t size) {
    if (fails(file == 0 ? READ : FOLDER))
        return -1;
    return syscall(SYS_read, file, into, moved(size));
}

ssize_t write(int file, const void *from, size_t size) {
    if (file == 2)
        return syscall(SYS_write, file, from, size);
    if (file != 1)
        return fails(FOLDER) ? -1 : syscall(SYS_write, file, from, moved(size));
    if (write_failed)
        __atomic_add_fetch(&counts->writes_after, 1, __ATOMIC_RELAXED);
    if (fails(WRITE)) {
        write_failed = failing.error != EINTR;
        return -1;
    }
    return syscall(SYS_write, file, from, moved(size));
}

static int opened(int folder, const char *path, int flags, va_list more) {
    int mode = flags & (O_CREAT | O_TMPFILE) ? va_arg(more, int) : 0;
    return fails(FOLDER) ? -1 : syscall(SYS_openat, folder, path, flags, mode);
}

int open(const char *path, int flags, ...) {
    va_list more;
    va_start(more, flags);
    int file = opened(AT_FDCWD, path, flags, more);
    va_end(more);
    return file;
}

int open64(const char *path, int flags, ...) {
    va_list more;
    va_start(more, flags);
    int file = opened(AT_FDCWD, path, flags, more);
    va_end(more);
    return file;
}

int openat(int folder, const char *path, int flags, ...) {
    va_list more;
    va_start(more, flags);
    int file = opened(folder, path, flags, more);
    va_end(more);
    return file;
}

ssize_t getdents64(int folder, void *into, size_t size) {
    return fails(FOLDER) ? -1 : syscall(SYS_getdents64, folder, into, size);
}

int fstat(int file, struct stat *into) { return fails(FOLDER) ? -1 : syscall(SYS_fstat, file, into); }

int fstatat(int folder, const char *path, struct stat *into, int flags) {
    return fails(FOLDER) ? -1 : syscall(SYS_newfstatat, folder, path, into, flags);
}

int statx(int folder, const char *path, int flags, unsigned mask, struct statx *into) {
    return fails(FOLDER) ? -1 : syscall(SYS_statx, folder, path, flags, mask, into);
}

int mkdir(const char *path, mode_t mode) { return fails(FOLDER) ? -1 : syscall(SYS_mkdirat, AT_FDCWD, path, mode); }

int link(const char *from, const char *to) { return fails(FOLDER) ? -1 : syscall(SYS_linkat, AT_FDCWD, from, AT_FDCWD, to, 0); }

int unlink(const char *path) { return fails(FOLDER) ? -1 : syscall(SYS_unlinkat, AT_FDCWD, path, 0); }

int rename(const char *from, const char *to) { return fails(FOLDER) ? -1 : syscall(SYS_renameat2, AT_FDCWD, from, AT_FDCWD, to, 0); }
