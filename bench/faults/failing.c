/* A library to be loaded before a program (LD_PRELOAD): the Nth call of some functions of the C library fails.
 *
 *   FAIL_CALL    a function of those below; or `grow`, for malloc and realloc; or `file`, for all others but close and pthread_create
 *   FAIL_ON      what begins so: of calls on files, only those on paths that begin so count. Standard output is `stdout`
 *   FAIL_BESIDE  what doesn't begin so: calls on files whose paths begin so don't count
 *   FAIL_AT      which of these calls, from 1; 0 fails none
 *   FAIL_ERRNO   what it says then; 0 makes a read or a write take one byte alone
 *   FAIL_COUNT   a file that gets the number of these calls when the program ends
 */
#define _GNU_SOURCE
#include <dlfcn.h>
#include <errno.h>
#include <fcntl.h>
#include <pthread.h>
#include <stdarg.h>
#include <stdio.h>
#include <stdlib.h>
#include <string.h>
#include <sys/stat.h>
#include <sys/syscall.h>
#include <unistd.h>

#define MOST_FILES 256
#define MOST_PATH 512

extern void *__libc_malloc(size_t);
extern void *__libc_realloc(void *, size_t);

static const char *wanted, *on, *beside;
static long at, count;
static int error, is_ready;
/* the paths of open files */
static char paths[MOST_FILES][MOST_PATH] = {[1] = "stdout", [2] = "stderr"};

static long number(const char *name) {
    const char *text = getenv(name);
    return text ? atol(text) : 0;
}

static void make_ready(void) {
    if (!is_ready) {
        is_ready = 1;
        wanted = getenv("FAIL_CALL");
        on = getenv("FAIL_ON");
        beside = getenv("FAIL_BESIDE");
        at = number("FAIL_AT");
        error = (int)number("FAIL_ERRNO");
    }
}

static int begins(const char *path, const char *front) { return strncmp(path, front, strlen(front)) == 0; }

/* (a program with threads makes its calls side by side) */
static int is_next(void) {
    if (__atomic_add_fetch(&count, 1, __ATOMIC_SEQ_CST) != at) {
        return 0;
    }
    errno = error;
    return 1;
}

static int grow_fails(const char *name) {
    make_ready();
    return wanted && (strcmp(wanted, name) == 0 || strcmp(wanted, "grow") == 0) && is_next();
}

static int path_fails(const char *name, const char *path) {
    make_ready();
    int is_wanted = wanted && (strcmp(wanted, name) == 0 || (strcmp(wanted, "file") == 0 && strcmp(name, "close") != 0));
    return is_wanted && (!on || begins(path, on)) && !(beside && begins(path, beside)) && is_next();
}

static int file_fails(const char *name, int file) {
    return path_fails(name, file >= 0 && file < MOST_FILES ? paths[file] : "");
}

/* The open file, whose path is noted. */
static int noted(long file, const char *path) {
    if (file >= 0 && file < MOST_FILES) {
        snprintf(paths[file], MOST_PATH, "%s", path);
    }
    return (int)file;
}

__attribute__((destructor)) static void tell(void) {
    const char *path = getenv("FAIL_COUNT");
    char text[32];
    if (path) {
        long file = syscall(SYS_openat, AT_FDCWD, path, O_WRONLY | O_CREAT | O_TRUNC, 0644);
        syscall(SYS_write, file, text, snprintf(text, sizeof text, "%ld\n", count));
    }
}

/* (a program may end so, without a call of the destructors) */
void _exit(int status) {
    tell();
    syscall(SYS_exit_group, status);
    __builtin_unreachable();
}

int pthread_create(pthread_t *thread, const pthread_attr_t *how, void *(*start)(void *), void *given) {
    make_ready();
    if (wanted && strcmp(wanted, "pthread_create") == 0 && is_next()) {
        return error;
    }
    int (*create)(pthread_t *, const pthread_attr_t *, void *(*)(void *), void *) = dlsym(RTLD_NEXT, "pthread_create");
    return create(thread, how, start, given);
}

void *malloc(size_t size) { return grow_fails("malloc") ? NULL : __libc_malloc(size); }

void *realloc(void *old, size_t size) { return grow_fails("realloc") ? NULL : __libc_realloc(old, size); }

int open(const char *path, int flags, ...) {
    va_list more;
    va_start(more, flags);
    int mode = va_arg(more, int);
    va_end(more);
    return path_fails("open", path) ? -1 : noted(syscall(SYS_openat, AT_FDCWD, path, flags, mode), path);
}

int openat(int folder, const char *path, int flags, ...) {
    va_list more;
    va_start(more, flags);
    int mode = va_arg(more, int);
    va_end(more);
    return path_fails("openat", path) ? -1 : noted(syscall(SYS_openat, folder, path, flags, mode), path);
}

ssize_t read(int file, void *to, size_t size) {
    int now = file_fails("read", file);
    if (now && error) {
        return -1;
    }
    return syscall(SYS_read, file, to, now && size ? 1 : size);
}

ssize_t write(int file, const void *from, size_t size) {
    int now = file_fails("write", file);
    if (now && error) {
        return -1;
    }
    return syscall(SYS_write, file, from, now && size ? 1 : size);
}

off_t lseek(int file, off_t to, int from) { return file_fails("lseek", file) ? -1 : syscall(SYS_lseek, file, to, from); }

int fsync(int file) { return file_fails("fsync", file) ? -1 : (int)syscall(SYS_fsync, file); }

int rename(const char *from, const char *to) {
    return path_fails("rename", to) ? -1 : (int)syscall(SYS_renameat2, AT_FDCWD, from, AT_FDCWD, to, 0);
}

int unlink(const char *path) { return path_fails("unlink", path) ? -1 : (int)syscall(SYS_unlinkat, AT_FDCWD, path, 0); }

int mkdir(const char *path, mode_t mode) { return path_fails("mkdir", path) ? -1 : (int)syscall(SYS_mkdirat, AT_FDCWD, path, mode); }

int chmod(const char *path, mode_t mode) { return path_fails("chmod", path) ? -1 : (int)syscall(SYS_fchmodat, AT_FDCWD, path, mode); }

ssize_t readlink(const char *path, char *to, size_t size) {
    return path_fails("readlink", path) ? -1 : syscall(SYS_readlinkat, AT_FDCWD, path, to, size);
}

int statx(int folder, const char *path, int flags, unsigned mask, struct statx *to) {
    int now = *path ? path_fails("statx", path) : file_fails("statx", folder);
    return now ? -1 : (int)syscall(SYS_statx, folder, path, flags, mask, to);
}

ssize_t getdents64(int file, void *to, size_t size) {
    return file_fails("getdents64", file) ? -1 : syscall(SYS_getdents64, file, to, size);
}

int close(int file) {
    int now = file_fails("close", file);
    syscall(SYS_close, file);
    return now ? -1 : 0;
}
