/* A library to be loaded before a program (LD_PRELOAD): what the program writes to one file, and when it waits until that is safe, is
 * recorded, with what it writes to standard output between.
 *
 *   RECORD_FILE  the end of the file's path
 *   RECORD_TO    the record. An item is a letter, two numbers of eight bytes each, lowest first, and bytes:
 *                `W` place, number of bytes, and the bytes, of a write; `S` 0 0, of a sync; `R` 0, number of bytes, and the bytes, of
 *                a file that takes its place by a renaming; `P` 0, number of bytes, and the bytes, of a write to standard output
 */
#define _GNU_SOURCE
#include <fcntl.h>
#include <stdarg.h>
#include <stdint.h>
#include <stdlib.h>
#include <string.h>
#include <sys/syscall.h>
#include <sys/types.h>
#include <unistd.h>

#define MOST_FILES 256

static char is_watched[MOST_FILES];
static long record = -1;

static void note(char letter, uint64_t at, uint64_t size, const void *bytes) {
    unsigned char head[17] = {(unsigned char)letter};
    memcpy(head + 1, &at, 8);
    memcpy(head + 9, &size, 8);
    if (record < 0) {
        record = syscall(SYS_openat, AT_FDCWD, getenv("RECORD_TO"), O_WRONLY | O_CREAT | O_APPEND | O_CLOEXEC, 0644);
    }
    syscall(SYS_write, record, head, sizeof head);
    syscall(SYS_write, record, bytes, size);
}

static int is_path(const char *path) {
    const char *end = getenv("RECORD_FILE");
    size_t have = strlen(path), want = strlen(end);
    return have >= want && strcmp(path + have - want, end) == 0;
}

static int opened(long file, const char *path) {
    if (file >= 0 && file < MOST_FILES) {
        is_watched[file] = is_path(path);
    }
    return (int)file;
}

static int is_one(int file) { return file >= 0 && file < MOST_FILES && is_watched[file]; }

int open(const char *path, int flags, ...) {
    va_list more;
    va_start(more, flags);
    int mode = va_arg(more, int);
    va_end(more);
    return opened(syscall(SYS_openat, AT_FDCWD, path, flags, mode), path);
}

int open64(const char *path, int flags, ...) {
    va_list more;
    va_start(more, flags);
    int mode = va_arg(more, int);
    va_end(more);
    return open(path, flags, mode);
}

int openat(int folder, const char *path, int flags, ...) {
    va_list more;
    va_start(more, flags);
    int mode = va_arg(more, int);
    va_end(more);
    return opened(syscall(SYS_openat, folder, path, flags, mode), path);
}

ssize_t write(int file, const void *from, size_t size) {
    off_t at = is_one(file) ? syscall(SYS_lseek, file, 0, SEEK_CUR) : 0;
    ssize_t wrote = syscall(SYS_write, file, from, size);
    if (wrote > 0 && is_one(file)) {
        note('W', (uint64_t)at, (uint64_t)wrote, from);
    } else if (wrote > 0 && file == 1) {
        note('P', 0, (uint64_t)wrote, from);
    }
    return wrote;
}

ssize_t pwrite(int file, const void *from, size_t size, off_t at) {
    ssize_t wrote = syscall(SYS_pwrite64, file, from, size, at);
    if (wrote > 0 && is_one(file)) {
        note('W', (uint64_t)at, (uint64_t)wrote, from);
    }
    return wrote;
}

ssize_t pwrite64(int file, const void *from, size_t size, off_t at) { return pwrite(file, from, size, at); }

int rename(const char *from, const char *to) {
    static char whole[1 << 20];
    long answer = syscall(SYS_rename, from, to);
    if (answer == 0 && is_path(to)) {
        long file = syscall(SYS_openat, AT_FDCWD, to, O_RDONLY | O_CLOEXEC);
        long size = syscall(SYS_read, file, whole, sizeof whole);
        syscall(SYS_close, file);
        note('R', 0, (uint64_t)size, whole);
    }
    return (int)answer;
}

static int synced(int file, long answer) {
    if (answer == 0 && is_one(file)) {
        note('S', 0, 0, NULL);
    }
    return (int)answer;
}

int fsync(int file) { return synced(file, syscall(SYS_fsync, file)); }

int fdatasync(int file) { return synced(file, syscall(SYS_fdatasync, file)); }
