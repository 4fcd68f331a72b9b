// read and write as a program may meet them and as no plain file shows them. Preloaded into a program, they move few bytes at a time, answer
// calls as if a signal had interrupted them, and fail after so many bytes:
//   AT_MOST            bytes that a call moves at most
//   INTERRUPTED        how many calls in a row are interrupted before one moves bytes; else one
//   FAILING, AFTER     a file, and how many of its bytes are read before a read fails as a damaged disk does
//   FULL_AFTER         how many bytes go to standard output before a write fails as a full disk does
// What is written elsewhere, as to standard error, is left alone.
#define _GNU_SOURCE
#include <errno.h>
#include <stdlib.h>
#include <sys/stat.h>
#include <sys/syscall.h>
#include <unistd.h>

struct fault {
    int error;
    size_t moved;
    size_t interrupted;
};

static struct fault reads = {EIO, 0, 0};
static struct fault writes = {ENOSPC, 0, 0};

static size_t number(const char *variable) {
    const char *text = getenv(variable);
    return text ? strtoul(text, NULL, 10) : (size_t)-1;
}

static size_t lesser(size_t one, size_t other) {
    return one < other ? one : other;
}

// Whether the descriptor is the file that is to fail.
static int failing(int fd) {
    struct stat named, open;
    const char *name = getenv("FAILING");
    return name && stat(name, &named) == 0 && fstat(fd, &open) == 0 && named.st_ino == open.st_ino;
}

// One call that moves bytes; after `most` bytes in all it fails.
static ssize_t move(struct fault *fault, size_t most, long call, int fd, void *bytes, size_t count) {
    if (fault->interrupted < (getenv("INTERRUPTED") ? number("INTERRUPTED") : 1)) {
        fault->interrupted++;
        errno = EINTR;
        return -1;
    }
    fault->interrupted = 0;
    if (fault->moved >= most) {
        errno = fault->error;
        return -1;
    }
    ssize_t moved = syscall(call, fd, bytes, lesser(count, lesser(most - fault->moved, number("AT_MOST"))));
    if (moved > 0 && most != (size_t)-1)
        fault->moved += moved;
    return moved;
}

ssize_t read(int fd, void *bytes, size_t count) {
    return move(&reads, failing(fd) ? number("AFTER") : (size_t)-1, SYS_read, fd, bytes, count);
}

ssize_t write(int fd, const void *bytes, size_t count) {
    if (fd != STDOUT_FILENO)
        return syscall(SYS_write, fd, bytes, count);
    return move(&writes, number("FULL_AFTER"), SYS_write, fd, (void *)bytes, count);
}
