/*
 * Preloaded into a program: counts what it does to files and ends it by SIGKILL at the STOP_AT-th such call, before the call; a write
 * is done by half first. Each call is a line of the file STOP_LOG. Writes to standard output and error do not count.
 */
#define _GNU_SOURCE
#include <dlfcn.h>
#include <fcntl.h>
#include <signal.h>
#include <stdarg.h>
#include <stdio.h>
#include <stdlib.h>
#include <string.h>
#include <sys/stat.h>
#include <unistd.h>

#define REAL(name) ((__typeof__(&name))dlsym(RTLD_NEXT, #name))

static const char *last_part(const char *path) {
    const char *slash = strrchr(path, '/');
    const char *name = slash == NULL ? path : slash + 1;
    return strncmp(name, "part-", 5) == 0 ? "part" : name;
}

/* Notes the call; whether it is the one to stop at. */
static int reached(const char *what, const char *first, const char *second) {
    static long calls;
    const char *at = getenv("STOP_AT"), *log = getenv("STOP_LOG");
    if (log != NULL) {
        char line[512];
        const int length = snprintf(line, sizeof line, "%s %s%s%s\n", what, first, *second ? " " : "", second);
        const int fd = REAL(open)(log, O_WRONLY | O_APPEND | O_CREAT, 0644);
        if (fd < 0 || REAL(write)(fd, line, (size_t)length) != length) abort();
        close(fd);
    }
    calls++;
    return at != NULL && calls == atol(at);
}

static void stop(void) { kill(getpid(), SIGKILL); }

static const char *name_of(int fd, char *buffer, size_t size) {
    char link[64];
    ssize_t length;
    snprintf(link, sizeof link, "/proc/self/fd/%d", fd);
    length = readlink(link, buffer, size - 1);
    buffer[length < 0 ? 0 : length] = 0;
    return last_part(buffer);
}

int mkdir(const char *path, mode_t mode) {
    if (reached("mkdir", last_part(path), "")) stop();
    return REAL(mkdir)(path, mode);
}

int rename(const char *from, const char *to) {
    if (reached("rename", last_part(from), last_part(to))) stop();
    return REAL(rename)(from, to);
}

int unlinkat(int folder, const char *path, int flags) {
    if (reached("unlink", last_part(path), "")) stop();
    return REAL(unlinkat)(folder, path, flags);
}

int unlink(const char *path) {
    if (reached("unlink", last_part(path), "")) stop();
    return REAL(unlink)(path);
}

int rmdir(const char *path) {
    if (reached("rmdir", last_part(path), "")) stop();
    return REAL(rmdir)(path);
}

int fsync(int fd) {
    char buffer[4096];
    if (reached("fsync", name_of(fd, buffer, sizeof buffer), "")) stop();
    return REAL(fsync)(fd);
}

ssize_t write(int fd, const void *bytes, size_t length) {
    char buffer[4096];
    if (fd > 2 && reached("write", name_of(fd, buffer, sizeof buffer), "")) {
        if (REAL(write)(fd, bytes, length / 2) < 0) abort();
        stop();
    }
    return REAL(write)(fd, bytes, length);
}

/* Rust's open and C's. */
#define OPEN(name)                                                                                                                 \
    int name(const char *path, int flags, ...) {                                                                                   \
        mode_t mode = 0;                                                                                                           \
        if (flags & O_CREAT) {                                                                                                     \
            va_list rest;                                                                                                          \
            va_start(rest, flags);                                                                                                 \
            mode = (mode_t)va_arg(rest, int);                                                                                      \
            va_end(rest);                                                                                                          \
            if (reached("create", last_part(path), "")) stop();                                                                    \
        }                                                                                                                          \
        return REAL(name)(path, flags, mode);                                                                                      \
    }
OPEN(open64)
OPEN(open)
