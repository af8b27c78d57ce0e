/* Notes the calls of the system that write, cut, sync or send, in their order: to be loaded before the C library by LD_PRELOAD. CALLS_NOTED is the
   file to which each adds a line `CALL NUMBER BYTES PATH`, where NUMBER is that of the open file: a write, a cut and a send before it is made, a sync
   behind it, and only if it was done. CALLS_FAULT is the number of an error with which the sync of a folder ends; without it there is none. */
#define _GNU_SOURCE
#include <dlfcn.h>
#include <errno.h>
#include <fcntl.h>
#include <stdio.h>
#include <stdlib.h>
#include <sys/socket.h>
#include <sys/stat.h>
#include <sys/syscall.h>
#include <sys/types.h>
#include <sys/uio.h>
#include <unistd.h>

static int noted = -1;

/* The notes take a high number, so that the program gets those that it would get without them. */
__attribute__((constructor)) static void begin(void) {
    const char *path = getenv("CALLS_NOTED");
    int file = path == NULL ? -1 : open(path, O_WRONLY | O_APPEND | O_CREAT | O_CLOEXEC, 0600);
    if (file < 0) return;
    noted = fcntl(file, F_DUPFD_CLOEXEC, 500);
    close(file);
}

static void note(const char *call, int file, size_t bytes) {
    char link[64], path[4096], line[4300];
    int kept = errno;
    snprintf(link, sizeof link, "/proc/self/fd/%d", file);
    ssize_t size = readlink(link, path, sizeof path - 1);
    path[size < 0 ? 0 : size] = 0;
    int length = snprintf(line, sizeof line, "%s %d %zu %s\n", call, file, bytes, path);
    if (noted >= 0) syscall(SYS_write, noted, line, (size_t)length);
    errno = kept;
}

static size_t bytes_of(const struct iovec *parts, int count) {
    size_t bytes = 0;
    for (int at = 0; at < count; at++) bytes += parts[at].iov_len;
    return bytes;
}

/* A call of the C library, which is looked for at its first use and noted before it is made. */
#define NOTED(result, name, call, bytes, parameters, arguments)                   \
    result name parameters {                                                      \
        static result(*next) parameters;                                          \
        if (next == NULL) next = (result(*) parameters)dlsym(RTLD_NEXT, #name);   \
        note(call, file, bytes);                                                  \
        return next arguments;                                                    \
    }

NOTED(ssize_t, write, "write", size, (int file, const void *from, size_t size), (file, from, size))
NOTED(ssize_t, writev, "write", bytes_of(parts, count), (int file, const struct iovec *parts, int count), (file, parts, count))
NOTED(ssize_t, pwrite, "write", size, (int file, const void *from, size_t size, off_t at), (file, from, size, at))
NOTED(ssize_t, pwrite64, "write", size, (int file, const void *from, size_t size, off64_t at), (file, from, size, at))
NOTED(int, ftruncate, "cut", 0, (int file, off_t size), (file, size))
NOTED(int, ftruncate64, "cut", 0, (int file, off64_t size), (file, size))
NOTED(ssize_t, send, "send", size, (int file, const void *from, size_t size, int flags), (file, from, size, flags))
NOTED(ssize_t, sendto, "send", size, (int file, const void *from, size_t size, int flags, const struct sockaddr *to, socklen_t length), (file, from, size, flags, to, length))
NOTED(ssize_t, sendmsg, "send", bytes_of(from->msg_iov, (int)from->msg_iovlen), (int file, const struct msghdr *from, int flags), (file, from, flags))

/* Whether the sync of this file is to end with an error. */
static int is_refused(int file) {
    struct stat found;
    const char *fault = getenv("CALLS_FAULT");
    if (fault == NULL || fstat(file, &found) != 0 || !S_ISDIR(found.st_mode)) return 0;
    errno = atoi(fault);
    return 1;
}

/* A sync, which is noted once it was done. */
#define SYNC(name)                                                     \
    int name(int file) {                                               \
        static int (*next)(int);                                       \
        if (next == NULL) next = (int (*)(int))dlsym(RTLD_NEXT, #name); \
        int answer = is_refused(file) ? -1 : next(file);               \
        if (answer == 0) note("sync", file, 0);                        \
        return answer;                                                 \
    }

SYNC(fsync)
SYNC(fdatasync)
