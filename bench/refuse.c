/* Lets one call of the system fail: to be loaded before the C library by LD_PRELOAD. REFUSED_CALL names the call, REFUSED_AT which of them,
   counted from 1, and REFUSED_ERROR the number of the error that it ends with. `memory` stands for malloc, calloc and realloc together.
   REFUSED_COUNT is a file of eight bytes, in which the calls are counted, so that it is known whether it came to that call. */
#define _GNU_SOURCE
#include <dlfcn.h>
#include <errno.h>
#include <fcntl.h>
#include <pthread.h>
#include <stdarg.h>
#include <stdatomic.h>
#include <stdlib.h>
#include <string.h>
#include <sys/file.h>
#include <sys/mman.h>
#include <sys/socket.h>
#include <sys/stat.h>
#include <sys/types.h>
#include <time.h>
#include <unistd.h>

void *__libc_malloc(size_t size);
void *__libc_calloc(size_t count, size_t size);
void *__libc_realloc(void *old, size_t size);

static const char *refused_call;
static long refused_at;
static int refused_error;
static atomic_long *count;

/* Whether this call is the one that fails. */
static int refuses(const char *call) {
    if (count == NULL || strcmp(call, refused_call) != 0) return 0;
    if (atomic_fetch_add(count, 1) + 1 != refused_at) return 0;
    errno = refused_error;
    return 1;
}

__attribute__((constructor)) static void begin(void) {
    const char *path = getenv("REFUSED_COUNT");
    int file = path == NULL ? -1 : open(path, O_RDWR);
    if (file < 0) return;
    void *shared = mmap(NULL, sizeof(atomic_long), PROT_READ | PROT_WRITE, MAP_SHARED, file, 0);
    close(file);
    refused_call = getenv("REFUSED_CALL");
    refused_at = atol(getenv("REFUSED_AT"));
    refused_error = atoi(getenv("REFUSED_ERROR"));
    if (shared != MAP_FAILED) count = shared;
}

void *malloc(size_t size) { return refuses("memory") ? NULL : __libc_malloc(size); }
void *calloc(size_t items, size_t size) { return refuses("memory") ? NULL : __libc_calloc(items, size); }
void *realloc(void *old, size_t size) { return refuses("memory") ? NULL : __libc_realloc(old, size); }

/* A call of the C library with the same parameters, which is looked for at its first use. */
#define CALL(result, name, refusal, call, parameters, arguments)                 \
    result name parameters {                                                      \
        static result(*next) parameters;                                          \
        if (next == NULL) next = (result(*) parameters)dlsym(RTLD_NEXT, #name);   \
        return refuses(call) ? (refusal) : next arguments;                        \
    }

#define OPEN(name)                                                                \
    int name(const char *path, int flags, ...) {                                  \
        static int (*next)(const char *, int, ...);                               \
        if (next == NULL) next = (int (*)(const char *, int, ...))dlsym(RTLD_NEXT, #name); \
        va_list rest;                                                             \
        va_start(rest, flags);                                                    \
        mode_t mode = flags & O_CREAT ? va_arg(rest, mode_t) : 0;   \
        va_end(rest);                                                             \
        return refuses("open") ? -1 : next(path, flags, mode);                    \
    }

OPEN(open)
OPEN(open64)
CALL(ssize_t, read, -1, "read", (int file, void *into, size_t size), (file, into, size))
CALL(ssize_t, pread, -1, "pread", (int file, void *into, size_t size, off_t at), (file, into, size, at))
CALL(ssize_t, pread64, -1, "pread", (int file, void *into, size_t size, off64_t at), (file, into, size, at))
CALL(ssize_t, write, -1, "write", (int file, const void *from, size_t size), (file, from, size))
CALL(ssize_t, pwrite, -1, "pwrite", (int file, const void *from, size_t size, off_t at), (file, from, size, at))
CALL(ssize_t, pwrite64, -1, "pwrite", (int file, const void *from, size_t size, off64_t at), (file, from, size, at))
CALL(int, fsync, -1, "fsync", (int file), (file))
CALL(int, fdatasync, -1, "fsync", (int file), (file))
CALL(int, ftruncate, -1, "ftruncate", (int file, off_t size), (file, size))
CALL(int, ftruncate64, -1, "ftruncate", (int file, off64_t size), (file, size))
CALL(int, flock, -1, "flock", (int file, int how), (file, how))
CALL(int, fstat, -1, "fstat", (int file, struct stat *into), (file, into))
CALL(int, fstat64, -1, "fstat", (int file, struct stat64 *into), (file, into))
CALL(int, socket, -1, "socket", (int domain, int type, int protocol), (domain, type, protocol))
CALL(int, connect, -1, "connect", (int link, const struct sockaddr *address, socklen_t size), (link, address, size))
CALL(int, bind, -1, "bind", (int link, const struct sockaddr *address, socklen_t size), (link, address, size))
CALL(int, listen, -1, "listen", (int link, int waiting), (link, waiting))
CALL(int, setsockopt, -1, "setsockopt", (int link, int level, int name, const void *value, socklen_t size), (link, level, name, value, size))
CALL(int, accept, -1, "accept", (int link, struct sockaddr *address, socklen_t *size), (link, address, size))
CALL(int, accept4, -1, "accept", (int link, struct sockaddr *address, socklen_t *size, int flags), (link, address, size, flags))
CALL(ssize_t, recv, -1, "recv", (int link, void *into, size_t size, int flags), (link, into, size, flags))
CALL(ssize_t, recvfrom, -1, "recv", (int link, void *into, size_t size, int flags, struct sockaddr *from, socklen_t *length), (link, into, size, flags, from, length))
CALL(ssize_t, send, -1, "send", (int link, const void *from, size_t size, int flags), (link, from, size, flags))
CALL(ssize_t, sendmsg, -1, "send", (int link, const struct msghdr *from, int flags), (link, from, flags))
CALL(int, clock_gettime, -1, "clock", (clockid_t clock, struct timespec *into), (clock, into))
CALL(int, pthread_create, refused_error, "thread", (pthread_t *made, const pthread_attr_t *with, void *(*runs)(void *), void *on), (made, with, runs, on))
