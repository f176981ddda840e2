/* Preloaded into a program, this notes each `pwrite`, `pread`, `fdatasync` and `fsync` of one file, CALLS_FILE, with the time at which it
 * began and the nanoseconds that it took, and writes them to CALLS_LOG at the end. Compiled with -DLOOP it is a program, `loop LOG FILE
 * LENGTH`, that makes the calls of such a log in a plain loop on a file of so many zeros, and tells the nanoseconds of all of them. */
#define _GNU_SOURCE
#include <dlfcn.h>
#include <fcntl.h>
#include <stdio.h>
#include <stdlib.h>
#include <sys/stat.h>
#include <time.h>
#include <unistd.h>

enum { WRITE, READ, SYNC };

typedef struct {
    int kind;
    long at;
    size_t n;
    long begun, nanoseconds;
} Call;

static Call *calls;
static size_t count, room;

static long now(void) {
    struct timespec t;
    clock_gettime(CLOCK_MONOTONIC, &t);
    return t.tv_sec * 1000000000L + t.tv_nsec;
}

static void note(Call call) {
    if (count == room) {
        room = room ? 2 * room : 1 << 16;
        calls = realloc(calls, room * sizeof *calls);
        if (!calls) _exit(99);
    }
    calls[count++] = call;
}

#ifdef LOOP
static char *bytes;

static size_t read_log(const char *name) {
    FILE *log = fopen(name, "r");
    size_t most = 1 << 16;
    Call call;
    if (!log) exit(2);
    while (fscanf(log, "%d %ld %zu %ld %ld", &call.kind, &call.at, &call.n, &call.begun, &call.nanoseconds) == 5) {
        most = call.n > most ? call.n : most;
        note(call);
    }
    fclose(log);
    return most;
}

static int make(int fd, const Call *call) {
    if (call->kind == SYNC) return fdatasync(fd);
    return (call->kind == READ ? pread(fd, bytes, call->n, call->at) : pwrite(fd, bytes, call->n, call->at)) != (ssize_t)call->n;
}

int main(int words, char **word) {
    if (words != 4) return 2;
    bytes = calloc(read_log(word[1]), 1);
    int fd = open(word[2], O_RDWR | O_CREAT | O_TRUNC, 0600);
    long length = atol(word[3]);
    if (fd < 0 || !bytes) return 2;
    for (long at = 0; at < length; at += 1 << 16) {
        size_t n = length - at < 1 << 16 ? (size_t)(length - at) : 1 << 16;
        if (pwrite(fd, bytes, n, at) != (ssize_t)n) return 2;
    }
    if (fsync(fd) != 0) return 2;
    long begun = now();
    for (size_t k = 0; k < count; k++)
        if (make(fd, &calls[k])) return 2;
    printf("%ld\n", now() - begun);
    return 0;
}
#else
static int is_ours(int fd) {
    struct stat here, named;
    const char *path = getenv("CALLS_FILE");
    return path && fstat(fd, &here) == 0 && stat(path, &named) == 0 && here.st_dev == named.st_dev && here.st_ino == named.st_ino;
}

ssize_t pwrite(int fd, const void *from, size_t n, off_t at) {
    static ssize_t (*real)(int, const void *, size_t, off_t);
    if (!real) real = dlsym(RTLD_NEXT, "pwrite");
    int ours = is_ours(fd);
    long begun = now();
    ssize_t done = real(fd, from, n, at);
    if (ours) note((Call){WRITE, at, n, begun, now() - begun});
    return done;
}

ssize_t pread(int fd, void *into, size_t n, off_t at) {
    static ssize_t (*real)(int, void *, size_t, off_t);
    if (!real) real = dlsym(RTLD_NEXT, "pread");
    int ours = is_ours(fd);
    long begun = now();
    ssize_t done = real(fd, into, n, at);
    if (ours) note((Call){READ, at, n, begun, now() - begun});
    return done;
}

static int sync_by(const char *name, int (**real)(int), int fd) {
    if (!*real) *real = dlsym(RTLD_NEXT, name);
    int ours = is_ours(fd);
    long begun = now();
    int done = (*real)(fd);
    if (ours) note((Call){SYNC, 0, 0, begun, now() - begun});
    return done;
}

ssize_t pwrite64(int fd, const void *from, size_t n, off_t at) { return pwrite(fd, from, n, at); }

ssize_t pread64(int fd, void *into, size_t n, off_t at) { return pread(fd, into, n, at); }

int fdatasync(int fd) {
    static int (*real)(int);
    return sync_by("fdatasync", &real, fd);
}

int fsync(int fd) {
    static int (*real)(int);
    return sync_by("fsync", &real, fd);
}

__attribute__((destructor)) static void end(void) {
    const char *name = getenv("CALLS_LOG");
    FILE *log = name ? fopen(name, "w") : 0;
    if (!log) return;
    for (size_t k = 0; k < count; k++)
        fprintf(log, "%d %ld %zu %ld %ld\n", calls[k].kind, calls[k].at, calls[k].n, calls[k].begun, calls[k].nanoseconds);
    fclose(log);
}
#endif
