/* Preloaded into a program, this stands between it and one file, TEAR_FILE, by `pwrite`, `fdatasync`, `fsync` and `ftruncate`.
 * The program sees its own writes. Beside them TEAR_DISK keeps what a disk holds for sure: a write comes there once a sync has
 * returned. At call number TEAR_STOP, of writes and syncs, it ends the process by SIGKILL in the middle of that call, and leaves on
 * TEAR_DISK one of the images that a loss of power may leave. Each unsynced byte is old, new or anything, by TEAR_SEED and
 * TEAR_MODE, which is old, new, any or mix. With TEAR_SECTOR, a number of bytes, a write of which bytes are anything
 * loses every sector that it touches. With TEAR_NO_SYNC no sync settles anything, so that a loss has to be found.
 * TEAR_FAULT is the number of a call that answers EIO; a write has done its first half then, and a sync settles nothing.
 * TEAR_TRACE gets a line for each call. */
#define _GNU_SOURCE
#include <dlfcn.h>
#include <errno.h>
#include <fcntl.h>
#include <signal.h>
#include <stdint.h>
#include <stdio.h>
#include <stdlib.h>
#include <string.h>
#include <sys/stat.h>
#include <unistd.h>

typedef struct {
    off_t at;
    size_t n;
    unsigned char *bytes;
} Write;

static Write *writes;
static size_t count, room;
static long calls, stop = -1, fault = -1, sector;
static int ready, known, disk = -1, no_sync;
static uint64_t seed = 88172645463325252ULL;
static dev_t dev;
static ino_t ino;
static const char *mode = "mix", *path;
static FILE *trace;

static ssize_t (*real_pwrite)(int, const void *, size_t, off_t);
static int (*real_fdatasync)(int), (*real_fsync)(int), (*real_ftruncate)(int, off_t);

static uint64_t next(void) {
    seed ^= seed << 13;
    seed ^= seed >> 7;
    seed ^= seed << 17;
    return seed * 0x2545F4914F6CDD1DULL;
}

static long number(const char *name, long otherwise) {
    const char *text = getenv(name);
    return text ? atol(text) : otherwise;
}

static void begin(void) {
    if (ready) return;
    ready = 1;
    real_pwrite = dlsym(RTLD_NEXT, "pwrite");
    real_fdatasync = dlsym(RTLD_NEXT, "fdatasync");
    real_fsync = dlsym(RTLD_NEXT, "fsync");
    real_ftruncate = dlsym(RTLD_NEXT, "ftruncate");
    stop = number("TEAR_STOP", -1);
    fault = number("TEAR_FAULT", -1);
    sector = number("TEAR_SECTOR", 0);
    seed += (uint64_t)number("TEAR_SEED", 0) * 2654435761u;
    no_sync = getenv("TEAR_NO_SYNC") != 0;
    path = getenv("TEAR_FILE");
    if (getenv("TEAR_MODE")) mode = getenv("TEAR_MODE");
    if (getenv("TEAR_TRACE")) trace = fopen(getenv("TEAR_TRACE"), "a");
    if (getenv("TEAR_DISK")) disk = open(getenv("TEAR_DISK"), O_RDWR | O_CREAT, 0600);
}

static int is_ours(int fd) {
    struct stat here, named;
    begin();
    if (disk < 0 || !path || fstat(fd, &here) != 0) return 0;
    if (!known) {
        if (stat(path, &named) != 0) return 0;
        dev = named.st_dev;
        ino = named.st_ino;
        known = 1;
    }
    return here.st_dev == dev && here.st_ino == ino;
}

static void put(off_t at, const unsigned char *bytes, size_t n) {
    while (n > 0) {
        ssize_t done = real_pwrite(disk, bytes, n, at);
        if (done <= 0) {
            fprintf(stderr, "tear: the disk file failed\n");
            _exit(99);
        }
        at += done;
        bytes += done;
        n -= done;
    }
}

/* Whether the disk has the new byte of place k: none, all, the first part, the last part, or one by one. */
static int is_new(unsigned how, size_t k, size_t cut) {
    switch (how) {
        case 1: return 1;
        case 2: return k < cut;
        case 3: return k >= cut;
        case 4: return next() & 1;
        default: return 0;
    }
}

static unsigned how_torn(void) {
    unsigned how = next() % 6;
    if (!strcmp(mode, "old")) return 0;
    if (!strcmp(mode, "new")) return 1;
    if (!strcmp(mode, "any")) return 5;
    return how;
}

/* Loses every sector that the write touches. */
static void lose_sectors(const Write *w) {
    off_t end = (w->at + (off_t)w->n + sector - 1) / sector * sector;
    for (off_t k = w->at / sector * sector; k < end; k++) {
        unsigned char byte = (unsigned char)next();
        put(k, &byte, 1);
    }
}

/* Leaves some bytes of an unsynced write on the disk. */
static void tear(const Write *w) {
    unsigned how = how_torn();
    unsigned char *out = calloc(w->n ? w->n : 1, 1);
    size_t cut = next() % (w->n + 1);
    if (sector && how == 5 && w->n > 0) {
        lose_sectors(w);
        free(out);
        return;
    }
    if (pread(disk, out, w->n, w->at) < 0) _exit(99);
    for (size_t k = 0; k < w->n; k++) {
        unsigned any = how == 5 ? next() % 3 : 0;
        if (any == 1 || is_new(how, k, cut)) out[k] = w->bytes[k];
        if (any == 2) out[k] = (unsigned char)next();
    }
    put(w->at, out, w->n);
    free(out);
}

/* The unsynced writes come to the disk in any order, in part or not at all. */
static void crash(void) {
    for (size_t k = count; k > 1; k--) {
        size_t j = next() % k;
        Write other = writes[k - 1];
        writes[k - 1] = writes[j];
        writes[j] = other;
    }
    for (size_t k = 0; k < count; k++) tear(&writes[k]);
    real_fsync(disk);
    kill(getpid(), SIGKILL);
    for (;;) pause();
}

static void remember(off_t at, const void *bytes, size_t n) {
    if (count == room) {
        room = room ? 2 * room : 64;
        writes = realloc(writes, room * sizeof *writes);
    }
    writes[count] = (Write){at, n, malloc(n ? n : 1)};
    memcpy(writes[count++].bytes, bytes, n);
}

static void settle(void) {
    for (size_t k = 0; k < count; k++) {
        put(writes[k].at, writes[k].bytes, writes[k].n);
        free(writes[k].bytes);
    }
    count = 0;
}

/* Notes a call, and says which number it has. */
static long note(const char *what, off_t at, size_t n) {
    if (trace) {
        fprintf(trace, "%ld %s %ld %zu\n", calls, what, (long)at, n);
        fflush(trace);
    }
    return calls++;
}

ssize_t pwrite(int fd, const void *bytes, size_t n, off_t at) {
    if (!is_ours(fd)) return real_pwrite(fd, bytes, n, at);
    long call = note("write", at, n);
    int fails = call == fault;
    if (fails) n /= 2;
    remember(at, bytes, n);
    if (call == stop) crash();
    ssize_t done = real_pwrite(fd, bytes, n, at);
    if (!fails) return done;
    errno = EIO;
    return -1;
}

ssize_t pwrite64(int fd, const void *bytes, size_t n, off_t at) { return pwrite(fd, bytes, n, at); }

static int sync_by(int fd, int (*real)(int), const char *what) {
    long call = note(what, 0, 0);
    if (call == stop) crash();
    if (call == fault) {
        errno = EIO;
        return -1;
    }
    int done = real(fd);
    if (done == 0 && !no_sync) settle();
    return done;
}

int fdatasync(int fd) {
    return is_ours(fd) ? sync_by(fd, real_fdatasync, "fdatasync") : real_fdatasync(fd);
}

int fsync(int fd) {
    return is_ours(fd) ? sync_by(fd, real_fsync, "fsync") : real_fsync(fd);
}

/* A length is on the disk at once. */
int ftruncate(int fd, off_t len) {
    if (is_ours(fd)) {
        note("length", len, 0);
        if (real_ftruncate(disk, len) != 0) _exit(99);
    }
    begin();
    return real_ftruncate(fd, len);
}

int ftruncate64(int fd, off_t len) { return ftruncate(fd, len); }
