/* Each call once with what it is to do, and each with what it has to refuse. Nothing is lost by what is refused.
 *
 *     bad PROFILE WIDE_PROFILE */
#define _GNU_SOURCE
#include <fcntl.h>
#include <limits.h>
#include <panguhero_file.h>
#include <stdio.h>
#include <stdlib.h>
#include <string.h>
#include <sys/wait.h>
#include <unistd.h>

static unsigned tried;

#define WANT(call, wanted) do { uint32_t got_ = (call); tried++; if (got_ != (wanted)) { \
    printf("line %d: %s: code %u, and %u was wanted\n", __LINE__, #call, got_, (unsigned)(wanted)); exit(1); } } while (0)
#define HOLDS(what) do { tried++; if (!(what)) { printf("line %d: %s\n", __LINE__, #what); exit(1); } } while (0)

static uint8_t profile[65536], line[PH_LINE_BYTES], seen[PH_LINE_BYTES + 64], *store;
static size_t length;
static const char *wide_profile;
static ph_numbers n, sizes;

/* the line that was written first, and the numbers that were told, are still there */
static void is_whole(ph_handle *h) {
    memset(seen, 0, sizeof seen);
    WANT(ph_read(h, 3, PH_WAIT, seen, PH_LINE_BYTES, &n), PH_DONE);
    HOLDS(!memcmp(seen, line, PH_LINE_BYTES));
    WANT(ph_accepted(h, &n), PH_DONE);
    HOLDS(n.first == 1);
}

/* what was written first is still there */
static void is_there(ph_handle *h) {
    memset(seen, 0, sizeof seen);
    WANT(ph_read(h, 3, PH_WAIT, seen, PH_LINE_BYTES, &n), PH_DONE);
    HOLDS(!memcmp(seen, line, PH_LINE_BYTES));
}

/* each call on a closed handle */
static void try_closed(ph_handle *h) {
    WANT(ph_write(h, 3, line, PH_LINE_BYTES, &n), PH_NO_HANDLE);
    HOLDS(n.first == 0 && n.second == 0);
    WANT(ph_read(h, 3, PH_WAIT, seen, PH_LINE_BYTES, &n), PH_NO_HANDLE);
    WANT(ph_collect(h, 0, 0, seen, PH_LINE_BYTES, &n), PH_NO_HANDLE);
    WANT(ph_work(h, &n), PH_NO_HANDLE);
    WANT(ph_mark(h, &n), PH_NO_HANDLE);
    WANT(ph_accepted(h, &n), PH_NO_HANDLE);
    WANT(ph_mode(h, &n), PH_NO_HANDLE);
    WANT(ph_sizes(h, &n), PH_NO_HANDLE);
    WANT(ph_persist(h, 0, &n), PH_NO_HANDLE);
    WANT(ph_set_energy(h, 1, &n), PH_NO_HANDLE);
    WANT(ph_sense(h, &n), PH_NO_HANDLE);
    WANT(ph_arm(h, &n), PH_NO_HANDLE);
    WANT(ph_disarm(h, &n), PH_NO_HANDLE);
    WANT(ph_save(h, &n), PH_NO_HANDLE);
    WANT(ph_save_step(h, &n), PH_NO_HANDLE);
    WANT(ph_power_loss(h, &n), PH_NO_HANDLE);
    WANT(ph_store_bytes(h, store, sizes.second, &n), PH_NO_HANDLE);
    WANT(ph_next_change(h, store, sizes.second, &n), PH_NO_HANDLE);
    WANT(ph_stop_after(h, 1, &n), PH_NO_HANDLE);
    WANT(ph_stopped(h, 0, 0, store, sizes.second, &n), PH_NO_HANDLE);
    WANT(ph_close(h), PH_NO_HANDLE);
}

static void try_null(ph_handle *h) {
    WANT(ph_open_memory(0, profile, length), PH_NULL);
    WANT(ph_open_memory(h, 0, 0), PH_NULL);
    WANT(ph_open_store(h, profile, length, 0, 0, 0, &n), PH_NULL);
    WANT(ph_open_store(h, profile, length, store, sizes.second, 0, 0), PH_NULL);
    WANT(ph_open_noted(h, profile, length, 0, 0, 0, &n), PH_NULL);
    WANT(ph_open_noted(0, profile, length, store, sizes.second, 0, &n), PH_NULL);
    WANT(ph_open_noted(h, profile, length, store, sizes.second, 0, 0), PH_NULL);
    WANT(ph_next_change(0, seen, sizeof seen, &n), PH_NULL);
    WANT(ph_next_change(h, 0, 0, &n), PH_NULL);
    WANT(ph_next_change(h, seen, sizeof seen, 0), PH_NULL);
    WANT(ph_file_open(h, 0, 0, 0, 0, &n), PH_NULL);
    WANT(ph_file_open(0, profile, length, 0, 0, &n), PH_NULL);
    WANT(ph_file_settle(0, 0, &n), PH_NULL);
    WANT(ph_file_settle(h, 0, 0), PH_NULL);
    WANT(ph_close(0), PH_NULL);
    WANT(ph_write(0, 3, line, PH_LINE_BYTES, &n), PH_NULL);
    WANT(ph_write(h, 3, 0, PH_LINE_BYTES, &n), PH_NULL);
    WANT(ph_write(h, 3, line, PH_LINE_BYTES, 0), PH_NULL);
    WANT(ph_read(h, 3, PH_WAIT, 0, PH_LINE_BYTES, &n), PH_NULL);
    WANT(ph_read(0, 3, PH_WAIT, seen, PH_LINE_BYTES, &n), PH_NULL);
    WANT(ph_collect(h, 0, 0, 0, PH_LINE_BYTES, &n), PH_NULL);
    WANT(ph_collect(0, 0, 0, seen, PH_LINE_BYTES, &n), PH_NULL);
    WANT(ph_work(h, 0), PH_NULL);
    WANT(ph_mark(0, &n), PH_NULL);
    WANT(ph_accepted(h, 0), PH_NULL);
    WANT(ph_mode(0, 0), PH_NULL);
    WANT(ph_sizes(0, &n), PH_NULL);
    WANT(ph_persist(h, 0, 0), PH_NULL);
    WANT(ph_set_energy(0, 1, &n), PH_NULL);
    WANT(ph_sense(h, 0), PH_NULL);
    WANT(ph_arm(0, &n), PH_NULL);
    WANT(ph_disarm(h, 0), PH_NULL);
    WANT(ph_save(0, &n), PH_NULL);
    WANT(ph_save_step(h, 0), PH_NULL);
    WANT(ph_power_loss(h, 0), PH_NULL);
    WANT(ph_store_bytes(h, 0, 0, &n), PH_NULL);
    WANT(ph_stop_after(0, 1, &n), PH_NULL);
    WANT(ph_stopped(h, 0, 0, 0, 0, &n), PH_NULL);
    HOLDS(ph_text(PH_FULL, 0, 4) == 0);
}

static void try_overlap(ph_handle *h) {
    ph_numbers *within = (ph_numbers *)h;
    WANT(ph_write(h, 3, (uint8_t *)h, PH_LINE_BYTES, &n), PH_OVERLAP);
    WANT(ph_write(h, 3, (uint8_t *)&n, PH_LINE_BYTES, &n), PH_OVERLAP);
    WANT(ph_read(h, 3, PH_WAIT, (uint8_t *)h, PH_LINE_BYTES, &n), PH_OVERLAP);
    WANT(ph_read(h, 3, PH_WAIT, (uint8_t *)h + sizeof *h - 1, 1, &n), PH_OVERLAP);
    WANT(ph_read(h, 3, PH_WAIT, (uint8_t *)&n + 8, 8, &n), PH_OVERLAP);
    WANT(ph_mark(h, within), PH_OVERLAP);
    WANT(ph_save(h, within), PH_OVERLAP);
    WANT(ph_collect(h, 0, 0, (uint8_t *)h, PH_LINE_BYTES, &n), PH_OVERLAP);
    WANT(ph_store_bytes(h, (uint8_t *)h, sizes.second, &n), PH_OVERLAP);
    WANT(ph_stopped(h, 0, 0, (uint8_t *)h, sizes.second, &n), PH_OVERLAP);
    WANT(ph_open_noted(h, (uint8_t *)h, 4, store, sizes.second, 0, &n), PH_OVERLAP);
    WANT(ph_open_noted(h, profile, length, (uint8_t *)&n, 8, 0, &n), PH_OVERLAP);
    WANT(ph_open_noted(h, profile, length, store, sizes.second, 0, within), PH_OVERLAP);
    WANT(ph_next_change(h, (uint8_t *)h, PH_LINE_BYTES, &n), PH_OVERLAP);
}

/* buffers of each wrong length, and lines past the end */
static void try_arguments(ph_handle *h) {
    for (size_t k = 0; k < PH_LINE_BYTES + 64; k++) {
        if (k == PH_LINE_BYTES) continue;
        memset(seen, 0x5a, sizeof seen);
        WANT(ph_write(h, 3, seen, k, &n), PH_BUFFER);
        WANT(ph_read(h, 3, PH_WAIT, seen, k, &n), PH_BUFFER);
        WANT(ph_collect(h, 0, 0, seen, k, &n), PH_BUFFER);
        for (size_t j = 0; j < sizeof seen; j++) HOLDS(seen[j] == 0x5a);
    }
    uint64_t past[] = {sizes.first, sizes.first + 1, 1ull << 32, 1ull << 62, 1ull << 63, UINT64_MAX};
    for (size_t k = 0; k < sizeof past / sizeof *past; k++) {
        memset(seen, 0x5a, sizeof seen);
        WANT(ph_write(h, past[k], line, PH_LINE_BYTES, &n), PH_NO_SUCH_LINE);
        WANT(ph_read(h, past[k], PH_WAIT, seen, PH_LINE_BYTES, &n), PH_NO_SUCH_LINE);
        HOLDS(seen[0] == 0x5a);
        WANT(ph_collect(h, past[k], past[k], seen, PH_LINE_BYTES, &n), PH_NO_SUCH_READ);
        HOLDS(seen[0] == 0x5a);
        WANT(ph_persist(h, past[k], &n), PH_NO_SUCH_WRITE);
        HOLDS(n.first == 1);
    }
    WANT(ph_store_bytes(h, store, sizes.second - 1, &n), PH_SIZE);
    HOLDS(n.first == sizes.second);
    WANT(ph_store_bytes(h, store, 0, &n), PH_SIZE);
    uint32_t picks[][2] = {{3, 0}, {UINT32_MAX, 0}, {2, 256}, {2, UINT32_MAX}};
    for (size_t k = 0; k < 4; k++) WANT(ph_stopped(h, picks[k][0], picks[k][1], store, sizes.second, &n), PH_NO_PICK);
    WANT(ph_stopped(h, 0, 0, store, sizes.second - 1, &n), PH_SIZE);
    HOLDS(n.first == sizes.second);
    WANT(ph_open_memory(h, profile, length), PH_ALREADY_OPEN);
    WANT(ph_open_store(h, profile, length, store, sizes.second, 1, &n), PH_ALREADY_OPEN);
    WANT(ph_open_noted(h, profile, length, store, sizes.second, 1, &n), PH_ALREADY_OPEN);
    WANT(ph_next_change(h, store, sizes.second, &n), PH_NO_CHANGE);
}

/* each first part of the profile, and the profile with each byte turned: it opens, or it is none */
static void try_profiles(void) {
    ph_handle h = PH_HANDLE_CLOSED;
    unsigned opened = 0, refused = 0;
    for (size_t k = 0; k < 2 * length; k++) {
        if (k >= length) profile[k - length] ^= 0x15;
        uint32_t code = ph_open_memory(&h, profile, k < length ? k : length);
        if (k >= length) profile[k - length] ^= 0x15;
        tried++;
        if (code == PH_DONE) { opened++; WANT(ph_close(&h), PH_DONE); continue; }
        WANT(code, PH_NO_PROFILE);
        WANT(ph_mark(&h, &n), PH_NO_HANDLE);
        refused++;
    }
    printf("%u texts open, %u are no profiles\n", opened, refused);
}

/* stores of another length, empty ones, and a store with each of its first bytes turned */
static void try_stores(void) {
    ph_handle h = PH_HANDLE_CLOSED;
    uint8_t *bytes = calloc(sizes.second + 1, 1);
    for (size_t k = 0; k < sizes.second; k += sizes.second / 7) {
        WANT(ph_open_store(&h, profile, length, bytes, k, 1, &n), PH_SIZE);
        HOLDS(n.first == sizes.second);
    }
    WANT(ph_open_store(&h, profile, length, bytes, sizes.second + 1, 1, &n), PH_SIZE);
    WANT(ph_open_store(&h, profile, length, bytes, sizes.second, 0, &n), PH_NO_IMAGE);
    WANT(ph_open_store(&h, profile, length, bytes, sizes.second, 2, &n), PH_NO_IMAGE);
    WANT(ph_open_store(&h, (uint8_t *)"[", 1, bytes, sizes.second, 1, &n), PH_NO_PROFILE);
    WANT(ph_open_store(&h, profile, length, bytes, sizes.second, 1, &n), PH_DONE);
    WANT(ph_write(&h, 3, line, PH_LINE_BYTES, &n), PH_DONE);
    WANT(ph_persist(&h, 0, &n), PH_DONE);
    HOLDS(n.first == 1);
    WANT(ph_store_bytes(&h, bytes, sizes.second, &n), PH_DONE);
    WANT(ph_close(&h), PH_DONE);
    unsigned whole = 0, others = 0;
    for (size_t k = 0; k < sizes.second; k++) {
        if (k > 512 && k % 61) continue;
        bytes[k] ^= 0x40;
        uint32_t code = ph_open_store(&h, profile, length, bytes, sizes.second, 0, &n);
        bytes[k] ^= 0x40;
        tried++;
        if (code == PH_DONE || code == PH_POSSIBLE_LOSS) {
            whole++;
            HOLDS(n.second <= 1);
            if (n.second == 1) is_whole(&h);
            WANT(ph_close(&h), PH_DONE);
            continue;
        }
        HOLDS(code == PH_DAMAGED || code == PH_NO_IMAGE);
        WANT(ph_close(&h), PH_NO_HANDLE);
        others++;
    }
    printf("%u turned stores open, %u are refused\n", whole, others);
    free(bytes);
}

/* changes that are noted: what a short buffer refuses is handed out later, and each only once */
static void try_noted(void) {
    ph_handle h = PH_HANDLE_CLOSED;
    uint8_t *bytes = calloc(sizes.second + 1, 1), change[PH_CHANGE_BYTES];
    unsigned writes = 0, syncs = 0;
    WANT(ph_open_noted(&h, profile, length, bytes, sizes.second + 1, 1, &n), PH_SIZE);
    HOLDS(n.first == sizes.second);
    WANT(ph_open_noted(&h, profile, length, bytes, sizes.second, 0, &n), PH_NO_IMAGE);
    WANT(ph_open_noted(&h, (uint8_t *)"[", 1, bytes, sizes.second, 1, &n), PH_NO_PROFILE);
    WANT(ph_open_noted(&h, profile, length, bytes, sizes.second, 1, &n), PH_DONE);
    WANT(ph_write(&h, 3, line, PH_LINE_BYTES, &n), PH_DONE);
    WANT(ph_persist(&h, 0, &n), PH_DONE);
    for (;;) {
        uint32_t code = ph_next_change(&h, change, 0, &n);
        tried++;
        if (code == PH_NO_CHANGE) break;
        if (code == PH_SYNC) { syncs++; continue; }
        HOLDS(code == PH_LONGER && n.first > 0 && n.first <= sizeof change);
        size_t wanted = (size_t)n.first;
        memset(change, 0x5a, sizeof change);
        WANT(ph_next_change(&h, change, wanted - 1, &n), PH_LONGER);
        HOLDS(n.first == wanted && change[0] == 0x5a);
        WANT(ph_next_change(&h, change, writes % 2 ? wanted : sizeof change, &n), PH_DONE);
        HOLDS(n.second == wanted && n.first + wanted <= sizes.second);
        for (size_t k = wanted; k < sizeof change; k++) HOLDS(change[k] == 0x5a);
        memcpy(bytes + n.first, change, wanted);
        writes++;
    }
    HOLDS(writes > 4 && syncs > 3);
    WANT(ph_next_change(&h, change, sizeof change, &n), PH_NO_CHANGE);
    WANT(ph_store_bytes(&h, store, sizes.second, &n), PH_IN_FILE);
    WANT(ph_stopped(&h, 0, 0, store, sizes.second, &n), PH_IN_FILE);
    WANT(ph_stop_after(&h, 0, &n), PH_DONE);
    WANT(ph_write(&h, 4, line, PH_LINE_BYTES, &n), PH_DONE);
    WANT(ph_save(&h, &n), PH_SAVE_FAULT); /* no call of the device went well, so none is noted */
    WANT(ph_next_change(&h, change, sizeof change, &n), PH_NO_CHANGE);
    WANT(ph_close(&h), PH_DONE);
    WANT(ph_open_store(&h, profile, length, bytes, sizes.second, 0, &n), PH_DONE);
    HOLDS(n.second == 1);
    is_whole(&h);
    WANT(ph_next_change(&h, change, sizeof change, &n), PH_NO_CHANGE);
    WANT(ph_close(&h), PH_DONE);
    free(bytes);
    printf("%u changes and %u syncs were handed out\n", writes, syncs);
}

/* another process has the lock of a file: it answers whether this one is refused it */
static int is_locked_by_another(const char *path, int file) {
    int ready[2], over[2];
    char byte = 0;
    if (pipe(ready) || pipe(over)) return 0;
    pid_t other = fork();
    if (other == 0) {
        int own = open(path, O_RDWR);
        byte = (char)flock(own, LOCK_EX);
        _exit(write(ready[1], &byte, 1) != 1 || read(over[0], &byte, 1) != 1);
    }
    ph_handle h = PH_HANDLE_CLOSED;
    int is_refused = read(ready[0], &byte, 1) == 1 && byte == 0 && ph_file_open(&h, profile, length, file, 1, &n) == PH_DEVICE && n.first == EWOULDBLOCK;
    int is_told = write(over[1], &byte, 1) == 1, status = 1;
    waitpid(other, &status, 0);
    close(ready[0]), close(ready[1]), close(over[0]), close(over[1]);
    return is_refused && is_told && status == 0;
}

/* files of other lengths, descriptors that are closed or of no file or not open for both, and locked files; then a module on a file */
static void try_files(void) {
    ph_handle h = PH_HANDLE_CLOSED;
    char path[] = "/tmp/panguhero_bad_XXXXXX";
    int file = mkstemp(path), pipes[2], unwritten = open(path, O_RDONLY), unread = open(path, O_WRONLY), folder = open("/tmp", O_RDONLY);
    HOLDS(file >= 0 && unwritten >= 0 && unread >= 0 && folder >= 0 && pipe(pipes) == 0);
    int closed[] = {-1, INT_MIN, INT_MAX, 1000000};
    for (int k = 0; k < 4; k++) {
        WANT(ph_file_open(&h, profile, length, closed[k], 1, &n), PH_DEVICE);
        HOLDS(n.first == EBADF);
    }
    int others[] = {pipes[0], pipes[1], folder};
    for (int k = 0; k < 3; k++) {
        WANT(ph_file_open(&h, profile, length, others[k], 1, &n), PH_DEVICE);
        HOLDS(n.first == 0);
    }
    WANT(ph_file_open(&h, profile, length, unwritten, 1, &n), PH_DEVICE);
    HOLDS(n.first == EBADF);
    WANT(ph_file_open(&h, profile, length, unread, 1, &n), PH_DEVICE);
    HOLDS(n.first == EBADF);
    HOLDS(is_locked_by_another(path, file));
    WANT(ph_file_open(&h, (uint8_t *)"[", 1, file, 1, &n), PH_NO_PROFILE);
    WANT(ph_file_open(&h, profile, length, file, 0, &n), PH_SIZE);
    HOLDS(n.first == sizes.second);
    for (size_t k = 1; k <= 2 * sizes.second; k += sizes.second / 5 - 1) {
        HOLDS(ftruncate(file, (off_t)k) == 0);
        WANT(ph_file_open(&h, profile, length, file, 1, &n), PH_SIZE);
        HOLDS(n.first == sizes.second && lseek(file, 0, SEEK_END) == (off_t)k);
    }
    HOLDS(ftruncate(file, 0) == 0);
    WANT(ph_file_open(&h, profile, length, file, 1, &n), PH_DONE);
    HOLDS(lseek(file, 0, SEEK_END) == (off_t)sizes.second);
    int again = open(path, O_RDWR);
    ph_handle second = PH_HANDLE_CLOSED;
    WANT(ph_file_open(&second, profile, length, again, 1, &n), PH_DEVICE); /* this process has the lock by the first descriptor */
    HOLDS(n.first == EWOULDBLOCK);
    WANT(ph_write(&h, 3, line, PH_LINE_BYTES, &n), PH_DONE);
    WANT(ph_file_persist(&h, file, 0, &n), PH_DONE);
    HOLDS(n.first == 1);
    WANT(ph_close(&h), PH_DONE);
    close(file);
    WANT(ph_file_open(&h, profile, length, again, 0, &n), PH_DONE);
    HOLDS(n.second == 1);
    is_whole(&h);
    WANT(ph_write(&h, 4, line, PH_LINE_BYTES, &n), PH_DONE);
    HOLDS(n.first == 1);
    WANT(ph_save(&h, &n), PH_DONE);
    WANT(ph_file_settle(&h, unwritten, &n), PH_DEVICE); /* the descriptor can't be written, so that the module is closed */
    HOLDS(n.first == EBADF);
    WANT(ph_write(&h, 4, line, PH_LINE_BYTES, &n), PH_NO_HANDLE);
    WANT(ph_file_open(&h, profile, length, again, 0, &n), PH_DONE);
    HOLDS(n.second == 1); /* the save that wasn't made isn't there, and the one before is */
    is_whole(&h);
    WANT(ph_write(&h, 4, line, PH_LINE_BYTES, &n), PH_DONE);
    WANT(ph_stop_after(&h, 2, &n), PH_DONE);
    WANT(ph_file_persist(&h, again, 1, &n), PH_SAVE_FAULT);
    is_there(&h);
    WANT(ph_close(&h), PH_DONE);
    WANT(ph_file_open(&h, profile, length, again, 0, &n), PH_DONE);
    is_whole(&h);
    WANT(ph_close(&h), PH_DONE);
    close(again), close(unwritten), close(unread), close(folder), close(pipes[0]), close(pipes[1]);
    WANT(ph_file_open(&h, profile, length, again, 0, &n), PH_DEVICE);
    HOLDS(unlink(path) == 0);
}

/* whole lives with no handle: what each call is to do, and what it refuses, with nothing changed */
static void try_lives(void) {
    size_t size = sizes.second, count = sizes.first;
    uint8_t *own = malloc(size + 1), *before = malloc(size + 1);
    ph_line *memory = malloc((count + 1) * sizeof *memory);
    ph_event events[8] = {{.kind = PH_EVENT_ARM}, {.kind = PH_EVENT_WRITE, .first = 3}, {.kind = PH_EVENT_READ, .first = 3}, {.kind = PH_EVENT_WORK},
        {.kind = PH_EVENT_WRITE, .first = count}, {.kind = PH_EVENT_COLLECT, .first = 1, .second = 9}, {.kind = PH_EVENT_LOSE}, {.kind = PH_EVENT_SENSE}};
    ph_answer answers[9], none[9];
    memcpy(events[1].data, line, PH_LINE_BYTES);
    memset(own, 0xee, size + 1), memset(none, 0x77, sizeof none), memcpy(answers, none, sizeof none);
    for (size_t k = 0; k <= size + 1; k += size / 7) if (k != size) { WANT(ph_format(profile, length, own, k, &n), PH_SIZE); HOLDS(n.first == size); }
    WANT(ph_format((uint8_t *)"[", 1, own, size, &n), PH_NO_PROFILE);
    for (size_t k = 0; k <= size; k++) HOLDS(own[k] == 0xee);
    WANT(ph_restore(profile, length, own, size, memory, count, &n), PH_NO_IMAGE);
    WANT(ph_live(profile, length, own, size, 0, events, 8, answers, 8, &n), PH_NO_IMAGE);
    WANT(ph_format(profile, length, own, size, &n), PH_DONE);
    HOLDS(own[size] == 0xee);
    memcpy(before, own, size + 1);
    WANT(ph_restore(profile, length, own, size, memory, count + 1, &n), PH_ROOM);
    HOLDS(n.first == count);
    WANT(ph_restore(profile, length, own, size, memory, SIZE_MAX / 8, &n), PH_ROOM);
    WANT(ph_restore(profile, length, own, size - 1, memory, count, &n), PH_SIZE);
    HOLDS(n.first == size);
    WANT(ph_restore(profile, length, own, size, memory, count, &n), PH_DONE);
    HOLDS(n.first == 1 && n.second == 0);
    for (size_t k = 0; k < count; k++) for (int j = 0; j < PH_LINE_BYTES; j++) HOLDS(memory[k][j] == 0);
    WANT(ph_live(profile, length, own, size, 0, events, 8, answers, 7, &n), PH_ROOM);
    HOLDS(n.first == 8);
    WANT(ph_live(profile, length, own, size, 0, events, SIZE_MAX / 8, answers, 7, &n), PH_ROOM);
    WANT(ph_live(profile, length, own, size - 1, 0, events, 8, answers, 8, &n), PH_SIZE);
    uint64_t kinds[] = {0, 11, 12, 1ull << 32 | 1, UINT64_MAX};
    for (int k = 0; k < 5; k++) {
        events[5].kind = kinds[k];
        WANT(ph_live(profile, length, own, size, 0, events, 8, answers, 8, &n), PH_NO_EVENT);
        HOLDS(n.first == 5);
    }
    events[5].kind = PH_EVENT_WORK, events[5].first = 1ull << 40; /* no such channel */
    WANT(ph_live(profile, length, own, size, 0, events, 8, answers, 8, &n), PH_NO_EVENT);
    events[5].kind = PH_EVENT_COLLECT;
    HOLDS(!memcmp(own, before, size + 1) && !memcmp(answers, none, sizeof none));
    WANT(ph_live(profile, length, own, size, 100000, events, 8, answers, 9, &n), PH_DONE);
    uint64_t wanted[] = {PH_DONE, PH_DONE, PH_DONE, PH_DONE, PH_NO_SUCH_LINE, PH_NO_SUCH_READ, PH_DONE, PH_DONE};
    for (int k = 0; k < 8; k++) HOLDS(answers[k].code == wanted[k]);
    HOLDS(n.first == 8 && answers[1].first == 0 && answers[1].second == 1 && !memcmp(answers[2].data, line, PH_LINE_BYTES) && answers[6].second == 1);
    HOLDS(!memcmp(&answers[8], &none[8], sizeof none[8]) && own[size] == 0xee);
    WANT(ph_restore(profile, length, own, size, memory, count, &n), PH_DONE);
    HOLDS(n.second == 1 && !memcmp(memory[3], line, PH_LINE_BYTES));
    WANT(ph_live(profile, length, own, size, 0, events, 0, answers, 0, &n), PH_DONE);
    HOLDS(n.first == 0);
    ph_handle h = PH_HANDLE_CLOSED;
    WANT(ph_open_store(&h, profile, length, own, size, 0, &n), PH_DONE);
    is_whole(&h);
    WANT(ph_close(&h), PH_DONE);
    WANT(ph_format(0, 0, own, size, &n), PH_NULL);
    WANT(ph_format(profile, length, 0, size, &n), PH_NULL);
    WANT(ph_format(profile, length, own, size, 0), PH_NULL);
    WANT(ph_restore(profile, length, 0, size, memory, count, &n), PH_NULL);
    WANT(ph_restore(profile, length, own, size, 0, count, &n), PH_NULL);
    WANT(ph_live(profile, length, own, size, 0, 0, 8, answers, 8, &n), PH_NULL);
    WANT(ph_live(profile, length, own, size, 0, events, 8, 0, 8, &n), PH_NULL);
    WANT(ph_live(profile, length, own, size, 0, events, 8, answers, 8, 0), PH_NULL);
    WANT(ph_format(profile, length, profile, size, &n), PH_OVERLAP);
    WANT(ph_format(profile, length, own, size, (ph_numbers *)own), PH_OVERLAP);
    WANT(ph_restore(profile, length, own, size, (ph_line *)own, count, &n), PH_OVERLAP);
    WANT(ph_restore(profile, length, own, size, memory, count, (ph_numbers *)memory), PH_OVERLAP);
    WANT(ph_live(profile, length, own, size, 0, events, 8, (ph_answer *)events, 8, &n), PH_OVERLAP);
    WANT(ph_live(profile, length, own, size, 0, (ph_event *)own, 8, answers, 8, &n), PH_OVERLAP);
    WANT(ph_live(profile, length, own, size, 0, events, 8, answers, 8, (ph_numbers *)answers), PH_OVERLAP);
    free(own), free(before), free(memory);
}

/* reads that wait longer than a call's turns: each is collected later, once */
static void try_waiting(void) {
    static uint8_t wide[65536];
    FILE *file = fopen(wide_profile, "rb");
    HOLDS(file);
    size_t wide_length = fread(wide, 1, sizeof wide, file);
    fclose(file);
    ph_handle h = PH_HANDLE_CLOSED;
    WANT(ph_open_memory(&h, wide, wide_length), PH_DONE);
    unsigned waited = 0;
    for (uint64_t k = 0; k < 4096; k++) {
        ph_numbers ticket;
        uint32_t code = ph_write(&h, k, line, PH_LINE_BYTES, &n);
        if (code == PH_FULL) WANT(ph_work(&h, &n), PH_DONE);
        memset(seen, 0x5a, sizeof seen);
        code = ph_read(&h, k + 4096, k % 3, seen, PH_LINE_BYTES, &ticket);
        if (code == PH_DONE) continue;
        WANT(code, PH_READ_WAITS);
        HOLDS(seen[0] == 0x5a);
        waited++;
        for (int turns = 0; (code = ph_collect(&h, ticket.first, ticket.second, seen, PH_LINE_BYTES, &n)) == PH_READ_WAITS; turns++) {
            HOLDS(n.first == ticket.first && n.second == ticket.second && turns < 100000);
            WANT(ph_work(&h, &n), PH_DONE);
        }
        WANT(code, PH_DONE);
        HOLDS(seen[0] == 0 && n.first == k + 4096);
        WANT(ph_collect(&h, ticket.first, ticket.second, seen, PH_LINE_BYTES, &n), PH_NO_SUCH_READ);
    }
    WANT(ph_close(&h), PH_DONE);
    printf("%u reads waited and were collected\n", waited);
}

/* the words of each code, into buffers of each length */
static void try_texts(void) {
    for (uint32_t code = 0; code < 300; code++) {
        uint8_t words[80];
        size_t all = ph_text(code, words, sizeof words);
        HOLDS(all > 0 && all <= sizeof words);
        for (size_t k = 0; k <= all; k++) {
            uint8_t part[81];
            memset(part, 0xee, sizeof part);
            HOLDS(ph_text(code, part, k) == all);
            HOLDS(!memcmp(part, words, k) && part[k] == 0xee);
        }
    }
}

/* what each call is to do */
static void try_good(void) {
    ph_handle h = PH_HANDLE_CLOSED;
    WANT(ph_open_memory(&h, profile, length), PH_DONE);
    WANT(ph_write(&h, 5, line, PH_LINE_BYTES, &n), PH_DONE);
    HOLDS(n.first == 0 && n.second == 0);
    WANT(ph_mode(&h, &n), PH_DONE);
    HOLDS(n.first == PH_MODE_DISARMED);
    WANT(ph_save_step(&h, &n), PH_STEPPED);
    WANT(ph_write(&h, 6, line, PH_LINE_BYTES, &n), PH_DONE);
    HOLDS(n.first == 1);
    WANT(ph_persist(&h, 1, &n), PH_DONE); /* the save that runs lacks it, so there are two */
    HOLDS(n.first == 2);
    WANT(ph_sense(&h, &n), PH_DONE);
    HOLDS(n.first == 0 && n.second == PH_MODE_DISARMED);
    WANT(ph_arm(&h, &n), PH_NEED_ENERGY);
    HOLDS(n.first > 0 && n.second == 0);
    WANT(ph_set_energy(&h, n.first, &n), PH_DONE);
    HOLDS(n.first > 0 && n.second == PH_MODE_DISARMED);
    WANT(ph_arm(&h, &n), PH_DONE);
    HOLDS(n.first == 0);
    WANT(ph_arm(&h, &n), PH_DONE);
    HOLDS(n.first == 1);
    WANT(ph_mode(&h, &n), PH_DONE);
    HOLDS(n.first == PH_MODE_ARMED);
    WANT(ph_write(&h, 5, line, PH_LINE_BYTES, &n), PH_ENERGY_LOW);
    WANT(ph_disarm(&h, &n), PH_DONE);
    HOLDS(n.first == 0);
    WANT(ph_write(&h, 5, line, PH_LINE_BYTES, &n), PH_DISARMING);
    WANT(ph_save(&h, &n), PH_DONE);
    HOLDS(n.second == 2);
    WANT(ph_disarm(&h, &n), PH_DONE);
    HOLDS(n.first == 1);
    unsigned full = 0;
    for (int k = 0; k < 1000; k++) {
        uint32_t code = ph_write(&h, 8, line, PH_LINE_BYTES, &n);
        if (code == PH_FULL) { full++; WANT(ph_work(&h, &n), PH_DONE); HOLDS(n.first > 0); }
        if (code == PH_TRAIL_FULL) WANT(ph_save(&h, &n), PH_DONE);
    }
    HOLDS(full > 0);
    WANT(ph_accepted(&h, &n), PH_DONE);
    WANT(ph_persist(&h, n.first - 1, &n), PH_DONE);
    WANT(ph_stop_after(&h, 3, &n), PH_DONE);
    WANT(ph_write(&h, 8, line, PH_LINE_BYTES, &n), PH_DONE);
    WANT(ph_save(&h, &n), PH_SAVE_FAULT);
    WANT(ph_stopped(&h, PH_PICK_TORN, 255, store, sizes.second, &n), PH_DONE);
    HOLDS(n.first == sizes.second);
    WANT(ph_accepted(&h, &n), PH_NO_HANDLE);
}

/* what is refused once mains were lost */
static void try_lost(ph_handle *h) {
    WANT(ph_power_loss(h, &n), PH_UNSAVED);
    WANT(ph_power_loss(h, &n), PH_CLOSED);
    WANT(ph_write(h, 3, line, PH_LINE_BYTES, &n), PH_CLOSED);
    WANT(ph_read(h, 3, PH_WAIT, seen, PH_LINE_BYTES, &n), PH_CLOSED);
    WANT(ph_arm(h, &n), PH_CLOSED);
    WANT(ph_disarm(h, &n), PH_CLOSED);
    WANT(ph_save(h, &n), PH_CLOSED);
    WANT(ph_persist(h, 0, &n), PH_CLOSED);
}

int main(int argc, char **argv) {
    FILE *file = argc == 3 ? fopen(argv[1], "rb") : 0;
    if (!file) return fprintf(stderr, "bad PROFILE WIDE_PROFILE\n"), 2;
    length = fread(profile, 1, sizeof profile, file);
    fclose(file);
    wide_profile = argv[2];
    ph_handle h = PH_HANDLE_CLOSED, zero;
    memset(&zero, 0, sizeof zero);
    memset(line, 0xa7, sizeof line);
    WANT(ph_open_memory(&h, profile, length), PH_DONE);
    WANT(ph_sizes(&h, &sizes), PH_DONE);
    store = malloc(sizes.second);
    WANT(ph_write(&h, 3, line, PH_LINE_BYTES, &n), PH_DONE);
    try_closed(&zero);
    try_null(&h);
    is_whole(&h);
    try_overlap(&h);
    is_whole(&h);
    try_arguments(&h);
    is_whole(&h);
    try_good();
    try_waiting();
    try_profiles();
    try_stores();
    try_noted();
    try_files();
    try_lives();
    try_texts();
    is_whole(&h);
    try_lost(&h);
    WANT(ph_close(&h), PH_DONE);
    try_closed(&h);
    free(store);
    printf("%u tried\n", tried);
    return 0;
}
