/* panguhero_file.h: a module on a file of a POSIX system, by the caller's own descriptor. It stands on the calls of panguhero.h, and makes
 * the changes that ph_next_change hands out on the file, in their order: so the file has at each moment what a stop of a device may leave.
 * This is plain C, and tried, not proved; docs/C.md says what it rests on.
 *
 *     ph_file_open(&module, profile, length, descriptor, 1, &numbers);
 *     ph_write(&module, line, bytes, 64, &numbers);
 *     ph_file_persist(&module, descriptor, numbers.first, &numbers);
 *
 * Behind each call that may change the device (a save, a step of one, ph_arm, ph_disarm, a loss of mains) ph_file_settle has to be called
 * before its answer is acted on; ph_file_persist does both. */
#ifndef PANGUHERO_FILE_H
#define PANGUHERO_FILE_H
#include <errno.h>
#include <fcntl.h>
#include <stdlib.h>
#include <sys/file.h>
#include <sys/stat.h>
#include <unistd.h>

#include "panguhero.h"

#ifdef __cplusplus
extern "C" {
#endif

/* PH_DEVICE, with the system's number of what failed (errno); 0 of what is no regular file. */
static inline uint32_t ph_file_failed_(int number, ph_numbers *numbers) {
    numbers->first = (uint64_t)number;
    numbers->second = 0;
    return PH_DEVICE;
}

/* all bytes from a place on, written or read; 0 where that went well, else errno */
static inline int ph_file_all_(int descriptor, uint8_t *bytes, size_t length, off_t at, int writes) {
    while (length > 0) {
        ssize_t done = writes ? pwrite(descriptor, bytes, length, at) : pread(descriptor, bytes, length, at);
        if (done < 0 && errno == EINTR) continue;
        if (done <= 0) return done < 0 ? errno : EIO;
        bytes += done;
        length -= (size_t)done;
        at += done;
    }
    return 0;
}

/* Makes all changes that are noted, on the file. Where a call of it fails, the handle is closed and PH_DEVICE is answered with errno: what
 * stands there is what a stop left, and a later ph_file_open restores it. */
static inline uint32_t ph_file_settle(ph_handle *handle, int descriptor, ph_numbers *numbers) {
    uint8_t bytes[PH_CHANGE_BYTES];
    ph_numbers told;
    int failed = 0;
    if (!handle || !numbers) return PH_NULL;
    for (;;) {
        uint32_t code = ph_next_change(handle, bytes, sizeof bytes, &told);
        if (code == PH_NO_CHANGE) return PH_DONE;
        if (code == PH_DONE) failed = ph_file_all_(descriptor, bytes, (size_t)told.second, (off_t)told.first, 1);
        else if (code == PH_SYNC) failed = fdatasync(descriptor) ? errno : 0;
        else return code;
        if (failed) {
            ph_close(handle);
            return ph_file_failed_(failed, numbers);
        }
    }
}

/* An empty file gets so many zeros; 0 where that went well, else errno, and the file is empty again. */
static inline int ph_file_fill_(int descriptor, size_t length) {
    uint8_t zeros[PH_CHANGE_BYTES] = {0};
    int failed = 0;
    for (size_t at = 0; at < length && !failed; at += sizeof zeros)
        failed = ph_file_all_(descriptor, zeros, length - at < sizeof zeros ? length - at : sizeof zeros, (off_t)at, 1);
    if (!failed && fsync(descriptor)) failed = errno;
    if (failed && ftruncate(descriptor, 0)) return failed;
    return failed;
}

/* Opens a module on the file of an open descriptor, which stays the caller's to close behind ph_close, and restores what it holds:
 * generation, count. Where nothing is saved there it formats it if `format` is 1, and fills an empty file first. The file is locked
 * (flock) for this descriptor. PH_SIZE: the file has another length; PH_DEVICE: the descriptor is closed, of no regular file, not open for
 * reading and writing, or the file is locked by another one, or a call of it failed. */
static inline uint32_t ph_file_open(ph_handle *handle, const uint8_t *profile, size_t profile_length, int descriptor, uint32_t format, ph_numbers *numbers) {
    struct stat found;
    uint8_t none = 0;
    if (!handle || !profile || !numbers) return PH_NULL;
    int modes = fcntl(descriptor, F_GETFL);
    if (modes < 0 || fstat(descriptor, &found)) return ph_file_failed_(errno, numbers);
    if (!S_ISREG(found.st_mode)) return ph_file_failed_(0, numbers);
    if ((modes & O_ACCMODE) != O_RDWR) return ph_file_failed_(EBADF, numbers);
    if (flock(descriptor, LOCK_EX | LOCK_NB) || fsync(descriptor)) return ph_file_failed_(errno, numbers);
    /* no profile has a device of no bytes, so this tells how many it has, or what else is wrong */
    uint32_t code = ph_open_noted(handle, profile, profile_length, &none, 0, 0, numbers);
    if (code != PH_SIZE) return code;
    size_t length = (size_t)numbers->first;
    int failed = found.st_size == 0 && format == 1 ? ph_file_fill_(descriptor, length) : 0;
    if (failed || fstat(descriptor, &found)) return ph_file_failed_(failed ? failed : errno, numbers);
    if ((uint64_t)found.st_size != length) return code;
    uint8_t *bytes = (uint8_t *)malloc(length);
    if (!bytes) return PH_NO_MEMORY;
    failed = ph_file_all_(descriptor, bytes, length, 0, 0);
    code = failed ? ph_file_failed_(failed, numbers) : ph_open_noted(handle, profile, profile_length, bytes, length, format, numbers);
    free(bytes);
    if (code != PH_DONE && code != PH_POSSIBLE_LOSS) return code;
    ph_numbers told = *numbers;
    uint32_t settled = ph_file_settle(handle, descriptor, numbers);
    if (settled == PH_DONE) *numbers = told;
    return settled == PH_DONE ? code : settled;
}

/* Returns with PH_DONE once the write of this number is persistent on the file: the mark. */
static inline uint32_t ph_file_persist(ph_handle *handle, int descriptor, uint64_t number, ph_numbers *numbers) {
    ph_numbers told;
    uint32_t code = ph_persist(handle, number, &told), settled = ph_file_settle(handle, descriptor, numbers);
    if (settled == PH_DONE) *numbers = told;
    return settled == PH_DONE ? code : settled;
}

#ifdef __cplusplus
}
#endif
#endif
