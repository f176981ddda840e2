/* panguhero.h: a battery-backed memory module (NVDIMM-N), for C and C++.
 *
 * Link with libpanguhero_c.a, or by `pkg-config --cflags --libs panguhero`; docs/C.md says how to make them and what is proved.
 * A handle stands for a module with its save device and its energy gauge; or, with no handle, a call has a whole life on the bytes of a
 * store (ph_live). Each call answers a code, PH_DONE where it did what was
 * asked, and numbers beside it. A handle that is closed, a buffer of another length, a line past the end, a text that is no profile
 * and want of memory are codes.
 *
 * WHAT A CALLER OWES; no proof stands where it is not so:
 *   1. Each pointer is good for what it points to, as long as the count beside it says, and aligned. (PH_NULL and PH_OVERLAP answer
 *      null pointers and buffers that overlap; the tests stand in this header.)
 *   2. A handle begins as PH_HANDLE_CLOSED and is written by these calls alone; a copy of one is not used once the other was.
 *   3. A handle is in one call at a time, on the thread that opened it.
 *   4. malloc, realloc and free are one allocator, which aligns to 16; no call comes from a signal handler, nor from the child of a
 *      fork in a program with threads.
 *   5. There is stack for 64 KiB more. What ph_next_change hands out is made in its order, on a store that had the bytes of the opening.
 */
#ifndef PANGUHERO_H
#define PANGUHERO_H
#include <stddef.h>
#include <stdint.h>

#ifdef __cplusplus
extern "C" {
#endif

/* The bytes of a line, the least that is written or read. */
#define PH_LINE_BYTES 64

/* No change of a device has more bytes. */
#define PH_CHANGE_BYTES 4096

/* A handle: closed, or open with a module. */
typedef struct {
    uint64_t state;
    void *module;
} ph_handle;

#define PH_HANDLE_CLOSED {0, 0}

/* The numbers beside a code; 0 where it has none. */
typedef struct {
    uint64_t first;
    uint64_t second;
} ph_numbers;

/* A line's bytes. */
typedef uint8_t ph_line[PH_LINE_BYTES];

/* An event of a whole life: which one, the numbers that it names, and the bytes of a write. */
typedef struct {
    uint64_t kind;
    uint64_t first;
    uint64_t second;
    ph_line data;
} ph_event;

/* Its answer: a code as that call of a handle has it, with its numbers, and the bytes that were read, else zeros. */
typedef struct {
    uint64_t code;
    uint64_t first;
    uint64_t second;
    ph_line data;
} ph_answer;

/* The kinds of events, and what they name. */
enum {
    PH_EVENT_WRITE = 1,      /* line, 0; the bytes */
    PH_EVENT_READ = 2,       /* line, 0: PH_DONE with the bytes, or PH_READ_WAITS with channel, number */
    PH_EVENT_COLLECT = 3,    /* channel, number */
    PH_EVENT_WORK = 4,       /* channel, 0: one command of it, 1; or none, 0 */
    PH_EVENT_SENSE = 5,
    PH_EVENT_ARM = 6,
    PH_EVENT_DISARM = 7,
    PH_EVENT_SAVE_BEGIN = 8,
    PH_EVENT_SAVE_STEP = 9,
    PH_EVENT_LOSE = 10       /* mains are lost */
};

/* What a call answers; ph_text has the words. Behind some are the two numbers that come with it. */
enum {
    PH_DONE = 0,
    PH_NO_MEMORY = 1,
    PH_NO_PROFILE = 2,     /* the text is no profile */
    PH_BUFFER = 3,         /* the buffer isn't as long as a line */
    PH_SIZE = 4,           /* the bytes of the store are another number: wanted, 0 */
    PH_NO_IMAGE = 5,       /* nothing is saved there */
    PH_DAMAGED = 6,        /* what is saved is damaged */
    PH_DEVICE = 7,         /* a call of the device failed */
    PH_NO_HANDLE = 8,      /* the handle is closed */
    PH_ALREADY_OPEN = 9,   /* the handle is open */
    PH_POSSIBLE_LOSS = 10, /* opened; acknowledged writes may be missing: generation, count */
    PH_NULL = 11,          /* a pointer is null */
    PH_OVERLAP = 12,       /* buffers overlap */
    PH_NO_PICK = 13,       /* there is no such pick */
    PH_IN_FILE = 14,       /* the device's bytes are in a store of the caller's */
    PH_LONGER = 15,        /* the change has more bytes than the buffer: how many, 0 */
    PH_FULL = 16,          /* the line's channel has as many pending writes as its queue holds */
    PH_ENERGY_LOW = 17,    /* the energy doesn't suffice for one more write: need, has */
    PH_DISARMING = 18,
    PH_CLOSED = 19,        /* mains were lost */
    PH_TRAIL_FULL = 20,    /* as many writes were accepted since the last save as there is room for */
    PH_NO_SUCH_LINE = 21,
    PH_READS_FULL = 22,    /* as many reads are open in the line's channel as there is room for */
    PH_READ_WAITS = 23,    /* the read's bytes are still to come: channel, number, for ph_collect */
    PH_NO_SUCH_WRITE = 24, /* so many writes weren't accepted: accepted, 0 */
    PH_NO_SUCH_READ = 25,  /* no read of this ticket waits: it was collected, or mains were lost */
    PH_SYNC = 26,          /* what was written is to be made durable */
    PH_NO_CHANGE = 27,     /* no change is noted */
    PH_NO_EVENT = 28,      /* there is no such event: its number among them, 0 */
    PH_ROOM = 29,          /* there is room for another number of lines, or for fewer answers than events: wanted, 0 */
    PH_NEED_ENERGY = 32,   /* the energy doesn't suffice to arm: need, has */
    PH_SAVE_RUNNING = 33,
    PH_UNSETTLED = 34,     /* a call of the device has failed since the last save */
    PH_SPENT = 35,         /* there is no generation left */
    PH_STEPPED = 48,       /* a step of the save was made */
    PH_WAITING = 49,       /* the save waits for a write */
    PH_TURNED = 50,        /* the gauge was low: the module is disarming */
    PH_NO_SAVE = 51,
    PH_RETRY = 52,         /* the device failed; the step is to be made again */
    PH_SAVE_FAULT = 53,    /* the device failed, which ended the save */
    PH_UNSAVED = 54,       /* mains were lost while disarmed */
    PH_DARK = 55           /* mains were lost, and the energy didn't suffice */
};

/* The modes that ph_mode tells. */
enum { PH_MODE_DISARMED = 0, PH_MODE_ARMED = 1, PH_MODE_DISARMING = 2, PH_MODE_STRANDED = 3, PH_MODE_CLOSING = 4, PH_MODE_SAVED = 5 };

/* Turns that a read may take: as many as a command line has, and none. */
enum { PH_WAIT = 64, PH_NO_WAIT = 0 };

/* Which bytes a stop leaves where the device hadn't settled them: those of the last sync, those of the last write, or any byte. */
enum { PH_PICK_OLD = 0, PH_PICK_NEW = 1, PH_PICK_TORN = 2 };

/* Opens a module of a profile (TOML) on a new device in memory, formatted, with a gauge that shows 0. */
uint32_t ph_open_memory(ph_handle *handle, const uint8_t *profile, size_t profile_length);
/* Opens a module on a device in memory with these bytes, and restores what they hold: generation, count. Where nothing is saved it formats
 * the device if `format` is 1. PH_POSSIBLE_LOSS opens too. */
uint32_t ph_open_store(ph_handle *handle, const uint8_t *profile, size_t profile_length, const uint8_t *bytes, size_t bytes_length, uint32_t format, ph_numbers *numbers);
/* The same for a store of the caller's own, as a file, that has these bytes: the device's changes are noted in their order, from the
 * formatting on, and ph_next_change hands them out. panguhero_file.h has it for a file by its descriptor. A call for whose note there is
 * no memory is one of the device that failed. */
uint32_t ph_open_noted(ph_handle *handle, const uint8_t *profile, size_t profile_length, const uint8_t *bytes, size_t bytes_length, uint32_t format, ph_numbers *numbers);
/* The oldest change that is noted and wasn't handed out. PH_DONE: the first bytes of the buffer are to be written: the place, how many.
 * PH_SYNC: what was written is to be made durable. PH_NO_CHANGE: there is none. All are to be made before an answer is acted on, and
 * behind one that couldn't be made no later one. PH_LONGER hands nothing out; PH_CHANGE_BYTES are enough. */
uint32_t ph_next_change(ph_handle *handle, uint8_t *into, size_t into_length, ph_numbers *numbers);
/* Closes a handle. What isn't saved is lost. */
uint32_t ph_close(ph_handle *handle);

/* Writes a line of 64 bytes: its number, and the mark. */
uint32_t ph_write(ph_handle *handle, uint64_t line, const uint8_t *bytes, size_t bytes_length, ph_numbers *numbers);
/* Reads a line of the memory after all accepted writes into 64 bytes. Where they are to come with a command of the line's channel, it is
 * worked in `wait` turns at most. */
uint32_t ph_read(ph_handle *handle, uint64_t line, uint64_t wait, uint8_t *into, size_t into_length, ph_numbers *numbers);
/* The bytes of a read that was answered PH_READ_WAITS, by the numbers of that answer: the read's line, and how many writes were
 * accepted before it. PH_READ_WAITS where its command is still to come, which ph_work issues. */
uint32_t ph_collect(ph_handle *handle, uint64_t channel, uint64_t number, uint8_t *into, size_t into_length, ph_numbers *numbers);
/* Issues one command of each channel, where it has one: how many, 0. A channel does nothing but by this, by reads that wait and by
 * saves; so it is what makes room behind PH_FULL. */
uint32_t ph_work(ph_handle *handle, ph_numbers *numbers);
/* How many writes are persistent: exactly those with a number below it. */
uint32_t ph_mark(ph_handle *handle, ph_numbers *numbers);
/* How many writes were accepted. */
uint32_t ph_accepted(ph_handle *handle, ph_numbers *numbers);
/* Returns with PH_DONE once the write of this number is persistent: the mark. It saves where that is needed. */
uint32_t ph_persist(ph_handle *handle, uint64_t number, ph_numbers *numbers);

/* The mode: one of PH_MODE_.. */
uint32_t ph_mode(ph_handle *handle, ph_numbers *numbers);
/* Sets the level of the gauge, which the module reads: the level, the mode. */
uint32_t ph_set_energy(ph_handle *handle, uint64_t level, ph_numbers *numbers);
/* The module reads the gauge at the level that was set last: the level, the mode. */
uint32_t ph_sense(ph_handle *handle, ph_numbers *numbers);
/* Arms: from then on each write is persistent once it is accepted. 1 where it was armed already, else 0. */
uint32_t ph_arm(ph_handle *handle, ph_numbers *numbers);
/* Begins to disarm. 1 where it was disarmed already, else 0. */
uint32_t ph_disarm(ph_handle *handle, ph_numbers *numbers);
/* Saves all accepted writes, or what is left of a save that runs: generation, count. */
uint32_t ph_save(ph_handle *handle, ph_numbers *numbers);
/* Makes one step of a save, which is begun where none runs. PH_DONE ends it: generation, count. */
uint32_t ph_save_step(ph_handle *handle, ph_numbers *numbers);
/* Mains are lost: an armed module saves its accepted writes on backup: generation, count. */
uint32_t ph_power_loss(ph_handle *handle, ph_numbers *numbers);

/* How many lines the module has, and how many bytes its device. */
uint32_t ph_sizes(ph_handle *handle, ph_numbers *numbers);

/* The bytes that a device in memory holds, into a buffer of that many: how many they are, 0. */
uint32_t ph_store_bytes(ph_handle *handle, uint8_t *into, size_t into_length, ph_numbers *numbers);
/* From now on the device passes so many calls and fails each later one. */
uint32_t ph_stop_after(ph_handle *handle, uint64_t calls, ph_numbers *numbers);
/* Stops the module here, as a loss of power that nothing saves, and closes the handle: the bytes that the stop leaves of a device in memory. */
uint32_t ph_stopped(ph_handle *handle, uint32_t pick, uint32_t byte, uint8_t *into, size_t into_length, ph_numbers *numbers);

/* Whole lives, with no handle: nothing stays from one call to the next, and what is refused changes nothing. */

/* Makes the bytes a store of zero lines for a profile. */
uint32_t ph_format(const uint8_t *profile, size_t profile_length, uint8_t *store, size_t store_length, ph_numbers *numbers);
/* What the bytes of a store restore to, its lines into as many: generation, count. PH_POSSIBLE_LOSS restores too. */
uint32_t ph_restore(const uint8_t *profile, size_t profile_length, const uint8_t *store, size_t store_length, ph_line *lines, size_t lines_length, ph_numbers *numbers);
/* Restores the bytes of a store, and has a module live on them through these events, with a gauge at this level, each with its answer:
 * how many there are, 0. The bytes are then those of its device at the end, whatever the events came to. Whatever a stop would have left
 * at any moment of it restores to the memory after a first part of the accepted writes. */
uint32_t ph_live(const uint8_t *profile, size_t profile_length, uint8_t *store, size_t store_length, uint64_t level, const ph_event *events, size_t events_length, ph_answer *answers, size_t answers_length, ph_numbers *numbers);

/* The words of a code, in UTF-8 and with no 0 behind them, as far as there is room; it answers how many bytes they are,
 * and 0 of a null pointer. */
size_t ph_text(uint32_t code, uint8_t *into, size_t into_length);

/* Tests of what a pointer may be, before each call: a null pointer is answered PH_NULL, and memory of two arguments that overlaps PH_OVERLAP. With
 * PH_UNCHECKED defined they are left out. */
#ifndef PH_UNCHECKED
static inline int ph_overlap_(const void *a, size_t a_length, const void *b, size_t b_length) {
    uintptr_t x = (uintptr_t)a, y = (uintptr_t)b;
    return x < y + b_length && y < x + a_length;
}

static inline uint32_t ph_test_(const ph_handle *handle, const void *bytes, size_t length, const ph_numbers *numbers) {
    if (!handle || !bytes || !numbers) return PH_NULL;
    if (ph_overlap_(handle, sizeof *handle, bytes, length) || ph_overlap_(numbers, sizeof *numbers, bytes, length)) return PH_OVERLAP;
    return ph_overlap_(handle, sizeof *handle, numbers, sizeof *numbers) ? PH_OVERLAP : PH_DONE;
}

static inline uint32_t ph_tested_open_memory(ph_handle *handle, const uint8_t *profile, size_t profile_length) {
    uint32_t code = !handle || !profile ? PH_NULL : ph_overlap_(handle, sizeof *handle, profile, profile_length) ? PH_OVERLAP : PH_DONE;
    return code ? code : ph_open_memory(handle, profile, profile_length);
}
#define ph_open_memory ph_tested_open_memory

static inline uint32_t ph_tested_open_store(ph_handle *handle, const uint8_t *profile, size_t profile_length, const uint8_t *bytes, size_t bytes_length, uint32_t format, ph_numbers *numbers) {
    uint32_t code = ph_test_(handle, profile, profile_length, numbers);
    code = code ? code : ph_test_(handle, bytes, bytes_length, numbers);
    return code ? code : ph_open_store(handle, profile, profile_length, bytes, bytes_length, format, numbers);
}
#define ph_open_store ph_tested_open_store

static inline uint32_t ph_tested_open_noted(ph_handle *handle, const uint8_t *profile, size_t profile_length, const uint8_t *bytes, size_t bytes_length, uint32_t format, ph_numbers *numbers) {
    uint32_t code = ph_test_(handle, profile, profile_length, numbers);
    code = code ? code : ph_test_(handle, bytes, bytes_length, numbers);
    return code ? code : ph_open_noted(handle, profile, profile_length, bytes, bytes_length, format, numbers);
}
#define ph_open_noted ph_tested_open_noted

static inline uint32_t ph_tested_next_change(ph_handle *handle, uint8_t *into, size_t into_length, ph_numbers *numbers) {
    uint32_t code = ph_test_(handle, into, into_length, numbers);
    return code ? code : ph_next_change(handle, into, into_length, numbers);
}
#define ph_next_change ph_tested_next_change

static inline uint32_t ph_tested_close(ph_handle *handle) {
    uint32_t code = handle ? PH_DONE : PH_NULL;
    return code ? code : ph_close(handle);
}
#define ph_close ph_tested_close

static inline uint32_t ph_tested_write(ph_handle *handle, uint64_t line, const uint8_t *bytes, size_t bytes_length, ph_numbers *numbers) {
    uint32_t code = ph_test_(handle, bytes, bytes_length, numbers);
    return code ? code : ph_write(handle, line, bytes, bytes_length, numbers);
}
#define ph_write ph_tested_write

static inline uint32_t ph_tested_read(ph_handle *handle, uint64_t line, uint64_t wait, uint8_t *into, size_t into_length, ph_numbers *numbers) {
    uint32_t code = ph_test_(handle, into, into_length, numbers);
    return code ? code : ph_read(handle, line, wait, into, into_length, numbers);
}
#define ph_read ph_tested_read

static inline uint32_t ph_tested_collect(ph_handle *handle, uint64_t channel, uint64_t number, uint8_t *into, size_t into_length, ph_numbers *numbers) {
    uint32_t code = ph_test_(handle, into, into_length, numbers);
    return code ? code : ph_collect(handle, channel, number, into, into_length, numbers);
}
#define ph_collect ph_tested_collect

static inline uint32_t ph_tested_work(ph_handle *handle, ph_numbers *numbers) {
    uint32_t code = ph_test_(handle, "", 0, numbers);
    return code ? code : ph_work(handle, numbers);
}
#define ph_work ph_tested_work

static inline uint32_t ph_tested_mark(ph_handle *handle, ph_numbers *numbers) {
    uint32_t code = ph_test_(handle, "", 0, numbers);
    return code ? code : ph_mark(handle, numbers);
}
#define ph_mark ph_tested_mark

static inline uint32_t ph_tested_accepted(ph_handle *handle, ph_numbers *numbers) {
    uint32_t code = ph_test_(handle, "", 0, numbers);
    return code ? code : ph_accepted(handle, numbers);
}
#define ph_accepted ph_tested_accepted

static inline uint32_t ph_tested_mode(ph_handle *handle, ph_numbers *numbers) {
    uint32_t code = ph_test_(handle, "", 0, numbers);
    return code ? code : ph_mode(handle, numbers);
}
#define ph_mode ph_tested_mode

static inline uint32_t ph_tested_sizes(ph_handle *handle, ph_numbers *numbers) {
    uint32_t code = ph_test_(handle, "", 0, numbers);
    return code ? code : ph_sizes(handle, numbers);
}
#define ph_sizes ph_tested_sizes

static inline uint32_t ph_tested_sense(ph_handle *handle, ph_numbers *numbers) {
    uint32_t code = ph_test_(handle, "", 0, numbers);
    return code ? code : ph_sense(handle, numbers);
}
#define ph_sense ph_tested_sense

static inline uint32_t ph_tested_arm(ph_handle *handle, ph_numbers *numbers) {
    uint32_t code = ph_test_(handle, "", 0, numbers);
    return code ? code : ph_arm(handle, numbers);
}
#define ph_arm ph_tested_arm

static inline uint32_t ph_tested_disarm(ph_handle *handle, ph_numbers *numbers) {
    uint32_t code = ph_test_(handle, "", 0, numbers);
    return code ? code : ph_disarm(handle, numbers);
}
#define ph_disarm ph_tested_disarm

static inline uint32_t ph_tested_save(ph_handle *handle, ph_numbers *numbers) {
    uint32_t code = ph_test_(handle, "", 0, numbers);
    return code ? code : ph_save(handle, numbers);
}
#define ph_save ph_tested_save

static inline uint32_t ph_tested_save_step(ph_handle *handle, ph_numbers *numbers) {
    uint32_t code = ph_test_(handle, "", 0, numbers);
    return code ? code : ph_save_step(handle, numbers);
}
#define ph_save_step ph_tested_save_step

static inline uint32_t ph_tested_power_loss(ph_handle *handle, ph_numbers *numbers) {
    uint32_t code = ph_test_(handle, "", 0, numbers);
    return code ? code : ph_power_loss(handle, numbers);
}
#define ph_power_loss ph_tested_power_loss

static inline uint32_t ph_tested_persist(ph_handle *handle, uint64_t number, ph_numbers *numbers) {
    uint32_t code = ph_test_(handle, "", 0, numbers);
    return code ? code : ph_persist(handle, number, numbers);
}
#define ph_persist ph_tested_persist

static inline uint32_t ph_tested_set_energy(ph_handle *handle, uint64_t level, ph_numbers *numbers) {
    uint32_t code = ph_test_(handle, "", 0, numbers);
    return code ? code : ph_set_energy(handle, level, numbers);
}
#define ph_set_energy ph_tested_set_energy

static inline uint32_t ph_tested_stop_after(ph_handle *handle, uint64_t calls, ph_numbers *numbers) {
    uint32_t code = ph_test_(handle, "", 0, numbers);
    return code ? code : ph_stop_after(handle, calls, numbers);
}
#define ph_stop_after ph_tested_stop_after

static inline uint32_t ph_tested_store_bytes(ph_handle *handle, uint8_t *into, size_t into_length, ph_numbers *numbers) {
    uint32_t code = ph_test_(handle, into, into_length, numbers);
    return code ? code : ph_store_bytes(handle, into, into_length, numbers);
}
#define ph_store_bytes ph_tested_store_bytes

static inline uint32_t ph_tested_stopped(ph_handle *handle, uint32_t pick, uint32_t byte, uint8_t *into, size_t into_length, ph_numbers *numbers) {
    uint32_t code = ph_test_(handle, into, into_length, numbers);
    return code ? code : ph_stopped(handle, pick, byte, into, into_length, numbers);
}
#define ph_stopped ph_tested_stopped

static inline uint32_t ph_tested_format(const uint8_t *profile, size_t profile_length, uint8_t *store, size_t store_length, ph_numbers *numbers) {
    if (!profile || !store || !numbers) return PH_NULL;
    if (ph_overlap_(store, store_length, profile, profile_length) || ph_overlap_(numbers, sizeof *numbers, store, store_length)) return PH_OVERLAP;
    return ph_overlap_(numbers, sizeof *numbers, profile, profile_length) ? PH_OVERLAP : ph_format(profile, profile_length, store, store_length, numbers);
}
#define ph_format ph_tested_format

static inline uint32_t ph_tested_restore(const uint8_t *profile, size_t profile_length, const uint8_t *store, size_t store_length, ph_line *lines, size_t lines_length, ph_numbers *numbers) {
    if (!profile || !store || !lines || !numbers) return PH_NULL;
    if (lines_length > SIZE_MAX / sizeof *lines) return PH_ROOM;
    size_t bytes = lines_length * sizeof *lines;
    if (ph_overlap_(lines, bytes, profile, profile_length) || ph_overlap_(lines, bytes, store, store_length)) return PH_OVERLAP;
    if (ph_overlap_(numbers, sizeof *numbers, lines, bytes) || ph_overlap_(numbers, sizeof *numbers, store, store_length)) return PH_OVERLAP;
    if (ph_overlap_(numbers, sizeof *numbers, profile, profile_length)) return PH_OVERLAP;
    return ph_restore(profile, profile_length, store, store_length, lines, lines_length, numbers);
}
#define ph_restore ph_tested_restore

static inline uint32_t ph_tested_live(const uint8_t *profile, size_t profile_length, uint8_t *store, size_t store_length, uint64_t level, const ph_event *events, size_t events_length, ph_answer *answers, size_t answers_length, ph_numbers *numbers) {
    if (!profile || !store || !events || !answers || !numbers) return PH_NULL;
    if (events_length > SIZE_MAX / sizeof *events || answers_length > SIZE_MAX / sizeof *answers) return PH_ROOM;
    const void *given[] = {profile, events};
    size_t given_bytes[] = {profile_length, events_length * sizeof *events}, answer_bytes = answers_length * sizeof *answers;
    for (int k = 0; k < 2; k++) {
        if (ph_overlap_(store, store_length, given[k], given_bytes[k]) || ph_overlap_(answers, answer_bytes, given[k], given_bytes[k])) return PH_OVERLAP;
        if (ph_overlap_(numbers, sizeof *numbers, given[k], given_bytes[k])) return PH_OVERLAP;
    }
    if (ph_overlap_(store, store_length, answers, answer_bytes) || ph_overlap_(numbers, sizeof *numbers, store, store_length)) return PH_OVERLAP;
    if (ph_overlap_(numbers, sizeof *numbers, answers, answer_bytes)) return PH_OVERLAP;
    return ph_live(profile, profile_length, store, store_length, level, events, events_length, answers, answers_length, numbers);
}
#define ph_live ph_tested_live

static inline size_t ph_tested_text(uint32_t code, uint8_t *into, size_t into_length) {
    return into ? ph_text(code, into, into_length) : 0;
}
#define ph_text ph_tested_text

#endif

#ifdef __cplusplus
}
#endif
#endif
