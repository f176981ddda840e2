/* Memory refused at each growth in turn: an opening answers PH_NO_MEMORY and leaves its handle closed, and no other call grows but those
 * that note a change: there the device's call fails, and nothing that was saved is lost.
 * Linked with -Wl,--wrap=malloc,--wrap=realloc,--wrap=free.
 *
 *     refused PROFILE */
#include <panguhero.h>
#include <stdio.h>
#include <stdlib.h>
#include <string.h>

void *__real_malloc(size_t size);
void *__real_realloc(void *old, size_t size);
void __real_free(void *block);

static unsigned long growths, refused_at, blocks;

static int is_refused(void) {
    return ++growths == refused_at;
}

void *__wrap_malloc(size_t size) {
    void *made = is_refused() ? 0 : __real_malloc(size);
    return blocks += made != 0, made;
}

void *__wrap_realloc(void *old, size_t size) {
    void *made = is_refused() ? 0 : __real_realloc(old, size);
    return blocks += made != 0 && old == 0, made;
}

void __wrap_free(void *block) {
    blocks -= block != 0;
    __real_free(block);
}

#define HOLDS(what) do { if (!(what)) { printf("growth %lu, line %d: %s\n", refused_at, __LINE__, #what); exit(1); } } while (0)

static uint8_t profile[65536], *store, line[PH_LINE_BYTES];
static size_t length;

enum { ON_MEMORY, ON_STORE, NOTED };

static uint32_t open_one(int how, size_t size, ph_handle *h, ph_numbers *n) {
    if (how == NOTED) return ph_open_noted(h, profile, length, store, size, 1, n);
    return how == ON_STORE ? ph_open_store(h, profile, length, store, size, 1, n) : ph_open_memory(h, profile, length);
}

/* an opening with its growth of each number refused; it answers how many there are */
static unsigned long try_opening(int how, size_t size) {
    ph_handle h = PH_HANDLE_CLOSED;
    ph_numbers n;
    for (unsigned long k = 1;; k++) {
        unsigned long before = blocks;
        growths = 0, refused_at = k;
        uint32_t code = open_one(how, size, &h, &n);
        refused_at = 0;
        if (code == PH_DONE) {
            HOLDS(growths == k - 1);
            HOLDS(ph_close(&h) == PH_DONE);
            HOLDS(blocks == before + 1); /* the profile's map stays */
            return k - 1;
        }
        /* of a device that notes its changes a call for which there is no memory fails */
        HOLDS((code == PH_NO_MEMORY || (how == NOTED && code == PH_DEVICE)) && ph_mark(&h, &n) == PH_NO_HANDLE);
        HOLDS(blocks <= before + 1);
    }
}

/* all changes that are noted, on the caller's store */
static void make_all(ph_handle *h, uint8_t *own) {
    uint8_t change[PH_CHANGE_BYTES];
    ph_numbers n;
    uint32_t code;
    while ((code = ph_next_change(h, change, sizeof change, &n)) != PH_NO_CHANGE)
        if (code == PH_DONE) memcpy(own + n.first, change, n.second);
}

/* a save of a module whose changes are noted, with its growth of each number refused: it is one that failed, and the store has what was
 * saved before; it answers how many there are */
static unsigned long try_saving(size_t size) {
    uint8_t *own = __real_malloc(size);
    for (unsigned long k = 1;; k++) {
        ph_handle h = PH_HANDLE_CLOSED;
        ph_numbers n;
        memset(own, 0, size);
        HOLDS(ph_open_noted(&h, profile, length, own, size, 1, &n) == PH_DONE);
        HOLDS(ph_write(&h, 1, line, sizeof line, &n) == PH_DONE && ph_save(&h, &n) == PH_DONE);
        HOLDS(ph_write(&h, 2, line, sizeof line, &n) == PH_DONE);
        make_all(&h, own);
        growths = 0, refused_at = k;
        uint32_t code = ph_save(&h, &n);
        unsigned long grown = growths;
        refused_at = 0;
        make_all(&h, own);
        HOLDS(ph_close(&h) == PH_DONE);
        HOLDS(ph_open_store(&h, profile, length, own, size, 0, &n) == PH_DONE);
        HOLDS(n.second == (code == PH_DONE ? 2 : 1) && ph_close(&h) == PH_DONE);
        if (code == PH_DONE && grown < k) {
            __real_free(own);
            return grown;
        }
        HOLDS(code == PH_DONE || code == PH_SAVE_FAULT || code == PH_RETRY);
    }
}

/* each call with no handle, with its growth of each number refused: nothing has changed, and no block is left; it answers how many there are */
static unsigned long try_lives(size_t size, size_t lines) {
    uint8_t *own = __real_malloc(size), *before = __real_malloc(size);
    ph_line *memory = __real_malloc(lines * sizeof *memory);
    ph_event events[] = {{.kind = PH_EVENT_ARM}, {.kind = PH_EVENT_WRITE, .first = 1}, {.kind = PH_EVENT_LOSE}};
    ph_answer answers[3];
    ph_numbers n;
    unsigned long all = 0;
    memset(own, 0, size);
    for (int call = 0; call < 3; call++) {
        for (unsigned long k = 1;; k++) {
            unsigned long had = blocks;
            memcpy(before, own, size);
            growths = 0, refused_at = k;
            uint32_t code = call == 0 ? ph_format(profile, length, own, size, &n) : call == 1 ? ph_restore(profile, length, own, size, memory, lines, &n)
                : ph_live(profile, length, own, size, 1000000, events, 3, answers, 3, &n);
            refused_at = 0;
            HOLDS(blocks == had);
            if (code == PH_DONE && growths < k) break;
            HOLDS(code == PH_NO_MEMORY && !memcmp(own, before, size));
            all++;
        }
    }
    __real_free(own), __real_free(before), __real_free(memory);
    return all;
}

int main(int argc, char **argv) {
    FILE *file = argc == 2 ? fopen(argv[1], "rb") : 0;
    if (!file) return fprintf(stderr, "refused PROFILE\n"), 2;
    length = fread(profile, 1, sizeof profile, file);
    fclose(file);
    ph_handle h = PH_HANDLE_CLOSED;
    ph_numbers n, sizes;
    HOLDS(ph_open_memory(&h, profile, length) == PH_DONE && ph_sizes(&h, &sizes) == PH_DONE);
    store = calloc(sizes.second, 1);
    unsigned long on_memory = try_opening(ON_MEMORY, 0), on_zeros = try_opening(ON_STORE, sizes.second);
    for (int k = 0; k < 5; k++) HOLDS(ph_write(&h, k, line, sizeof line, &n) == PH_DONE);
    HOLDS(ph_save(&h, &n) == PH_DONE && ph_store_bytes(&h, store, sizes.second, &n) == PH_DONE);
    unsigned long on_image = try_opening(ON_STORE, sizes.second), noted = try_opening(NOTED, sizes.second);
    memset(store, 0, sizes.second);
    unsigned long formatted = try_opening(NOTED, sizes.second), of_save = try_saving(sizes.second), of_lives = try_lives(sizes.second, sizes.first);
    /* no other call of a module in memory asks for memory */
    growths = 0;
    for (int k = 0; k < 1000; k++) {
        ph_write(&h, k % sizes.first, line, sizeof line, &n);
        ph_read(&h, k % sizes.first, PH_WAIT, line, sizeof line, &n);
        ph_collect(&h, 0, k, line, sizeof line, &n);
        ph_work(&h, &n), ph_mark(&h, &n), ph_save_step(&h, &n);
    }
    HOLDS(ph_persist(&h, 5, &n) == PH_DONE && ph_store_bytes(&h, store, sizes.second, &n) == PH_DONE);
    HOLDS(ph_set_energy(&h, 1000000, &n) == PH_DONE && ph_arm(&h, &n) == PH_DONE && ph_power_loss(&h, &n) == PH_DONE);
    HOLDS(growths == 0);
    HOLDS(ph_close(&h) == PH_DONE);
    printf("growths refused in turn: %lu of an opening, %lu on a store of zeros, %lu on an image, %lu and %lu where changes are noted, %lu of a save there, and %lu of calls with no handle; the other calls have none\n", on_memory, on_zeros, on_image, formatted, noted, of_save, of_lives);
    return 0;
}
