/* A store of the caller's own, stopped behind each change that was handed out: what a stop may leave of it then is restored, and has each
 * write that was told persistent before. The changes that no sync has settled are left as they were, made, or torn.
 *
 *     prefixes PROFILE CALLS */
#include <panguhero.h>
#include <stdio.h>
#include <stdlib.h>
#include <string.h>

#define HOLDS(what) do { if (!(what)) { printf("change %zu, line %d: %s\n", count, __LINE__, #what); exit(1); } } while (0)
enum { MOST = 100000 };

/* a change of the store, and what the caller knew when it came: the mark that was told, and how many writes were accepted */
typedef struct {
    int is_sync;
    size_t at, length;
    uint64_t mark, accepted;
    uint8_t bytes[PH_CHANGE_BYTES];
} change;

static uint8_t profile[65536], line[PH_LINE_BYTES], seen[PH_LINE_BYTES];
static uint64_t state = 88172645463325252u, lines_of[MOST], told_mark, accepted;
static change *changes;
static size_t count, length;
static ph_numbers n, sizes;

static uint64_t any(uint64_t below) {
    state ^= state << 13;
    state ^= state >> 7;
    state ^= state << 17;
    return state % below;
}

/* all changes that are noted, in their order */
static void take_all(ph_handle *h) {
    for (;; count++) {
        HOLDS(count < MOST);
        change *to = &changes[count];
        uint32_t code = ph_next_change(h, to->bytes, sizeof to->bytes, &n);
        if (code == PH_NO_CHANGE) return;
        HOLDS(code == PH_DONE || code == PH_SYNC);
        to->is_sync = code == PH_SYNC, to->at = n.first, to->length = n.second;
        to->mark = told_mark, to->accepted = accepted;
    }
}

/* writes, saves, steps of saves and losses of energy; what is told is believed once its changes were taken */
static void live(ph_handle *h, uint64_t calls) {
    for (uint64_t k = 0; k < calls; k++) {
        uint64_t mark = told_mark;
        uint32_t code = PH_DONE;
        switch (any(12)) {
        default: {
            uint64_t at = any(sizes.first);
            memset(line, 0, sizeof line);
            memcpy(line, &(uint64_t){accepted + 1}, 8);
            code = ph_write(h, at, line, sizeof line, &n);
            if (code == PH_DONE) lines_of[accepted++] = at, mark = n.second;
            if (code == PH_FULL) ph_work(h, &n);
            break;
        }
        case 0: ph_save(h, &n); break;
        case 1: if (accepted && ph_persist(h, any(accepted), &n) == PH_DONE) mark = n.first; break;
        case 2: case 3: case 4: ph_save_step(h, &n); break;
        case 5: ph_set_energy(h, any(2) ? 10000000 : any(2000), &n), ph_arm(h, &n); break;
        case 6: if (!any(4)) ph_disarm(h, &n); break;
        }
        take_all(h);
        told_mark = mark;
    }
}

/* what a stop behind so many changes leaves, where those since the last sync are made, not made, or torn */
static void is_restored(const uint8_t *first, uint8_t *store, size_t made, int how) {
    size_t settled = 0;
    memcpy(store, first, sizes.second);
    for (size_t k = 0; k < made; k++) settled = changes[k].is_sync ? k + 1 : settled;
    for (size_t k = 0; k < made; k++) {
        if (changes[k].is_sync || (k >= settled && how == 1)) continue;
        if (k >= settled && how == 2) memset(store + changes[k].at, 0xa5, changes[k].length);
        else memcpy(store + changes[k].at, changes[k].bytes, changes[k].length);
    }
    uint64_t mark = made < count ? changes[made].mark : told_mark, most = made < count ? changes[made].accepted : accepted;
    ph_handle h = PH_HANDLE_CLOSED;
    uint32_t code = ph_open_store(&h, profile, length, store, sizes.second, 0, &n);
    HOLDS(code == PH_DONE || code == PH_POSSIBLE_LOSS);
    HOLDS(n.second <= most && (code == PH_POSSIBLE_LOSS || n.second >= mark));
    for (uint64_t at = 0, held = n.second; at < sizes.first; at++) {
        uint64_t wanted = 0, is = 0;
        for (uint64_t k = 0; k < held; k++) if (lines_of[k] == at) wanted = k + 1;
        HOLDS(ph_read(&h, at, PH_WAIT, seen, sizeof seen, &n) == PH_DONE);
        memcpy(&is, seen, 8);
        HOLDS(is == wanted);
    }
    HOLDS(ph_close(&h) == PH_DONE);
}

int main(int argc, char **argv) {
    FILE *file = argc == 3 ? fopen(argv[1], "rb") : 0;
    if (!file) return fprintf(stderr, "prefixes PROFILE CALLS\n"), 2;
    length = fread(profile, 1, sizeof profile, file);
    fclose(file);
    changes = malloc(MOST * sizeof *changes);
    ph_handle h = PH_HANDLE_CLOSED;
    HOLDS(ph_open_memory(&h, profile, length) == PH_DONE && ph_sizes(&h, &sizes) == PH_DONE);
    uint8_t *first = malloc(sizes.second), *store = malloc(sizes.second);
    HOLDS(ph_store_bytes(&h, first, sizes.second, &n) == PH_DONE && ph_close(&h) == PH_DONE);
    HOLDS(ph_open_noted(&h, profile, length, first, sizes.second, 0, &n) == PH_DONE);
    live(&h, strtoull(argv[2], 0, 10));
    HOLDS(ph_close(&h) == PH_DONE);
    for (size_t made = 0; made <= count; made++)
        for (int how = 0; how < 3; how++) is_restored(first, store, made, how);
    printf("%zu stops behind %zu changes, of %llu writes\n", 3 * (count + 1), count, (unsigned long long)accepted);
    free(changes), free(first), free(store);
    return 0;
}
