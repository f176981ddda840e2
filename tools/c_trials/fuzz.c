/* Random calls with random arguments, and a model beside them: each answer has to be one that the calls before it allow.
 *
 *     fuzz PROFILE CALLS [SEED] */
#include <panguhero.h>
#include <stdio.h>
#include <stdlib.h>
#include <string.h>

#define HANDLES 3
#define WANT(what) do { if (!(what)) { printf("call %llu, line %d: %s\n", (unsigned long long)call, __LINE__, #what); exit(1); } } while (0)

/* a write that was accepted: its line, and the byte that its bytes begin with */
typedef struct { uint64_t line; uint64_t seed; } written;

typedef struct {
    ph_handle handle;
    int open, dark;
    written *writes; /* all, from the formatting on */
    uint64_t accepted, room, mark;
    uint64_t *now; /* the seed of each line */
    int waits; /* a read waits, by this ticket: its line, and the seed that it is to have */
    ph_numbers ticket;
    written read;
} module_;

static uint64_t state;

static uint64_t any(uint64_t below) {
    state ^= state << 13;
    state ^= state >> 7;
    state ^= state << 17;
    return below ? state % below : state;
}

static void fill(uint8_t *line, uint64_t seed) {
    for (int k = 0; k < PH_LINE_BYTES; k += 8) memcpy(line + k, &seed, 8);
}

static void replay(module_ *m, uint64_t lines, uint64_t count) {
    memset(m->now, 0, lines * sizeof *m->now);
    for (uint64_t k = 0; k < count; k++) m->now[m->writes[k].line] = m->writes[k].seed;
    m->accepted = m->mark = count;
    m->waits = m->dark = 0;
}

int main(int argc, char **argv) {
    if (argc < 3) return fprintf(stderr, "fuzz PROFILE CALLS [SEED]\n"), 2;
    static uint8_t profile[65536];
    FILE *file = fopen(argv[1], "rb");
    if (!file) return perror(argv[1]), 2;
    size_t length = fread(profile, 1, sizeof profile, file);
    fclose(file);
    uint64_t calls = strtoull(argv[2], 0, 10), call = 0, answered[64] = {0};
    state = argc > 3 ? strtoull(argv[3], 0, 10) : 88172645463325252u;
    module_ all[HANDLES];
    memset(all, 0, sizeof all);
    ph_handle probe = PH_HANDLE_CLOSED;
    ph_numbers sizes, numbers;
    WANT(ph_open_memory(&probe, profile, length) == PH_DONE && ph_sizes(&probe, &sizes) == PH_DONE && ph_close(&probe) == PH_DONE);
    uint8_t *store = malloc(sizes.second), line[PH_LINE_BYTES], other[PH_LINE_BYTES];
    for (; call < calls; call++) {
        module_ *m = &all[any(HANDLES)];
        uint64_t at = any(8) ? any(sizes.first) : any(0), seed = any(0) | 1;
        size_t wrong = any(64) ? PH_LINE_BYTES : any(PH_LINE_BYTES + 1);
        uint32_t code = PH_DONE;
        if (!m->open) {
            code = any(4) ? ph_open_memory(&m->handle, profile, any(8) ? length : any(length)) : ph_write(&m->handle, at, line, wrong, &numbers);
            WANT(code == PH_DONE || code == PH_NO_PROFILE || code == PH_NO_HANDLE);
            if (code == PH_DONE) {
                m->open = 1, m->dark = 0, m->accepted = m->mark = 0;
                m->now = m->now ? m->now : malloc(sizes.first * sizeof *m->now);
                replay(m, sizes.first, 0);
            }
            answered[code]++;
            continue;
        }
        switch (any(32)) {
        default:
            fill(line, seed);
            code = ph_write(&m->handle, at, line, wrong, &numbers);
            WANT((code == PH_BUFFER) == (wrong != PH_LINE_BYTES));
            if (code != PH_DONE) break;
            WANT(at < sizes.first && numbers.first == m->accepted && numbers.second >= m->mark && numbers.second <= m->accepted + 1);
            if (m->accepted == m->room) m->writes = realloc(m->writes, (m->room = 2 * m->room + 64) * sizeof *m->writes);
            m->writes[m->accepted++] = (written){at, seed};
            m->now[at] = seed, m->mark = numbers.second;
            break;
        case 0: case 1: case 2: case 3: case 4: case 5:
            memset(line, 0x5a, sizeof line);
            memcpy(other, line, sizeof line);
            code = ph_read(&m->handle, at, any(3) ? PH_WAIT : any(4), line, wrong, &numbers);
            if (code == PH_READ_WAITS) m->waits = 1, m->ticket = numbers, m->read = (written){at, m->now[at]};
            if (code == PH_DONE) fill(other, m->now[at]);
            WANT(!memcmp(line, other, sizeof line));
            break;
        case 6: code = ph_arm(&m->handle, &numbers); break;
        case 7: code = ph_disarm(&m->handle, &numbers); break;
        case 8: code = ph_set_energy(&m->handle, any(2) ? 100000000 : any(100000), &numbers); break;
        case 9: code = ph_sense(&m->handle, &numbers); break;
        case 10: code = ph_save_step(&m->handle, &numbers); break;
        case 11:
            code = ph_save(&m->handle, &numbers);
            WANT(code != PH_DONE || numbers.second <= m->accepted);
            break;
        case 12:
            code = ph_persist(&m->handle, at = any(m->accepted + 2), &numbers);
            WANT(code != PH_DONE || (at < numbers.first && numbers.first <= m->accepted));
            break;
        case 13:
            code = ph_mark(&m->handle, &numbers);
            WANT(code == PH_DONE && numbers.first >= m->mark && numbers.first <= m->accepted);
            m->mark = numbers.first;
            break;
        case 14:
            code = ph_accepted(&m->handle, &numbers);
            WANT(code == PH_DONE && numbers.first == m->accepted);
            break;
        case 15:
            code = ph_mode(&m->handle, &numbers);
            WANT(code == PH_DONE && numbers.first <= PH_MODE_SAVED);
            break;
        case 16:
            if (any(16)) break;
            code = ph_power_loss(&m->handle, &numbers);
            m->dark = 1;
            break;
        case 17: code = ph_store_bytes(&m->handle, store, any(4) ? sizes.second : any(sizes.second), &numbers); break;
        case 18:
            if (any(8)) break;
            code = ph_stop_after(&m->handle, any(64), &numbers);
            break;
        case 19:
            if (any(8)) break;
            WANT(ph_mark(&m->handle, &numbers) == PH_DONE);
            m->mark = numbers.first;
            code = ph_stopped(&m->handle, any(4), any(300), store, any(4) ? sizes.second : any(sizes.second), &numbers);
            if (code != PH_DONE) break;
            code = ph_open_store(&m->handle, profile, length, store, sizes.second, 0, &numbers);
            WANT(code == PH_DONE || code == PH_POSSIBLE_LOSS);
            WANT(numbers.second <= m->accepted && (code != PH_DONE || numbers.second >= m->mark));
            replay(m, sizes.first, numbers.second);
            break;
        case 20:
            code = ph_open_store(&m->handle, profile, length, store, sizes.second, any(2), &numbers);
            WANT(code == PH_ALREADY_OPEN);
            break;
        case 24:
            if (!m->waits || !any(4)) {
                code = ph_collect(&m->handle, any(3) ? any(4) : any(0), any(3) ? any(9) + 1000000 : any(0), line, sizeof line, &numbers);
                WANT(code == PH_NO_SUCH_READ);
                break;
            }
            code = ph_collect(&m->handle, m->ticket.first, m->ticket.second, line, sizeof line, &numbers);
            if (code == PH_READ_WAITS) break;
            m->waits = 0;
            if (m->dark) break;
            fill(other, m->read.seed);
            WANT(code == PH_DONE && numbers.first == m->read.line && !memcmp(line, other, sizeof line));
            break;
        case 23:
            code = ph_work(&m->handle, &numbers);
            WANT(code == PH_DONE);
            break;
        case 21:
            if (any(64)) break;
            code = ph_close(&m->handle);
            WANT(code == PH_DONE && ph_close(&m->handle) == PH_NO_HANDLE);
            m->open = 0;
            break;
        case 22:
            code = ph_write(0, at, line, sizeof line, &numbers);
            WANT(code == PH_NULL && ph_read(&m->handle, at, 0, 0, 64, &numbers) == PH_NULL && ph_mark(&m->handle, 0) == PH_NULL);
            WANT(ph_read(&m->handle, at, 0, (uint8_t *)&m->handle, 64, &numbers) == PH_OVERLAP);
            break;
        }
        WANT(code < 64);
        answered[code]++;
    }
    for (uint32_t code = 0; code < 64; code++) {
        size_t words = ph_text(code, line, sizeof line);
        if (answered[code]) printf("%10llu %.*s\n", (unsigned long long)answered[code], (int)(words < sizeof line ? words : sizeof line), (char *)line);
    }
    for (int k = 0; k < HANDLES; k++) {
        ph_close(&all[k].handle);
        free(all[k].writes);
        free(all[k].now);
    }
    free(store);
    printf("%llu calls\n", (unsigned long long)calls);
    return 0;
}
