/* Writes and reads a second over the boundary, of processor time, in pseudo-random order: a write that finds its channel full works the
 * channels until it isn't. Beside them the nanoseconds of a call that does next to nothing behind the boundary.
 *
 *     speed PROFILE ROUNDS EACH */
#define _POSIX_C_SOURCE 199309L
#include <panguhero.h>
#include <stdio.h>
#include <stdlib.h>
#include <string.h>
#include <time.h>

static uint64_t state = 88172645463325252u;

static uint64_t any(uint64_t below) {
    state ^= state << 13;
    state ^= state >> 7;
    state ^= state << 17;
    return state % below;
}

static double now(void) {
    struct timespec at;
    clock_gettime(CLOCK_PROCESS_CPUTIME_ID, &at);
    return (double)at.tv_sec + (double)at.tv_nsec / 1e9;
}

static void check(const char *what, uint32_t code) {
    if (code == PH_DONE) return;
    fprintf(stderr, "speed: %s: code %u\n", what, code);
    exit(1);
}

/* a read that has to wait works the channels until it has its bytes */
static void read_line(ph_handle *h, uint64_t at, uint8_t *line) {
    ph_numbers n, ticket;
    uint32_t code = ph_read(h, at, PH_WAIT, line, PH_LINE_BYTES, &ticket);
    while (code == PH_READ_WAITS) {
        check("work", ph_work(h, &n));
        code = ph_collect(h, ticket.first, ticket.second, line, PH_LINE_BYTES, &n);
    }
    check("read", code);
}

int main(int argc, char **argv) {
    static uint8_t profile[65536], line[PH_LINE_BYTES];
    FILE *file = argc == 4 ? fopen(argv[1], "rb") : 0;
    if (!file) return fprintf(stderr, "speed PROFILE ROUNDS EACH\n"), 2;
    size_t length = fread(profile, 1, sizeof profile, file);
    fclose(file);
    uint64_t rounds = strtoull(argv[2], 0, 10), each = strtoull(argv[3], 0, 10), sum = 0;
    double writes = 0, reads = 0, saves = 0, from;
    ph_handle h = PH_HANDLE_CLOSED;
    ph_numbers n, sizes;
    check("open", ph_open_memory(&h, profile, length));
    check("sizes", ph_sizes(&h, &sizes));
    for (uint64_t round = 0; round < rounds; round++) {
        from = now();
        for (uint64_t k = 0; k < each; k++) {
            uint32_t code;
            memcpy(line, &k, sizeof k);
            uint64_t at = any(sizes.first);
            while ((code = ph_write(&h, at, line, sizeof line, &n)) == PH_FULL) check("work", ph_work(&h, &n));
            check("write", code);
        }
        writes += now() - from;
        from = now();
        for (uint64_t k = 0; k < each; k++) {
            read_line(&h, any(sizes.first), line);
            sum += line[state & 63];
        }
        reads += now() - from;
        from = now();
        check("save", ph_save(&h, &n));
        saves += now() - from;
    }
    double calls = (double)rounds * (double)each;
    from = now();
    for (uint64_t k = 0; k < 20000000; k++) check("mark", ph_mark(&h, &n));
    double call = (now() - from) / 20000000 * 1e9;
    printf("%.0f writes, %.0f reads, %.0f lines saved a second; a call has %.1f ns (%llu)\n", calls / writes, calls / reads, (double)rounds * (double)sizes.first / saves,
        call, (unsigned long long)sum);
    check("close", ph_close(&h));
    return 0;
}
