/* A counter that outlives its process: each call of the program adds one, and tells what it is once that is persistent. Its module lives
 * on a file: what stands there is what a stop left, whenever it came.
 *
 *     counter PROFILE FILE */
#include <fcntl.h>
#include <inttypes.h>
#include <panguhero_file.h>
#include <stdio.h>
#include <stdlib.h>
#include <string.h>
#include <unistd.h>

static void check(const char *what, uint32_t code) {
    uint8_t words[80];
    if (code == PH_DONE) return;
    fprintf(stderr, "counter: %s: %.*s\n", what, (int)ph_text(code, words, sizeof words), (char *)words);
    exit(1);
}

int main(int argc, char **argv) {
    static uint8_t profile[65536], line[PH_LINE_BYTES];
    if (argc != 3) return fprintf(stderr, "counter PROFILE FILE\n"), 2;
    int text = open(argv[1], O_RDONLY), store = open(argv[2], O_RDWR | O_CREAT, 0600);
    if (text < 0 || store < 0) return perror(text < 0 ? argv[1] : argv[2]), 1;
    ssize_t length = read(text, profile, sizeof profile);
    ph_handle module = PH_HANDLE_CLOSED;
    ph_numbers numbers;
    uint64_t count;
    check("open", ph_file_open(&module, profile, length < 0 ? 0 : (size_t)length, store, 1, &numbers));
    check("read", ph_read(&module, 0, PH_WAIT, line, sizeof line, &numbers));
    memcpy(&count, line, sizeof count);
    count++;
    memcpy(line, &count, sizeof count);
    check("write", ph_write(&module, 0, line, sizeof line, &numbers));
    check("persist", ph_file_persist(&module, store, numbers.first, &numbers));
    printf("%" PRIu64 "\n", count);
    check("close", ph_close(&module));
    return close(store);
}
