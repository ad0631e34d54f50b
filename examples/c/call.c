/* Loads a deck's words, as deckwords prints them, and calls them.

   tools/call builds and tries this. By hand, from the root of the repository:

       mkdir -p target
       riscv64-linux-gnu-gcc -march=rv64g -static examples/c/call.c -o target/call
       qemu-riscv64 target/call examples/free_bays.words 120 97 12
       qemu-riscv64 target/call examples/deck_table.words

   A call's return address is to be a multiple of 4 (docs/DECK.md, "What a call owes"): rv64g has no instructions of 2 bytes. */
#include <inttypes.h>
#include <stdint.h>
#include <stdio.h>
#include <stdlib.h>
#include <string.h>
#include <sys/mman.h>

enum { ROOM = 65536, ROWS = 4 }; /* no code is longer than ROOM */

struct cell {
    double *cell;
    uint64_t unused;
};
typedef double fast(double, double, double);
typedef long indirect(double *block, const struct cell *table, uint64_t row, double *params);

/* The file's words in memory that can be executed, at a page's start and so at a multiple of 8; NULL where there is another line. */
static void *load(const char *name) {
    FILE *in = fopen(name, "r");
    char *code = mmap(NULL, ROOM, PROT_READ | PROT_WRITE, MAP_PRIVATE | MAP_ANONYMOUS, -1, 0);
    if (!in || code == MAP_FAILED) return NULL;
    uint32_t length = 0, offset, word;
    while (length < ROOM && fscanf(in, "%" SCNu32 ",%" SCNx32 "\n", &offset, &word) == 2 && offset == length) {
        memcpy(code + offset, &word, sizeof word);
        length += sizeof word;
    }
    int whole = length && feof(in);
    fclose(in);
    if (!whole || mprotect(code, ROOM, PROT_READ | PROT_EXEC)) return NULL;
    __builtin___clear_cache(code, code + length); /* on Linux this is the fence.i, on every hart */
    return code;
}

/* examples/deck_table.deck: of capacity, counted in and counted out the free bays, and whether they are few. */
static void call_table(indirect *deck) {
    double capacity[ROWS] = {120, 120, 80, 50}, in[ROWS] = {97, 130, 90, 60}, out[ROWS] = {12, 12, 5, 13};
    double bays[ROWS], few[ROWS], block[5] = {60, 20, 4}, params[1] = {3};
    const struct cell table[5] = {{capacity, 0}, {in, 0}, {out, 0}, {bays, 0}, {few, 0}};
    for (uint64_t row = 0; row < ROWS; row++) {
        long zero = deck(NULL, table, row, params);
        printf("row %" PRIu64 ": %g bays, few %g, returned %ld\n", row, bays[row], few[row], zero);
    }
    long zero = deck(block, NULL, 0, params);
    printf("block: %g bays, few %g, returned %ld\n", block[3], block[4], zero);
}

int main(int argc, char **argv) {
    void *code = argc == 2 || argc == 5 ? load(argv[1]) : NULL;
    if (!code) {
        fprintf(stderr, "usage: %s WORDS [CAPACITY IN OUT]\n", argv[0]);
        return 2;
    }
    if (argc == 2) call_table(code);
    else printf("%g\n", ((fast *)code)(atof(argv[2]), atof(argv[3]), atof(argv[4])));
    return 0;
}
