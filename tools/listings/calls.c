/* Calls code_listing or deck_view for each case on standard input, and writes what it answers to standard output; tools/listing builds
   and runs this.

   A case: 0 for code_listing or 1 for deck_view, the length of the code or file, the constants' offset or the view, the buffer's length,
   as 8 bytes each, and the code or file. An answer: the number, three numbers told (code_listing tells two), and 1 where the bytes around
   both memories stayed, as 8 bytes each, and the buffer. All numbers are little-endian. Buffer and told hold MARK at first. */
#include <stdio.h>
#include <stdlib.h>
#include <string.h>

#include "handheld.h"

enum { MARK = 0xa5, AROUND = 64 };

static int get(uint64_t *numbers, size_t count) { return fread(numbers, sizeof *numbers, count, stdin) == count; }

static void put(uint64_t number) { fwrite(&number, sizeof number, 1, stdout); }

/* Memory of a length with marked bytes on both sides. */
static uint8_t *lent(size_t length) {
    uint8_t *all = malloc(length + 2 * AROUND);
    if (!all) exit(2);
    memset(all, MARK, length + 2 * AROUND);
    return all + AROUND;
}

static int stayed(const uint8_t *at, size_t length) {
    for (size_t i = 0; i < AROUND; i++)
        if (at[length + i] != MARK || *(at - 1 - i) != MARK) return 0;
    return 1;
}

int main(void) {
    uint64_t given[4], told[DECK_LISTED];
    while (get(given, 4)) {
        size_t length = given[1], room = given[3];
        uint8_t *in = lent(length), *out = lent(room);
        if (fread(in, 1, length, stdin) != length) return 2;
        memset(told, MARK, sizeof told);
        put(given[0] ? deck_view(in, length, (uint32_t)given[2], out, room, told) : code_listing(in, length, given[2], out, room, told));
        for (size_t i = 0; i < DECK_LISTED; i++) put(told[i]);
        put(stayed(in, length) && stayed(out, room));
        fwrite(out, 1, room, stdout);
        free(in - AROUND);
        free(out - AROUND);
    }
    return 0;
}
