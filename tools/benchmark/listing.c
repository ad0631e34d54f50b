/* Times a deck's text and its listings: tools/bench --listing builds and runs it.

   Prints the code's length, the lengths of text and listing, and in nanoseconds of processor time, the least of so many rounds: deck_emit,
   deck_text, deck_listing, deck_view as the attendant sees it, and code_listing of the same code. */
#include <inttypes.h>
#include <stdio.h>
#include <time.h>

#include "handheld.h"

enum { ROUNDS = 200, TIMES = 5 };

static uint8_t file[DECK_FILE], code[DECK_ROOM], text[DECK_TEXT], listing[DECK_LISTING];

static int64_t now(void) {
    struct timespec t;
    clock_gettime(CLOCK_PROCESS_CPUTIME_ID, &t);
    return t.tv_sec * INT64_C(1000000000) + t.tv_nsec;
}

int main(int argc, char **argv) {
    FILE *in = argc == 2 ? fopen(argv[1], "rb") : NULL;
    if (!in) return 2;
    size_t length = fread(file, 1, sizeof file, in), words = 0;
    uint32_t told[DECK_TOLD];
    uint64_t of_deck[DECK_LISTED], of_code[CODE_LISTED];
    int64_t least[TIMES] = {INT64_MAX, INT64_MAX, INT64_MAX, INT64_MAX, INT64_MAX};
    for (int round = 0; round < ROUNDS; round++) {
        int64_t at[TIMES + 1];
        at[0] = now();
        deck_emit(file, length, code, sizeof code, told);
        at[1] = now();
        words = deck_text(file, length, text, sizeof text);
        at[2] = now();
        deck_listing(file, length, listing, sizeof listing, of_deck);
        at[3] = now();
        deck_view(file, length, DECK_ATTENDANT, listing, sizeof listing, of_deck);
        at[4] = now();
        code_listing(code, told[DECK_TOLD_LENGTH], told[DECK_TOLD_OFFSET], listing, sizeof listing, of_code);
        at[5] = now();
        for (int i = 0; i < TIMES; i++)
            if (at[i + 1] - at[i] < least[i]) least[i] = at[i + 1] - at[i];
    }
    printf("%" PRIu32 " %zu %" PRIu64, told[DECK_TOLD_LENGTH], words, of_deck[DECK_LISTED_TEXT]);
    for (int i = 0; i < TIMES; i++) printf(" %" PRId64, least[i]);
    printf("\n");
    return 0;
}
