/* Prints a deck file's words, what is told of them, the file's two listings and its unused labels, then lists a code and lays a few
   orders by hand.

   tools/handheld builds and tries this. By hand, from the root of the repository:

       tools/build handheld
       cc -Iinclude examples/c/main.c target/staticlib/libhandheld.a -o target/handheld_c
       target/handheld_c examples/free_bays.deck */
#include <inttypes.h>
#include <stdio.h>
#include <string.h>

#include "handheld.h"

static uint8_t file[DECK_FILE + 1]; /* one byte more, so that a file too long is seen to be */
static uint8_t code[DECK_ROOM];
static uint8_t text[DECK_TEXT];
static uint8_t listing[DECK_LISTING];
static uint8_t again[DECK_LISTING];
static uint64_t labels[DECK_LABELS];
static uint32_t jumps[DECK_JUMPS];

/* A refusal in words; nothing for 0. */
static void reason(uint32_t number) {
    uint8_t sentence[REFUSAL_TEXT];
    size_t length = refusal_text(number, sentence, sizeof sentence);
    if (length) printf("%.*s\n", (int)length, (const char *)sentence);
}

/* The file's listing; that of its code, which `code` holds, is the same. */
static void list_deck(size_t length, size_t code_length, size_t offset) {
    uint64_t told[DECK_LISTED], coded[CODE_LISTED];
    uint32_t number = deck_listing(file, length, listing, sizeof listing, told);
    fwrite(listing, 1, told[DECK_LISTED_TEXT], stdout);
    printf("number %" PRIu32 ", line %" PRIu64 ", length %" PRIu64 ", listing %" PRIu64 "\n", number,
           told[DECK_LISTED_LINE], told[DECK_LISTED_LENGTH], told[DECK_LISTED_TEXT]);
    reason(number);
    if (number) return;
    number = code_listing(code, code_length, offset, again, sizeof again, coded);
    int same = number == 0 && coded[CODE_LISTED_TEXT] == told[DECK_LISTED_TEXT]
               && memcmp(again, listing, coded[CODE_LISTED_TEXT]) == 0;
    puts(same ? "the code has the same listing" : "the code has another listing");
}

/* The listing that the attendant sees: what is told of it, and the lines of its constants. */
static void attend(size_t length) {
    uint64_t told[DECK_LISTED];
    uint32_t number = deck_view(file, length, DECK_ATTENDANT, listing, sizeof listing, told);
    printf("attendant: number %" PRIu32 ", line %" PRIu64 ", length %" PRIu64 ", listing %" PRIu64 "\n", number,
           told[DECK_LISTED_LINE], told[DECK_LISTED_LENGTH], told[DECK_LISTED_TEXT]);
    const uint8_t *line = listing, *end = listing + told[DECK_LISTED_TEXT];
    while (line < end) {
        const uint8_t *next = (const uint8_t *)memchr(line, '\n', end - line) + 1;
        if (memcmp(memchr(line, ',', next - line), ",data,", 6) == 0) fwrite(line, 1, next - line, stdout);
        line = next;
    }
}

/* The labels that nobody jumps to, behind a finish that left this record. */
static void unused(const uint64_t record[ORDER_RECORD]) {
    uint32_t list[DECK_LABELS], told[1] = {0};
    uint32_t number = label_unused(labels, record, list, told);
    printf("%" PRIu32 " unused labels:", number);
    for (uint32_t i = 0; i < told[0]; i++) printf(" %" PRIu32, list[i]);
    puts("");
    reason(number);
}

/* Those of the file, where it is accepted. */
static void unused_in(size_t length) {
    uint32_t told[DECK_TOLD];
    if (deck_emit_in(file, length, code, sizeof code, labels, jumps, told)) return;
    unused((const uint64_t[]){told[DECK_TOLD_LENGTH], told[DECK_TOLD_JUMPS], 1});
}

static void deck(size_t length) {
    uint32_t told[DECK_TOLD];
    uint32_t number = deck_emit(file, length, code, sizeof code, told);
    fwrite(text, 1, deck_text(file, length, text, sizeof text), stdout);
    printf("number %" PRIu32 ", line %" PRIu32 ", length %" PRIu32 ", constants %" PRIu32 " at %" PRIu32
           ", jumps %" PRIu32 ", frame %" PRIu32 "\n",
           number, told[DECK_TOLD_LINE], told[DECK_TOLD_LENGTH], told[DECK_TOLD_CONSTANTS],
           told[DECK_TOLD_OFFSET], told[DECK_TOLD_JUMPS], told[DECK_TOLD_FRAME]);
    reason(number);
    list_deck(length, told[DECK_TOLD_LENGTH], told[DECK_TOLD_OFFSET]);
    attend(length);
    unused_in(length);
}

/* The listing of an instruction and a word that is none, with constants from the offset on, in so many bytes. */
static void list_code(size_t offset, size_t room) {
    static const uint8_t two[8] = {0x13};
    uint8_t out[64];
    uint64_t told[CODE_LISTED];
    uint32_t number = code_listing(two, sizeof two, offset, out, room, told);
    printf("%" PRIu32 " listing: offset %zu, room %zu, place %" PRIu64 ", length %" PRIu64 "\n", number, offset, room,
           told[CODE_LISTED_PLACE], told[CODE_LISTED_TEXT]);
    reason(number);
    fwrite(out, 1, told[CODE_LISTED_TEXT], stdout);
}

static void words(const uint8_t *at, size_t length) {
    for (size_t i = 0; i + 4 <= length; i += 4)
        printf("%zu,%02x%02x%02x%02x\n", i, at[i + 3], at[i + 2], at[i + 1], at[i]);
}

/* Lays a line's order, with a tag for its jumps. */
static void lay(const char *line, uint32_t tag, uint64_t record[ORDER_RECORD]) {
    uint32_t number = order_emit((const uint8_t *)line, strlen(line), tag, code, sizeof code, labels, jumps, record);
    printf("%" PRIu32 " %s", number, line);
    reason(number);
}

/* Lays a line's constant as constant k. */
static void lay_constant(const char *line, uint32_t k, uint64_t record[ORDER_RECORD]) {
    uint32_t number = order_constant((const uint8_t *)line, strlen(line), k, code, sizeof code, labels, jumps, record);
    printf("%" PRIu32 " constant %" PRIu32 ": %s", number, k, line);
    reason(number);
}

/* A nop where the next byte would not be at a multiple of 8: constants are to stand there. */
static void to_eights(uint64_t record[ORDER_RECORD]) {
    static const uint8_t nop[4] = {0x13};
    uint64_t length = record[ORDER_LENGTH];
    if (length % 8 == 0 || length + sizeof nop > sizeof code) return;
    memcpy(code + length, nop, sizeof nop);
    record[ORDER_LENGTH] += sizeof nop;
    printf("a nop at %" PRIu64 "\n", length);
}

/* Orders, and behind them the constants that they load, each with its number among the constants. */
static void by_hand(const char *const *lines, uint32_t count, const char *const *constants, uint32_t constant_count) {
    uint64_t record[ORDER_RECORD] = {0};
    uint32_t told[2];
    memset(code, 0, sizeof code);
    memset(labels, 0, sizeof labels);
    for (uint32_t i = 0; i < count; i++) lay(lines[i], i + 1, record);
    if (constant_count) to_eights(record);
    for (uint32_t k = 0; k < constant_count; k++) lay_constant(constants[k], k, record);
    uint32_t number = order_finish(code, sizeof code, labels, jumps, record, told);
    printf("%" PRIu32 " finish: place %" PRIu32 ", tag %" PRIu32 ", length %" PRIu64 ", jumps %" PRIu64 ", closed %" PRIu64 "\n",
           number, told[0], told[1], record[ORDER_LENGTH], record[ORDER_JUMPS], record[ORDER_CLOSED]);
    reason(number);
    unused(record);
    lay(lines[0], 0, record);
    words(code, record[ORDER_LENGTH]);
}

int main(int argc, char **argv) {
    FILE *in = argc == 2 ? fopen(argv[1], "rb") : NULL;
    if (!in) {
        fprintf(stderr, "usage: %s DECK\n", argv[0]);
        return 2;
    }
    deck(fread(file, 1, sizeof file, in));
    fclose(in);
    list_code(4, 64);
    list_code(4, 28);
    list_code(8, 64);
    list_code(12, 64);
    by_hand((const char *const[]){"label,0\n", "minus,10,10,11\n", "minus,10,10,32\n", "float,3\n", "branch,10,0,0\n"}, 5, NULL, 0);
    by_hand((const char *const[]){"fmov,10,11\n", "branch,10,7,1\n"}, 2, NULL, 0);
    by_hand((const char *const[]){"load_const,10,1\n", "times,10,10,11\n", "get,12,mem,4096\n", "get,13,mem,268435455\n",
                                  "get,12,mem,268435456\n"}, 5,
            (const char *const[]){"float,3\n", "bits,3fb999999999999a\n", "float,9007199254740993\n", "fmov,0,0\n"}, 4);
    return 0;
}
