/* Deck files and single orders as RV64 machine words, and listings of these: libhandheld.a (`tools/build handheld`).

   Every function is proved to answer and leave what crates/handheld says, for all arguments that
   meet the terms below. The library keeps nothing between calls, allocates nothing and calls nothing
   but memcpy and memset.

   What the caller owes, since C cannot state it:
   - A pointer with a length: that many bytes may be read, and written where it is not const. It is
     not null, even where the length is 0. No length exceeds PTRDIFF_MAX.
   - An array in brackets has exactly that many elements, at its type's alignment.
   - No memory of a call overlaps another one's of the same call.
   - 256 KiB of stack.

   What the loader owes, who copies the code to where it will run: that place is a multiple of 8, since the
   controller traps an 8-byte access at any other address, and constants are at multiples of 8 in the code
   (the buffer that a function here fills may lie anywhere). The proofs assume that fetches see memory as it
   is. So behind the last byte copied, and before the first call, `fence.i` is executed on the hart that will
   run the code, and no hart runs a routine while its bytes are being replaced. Flags and traps of float
   arithmetic are not modelled; nothing may hang on them. docs/DECK.md has all terms of a call.

   A refusal is one of the numbers below; 0 is none. refusal_text says it in words. */
#ifndef HANDHELD_H
#define HANDHELD_H

#include <stddef.h>
#include <stdint.h>

#ifdef __cplusplus
extern "C" {
#endif

enum {
    DECK_REGISTER = 1,
    DECK_VALUE = 2,
    DECK_LABEL = 3,
    DECK_TWICE = 4,
    DECK_UNSET = 5,
    DECK_FAR = 6,
    DECK_FULL = 7,
    DECK_CLOSED = 8,
    DECK_COUNT = 9,
    DECK_BASE = 10,
    DECK_UNSAVED = 11,
    DECK_LINE = 12,
    DECK_FOREIGN = 14
};

enum {
    DECK_FILE = 65536,  /* the longest file that is not refused for its length */
    DECK_ROOM = 65536,  /* so many bytes of a buffer count; those behind never change */
    DECK_TEXT = 245760, /* no text of deck_text is longer */
    DECK_LISTING = 475136, /* no listing of 65,536 bytes of code is longer */
    REFUSAL_TEXT = 80,  /* no sentence is longer */
    DECK_LABELS = 2039,
    DECK_JUMPS = 20480
};

/* What deck_emit and deck_emit_in tell. A refusal has its number and line, and 0 in the last five; an
   accepted file has 0 for number and line. */
enum {
    DECK_TOLD_NUMBER,
    DECK_TOLD_LINE,
    DECK_TOLD_LENGTH,    /* of the code, constants and the nop before them included, in bytes */
    DECK_TOLD_OFFSET,    /* where constants start, a multiple of 8; the length where there are none */
    DECK_TOLD_CONSTANTS, /* how many */
    DECK_TOLD_JUMPS,
    DECK_TOLD_FRAME,     /* 0 fast, 1 indirect */
    DECK_TOLD
};

/* A deck file's routine into buf, from its first byte on, with zeros behind it; a refused file leaves
   zeros. Where it has constants and the code before them does not end at a multiple of 8, one nop
   (0x00000013, never run) stands between. It is copied to a multiple of 8. Answers the number. */
uint32_t deck_emit(const uint8_t *file, size_t file_length, uint8_t *buf, size_t buf_length,
                   uint32_t told[DECK_TOLD]);

/* The same in lent label and jump memory, whatever they hold; they are left as the routine made them. */
uint32_t deck_emit_in(const uint8_t *file, size_t file_length, uint8_t *buf, size_t buf_length,
                      uint64_t labels[DECK_LABELS], uint32_t jumps[DECK_JUMPS], uint32_t told[DECK_TOLD]);

/* What deckwords prints of a file, into out: a line for each word, or the refusal. Answers the text's
   length; 0 where out is too short, which is then as it was. */
size_t deck_text(const uint8_t *file, size_t file_length, uint8_t *out, size_t out_length);

/* What code_listing tells. */
enum {
    CODE_LISTED_PLACE, /* of the refusal: the foreign word's offset; 0 where there is none */
    CODE_LISTED_TEXT,  /* how long the text is; 0 where out is too short, which is then as it was */
    CODE_LISTED
};

/* The listing of code whose constants start at offset, into out, a line for each word. Before the constants:
   its byte offset, its instruction's name, and the operands, parted by commas; numbers are decimal, registers
   bare. rd comes first, then rs1, rs2, rs3, then an immediate with its sign, or the rounding field; of a
   store what is stored, the base, the offset; a branch's or jump's offset is in bytes from the word itself.
   From the constants on: the byte offset, `data` and 8 hexadecimal digits.
   Or one line, `refused,number,place`, and no line of code, with the first of these that holds: DECK_VALUE,
   place 0 (offset past the end or at no multiple of 4); DECK_FOREIGN (the first word before the constants that
   no instruction here has, or else a last word cut short, in the constants too).
   Any words may stand behind offset. Answers the number. */
uint32_t code_listing(const uint8_t *code, size_t code_length, size_t offset, uint8_t *out, size_t out_length,
                      uint64_t told[CODE_LISTED]);

/* What deck_listing and deck_view tell. */
enum {
    DECK_LISTED_LINE,   /* of the refusal; 0 where there is none */
    DECK_LISTED_LENGTH, /* of the code, as DECK_TOLD_LENGTH, in bytes; 0 where the file is refused */
    DECK_LISTED_TEXT,   /* how long the text is; 0 where out is too short, which is then as it was */
    DECK_LISTED
};

/* What decklist prints of a file, into out: the listing of its routine's code, as its maintainer sees it, or
   the refusal, as deck_text has it. An accepted file's words are never foreign. Answers the number. */
uint32_t deck_listing(const uint8_t *file, size_t file_length, uint8_t *out, size_t out_length,
                      uint64_t told[DECK_LISTED]);

/* Who looks at a file's listing. */
enum {
    DECK_MAINTAINER = 0, /* sees what deck_listing gives */
    DECK_ATTENDANT = 1   /* sees hyphens for the eight digits of each of a `bits` constant's two words, and all else
                            the same, in a text as long; so does any other number of 32 bits but 0 */
};

/* As deck_listing, in the view asked for. What an attendant's call answers, tells and writes into out is the
   same for all digits of the file's well-formed `bits` lines (crates/handheld/specs/Attendant.antt). The digits
   stand elsewhere: in the file, in what deck_emit and deck_text make of it, and, until it is used again, in the
   stack below this call. Whoever may not see them may not read these. */
uint32_t deck_view(const uint8_t *file, size_t file_length, uint32_t view, uint8_t *out, size_t out_length,
                   uint64_t told[DECK_LISTED]);

/* A refusal's number in words, into out: one plain sentence of ASCII, as docs/DECK.md's table has it,
   with no zero byte behind it. Answers the sentence's length; 0 where out is too short or there is no
   such number, and out is then as it was. */
size_t refusal_text(uint32_t number, uint8_t *out, size_t out_length);

/* The record of single orders. All zeros before the first order, as is the label memory; the jump
   memory may hold anything.

   An entry of label memory: its low half is 0 while the label has no place, else the place + 1; its high
   half is the number of jumps made to the label, at most 4,096. An order that jumps looks at its own label's
   number: above 4,096 it is DECK_VALUE, and one that the order's jumps would bring above is DECK_FULL. What
   order_finish and label_unused refuse of all entries is said with each.

   A record is DECK_VALUE too where its length exceeds the buffer or DECK_ROOM, or is no multiple of 4, or
   where there are more than 4,096 jumps. */
enum {
    ORDER_LENGTH, /* bytes written */
    ORDER_JUMPS,
    ORDER_CLOSED, /* 0 until an accepted finish, then 1; any other number counts as 1 */
    ORDER_RECORD
};

/* One order by its line in a deck file, byte 10 included; any other line is DECK_LINE, a constant's
   too. Its words go behind those written, its jumps behind the others, with the tag. A refusal changes
   nothing. Answers the number. No head is known here, and no count: the index of a cell goes up to
   268,435,455, so that its offset, 8 times the index, is at most 0x7FFFFFFF, and a larger one is
   DECK_VALUE. DECK_COUNT comes for k of load_const alone, above 1,007; DECK_BASE and DECK_UNSAVED
   never come. Of two refusals the first of these is answered: DECK_LINE, DECK_CLOSED, DECK_REGISTER,
   DECK_LABEL, DECK_VALUE, DECK_COUNT, DECK_TWICE, DECK_FULL. What the words do is proved where the cell or
   constant that they access is at a multiple of 8. */
uint32_t order_emit(const uint8_t *line, size_t line_length, uint32_t tag, uint8_t *buf, size_t buf_length,
                    uint64_t labels[DECK_LABELS], uint32_t jumps[DECK_JUMPS], uint64_t record[ORDER_RECORD]);

/* The constant that a line `float` or `bits` of a deck file says, byte 10 included, as constant k, the
   one that load_const of k loads. Its 8 bytes go behind those written, and are no code: constants
   belong behind the last order. Nothing is put before them: they are to be added at a length that is a
   multiple of 8, else nothing is promised of a load_const of them. At any other length the caller appends a nop
   first: the word 0x00000013 into the buffer behind the bytes written, and 4 more in ORDER_LENGTH (to_eights in
   examples/c/main.c). Refused with the first of these that holds, which changes nothing:
   DECK_LINE (any other line), DECK_CLOSED, DECK_VALUE (a float beyond 2^53, or the record), DECK_COUNT
   (k above 1,007), DECK_TWICE (constant k is there already), DECK_FULL. Answers the number. */
uint32_t order_constant(const uint8_t *line, size_t line_length, uint32_t k, uint8_t *buf, size_t buf_length,
                        uint64_t labels[DECK_LABELS], uint32_t jumps[DECK_JUMPS], uint64_t record[ORDER_RECORD]);

/* Every jump's word, and the record closed. Refused with the first of these that holds, which changes
   nothing: DECK_CLOSED; DECK_VALUE (the record; a label entry whose number is above 4,096, or whose place is
   beyond the length or at no multiple of 4; a jump whose word is not in the code or at no multiple of 4,
   whose register is above 31, whose label is above 2,038 or whose kind is none); DECK_UNSET for the first
   jump whose label has no place; DECK_FAR. told: for DECK_UNSET and DECK_FAR the byte offset of the
   jump's word and its tag, else 0 and 0. Answers the number. */
uint32_t order_finish(uint8_t *buf, size_t buf_length, const uint64_t labels[DECK_LABELS],
                      const uint32_t jumps[DECK_JUMPS], uint64_t record[ORDER_RECORD], uint32_t told[2]);

/* The labels that have a place and that no jump was made to, in rising order, into out from its first entry on;
   the entries behind them stay. All labels count: a deck's own up to 1,023, 1,024 + k of constant k, and those of
   the frames from 2,032 on. told: how many. Of use behind an accepted order_finish, or with the record {length,
   jumps, 1} of what an accepted deck_emit_in told. Where a place lies isn't looked at. DECK_VALUE where the record
   is not closed, its length exceeds DECK_ROOM or is no multiple of 4, it has more than 4,096 jumps, or a label's
   number is above 4,096: out and told are then as they were. Answers the number. */
uint32_t label_unused(const uint64_t labels[DECK_LABELS], const uint64_t record[ORDER_RECORD],
                      uint32_t out[DECK_LABELS], uint32_t told[1]);

#ifdef __cplusplus
}
#endif

#endif
