/* Runs single instructions on a RISC-V machine and prints what each one did.

   Input, one test to a line, all numbers hexadecimal:
     word pc frm cell value x1 .. x31 f0 .. f31
   Output, a line for each: the same without the word, afterwards,
     pc frm cell value x1 .. x31 f0 .. f31

   Memory is three regions: code and low (the lowest addresses), filled with EBREAK, and data, filled with 0. The word is put at
   pc and the eight bytes of value at cell. The word runs; the EBREAK behind it, or at the place it jumps to, ends the test. The program
   stops with a message if a byte of the three regions changed outside the cell. */
#include "../qemu/run.h"

static struct region {
  uint64_t at, size;
  uint32_t fill;
} regions[] = {{0x40000000, 0x800000, EBREAK}, {0x50000000, 0x4000, 0}, {0, 0x1000, EBREAK}};
#define REGIONS (sizeof regions / sizeof regions[0])

static void fill(void) {
  for (unsigned k = 0; k < REGIONS; k++)
    for (uint64_t i = 0; i < regions[k].size; i += 4) *(uint32_t *)(regions[k].at + i) = regions[k].fill;
}

static void look(void) {
  for (unsigned k = 0; k < REGIONS; k++)
    for (uint64_t i = 0; i < regions[k].size; i += 4)
      if (*(uint32_t *)(regions[k].at + i) != regions[k].fill) fail("memory changed");
}

static void run(uint64_t word) {
  machine.pc = number();
  machine.frm = number();
  uint64_t at = machine.pc, cell = number(), value = number(), before;
  read_registers();
  *(uint32_t *)at = word;
  memcpy(&before, (void *)cell, 8);
  memcpy((void *)cell, &value, 8);
  __builtin___clear_cache((void *)at, (void *)(at + 4));
  go();
  if (*(uint32_t *)at != (uint32_t)word) fail("word changed");
  *(uint32_t *)at = EBREAK;
  memcpy(&value, (void *)cell, 8);
  memcpy((void *)cell, &before, 8);
  look();
  printf("%" PRIx64 " %" PRIx64 " %" PRIx64 " %" PRIx64, machine.pc, machine.frm, cell, value);
  print_registers();
  printf("\n");
}

int main(void) {
  set_up();
  for (unsigned k = 0; k < REGIONS; k++) map_region(regions[k].at, regions[k].size);
  fill();
  uint64_t word;
  while (scanf("%" SCNx64, &word) == 1) run(word);
  return 0;
}
