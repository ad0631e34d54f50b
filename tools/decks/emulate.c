/* Runs whole calls on a RISC-V machine and prints what each one did.

   The regions' first bytes come from the file named on the command line, one region behind the other. Input, one call after the other, all
   numbers hexadecimal:
     pc frm x1 .. x31 f0 .. f31 count, and count times: address bytes (as digits)
   Output, a line for each: pc frm x1 .. x31 f0 .. f31 count, and count times: address value, for every eight bytes of a region that
   the call changed.

   The code runs from pc; an EBREAK, which stands at ra, ends a call. */
#include "../qemu/run.h"

#define TOTAL 0x120000

/* tools/emulate names the same regions */
static struct region {
  uint64_t at, size;
} regions[] = {{0x40000000, 0x40000}, {0x50000000, 0x40000}, {0x60000000, 0xa0000}};
#define REGIONS (sizeof regions / sizeof regions[0])

static uint8_t first[TOTAL], before[TOTAL];

static void put(void) {
  static char digits[1 << 18];
  uint8_t *at = (uint8_t *)number();
  if (scanf("%262143s", digits) != 1) fail("bad input");
  for (size_t i = 0; digits[2 * i]; i++) {
    char pair[3] = {digits[2 * i], digits[2 * i + 1], 0};
    at[i] = strtoul(pair, 0, 16);
  }
}

/* all regions to or from one row of bytes */
static void copy(uint8_t *row, int back) {
  for (unsigned k = 0; k < REGIONS; row += regions[k++].size)
    if (back) memcpy((void *)regions[k].at, row, regions[k].size);
    else memcpy(row, (void *)regions[k].at, regions[k].size);
}

static void changes(void) {
  static uint64_t at[TOTAL / 8];
  size_t n = 0;
  uint8_t *old = before;
  for (unsigned k = 0; k < REGIONS; old += regions[k++].size)
    for (uint64_t i = 0; i < regions[k].size; i += 8)
      if (memcmp((void *)(regions[k].at + i), old + i, 8)) at[n++] = regions[k].at + i;
  printf(" %zx", n);
  for (size_t i = 0; i < n; i++) printf(" %" PRIx64 " %" PRIx64, at[i], *(uint64_t *)at[i]);
}

static void run(void) {
  machine.frm = number();
  read_registers();
  copy(first, 1);
  for (uint64_t n = number(); n > 0; n--) put();
  copy(before, 0);
  __builtin___clear_cache((void *)regions[0].at, (void *)(regions[0].at + regions[0].size));
  alarm(20);
  go();
  alarm(0);
  printf("%" PRIx64 " %" PRIx64, machine.pc, machine.frm);
  print_registers();
  changes();
  printf("\n");
}

int main(int argc, char **argv) {
  set_up();
  FILE *bytes = fopen(argc > 1 ? argv[1] : "", "rb");
  if (!bytes || fread(first, 1, TOTAL, bytes) != TOTAL) fail("no bytes");
  for (unsigned k = 0; k < REGIONS; k++) map_region(regions[k].at, regions[k].size);
  while (scanf("%" SCNx64, &machine.pc) == 1) run();
  return 0;
}
