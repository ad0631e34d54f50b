/* One run of code on a RISC-V machine, for tools/machine_table/harness.c and tools/decks/emulate.c.

   A trap handler gives the machine the registers, the rounding mode and the pc; the code runs; an EBREAK traps again, and the handler reads
   all registers back. The program stops with a message if anything else ends a run. The flags of fcsr are ignored: only frm is set and read. */
#define _GNU_SOURCE
#include <inttypes.h>
#include <signal.h>
#include <stdint.h>
#include <stdio.h>
#include <stdlib.h>
#include <string.h>
#include <sys/mman.h>
#include <ucontext.h>
#include <unistd.h>

#define EBREAK 0x00100073u

struct state {
  uint64_t pc, frm, x[32], f[32];
};

static struct state machine;
static ucontext_t home;
static volatile int phase;

/* gp and tp of the C program: a run has its own */
uint64_t home_gp, home_tp;

static void load(ucontext_t *c, const struct state *s) {
  c->uc_mcontext.__gregs[0] = s->pc;
  for (int r = 1; r < 32; r++) c->uc_mcontext.__gregs[r] = s->x[r];
  for (int r = 0; r < 32; r++) c->uc_mcontext.__fpregs.__d.__f[r] = s->f[r];
  c->uc_mcontext.__fpregs.__d.__fcsr = s->frm << 5;
}

static void save(struct state *s, const ucontext_t *c) {
  s->pc = c->uc_mcontext.__gregs[0];
  for (int r = 1; r < 32; r++) s->x[r] = c->uc_mcontext.__gregs[r];
  for (int r = 0; r < 32; r++) s->f[r] = c->uc_mcontext.__fpregs.__d.__f[r];
  s->frm = c->uc_mcontext.__fpregs.__d.__fcsr >> 5;
}

static void fail(const char *why) {
  fprintf(stderr, "harness: %s, pc %" PRIx64 "\n", why, machine.pc);
  fflush(stderr);
  _Exit(1);
}

/* phase 0: the EBREAK in go; phase 1: the trap that ends the run */
void on_trap(int sig, siginfo_t *info, void *context) {
  ucontext_t *c = context;
  if (phase == 0 && sig == SIGTRAP) {
    home = *c;
    load(c, &machine);
    phase = 1;
    return;
  }
  save(&machine, c);
  if (phase != 1 || sig != SIGTRAP) fail(strsignal(sig));
  if (*(uint32_t *)machine.pc != EBREAK) fail("no landing");
  c->uc_mcontext = home.uc_mcontext;
  c->uc_mcontext.__gregs[0] += 4;
  phase = 2;
}

__asm__(
    ".option push\n.option norelax\n.globl entry\nentry:\n"
    "  la t0, home_gp\n  ld gp, 0(t0)\n"
    "  la t0, home_tp\n  ld tp, 0(t0)\n"
    "  tail on_trap\n.option pop\n");
void entry(int, siginfo_t *, void *);

static uint64_t number(void) {
  uint64_t n;
  if (scanf("%" SCNx64, &n) != 1) fail("bad input");
  return n;
}

static void read_registers(void) {
  for (int r = 1; r < 32; r++) machine.x[r] = number();
  for (int r = 0; r < 32; r++) machine.f[r] = number();
}

static void print_registers(void) {
  for (int r = 1; r < 32; r++) printf(" %" PRIx64, machine.x[r]);
  for (int r = 0; r < 32; r++) printf(" %" PRIx64, machine.f[r]);
}

static void go(void) {
  phase = 0;
  __asm__ volatile(".option push\n\t.option norvc\n\tebreak\n\t.option pop" ::: "memory");
  if (phase != 2) fail("no end");
}

static void set_up(void) {
  static char stack[1 << 16];
  __asm__ volatile("sd gp, %0\n\tsd tp, %1" : "=m"(home_gp), "=m"(home_tp));
  stack_t alternate = {.ss_sp = stack, .ss_size = sizeof stack};
  if (sigaltstack(&alternate, 0)) fail("sigaltstack");
  struct sigaction action = {.sa_flags = SA_SIGINFO | SA_ONSTACK};
  action.sa_sigaction = entry;
  int signals[] = {SIGTRAP, SIGSEGV, SIGILL, SIGBUS, SIGALRM};
  for (int k = 0; k < 5; k++) sigaction(signals[k], &action, 0);
}

static void map_region(uint64_t at, uint64_t size) {
  if (mmap((void *)at, size, PROT_READ | PROT_WRITE | PROT_EXEC, MAP_PRIVATE | MAP_ANONYMOUS | MAP_FIXED, -1, 0) != (void *)at) fail("mmap");
}
