/* A library under the program, loaded by LD_PRELOAD, that tells helgrind and DRD what the program's
   atomic instructions put in order, which neither takes from the instructions themselves. Where each of
   them stood, a trap stands; the instruction itself is carried out in a copy, between two traps.
   trials/checkers lists them in the file of the variable ATOMICS, behind the program's name: place,
   length, what it tells, and how the address of its word is made. */
#define _GNU_SOURCE
#include <link.h>
#include <signal.h>
#include <stdint.h>
#include <stdio.h>
#include <stdlib.h>
#include <string.h>
#include <sys/mman.h>
#include <ucontext.h>
#include <unistd.h>
#ifdef DRD
#include <valgrind/drd.h>
#define DO_NOT_CHECK(word) VALGRIND_DO_CLIENT_REQUEST_STMT(VG_USERREQ__DRD_START_SUPPRESSION, word, 8, 0, 0, 0)
#else
#include <valgrind/helgrind.h>
#define DO_NOT_CHECK(word) VALGRIND_HG_DISABLE_CHECKING(word, 8)
#endif

/* What goes before is seen by whom a word was handed to: a release. What comes after sees what those
   did who released the word before: an acquire. A count acquires where it comes to nothing. */
enum { RELEASES = 1, ACQUIRES = 2, ACQUIRES_AT_ZERO = 4 };
enum { MOST = 4096, COPY = 16, TRAP = 0xcc, ZERO_FLAG = 0x40 };

struct site { uintptr_t place; int length, tells, base, index, scale; long more; };

static struct site sites[MOST]; /* by their places */
static int count;
static unsigned char *copies; /* of each instruction, with a trap behind it */
static __thread char *word;

static const int registers[] = {REG_RAX, REG_RCX, REG_RDX, REG_RBX, REG_RSP, REG_RBP, REG_RSI, REG_RDI,
                                REG_R8, REG_R9, REG_R10, REG_R11, REG_R12, REG_R13, REG_R14, REG_R15};

static int by_place(const void *one, const void *two) {
  uintptr_t left = ((const struct site *)one)->place, right = ((const struct site *)two)->place;
  return left < right ? -1 : left > right;
}

/* The word itself is not checked. */
static void before(const struct site *site, greg_t *values) {
  word = (char *)site->more + (site->base < 0 ? 0 : values[registers[site->base]]) +
         (site->index < 0 ? 0 : values[registers[site->index]] * site->scale);
  DO_NOT_CHECK(word);
  if (site->tells & RELEASES) ANNOTATE_HAPPENS_BEFORE(word);
}

static void after(const struct site *site, greg_t *values) {
  if (site->tells & ACQUIRES || (site->tells & ACQUIRES_AT_ZERO && values[REG_EFL] & ZERO_FLAG))
    ANNOTATE_HAPPENS_AFTER(word);
}

static void trapped(int number, siginfo_t *info, void *context) {
  greg_t *values = ((ucontext_t *)context)->uc_mcontext.gregs;
  unsigned char *at = (unsigned char *)values[REG_RIP] - 1;
  (void)number, (void)info;
  if (at >= copies && at < copies + MOST * COPY) {
    struct site *site = &sites[(at - copies) / COPY];
    after(site, values);
    values[REG_RIP] = site->place + site->length;
    return;
  }
  struct site sought = {.place = (uintptr_t)at};
  struct site *site = bsearch(&sought, sites, count, sizeof *sites, by_place);
  if (!site) abort();
  before(site, values);
  values[REG_RIP] = (greg_t)(copies + (site - sites) * COPY);
}

static int first_object(struct dl_phdr_info *info, size_t size, void *start) {
  (void)size;
  *(uintptr_t *)start = info->dlpi_addr;
  return 1;
}

static void read_sites(FILE *file) {
  uintptr_t start = 0;
  struct site site;
  dl_iterate_phdr(first_object, &start);
  while (fscanf(file, "%lx %d %d %d %d %d %ld", &site.place, &site.length, &site.tells, &site.base, &site.index,
                &site.scale, &site.more) == 7) {
    if (count == MOST || site.length >= COPY) abort();
    site.place += start;
    sites[count++] = site;
  }
  qsort(sites, count, sizeof *sites, by_place);
}

static void set_traps(void) {
  copies = mmap(NULL, MOST * COPY, PROT_READ | PROT_WRITE | PROT_EXEC, MAP_PRIVATE | MAP_ANONYMOUS, -1, 0);
  uintptr_t page = ~(uintptr_t)4095, first = sites[0].place & page, last = (sites[count - 1].place & page) + 4096;
  if (copies == MAP_FAILED || mprotect((void *)first, last - first, PROT_READ | PROT_WRITE | PROT_EXEC)) abort();
  for (int number = 0; number < count; number++) {
    unsigned char *copy = copies + number * COPY, *place = (unsigned char *)sites[number].place;
    memcpy(copy, place, sites[number].length);
    copy[sites[number].length] = TRAP;
    *place = TRAP;
  }
}

/* Whether the file is of the program that runs here, and not of one that starts it. */
static int is_of_this(FILE *file) {
  char named[4096], here[4096];
  ssize_t length = readlink("/proc/self/exe", here, sizeof here - 1);
  here[length < 0 ? 0 : length] = 0;
  return fscanf(file, "%4095[^\n]", named) == 1 && strcmp(named, here) == 0;
}

__attribute__((constructor)) static void tell_order(void) {
  const char *name = getenv("ATOMICS");
  FILE *file = name ? fopen(name, "r") : NULL;
  if (!file) return;
  if (is_of_this(file)) read_sites(file);
  fclose(file);
  if (count == 0) return;
  unsetenv("ATOMICS");
  set_traps();
  struct sigaction action = {.sa_sigaction = trapped, .sa_flags = SA_SIGINFO | SA_NODEFER};
  if (sigaction(SIGTRAP, &action, NULL)) abort();
}
