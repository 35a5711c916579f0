/* Runs a program so that one of its threads goes on at a time, up to a place that is named, and looks
   whether a thread that waits for the desk comes to the turn. trials/stepped drives it:

       step PLACES OUTPUT CASE PROGRAM WORDS..

   PLACES has a line for each instruction that takes the turn, as trials/atomics.py lists them; OUTPUT is the
   program's standard output. CASE has, with commas between:

       way      who goes on in turn: `0:16+2:15` is the first thread until it has taken the turn 16 times and
                is to take it again, then the third one; the last of them is the giver
       held     1: the giver takes the turn once more, and is stopped when it has it
       waiter   the thread that goes on alone now
       from     an instruction, and how often the waiter comes to it; 0,0: where it stands
       steps    after so many instructions from there on the waiter is stopped; ASLEEP: it sleeps in the
                kernel; RECORD: each instruction up to its wait is told, then how the giver goes on, and that
                is all
       gives    the giver goes on for so many instructions, then the waiter, until it sleeps or has the turn;
                ALL: neither does
       as       AS_BUILT, or how a mutant would do: LOOKS_AGAIN, a wait expects the word as it is when it
                begins; WAKES_NOBODY
       bound    seconds for the whole run

   Then the giver goes on until it is to take the turn once more, and after it the waiter alone, which must
   come to take the turn. At last all go on freely. Where the waiter has the turn when it is stopped, that is
   told, and all.

   A thread stands at its door where it is about to sleep in a call of futex: it is let in only where it is to
   sleep for good, and else goes by once the word is another. */
#define _GNU_SOURCE
#include <errno.h>
#include <fcntl.h>
#include <inttypes.h>
#include <linux/futex.h>
#include <signal.h>
#include <stdint.h>
#include <stdio.h>
#include <stdlib.h>
#include <string.h>
#include <sys/personality.h>
#include <sys/ptrace.h>
#include <sys/syscall.h>
#include <sys/user.h>
#include <sys/wait.h>
#include <unistd.h>

enum { MOST_PLACES = 64, MOST_THREADS = 64, MOST_STEPS = 50000, STEPS_AFTER_GIVING = 60 };
enum { ALL = -1, ASLEEP = -1, RECORD = -2 };
enum { AS_BUILT, LOOKS_AGAIN, WAKES_NOBODY };
enum { NOT_TRACED = 126 };
enum { TRAP = 0xcc, ZERO_FLAG = 0x40, SYSCALL = 0x050f };
enum { PLAIN_STOP = SIGTRAP, CALL_STOP = SIGTRAP | 0x80 };

/* An instruction that takes the turn where the word is as expected, and its first byte. */
struct place { uint64_t at; int length, tells, base, index, scale; int64_t more; unsigned char first; };

/* Where a thread stands. */
enum where { SOMEWHERE, AT_ANCHOR, AT_DESK, HAS_TURN, AT_DOOR, IN_CALL, SLEEPS, GONE };
struct thread { pid_t id; enum where where; int in_call; uint64_t word; uint32_t expected; };

static struct { char way[256]; int held, waiter, hits, steps, gives, as, bound; uint64_t anchor; } wanted;
static struct place places[MOST_PLACES];
static struct thread threads[MOST_THREADS];
static struct place *anchor; /* the last of the places, while there is one */
static int place_count, thread_count;
static uint64_t loaded, turn;
static const int registers[] = {10, 11, 12, 5, 19, 4, 13, 14, 9, 8, 7, 6, 3, 2, 1, 0}; /* of user_regs_struct */

static void fail(const char *what) {
  printf("failed %s, %s\n", what, strerror(errno));
  fflush(stdout);
  _exit(2);
}

static void too_long(int number) {
  (void)number;
  static const char text[] = "failed no end within the bound of time\n";
  if (write(1, text, sizeof text - 1)) _exit(3);
  _exit(3);
}

static void ask(int request, struct thread *thread, void *at, void *with) {
  if (ptrace(request, thread->id, at, with) == -1) fail("ptrace");
}

static long peek(struct thread *thread, uint64_t at) {
  errno = 0;
  long bytes = ptrace(PTRACE_PEEKDATA, thread->id, (void *)at, NULL);
  if (errno) fail("peek");
  return bytes;
}

static struct user_regs_struct values_of(struct thread *thread) {
  struct user_regs_struct values;
  ask(PTRACE_GETREGS, thread, NULL, &values);
  return values;
}

/* Traps stand at all places, or at none. */
static void put_traps(struct thread *thread, int stand) {
  for (int number = 0; number < place_count; number++) {
    struct place *place = places + number;
    long bytes = (peek(thread, place->at) & ~0xffL) | (stand ? TRAP : place->first);
    ask(PTRACE_POKEDATA, thread, (void *)place->at, (void *)bytes);
  }
}

static struct place *place_at(uint64_t at) {
  for (int number = 0; number < place_count; number++)
    if (places[number].at == at) return places + number;
  return NULL;
}

static void add_thread(pid_t id) {
  if (thread_count == MOST_THREADS) fail("too many threads");
  threads[thread_count++] = (struct thread){.id = id};
}

/* A futex call that sleeps where the word is as expected. */
static int is_wait(uint64_t call, uint64_t how) {
  int command = how & FUTEX_CMD_MASK;
  return call == SYS_futex && (command == FUTEX_WAIT || command == FUTEX_WAIT_BITSET);
}

static int is_as_expected(struct thread *thread) {
  return (uint32_t)peek(thread, thread->word) == thread->expected;
}

/* At the beginning of a call. What a mutant would do is done here. */
static void begin_call(struct thread *thread, struct user_regs_struct *values) {
  thread->in_call = 1;
  thread->where = IN_CALL;
  if (is_wait(values->orig_rax, values->rsi)) {
    thread->word = values->rdi;
    thread->expected = values->rdx;
    thread->where = AT_DOOR;
  } else if (wanted.as == WAKES_NOBODY && values->orig_rax == SYS_futex &&
             (values->rsi & FUTEX_CMD_MASK) == FUTEX_WAKE) {
    values->orig_rax = SYS_getpid;
    ask(PTRACE_SETREGS, thread, NULL, values);
  }
}

/* Takes up a stop of a thread. One that went a single step did not run into a trap. */
static void note_stop(struct thread *thread, int status, int single) {
  thread->where = SOMEWHERE;
  if (!WIFSTOPPED(status)) {
    thread->where = GONE;
    return;
  }
  struct user_regs_struct values = values_of(thread);
  if (WSTOPSIG(status) == CALL_STOP && thread->in_call) {
    thread->in_call = 0;
    if (anchor && values.rip == anchor->at) thread->where = AT_ANCHOR;
  } else if (WSTOPSIG(status) == CALL_STOP) {
    begin_call(thread, &values);
  } else if (status >> 8 == (SIGTRAP | PTRACE_EVENT_CLONE << 8)) {
    unsigned long id;
    ask(PTRACE_GETEVENTMSG, thread, NULL, &id);
    add_thread(id);
    if (waitpid(id, &status, __WALL) != (pid_t)id) fail("a new thread");
  } else if (WSTOPSIG(status) == PLAIN_STOP && !single && place_at(values.rip - 1)) {
    values.rip--;
    ask(PTRACE_SETREGS, thread, NULL, &values);
    thread->where = place_at(values.rip) == anchor ? AT_ANCHOR : AT_DESK;
  } else if (WSTOPSIG(status) != PLAIN_STOP) {
    fail("a signal");
  }
}

static void go(struct thread *thread, int request) {
  int status;
  ask(request, thread, NULL, NULL);
  if (waitpid(thread->id, &status, __WALL) != thread->id) fail("waitpid");
  note_stop(thread, status, request == PTRACE_SINGLESTEP);
}

/* The instruction at a place, where the turn is taken but at the anchor. */
static void go_over(struct thread *thread, struct place *place) {
  struct user_regs_struct values = values_of(thread);
  unsigned long long *all = (unsigned long long *)&values;
  put_traps(thread, 0);
  go(thread, PTRACE_SINGLESTEP);
  put_traps(thread, 1);
  if (place == anchor) return;
  turn = place->more + (place->base < 0 ? 0 : all[registers[place->base]]) +
         (place->index < 0 ? 0 : all[registers[place->index]] * place->scale);
  if (values_of(thread).eflags & ZERO_FLAG) thread->where = HAS_TURN;
}

/* Goes on to the next call, or the next place. */
static void run_on(struct thread *thread) {
  struct place *place = place_at(values_of(thread).rip);
  if (place && !thread->in_call)
    go_over(thread, place);
  else
    go(thread, PTRACE_SYSCALL);
}

/* One instruction. In front of a wait that would sleep the thread stays. */
static void step(struct thread *thread) {
  struct user_regs_struct values = values_of(thread);
  struct place *place = thread->in_call ? NULL : place_at(values.rip);
  if (place) {
    go_over(thread, place);
    return;
  }
  if (!thread->in_call && (peek(thread, values.rip) & 0xffff) == SYSCALL && is_wait(values.rax, values.rsi)) {
    thread->word = values.rdi;
    thread->expected = values.rdx;
    if (is_as_expected(thread)) {
      thread->where = AT_DOOR;
      return;
    }
  }
  thread->in_call = 0;
  go(thread, PTRACE_SINGLESTEP);
}

static int can_go(struct thread *thread) {
  return thread->where != GONE && !(thread->where == AT_DOOR && is_as_expected(thread));
}

/* Until the thread has taken the turn so many times and is to take it again, or would sleep. */
static void take_turns(struct thread *thread, int count) {
  for (;;) {
    if (thread->where == HAS_TURN) count--;
    if (!can_go(thread) || (thread->where == AT_DESK && count == 0)) return;
    run_on(thread);
  }
}

/* Along the way, to the giver. */
static struct thread *find_giver(void) {
  struct thread *giver = NULL;
  int number, count, length;
  for (char *at = wanted.way; sscanf(at, "%d:%d%n", &number, &count, &length) == 2; at += length + (at[length] == '+')) {
    if (number >= thread_count) return NULL;
    giver = threads + number;
    take_turns(giver, count);
  }
  if (giver && giver->where != AT_DESK) return NULL;
  if (giver && wanted.held) run_on(giver);
  return giver;
}

/* Until the thread has come to the anchor so many times. */
static void run_to_anchor(struct thread *thread) {
  if (wanted.hits == 0) return;
  anchor = places + place_count;
  *anchor = (struct place){.at = loaded + wanted.anchor, .first = peek(thread, loaded + wanted.anchor)};
  place_count++;
  put_traps(thread, 1);
  for (int count = 0; count < wanted.hits; count++) do {
    if (!can_go(thread)) fail("another way than was recorded");
    run_on(thread);
  } while (thread->where != AT_ANCHOR);
  put_traps(thread, 0);
  place_count--;
  anchor = NULL;
  put_traps(thread, 1);
}

/* Instruction by instruction to the wait that would sleep, or so many. */
static void go_to_wait(struct thread *thread) {
  for (int count = 0; count < MOST_STEPS && count != wanted.steps; count++) {
    if (wanted.steps == RECORD) printf("%" PRIx64 "\n", (uint64_t)values_of(thread).rip - loaded);
    step(thread);
    if (thread->where == AT_DOOR || thread->where == GONE) return;
  }
}

/* Whether a thread that goes on in the kernel sleeps there. */
static int is_asleep(struct thread *thread) {
  char path[64], text[512];
  snprintf(path, sizeof path, "/proc/%d/task/%d/stat", threads->id, thread->id);
  int file = open(path, O_RDONLY);
  if (file < 0) return 0;
  ssize_t length = read(file, text, sizeof text - 1);
  close(file);
  text[length < 0 ? 0 : length] = 0;
  char *name_end = strrchr(text, ')');
  return name_end && name_end[2] == 'S';
}

/* Waits until a thread stops, or sleeps in the kernel. */
static void wait_for_stop(struct thread *thread) {
  for (int looks = 0; looks < 3;) {
    int status;
    pid_t id = waitpid(thread->id, &status, __WALL | WNOHANG);
    if (id == thread->id) {
      note_stop(thread, status, 0);
      return;
    }
    if (id < 0) fail("waitpid");
    looks = is_asleep(thread) ? looks + 1 : 0;
    usleep(500);
  }
  thread->where = SLEEPS;
}

/* Through its door into the kernel. A mutant has looked at the word once more. */
static void enter(struct thread *thread) {
  if (!thread->in_call) go(thread, PTRACE_SYSCALL);
  if (wanted.as == LOOKS_AGAIN) {
    struct user_regs_struct values = values_of(thread);
    values.rdx = (uint32_t)peek(thread, values.rdi);
    ask(PTRACE_SETREGS, thread, NULL, &values);
  }
  ask(PTRACE_SYSCALL, thread, NULL, NULL);
  wait_for_stop(thread);
}

/* Until the thread has the turn, sleeps, has slept until its time was over, or has ended. */
static const char *come(struct thread *thread) {
  if (thread->where == SLEEPS) wait_for_stop(thread);
  for (;;) {
    if (thread->where == HAS_TURN) return "came";
    if (thread->where == SLEEPS) return "sleeps";
    if (thread->where == GONE) return "ended";
    if (thread->where == AT_DOOR) {
      enter(thread);
      if (thread->where == SOMEWHERE && (int64_t)values_of(thread).rax == -ETIMEDOUT) return "slept until its time was over";
    } else {
      run_on(thread);
    }
  }
}

/* A giver that saw the turn before others had it sees it as it is, and is to take it. */
static void see_turn(struct thread *giver) {
  if (giver->where != AT_DESK || (uint64_t)values_of(giver).rax == (uint64_t)peek(giver, turn)) return;
  do run_on(giver);
  while (giver->where != AT_DESK && can_go(giver));
}

/* The giver goes on until it is to take the turn once more, or to sleep, or has ended. */
static void give(struct thread *thread) {
  if (thread->where == AT_DESK) run_on(thread);
  do run_on(thread);
  while (thread->where != AT_DESK && can_go(thread));
}

/* Tells after how many instructions the giver has given the turn up, and how many there are. */
static void record_giving(struct thread *thread) {
  int given = -1, count = 0;
  while (count < MOST_STEPS && thread->where != AT_DOOR && thread->where != GONE) {
    step(thread);
    count++;
    if (given < 0 && !(peek(thread, turn) & 1)) given = count;
    if (given >= 0 && (count == given + STEPS_AFTER_GIVING || place_at(values_of(thread).rip))) break;
  }
  printf("given %d %d\n", given, count);
}

static void record(struct thread *giver, struct thread *waiter) {
  if (waiter->where != AT_DOOR) return;
  printf("waits %s\n", waiter->word == turn ? "turn" : "other");
  see_turn(giver);
  record_giving(giver);
}

/* The giver for some instructions, and the waiter until it sleeps or has the turn. */
static void give_some(struct thread *giver, struct thread *waiter) {
  for (int count = 0; count < wanted.gives && giver->where != AT_DOOR && giver->where != GONE; count++) step(giver);
  come(waiter);
}

static void leave(struct thread *thread) {
  if (thread->where != GONE) ask(PTRACE_DETACH, thread, NULL, NULL);
}

/* All threads go on, and the program ends. */
static void go_free(void) {
  int status;
  for (int number = 0; number < thread_count; number++)
    if (threads[number].where != GONE && threads[number].where != SLEEPS) {
      put_traps(threads + number, 0);
      break;
    }
  for (int number = 0; number < thread_count; number++) leave(threads + number);
  if (waitpid(threads->id, &status, 0) != threads->id) fail("the end");
  printf("ended %d\n", WIFEXITED(status) ? WEXITSTATUS(status) : -WTERMSIG(status));
}

static void run_case(void) {
  struct thread *giver = find_giver();
  if (!giver || wanted.waiter >= thread_count || giver == threads + wanted.waiter) return;
  struct thread *waiter = threads + wanted.waiter;
  if (!can_go(waiter)) return;
  run_to_anchor(waiter);
  go_to_wait(waiter);
  if (wanted.steps == RECORD) {
    record(giver, waiter);
    return;
  }
  if (wanted.steps == ASLEEP) enter(waiter);
  printf("stopped %" PRIx64 "\n", waiter->where == SLEEPS ? 0 : (uint64_t)values_of(waiter).rip - loaded);
  if (!wanted.held && peek(giver, turn) & 1) {
    printf("has the turn\n");
    return;
  }
  see_turn(giver);
  if (wanted.gives != ALL) give_some(giver, waiter);
  if (waiter->where != HAS_TURN) {
    give(giver);
    const char *how = come(waiter);
    printf("%s\n", how);
    if (waiter->where == SLEEPS) return;
  } else {
    printf("came\n");
  }
  go_free();
}

static void read_places(const char *path) {
  FILE *file = fopen(path, "r");
  if (!file) fail(path);
  struct place place;
  while (place_count < MOST_PLACES - 1 && fscanf(file, "%" SCNx64 " %d %d %d %d %d %" SCNd64, &place.at, &place.length,
                &place.tells, &place.base, &place.index, &place.scale, &place.more) == 7)
    places[place_count++] = place;
  fclose(file);
}

/* Where the first byte of the program's file lies. */
static uint64_t loaded_at(pid_t id) {
  char path[64];
  uint64_t at;
  snprintf(path, sizeof path, "/proc/%d/maps", id);
  FILE *file = fopen(path, "r");
  if (!file || fscanf(file, "%" SCNx64, &at) != 1) fail(path);
  fclose(file);
  return at;
}

static void start(const char *output, char **words) {
  pid_t id = fork();
  if (id == 0) {
    int file = open(output, O_WRONLY | O_CREAT | O_TRUNC, 0600);
    if (file < 0 || dup2(file, 1) < 0) _exit(1);
    if (personality(ADDR_NO_RANDOMIZE) == -1 || ptrace(PTRACE_TRACEME, 0, NULL, NULL) == -1) _exit(NOT_TRACED);
    execv(*words, words);
    _exit(1);
  }
  int status;
  if (waitpid(id, &status, 0) != id) fail("waitpid");
  if (WIFEXITED(status)) _exit(WEXITSTATUS(status));
  add_thread(id);
  ask(PTRACE_SETOPTIONS, threads, NULL, (void *)(PTRACE_O_EXITKILL | PTRACE_O_TRACECLONE | PTRACE_O_TRACESYSGOOD));
  loaded = loaded_at(id);
  for (int number = 0; number < place_count; number++) {
    places[number].at += loaded;
    places[number].first = peek(threads, places[number].at);
  }
  put_traps(threads, 1);
}

int main(int count, char **words) {
  if (count < 5 || sscanf(words[3], "%255[0-9:+],%d,%d,%" SCNx64 ",%d,%d,%d,%d,%d", wanted.way, &wanted.held,
                          &wanted.waiter, &wanted.anchor, &wanted.hits, &wanted.steps, &wanted.gives, &wanted.as,
                          &wanted.bound) != 9)
    return 2;
  signal(SIGALRM, too_long);
  alarm(wanted.bound);
  read_places(words[1]);
  start(words[2], words + 4);
  run_case();
  return 0;
}
