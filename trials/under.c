/* A library under the program, loaded by LD_PRELOAD: it refuses memory, makes reads and writes fail or
   come short, counts them, and runs each case in a process that is forked just before main, which
   spares the loading. trials/under.py drives it: orders come in by one pipe, answers go out by
   another, and the program's three streams are files in memory. */
#define _GNU_SOURCE
#include <dlfcn.h>
#include <errno.h>
#include <pthread.h>
#include <stdatomic.h>
#include <stdint.h>
#include <stdlib.h>
#include <string.h>
#include <sys/mman.h>
#include <sys/resource.h>
#include <sys/syscall.h>
#include <sys/wait.h>
#include <unistd.h>

/* From call number `first` on so many calls are struck. A read or write that is struck handles at most
   `answer` bytes; where `answer` is not above 0 it fails with that error. */
struct stroke { int64_t first, calls, answer; };
struct order {
  struct stroke memory, reading, writing;
  int64_t room_of_output, room_of_notes; /* bytes after which the device is full; below 0: never */
  int64_t seconds, words;
  int64_t lets_begin; /* whether who starts a thread lets it make a request for memory before it goes on */
  char text[256]; /* the words, each with a zero behind it */
};
struct answer { int64_t status, requests, reads, writes, struck, microseconds, kilobytes, first_thread; };

/* What the child counts and the parent reads. */
struct counts { atomic_llong requests, reads, writes, struck, first_thread; };

/* A thread that is started, and whether it has made a request. It stays when the thread has ended. */
struct start { void *(*run)(void *); void *with; atomic_int begun; };

static struct order order;
static struct counts *counts;
static int armed;
static __thread struct start *started __attribute__((tls_model("initial-exec"))); /* until the first request */

void *__libc_malloc(size_t);
void *__libc_calloc(size_t, size_t);
void *__libc_realloc(void *, size_t);
void *__libc_memalign(size_t, size_t);

static int hits(struct stroke *stroke, atomic_llong *count) {
  if (!armed) return 0;
  int64_t number = atomic_fetch_add(count, 1) + 1;
  return stroke->first != 0 && number >= stroke->first && number - stroke->first < stroke->calls;
}

static int refused(void) {
  int hit = hits(&order.memory, &counts->requests);
  if (started) atomic_store(&started->begun, 1);
  started = NULL;
  if (!hit) return 0;
  atomic_fetch_add(&counts->struck, 1);
  errno = ENOMEM;
  return 1;
}

void *malloc(size_t size) { return refused() ? NULL : __libc_malloc(size); }
void *calloc(size_t number, size_t size) { return refused() ? NULL : __libc_calloc(number, size); }
void *realloc(void *from, size_t size) { return refused() ? NULL : __libc_realloc(from, size); }
void *aligned_alloc(size_t align, size_t size) { return refused() ? NULL : __libc_memalign(align, size); }

int posix_memalign(void **to, size_t align, size_t size) {
  if (refused()) return ENOMEM;
  *to = __libc_memalign(align, size);
  return *to ? 0 : ENOMEM;
}

static void *run_started(void *with) {
  started = with;
  return started->run(started->with);
}

/* The stack of a thread is a request for memory too. A thread is waited for, but not for long. */
int pthread_create(pthread_t *thread, const pthread_attr_t *how, void *(*run)(void *), void *with) {
  static int (*real)(pthread_t *, const pthread_attr_t *, void *(*)(void *), void *);
  if (!real) *(void **)&real = dlsym(RTLD_NEXT, "pthread_create");
  if (refused()) return EAGAIN;
  long long none = 0;
  if (armed) atomic_compare_exchange_strong(&counts->first_thread, &none, atomic_load(&counts->requests));
  if (!armed || !order.lets_begin) return real(thread, how, run, with);
  struct start *start = __libc_malloc(sizeof *start);
  *start = (struct start){.run = run, .with = with};
  int failed = real(thread, how, run_started, start);
  for (int looks = 0; !failed && looks < 200 && !atomic_load(&start->begun); looks++) usleep(100);
  return failed;
}

/* How many of the bytes the device still takes. */
static size_t room_for(int file, size_t count) {
  int64_t room = file == 1 ? order.room_of_output : file == 2 ? order.room_of_notes : -1;
  if (!armed || room < 0) return count;
  off_t taken = lseek(file, 0, SEEK_CUR);
  return taken >= room ? 0 : count > (size_t)(room - taken) ? (size_t)(room - taken) : count;
}

static ssize_t moved(int call, int file, void *bytes, size_t count, struct stroke *stroke, atomic_llong *calls) {
  if (hits(stroke, calls)) {
    atomic_store(&counts->struck, file + 1);
    if (stroke->answer <= 0) {
      errno = -stroke->answer;
      return stroke->answer == 0 ? 0 : -1;
    }
    if (count > (size_t)stroke->answer) count = stroke->answer;
  }
  return syscall(call, file, bytes, count);
}

ssize_t read(int file, void *bytes, size_t count) {
  return moved(SYS_read, file, bytes, count, &order.reading, &counts->reads);
}
ssize_t write(int file, const void *bytes, size_t count) {
  size_t taken = room_for(file, count);
  if (count > 0 && taken == 0) {
    atomic_store(&counts->struck, file + 1);
    errno = ENOSPC;
    return -1;
  }
  count = taken;
  return moved(SYS_write, file, (void *)bytes, count, &order.writing, &counts->writes);
}
ssize_t __write(int file, const void *bytes, size_t count) { return write(file, bytes, count); }

typedef int program_type(int, char **, char **);
static program_type *program;

/* The program keeps where its words stood when it was loaded, so they are put there. It was started with
   as many as a case may have. */
static int run_case(char **words, char **environment) {
  char *at = order.text;
  int64_t number;
  for (number = 1; number <= order.words && words[number]; number++) {
    words[number] = at;
    at += strlen(at) + 1;
  }
  words[number] = NULL;
  alarm(order.seconds);
  armed = 1;
  return program(number, words, environment);
}

static void start_streams(void) {
  for (int file = 0; file < 3; file++) lseek(file, 0, SEEK_SET);
  if (ftruncate(1, 0) || ftruncate(2, 0)) _exit(120);
  memset(counts, 0, sizeof *counts);
}

static void finish_case(pid_t child, int answers) {
  int status;
  struct rusage used;
  wait4(child, &status, 0, &used);
  struct answer answer = {
    status, counts->requests, counts->reads, counts->writes, counts->struck,
    (used.ru_utime.tv_sec + used.ru_stime.tv_sec) * 1000000 + used.ru_utime.tv_usec + used.ru_stime.tv_usec,
    used.ru_maxrss, counts->first_thread};
  if (syscall(SYS_write, answers, &answer, sizeof answer) != sizeof answer) _exit(121);
}

/* In place of the program's main: a process for each order that comes. */
static int serve(int number, char **words, char **environment) {
  char *pipes = getenv("UNDER");
  if (!pipes) return program(number, words, environment);
  int orders = strtol(pipes, &pipes, 10), answers = strtol(pipes + 1, NULL, 10);
  unsetenv("UNDER");
  unsetenv("LD_PRELOAD");
  counts = mmap(NULL, sizeof *counts, PROT_READ | PROT_WRITE, MAP_SHARED | MAP_ANONYMOUS, -1, 0);
  while (syscall(SYS_read, orders, &order, sizeof order) == sizeof order) {
    start_streams();
    pid_t child = fork();
    if (child == 0) {
      close(orders);
      close(answers);
      return run_case(words, environment);
    }
    finish_case(child, answers);
  }
  return 0;
}

int __libc_start_main(program_type *main, int number, char **words, void (*first)(void), void (*last)(void),
                      void (*end)(void), void *stack) {
  int (*real)(program_type *, int, char **, void (*)(void), void (*)(void), void (*)(void), void *);
  *(void **)&real = dlsym(RTLD_NEXT, "__libc_start_main");
  program = main;
  return real(serve, number, words, first, last, end, stack);
}
