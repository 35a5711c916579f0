/* A library under the program, loaded by LD_PRELOAD: it ends the process by SIGKILL before its call number
   STOP_AT that changes files (from 1), or by the signal of the number STOP_SIGNAL, after which it may go on.
   It writes how many of these calls there were into the file STOP_COUNT where that is named. Half of a write
   that it stops at is written first.

   Where STOP_LOSES is set to a number, the process ends as where power fails, also where it ends by itself:
   a file that was written and not synced keeps a front of its bytes, and a move that no sync of its folder
   follows has happened or not. The number draws which. Where STOP_LIES is `file` or `folder`, syncs of that
   kind keep nothing. trials/chain drives it. */
#define _GNU_SOURCE
#include <errno.h>
#include <fcntl.h>
#include <limits.h>
#include <signal.h>
#include <stdarg.h>
#include <stdatomic.h>
#include <stdint.h>
#include <stdio.h>
#include <stdlib.h>
#include <string.h>
#include <sys/stat.h>
#include <sys/syscall.h>
#include <unistd.h>

enum { MOST = 64 };

/* A file or a folder, whatever its names are. */
struct place { dev_t device; ino_t inode; };
/* A file that was written, open to be cut. */
struct written { struct place place; int file; };
/* A move, and the file that stood at its end before, or -1. */
struct moved { struct place folder; int before; char from[PATH_MAX], to[PATH_MAX]; };

static atomic_long calls;
static long stop_at;
static int stop_signal = SIGKILL;
static int loses;
static uint64_t drawn;
static const char *lies = "";
static struct written unsynced[MOST];
static struct moved pending[MOST];
static int files, moves;

__attribute__((constructor)) static void begin(void) {
  const char *given = getenv("STOP_AT");
  stop_at = given ? atol(given) : 0;
  given = getenv("STOP_SIGNAL");
  if (given) stop_signal = atoi(given);
  given = getenv("STOP_LOSES");
  loses = given != NULL;
  if (given) drawn = strtoull(given, NULL, 10);
  given = getenv("STOP_LIES");
  if (given) lies = given;
}

static long answer(long result) {
  if (result >= 0) return result;
  errno = -result;
  return -1;
}

/* The system call itself, whatever stands in the C library under that name. */
static long call(long number, long a, long b, long c, long d) {
  long result;
  register long fourth __asm__("r10") = d;
  __asm__ volatile("syscall" : "=a"(result) : "a"(number), "D"(a), "S"(b), "d"(c), "r"(fourth) : "rcx", "r11", "memory");
  return result;
}

/* A number below a bound. */
static uint64_t draw(uint64_t bound) {
  uint64_t mixed = drawn += 0x9e3779b97f4a7c15;
  mixed = (mixed ^ mixed >> 30) * 0xbf58476d1ce4e5b9;
  mixed = (mixed ^ mixed >> 27) * 0x94d049bb133111eb;
  return (mixed ^ mixed >> 31) % bound;
}

static int is_same(struct place a, struct place b) { return a.device == b.device && a.inode == b.inode; }

/* Where an open file stands, and its kind. */
static struct place place_of(int file, mode_t *mode) {
  struct stat found = {0};
  call(SYS_fstat, file, (long)&found, 0, 0);
  *mode = found.st_mode;
  return (struct place){found.st_dev, found.st_ino};
}

static void full(void) {
  static const char text[] = "stops: more files or moves than it can keep\n";
  call(SYS_write, 2, (long)text, sizeof text - 1, 0);
  abort();
}

/* A file was written. */
static void note_write(int file) {
  mode_t mode;
  struct place place = place_of(file, &mode);
  if (!loses || !S_ISREG(mode)) return;
  for (int at = 0; at < files; at++)
    if (is_same(unsynced[at].place, place)) return;
  if (files == MOST) full();
  unsynced[files++] = (struct written){place, call(SYS_dup, file, 0, 0, 0)};
}

/* A file or a folder was synced. */
static void note_sync(int file) {
  mode_t mode;
  struct place place = place_of(file, &mode);
  if (!loses || !strcmp(lies, S_ISDIR(mode) ? "folder" : "file")) return;
  for (int at = 0; at < files; at++)
    if (is_same(unsynced[at].place, place)) unsynced[at--] = unsynced[--files];
  for (int at = 0; at < moves; at++)
    if (is_same(pending[at].folder, place)) {
      memmove(pending + at, pending + at + 1, (--moves - at) * sizeof *pending);
      at--;
    }
}

/* The folder of a path. */
static struct place folder_of(const char *path) {
  char folder[PATH_MAX];
  mode_t mode;
  strcpy(folder, path);
  char *last = strrchr(folder, '/');
  if (last) *last = 0;
  long file = call(SYS_open, (long)(last ? folder : "."), O_RDONLY, 0, 0);
  struct place place = place_of(file, &mode);
  call(SYS_close, file, 0, 0, 0);
  return place;
}

/* A file is to be moved. */
static void note_move(const char *from, const char *to) {
  if (!loses) return;
  if (moves == MOST) full();
  struct moved *move = &pending[moves++];
  long before = call(SYS_open, (long)to, O_RDONLY, 0, 0);
  move->folder = folder_of(to);
  move->before = before < 0 ? -1 : before;
  strcpy(move->from, from);
  strcpy(move->to, to);
}

/* Undoes a move: what stood there before is there again. */
static void undo(struct moved *move) {
  call(SYS_rename, (long)move->to, (long)move->from, 0, 0);
  if (move->before < 0) return;
  char bytes[4096];
  long length, to = call(SYS_open, (long)move->to, O_WRONLY | O_CREAT | O_TRUNC, 0644, 0);
  call(SYS_lseek, move->before, 0, SEEK_SET, 0);
  while ((length = call(SYS_read, move->before, (long)bytes, sizeof bytes, 0)) > 0) call(SYS_write, to, (long)bytes, length, 0);
  call(SYS_close, to, 0, 0, 0);
}

/* What a failure of power takes. */
static void lose(void) {
  if (!loses) return;
  loses = 0;
  while (moves > 0)
    if (moves--, draw(2)) undo(&pending[moves]);
  for (int at = 0; at < files; at++) {
    struct stat found = {0};
    call(SYS_fstat, unsynced[at].file, (long)&found, 0, 0);
    call(SYS_ftruncate, unsynced[at].file, draw(found.st_size + 1), 0, 0);
  }
}

__attribute__((destructor)) static void end(void) {
  lose();
  const char *file = getenv("STOP_COUNT");
  if (!file) return;
  char text[32];
  long length = snprintf(text, sizeof text, "%ld\n", atomic_load(&calls));
  long to = call(SYS_open, (long)file, O_WRONLY | O_CREAT | O_TRUNC, 0644, 0);
  call(SYS_write, to, (long)text, length, 0);
  call(SYS_close, to, 0, 0, 0);
}

/* A program may end without the destructors of libraries. */
_Noreturn void _exit(int status) {
  end();
  for (;;) call(SYS_exit_group, status, 0, 0, 0);
}

/* One more call that changes files: whether the process is to end before it. */
static int is_last(void) { return atomic_fetch_add(&calls, 1) + 1 == stop_at; }
static void stop(void) {
  lose();
  kill(getpid(), stop_signal);
}
static void step(void) {
  if (is_last()) stop();
}

/* What is written to the standard streams changes no file. A process that goes on has written half. */
ssize_t write(int file, const void *bytes, size_t length) {
  if (file > 2) note_write(file);
  if (file > 2 && is_last()) {
    long half = length > 1 ? call(SYS_write, file, (long)bytes, length / 2, 0) : 0;
    stop();
    if (half) return answer(half);
  }
  return answer(call(SYS_write, file, (long)bytes, length, 0));
}
ssize_t __write(int file, const void *bytes, size_t length) { return write(file, bytes, length); }
ssize_t pwrite(int file, const void *bytes, size_t length, off_t at) {
  note_write(file);
  if (is_last()) {
    long half = length > 1 ? call(SYS_pwrite64, file, (long)bytes, length / 2, at) : 0;
    stop();
    if (half) return answer(half);
  }
  return answer(call(SYS_pwrite64, file, (long)bytes, length, at));
}
static int synced(long number, int file) {
  step();
  long result = call(number, file, 0, 0, 0);
  if (result >= 0) note_sync(file);
  return answer(result);
}
int fsync(int file) { return synced(SYS_fsync, file); }
int fdatasync(int file) { return synced(SYS_fdatasync, file); }
int ftruncate(int file, off_t length) { step(); return answer(call(SYS_ftruncate, file, length, 0, 0)); }
int rename(const char *from, const char *to) {
  step();
  note_move(from, to);
  return answer(call(SYS_rename, (long)from, (long)to, 0, 0));
}
int unlink(const char *name) { step(); return answer(call(SYS_unlink, (long)name, 0, 0, 0)); }
int mkdir(const char *name, mode_t mode) { step(); return answer(call(SYS_mkdir, (long)name, mode, 0, 0)); }
int open(const char *name, int flags, ...) {
  mode_t mode = 0;
  if (flags & O_CREAT) {
    va_list rest;
    va_start(rest, flags);
    mode = va_arg(rest, mode_t);
    va_end(rest);
    step();
  }
  return answer(call(SYS_open, (long)name, flags, mode, 0));
}
int open64(const char *name, int flags, ...) __attribute__((alias("open")));
