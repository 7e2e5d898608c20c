/* Lets one request of a program fail. It is loaded into the program by LD_PRELOAD, and the environment says which, by numbers from 1:
 *
 *   REFUSED      the request for memory of that number is refused. 0 refuses none, and says at the program's end, on standard
 *                error, how many there were: `asked N`
 *   BROKEN_READ  the read of that number fails
 *   BROKEN_WRITE the write of that number fails
 *   SLOW         where it is there, each read and each write moves one byte
 *
 * At the failure it says `refused` on standard error. Requests are calls from the program's own file; what the C library and the
 * loader do is neither counted nor refused. The program must not have more than one thread. */
#define _GNU_SOURCE
#include <errno.h>
#include <link.h>
#include <stdint.h>
#include <stdio.h>
#include <stdlib.h>
#include <sys/syscall.h>
#include <unistd.h>

extern void *__libc_malloc(size_t);
extern void *__libc_calloc(size_t, size_t);
extern void *__libc_realloc(void *, size_t);

static uintptr_t program_begin = UINTPTR_MAX;
static uintptr_t program_end = 0;
static unsigned long refused, broken_read, broken_write;
static unsigned long asked, reads, writes;
static int is_counted, is_slow;

/* The first object that the loader names is the program: from the least place of its segments to the end of the last. */
static int measure(struct dl_phdr_info *object, size_t size, void *unused) {
  (void)size;
  (void)unused;
  for (int segment = 0; segment < object->dlpi_phnum; segment++) {
    if (object->dlpi_phdr[segment].p_type != PT_LOAD) continue;
    uintptr_t begin = object->dlpi_addr + object->dlpi_phdr[segment].p_vaddr;
    uintptr_t end = begin + object->dlpi_phdr[segment].p_memsz;
    if (begin < program_begin) program_begin = begin;
    if (end > program_end) program_end = end;
  }
  return 1;
}

static int is_of_program(const void *caller) {
  return (uintptr_t)caller >= program_begin && (uintptr_t)caller < program_end;
}

static void say(const char *text, int length) {
  if (syscall(SYS_write, 2, text, (size_t)length) != length) _exit(99);
}

static unsigned long number(const char *name) {
  const char *text = getenv(name);
  return text ? strtoul(text, NULL, 10) : 0;
}

__attribute__((constructor)) static void begin(void) {
  refused = number("REFUSED");
  broken_read = number("BROKEN_READ");
  broken_write = number("BROKEN_WRITE");
  is_slow = getenv("SLOW") != NULL;
  is_counted = getenv("REFUSED") != NULL && refused == 0;
  dl_iterate_phdr(measure, NULL);
}

__attribute__((destructor)) static void end(void) {
  char line[64];
  if (is_counted) say(line, snprintf(line, sizeof line, "asked %lu\n", asked));
}

static int is_refused(const void *caller) {
  if (!is_of_program(caller) || ++asked != refused) return 0;
  say("refused\n", 8);
  errno = ENOMEM;
  return 1;
}

void *malloc(size_t size) {
  return is_refused(__builtin_return_address(0)) ? NULL : __libc_malloc(size);
}

void *calloc(size_t count, size_t size) {
  return is_refused(__builtin_return_address(0)) ? NULL : __libc_calloc(count, size);
}

void *realloc(void *block, size_t size) {
  return is_refused(__builtin_return_address(0)) ? NULL : __libc_realloc(block, size);
}

/* Whether the next call of that count fails. */
static int is_broken(unsigned long *count, unsigned long broken) {
  if (++*count != broken) return 0;
  say("refused\n", 8);
  errno = EIO;
  return 1;
}

ssize_t read(int file, void *bytes, size_t length) {
  if (is_of_program(__builtin_return_address(0))) {
    if (is_broken(&reads, broken_read)) return -1;
    if (is_slow && length > 1) length = 1;
  }
  return syscall(SYS_read, file, bytes, length);
}

ssize_t write(int file, const void *bytes, size_t length) {
  if (is_of_program(__builtin_return_address(0))) {
    if (is_broken(&writes, broken_write)) return -1;
    if (is_slow && length > 1) length = 1;
  }
  return syscall(SYS_write, file, bytes, length);
}

ssize_t __write(int file, const void *bytes, size_t length) __attribute__((alias("write")));
