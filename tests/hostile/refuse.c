/* Loaded before the C library (LD_PRELOAD), it makes one call of a program go wrong: REFUSE is a kind and a number, such
   as m17: the 17th allocation (m), thread (t), read (r) or write (w) fails, or the 17th read (R) or write (W) moves one
   byte. With the number 0 nothing goes wrong. At its end the program writes how many calls of that kind it made to
   descriptor REFUSE_TO. */
#define _GNU_SOURCE
#include <dlfcn.h>
#include <errno.h>
#include <pthread.h>
#include <stdatomic.h>
#include <stdio.h>
#include <stdlib.h>
#include <sys/syscall.h>
#include <unistd.h>

extern void *__libc_malloc(size_t), *__libc_realloc(void *, size_t);

static int (*create)(pthread_t *, const pthread_attr_t *, void *(*)(void *), void *);
static char kind;
static long wrong;
static atomic_long calls;

__attribute__((constructor)) static void begin(void) {
  create = dlsym(RTLD_NEXT, "pthread_create");
  const char *said = getenv("REFUSE");
  if (said && *said) {
    wrong = atol(said + 1);
    kind = *said;
  }
}

/* whether this call is the one that goes wrong */
static int meets(char of) { return of == kind && atomic_fetch_add(&calls, 1) + 1 == wrong; }

void *malloc(size_t size) {
  if (!meets('m')) return __libc_malloc(size);
  errno = ENOMEM;
  return NULL;
}

void *realloc(void *old, size_t size) {
  if (!meets('m')) return __libc_realloc(old, size);
  errno = ENOMEM;
  return NULL;
}

/* how many bytes this read or write may move, or -1 where it fails */
static ssize_t room(char fails, char is_short, size_t size) {
  errno = EIO;
  return meets(fails) ? -1 : meets(is_short) && size > 1 ? 1 : (ssize_t)size;
}

ssize_t read(int from, void *at, size_t size) {
  ssize_t most = room('r', 'R', size);
  return most < 0 ? most : syscall(SYS_read, from, at, most);
}

ssize_t write(int to, const void *at, size_t size) {
  ssize_t most = room('w', 'W', size);
  return most < 0 ? most : syscall(SYS_write, to, at, most);
}

int pthread_create(pthread_t *thread, const pthread_attr_t *how, void *(*does)(void *), void *with) {
  return meets('t') ? EAGAIN : create(thread, how, does, with);
}

static void told(void) {
  const char *to = getenv("REFUSE_TO");
  char text[32];
  if (to) syscall(SYS_write, atoi(to), text, snprintf(text, sizeof text, "%ld\n", atomic_load(&calls)));
}

void _exit(int status) {
  told();
  for (;;) syscall(SYS_exit_group, status);
}

__attribute__((destructor)) static void end(void) { told(); }
