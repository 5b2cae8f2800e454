/* Counts the allocations of the C side and of the proved code, and can refuse them. A program that includes this is linked with --wrap, by
   the flags that the Makefile has. */
#ifndef TEGVURN_ALLOCATIONS_H
#define TEGVURN_ALLOCATIONS_H

#include <malloc.h>
#include <stdbool.h>
#include <stdlib.h>
#include <sys/mman.h>

/* How many allocations were made and freed, and how many are live. From which one on they are refused, if any is. */
static long made, freed, live, refused = -1;
static bool refuses_more;

/* Counts an allocation, and returns whether it is refused. */
static bool is_refused(void) {
  long number = made++;
  return refused >= 0 && (refuses_more ? number >= refused : number == refused);
}

static void *counted(void *at, const void *none) {
  live += at != none;
  return at;
}

/* The bytes that are allocated, and the most that were allocated at any time. */
static size_t held, most_held;

static void hold(size_t size) {
  held += size;
  if (most_held < held) most_held = held;
}

static void *held_block(void *at) {
  if (at) hold(malloc_usable_size(at));
  return at;
}

void *__real_malloc(size_t size);
void *__real_calloc(size_t count, size_t size);
void *__real_realloc(void *at, size_t size);
void __real_free(void *at);
void *__real_mmap(void *at, size_t size, int may, int flags, int file, off_t offset);
int __real_munmap(void *at, size_t size);
int __real_mprotect(void *at, size_t size, int may);
void *__wrap_malloc(size_t size);
void *__wrap_calloc(size_t count, size_t size);
void *__wrap_realloc(void *at, size_t size);
void __wrap_free(void *at);
void *__wrap_mmap(void *at, size_t size, int may, int flags, int file, off_t offset);
int __wrap_munmap(void *at, size_t size);
int __wrap_mprotect(void *at, size_t size, int may);

void *__wrap_malloc(size_t size) { return is_refused() ? NULL : held_block(counted(__real_malloc(size), NULL)); }
void *__wrap_calloc(size_t count, size_t size) { return is_refused() ? NULL : held_block(counted(__real_calloc(count, size), NULL)); }
/* While a block grows, its old and its new memory may both be allocated. */
void *__wrap_realloc(void *at, size_t size) {
  if (is_refused()) return NULL;
  size_t before = at ? malloc_usable_size(at) : 0;
  void *grown = __real_realloc(at, size);
  if (!held_block(at ? grown : counted(grown, NULL))) return NULL;
  held -= before;
  return grown;
}
void __wrap_free(void *at) {
  live -= at != NULL;
  freed++;
  held -= at ? malloc_usable_size(at) : 0;
  __real_free(at);
}
void *__wrap_mmap(void *at, size_t size, int may, int flags, int file, off_t offset) {
  if (is_refused()) return MAP_FAILED;
  hold(size);
  return counted(__real_mmap(at, size, may, flags, file, offset), MAP_FAILED);
}
int __wrap_munmap(void *at, size_t size) {
  live--;
  held -= size;
  return __real_munmap(at, size);
}
int __wrap_mprotect(void *at, size_t size, int may) { return is_refused() ? -1 : __real_mprotect(at, size, may); }

#endif
