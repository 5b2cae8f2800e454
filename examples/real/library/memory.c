/* An allocator over `memory.grow`.

   The heap is a row of blocks without gaps. Each has a head with its size and that of the block before it, so that a block that is freed
   joins its free neighbours. Free blocks are in lists, one for each power of two. A row ends with a used block of size 0. */
#include <errno.h>
#include <stdint.h>
#include <stdlib.h>
#include <string.h>

#define GRAIN ((size_t)16)
#define PAGE ((size_t)65536)
#define LISTS (8 * sizeof(size_t))
#define MOST (SIZE_MAX / 4)

/* The head of a block. The sizes are those of what the program gets, and multiples of GRAIN. */
struct block {
  _Alignas(16) size_t size;
  size_t before;  /* the size of the block before it */
  uint8_t is_used, is_first;
};

/* What a free block has after its head. */
struct links {
  struct block *next, *previous;
};

#define HEAD sizeof(struct block)

static struct block *lists[LISTS];
static uint8_t *heap_end; /* where the newest row ends, with its last head */

int errno;

#ifdef __wasm__
/* Returns memory of that many pages, or NULL. */
static uint8_t *more_pages(size_t pages) {
  size_t before = __builtin_wasm_memory_grow(0, pages);
  return before == SIZE_MAX ? NULL : (uint8_t *)(before * PAGE);
}
#else
uint8_t *more_pages(size_t pages);
#endif

static struct links *links_of(struct block *block) { return (struct links *)(block + 1); }
static struct block *after(struct block *block) { return (struct block *)((uint8_t *)(block + 1) + block->size); }
static struct block *before(struct block *block) { return (struct block *)((uint8_t *)block - block->before) - 1; }

/* Returns the number of the list for a size: that of its highest bit. */
static size_t list_of(size_t size) { return LISTS - 1 - (size_t)__builtin_clzl(size); }

static void add_free(struct block *block) {
  struct block **list = &lists[list_of(block->size)];
  block->is_used = 0;
  *links_of(block) = (struct links){*list, NULL};
  if (*list) links_of(*list)->previous = block;
  *list = block;
}

static void remove_free(struct block *block) {
  struct links *links = links_of(block);
  if (links->next) links_of(links->next)->previous = links->previous;
  if (links->previous) links_of(links->previous)->next = links->next;
  else lists[list_of(block->size)] = links->next;
  block->is_used = 1;
}

static void set_size(struct block *block, size_t size) {
  block->size = size;
  after(block)->before = size;
}

/* Joins a block, which is in no list, with the free block after it. */
static void join_next(struct block *block) {
  struct block *next = after(block);
  if (next->is_used) return;
  remove_free(next);
  set_size(block, block->size + HEAD + next->size);
}

/* Makes a block free that is in no list, and joins it with its neighbours. */
static void release(struct block *block) {
  join_next(block);
  if (!block->is_first && !before(block)->is_used) {
    struct block *previous = before(block);
    remove_free(previous);
    set_size(previous, previous->size + HEAD + block->size);
    block = previous;
  }
  add_free(block);
}

/* Cuts off what a used block has beyond a size. */
static void trim(struct block *block, size_t size) {
  if (block->size < size + HEAD + GRAIN) return;
  size_t rest = block->size - size - HEAD;
  set_size(block, size);
  struct block *cut = after(block);
  cut->is_used = 1;
  cut->is_first = 0;
  set_size(cut, rest);
  release(cut);
}

/* Returns whether the heap has grown by a free block of at least a size. */
static int grow(size_t size) {
  size_t bytes = (size + 2 * HEAD + PAGE - 1) / PAGE * PAGE;
  uint8_t *start = more_pages(bytes / PAGE);
  if (!start) return 0;
  struct block *block = (struct block *)start;
  if (start == heap_end) {
    block--; /* the last head of the row becomes that of the new block */
  } else {
    *block = (struct block){.is_first = 1};
  }
  heap_end = start + bytes;
  block->is_used = 1;
  struct block *last = (struct block *)heap_end - 1;
  *last = (struct block){.is_used = 1};
  set_size(block, (size_t)((uint8_t *)last - (uint8_t *)(block + 1)));
  release(block);
  return 1;
}

/* Returns a free block of at least a size, or NULL. */
static struct block *find(size_t size) {
  size_t list = list_of(size);
  for (struct block *block = lists[list]; block; block = links_of(block)->next)
    if (block->size >= size) return block;
  while (++list < LISTS)
    if (lists[list]) return lists[list];
  return NULL;
}

static size_t rounded(size_t size) { return size ? (size + GRAIN - 1) / GRAIN * GRAIN : GRAIN; }

void *malloc(size_t size) {
  struct block *block = NULL;
  if (size <= MOST) {
    size = rounded(size);
    block = find(size);
    if (!block && grow(size)) block = find(size);
  }
  if (!block) return errno = ENOMEM, NULL;
  remove_free(block);
  trim(block, size);
  return block + 1;
}

void free(void *memory) {
  if (memory) release((struct block *)memory - 1);
}

void *calloc(size_t count, size_t size) {
  size_t bytes;
  if (__builtin_mul_overflow(count, size, &bytes)) return errno = ENOMEM, NULL;
  void *memory = malloc(bytes);
  return memory ? memset(memory, 0, bytes) : NULL;
}

void *realloc(void *memory, size_t size) {
  if (!memory) return malloc(size);
  if (size > MOST) return errno = ENOMEM, NULL;
  struct block *block = (struct block *)memory - 1;
  size_t had = block->size;
  size = rounded(size);
  if (had < size) {
    struct block *next = after(block);
    if (!next->is_used && had + HEAD + next->size >= size) join_next(block);
  }
  if (block->size >= size) return trim(block, size), memory;
  void *moved = malloc(size);
  if (!moved) return NULL;
  memcpy(moved, memory, had);
  free(memory);
  return moved;
}

void *reallocarray(void *memory, size_t count, size_t size) {
  size_t bytes;
  if (__builtin_mul_overflow(count, size, &bytes)) return errno = ENOMEM, NULL;
  return realloc(memory, bytes);
}
