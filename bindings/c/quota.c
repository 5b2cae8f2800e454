/* Tests of quotas: what each kind counts by docs/SPECIFICATION.md, and that it allocates no more than that; and that modules which would take
   much, or are linked again and again, run out of memory at once and with little. It is linked with --wrap. */
#include "allocations.h"
#include "tegvurn.h"
#include "test_module.h"

#include <stdio.h>
#include <stdlib.h>
#include <time.h>

#define CHECK(is_so) check((is_so), __LINE__, #is_so)
#define MEBIBYTE ((size_t)1 << 20)
#define QUOTA ((uint64_t)16 << 20) /* of embeddings with modules that would take much */
#define AMPLE ((uint64_t)1 << 40)  /* a quota that is enough for all other tests */

/* How many bytes each kind counts. */
enum {
  MODULE_BYTE = 64, INSTANCE = 512, FUNCTION = 48, OBJECT = 192, ENTRY = 16, PAGE = 65536, FRAME = 32, CELL = 8
};

static int passed, failed;

static void check(bool is_so, int line, const char *what) {
  if (is_so) passed++;
  else failed++, printf("line %d: %s\n", line, what);
}

/* Modules */

/* (module) */
static const uint8_t empty[] = {0x00, 0x61, 0x73, 0x6d, 0x01, 0x00, 0x00, 0x00};

/* (module (table 100 funcref)) */
static const uint8_t table[] = {0x00, 0x61, 0x73, 0x6d, 0x01, 0x00, 0x00, 0x00, 0x04, 0x04, 0x01, 0x70, 0x00, 0x64};

/* (module (memory 1)) */
static const uint8_t page[] = {0x00, 0x61, 0x73, 0x6d, 0x01, 0x00, 0x00, 0x00, 0x05, 0x03, 0x01, 0x00, 0x01};

/* (module (memory 1024)) */
static const uint8_t pages[] = {0x00, 0x61, 0x73, 0x6d, 0x01, 0x00, 0x00, 0x00, 0x05, 0x04, 0x01, 0x00, 0x80, 0x08};

/* (module (global i32 (i32.const 1))) */
static const uint8_t global[] = {0x00, 0x61, 0x73, 0x6d, 0x01, 0x00, 0x00, 0x00, 0x06, 0x06, 0x01, 0x7f, 0x00, 0x41, 0x01, 0x0b};

/* (module (data "abc")) */
static const uint8_t data[] = {0x00, 0x61, 0x73, 0x6d, 0x01, 0x00, 0x00, 0x00, 0x0c, 0x01,
                               0x01, 0x0b, 0x06, 0x01, 0x01, 0x03, 0x61, 0x62, 0x63};

/* (module
     (table 1 funcref)
     (memory 1)
     (func (export "pages") (param i32) (result i32) local.get 0 memory.grow)
     (func (export "entries") (param i32) (result i32) ref.null func local.get 0 table.grow 0)) */
static const uint8_t grows[] = {
    0x00, 0x61, 0x73, 0x6d, 0x01, 0x00, 0x00, 0x00, 0x01, 0x06, 0x01, 0x60, 0x01, 0x7f, 0x01, 0x7f, 0x03, 0x03, 0x02,
    0x00, 0x00, 0x04, 0x04, 0x01, 0x70, 0x00, 0x01, 0x05, 0x03, 0x01, 0x00, 0x01, 0x07, 0x13, 0x02, 0x05, 0x70, 0x61,
    0x67, 0x65, 0x73, 0x00, 0x00, 0x07, 0x65, 0x6e, 0x74, 0x72, 0x69, 0x65, 0x73, 0x00, 0x01, 0x0a, 0x12, 0x02, 0x06,
    0x00, 0x20, 0x00, 0x40, 0x00, 0x0b, 0x09, 0x00, 0xd0, 0x70, 0x20, 0x00, 0xfc, 0x0f, 0x00, 0x0b,
};

/* (module
     (func $f (export "f") (param i32) (local i64 ..) ;; 200 locals
       local.get 0 if local.get 0 i32.const 1 i32.sub call $f end)) */
static const uint8_t frames[] = {
    0x00, 0x61, 0x73, 0x6d, 0x01, 0x00, 0x00, 0x00, 0x01, 0x05, 0x01, 0x60, 0x01, 0x7f, 0x00, 0x03,
    0x02, 0x01, 0x00, 0x07, 0x05, 0x01, 0x01, 0x66, 0x00, 0x00, 0x0a, 0x13, 0x01, 0x11, 0x01, 0xc8,
    0x01, 0x7e, 0x20, 0x00, 0x04, 0x40, 0x20, 0x00, 0x41, 0x01, 0x6b, 0x10, 0x00, 0x0b, 0x0b,
};

/* (module (func $f (export "f") (local i64 ..) call $f)), with 50,000 locals */
static const uint8_t deep[] = {
    0x00, 0x61, 0x73, 0x6d, 0x01, 0x00, 0x00, 0x00, 0x01, 0x04, 0x01, 0x60, 0x00, 0x00, 0x03, 0x02, 0x01, 0x00, 0x07,
    0x05, 0x01, 0x01, 0x66, 0x00, 0x00, 0x0a, 0x0a, 0x01, 0x08, 0x01, 0xd0, 0x86, 0x03, 0x7e, 0x10, 0x00, 0x0b,
};

/* The number of items of each module that the following functions encode, and room for such a module. */
#define OWN ((size_t)8192)         /* what the embedding may allocate besides what it counts, for its own lists */
#define MANY ((size_t)1000)
#define ROOM (8 * MANY)

/* Starts a section with that many bytes of items, and returns where they begin. */
static uint8_t *spell_section(uint8_t *to, uint8_t id, size_t size, size_t count) {
  *to = id;
  return spell_long(spell_long(to + 1, 4 + size), count);
}

/* Copies bytes, and returns the end of the copy. */
static uint8_t *spell(uint8_t *to, const char *bytes, size_t size) {
  memcpy(to, bytes, size);
  return to + size;
}

/* Encodes a module, and returns its size: (module (func) (func) ..) */
static size_t spell_functions(uint8_t *bytes) {
  uint8_t *to = spell(spell_section(spell(bytes, "\0asm\1\0\0\0", 8), 1, 3, 1), "\x60\0\0", 3);
  to = spell_section(to, 3, MANY, MANY);
  memset(to, 0, MANY);
  to = spell_section(to + MANY, 10, 3 * MANY, MANY);
  for (size_t i = 0; i < MANY; i++) to = spell(to, "\2\0\x0b", 3);
  return (size_t)(to - bytes);
}

/* Encodes a module, and returns its size: (module (import "host" "nothing" (func)) (import "host" "nothing" (func)) ..) */
static size_t spell_imports(uint8_t *bytes) {
  static const char import[] = "\4host\7nothing\0"; /* the zero byte that ends it is the index of the type */
  uint8_t *to = spell(spell_section(spell(bytes, "\0asm\1\0\0\0", 8), 1, 3, 1), "\x60\0\0", 3);
  to = spell_section(to, 2, (MANY / 4) * sizeof import, MANY / 4);
  for (size_t i = 0; i < MANY / 4; i++) to = spell(to, import, sizeof import);
  return (size_t)(to - bytes);
}

/* Encodes a module, and returns its size: (module (func $f) (elem func $f $f ..)) */
static size_t spell_references(uint8_t *bytes) {
  uint8_t *to = spell(spell_section(spell(bytes, "\0asm\1\0\0\0", 8), 1, 3, 1), "\x60\0\0\3\2\1\0", 7);
  to = spell_long(spell(spell_section(to, 9, 2 + 4 + MANY, 1), "\1\0", 2), MANY);
  memset(to, 0, MANY);
  return (size_t)(spell(to + MANY, "\x0a\4\1\2\0\x0b", 6) - bytes);
}

/* Encodes a module, and returns its size: (module (table 1000000 funcref) (table 1000000 funcref) ..) */
static size_t spell_tables(uint8_t *bytes, size_t count) {
  uint8_t *to = spell_section(spell(bytes, "\0asm\1\0\0\0", 8), 4, 5 * count, count);
  for (size_t i = 0; i < count; i++) to = spell(to, "\x70\0\xc0\x84\x3d", 5);
  return (size_t)(to - bytes);
}

/* Embeddings with a quota */

static bool nothing(void *context, tegvurn_host_call *call) {
  (void)context, (void)call;
  return true;
}

static tegvurn *embedding_with(uint64_t quota, uint32_t depth) {
  const tegvurn_host host = {tegvurn_string("host"), tegvurn_string("nothing"), NULL, 0, NULL, 0, nothing, NULL};
  const tegvurn_config config = {1000000000, depth, 65536, 10000000};
  tegvurn *embedding;
  if (tegvurn_new_with_quota(&config, quota, &host, 1, &embedding, NULL)) exit(2);
  return embedding;
}

/* Returns how much of the quota is left. */
static uint64_t left_in(tegvurn *embedding) {
  uint64_t left = 0;
  if (tegvurn_quota_left(embedding, &left)) exit(2);
  return left;
}

static tegvurn_status load(tegvurn *embedding, const uint8_t *bytes, size_t size) {
  uint64_t module;
  return tegvurn_load(embedding, bytes, size, &module);
}

static tegvurn_status link_first(tegvurn *embedding) {
  uint64_t instance;
  return tegvurn_link(embedding, 0, &instance);
}

/* Returns an embedding in which a module is loaded. */
static tegvurn *loaded(const uint8_t *bytes, size_t size, uint64_t quota, uint32_t depth) {
  tegvurn *embedding = embedding_with(quota, depth);
  if (load(embedding, bytes, size)) exit(2);
  return embedding;
}

/* Calls an export of the instance 0, with the argument unless `count` is 0. */
static tegvurn_status call(tegvurn *embedding, const char *name, uint32_t argument, size_t count) {
  tegvurn_value arg = tegvurn_i32(argument), result;
  return tegvurn_call(embedding, 0, tegvurn_string(name), &arg, count, &result, 1, NULL);
}

/* What is counted, and what is allocated */

struct counted { const char *name; const uint8_t *bytes; size_t size; uint64_t instance; int links; };

/* Checks that a load counts its bytes and allocates no more than that. */
static void test_load(const struct counted *row) {
  tegvurn *embedding = embedding_with(AMPLE, 1);
  CHECK(load(embedding, empty, sizeof empty) == TEGVURN_STATUS_DONE);
  size_t before = held;
  uint64_t left = left_in(embedding), counted = MODULE_BYTE * row->size;
  check(load(embedding, row->bytes, row->size) == TEGVURN_STATUS_DONE, __LINE__, row->name);
  check(left - left_in(embedding) == counted, __LINE__, row->name);
  /* The order is kept until the next one, with room for twice its size. */
  check(held - before <= counted + 2 * row->size, __LINE__, row->name);
  CHECK(tegvurn_free(embedding) == TEGVURN_STATUS_DONE);
}

/* Checks that each link of a module counts as much as it must, and that all of them allocate no more than they count. */
static void test_links(const struct counted *row) {
  tegvurn *embedding = loaded(row->bytes, row->size, AMPLE, 1);
  size_t before = held;
  uint64_t left = left_in(embedding);
  bool is_right = true, is_enough = true;
  for (int i = 1; i <= row->links; i++) {
    is_right &= link_first(embedding) == TEGVURN_STATUS_DONE && left - left_in(embedding) == (uint64_t)i * row->instance;
    is_enough &= held - before <= (uint64_t)i * row->instance + OWN;
  }
  check(is_right, __LINE__, row->name);
  check(is_enough, __LINE__, row->name);
  CHECK(tegvurn_free(embedding) == TEGVURN_STATUS_DONE);
}

static void test_counts(void) {
  static uint8_t functions[ROOM], imports[ROOM], references[ROOM];
  const struct counted rows[] = {
      {"nothing", empty, sizeof empty, INSTANCE, 3000},
      {"a table", table, sizeof table, INSTANCE + OBJECT + 100 * ENTRY, 1000},
      {"a memory", page, sizeof page, INSTANCE + OBJECT + PAGE, 300},
      {"a global", global, sizeof global, INSTANCE + OBJECT, 1000},
      {"a data segment", data, sizeof data, INSTANCE + OBJECT, 1000},
      {"functions", functions, spell_functions(functions), INSTANCE + MANY * FUNCTION, 100},
      {"imports", imports, spell_imports(imports), INSTANCE + MANY / 4 * FUNCTION, 100},
      {"references", references, spell_references(references), INSTANCE + FUNCTION + OBJECT + MANY * ENTRY, 100},
  };
  for (size_t i = 0; i < sizeof rows / sizeof *rows; i++) {
    test_load(&rows[i]);
    test_links(&rows[i]);
  }
}

/* Checks that each page and each entry that is added counts. What grows may get room for twice its size. */
static void test_growth(const char *name, uint64_t each, uint32_t first, int times) {
  tegvurn *embedding = loaded(grows, sizeof grows, AMPLE, 1);
  bool is_right = link_first(embedding) == TEGVURN_STATUS_DONE && call(embedding, name, 0, 1) == TEGVURN_STATUS_DONE, is_enough = true;
  size_t before = held;
  uint64_t left = left_in(embedding), added = 0;
  for (int i = 0; i < times; i++) {
    uint32_t more = i ? 1 : first;
    added += more;
    is_right &= call(embedding, name, more, 1) == TEGVURN_STATUS_DONE && left - left_in(embedding) == added * each;
    is_enough &= held - before <= 2 * (added + 1) * each;
  }
  check(is_right, __LINE__, name);
  check(is_enough, __LINE__, name);
  CHECK(tegvurn_free(embedding) == TEGVURN_STATUS_DONE);
}

/* Calls f(depth - 1) of `frames` in a new embedding with a quota, and stores how many bytes the call allocated. Returns its status. */
static tegvurn_status call_frames(uint64_t quota, uint32_t depth, size_t *taken) {
  tegvurn *embedding = loaded(frames, sizeof frames, quota, depth);
  CHECK(link_first(embedding) == TEGVURN_STATUS_DONE);
  uint64_t left = left_in(embedding);
  call(embedding, "f", 0, 1);
  size_t before = most_held = held;
  tegvurn_status status = call(embedding, "f", depth - 1, 1);
  *taken = most_held - before;
  CHECK(left_in(embedding) == left && tegvurn_free(embedding) == TEGVURN_STATUS_DONE);
  return status;
}

/* Checks that a call counts as much as it allocates, by the least quota with which it is done. */
static void test_call(uint32_t depth) {
  const uint64_t linked = MODULE_BYTE * sizeof frames + INSTANCE + FUNCTION;
  uint64_t least = linked, most = linked + 64 * MEBIBYTE;
  size_t taken;
  while (least < most) {
    uint64_t middle = least + (most - least) / 2;
    tegvurn_status status = call_frames(middle, depth, &taken);
    CHECK(status == TEGVURN_STATUS_DONE || status == TEGVURN_STATUS_EXHAUSTED);
    if (status) least = middle + 1;
    else most = middle;
  }
  CHECK(call_frames(least, depth, &taken) == TEGVURN_STATUS_DONE && taken <= least - linked + OWN);
  CHECK(least - linked >= (uint64_t)depth * (FRAME + 201 * CELL));
}

/* Modules that would take much */

/* Returns how many KiB of memory the process has had at most. */
static size_t peak(void) {
  char line[256];
  size_t kib = 0;
  FILE *file = fopen("/proc/self/status", "r");
  if (!file) exit(2);
  while (fgets(line, sizeof line, file) && sscanf(line, "VmHWM: %zu", &kib) != 1) continue;
  fclose(file);
  return kib;
}

static bool has_no_memory(const tegvurn *embedding, tegvurn_status wanted, uint32_t number) {
  const tegvurn_end *end = tegvurn_last(embedding);
  return end->status == wanted && end->number == number;
}

static bool is_refused_for_memory(const tegvurn *embedding) {
  return has_no_memory(embedding, TEGVURN_STATUS_REFUSED, TEGVURN_REFUSAL_OUT_OF_MEMORY);
}

static bool is_exhausted_for_memory(const tegvurn *embedding) {
  return has_no_memory(embedding, TEGVURN_STATUS_EXHAUSTED, TEGVURN_EXHAUSTION_MEMORY);
}

static void refuse_link(const uint8_t *bytes, size_t size) {
  tegvurn *embedding = loaded(bytes, size, QUOTA, 1000);
  uint64_t left = left_in(embedding);
  CHECK(left == QUOTA - MODULE_BYTE * size);
  CHECK(link_first(embedding) == TEGVURN_STATUS_REFUSED && is_refused_for_memory(embedding) && left_in(embedding) == left);
  CHECK(tegvurn_free(embedding) == TEGVURN_STATUS_DONE);
}

/* Links a module until it is refused, 6,000 times in all. Returns how many links are done. */
static int link_often(tegvurn *embedding) {
  int links = 0;
  for (int i = 0; i < 6000; i++)
    if (link_first(embedding) == TEGVURN_STATUS_DONE) links++;
    else CHECK(is_refused_for_memory(embedding));
  return links;
}

static void refuse_links(void) {
  const uint64_t each = INSTANCE + OBJECT + PAGE, all = QUOTA - MODULE_BYTE * sizeof page;
  tegvurn *embedding = loaded(page, sizeof page, QUOTA, 1000);
  CHECK(link_often(embedding) == (int)(all / each) && left_in(embedding) == all % each);
  CHECK(tegvurn_free(embedding) == TEGVURN_STATUS_DONE);
}

static void exhaust_cells(void) {
  tegvurn *embedding = loaded(deep, sizeof deep, QUOTA, 1000);
  CHECK(link_first(embedding) == TEGVURN_STATUS_DONE);
  uint64_t left = left_in(embedding);
  for (int i = 0; i < 3; i++) CHECK(call(embedding, "f", 0, 0) == TEGVURN_STATUS_EXHAUSTED && is_exhausted_for_memory(embedding));
  CHECK(left_in(embedding) == left && tegvurn_free(embedding) == TEGVURN_STATUS_DONE);
}

/* Lets a memory or a table grow until the call is exhausted. */
static void exhaust_growth(const char *name, uint32_t more, uint64_t each) {
  tegvurn *embedding = loaded(grows, sizeof grows, QUOTA, 1);
  CHECK(link_first(embedding) == TEGVURN_STATUS_DONE);
  while (call(embedding, name, more, 1) == TEGVURN_STATUS_DONE) continue;
  CHECK(is_exhausted_for_memory(embedding) && left_in(embedding) < more * each + 1000);
  CHECK(call(embedding, name, 0, 1) == TEGVURN_STATUS_DONE && tegvurn_free(embedding) == TEGVURN_STATUS_DONE);
}

/* Tools that check memory accesses take memory and time of their own. */
#if defined(TEGVURN_VALGRIND) || defined(__SANITIZE_ADDRESS__)
#define IS_PLAIN false
#else
#define IS_PLAIN true
#endif

static void test_hostile(void) {
  static uint8_t bytes[ROOM];
  size_t before = most_held = held, peak_before = peak();
  clock_t start = clock();
  refuse_link(bytes, spell_tables(bytes, 100));
  refuse_link(bytes, spell_tables(bytes, 200));
  refuse_link(pages, sizeof pages);
  exhaust_cells();
  exhaust_growth("pages", 1, PAGE);
  exhaust_growth("entries", 1000, ENTRY);
  refuse_links();
  double seconds = (double)(clock() - start) / CLOCKS_PER_SEC;
  printf("modules that would take much: %zu bytes, %zu KiB, %.2f s\n", most_held - before, peak() - peak_before, seconds);
  /* A table that grows gets room for twice its size, while it has its former room. */
  CHECK(most_held - before < 3 * QUOTA + 2 * MEBIBYTE);
  CHECK(!IS_PLAIN || (peak() - peak_before < 40 * 1024 && seconds < 2));
}

int main(void) {
  test_hostile();
  test_counts();
  test_growth("pages", PAGE, 10, 40);
  test_growth("entries", ENTRY, 1000, 3000);
  test_call(1);
  test_call(2);
  test_call(1000);
  CHECK(!live);
  printf("%d passed, %d failed\n", passed, failed);
  return failed != 0;
}
