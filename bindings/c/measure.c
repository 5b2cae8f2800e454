/* Prints what calls cost: the best of several rounds. With arguments, `measure NAME TIMES` only does what is measured, that many times. So the
 * instructions that two runs take tell what each costs. */
#define _POSIX_C_SOURCE 199309L
#include "tegvurn.h"
#include "test_module.h"

#include <stdio.h>
#include <stdlib.h>
#include <time.h>

#define ROUNDS 7
#define CALLS 100000
#define FUNCTIONS 1000
#define GROUPS 170 /* groups of four instructions in a function */

static double now(void) {
  struct timespec time;
  clock_gettime(CLOCK_MONOTONIC, &time);
  return (double)time.tv_sec * 1e9 + (double)time.tv_nsec;
}

static void need(tegvurn_status status) {
  if (!status) return;
  fprintf(stderr, "measure: status %d\n", (int)status);
  exit(1);
}

static bool echo(void *context, tegvurn_host_call *call) {
  (void)context;
  for (size_t i = 0; i < call->result_count; i++) call->results[i] = call->args[i];
  return true;
}

static tegvurn *embedding_of(void) {
  static const tegvurn_type number[] = {TEGVURN_TYPE_I32}, reference[] = {TEGVURN_TYPE_EXTERNREF};
  const tegvurn_host hosts[] = {
      {tegvurn_string("host"), tegvurn_string("ask"), number, 1, number, 1, echo, NULL},
      {tegvurn_string("host"), tegvurn_string("keep"), reference, 1, reference, 1, echo, NULL},
      {tegvurn_string("host"), tegvurn_string("nothing"), NULL, 0, NULL, 0, echo, NULL},
  };
  const tegvurn_config config = {UINT64_MAX, 100, 16, 100};
  tegvurn *embedding;
  need(tegvurn_new(&config, hosts, 3, &embedding, NULL));
  return embedding;
}

/* Calls an export that many times, with one argument or none. */
static void call_often(tegvurn *embedding, const char *name, size_t arg_count, uint32_t arg, size_t result_count, int times) {
  tegvurn_value value = tegvurn_i32(arg), result;
  for (int i = 0; i < times; i++) need(tegvurn_call(embedding, 0, tegvurn_string(name), &value, arg_count, &result, result_count, NULL));
}

static size_t spell_number(uint8_t *to, size_t number) {
  size_t size = 0;
  for (; number >= 128; number >>= 7) to[size++] = (uint8_t)(number % 128 + 128);
  to[size++] = (uint8_t)number;
  return size;
}

/* Encodes a section with these contents. Returns its end. */
static uint8_t *spell_section(uint8_t *to, uint8_t id, const uint8_t *contents, size_t size) {
  *to++ = id;
  to += spell_number(to, size);
  memmove(to, contents, size);
  return to + size;
}

/* Encodes a module of FUNCTIONS equal functions, which consist of groups `local.get 0 i32.const 1 i32.add drop`. Returns its size. */
static size_t spell_large(uint8_t *module) {
  static const uint8_t head[] = {0, 'a', 's', 'm', 1, 0, 0, 0, 1, 5, 1, 0x60, 1, 0x7f, 0}, group[] = {0x20, 0, 0x41, 1, 0x6a, 0x1a};
  static uint8_t contents[FUNCTIONS * (GROUPS * sizeof group + 10)];
  memcpy(module, head, sizeof head);
  size_t count = spell_number(contents, FUNCTIONS), size = count + FUNCTIONS;
  memset(contents + count, 0, FUNCTIONS);
  uint8_t *to = spell_section(module + sizeof head, 3, contents, size);
  for (int i = 0; i < FUNCTIONS; i++) {
    count += spell_number(contents + count, GROUPS * sizeof group + 2);
    contents[count++] = 0;
    for (int k = 0; k < GROUPS; k++, count += sizeof group) memcpy(contents + count, group, sizeof group);
    contents[count++] = 0x0b;
  }
  return (size_t)(spell_section(to, 10, contents, count) - module);
}

static double load_once(const uint8_t *module, size_t size) {
  tegvurn *embedding = embedding_of();
  uint64_t number;
  double start = now();
  need(tegvurn_load(embedding, module, size, &number));
  double time = now() - start;
  tegvurn_free(embedding);
  return time;
}

/* Creates an embedding with an instance of the test module, which has the number 0. */
static tegvurn *linked_embedding(void) {
  tegvurn *embedding = embedding_of();
  uint64_t number;
  need(tegvurn_load(embedding, test_module, sizeof test_module, &number));
  need(tegvurn_link(embedding, number, &number));
  return embedding;
}

static void call_empty(tegvurn *embedding, int times) { call_often(embedding, "empty", 0, 0, 0, times); }

static void call_ask(tegvurn *embedding, int times) { call_often(embedding, "ask", 1, 5, 1, times); }

static void call_back(tegvurn *embedding, int times) { call_often(embedding, "loop", 1, (uint32_t)times, 0, 1); }

/* Returns the nanoseconds that each of many calls takes. */
static double time_of(void calls(tegvurn *, int), tegvurn *embedding) {
  double start = now();
  calls(embedding, CALLS);
  return (now() - start) / CALLS;
}

/* Does what has this name that many times. Returns the status of the program. */
static int repeat(const char *name, int times, const uint8_t *module, size_t size) {
  static const struct {
    const char *name;
    void (*calls)(tegvurn *, int);
  } calls[] = {{"empty", call_empty}, {"ask", call_ask}, {"loop", call_back}};
  if (!strcmp(name, "load")) {
    for (int i = 0; i < times; i++) load_once(module, size);
    return 0;
  }
  for (size_t i = 0; i < sizeof calls / sizeof *calls; i++) {
    if (strcmp(name, calls[i].name)) continue;
    tegvurn *embedding = linked_embedding();
    calls[i].calls(embedding, times);
    tegvurn_free(embedding);
    return 0;
  }
  fprintf(stderr, "measure: nothing has the name %s\n", name);
  return 1;
}

static double least(double one, double other) { return one < other ? one : other; }

int main(int count, char **words) {
  static uint8_t module[FUNCTIONS * (GROUPS * 6 + 20)];
  size_t size = spell_large(module);
  if (count == 3) return repeat(words[1], atoi(words[2]), module, size);
  double empty = 1e18, ask = 1e18, loop = 1e18, loading = 1e18;
  tegvurn *embedding = linked_embedding();
  for (int round = 0; round < ROUNDS; round++) {
    empty = least(empty, time_of(call_empty, embedding));
    ask = least(ask, time_of(call_ask, embedding));
    loop = least(loop, time_of(call_back, embedding));
    loading = least(loading, load_once(module, size));
  }
  tegvurn_free(embedding);
  printf("%.0f ns a call of an empty export\n", empty);
  printf("%.0f ns a call with one argument, a callback and one result\n", ask);
  printf("%.0f ns a callback in a loop of 6 instructions, 64 KiB lent\n", loop);
  printf("%.1f ms to load a module of %zu bytes\n", loading / 1e6, size);
  return 0;
}
