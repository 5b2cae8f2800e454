/* memory [EACH]: refuses each allocation in the life of an embedding in turn, or each EACHth. It refuses those of the C side and those of
   the proved code: once that allocation alone, and once all from that one on.

   A call must end as with ample memory, or report that memory ran out. If one allocation alone was refused, the same call must end as with
   ample memory when it is made again, unless memory for its reply ran out, which ends the embedding. In the end nothing may be left
   allocated, whether the embedding is freed, or abandoned after a callback was left.

   Before that, the program measures how much memory many exports take. It is linked with --wrap. */
#include "allocations.h"
#include "tegvurn.h"
#include "test_module.h"

#include <setjmp.h>
#include <stdio.h>
#include <stdlib.h>

/* The life of an embedding. Each step returns how it ended, and a number. */

/* The numbers of parameters and results of the functions that have many. They are large enough that messages grow. */
#define WIDTH 20
#define PARAMS 50
#define RESULTS 100
#define COMMANDS 3
#define FAILURES 300
/* A quota that is enough. */
#define QUOTA ((uint64_t)16 << 20)

struct answer {
  tegvurn_status status;
  uint32_t number;
  uint64_t given;
};

static tegvurn *embedding;

/* Whether the next callback is left by longjmp, and where it jumps to. */
static bool leaves;
static jmp_buf way_out;

static bool echo(void *context, tegvurn_host_call *call) {
  (void)context;
  if (leaves) longjmp(way_out, 1);
  for (size_t i = 0; i < call->result_count; i++) call->results[i] = call->args[i];
  return true;
}

static struct answer answer_of(tegvurn_status status, uint64_t given) {
  return (struct answer){status, status ? tegvurn_last(embedding)->number : 0, status ? 0 : given};
}

static struct answer make(void) {
  static const tegvurn_type number[] = {TEGVURN_TYPE_I32}, reference[] = {TEGVURN_TYPE_EXTERNREF};
  static tegvurn_type many[WIDTH];
  for (int i = 0; i < WIDTH; i++) many[i] = TEGVURN_TYPE_I64;
  const tegvurn_host hosts[] = {
      {tegvurn_string("host"), tegvurn_string("ask"), number, 1, number, 1, echo, NULL},
      {tegvurn_string("host"), tegvurn_string("keep"), reference, 1, reference, 1, echo, NULL},
      {tegvurn_string("host"), tegvurn_string("nothing"), NULL, 0, NULL, 0, echo, NULL},
      {tegvurn_string("host"), tegvurn_string("many"), many, WIDTH, many, WIDTH, echo, NULL},
      tegvurn_window_host(),
  };
  const tegvurn_config config = {1000, 100, 16, 100};
  tegvurn_end end;
  tegvurn_status status = tegvurn_new_with_quota(&config, QUOTA, hosts, 5, &embedding, &end);
  return (struct answer){status, end.number, 0};
}

static struct answer load(void) {
  uint64_t module = 0;
  tegvurn_status status = tegvurn_load(embedding, test_module, sizeof test_module, &module);
  return answer_of(status, module);
}

static struct answer link_it(void) {
  uint64_t instance = 0;
  tegvurn_status status = tegvurn_link(embedding, 0, &instance);
  return answer_of(status, instance);
}

static struct answer register_it(void) { return answer_of(tegvurn_register(embedding, 0, tegvurn_string("m")), 0); }

/* Encodes a number in two bytes, as the binary format has it. Returns the end of the encoding. */
static uint8_t *spell_number(uint8_t *to, unsigned number) {
  *to++ = (uint8_t)(number % 128 + 128);
  *to++ = (uint8_t)(number / 128);
  return to;
}

static uint8_t *spell_types(uint8_t *to, unsigned count) {
  to = spell_number(to, count);
  memset(to, TEGVURN_TYPE_I64, count);
  return to + count;
}

/* Encodes this module and returns its size:

   (module
     (type $many (func (param i64 ..) (result i64 ..)))                  ;; WIDTH and WIDTH
     (import "host" "many" (func $many (type $many)))
     (export "f" (func $many))
     (func (export "g") (param i64 ..) (result i64 ..) i64.const 5 ..))  ;; PARAMS and RESULTS */
static size_t spell_another(uint8_t *bytes) {
  static const uint8_t head[] = {0, 'a', 's', 'm', 1, 0, 0, 0, 1};
  static const uint8_t rest[] = {2, 13, 1, 4, 'h', 'o', 's', 't', 4, 'm', 'a', 'n', 'y', 0, 0, 3, 2, 1, 1,
                                 7, 9,  2, 1, 'f', 0,   0,   1,   'g', 0, 1,   10};
  uint8_t *to = bytes;
  memcpy(to, head, sizeof head);
  to = spell_number(to + sizeof head, 1 + 2 * (1 + 2 + 2) + 2 * WIDTH + PARAMS + RESULTS);
  *to++ = 2;
  *to++ = 0x60;
  to = spell_types(spell_types(to, WIDTH), WIDTH);
  *to++ = 0x60;
  to = spell_types(spell_types(to, PARAMS), RESULTS);
  memcpy(to, rest, sizeof rest);
  to = spell_number(to + sizeof rest, 1 + 2 + 2 + 2 * RESULTS);
  *to++ = 1;
  to = spell_number(to, 2 + 2 * RESULTS);
  *to++ = 0;
  for (int i = 0; i < RESULTS; i++) *to++ = 0x42, *to++ = 5;
  *to++ = 0x0b;
  return (size_t)(to - bytes);
}

static struct answer load_another(void) {
  uint8_t bytes[1000];
  uint64_t module = 0;
  tegvurn_status status = tegvurn_load(embedding, bytes, spell_another(bytes), &module);
  return answer_of(status, module);
}

static struct answer link_another(void) {
  uint64_t instance = 0;
  tegvurn_status status = tegvurn_link(embedding, 1, &instance);
  return answer_of(status, instance);
}

static struct answer call(void) {
  tegvurn_value value = tegvurn_i32(42), result = tegvurn_i32(0);
  tegvurn_status status = tegvurn_call(embedding, 0, tegvurn_string("ask"), &value, 1, &result, 1, NULL);
  return answer_of(status, result.i32);
}

static struct answer call_with_many(void) {
  tegvurn_value args[WIDTH], results[WIDTH];
  for (uint64_t i = 0; i < WIDTH; i++) args[i] = tegvurn_i64(i);
  memset(results, 0, sizeof results);
  tegvurn_status status = tegvurn_call(embedding, 1, tegvurn_string("f"), args, WIDTH, results, WIDTH, NULL);
  return answer_of(status, results[WIDTH - 1].i64);
}

/* Calls a function with more arguments, and more results, than any message before had values. */
static struct answer call_for_more(void) {
  tegvurn_value args[PARAMS], results[RESULTS];
  uint64_t sum = 0;
  for (int i = 0; i < PARAMS; i++) args[i] = tegvurn_i64(0);
  memset(results, 0, sizeof results);
  tegvurn_status status = tegvurn_call(embedding, 1, tegvurn_string("g"), args, PARAMS, results, RESULTS, NULL);
  for (int i = 0; i < RESULTS; i++) sum += results[i].type == TEGVURN_TYPE_I64 ? results[i].i64 : 1000;
  return answer_of(status, sum);
}

static struct answer get_global(void) {
  tegvurn_value value = tegvurn_i32(0);
  tegvurn_status status = tegvurn_get_global(embedding, 0, tegvurn_string("number"), &value);
  return answer_of(status, value.i64);
}

static struct answer list_exports(void) {
  tegvurn_export *exports = NULL;
  size_t count = 0, bytes = 0;
  tegvurn_status status = tegvurn_exports(embedding, 0, &exports, &count);
  for (size_t i = 0; i < count && !status; i++) bytes += exports[i].name.size;
  tegvurn_exports_free(exports);
  return answer_of(status, count * 1000 + bytes);
}

/* Lists the imports and the exports of the module, and returns how many there are and the bytes of their names. */
static struct answer list_module(void) {
  tegvurn_import *imports = NULL;
  tegvurn_export *exports = NULL;
  size_t import_count = 0, export_count = 0, bytes = 0;
  tegvurn_status status = tegvurn_module_imports(embedding, 0, &imports, &import_count);
  if (!status) status = tegvurn_module_exports(embedding, 0, &exports, &export_count);
  for (size_t i = 0; i < import_count && !status; i++) bytes += imports[i].module_name.size + imports[i].named.name.size;
  for (size_t i = 0; i < export_count && !status; i++) bytes += exports[i].name.size;
  tegvurn_imports_free(imports);
  tegvurn_exports_free(exports);
  return answer_of(status, import_count * 100000 + export_count * 1000 + bytes);
}

/* Finds an export with two results. */
static struct answer find_export(void) {
  tegvurn_export *found = NULL;
  tegvurn_status status = tegvurn_find_export(embedding, 0, tegvurn_string("two"), &found);
  uint64_t given = status ? 0 : 1000 * found->result_count + found->name.size;
  tegvurn_exports_free(found);
  return answer_of(status, given);
}

static struct answer set_fuel(void) { return answer_of(tegvurn_set_fuel(embedding, 500), 0); }

/* Links a provider, and returns the value of its global. */
static struct answer provide(void) {
  static const tegvurn_type number[] = {TEGVURN_TYPE_I32};
  const tegvurn_host host = {tegvurn_string("host"), tegvurn_string("ask"), number, 1, number, 1, echo, NULL};
  const tegvurn_provided objects[] = {{.name = tegvurn_string("memory"), .kind = TEGVURN_KIND_MEMORY, .minimum = 1},
                                      {.name = tegvurn_string("g"), .kind = TEGVURN_KIND_GLOBAL, .value = tegvurn_i32(9)}};
  uint64_t provider = 0;
  tegvurn_value value = tegvurn_i32(0);
  tegvurn_status status = tegvurn_provide(embedding, tegvurn_string("env"), &host, 1, objects, 2, &provider);
  if (!status) status = tegvurn_get_global(embedding, provider, tegvurn_string("g"), &value);
  return answer_of(status, value.i32);
}

/* Opens a window, writes a byte and reads it. */
static struct answer use_window(void) {
  uint64_t window = 0;
  uint8_t byte = 'w', found = 0;
  tegvurn_status status = tegvurn_window_open(embedding, 0, tegvurn_string("memory"), &window);
  if (!status) status = tegvurn_window_write(embedding, window, 3, &byte, 1);
  if (!status) status = tegvurn_window_read(embedding, window, 3, &found, 1);
  return answer_of(status, found);
}

static struct answer look_at_fuel(void) {
  uint64_t fuel = 0;
  tegvurn_status status = tegvurn_fuel_left(embedding, &fuel);
  return answer_of(status, fuel);
}

/* Returns how many bytes more are counted than those of both modules and their instances: of functions, a memory of one page, and a table of
   two entries, a global and a data segment. */
static struct answer look_at_quota(void) {
  uint8_t bytes[1000];
  uint64_t left = 0, modules = 64 * (sizeof test_module + spell_another(bytes));
  uint64_t instances = 2 * 512 + (3 + 8 + 1 + 1) * 48 + (192 + 65536) + (192 + 2 * 16) + 192 + 192;
  tegvurn_status status = tegvurn_quota_left(embedding, &left);
  return answer_of(status, QUOTA - left - modules - instances);
}

static struct answer run_script(void) {
  static const char json[] =
      "{\"commands\":[{\"type\":\"module\",\"line\":1,\"filename\":\"a\"},"
      "{\"type\":\"assert_return\",\"line\":2,\"action\":{\"type\":\"invoke\",\"field\":\"empty\",\"args\":[]},\"expected\":[]},"
      "{\"type\":\"assert_trap\",\"line\":3,\"action\":{\"type\":\"invoke\",\"field\":\"trap\",\"args\":[]},\"text\":\"unreachable\"}]}";
  const tegvurn_file files[] = {{tegvurn_string("a"), test_module, sizeof test_module}};
  tegvurn_report report = {0, 0, 0, NULL};
  tegvurn_status status = tegvurn_script(embedding, json, sizeof json - 1, files, 1, &report);
  return answer_of(status, report.passed);
}

/* Runs a script whose report is longer than any message before. Returns the sum of the lines of the failed commands. */
static struct answer run_failures(void) {
  static char json[FAILURES * 50 + 50];
  size_t size = (size_t)sprintf(json, "{\"commands\":[");
  for (int line = 1; line <= FAILURES; line++)
    size += (size_t)sprintf(json + size, "%s{\"type\":\"register\",\"line\":%d,\"as\":\"host\"}", line > 1 ? "," : "", line);
  size += (size_t)sprintf(json + size, "]}");
  tegvurn_report report = {0, 0, 0, NULL};
  uint64_t sum = 0;
  tegvurn_status status = tegvurn_script(embedding, json, size, NULL, 0, &report);
  for (uint64_t i = 0; i < report.failed && !status; i++) sum += report.failed_lines[i];
  return answer_of(status, sum);
}

static const struct step {
  const char *name;
  struct answer (*run)(void);
  uint64_t wanted;   /* the number that the step must return */
  bool wants_memory; /* the step must report at least once that memory ran out; a step without this must not call malloc or free, unless an
                        earlier step ran out of memory */
} steps[] = {
    {"new", make, 0, true},
    {"load", load, 0, true},
    {"link", link_it, 0, true},
    {"exports", list_exports, 12 * 1000 + 59, true},
    {"imports and exports of the module", list_module, 3 * 100000 + 12 * 1000 + 59 + 26, true},
    {"find an export", find_export, 2 * 1000 + 3, true},
    {"register", register_it, 0, true},
    {"load another", load_another, 1, true},
    {"link another", link_another, 1, true},
    {"quota left", look_at_quota, 0, false},
    {"call", call, 42, true},
    {"call with many", call_with_many, WIDTH - 1, true},
    {"call for more", call_for_more, 5 * RESULTS, true},
    {"get a global", get_global, (uint64_t)-7, true},
    {"set the fuel", set_fuel, 0, false},
    {"window", use_window, 'w', true},
    {"provider", provide, 9, true},
    {"fuel left", look_at_fuel, 500, false},
    {"script", run_script, COMMANDS, true},
    {"script of failures", run_failures, FAILURES * (FAILURES + 1) / 2, true},
};

#define STEPS (sizeof steps / sizeof *steps)

static long without_memory[STEPS];
static long overs[2], failed;

static void fail(size_t step, struct answer answer, const char *why) {
  printf("allocation %ld%s: %s: status %d, number %u, given %llu: %s\n", refused, refuses_more ? " and more" : "", steps[step].name,
         (int)answer.status, answer.number, (unsigned long long)answer.given, why);
  failed++;
}

static bool is_as_wanted(size_t step, struct answer answer) {
  return answer.status == TEGVURN_STATUS_DONE && answer.given == steps[step].wanted;
}

static bool says_no_memory(struct answer answer) {
  return (answer.status == TEGVURN_STATUS_REFUSED && answer.number == TEGVURN_REFUSAL_OUT_OF_MEMORY) ||
         (answer.status == TEGVURN_STATUS_EXHAUSTED && answer.number == TEGVURN_EXHAUSTION_MEMORY);
}

/* Returns whether memory for a reply ran out. After that, no other call is done. */
static bool is_over(struct answer answer) { return answer.status == TEGVURN_STATUS_OVER && answer.number == TEGVURN_REFUSAL_OUT_OF_MEMORY; }

/* Returns whether commands of a script failed. A command fails if memory for it ran out. */
static bool is_script_in_part(size_t step, struct answer answer) {
  return steps[step].run == run_script && answer.status == TEGVURN_STATUS_DONE && answer.given < COMMANDS;
}

/* Whether memory ran out in a call of this life. If all later allocations are refused too, later calls rely on what was not done: they are
   refused, or return other numbers. */
static bool is_starved;

static bool builds_on_refused(struct answer answer) {
  return refuses_more && is_starved && (answer.status == TEGVURN_STATUS_DONE || answer.status == TEGVURN_STATUS_REFUSED);
}

/* Runs a step. Returns whether the next one can follow. */
static bool run_step(size_t step) {
  bool was_starved = is_starved;
  long calls = made + freed;
  struct answer answer = steps[step].run();
  if (!steps[step].wants_memory && !was_starved && made + freed != calls) fail(step, answer, "it takes or frees memory");
  bool lacks_memory = says_no_memory(answer) || is_over(answer) || is_script_in_part(step, answer);
  if (is_as_wanted(step, answer) || (!lacks_memory && builds_on_refused(answer))) return true;
  if (refused < 0 || !lacks_memory) fail(step, answer, "a wrong answer");
  is_starved = true;
  without_memory[step]++;
  if (is_over(answer)) overs[refuses_more]++;
  if (is_over(answer) || refuses_more) return step > 0 && !is_over(answer);
  answer = steps[step].run();
  if (!is_as_wanted(step, answer)) fail(step, answer, "a wrong answer when it is called again");
  return true;
}

/* Leaves a callback, unless memory runs out before it is called, and abandons the embedding. */
static tegvurn_status leave_it(void) {
  leaves = true;
  if (!setjmp(way_out)) call();
  leaves = false;
  return tegvurn_abandon(embedding);
}

/* Runs a whole life, at the end of which the embedding is freed or abandoned. Returns how many allocations there were. */
static long live_once(bool is_abandoned) {
  struct answer none = {TEGVURN_STATUS_DONE, 0, 0};
  made = live = 0;
  is_starved = false;
  embedding = NULL;
  for (size_t step = 0; step < STEPS; step++)
    if (!run_step(step)) break;
  if (is_abandoned ? leave_it() : tegvurn_free(embedding)) fail(0, none, "it is not freed");
  if (live) fail(0, none, "something is left allocated");
  return made;
}

/* The memory that many exports take */

#define MOST_LISTED ((size_t)20 << 20) /* the bytes for the module, its instance and the list of its exports are below this */
#define MOST_FOUND ((size_t)200 << 10) /* the further bytes for one export are below this */

static void check(bool is_so, const char *what) {
  if (is_so) return;
  printf("%s\n", what);
  failed++;
}

/* Returns how many bytes the module, its instance and the list of its exports take. */
static size_t measure_exports(void) {
  static uint8_t bytes[EXPORTS_ROOM(MANY_EXPORTS, MANY_TYPES)];
  const tegvurn_config config = {1000, 100, 16, 100};
  size_t size = spell_exports(bytes, MANY_EXPORTS, MANY_TYPES), count = 0, before = held;
  tegvurn_export *exports = NULL, *found = NULL;
  uint64_t number;
  live = 0;
  most_held = held;
  check(tegvurn_new(&config, NULL, 0, &embedding, NULL) == TEGVURN_STATUS_DONE, "many exports: no embedding");
  check(tegvurn_load(embedding, bytes, size, &number) == TEGVURN_STATUS_DONE, "many exports: not loaded");
  check(tegvurn_link(embedding, number, &number) == TEGVURN_STATUS_DONE, "many exports: not linked");
  size_t linked = most_held = held;
  check(tegvurn_find_export(embedding, number, tegvurn_string("7cZ"), &found) == TEGVURN_STATUS_DONE, "many exports: none is found");
  check(most_held - linked < MOST_FOUND, "many exports: one takes too much memory");
  check(tegvurn_exports(embedding, number, &exports, &count) == TEGVURN_STATUS_DONE && count == MANY_EXPORTS, "many exports: not listed");
  size_t listed = most_held - before;
  check(listed < MOST_LISTED, "many exports: their list takes too much memory");
  tegvurn_exports_free(found);
  tegvurn_exports_free(exports);
  check(tegvurn_free(embedding) == TEGVURN_STATUS_DONE && !live && held == before, "many exports: something is left allocated");
  return listed;
}

int main(int argc, char **argv) {
  long each = argc == 2 ? atol(argv[1]) : 1, number = 0, runs = 0;
  printf("%zu bytes for the list of many exports\n", measure_exports());
  long all = live_once(true);
  for (refused = 0; refused <= all && each > 0; refused += each) {
    for (int way = 0; way < 4; way++, runs++) {
      refuses_more = way % 2;
      live_once(way / 2);
    }
  }
  for (size_t step = 0; step < STEPS; step++) {
    number += without_memory[step];
    if (each == 1 && steps[step].wants_memory && !without_memory[step]) printf("%s: never without memory\n", steps[step].name), failed++;
  }
  printf("%ld allocations, %ld runs, %ld answers without memory, of which the end of the embedding: %ld and %ld; %ld failed\n", all, runs,
         number, overs[0], overs[1], failed);
  return failed != 0;
}
