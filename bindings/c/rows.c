/* rows FILE: runs each row of FILE over the library and compares the result. The head of FILE describes the format of rows. */
#include "tegvurn.h"

#include <inttypes.h>
#include <stdarg.h>
#include <stdio.h>
#include <stdlib.h>

#define LONGEST_LINE 8192
#define MOST_WORDS 256
#define MOST_MODULES 256
#define MOST_VALUES 64
#define MOST_FILES 16
#define LOG_ROOM (1 << 20)

/* Ends the program with the status 2. */
static _Noreturn void stop(const char *why, const char *what) {
  fprintf(stderr, "rows: %s: %s\n", why, what);
  exit(2);
}

/* The modules of the file */

struct module {
  char name[128];
  uint8_t *bytes;
  size_t size;
};

static struct module modules[MOST_MODULES];
static size_t module_count;

/* Returns the bytes of hexadecimal digits, which the caller frees, and their number in *size. */
static uint8_t *read_digits(const char *digits, size_t *size) {
  *size = strlen(digits) / 2;
  uint8_t *bytes = malloc(*size + 1);
  if (!bytes || strlen(digits) % 2) stop("no bytes", digits);
  for (size_t i = 0; i < *size; i++) {
    char pair[3] = {digits[2 * i], digits[2 * i + 1], 0};
    char *end;
    bytes[i] = (uint8_t)strtoul(pair, &end, 16);
    if (*end) stop("no bytes", digits);
  }
  return bytes;
}

static void keep_module(const char *name, const char *digits) {
  if (module_count == MOST_MODULES || strlen(name) >= sizeof modules[0].name) stop("too many modules", name);
  struct module *module = &modules[module_count++];
  strcpy(module->name, name);
  module->bytes = read_digits(digits, &module->size);
}

static const struct module *find_module(const char *name) {
  for (size_t i = 0; i < module_count; i++)
    if (!strcmp(modules[i].name, name)) return &modules[i];
  stop("no such module", name);
}

/* The result of a row, as text */

static char answer[LONGEST_LINE];
static size_t answer_size;

__attribute__((format(printf, 1, 2))) static void say(const char *form, ...) {
  va_list args;
  va_start(args, form);
  int size = vsnprintf(answer + answer_size, sizeof answer - answer_size, form, args);
  va_end(args);
  if (size < 0 || (size_t)size >= sizeof answer - answer_size) stop("too long an answer", answer);
  answer_size += (size_t)size;
}

static const char *type_name(tegvurn_type type) {
  switch (type) {
    case TEGVURN_TYPE_I32: return "i32";
    case TEGVURN_TYPE_I64: return "i64";
    case TEGVURN_TYPE_FUNCREF: return "funcref";
    case TEGVURN_TYPE_EXTERNREF: return "externref";
  }
  return "none";
}

static tegvurn_type read_type(const char *name) {
  const tegvurn_type types[] = {TEGVURN_TYPE_I32, TEGVURN_TYPE_I64, TEGVURN_TYPE_FUNCREF, TEGVURN_TYPE_EXTERNREF};
  for (size_t i = 0; i < 4; i++)
    if (!strcmp(name, type_name(types[i]))) return types[i];
  stop("no type", name);
}

static uint64_t read_number(const char *word) {
  char *end;
  uint64_t number = strtoull(word, &end, 10);
  if (*end || end == word) stop("no number", word);
  return number;
}

static tegvurn_value read_value(char *word) {
  char *colon = strchr(word, ':');
  if (!colon) stop("no value", word);
  *colon = 0;
  tegvurn_type type = read_type(word);
  const char *number = colon + 1;
  if (!strcmp(number, "null")) return tegvurn_null(type);
  if (type == TEGVURN_TYPE_I32) return tegvurn_i32((uint32_t)read_number(number));
  if (type == TEGVURN_TYPE_I64) return tegvurn_i64(read_number(number));
  return tegvurn_ref(type, (uint32_t)read_number(number));
}

static void say_value(tegvurn_value value) {
  const char *name = type_name(value.type);
  if (value.type == TEGVURN_TYPE_I32) say("%s:%" PRIu32, name, value.i32);
  else if (value.type == TEGVURN_TYPE_I64) say("%s:%" PRIu64, name, value.i64);
  else if (value.is_null) say("%s:null", name);
  else say("%s:%" PRIu32, name, value.ref);
}

static void say_types(const tegvurn_type *types, size_t count) {
  say("(");
  for (size_t i = 0; i < count; i++) say("%s%s", i ? "," : "", type_name(types[i]));
  say(")");
}

static void say_limits(const tegvurn_export *export) {
  say("%" PRIu64 ",", export->minimum);
  if (export->has_maximum) say("%" PRIu64 ")", export->maximum);
  else say("none)");
}

static void say_export(const tegvurn_export *export) {
  say("%.*s:", (int)export->name.size, export->name.bytes);
  switch (export->kind) {
    case TEGVURN_KIND_FUNCTION:
      say("func");
      say_types(export->params, export->param_count);
      say_types(export->results, export->result_count);
      break;
    case TEGVURN_KIND_TABLE:
      say("table(%s,", type_name(export->type));
      say_limits(export);
      break;
    case TEGVURN_KIND_MEMORY:
      say("memory(");
      say_limits(export);
      break;
    case TEGVURN_KIND_GLOBAL: say("global(%s,%s)", type_name(export->type), export->is_mutable ? "var" : "const"); break;
  }
}

/* Appends how a call ended that was not done. */
static void say_end(const tegvurn_end *end) {
  switch (end->status) {
    case TEGVURN_STATUS_REFUSED: say("refused %" PRIu32 " %d %" PRIu64, end->number, (int)end->place, end->at); break;
    case TEGVURN_STATUS_TRAP: say("trap %" PRIu32 " %" PRIu32, end->number, end->code); break;
    case TEGVURN_STATUS_EXHAUSTED: say("exhausted %" PRIu32, end->number); break;
    default: say("%s", end->name); break;
  }
  if (!*end->name || !*end->text) say(" without words");
}

/* The standard host functions, and their state */

static struct state {
  uint32_t calls;
  uint8_t log[LOG_ROOM];
  size_t logged;
} state;

static bool trap_with(tegvurn_host_call *call, uint32_t code) {
  call->trap = code;
  return false;
}

static bool lies_outside(const tegvurn_host_call *call) {
  return (uint64_t)call->args[0].i32 + call->args[1].i32 > call->memory_size;
}

static bool count(void *context, tegvurn_host_call *call) {
  struct state *it = context;
  call->results[0] = tegvurn_i32(++it->calls);
  return true;
}

static bool add(void *context, tegvurn_host_call *call) {
  (void)context;
  call->results[0] = tegvurn_i32(call->args[0].i32 + call->args[1].i32);
  return true;
}

static bool swap(void *context, tegvurn_host_call *call) {
  (void)context;
  call->results[0] = call->args[1];
  call->results[1] = call->args[0];
  return true;
}

static bool log_bytes(void *context, tegvurn_host_call *call) {
  struct state *it = context;
  if (lies_outside(call)) return trap_with(call, 7);
  uint32_t size = call->args[1].i32;
  if (size > LOG_ROOM - it->logged) stop("the log is full", "log");
  if (size) memcpy(it->log + it->logged, call->memory + call->args[0].i32, size);
  it->logged += size;
  return true;
}

static bool fill(void *context, tegvurn_host_call *call) {
  (void)context;
  if (lies_outside(call)) return trap_with(call, 8);
  if (call->args[1].i32) memset(call->memory + call->args[0].i32, (int)(call->args[2].i32 & 0xFF), call->args[1].i32);
  return true;
}

static bool fail(void *context, tegvurn_host_call *call) {
  (void)context;
  return trap_with(call, call->args[0].i32);
}

static bool wrong(void *context, tegvurn_host_call *call) {
  (void)context;
  call->results[0] = tegvurn_i64(0);
  return true;
}

static bool echo(void *context, tegvurn_host_call *call) {
  (void)context;
  call->results[0] = call->args[0];
  return true;
}

static bool never(void *context, tegvurn_host_call *call) {
  (void)context, (void)call;
  stop("the last host function is called", "new");
}

/* The commands */

static tegvurn *embedding;
static char **words;
static size_t word_count;

/* Reads the types of a list like `i32,i64`. Returns how many there are. */
static size_t read_types(char *list, tegvurn_type types[MOST_VALUES]) {
  size_t number = 0;
  for (char *name = strtok(list, ","); name; name = strtok(NULL, ",")) {
    if (number == MOST_VALUES) stop("too many types", name);
    types[number++] = read_type(name);
  }
  return number;
}

/* Splits `func(..)(..)` into its parameters and its results. */
static void read_func(char *word, char **params, char **results) {
  char *middle = strstr(word, ")(");
  size_t size = strlen(word);
  if (strncmp(word, "func(", 5) || !middle || word[size - 1] != ')') stop("no type", word);
  *middle = word[size - 1] = 0;
  *params = word + 5;
  *results = middle + 2;
}

static tegvurn_host host_of(const char *name, const tegvurn_type *params, size_t param_count, const tegvurn_type *results,
                            size_t result_count, tegvurn_callback callback) {
  return (tegvurn_host){tegvurn_string("env"), tegvurn_string(name), params, param_count, results, result_count, callback, &state};
}

/* Drops the embedding and makes another one, with a quota and the words of a setup, which may end with another host function. */
static void make(uint64_t quota, char **setup, size_t setup_count) {
  static const tegvurn_type ints[] = {TEGVURN_TYPE_I32, TEGVURN_TYPE_I32, TEGVURN_TYPE_I32}, refs[] = {TEGVURN_TYPE_EXTERNREF};
  static const tegvurn_type wide_first[] = {TEGVURN_TYPE_I64, TEGVURN_TYPE_I32}, wide_last[] = {TEGVURN_TYPE_I32, TEGVURN_TYPE_I64};
  tegvurn_type params[MOST_VALUES], results[MOST_VALUES];
  tegvurn_host hosts[9] = {
      host_of("count", NULL, 0, ints, 1, count),  host_of("add", ints, 2, ints, 1, add),
      host_of("swap", wide_first, 2, wide_last, 2, swap), host_of("log", ints, 2, NULL, 0, log_bytes),
      host_of("fill", ints, 3, NULL, 0, fill),    host_of("fail", ints, 1, NULL, 0, fail),
      host_of("wrong", NULL, 0, ints, 1, wrong),  host_of("echo", refs, 1, refs, 1, echo),
  };
  size_t host_count = 8;
  if (setup_count == 7) {
    char *param_list, *result_list;
    read_func(setup[6], &param_list, &result_list);
    size_t param_count = read_types(param_list, params), result_count = read_types(result_list, results);
    hosts[8] = host_of(setup[5], params, param_count, results, result_count, never);
    hosts[8].module = tegvurn_string(setup[4]);
    host_count = 9;
  }
  tegvurn_config config = {read_number(setup[0]), (uint32_t)read_number(setup[1]), (uint32_t)read_number(setup[2]),
                           (uint32_t)read_number(setup[3])};
  tegvurn_free(embedding);
  memset(&state, 0, sizeof state);
  tegvurn_end end;
  tegvurn_status status = quota == UINT64_MAX ? tegvurn_new(&config, hosts, host_count, &embedding, &end)
                                              : tegvurn_new_with_quota(&config, quota, hosts, host_count, &embedding, &end);
  if (status) say_end(&end);
  else say("done");
}

static void run_new(void) { make(UINT64_MAX, words + 1, word_count - 1); }

static void run_new_with_quota(void) { make(read_number(words[1]), words + 2, word_count - 2); }

static void say_number(tegvurn_status status, uint64_t number) {
  if (status) say_end(tegvurn_last(embedding));
  else say("%" PRIu64, number);
}

static void say_done(tegvurn_status status) {
  if (status) say_end(tegvurn_last(embedding));
  else say("done");
}

static void run_load(void) {
  const struct module *module = find_module(words[1]);
  uint64_t number = 0;
  tegvurn_status status = tegvurn_load(embedding, module->bytes, module->size, &number);
  say_number(status, number);
}

static void run_link(void) {
  uint64_t number = 0;
  tegvurn_status status = tegvurn_link(embedding, read_number(words[1]), &number);
  say_number(status, number);
}

static void run_register(void) { say_done(tegvurn_register(embedding, read_number(words[1]), tegvurn_string(words[2]))); }

static void run_call(void) {
  tegvurn_value args[MOST_VALUES], results[MOST_VALUES];
  size_t arg_count = word_count - 3, result_count;
  if (arg_count > MOST_VALUES) stop("too many arguments", words[2]);
  for (size_t i = 0; i < arg_count; i++) args[i] = read_value(words[3 + i]);
  tegvurn_status status =
      tegvurn_call(embedding, read_number(words[1]), tegvurn_string(words[2]), args, arg_count, results, MOST_VALUES, &result_count);
  if (status) say_end(tegvurn_last(embedding));
  else if (!result_count) say("nothing");
  for (size_t i = 0; i < result_count && !status; i++) {
    if (i) say(" ");
    say_value(results[i]);
  }
}

static void run_get(void) {
  tegvurn_value value;
  if (tegvurn_get_global(embedding, read_number(words[1]), tegvurn_string(words[2]), &value)) say_end(tegvurn_last(embedding));
  else say_value(value);
}

static void run_fuel(void) { say_done(tegvurn_set_fuel(embedding, read_number(words[1]))); }

static void run_left(void) {
  uint64_t fuel = 0;
  tegvurn_status status = tegvurn_fuel_left(embedding, &fuel);
  say_number(status, fuel);
}

static void run_quota_left(void) {
  uint64_t bytes = 0;
  tegvurn_status status = tegvurn_quota_left(embedding, &bytes);
  say_number(status, bytes);
}

/* Finds an export by its name, and compares it with the listed one, whose text begins at `start`. If they differ, it is appended to the
   result. */
static void say_found(uint64_t instance, tegvurn_text name, size_t start) {
  size_t end = answer_size, size = end - start;
  tegvurn_export *found;
  if (tegvurn_find_export(embedding, instance, name, &found)) {
    say_end(tegvurn_last(embedding));
    return;
  }
  say_export(found);
  tegvurn_exports_free(found);
  bool is_same = answer_size - end == size && !memcmp(answer + start, answer + end, size);
  if (is_same) answer[answer_size = end] = 0;
}

static void run_exports(void) {
  tegvurn_export *exports;
  uint64_t instance = read_number(words[1]);
  size_t number;
  if (tegvurn_exports(embedding, instance, &exports, &number)) {
    say_end(tegvurn_last(embedding));
    return;
  }
  if (!number) say("nothing");
  for (size_t i = 0; i < number; i++) {
    if (i) say(" ");
    size_t start = answer_size;
    say_export(&exports[i]);
    say_found(instance, exports[i].name, start);
  }
  tegvurn_exports_free(exports);
}

static void run_module_exports(void) {
  tegvurn_export *exports;
  size_t number;
  if (tegvurn_module_exports(embedding, read_number(words[1]), &exports, &number)) {
    say_end(tegvurn_last(embedding));
    return;
  }
  if (!number) say("nothing");
  for (size_t i = 0; i < number; i++) {
    if (i) say(" ");
    say_export(&exports[i]);
  }
  tegvurn_exports_free(exports);
}

static void run_module_imports(void) {
  tegvurn_import *imports;
  size_t number;
  if (tegvurn_module_imports(embedding, read_number(words[1]), &imports, &number)) {
    say_end(tegvurn_last(embedding));
    return;
  }
  if (!number) say("nothing");
  for (size_t i = 0; i < number; i++) {
    say("%s%.*s.", i ? " " : "", (int)imports[i].module_name.size, imports[i].module_name.bytes);
    say_export(&imports[i].named);
  }
  tegvurn_imports_free(imports);
}

static void run_explain(void) {
  char text[LONGEST_LINE / 2];
  if (tegvurn_explain(embedding, text, sizeof text) >= sizeof text) stop("too long an explanation", text);
  say("%s", *text ? text : "nothing");
}

static void run_script(void) {
  tegvurn_file files[MOST_FILES];
  tegvurn_report report;
  size_t file_count = word_count - 2, size;
  if (file_count > MOST_FILES) stop("too many files", words[2]);
  for (size_t i = 0; i < file_count; i++) {
    char *equals = strchr(words[2 + i], '=');
    if (!equals) stop("no file", words[2 + i]);
    const struct module *module = find_module(equals + 1);
    files[i] = (tegvurn_file){{words[2 + i], (size_t)(equals - words[2 + i])}, module->bytes, module->size};
  }
  uint8_t *json = read_digits(words[1], &size);
  if (tegvurn_script(embedding, json, size, files, file_count, &report)) {
    say_end(tegvurn_last(embedding));
  } else {
    say("report %" PRIu64 " %" PRIu64 " %" PRIu64, report.passed, report.failed, report.skipped);
    for (uint64_t i = 0; i < report.failed; i++) say(" %" PRIu64, report.failed_lines[i]);
  }
  free(json);
}

static void run_logged(void) {
  if (!state.logged) say("nothing");
  for (size_t i = 0; i < state.logged; i++) say("%02x", state.log[i]);
}

static const struct command {
  const char *name;
  size_t least, most; /* the numbers of words that the row may have, including the name */
  void (*run)(void);
} commands[] = {
    {"new", 5, 8, run_new},           {"load", 2, 2, run_load}, {"link", 2, 2, run_link}, {"register", 3, 3, run_register},
    {"call", 3, MOST_WORDS, run_call}, {"get", 3, 3, run_get},   {"fuel", 2, 2, run_fuel}, {"left", 1, 1, run_left},
    {"exports", 2, 2, run_exports},   {"script", 2, MOST_WORDS, run_script}, {"logged", 1, 1, run_logged},
    {"new_with_quota", 6, 6, run_new_with_quota}, {"quota_left", 1, 1, run_quota_left},
    {"module_exports", 2, 2, run_module_exports}, {"module_imports", 2, 2, run_module_imports},
    {"explain", 1, 1, run_explain},
};

static size_t split_words(char *line, char *into[MOST_WORDS]) {
  size_t number = 0;
  for (char *word = strtok(line, " "); word; word = strtok(NULL, " ")) {
    if (number == MOST_WORDS) stop("too many words", word);
    into[number++] = word;
  }
  return number;
}

static void run_command(char *row) {
  char *split[MOST_WORDS];
  words = split;
  word_count = split_words(row, split);
  for (size_t i = 0; i < sizeof commands / sizeof *commands; i++) {
    const struct command *command = &commands[i];
    if (!word_count || strcmp(words[0], command->name) || word_count < command->least || word_count > command->most) continue;
    if (!embedding && command->run != run_new && command->run != run_new_with_quota) stop("no embedding", words[0]);
    command->run();
    return;
  }
  stop("no command", row);
}

/* Runs a row, and prints it if it fails. Returns whether it passed. */
static bool run_row(char *line, size_t number) {
  char *wanted = strstr(line, " -> ");
  if (!wanted) stop("a row has no answer", line);
  *wanted = 0;
  wanted += 4;
  char row[LONGEST_LINE];
  strcpy(row, line);
  answer_size = 0;
  answer[0] = 0;
  run_command(row);
  if (!strcmp(answer, wanted)) return true;
  printf("line %zu: %.100s: wanted %s, got %s\n", number, line, wanted, answer);
  return false;
}

int main(int argc, char **argv) {
  static char line[LONGEST_LINE];
  size_t number = 0, passed = 0, failed = 0;
  FILE *file = argc == 2 ? fopen(argv[1], "r") : NULL;
  if (!file) stop("no file", argc == 2 ? argv[1] : "rows FILE");
  while (fgets(line, sizeof line, file)) {
    number++;
    size_t size = strcspn(line, "\n");
    if (!line[size] && !feof(file)) stop("too long a line", line);
    line[size] = 0;
    if (!size || line[0] == '#') continue;
    if (!strncmp(line, "module ", 7)) {
      char *blank = strchr(line + 7, ' ');
      if (blank) *blank = 0;
      keep_module(line + 7, blank ? blank + 1 : "");
    } else if (run_row(line, number)) {
      passed++;
    } else {
      failed++;
    }
  }
  fclose(file);
  tegvurn_free(embedding);
  for (size_t i = 0; i < module_count; i++) free(modules[i].bytes);
  printf("%zu passed, %zu failed\n", passed, failed);
  return failed || !passed;
}
