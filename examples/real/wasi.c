/* Runs a WASI command: wasi MODULE [ARGUMENT..]. It gets the arguments, the environment, and standard input, output and error.

   There are 23 functions of `wasi_snapshot_preview1`, made of host functions alone. That is what commands need that read and write text: no
   folder is open, so no path leads to a file. The status is that of the command. If it does not run to its end, the status is 100 or more,
   and standard error has a line that says why. */
#define _GNU_SOURCE
#include <stdio.h>
#include <stdlib.h>
#include <sys/random.h>
#include <tegvurn.h>
#include <time.h>
#include <unistd.h>

#define MOST_BYTES ((size_t)67108864) /* of a module */
#define MOST_PARAMS 9
#define COUNT(items) (sizeof(items) / sizeof *(items))

/* The errors that the functions return, by their numbers in WASI. */
enum error { SUCCESS = 0, BAD_DESCRIPTOR = 8, FAULT = 21, INVALID = 28, IO = 29, NOT_SUPPORTED = 58, NO_SEEK = 70 };

/* The statuses of the host. */
enum { USAGE = 100, UNREADABLE, REFUSED, TRAPPED, EXHAUSTED };

/* What the functions share. */
static char **arguments, **environment;
static int has_ended;
static uint32_t end_status;

/* The memory of the caller. Each function checks the bytes that it reads or writes. */

static uint32_t argument(const tegvurn_host_call *call, size_t i) { return call->args[i].i32; }

static uint8_t *bytes_at(const tegvurn_host_call *call, uint64_t start, uint64_t size) {
  return start + size <= call->memory_size ? call->memory + start : NULL;
}

/* Stores a number of 4 or 8 bytes, the lowest first, at an address in the memory. */
static enum error store(const tegvurn_host_call *call, uint32_t at, uint64_t number, size_t size) {
  uint8_t *to = bytes_at(call, at, size);
  for (size_t i = 0; to && i < size; i++) to[i] = (uint8_t)(number >> 8 * i);
  return to ? SUCCESS : FAULT;
}

static uint32_t load(const uint8_t *at) { return at[0] | at[1] << 8 | at[2] << 16 | (uint32_t)at[3] << 24; }

static FILE *file_of(uint32_t descriptor) { return descriptor == 0 ? stdin : descriptor == 1 ? stdout : descriptor == 2 ? stderr : NULL; }

/* Texts: arguments and the environment. */

static enum error store_sizes(const tegvurn_host_call *call, char **texts) {
  uint32_t count = 0, bytes = 0;
  for (; texts[count]; count++) bytes += (uint32_t)strlen(texts[count]) + 1;
  enum error error = store(call, argument(call, 0), count, 4);
  return error ? error : store(call, argument(call, 1), bytes, 4);
}

static enum error store_texts(const tegvurn_host_call *call, char **texts) {
  uint32_t pointers = argument(call, 0), at = argument(call, 1);
  for (; *texts; texts++, pointers += 4) {
    size_t size = strlen(*texts) + 1;
    uint8_t *to = bytes_at(call, at, size);
    if (!to || store(call, pointers, at, 4)) return FAULT;
    memcpy(to, *texts, size);
    at += (uint32_t)size;
  }
  return SUCCESS;
}

static enum error args_sizes_get(tegvurn_host_call *call) { return store_sizes(call, arguments); }
static enum error args_get(tegvurn_host_call *call) { return store_texts(call, arguments); }
static enum error environ_sizes_get(tegvurn_host_call *call) { return store_sizes(call, environment); }
static enum error environ_get(tegvurn_host_call *call) { return store_texts(call, environment); }

/* Descriptors: 0, 1 and 2 are open. */

/* Reads into parts of the memory, or writes them, in turn. Stores how many bytes that were. */
static enum error transfer(const tegvurn_host_call *call, int reads) {
  FILE *file = file_of(argument(call, 0));
  const uint8_t *parts = bytes_at(call, argument(call, 1), (uint64_t)argument(call, 2) * 8);
  if (!file || reads != (file == stdin)) return BAD_DESCRIPTOR;
  if (!parts) return FAULT;
  uint32_t total = 0, done = 0, size = 0;
  for (uint32_t i = 0; i < argument(call, 2) && done == size; i++) {
    uint8_t *part = bytes_at(call, load(parts + 8 * i), load(parts + 8 * i + 4));
    if (!part) return FAULT;
    size = load(parts + 8 * i + 4);
    done = (uint32_t)(reads ? fread(part, 1, size, file) : fwrite(part, 1, size, file));
    total += done;
  }
  return ferror(file) ? IO : store(call, argument(call, 3), total, 4);
}

static enum error fd_read(tegvurn_host_call *call) { return transfer(call, 1); }
static enum error fd_write(tegvurn_host_call *call) { return transfer(call, 0); }

/* The answer to a question about a descriptor that no question about a file can change. */
static enum error is_open(tegvurn_host_call *call) { return file_of(argument(call, 0)) ? SUCCESS : BAD_DESCRIPTOR; }
static enum error cannot_seek(tegvurn_host_call *call) { return file_of(argument(call, 0)) ? NO_SEEK : BAD_DESCRIPTOR; }
static enum error bad_descriptor(tegvurn_host_call *call) { return (void)call, BAD_DESCRIPTOR; }
static enum error not_supported(tegvurn_host_call *call) { return (void)call, NOT_SUPPORTED; }
static enum error success(tegvurn_host_call *call) { return (void)call, SUCCESS; }

/* Fills in a record whose first or third field is the type of a file: a device of characters. */
static enum error describe(const tegvurn_host_call *call, size_t size, size_t type_at) {
  uint8_t *to = bytes_at(call, argument(call, 1), size);
  if (!file_of(argument(call, 0))) return BAD_DESCRIPTOR;
  if (!to) return FAULT;
  memset(to, 0, size);
  to[type_at] = 2;
  return SUCCESS;
}

static enum error fd_filestat_get(tegvurn_host_call *call) { return describe(call, 64, 16); }

static enum error fd_fdstat_get(tegvurn_host_call *call) {
  enum error error = describe(call, 24, 0);
  uint64_t rights = argument(call, 0) ? 64 : 2; /* to write, or to read */
  return error ? error : store(call, argument(call, 1) + 8, rights, 8);
}

/* The rest of the world. */

static enum error time_of(const tegvurn_host_call *call, int (*ask)(clockid_t, struct timespec *), uint32_t at) {
  struct timespec time;
  uint32_t clock = argument(call, 0);
  if (clock > 1 || ask(clock ? CLOCK_MONOTONIC : CLOCK_REALTIME, &time)) return INVALID;
  return store(call, at, (uint64_t)time.tv_sec * 1000000000 + (uint64_t)time.tv_nsec, 8);
}

static enum error clock_res_get(tegvurn_host_call *call) { return time_of(call, clock_getres, argument(call, 1)); }
static enum error clock_time_get(tegvurn_host_call *call) { return time_of(call, clock_gettime, argument(call, 2)); }

static enum error random_get(tegvurn_host_call *call) {
  uint32_t size = argument(call, 1), done = 0;
  uint8_t *to = bytes_at(call, argument(call, 0), size);
  while (to && done < size) {
    ssize_t got = getrandom(to + done, size - done, 0);
    if (got < 0) return IO;
    done += (uint32_t)got;
  }
  return to ? SUCCESS : FAULT;
}

/* The functions: names, parameters (`i` for i32 and `I` for i64), and what they do. All return an error, except proc_exit. */
static const struct function {
  const char *name, *params;
  enum error (*call)(tegvurn_host_call *call);
} functions[] = {
    {"args_get", "ii", args_get},
    {"args_sizes_get", "ii", args_sizes_get},
    {"environ_get", "ii", environ_get},
    {"environ_sizes_get", "ii", environ_sizes_get},
    {"clock_res_get", "ii", clock_res_get},
    {"clock_time_get", "iIi", clock_time_get},
    {"fd_close", "i", is_open},
    {"fd_datasync", "i", is_open},
    {"fd_sync", "i", is_open},
    {"fd_fdstat_get", "ii", fd_fdstat_get},
    {"fd_fdstat_set_flags", "ii", is_open},
    {"fd_filestat_get", "ii", fd_filestat_get},
    {"fd_prestat_get", "ii", bad_descriptor},
    {"fd_prestat_dir_name", "iii", bad_descriptor},
    {"fd_read", "iiii", fd_read},
    {"fd_write", "iiii", fd_write},
    {"fd_seek", "iIii", cannot_seek},
    {"fd_tell", "ii", cannot_seek},
    {"path_open", "iiiiiIIii", bad_descriptor},
    {"poll_oneoff", "iiii", not_supported},
    {"proc_exit", "i", NULL},
    {"random_get", "ii", random_get},
    {"sched_yield", "", success},
};

/* The callback of all functions. `proc_exit` ends the call by a trap, of which the host knows that it is none. */
static bool callback(void *context, tegvurn_host_call *call) {
  const struct function *function = context;
  if (!function->call) {
    has_ended = 1;
    end_status = argument(call, 0);
    return false;
  }
  call->results[0] = tegvurn_i32(function->call(call));
  return true;
}

static tegvurn_host host_of(const struct function *function, tegvurn_type *params) {
  static const tegvurn_type error = TEGVURN_TYPE_I32;
  size_t count = strlen(function->params);
  for (size_t i = 0; i < count; i++) params[i] = function->params[i] == 'I' ? TEGVURN_TYPE_I64 : TEGVURN_TYPE_I32;
  return (tegvurn_host){tegvurn_string("wasi_snapshot_preview1"), tegvurn_string(function->name), params, count,
                        &error, function->call ? 1 : 0, callback, (void *)function};
}

/* Loads and links a command, and calls `_start`. Returns the status. */
static int run(tegvurn *embedding, const uint8_t *bytes, size_t size) {
  uint64_t module, instance;
  tegvurn_status status = tegvurn_load(embedding, bytes, size, &module);
  if (status == TEGVURN_STATUS_DONE) status = tegvurn_link(embedding, module, &instance);
  if (status == TEGVURN_STATUS_DONE) status = tegvurn_call(embedding, instance, tegvurn_string("_start"), NULL, 0, NULL, 0, NULL);
  if (has_ended) return (int)(end_status & 0xFF);
  if (status == TEGVURN_STATUS_DONE) return 0;
  fprintf(stderr, "wasi: %s\n", tegvurn_last(embedding)->text);
  return status == TEGVURN_STATUS_TRAP ? TRAPPED : status == TEGVURN_STATUS_EXHAUSTED ? EXHAUSTED : REFUSED;
}

int main(int count, char **words) {
  static tegvurn_type params[COUNT(functions)][MOST_PARAMS];
  static tegvurn_host hosts[COUNT(functions)];
  if (count < 2) return fprintf(stderr, "usage: wasi MODULE [ARGUMENT..]\n"), USAGE;
  arguments = words + 1;
  environment = environ;
  FILE *file = fopen(words[1], "rb");
  uint8_t *bytes = file ? malloc(MOST_BYTES) : NULL;
  if (!bytes) return fprintf(stderr, "wasi: cannot read %s\n", words[1]), UNREADABLE;
  size_t size = fread(bytes, 1, MOST_BYTES, file);
  fclose(file);
  for (size_t i = 0; i < COUNT(functions); i++) hosts[i] = host_of(&functions[i], params[i]);
  tegvurn_config config = TEGVURN_DEFAULT_CONFIG;
  config.fuel = 1000000000000;
  config.depth = 10000;
  tegvurn *embedding;
  tegvurn_end end;
  if (tegvurn_new(&config, hosts, COUNT(hosts), &embedding, &end) != TEGVURN_STATUS_DONE)
    return fprintf(stderr, "wasi: %s\n", end.text), free(bytes), REFUSED;
  int status = run(embedding, bytes, size);
  tegvurn_free(embedding);
  free(bytes);
  return fflush(stdout) ? UNREADABLE : status;
}
