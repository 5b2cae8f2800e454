/* Runs a program: host MODULE [MODE [FUEL]]. Its input is standard input, and its output goes to standard output.

   The module imports `host.read`, `host.write` and `host.exit`, or some of them, and exports `run` and its memory (library/host.h). The
   status is what `run` returns, or what the module passes to `exit`. If the module does not run to its end, the status is 100 or more, and
   standard error has a line that says why. If the variable COSTS is set, standard error gets a line with the fuel that the call spent and
   the pages of the memory at its end. */
#include <stdio.h>
#include <stdlib.h>
#include <tegvurn.h>

#define MOST_BYTES ((size_t)67108864) /* of a module */
#define FUEL 1000000000000u
#define DEPTH 10000
#define PAGES 16384

/* The statuses of the host. */
enum { USAGE = 100, UNREADABLE, REFUSED, TRAPPED, EXHAUSTED };

/* Returns the bytes that a guest's pointer and size denote, or NULL if they are not all in its memory. */
static uint8_t *bytes_at(const tegvurn_host_call *call) {
  uint64_t start = call->args[0].i32, size = call->args[1].i32;
  return start + size <= call->memory_size ? call->memory + start : NULL;
}

/* read (to: i32, size: i32) -> i32: reads standard input. Traps with the code 1 if the bytes are not all in the memory. */
static bool read_input(void *context, tegvurn_host_call *call) {
  (void)context;
  uint8_t *to = bytes_at(call);
  call->trap = 1;
  if (to) call->results[0] = tegvurn_i32((uint32_t)fread(to, 1, call->args[1].i32, stdin));
  return to != NULL;
}

/* write (from: i32, size: i32): writes standard output. Traps with the code 1 as above, and with 2 if the output fails. */
static bool write_output(void *context, tegvurn_host_call *call) {
  (void)context;
  const uint8_t *from = bytes_at(call);
  call->trap = from ? 2 : 1;
  return from && fwrite(from, 1, call->args[1].i32, stdout) == call->args[1].i32;
}

static bool has_ended;
static int end_status;

/* exit (status: i32): ends the call by a trap, which run_module takes for an end. */
static bool end(void *context, tegvurn_host_call *call) {
  (void)context;
  has_ended = true;
  end_status = (int)call->args[0].i32;
  return false;
}

/* Reads a module. Returns its bytes, or NULL. */
static uint8_t *read_file(const char *path, size_t *size) {
  FILE *file = fopen(path, "rb");
  uint8_t *bytes = file ? malloc(MOST_BYTES) : NULL;
  if (bytes) *size = fread(bytes, 1, MOST_BYTES, file);
  if (file) fclose(file);
  return bytes;
}

/* Prints why a call of the library is not done. Returns the status of the host. */
static int report(const tegvurn_end *end) {
  fprintf(stderr, "host: %s\n", end->text);
  return end->status == TEGVURN_STATUS_TRAP ? TRAPPED : end->status == TEGVURN_STATUS_EXHAUSTED ? EXHAUSTED : REFUSED;
}

/* Prints what the call cost. */
static void print_costs(tegvurn *embedding, uint64_t instance, uint64_t fuel) {
  uint64_t left;
  tegvurn_export *memory;
  tegvurn_fuel_left(embedding, &left);
  if (tegvurn_find_export(embedding, instance, tegvurn_string("memory"), &memory) != TEGVURN_STATUS_DONE) return;
  fprintf(stderr, "fuel %llu pages %llu\n", (unsigned long long)(fuel - left), (unsigned long long)memory->minimum);
  tegvurn_exports_free(memory);
}

/* Loads and links a module, and calls `run` with a mode. Returns the status of the host. */
static int run_module(tegvurn *embedding, const uint8_t *bytes, size_t size, uint32_t mode) {
  const tegvurn_value argument = tegvurn_i32(mode);
  tegvurn_value result;
  uint64_t module, instance, fuel;
  tegvurn_status status = tegvurn_load(embedding, bytes, size, &module);
  if (status == TEGVURN_STATUS_DONE) status = tegvurn_link(embedding, module, &instance);
  if (status != TEGVURN_STATUS_DONE) return report(tegvurn_last(embedding));
  tegvurn_fuel_left(embedding, &fuel);
  status = tegvurn_call(embedding, instance, tegvurn_string("run"), &argument, 1, &result, 1, NULL);
  if (status != TEGVURN_STATUS_DONE && !has_ended) return report(tegvurn_last(embedding));
  if (getenv("COSTS")) print_costs(embedding, instance, fuel);
  return has_ended ? end_status : (int)result.i32;
}

int main(int count, char **arguments) {
  if (count < 2 || count > 4) return fprintf(stderr, "usage: host MODULE [MODE [FUEL]]\n"), USAGE;
  size_t size = 0;
  uint8_t *bytes = read_file(arguments[1], &size);
  if (!bytes) return fprintf(stderr, "host: cannot read %s\n", arguments[1]), UNREADABLE;

  const tegvurn_type numbers[] = {TEGVURN_TYPE_I32, TEGVURN_TYPE_I32};
  const tegvurn_host hosts[] = {
      {tegvurn_string("host"), tegvurn_string("read"), numbers, 2, numbers, 1, read_input, NULL},
      {tegvurn_string("host"), tegvurn_string("write"), numbers, 2, NULL, 0, write_output, NULL},
      {tegvurn_string("host"), tegvurn_string("exit"), numbers, 1, NULL, 0, end, NULL},
  };
  tegvurn_config config = TEGVURN_DEFAULT_CONFIG;
  config.fuel = count > 3 ? strtoull(arguments[3], NULL, 10) : FUEL;
  config.depth = DEPTH;
  config.pages = PAGES;
  tegvurn *embedding;
  tegvurn_end fault;
  if (tegvurn_new(&config, hosts, 3, &embedding, &fault) != TEGVURN_STATUS_DONE) return free(bytes), report(&fault);
  int status = run_module(embedding, bytes, size, count > 2 ? (uint32_t)strtoul(arguments[2], NULL, 10) : 0);
  tegvurn_free(embedding);
  free(bytes);
  return fflush(stdout) ? UNREADABLE : status;
}
