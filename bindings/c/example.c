/* A plug-in host: it calls the exports of a plug-in, each with a limit of fuel, and provides two host functions.
   Usage: example plugin.wasm */
#include <stdio.h>
#include <stdlib.h>
#include <tegvurn.h>

struct text {
  char bytes[1000];
  size_t size;
};

/* count () -> i32: returns how often it has been called, including this call. */
static bool count(void *context, tegvurn_host_call *call) {
  uint32_t *calls = context;
  call->results[0] = tegvurn_i32(++*calls);
  return true;
}

/* write (start: i32, length: i32): appends bytes of the plug-in's memory to a text. Traps with the code 1 if they are not all in the
   memory, and with 2 if the text is full. */
static bool write_text(void *context, tegvurn_host_call *call) {
  struct text *text = context;
  uint64_t start = call->args[0].i32, length = call->args[1].i32;
  bool is_there = start + length <= call->memory_size;
  if (!is_there || length > sizeof text->bytes - text->size) {
    call->trap = is_there ? 2 : 1;
    return false;
  }
  if (length) memcpy(text->bytes + text->size, call->memory + start, length);
  text->size += length;
  return true;
}

/* Calls an export that has at most one result, an i32, and prints how the call ended. */
static void call_export(tegvurn *embedding, uint64_t plugin, const char *name, const tegvurn_value *args, size_t arg_count) {
  tegvurn_value result;
  size_t count;
  tegvurn_set_fuel(embedding, 1000);
  tegvurn_status status = tegvurn_call(embedding, plugin, tegvurn_string(name), args, arg_count, &result, 1, &count);
  if (status != TEGVURN_STATUS_DONE) printf("%s: %s\n", name, tegvurn_last(embedding)->text);
  else if (count == 1) printf("%s: %u\n", name, result.i32);
  else printf("%s: done\n", name);
}

/* Loads and links a plug-in, and calls its exports. */
static tegvurn_status run(tegvurn *embedding, const void *bytes, size_t size) {
  const tegvurn_value one_and_zero[] = {tegvurn_i32(1), tegvurn_i32(0)};
  uint64_t module, plugin;
  tegvurn_status status = tegvurn_load(embedding, bytes, size, &module);
  if (status == TEGVURN_STATUS_DONE) status = tegvurn_link(embedding, module, &plugin);
  if (status != TEGVURN_STATUS_DONE) return status;
  call_export(embedding, plugin, "greet", NULL, 0);
  call_export(embedding, plugin, "greet", NULL, 0);
  call_export(embedding, plugin, "divide", one_and_zero, 2);
  call_export(embedding, plugin, "write_outside", NULL, 0);
  call_export(embedding, plugin, "spin", NULL, 0);
  call_export(embedding, plugin, "nosuch", NULL, 0);
  return TEGVURN_STATUS_DONE;
}

int main(int argc, char **argv) {
  static uint8_t bytes[1 << 20];
  FILE *file = argc == 2 ? fopen(argv[1], "rb") : NULL;
  if (!file) return EXIT_FAILURE;
  size_t size = fread(bytes, 1, sizeof bytes, file);
  fclose(file);

  uint32_t calls = 0;
  struct text text = {"", 0};
  const tegvurn_type numbers[] = {TEGVURN_TYPE_I32, TEGVURN_TYPE_I32};
  const tegvurn_host hosts[] = {
      {tegvurn_string("host"), tegvurn_string("count"), NULL, 0, numbers, 1, count, &calls},
      {tegvurn_string("host"), tegvurn_string("write"), numbers, 2, NULL, 0, write_text, &text},
  };
  const tegvurn_config config = {.fuel = 1000, .depth = 100, .pages = 16, .entries = 100};
  tegvurn *embedding;
  tegvurn_end end;
  if (tegvurn_new(&config, hosts, 2, &embedding, &end) != TEGVURN_STATUS_DONE) return printf("no embedding: %s\n", end.text), EXIT_FAILURE;
  tegvurn_status status = run(embedding, bytes, size);
  if (status != TEGVURN_STATUS_DONE) printf("no plug-in: %s\n", tegvurn_last(embedding)->text);
  printf("it wrote: %.*s\n", (int)text.size, text.bytes);
  tegvurn_free(embedding);
  return status == TEGVURN_STATUS_DONE ? EXIT_SUCCESS : EXIT_FAILURE;
}
