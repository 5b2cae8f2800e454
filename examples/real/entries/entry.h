/* What the entries share: reading the input, and reporting errors. */
#ifndef ENTRY_H
#define ENTRY_H
#include <stdint.h>
#include <stdlib.h>
#include <string.h>

#include "host.h"

/* The modes of most programs. */
enum { FORTH = 0, BACK = 1 };

/* The statuses of errors. */
enum { REFUSED = 1, OUT_OF_MEMORY = 2, NO_SUCH_MODE = 3 };

struct bytes {
  uint8_t *at;
  size_t size;
};

/* Reads the whole input, and adds a zero byte after it. If memory runs out, `at` is NULL. */
static inline struct bytes read_input(void) {
  struct bytes input = {NULL, 0};
  for (size_t room = 65536;; room *= 2) {
    uint8_t *grown = realloc(input.at, room + 1);
    if (!grown) return free(input.at), (struct bytes){NULL, 0};
    input.at = grown;
    input.size += host_read(input.at + input.size, room - input.size);
    if (input.size < room) return input.at[input.size] = 0, input;
  }
}

/* Writes a text. */
static inline void write_text(const char *text) { host_write(text, strlen(text)); }

/* Writes the message of an error on a line of its own. Returns a status. */
static inline int fail(int status, const char *message) {
  write_text("error: ");
  write_text(message);
  write_text("\n");
  return status;
}

static inline int out_of_memory(void) { return fail(OUT_OF_MEMORY, "out of memory"); }

/* Writes a number of four bytes, the lowest first, or reads one. */
static inline void write_number(uint32_t number) {
  uint8_t bytes[] = {(uint8_t)number, (uint8_t)(number >> 8), (uint8_t)(number >> 16), (uint8_t)(number >> 24)};
  host_write(bytes, 4);
}

static inline uint32_t number_at(const uint8_t *at) { return at[0] | at[1] << 8 | at[2] << 16 | (uint32_t)at[3] << 24; }
#endif
