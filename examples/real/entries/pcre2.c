/* pcre2: searches the rest of the input for the pattern in its first line. Writes a line for each match: where its groups start and end. */
#include <stdio.h>

#include "entry.h"

#define PCRE2_CODE_UNIT_WIDTH 8
#include <pcre2.h>

static int report(int number, int status) {
  static PCRE2_UCHAR text[256];
  pcre2_get_error_message(number, text, sizeof text);
  return fail(status, (const char *)text);
}

static void write_match(const PCRE2_SIZE *places, uint32_t count) {
  char part[32];
  for (uint32_t i = 0; i < 2 * count; i++) {
    int size = places[i] == PCRE2_UNSET ? snprintf(part, sizeof part, "- ") : snprintf(part, sizeof part, "%u ", (unsigned)places[i]);
    host_write(part, (size_t)size);
  }
  write_text("\n");
}

static int search(const pcre2_code *code, struct bytes text) {
  pcre2_match_data *match = pcre2_match_data_create_from_pattern(code, NULL);
  if (!match) return out_of_memory();
  const PCRE2_SIZE *places = pcre2_get_ovector_pointer(match);
  for (PCRE2_SIZE at = 0; at <= text.size;) {
    int found = pcre2_match(code, text.at, text.size, at, 0, match, NULL);
    if (found == PCRE2_ERROR_NOMATCH) break;
    if (found < 0) return report(found, REFUSED);
    write_match(places, (uint32_t)found);
    at = places[1] > places[0] ? places[1] : places[1] + 1;
  }
  pcre2_match_data_free(match);
  return 0;
}

int run(int mode) {
  if (mode != FORTH) return NO_SUCH_MODE;
  struct bytes input = read_input();
  if (!input.at) return out_of_memory();
  uint8_t *end = memchr(input.at, '\n', input.size);
  if (!end) return fail(REFUSED, "no line of a pattern");
  int error;
  PCRE2_SIZE place;
  pcre2_code *code = pcre2_compile(input.at, (PCRE2_SIZE)(end - input.at), PCRE2_MULTILINE, &error, &place, NULL);
  if (!code) return report(error, REFUSED);
  int status = search(code, (struct bytes){end + 1, input.size - (size_t)(end + 1 - input.at)});
  pcre2_code_free(code);
  return status;
}
