/* jsmn: reads a text of JSON, and writes a line for each of its tokens. */
#include <stdio.h>

#include "entry.h"

#define JSMN_STATIC
#define JSMN_STRICT
#define JSMN_PARENT_LINKS
#include <jsmn.h>

static int report(int error) {
  if (error == JSMN_ERROR_PART) return fail(REFUSED, "unexpected end");
  return error == JSMN_ERROR_NOMEM ? out_of_memory() : fail(REFUSED, "no JSON");
}

static void write_token(const jsmntok_t *token) {
  char line[80];
  int size = snprintf(line, sizeof line, "%d %d %d %d %d\n", token->type, token->start, token->end, token->size, token->parent);
  host_write(line, (size_t)size);
}

int run(int mode) {
  if (mode != FORTH) return NO_SUCH_MODE;
  struct bytes input = read_input();
  if (!input.at) return out_of_memory();
  jsmn_parser parser;
  jsmn_init(&parser);
  int count = jsmn_parse(&parser, (const char *)input.at, input.size, NULL, 0);
  if (count < 0) return report(count);
  jsmntok_t *tokens = calloc((size_t)count + 1, sizeof *tokens);
  if (!tokens) return out_of_memory();
  jsmn_init(&parser);
  count = jsmn_parse(&parser, (const char *)input.at, input.size, tokens, (unsigned)count);
  if (count < 0) return report(count);
  for (int i = 0; i < count; i++) write_token(&tokens[i]);
  free(tokens);
  return 0;
}
