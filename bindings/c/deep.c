/* Measures how much of its stack the proved code uses, with deeply nested and long modules and scripts, calls to the greatest depth, and
   many exports. The status is 1 if it uses more than MOST, which is a fraction of the stack. This works only with stacks that are switched
   in assembly.

   It also checks that the C side refuses a module that is too large in the same way as the proved code. */
#include "tegvurn.c"
#include "test_module.h"

#include <stdio.h>

#define MOST (STACK_SIZE / 4)
#define LEVELS 100000
#define PAINT 0xA5

static int failed;
static size_t most_used;

static void check(bool is_so, const char *what) {
  if (is_so) return;
  printf("%s\n", what);
  failed++;
}

/* The bytes of a module or a script */

static uint8_t bytes[12 * LEVELS];
static size_t size;

static void put(const void *more, size_t count) {
  memcpy(bytes + size, more, count);
  size += count;
}

static void put_often(const char *text, size_t times) {
  for (size_t i = 0; i < times; i++) put(text, strlen(text));
}

/* Appends a number in four bytes, as the binary format encodes it. */
static void put_long(size_t number) {
  const uint8_t digits[] = {(uint8_t)(number | 0x80), (uint8_t)(number >> 7 | 0x80), (uint8_t)(number >> 14 | 0x80),
                            (uint8_t)(number >> 21 & 0x7F)};
  put(digits, sizeof digits);
}

static const char head[] = "\0asm\1\0\0\0";

/* Encodes (module (func block .. end ..)), with these bytes in place of `block`. */
static void spell_blocks(const char *beginning) {
  size_t body = LEVELS * (strlen(beginning) + 1) + 2;
  size = 0;
  put(head, 8);
  put("\1\4\1\x60\0\0\3\2\1\0\x0a", 11);
  put_long(5 + body);
  put("\1", 1);
  put_long(body);
  put("\0", 1);
  put_often(beginning, LEVELS);
  put_often("\x0b", LEVELS + 1);
}

/* Encodes (module (global i32 (i32.add (i32.const 1) (i32.add ..)))): first all constants, and then all sums. */
static void spell_sum(void) {
  size = 0;
  put(head, 8);
  put("\6", 1);
  put_long(1 + 2 + 2 * (LEVELS + 1) + LEVELS + 1);
  put("\1\x7f\0", 3);
  put_often("\x41\1", LEVELS + 1);
  put_often("\x6a", LEVELS);
  put("\x0b", 1);
}

/* The stack */

static size_t stack_used(const tegvurn *m) {
  const uint8_t *at = m->stack.at + m->stack.size - STACK_SIZE, *end = m->stack.at + m->stack.size;
  while (at < end && *at == PAINT) at++;
  return (size_t)(end - at);
}

/* Returns an embedding whose stack is painted, except for the part that is in use while it waits. */
static tegvurn *begin_painted(void) {
  const tegvurn_config config = {10 * LEVELS, 65535, 16, 100};
  tegvurn *m;
  check(tegvurn_new(&config, NULL, 0, &m, NULL) == TEGVURN_STATUS_DONE, "no embedding");
  uint8_t *lowest = m->stack.at + m->stack.size - STACK_SIZE;
  memset(lowest, PAINT, (size_t)((uint8_t *)m->stack.inside - lowest));
  return m;
}

/* Checks how much of the stack was used, and frees the embedding. */
static void end_painted(tegvurn *m, const char *what) {
  size_t used = stack_used(m);
  if (most_used < used) most_used = used;
  if (used > MOST) printf("%zu bytes are too much: %s\n", used, what), failed++;
  check(tegvurn_free(m) == TEGVURN_STATUS_DONE, "it is not freed");
}

/* Loads and links the module in `bytes`. */
static void load(const char *what) {
  tegvurn *m = begin_painted();
  uint64_t number;
  check(tegvurn_load(m, bytes, size, &number) == TEGVURN_STATUS_DONE, "it is not loaded");
  check(tegvurn_link(m, number, &number) == TEGVURN_STATUS_DONE, "it is not linked");
  end_painted(m, what);
}

/* Calls the export of (module (func $f (export "f") call $f)). */
static void call_to_the_greatest_depth(void) {
  static const char recursion[] = "\0asm\1\0\0\0\1\4\1\x60\0\0\3\2\1\0\7\5\1\1f\0\0\x0a\6\1\4\0\x10\0\x0b";
  tegvurn *m = begin_painted();
  uint64_t number;
  check(tegvurn_load(m, recursion, sizeof recursion - 1, &number) == TEGVURN_STATUS_DONE, "it is not loaded");
  check(tegvurn_link(m, number, &number) == TEGVURN_STATUS_DONE, "it is not linked");
  check(tegvurn_call(m, number, tegvurn_string("f"), NULL, 0, NULL, 0, NULL) == TEGVURN_STATUS_EXHAUSTED, "it is not exhausted");
  check(tegvurn_last(m)->number == TEGVURN_EXHAUSTION_DEPTH, "it is exhausted otherwise");
  end_painted(m, "a recursion to the depth of 65,535");
}

/* Lists many exports, and finds one of them. */
static void list_many_exports(void) {
  tegvurn *m = begin_painted();
  tegvurn_export *exports = NULL, *found = NULL;
  uint64_t number;
  size_t count = 0;
  size = spell_exports(bytes, MANY_EXPORTS, MANY_TYPES);
  check(tegvurn_load(m, bytes, size, &number) == TEGVURN_STATUS_DONE, "it is not loaded");
  check(tegvurn_link(m, number, &number) == TEGVURN_STATUS_DONE, "it is not linked");
  check(tegvurn_exports(m, number, &exports, &count) == TEGVURN_STATUS_DONE && count == MANY_EXPORTS, "its exports are not listed");
  check(tegvurn_find_export(m, number, tegvurn_string("000"), &found) == TEGVURN_STATUS_DONE, "no export is found");
  tegvurn_exports_free(exports);
  tegvurn_exports_free(found);
  end_painted(m, "many exports");
}

/* Runs the script in `bytes`, which must be refused. */
static void refuse_script(const char *what) {
  tegvurn *m = begin_painted();
  tegvurn_report report;
  check(tegvurn_script(m, bytes, size, NULL, 0, &report) == TEGVURN_STATUS_REFUSED, "it is not refused");
  end_painted(m, what);
}

static bool is_same_end(const tegvurn_end *one, const tegvurn_end *other) {
  return one->status == other->status && one->number == other->number && !strcmp(one->name, other->name) && one->place == other->place &&
         one->at == other->at && one->code == other->code && !strcmp(one->text, other->text);
}

/* Loads the largest allowed number of zeros, and one more. The C side refuses only the second module itself, with the same end as the
   proved code. */
static void load_too_much(void) {
  void *zeros = mmap(NULL, MOST_BYTES + 1, PROT_READ, MAP_PRIVATE | MAP_ANONYMOUS, -1, 0);
  check(zeros != MAP_FAILED, "no zeros");
  for (size_t more = 0; more < 2; more++) {
    tegvurn *m = begin_painted();
    uint64_t number;
    send_short(m, ORDER_LOAD, NULL, zeros, MOST_BYTES + more);
    tegvurn_end proved = m->end;
    check((proved.number == TEGVURN_REFUSAL_LIMIT) == (more == 1), "another size is the greatest");
    check(tegvurn_load(m, zeros, MOST_BYTES + more, &number) == TEGVURN_STATUS_REFUSED, "it is not refused");
    check(is_same_end(&m->end, &proved), "the C side refuses it in another way");
    end_painted(m, "a module that is too large");
  }
  munmap(zeros, MOST_BYTES + 1);
}

int main(void) {
  spell_blocks("\2\x40");
  load("nested blocks");
  spell_blocks("\3\x40");
  load("nested loops");
  spell_blocks("\x41\1\4\x40");
  load("nested branches of if");
  spell_sum();
  load("a constant expression");
  call_to_the_greatest_depth();
  list_many_exports();
  size = 0;
  put_often("[", LEVELS);
  refuse_script("nested arrays that do not end");
  put_often("]", LEVELS);
  refuse_script("nested arrays");
  size = 0;
  put_often("{\"a\":", LEVELS);
  refuse_script("nested objects that do not end");
  load_too_much();
  printf("%zu bytes of stack at most, %d failed\n", most_used, failed);
  return failed != 0;
}
