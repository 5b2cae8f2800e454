/* Tests of the C side over a stand-in for the proved code: ends that the proved code never reaches, long texts, invalid replies, wrong
   lists of exports, reads and writes of an abandoned embedding, and threads that take, call and free one embedding. */
#include "tegvurn.c"

#include <pthread.h>
#include <setjmp.h>
#include <stdio.h>

/* The declarations in other languages rely on these sizes. */
#if UINTPTR_MAX == UINT64_MAX
_Static_assert(sizeof(tegvurn_value) == 16 && sizeof(tegvurn_end) == 168 && sizeof(tegvurn_config) == 24, "sizes");
_Static_assert(sizeof(tegvurn_host_call) == 56 && sizeof(tegvurn_host) == 80 && sizeof(tegvurn_export) == 88, "sizes");
_Static_assert(sizeof(tegvurn_file) == 32 && sizeof(tegvurn_report) == 32 && sizeof(tegvurn_provided) == 72, "sizes");
#endif

#define CHECK(is_so) check((is_so), __LINE__, #is_so)

static int passed, failed;

static void check(bool is_so, int line, const char *what) {
  if (is_so) passed++;
  else failed++, printf("line %d: %s\n", line, what);
}

/* The stand-in replies `done` to each order except the one of this number, counted from 0. To that one it replies with these bytes, and
   then it ends with the status, or continues if the status is GOES_ON. If the status is ASKS_FIRST, it requests a host function, replies
   `done`, and continues. */
#define GOES_ON 99
#define ASKS_FIRST 98
static int special_order;
static const uint8_t *special_reply;
static size_t special_size;
static uint32_t special_status;

static bool read_whole(void *to, size_t size) {
  for (size_t at = 0; at < size;) {
    ssize_t some = tegvurn_read(0, (uint8_t *)to + at, size - at);
    if (some <= 0) return false;
    at += (size_t)some;
  }
  return true;
}

/* The size of the read of the ten borrowed bytes of a requested host function, and what that read returned. */
static ssize_t lent_piece = 10, last_read;
/* Whether the stand-in read the byte that the callback wrote, and then an answer with results. */
static bool was_answered;

/* Requests the host function 0, which borrows ten bytes. */
static void ask_for_host(void) {
  uint8_t request[HEAD + 2 * NUMBER] = {2 * NUMBER, 0, 0, 0, 0, 0, 0, 0, REQUEST_CALL, 0, 0, 0, 0, 0, 0, 0, 0, 0, 0, 0, 0, 0, 0, 0, 10};
  uint8_t put[HEAD + NUMBER], lent[10] = "0123456789", answer[HEAD];
  tegvurn_write(0, request, sizeof request);
  if (!read_whole(put, sizeof put) || number_at(put + NUMBER) != 23) return;
  last_read = tegvurn_read(0, lent, (size_t)lent_piece);
  if (last_read == 10 && lent[9] == 'x') was_answered = read_whole(answer, sizeof answer) && number_at(answer + NUMBER) == 20;
}

/* How many orders the stand-in has replied to. Only the thread that is inside changes this. */
static long replies;

/* What the stand-in found last: the status when it tried to abandon its own embedding, and what its read and write returned afterwards. */
static tegvurn_status abandoned_inside;
static ssize_t read_last = 9, written_last;

uint32_t tegvurn_serve(int32_t ask, int32_t hear) {
  static const uint8_t done[HEAD];
  tegvurn *m = running; /* as in the C side, it is not read again after another thread may have come here */
  (void)ask, (void)hear;
  for (int order = 0;; order++) {
    uint8_t head[HEAD], byte;
    if (order == special_order && !special_size && special_status < ASKS_FIRST) return special_status;
    if (!read_whole(head, HEAD)) return 1;
    for (uint64_t left = number_at(head); left; left--)
      if (!read_whole(&byte, 1)) return 2;
    /* Reading no bytes returns at once. */
    if (tegvurn_read(0, &byte, 0)) return 2;
    bool is_special = order == special_order && special_status != ASKS_FIRST;
    if (order == special_order && special_status == ASKS_FIRST) ask_for_host();
    if (!m->is_abandoned) abandoned_inside = tegvurn_abandon(m);
    const uint8_t *reply = is_special ? special_reply : done;
    replies++;
    written_last = tegvurn_write(0, reply, is_special ? special_size : HEAD);
    if (m->is_abandoned) read_last = tegvurn_read(0, &byte, 1);
    if (is_special && special_status != GOES_ON) return special_status;
    if (number_at(head + NUMBER) == ORDER_END) return 0;
  }
}

/* Sets what the stand-in does. */
static void have_reply(int order, const void *reply, size_t size, uint32_t status) {
  special_order = order;
  special_reply = reply;
  special_size = size;
  special_status = status;
}

static const tegvurn_config config = {1, 1, 1, 1};

static tegvurn *embedding_of(void) {
  tegvurn *embedding;
  tegvurn_new(&config, NULL, 0, &embedding, NULL);
  return embedding;
}

/* The stand-in ends at once, before the first order is done. */
static void test_no_beginning(void) {
  tegvurn *embedding = (tegvurn *)&config;
  tegvurn_end end;
  have_reply(0, NULL, 0, 4);
  CHECK(tegvurn_new(&config, NULL, 0, &embedding, &end) == TEGVURN_STATUS_REFUSED && !embedding);
  CHECK(end.status == TEGVURN_STATUS_REFUSED && end.number == TEGVURN_REFUSAL_OUT_OF_MEMORY && !strcmp(end.name, "OutOfMemory"));
  CHECK(!strcmp(end.text, "out of memory"));
  have_reply(0, NULL, 0, 0);
  CHECK(tegvurn_new(&config, NULL, 0, &embedding, &end) == TEGVURN_STATUS_OVER && !embedding);
  CHECK(end.status == TEGVURN_STATUS_OVER && !strcmp(end.name, "Over"));
  have_reply(0, NULL, 0, 3);
  CHECK(tegvurn_new(&config, NULL, 0, &embedding, NULL) == TEGVURN_STATUS_OVER && !embedding);
}

/* Calls after the end of the stand-in return `TEGVURN_STATUS_OVER`, and change nothing. */
static void test_over(void) {
  uint64_t number = 77;
  tegvurn_value value = tegvurn_i32(5);
  tegvurn_export *exports;
  tegvurn_report report;
  size_t count = 3;
  have_reply(2, NULL, 0, 0);
  tegvurn *embedding = embedding_of();
  CHECK(embedding && tegvurn_set_fuel(embedding, 1) == TEGVURN_STATUS_DONE);
  CHECK(tegvurn_set_fuel(embedding, 1) == TEGVURN_STATUS_OVER);
  CHECK(tegvurn_load(embedding, "", 0, &number) == TEGVURN_STATUS_OVER && number == 77);
  CHECK(tegvurn_link(embedding, 0, &number) == TEGVURN_STATUS_OVER && number == 77);
  CHECK(tegvurn_register(embedding, 0, tegvurn_string("m")) == TEGVURN_STATUS_OVER);
  CHECK(tegvurn_call(embedding, 0, tegvurn_string("f"), NULL, 0, &value, 1, &count) == TEGVURN_STATUS_OVER && !count && value.i32 == 5);
  CHECK(tegvurn_get_global(embedding, 0, tegvurn_string("g"), &value) == TEGVURN_STATUS_OVER && value.i32 == 5);
  CHECK(tegvurn_fuel_left(embedding, &number) == TEGVURN_STATUS_OVER && number == 77);
  CHECK(tegvurn_quota_left(embedding, &number) == TEGVURN_STATUS_OVER && number == 77);
  CHECK(tegvurn_exports(embedding, 0, &exports, &count) == TEGVURN_STATUS_OVER);
  CHECK(tegvurn_find_export(embedding, 0, tegvurn_string("f"), &exports) == TEGVURN_STATUS_OVER);
  CHECK(tegvurn_script(embedding, "", 0, NULL, 0, &report) == TEGVURN_STATUS_OVER);
  const tegvurn_end *end = tegvurn_last(embedding);
  CHECK(end->status == TEGVURN_STATUS_OVER && !end->number && !strcmp(end->text, "the embedding has ended"));
  CHECK(!tegvurn_explain(embedding, NULL, 0));
  CHECK(tegvurn_free(embedding) == TEGVURN_STATUS_DONE);
}

/* The stand-in ends because memory for a reply ran out. */
static void test_over_without_memory(void) {
  have_reply(2, NULL, 0, 4);
  tegvurn *embedding = embedding_of();
  CHECK(embedding && tegvurn_set_fuel(embedding, 1) == TEGVURN_STATUS_DONE);
  for (int i = 0; i < 2; i++) {
    CHECK(tegvurn_set_fuel(embedding, 1) == TEGVURN_STATUS_OVER && tegvurn_last(embedding)->number == TEGVURN_REFUSAL_OUT_OF_MEMORY);
  }
  tegvurn_free(embedding);
}

static bool write_last(void *context, tegvurn_host_call *call) {
  ++*(int *)context;
  if (call->memory_size == 10 && !memcmp(call->memory, "0123456789", 10)) call->memory[9] = 'x';
  return true;
}

/* The callback runs only if all borrowed bytes are read in one piece. The next order is done in any case. */
static void test_lent_pieces(void) {
  for (lent_piece = 1; lent_piece <= 11; lent_piece++) {
    int calls = 0;
    tegvurn_host host = {{"m", 1}, {"f", 1}, NULL, 0, NULL, 0, write_last, &calls};
    tegvurn *embedding;
    bool is_whole = lent_piece == 10;
    have_reply(2, NULL, 0, ASKS_FIRST);
    was_answered = false;
    CHECK(tegvurn_new(&config, &host, 1, &embedding, NULL) == TEGVURN_STATUS_DONE);
    CHECK(tegvurn_set_fuel(embedding, 1) == TEGVURN_STATUS_DONE && calls == is_whole && last_read == (is_whole ? 10 : -1));
    CHECK(was_answered == is_whole && abandoned_inside == TEGVURN_STATUS_BUSY);
    CHECK(tegvurn_set_fuel(embedding, 1) == TEGVURN_STATUS_DONE && calls == is_whole);
    tegvurn_free(embedding);
  }
}

static jmp_buf way_out;

static bool leave_callback(void *context, tegvurn_host_call *call) {
  (void)call;
  ++*(int *)context;
  longjmp(way_out, 1);
}

/* After its embedding is abandoned, the stand-in can neither read nor write, and ends. While the stand-in runs, its embedding cannot be
   abandoned. */
static void test_abandoned(void) {
  static tegvurn *embedding;
  static int calls;
  tegvurn_host host = {{"m", 1}, {"f", 1}, NULL, 0, NULL, 0, leave_callback, &calls};
  lent_piece = 10;
  have_reply(2, NULL, 0, ASKS_FIRST);
  was_answered = false;
  CHECK(tegvurn_new(&config, &host, 1, &embedding, NULL) == TEGVURN_STATUS_DONE);
  CHECK(abandoned_inside == TEGVURN_STATUS_BUSY);
  if (!setjmp(way_out)) CHECK(tegvurn_set_fuel(embedding, 1) == TEGVURN_STATUS_BUSY);
  CHECK(calls == 1 && tegvurn_set_fuel(embedding, 1) == TEGVURN_STATUS_BUSY && tegvurn_free(embedding) == TEGVURN_STATUS_BUSY);
  CHECK(embedding->state == ASKS && tegvurn_abandon(embedding) == TEGVURN_STATUS_DONE && calls == 1);
  CHECK(!was_answered && read_last == 0 && written_last == -1);
}

#define TAKEN_OFTEN 5000000

/* How often the embedding of the test was taken. Only the thread that has taken it changes this. */
static long times_taken;
static atomic_int threads_begun;

static void *take_often(void *embedding) {
  for (atomic_fetch_add(&threads_begun, 1); threads_begun < 2;) continue;
  for (int times = 0; times < TAKEN_OFTEN;) {
    if (!take(embedding)) continue;
    times_taken++, times++;
    finish(embedding, TEGVURN_STATUS_DONE);
  }
  return NULL;
}

/* Two threads are never both inside an embedding, such as one that calls it and one that frees it. */
static void test_take(void) {
  pthread_t threads[2];
  have_reply(-1, NULL, 0, 0);
  tegvurn *embedding = embedding_of();
  for (int i = 0; i < 2; i++) CHECK(!pthread_create(&threads[i], NULL, take_often, embedding));
  for (int i = 0; i < 2; i++) CHECK(!pthread_join(threads[i], NULL));
  CHECK(times_taken == 2 * TAKEN_OFTEN && tegvurn_free(embedding) == TEGVURN_STATUS_DONE);
}

#define CALLED_OFTEN 20000

/* Sets the fuel until that is done CALLED_OFTEN times. Any other time, the embedding is busy. */
static void *call_often(void *embedding) {
  bool is_right = true;
  for (int times = 0; times < CALLED_OFTEN && is_right;) {
    tegvurn_status status = tegvurn_set_fuel(embedding, 1);
    is_right = status == TEGVURN_STATUS_DONE || status == TEGVURN_STATUS_BUSY;
    times += status == TEGVURN_STATUS_DONE;
  }
  return is_right ? embedding : NULL;
}

static void *free_it(void *embedding) { return tegvurn_free(embedding) ? NULL : &replies; }

/* The stand-in runs on several threads in turn, and each order gets its reply. In the end, a thread that never called it frees it. */
static void test_threads(void) {
  pthread_t threads[3];
  void *found;
  have_reply(-1, NULL, 0, 0);
  tegvurn *embedding = embedding_of();
  long before = replies;
  for (int i = 0; i < 3; i++) CHECK(!pthread_create(&threads[i], NULL, call_often, embedding));
  for (int i = 0; i < 3; i++) CHECK(!pthread_join(threads[i], &found) && found == embedding);
  CHECK(replies - before == 3 * CALLED_OFTEN);
  CHECK(!pthread_create(&threads[0], NULL, free_it, embedding) && !pthread_join(threads[0], &found) && found == &replies);
  CHECK(replies - before == 3 * CALLED_OFTEN + 1);
}

/* Returns the status of an order that gets this reply. */
static tegvurn_status status_of(const void *reply, size_t size) {
  have_reply(1, reply, size, GOES_ON);
  tegvurn *embedding = embedding_of();
  tegvurn_status status = embedding ? tegvurn_set_fuel(embedding, 1) : TEGVURN_STATUS_OVER;
  tegvurn_free(embedding);
  return status;
}

static void test_kinds_of_replies(void) {
  uint8_t head[HEAD] = {0};
  for (unsigned kind = 0; kind < 12; kind++) {
    static const tegvurn_status wanted[] = {TEGVURN_STATUS_DONE,      TEGVURN_STATUS_DONE,    TEGVURN_STATUS_DONE, TEGVURN_STATUS_TRAP,
                                            TEGVURN_STATUS_EXHAUSTED, TEGVURN_STATUS_REFUSED, TEGVURN_STATUS_DONE, TEGVURN_STATUS_DONE,
                                            TEGVURN_STATUS_NOT_SPELT, TEGVURN_STATUS_OVER,    TEGVURN_STATUS_OVER, TEGVURN_STATUS_OVER};
    head[NUMBER] = (uint8_t)kind;
    if (kind != REQUEST_CALL) CHECK(status_of(head, HEAD) == wanted[kind]);
  }
  CHECK(status_of(head, HEAD - 1) == TEGVURN_STATUS_OVER);
}

/* Encodes a refusal with a text of that many bytes, in characters of two bytes. Returns its size. */
static size_t refusal(uint8_t *reply, uint64_t number, size_t text_size) {
  set_number(reply, 3 * NUMBER + text_size);
  set_number(reply + NUMBER, REPLY_REFUSED);
  set_number(reply + HEAD, number);
  set_number(reply + HEAD + NUMBER, TEGVURN_PLACE_BYTE);
  set_number(reply + HEAD + 2 * NUMBER, 11);
  for (size_t i = 0; i < text_size; i++) reply[HEAD + 3 * NUMBER + i] = i % 2 ? 0xA4 : 0xC3;
  return HEAD + 3 * NUMBER + text_size;
}

static void test_texts(void) {
  static uint8_t reply[1000];
  const struct { size_t size, kept; } rows[] = {{0, 0}, {2, 2}, {126, 126}, {128, 126}, {500, 126}};
  for (size_t i = 0; i < sizeof rows / sizeof *rows; i++) {
    have_reply(1, reply, refusal(reply, 1, rows[i].size), GOES_ON);
    tegvurn *embedding = embedding_of();
    CHECK(tegvurn_set_fuel(embedding, 1) == TEGVURN_STATUS_REFUSED);
    const tegvurn_end *end = tegvurn_last(embedding);
    CHECK(end->number == 1 && !strcmp(end->name, "Malformed") && end->place == TEGVURN_PLACE_BYTE && end->at == 11 && end->code == 0);
    CHECK(strlen(end->text) == rows[i].kept && !memcmp(end->text, reply + HEAD + 3 * NUMBER, rows[i].kept));
    tegvurn_free(embedding);
  }
}

/* A quota is an order before the one that begins the embedding, and no quota is none. If that order is not done, there is no embedding. */
static void test_quota(void) {
  static uint8_t reply[100];
  const struct { uint64_t quota; long orders; } rows[] = {{0, 2}, {UINT64_MAX - 1, 2}, {UINT64_MAX, 1}};
  tegvurn *embedding;
  tegvurn_end end;
  for (size_t i = 0; i < sizeof rows / sizeof *rows; i++) {
    have_reply(-1, NULL, 0, 0);
    long before = replies;
    CHECK(tegvurn_new_with_quota(&config, rows[i].quota, NULL, 0, &embedding, &end) == TEGVURN_STATUS_DONE);
    CHECK(replies - before == rows[i].orders && tegvurn_free(embedding) == TEGVURN_STATUS_DONE);
  }
  have_reply(0, reply, refusal(reply, TEGVURN_REFUSAL_OUT_OF_MEMORY, 0), GOES_ON);
  CHECK(tegvurn_new_with_quota(&config, 7, NULL, 0, &embedding, &end) == TEGVURN_STATUS_REFUSED && !embedding);
  CHECK(end.number == TEGVURN_REFUSAL_OUT_OF_MEMORY);
}

/* Lists of exports */

#define NAME 0x6867666564636261 /* the bytes of a name, as a number */
static const char name_bytes[] = "abcdefgh";

/* A reply of exports, whose fields are the first `size` bytes of these numbers, and what is expected: how many exports there are, and of
   the first one the size of its name, its kind, the number of its parameters and results, and its type. */
struct list {
  const char *name;
  uint64_t numbers[16];
  size_t size, count, name_size;
  unsigned kind, params, results, type;
};

static const struct list lists[] = {
    {"no bytes", {0}, 0, 0, 0, 0, 0, 0, 0},
    {"no types", {0}, 8, 0, 0, 0, 0, 0, 0},
    {"a type alone", {1, 3, 127, 1}, 32, 0, 0, 0, 0, 0, 0},
    {"an export of a type", {1, 3, 126, 1, 8, NAME, 0}, 56, 1, 8, 3, 0, 0, 126},
    {"two exports of a type", {1, 0, 2, 127, 126, 1, 112, 8, NAME, 0, 8, NAME, 0}, 104, 2, 8, 0, 2, 1, 0},
    {"the second type first", {2, 3, 127, 0, 0, 0, 1, 126, 8, NAME, 1, 0, 0}, 104, 2, 8, 0, 0, 1, 0},
    {"an unknown kind", {1, 9, 0, 0, 0, 0}, 48, 2, 0, 9, 0, 0, 0},
    {"a type after the last", {1, 3, 126, 1, 8, NAME, 1}, 56, 1, 8, 0, 0, 0, 0},
    {"a type far after the last", {1, 3, 126, 1, 8, NAME, UINT64_MAX}, 56, 1, 8, 0, 0, 0, 0},
    {"more types than bytes", {UINT64_MAX, 3, 126, 0, 8, NAME}, 48, 1, 8, 3, 0, 0, 126},
    {"more parameters than bytes", {1, 0, UINT64_MAX, 127, 127}, 40, 0, 0, 0, 0, 0, 0},
    {"more results than bytes", {1, 0, 0, UINT64_MAX, 127}, 40, 0, 0, 0, 0, 0, 0},
    {"a longer name than bytes", {0, UINT64_MAX, NAME}, 24, 1, 8, 0, 0, 0, 0},
    {"a cut name", {0, 8, NAME}, 19, 1, 3, 0, 0, 0, 0},
    {"a cut size of a name", {0, 8, NAME}, 11, 1, 0, 0, 0, 0, 0},
    {"a cut number of a type", {1, 3, 126, 1, 8, NAME, UINT64_MAX}, 50, 1, 8, 3, 0, 0, 126},
};

static bool is_as_listed(const struct list *list, const tegvurn_export *export) {
  return export->name.size == list->name_size && !memcmp(export->name.bytes, name_bytes, list->name_size) &&
         !export->name.bytes[list->name_size] && (unsigned)export->kind == list->kind && export->param_count == list->params &&
         export->result_count == list->results && (unsigned)export->type == list->type;
}

/* Returns an embedding whose next order gets the list as its reply. The reply to the order before it has all bits of its fields set, so
   that the bytes after the end of the list are not zeros. */
static tegvurn *embedding_with(const struct list *list, uint8_t *reply) {
  static uint64_t numbers[20];
  tegvurn_export *export;
  memset(numbers, 0xFF, sizeof numbers);
  set_number((uint8_t *)&numbers[1], REPLY_REFUSED);
  have_reply(1, numbers, sizeof numbers, GOES_ON);
  tegvurn *embedding = embedding_of();
  CHECK(tegvurn_find_export(embedding, 0, tegvurn_string("f"), &export) == TEGVURN_STATUS_REFUSED);
  set_number(reply, list->size);
  set_number(reply + NUMBER, REPLY_EXPORTS);
  for (size_t i = 0; i < 16; i++) set_number(reply + HEAD + i * NUMBER, list->numbers[i]);
  have_reply(2, reply, HEAD + list->size, GOES_ON);
  return embedding;
}

static void test_list(const struct list *list) {
  uint8_t reply[HEAD + 16 * NUMBER];
  tegvurn_export *exports = NULL;
  size_t count = 77;
  tegvurn *embedding = embedding_with(list, reply);
  tegvurn_status status = tegvurn_exports(embedding, 0, &exports, &count);
  check(status == TEGVURN_STATUS_DONE && count == list->count, __LINE__, list->name);
  if (!status && count) check(is_as_listed(list, &exports[0]), __LINE__, list->name);
  for (size_t i = 1; i < count && !status; i++)
    check(exports[i].params == exports[0].params || exports[i].kind != exports[0].kind, __LINE__, list->name);
  tegvurn_exports_free(exports);
  tegvurn_free(embedding);
}

/* If one export is requested, an empty list becomes a refusal. */
static void test_list_of_one(const struct list *list) {
  uint8_t reply[HEAD + 16 * NUMBER];
  tegvurn_export *export = NULL;
  tegvurn *embedding = embedding_with(list, reply);
  tegvurn_status status = tegvurn_find_export(embedding, 0, tegvurn_string("f"), &export);
  const tegvurn_end *end = tegvurn_last(embedding);
  bool is_unknown = end->number == TEGVURN_REFUSAL_UNKNOWN_EXPORT && !strcmp(end->name, "UnknownExport") && *end->text;
  if (list->count) check(status == TEGVURN_STATUS_DONE && is_as_listed(list, export), __LINE__, list->name);
  else check(status == TEGVURN_STATUS_REFUSED && end->status == status && is_unknown && !export, __LINE__, list->name);
  tegvurn_exports_free(export);
  tegvurn_free(embedding);
}

static void test_lists(void) {
  for (size_t i = 0; i < sizeof lists / sizeof *lists; i++) {
    test_list(&lists[i]);
    test_list_of_one(&lists[i]);
  }
}

/* The names of all refusals, traps and exhaustions, and of unknown numbers. The first name of a row is that of the number 1. */
static void test_names(void) {
  static const char *const names[] = {"Malformed",       "Unsupported",   "Limit",     "Invalid",      "UnknownModule", "UnknownImport",
                                      "IncompatibleImport", "UnknownInstance", "UnknownExport", "WrongKind", "BadArguments",  "NameTaken",
                                      "OutOfMemory",     "HostFuncRef",   "NotJson",   "BadCommand",   "MissingFile",   [63] = "BadSetup", ""};
  static const char *const trap_names[] = {"Unreachable",      "DivideByZero",        "IntegerOverflow", "MemoryBounds", "TableBounds",
                                           "UndefinedElement", "UninitializedElement", "IndirectType",    "Host",         ""};
  static const char *const exhaustion_names[] = {"Fuel", "Depth", "Memory", ""};
  const struct { const char *const *names; size_t count; uint64_t kind; } rows[] = {
      {names, 65, REPLY_REFUSED}, {trap_names, 10, REPLY_TRAP}, {exhaustion_names, 4, REPLY_EXHAUSTED}};
  for (size_t row = 0; row < 3; row++) {
    for (uint64_t number = 1; number <= rows[row].count; number++) {
      uint8_t reply[HEAD + 3 * NUMBER];
      refusal(reply, number, 0);
      set_number(reply + NUMBER, rows[row].kind);
      have_reply(1, reply, sizeof reply, GOES_ON);
      tegvurn *embedding = embedding_of();
      tegvurn_set_fuel(embedding, 1);
      const tegvurn_end *end = tegvurn_last(embedding);
      const char *name = rows[row].names[number - 1];
      CHECK(end->number == number && !strcmp(end->name, name ? name : ""));
      tegvurn_free(embedding);
    }
  }
}

int main(void) {
  test_no_beginning();
  test_over();
  test_over_without_memory();
  test_lent_pieces();
  test_abandoned();
  test_take();
  test_threads();
  test_kinds_of_replies();
  test_texts();
  test_quota();
  test_lists();
  test_names();
  printf("%d passed, %d failed\n", passed, failed);
  return failed != 0;
}
