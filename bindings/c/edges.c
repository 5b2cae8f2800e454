/* Tests of the edges of the library: which threads may call, several embeddings, signal handlers, how the last call ended, room for
   results, what callbacks may return and see, texts, null pointers, what the library keeps, many exports, providers, windows, and callbacks
   that are left. */
#define _GNU_SOURCE
#include "tegvurn.h"
#include "test_module.h"

#include <pthread.h>
#include <setjmp.h>
#include <signal.h>
#include <stdio.h>
#include <stdlib.h>
#include <sys/mman.h>
#include <sys/time.h>
#include <time.h>

#define CHECK(is_so) check((is_so), __LINE__, #is_so)
#define WIDTH 300

static int passed, failed;
static pthread_mutex_t counting = PTHREAD_MUTEX_INITIALIZER;

static void check(bool is_so, int line, const char *what) {
  pthread_mutex_lock(&counting);
  if (is_so) passed++;
  else failed++, printf("line %d: %s\n", line, what);
  pthread_mutex_unlock(&counting);
}

/* Embeddings with the module of the tests */

/* The context of a callback, with what it does. */
struct asked {
  bool (*ask)(struct asked *, tegvurn_host_call *);
  tegvurn *embedding; /* the embedding that the callback belongs to */
  void *other;
  uint64_t number;
};

static bool ask(void *context, tegvurn_host_call *call) {
  struct asked *asked = context;
  return asked->ask ? asked->ask(asked, call) : (call->results[0] = call->args[0], true);
}

static bool nothing(void *context, tegvurn_host_call *call) {
  struct asked *asked = context;
  (void)call;
  asked->number++;
  return true;
}

static const tegvurn_type i32_type[] = {TEGVURN_TYPE_I32}, extern_type[] = {TEGVURN_TYPE_EXTERNREF}, func_type[] = {TEGVURN_TYPE_FUNCREF};
static const tegvurn_config config = {1000000, 100, 16, 100};

static tegvurn_host host_of(const char *name, const tegvurn_type *type, size_t count, tegvurn_callback callback, void *context) {
  return (tegvurn_host){tegvurn_string("host"), tegvurn_string(name), type, count, type, count, callback, context};
}

/* Returns an embedding in which the module is instance 0. */
static tegvurn *embedding_of(struct asked *asked) {
  const tegvurn_host hosts[] = {host_of("ask", i32_type, 1, ask, asked), host_of("keep", extern_type, 1, ask, asked),
                                host_of("nothing", NULL, 0, nothing, asked), tegvurn_window_host()};
  tegvurn *embedding;
  uint64_t module = 9, instance = 9;
  CHECK(tegvurn_new(&config, hosts, 4, &embedding, NULL) == TEGVURN_STATUS_DONE);
  CHECK(tegvurn_load(embedding, test_module, sizeof test_module, &module) == TEGVURN_STATUS_DONE && module == 0);
  CHECK(tegvurn_link(embedding, module, &instance) == TEGVURN_STATUS_DONE && instance == 0);
  asked->embedding = embedding;
  return embedding;
}

/* Calls a function that has one argument and one result. */
static tegvurn_status call_one(tegvurn *embedding, const char *name, tegvurn_value arg, tegvurn_value *result) {
  return tegvurn_call(embedding, 0, tegvurn_string(name), &arg, 1, result, 1, NULL);
}

/* Returns whether the last call trapped in a host function with this code. */
static bool trapped_with(const tegvurn *embedding, uint32_t code) {
  const tegvurn_end *end = tegvurn_last(embedding);
  char text[sizeof end->text];
  sprintf(text, "host trap with code %lu", (unsigned long)code);
  return end->status == TEGVURN_STATUS_TRAP && end->number == TEGVURN_TRAP_HOST && end->code == code && !strcmp(end->name, "Host") &&
         !strcmp(end->text, text);
}

/* Who may call */

/* Returns whether each call except tegvurn_free finds the embedding busy and stores nothing, except that the count of results becomes 0. */
static bool is_closed(tegvurn *embedding) {
  uint64_t number = 7;
  tegvurn_value value = tegvurn_i32(7);
  tegvurn_export *exports = NULL;
  tegvurn_report report = {7, 7, 7, NULL};
  size_t count = 7, kept = 7;
  uint8_t byte = 7;
  return tegvurn_load(embedding, test_module, sizeof test_module, &number) == TEGVURN_STATUS_BUSY &&
         tegvurn_link(embedding, 0, &number) == TEGVURN_STATUS_BUSY &&
         tegvurn_register(embedding, 0, tegvurn_string("m")) == TEGVURN_STATUS_BUSY &&
         tegvurn_call(embedding, 0, tegvurn_string("empty"), NULL, 0, &value, 1, &count) == TEGVURN_STATUS_BUSY && count == 0 &&
         tegvurn_get_global(embedding, 0, tegvurn_string("number"), &value) == TEGVURN_STATUS_BUSY &&
         tegvurn_set_fuel(embedding, 7) == TEGVURN_STATUS_BUSY && tegvurn_fuel_left(embedding, &number) == TEGVURN_STATUS_BUSY &&
         tegvurn_quota_left(embedding, &number) == TEGVURN_STATUS_BUSY && !tegvurn_explain(embedding, NULL, 0) &&
         tegvurn_exports(embedding, 0, &exports, &kept) == TEGVURN_STATUS_BUSY && kept == 7 &&
         tegvurn_find_export(embedding, 0, tegvurn_string("number"), &exports) == TEGVURN_STATUS_BUSY && !exports &&
         tegvurn_provide(embedding, tegvurn_string("env"), NULL, 0, NULL, 0, &number) == TEGVURN_STATUS_BUSY &&
         tegvurn_window_open(embedding, 0, tegvurn_string("memory"), &number) == TEGVURN_STATUS_BUSY &&
         tegvurn_window_read(embedding, 0, 0, &byte, 1) == TEGVURN_STATUS_BUSY && byte == 7 &&
         tegvurn_window_write(embedding, 0, 0, &byte, 1) == TEGVURN_STATUS_BUSY &&
         tegvurn_script(embedding, "{}", 2, NULL, 0, &report) == TEGVURN_STATUS_BUSY && report.passed == 7 && number == 7 && value.i32 == 7;
}

/* Returns whether each call returns TEGVURN_STATUS_BUSY. */
static bool is_all_busy(tegvurn *embedding) { return is_closed(embedding) && tegvurn_free(embedding) == TEGVURN_STATUS_BUSY; }

/* Runs a function on a new thread and waits for its end. */
static void run_on_thread(void *(*function)(void *), void *argument) {
  pthread_t thread;
  CHECK(!pthread_create(&thread, NULL, function, argument) && !pthread_join(thread, NULL));
}

static void *find_busy(void *embedding) {
  CHECK(is_all_busy(embedding));
  return NULL;
}

static void *free_it(void *embedding) {
  CHECK(tegvurn_free(embedding) == TEGVURN_STATUS_DONE);
  return NULL;
}

/* Calls an embedding, of which each `byte` at 8 is an `h`. */
static void *use_it(void *embedding) {
  tegvurn_value result;
  uint64_t fuel = 0;
  CHECK(call_one(embedding, "byte", tegvurn_i32(8), &result) == TEGVURN_STATUS_DONE && result.i32 == 'h');
  CHECK(call_one(embedding, "trap", tegvurn_i32(0), &result) == TEGVURN_STATUS_REFUSED);
  CHECK(tegvurn_last(embedding)->number == TEGVURN_REFUSAL_BAD_ARGUMENTS);
  CHECK(tegvurn_set_fuel(embedding, 1000) == TEGVURN_STATUS_DONE && tegvurn_fuel_left(embedding, &fuel) == TEGVURN_STATUS_DONE);
  CHECK(fuel == 1000 && tegvurn_last(embedding)->status == TEGVURN_STATUS_DONE);
  return NULL;
}

/* Makes an embedding with these callbacks, on a thread that then ends. */
static void *make_it(void *asked) {
  embedding_of(asked);
  return NULL;
}

static bool ask_busily(struct asked *asked, tegvurn_host_call *call) {
  CHECK(is_all_busy(asked->embedding));
  run_on_thread(find_busy, asked->embedding);
  CHECK(tegvurn_last(asked->embedding)->status == TEGVURN_STATUS_DONE);
  call->results[0] = tegvurn_i32(call->args[0].i32 + 1);
  return true;
}

static void test_busy(void) {
  struct asked asked = {ask_busily, NULL, NULL, 0};
  tegvurn *embedding = embedding_of(&asked);
  tegvurn_value result;
  CHECK(call_one(embedding, "ask", tegvurn_i32(41), &result) == TEGVURN_STATUS_DONE && result.i32 == 42);
  CHECK(call_one(embedding, "byte", tegvurn_i32(0), &result) == TEGVURN_STATUS_DONE && result.i32 == 0);
  CHECK(tegvurn_free(embedding) == TEGVURN_STATUS_DONE);
  CHECK(tegvurn_free(NULL) == TEGVURN_STATUS_DONE);
}

/* Any thread may free an idle embedding. */
static void test_free_elsewhere(void) {
  struct asked asked = {NULL, NULL, NULL, 0};
  tegvurn_value result;
  run_on_thread(free_it, embedding_of(&asked));
  tegvurn *embedding = embedding_of(&asked);
  CHECK(call_one(embedding, "ask", tegvurn_i32(5), &result) == TEGVURN_STATUS_DONE && result.i32 == 5);
  run_on_thread(free_it, embedding);
}

/* An embedding can be used after the thread that made it has ended, here and on other threads. */
static void test_ended_thread(void) {
  struct asked asked = {NULL, NULL, NULL, 0};
  run_on_thread(make_it, &asked);
  for (int times = 0; times < 10; times++) {
    use_it(asked.embedding);
    run_on_thread(use_it, asked.embedding);
  }
  CHECK(tegvurn_free(asked.embedding) == TEGVURN_STATUS_DONE);
}

/* Counts its calls in the guest's memory, and checks that it runs on the thread that calls. */
static bool ask_on_thread(struct asked *asked, tegvurn_host_call *call) {
  CHECK(pthread_equal(*(pthread_t *)asked->other, pthread_self()));
  call->results[0] = tegvurn_i32(++call->memory[0]);
  return true;
}

/* Calls an embedding once on this thread. `asked->number` is the number of its calls. */
static void *call_on_thread(void *context) {
  struct asked *asked = context;
  pthread_t own = pthread_self();
  tegvurn_value result;
  asked->other = &own;
  CHECK(call_one(asked->embedding, "ask", tegvurn_i32(0), &result) == TEGVURN_STATUS_DONE && result.i32 == ++asked->number);
  return NULL;
}

/* An embedding moves between threads, with its memory. */
static void test_moved(void) {
  struct asked asked = {ask_on_thread, NULL, NULL, 0};
  run_on_thread(make_it, &asked);
  for (int times = 0; times < 20; times++) {
    run_on_thread(call_on_thread, &asked);
    if (times % 3 == 0) call_on_thread(&asked);
  }
  run_on_thread(free_it, asked.embedding);
}

#define SHARED_OFTEN 300

/* Counts without a lock. */
static bool ask_and_count(struct asked *asked, tegvurn_host_call *call) {
  asked->number++;
  call->results[0] = call->args[0];
  return true;
}

/* Calls a shared embedding until SHARED_OFTEN calls are done. All others find it busy, and store nothing. */
static void *call_shared(void *embedding) {
  bool is_right = true;
  for (uint32_t done = 0; done < SHARED_OFTEN && is_right;) {
    tegvurn_value result = tegvurn_i32(SHARED_OFTEN);
    tegvurn_status status = call_one(embedding, "ask", tegvurn_i32(done), &result);
    is_right = status ? status == TEGVURN_STATUS_BUSY && result.i32 == SHARED_OFTEN : result.i32 == done;
    done += !status;
  }
  CHECK(is_right);
  return NULL;
}

/* Several threads call one embedding. At each time, one of them is inside. */
static void test_shared(void) {
  struct asked asked = {ask_and_count, NULL, NULL, 0};
  tegvurn *embedding = embedding_of(&asked);
  pthread_t threads[4];
  for (int i = 0; i < 4; i++) CHECK(!pthread_create(&threads[i], NULL, call_shared, embedding));
  for (int i = 0; i < 4; i++) CHECK(!pthread_join(threads[i], NULL));
  CHECK(asked.number == 4 * SHARED_OFTEN && tegvurn_free(embedding) == TEGVURN_STATUS_DONE);
}

/* Several embeddings */

/* Calls the embedding of the next callback, unless this one is the last. */
static bool ask_next(struct asked *asked, tegvurn_host_call *call) {
  struct asked *next = asked->other;
  tegvurn_value result = tegvurn_i32(0);
  if (next && call_one(next->embedding, "ask", tegvurn_i32(call->args[0].i32 + 1), &result)) return false;
  call->results[0] = next ? result : call->args[0];
  call->memory[0]++;
  return true;
}

static void test_nested(void) {
  enum { DEPTH = 20 };
  struct asked asked[DEPTH];
  tegvurn_value result;
  for (int i = 0; i < DEPTH; i++) {
    asked[i] = (struct asked){ask_next, NULL, i + 1 < DEPTH ? &asked[i + 1] : NULL, 0};
    embedding_of(&asked[i]);
  }
  for (uint32_t round = 1; round <= 3; round++) {
    CHECK(call_one(asked[0].embedding, "ask", tegvurn_i32(100), &result) == TEGVURN_STATUS_DONE && result.i32 == 100 + DEPTH - 1);
    for (int i = 0; i < DEPTH; i++)
      CHECK(call_one(asked[i].embedding, "byte", tegvurn_i32(0), &result) == TEGVURN_STATUS_DONE && result.i32 == round);
  }
  for (int i = 0; i < DEPTH; i += 2) CHECK(tegvurn_free(asked[i].embedding) == TEGVURN_STATUS_DONE);
  for (int i = 1; i < DEPTH; i += 2) {
    CHECK(call_one(asked[i].embedding, "byte", tegvurn_i32(8), &result) == TEGVURN_STATUS_DONE && result.i32 == 'h');
    CHECK(tegvurn_free(asked[i].embedding) == TEGVURN_STATUS_DONE);
  }
}

static void *call_often(void *start) {
  struct asked asked = {NULL, NULL, NULL, 0};
  tegvurn *embedding = embedding_of(&asked);
  tegvurn_value result;
  bool is_right = true;
  for (uint32_t i = 0; i < 200; i++) {
    uint32_t number = *(uint32_t *)start + i;
    is_right = is_right && !call_one(embedding, "ask", tegvurn_i32(number), &result) && result.i32 == number;
  }
  CHECK(is_right);
  CHECK(tegvurn_free(embedding) == TEGVURN_STATUS_DONE);
  return NULL;
}

static void test_threads(void) {
  pthread_t threads[4];
  uint32_t starts[4] = {0, 1000, 2000, 3000};
  for (int i = 0; i < 4; i++) CHECK(!pthread_create(&threads[i], NULL, call_often, &starts[i]));
  for (int i = 0; i < 4; i++) CHECK(!pthread_join(threads[i], NULL));
}

/* Signal handlers */

#define TICKS 50

/* The embeddings that the handler of SIGALRM calls, and what it found. */
static struct { tegvurn *own, *other; } interrupted;
static volatile sig_atomic_t ticks, busy_ticks, wrong_ticks, is_in_handler;

/* Calls the embedding that may be interrupted, and another one. These calls allocate no memory, so the handler may make them. */
static void tick(int number) {
  uint64_t fuel = 0, wanted = 1000 + (uint64_t)ticks;
  (void)number;
  if (is_in_handler) return;
  is_in_handler = 1;
  tegvurn_status own = tegvurn_fuel_left(interrupted.own, &fuel);
  if (own == TEGVURN_STATUS_BUSY) busy_ticks++;
  else if (own) wrong_ticks++;
  if (tegvurn_set_fuel(interrupted.other, wanted) || tegvurn_fuel_left(interrupted.other, &fuel) || fuel != wanted) wrong_ticks++;
  ticks++;
  is_in_handler = 0;
}

static bool ask_with_signal(struct asked *asked, tegvurn_host_call *call) {
  (void)asked;
  call->results[0] = tegvurn_i32((uint32_t)raise(SIGALRM));
  return true;
}

/* Sends SIGALRM at this interval in microseconds, or never if it is 0. */
static void set_timer(int microseconds) {
  const struct itimerval timer = {{0, microseconds}, {0, microseconds}};
  CHECK(!setitimer(ITIMER_REAL, &timer, NULL));
}

/* The handler runs on this thread, and one of the embeddings was made on another. */
static void test_signals(void) {
  struct asked asked = {ask_with_signal, NULL, NULL, 0}, other = {NULL, NULL, NULL, 0};
  struct sigaction action = {.sa_handler = tick, .sa_flags = SA_RESTART};
  tegvurn_value often = tegvurn_i32(1000), result;
  bool is_right = true;
  run_on_thread(make_it, &other);
  interrupted.own = embedding_of(&asked), interrupted.other = other.embedding;
  CHECK(!sigaction(SIGALRM, &action, NULL));
  CHECK(call_one(interrupted.own, "ask", tegvurn_i32(7), &result) == TEGVURN_STATUS_DONE && result.i32 == 0);
  CHECK(ticks == 1 && busy_ticks == 1);
  set_timer(3000);
  while (is_right && ticks < TICKS) {
    is_right = !tegvurn_set_fuel(interrupted.own, 1000000) &&
               !tegvurn_call(interrupted.own, 0, tegvurn_string("loop"), &often, 1, NULL, 0, NULL);
  }
  set_timer(0);
  /* A signal may still be on its way. */
  CHECK(signal(SIGALRM, SIG_IGN) == tick);
  CHECK(is_right && busy_ticks > 1 && wrong_ticks == 0);
  CHECK(tegvurn_free(interrupted.own) == TEGVURN_STATUS_DONE && tegvurn_free(interrupted.other) == TEGVURN_STATUS_DONE);
}

static volatile sig_atomic_t signals;

static void count_signal(int number) {
  (void)number;
  signals++;
}

/* A signal that the calling thread blocks is not delivered in a call, even if the thread that made the embedding did not block it. */
static void test_blocked_signals(void) {
  struct asked asked = {ask_with_signal, NULL, NULL, 0};
  struct sigaction action = {.sa_handler = count_signal};
  sigset_t alarm_only, before;
  tegvurn_value result;
  run_on_thread(make_it, &asked);
  CHECK(!sigaction(SIGALRM, &action, NULL) && !sigemptyset(&alarm_only) && !sigaddset(&alarm_only, SIGALRM));
  CHECK(!pthread_sigmask(SIG_BLOCK, &alarm_only, &before) && !raise(SIGALRM));
  CHECK(call_one(asked.embedding, "ask", tegvurn_i32(7), &result) == TEGVURN_STATUS_DONE && result.i32 == 0 && signals == 0);
  CHECK(!pthread_sigmask(SIG_SETMASK, &before, NULL) && signals == 1);
  CHECK(call_one(asked.embedding, "ask", tegvurn_i32(7), &result) == TEGVURN_STATUS_DONE && result.i32 == 0 && signals == 2);
  CHECK(signal(SIGALRM, SIG_IGN) == count_signal && tegvurn_free(asked.embedding) == TEGVURN_STATUS_DONE);
}

/* How the last call ended */

/* Makes each call that only reads. Returns whether all are done. */
static bool can_read(tegvurn *embedding) {
  tegvurn_text name = tegvurn_string("number");
  tegvurn_value value;
  tegvurn_export *exports = NULL, *found = NULL, *own = NULL;
  tegvurn_import *imports = NULL;
  uint64_t left;
  size_t count;
  bool is_done = !tegvurn_fuel_left(embedding, &left) && !tegvurn_quota_left(embedding, &left) &&
                 !tegvurn_get_global(embedding, 0, name, &value) && !tegvurn_exports(embedding, 0, &exports, &count) &&
                 !tegvurn_find_export(embedding, 0, name, &found) && !tegvurn_module_exports(embedding, 0, &own, &count) &&
                 !tegvurn_module_imports(embedding, 0, &imports, &count);
  tegvurn_exports_free(exports);
  tegvurn_exports_free(found);
  tegvurn_exports_free(own);
  tegvurn_imports_free(imports);
  return is_done;
}

/* Calls that only read leave the end of an earlier call as it is if they are done, and set it if they are not. */
static void test_last(void) {
  struct asked asked = {NULL, NULL, NULL, 0};
  tegvurn *embedding = embedding_of(&asked);
  tegvurn_text unknown = tegvurn_string("unknown");
  tegvurn_value value;
  tegvurn_export *export = NULL;
  size_t count;
  const tegvurn_end *end = tegvurn_last(embedding);
  CHECK(end->status == TEGVURN_STATUS_DONE && !strcmp(end->name, "Done") && !*end->text);
  CHECK(tegvurn_call(embedding, 0, tegvurn_string("trap"), NULL, 0, NULL, 0, NULL) == TEGVURN_STATUS_TRAP);
  CHECK(can_read(embedding) && end->status == TEGVURN_STATUS_TRAP && end->number == TEGVURN_TRAP_UNREACHABLE);
  CHECK(!strcmp(end->name, "Unreachable") && !strcmp(end->text, "unreachable") && tegvurn_last(embedding) == end);
  CHECK(tegvurn_find_export(embedding, 0, unknown, &export) == TEGVURN_STATUS_REFUSED && end->number == TEGVURN_REFUSAL_UNKNOWN_EXPORT);
  CHECK(can_read(embedding) && end->status == TEGVURN_STATUS_REFUSED && end->number == TEGVURN_REFUSAL_UNKNOWN_EXPORT);
  CHECK(tegvurn_set_fuel(embedding, 100) == TEGVURN_STATUS_DONE && end->status == TEGVURN_STATUS_DONE && end->number == 0);
  CHECK(tegvurn_get_global(embedding, 0, unknown, &value) == TEGVURN_STATUS_REFUSED && end->number == TEGVURN_REFUSAL_UNKNOWN_EXPORT);
  CHECK(tegvurn_exports(embedding, 0, NULL, &count) == TEGVURN_STATUS_BAD_POINTER && end->status == TEGVURN_STATUS_BAD_POINTER);
  CHECK(tegvurn_call(embedding, 0, tegvurn_string("empty"), NULL, 0, NULL, 0, NULL) == TEGVURN_STATUS_DONE);
  CHECK(end->status == TEGVURN_STATUS_DONE && !strcmp(end->name, "Done") && !*end->text);
  CHECK(tegvurn_fuel_left(embedding, NULL) == TEGVURN_STATUS_BAD_POINTER && end->status == TEGVURN_STATUS_BAD_POINTER);
  CHECK(tegvurn_free(embedding) == TEGVURN_STATUS_DONE);
}

/* Values, results and their room */

static void test_room(void) {
  struct asked asked = {NULL, NULL, NULL, 0};
  tegvurn *embedding = embedding_of(&asked);
  tegvurn_text two = tegvurn_string("two");
  for (size_t room = 0; room <= 3; room++) {
    tegvurn_value results[3] = {tegvurn_i32(77), tegvurn_i32(77), tegvurn_i32(77)};
    size_t count = 99;
    tegvurn_status wanted = room < 2 ? TEGVURN_STATUS_NO_ROOM : TEGVURN_STATUS_DONE;
    CHECK(tegvurn_call(embedding, 0, two, NULL, 0, room ? results : NULL, room, &count) == wanted);
    CHECK(count == 2 && results[2].i32 == 77);
    CHECK(room < 1 ? results[0].i32 == 77 : results[0].type == TEGVURN_TYPE_I32 && results[0].i32 == 1);
    CHECK(room < 2 ? results[1].i32 == 77 : results[1].type == TEGVURN_TYPE_I64 && results[1].i64 == 0xFFFFFFFFFFFFFFFEu);
    CHECK(tegvurn_last(embedding)->status == wanted);
  }
  CHECK(tegvurn_call(embedding, 0, two, NULL, 0, NULL, 0, NULL) == TEGVURN_STATUS_NO_ROOM);
  CHECK(tegvurn_call(embedding, 0, tegvurn_string("empty"), NULL, 0, NULL, 0, NULL) == TEGVURN_STATUS_DONE);
  tegvurn_free(embedding);
}

static void test_references(void) {
  struct asked asked = {NULL, NULL, NULL, 0};
  tegvurn *embedding = embedding_of(&asked);
  tegvurn_value result;
  CHECK(call_one(embedding, "keep", tegvurn_null(TEGVURN_TYPE_EXTERNREF), &result) == TEGVURN_STATUS_DONE);
  CHECK(result.type == TEGVURN_TYPE_EXTERNREF && result.is_null);
  const uint32_t numbers[] = {0, 1, 7, 0xFFFFFFFFu};
  for (int i = 0; i < 4; i++) {
    CHECK(call_one(embedding, "keep", tegvurn_ref(TEGVURN_TYPE_EXTERNREF, numbers[i]), &result) == TEGVURN_STATUS_DONE);
    CHECK(result.type == TEGVURN_TYPE_EXTERNREF && !result.is_null && result.ref == numbers[i]);
  }
  CHECK(tegvurn_call(embedding, 0, tegvurn_string("null"), NULL, 0, &result, 1, NULL) == TEGVURN_STATUS_DONE);
  CHECK(result.type == TEGVURN_TYPE_FUNCREF && result.is_null);
  CHECK(call_one(embedding, "keep", tegvurn_null(TEGVURN_TYPE_FUNCREF), &result) == TEGVURN_STATUS_REFUSED);
  CHECK(tegvurn_get_global(embedding, 0, tegvurn_string("number"), &result) == TEGVURN_STATUS_DONE);
  CHECK(result.type == TEGVURN_TYPE_I64 && !result.is_null && result.i64 == (uint64_t)-7);
  tegvurn_free(embedding);
}

static bool trap(struct asked *asked, tegvurn_host_call *call) {
  call->results[0] = call->args[0];
  call->trap = (uint32_t)asked->number;
  return false;
}

static bool answer_other(struct asked *asked, tegvurn_host_call *call) {
  if (asked->other) call->results[0] = *(tegvurn_value *)asked->other;
  return true;
}

static void test_traps(void) {
  struct asked asked = {trap, NULL, NULL, 0};
  tegvurn *embedding = embedding_of(&asked);
  tegvurn_value result;
  const uint32_t codes[] = {0, 13, 0x80000000u, 0xFFFFFFFFu};
  for (int i = 0; i < 4; i++) {
    asked.number = codes[i];
    CHECK(call_one(embedding, "ask", tegvurn_i32(5), &result) == TEGVURN_STATUS_TRAP && trapped_with(embedding, codes[i]));
    CHECK(tegvurn_set_fuel(embedding, 1000) == TEGVURN_STATUS_DONE && tegvurn_last(embedding)->code == 0);
  }
  CHECK(tegvurn_call(embedding, 0, tegvurn_string("trap"), NULL, 0, NULL, 0, NULL) == TEGVURN_STATUS_TRAP);
  const tegvurn_end *end = tegvurn_last(embedding);
  CHECK(end->number == TEGVURN_TRAP_UNREACHABLE && end->code == 0);
  CHECK(!strcmp(end->name, "Unreachable") && !strcmp(end->text, "unreachable"));
  tegvurn_free(embedding);
}

/* A module whose link does not end well, the fuel that it has, and the text of its end. */
struct link_row {
  const char *bytes;
  size_t size;
  uint64_t fuel;
  const char *text;
};

#define LINK_ROW(bytes, fuel, text) {bytes, sizeof bytes - 1, fuel, text}
/* (module (func $start unreachable) (start $start)) */
#define STARTS_TRAP "\0asm\1\0\0\0\1\4\1\x60\0\0\3\2\1\0\x08\1\0\x0a\5\1\3\0\0\x0b"
/* (module (func $start call $start) (start $start)) */
#define STARTS_RECURSION "\0asm\1\0\0\0\1\4\1\x60\0\0\3\2\1\0\x08\1\0\x0a\6\1\4\0\x10\0\x0b"
/* (module (import "host" "trap" (func $start)) (start $start)) */
#define STARTS_HOST "\0asm\1\0\0\0\1\4\1\x60\0\0\2\x0d\1\4host\4trap\0\0\x08\1\0"
/* (module (memory 1) (data (i32.const 65536) "a")) */
#define DATA_AFTER_END "\0asm\1\0\0\0\5\3\1\0\1\x0b\x09\1\0\x41\x80\x80\4\x0b\1\x61"
/* (module (table 1 funcref) (elem (i32.const 2) func)) */
#define ENTRY_AFTER_END "\0asm\1\0\0\0\4\4\1\x70\0\1\x09\6\1\0\x41\2\x0b\0"

static bool trap_with_seven(void *context, tegvurn_host_call *call) {
  (void)context;
  call->trap = 7;
  return false;
}

/* The text of the end of a link says what can have ended so. */
static void test_link_ends(void) {
  static const struct link_row rows[] = {
      LINK_ROW(STARTS_TRAP, 10, "unreachable in the start function"),
      LINK_ROW(STARTS_TRAP, 0, "out of fuel in the start function or a segment"),
      LINK_ROW(STARTS_RECURSION, 1000, "out of depth in the start function"),
      LINK_ROW(STARTS_HOST, 0, "host trap with code 7 in the start function"),
      LINK_ROW(DATA_AFTER_END, 10, "out of bounds memory access in the start function or a segment"),
      LINK_ROW(DATA_AFTER_END, 0, "out of fuel in the start function or a segment"),
      LINK_ROW(ENTRY_AFTER_END, 10, "out of bounds table access in the start function or a segment"),
  };
  const tegvurn_host host = host_of("trap", NULL, 0, trap_with_seven, NULL);
  tegvurn *embedding;
  uint64_t module, instance = 77;
  CHECK(tegvurn_new(&config, &host, 1, &embedding, NULL) == TEGVURN_STATUS_DONE);
  for (size_t i = 0; i < sizeof rows / sizeof *rows; i++) {
    CHECK(tegvurn_load(embedding, rows[i].bytes, rows[i].size, &module) == TEGVURN_STATUS_DONE);
    CHECK(tegvurn_set_fuel(embedding, rows[i].fuel) == TEGVURN_STATUS_DONE);
    CHECK(tegvurn_link(embedding, module, &instance) != TEGVURN_STATUS_DONE && instance == 77);
    check(!strcmp(tegvurn_last(embedding)->text, rows[i].text), __LINE__, rows[i].text);
  }
  CHECK(tegvurn_free(embedding) == TEGVURN_STATUS_DONE);
}

/* Results that are not written, or that have another type, make the call trap. The embedding stays usable. */
static void test_wrong_results(void) {
  struct asked asked = {answer_other, NULL, NULL, 0};
  tegvurn *embedding = embedding_of(&asked);
  const tegvurn_value reference = tegvurn_ref(TEGVURN_TYPE_FUNCREF, 0);
  tegvurn_value result, others[] = {tegvurn_i64(0), tegvurn_null(TEGVURN_TYPE_EXTERNREF), reference, tegvurn_i32(0)};
  others[3].type = (tegvurn_type)5;
  for (int i = -1; i < 4; i++) {
    asked.other = i < 0 ? NULL : &others[i];
    CHECK(call_one(embedding, "ask", tegvurn_i32(5), &result) == TEGVURN_STATUS_TRAP && trapped_with(embedding, TEGVURN_WRONG_RESULTS));
    asked.other = &(tegvurn_value){.type = TEGVURN_TYPE_I32, .i32 = 6};
    CHECK(call_one(embedding, "ask", tegvurn_i32(5), &result) == TEGVURN_STATUS_DONE && result.type == TEGVURN_TYPE_I32 && result.i32 == 6);
    asked.other = NULL;
    CHECK(call_one(embedding, "ask", tegvurn_i32(5), &result) == TEGVURN_STATUS_TRAP && trapped_with(embedding, TEGVURN_WRONG_RESULTS));
  }
  tegvurn_value number = tegvurn_i32(0), function = tegvurn_null(TEGVURN_TYPE_FUNCREF);
  asked.other = &number;
  CHECK(call_one(embedding, "keep", tegvurn_null(TEGVURN_TYPE_EXTERNREF), &result) == TEGVURN_STATUS_TRAP);
  CHECK(trapped_with(embedding, TEGVURN_WRONG_RESULTS));
  asked.other = &function;
  CHECK(call_one(embedding, "keep", tegvurn_null(TEGVURN_TYPE_EXTERNREF), &result) == TEGVURN_STATUS_TRAP);
  CHECK(trapped_with(embedding, TEGVURN_WRONG_RESULTS));
  tegvurn_free(embedding);
}

/* Overwrites the struct of the call. The library does not use it afterwards. */
static bool overwrite(struct asked *asked, tegvurn_host_call *call) {
  static tegvurn_value elsewhere;
  (void)asked;
  call->results[0] = tegvurn_i32(3);
  *call = (tegvurn_host_call){&elsewhere, 9, &elsewhere, 9, NULL, 9, 9};
  return true;
}

static bool look(struct asked *asked, tegvurn_host_call *call) {
  asked->number = call->memory_size;
  bool is_lent = call->arg_count == 1 && call->result_count == 1 && call->memory_size == (size_t)call->args[0].i32 * 65536;
  CHECK(call->memory_size ? !memcmp(call->memory + 8, "hello", 5) : !call->memory);
  if (call->memory_size) call->memory[9] = call->memory[call->memory_size - 1] = 'a';
  call->results[0] = tegvurn_i32(is_lent);
  return true;
}

static void test_memory(void) {
  struct asked asked = {look, NULL, NULL, 0};
  tegvurn *embedding = embedding_of(&asked);
  tegvurn_value result;
  CHECK(call_one(embedding, "ask_outside", tegvurn_i32(0), &result) == TEGVURN_STATUS_DONE && result.i32 == 1 && asked.number == 0);
  CHECK(call_one(embedding, "ask", tegvurn_i32(1), &result) == TEGVURN_STATUS_DONE && result.i32 == 1 && asked.number == 65536);
  CHECK(call_one(embedding, "byte", tegvurn_i32(9), &result) == TEGVURN_STATUS_DONE && result.i32 == 'a');
  CHECK(call_one(embedding, "byte", tegvurn_i32(10), &result) == TEGVURN_STATUS_DONE && result.i32 == 'l');
  CHECK(call_one(embedding, "byte", tegvurn_i32(65535), &result) == TEGVURN_STATUS_DONE && result.i32 == 'a');
  CHECK(call_one(embedding, "ask_outside", tegvurn_i32(0), &result) == TEGVURN_STATUS_DONE && result.i32 == 1 && asked.number == 0);
  asked.ask = overwrite;
  CHECK(call_one(embedding, "ask", tegvurn_i32(1), &result) == TEGVURN_STATUS_DONE && result.i32 == 3);
  tegvurn_value often = tegvurn_i32(1000);
  asked.number = 0;
  CHECK(tegvurn_call(embedding, 0, tegvurn_string("loop"), &often, 1, NULL, 0, NULL) == TEGVURN_STATUS_DONE && asked.number == 1000);
  tegvurn_free(embedding);
}

/* Texts, types and setups */

static tegvurn_status new_with(tegvurn_host host, tegvurn_end *end) {
  tegvurn *embedding = (tegvurn *)&config;
  tegvurn_status status = tegvurn_new(&config, &host, 1, &embedding, end);
  CHECK(status ? !embedding : embedding != NULL);
  tegvurn_free(embedding);
  return status;
}

static void test_new(void) {
  struct asked asked = {NULL, NULL, NULL, 0};
  tegvurn_type no_type[] = {(tegvurn_type)5};
  tegvurn_config wrong = config;
  tegvurn *embedding = (tegvurn *)&config;
  tegvurn_end end;
  wrong.depth = 0;
  CHECK(tegvurn_new(&wrong, NULL, 0, &embedding, &end) == TEGVURN_STATUS_REFUSED && !embedding);
  CHECK(end.status == TEGVURN_STATUS_REFUSED && end.number == TEGVURN_REFUSAL_BAD_SETUP && !strcmp(end.name, "BadSetup") && *end.text);
  CHECK(tegvurn_new(&wrong, NULL, 0, &embedding, NULL) == TEGVURN_STATUS_REFUSED && !embedding);
  CHECK(new_with(host_of("ask", i32_type, 1, ask, &asked), &end) == TEGVURN_STATUS_DONE && end.status == TEGVURN_STATUS_DONE && !*end.text);
  CHECK(new_with(host_of("ask", func_type, 1, ask, &asked), &end) == TEGVURN_STATUS_REFUSED && end.number == TEGVURN_REFUSAL_HOST_FUNCREF);
  CHECK(!strcmp(end.name, "HostFuncRef"));
  CHECK(new_with(host_of("ask", no_type, 1, ask, &asked), &end) == TEGVURN_STATUS_NOT_SPELT && end.number == 0);
  CHECK(!strcmp(end.name, "NotSpelt"));
  CHECK(new_with(host_of("\xff", i32_type, 1, ask, &asked), &end) == TEGVURN_STATUS_NOT_SPELT);
  CHECK(new_with(host_of("", NULL, 0, ask, &asked), &end) == TEGVURN_STATUS_DONE);
}

static void test_defaults(void) {
  const tegvurn_config defaults = TEGVURN_DEFAULT_CONFIG;
  CHECK(defaults.fuel == 1000000000 && defaults.depth == 1024 && defaults.pages == 1024 && defaults.entries == 1000000);
  tegvurn *embedding;
  uint64_t fuel = 0;
  CHECK(tegvurn_new(&defaults, NULL, 0, &embedding, NULL) == TEGVURN_STATUS_DONE);
  CHECK(tegvurn_fuel_left(embedding, &fuel) == TEGVURN_STATUS_DONE && fuel == defaults.fuel);
  tegvurn_free(embedding);
}

/* Calls with null pointers */

#define NO_TEXT ((tegvurn_text){NULL, 1})

struct row { const char *name; tegvurn_status status; };

/* Checks that each row has the status. */
static void check_rows(const struct row *rows, size_t count, tegvurn_status wanted) {
  for (size_t i = 0; i < count; i++) check(rows[i].status == wanted, __LINE__, rows[i].name);
}

#define CHECK_ROWS(rows, wanted) check_rows((rows), sizeof(rows) / sizeof *(rows), (wanted))

/* Returns the status of tegvurn_new with this host function, if it makes no embedding and *end has the same status and the name BadPointer.
   Otherwise returns TEGVURN_STATUS_DONE. */
static tegvurn_status end_of_new(const tegvurn_host *hosts) {
  tegvurn_end end = {.status = TEGVURN_STATUS_DONE};
  tegvurn *embedding = (tegvurn *)&config;
  tegvurn_status status = tegvurn_new(&config, hosts, 1, &embedding, &end);
  return !embedding && end.status == status && !strcmp(end.name, "BadPointer") ? status : TEGVURN_STATUS_DONE;
}

static void test_new_without_pointers(void) {
  struct asked asked = {NULL, NULL, NULL, 0};
  const tegvurn_host whole = host_of("ask", i32_type, 1, ask, &asked);
  tegvurn_host module = whole, name = whole, params = whole, results = whole, callback = whole;
  tegvurn *embedding;
  module.module = name.name = NO_TEXT;
  params.params = results.results = NULL;
  callback.callback = NULL;
  const struct row rows[] = {
      {"new without a configuration", tegvurn_new(NULL, NULL, 0, &embedding, NULL)},
      {"new without an embedding", tegvurn_new(&config, NULL, 0, NULL, NULL)},
      {"new with a quota and without a configuration", tegvurn_new_with_quota(NULL, 7, NULL, 0, &embedding, NULL)},
      {"new with a quota and without an embedding", tegvurn_new_with_quota(&config, 7, NULL, 0, NULL, NULL)},
      {"new without host functions", end_of_new(NULL)},
      {"new without the module of a host function", end_of_new(&module)},
      {"new without the name of a host function", end_of_new(&name)},
      {"new without parameters", end_of_new(&params)},
      {"new without results", end_of_new(&results)},
      {"new without a callback", end_of_new(&callback)},
  };
  CHECK_ROWS(rows, TEGVURN_STATUS_BAD_POINTER);
}

static void test_calls_without_embedding(void) {
  uint64_t number = 7;
  tegvurn_value value = tegvurn_i32(7);
  tegvurn_export *exports = NULL;
  tegvurn_import *imports = NULL;
  tegvurn_report report;
  size_t count = 7;
  const struct row rows[] = {
      {"load", tegvurn_load(NULL, test_module, sizeof test_module, &number)},
      {"link", tegvurn_link(NULL, 0, &number)},
      {"register", tegvurn_register(NULL, 0, tegvurn_string("m"))},
      {"call", tegvurn_call(NULL, 0, tegvurn_string("empty"), NULL, 0, NULL, 0, &count)},
      {"get a global", tegvurn_get_global(NULL, 0, tegvurn_string("number"), &value)},
      {"set the fuel", tegvurn_set_fuel(NULL, 7)},
      {"fuel left", tegvurn_fuel_left(NULL, &number)},
      {"quota left", tegvurn_quota_left(NULL, &number)},
      {"exports", tegvurn_exports(NULL, 0, &exports, &count)},
      {"find an export", tegvurn_find_export(NULL, 0, tegvurn_string("number"), &exports)},
      {"exports of a module", tegvurn_module_exports(NULL, 0, &exports, &count)},
      {"imports of a module", tegvurn_module_imports(NULL, 0, &imports, &count)},
      {"provide", tegvurn_provide(NULL, tegvurn_string("env"), NULL, 0, NULL, 0, &number)},
      {"open a window", tegvurn_window_open(NULL, 0, tegvurn_string("memory"), &number)},
      {"read by a window", tegvurn_window_read(NULL, 0, 0, NULL, 0)},
      {"write by a window", tegvurn_window_write(NULL, 0, 0, NULL, 0)},
      {"script", tegvurn_script(NULL, "{}", 2, NULL, 0, &report)},
      {"how the last call ended", tegvurn_last(NULL)->status},
  };
  CHECK_ROWS(rows, TEGVURN_STATUS_BAD_POINTER);
  CHECK(!strcmp(tegvurn_last(NULL)->name, "BadPointer") && !strcmp(tegvurn_last(NULL)->text, "a pointer is null"));
  CHECK(tegvurn_free(NULL) == TEGVURN_STATUS_DONE);
  tegvurn_exports_free(NULL);
  tegvurn_imports_free(NULL);
}

/* A call with a null pointer is refused before it does anything. */
static void test_calls_without_pointers(void) {
  struct asked asked = {NULL, NULL, NULL, 0};
  tegvurn *embedding = embedding_of(&asked);
  tegvurn_text empty = tegvurn_string("empty"), two = tegvurn_string("two");
  const tegvurn_file files[] = {{NO_TEXT, "", 0}, {empty, NULL, 1}};
  const tegvurn_host host = host_of("ask", NULL, 1, ask, &asked);
  const tegvurn_provided object = {.name = NO_TEXT, .kind = TEGVURN_KIND_MEMORY};
  tegvurn_value value = tegvurn_i32(7);
  tegvurn_export *exports = NULL;
  tegvurn_import *imports = NULL;
  tegvurn_report report;
  size_t count = 7;
  uint64_t fuel = 0, left = 0;
  CHECK(tegvurn_fuel_left(embedding, &fuel) == TEGVURN_STATUS_DONE);
  const struct row rows[] = {
      {"load without bytes", tegvurn_load(embedding, NULL, 1, &left)},
      {"load without a module", tegvurn_load(embedding, test_module, sizeof test_module, NULL)},
      {"link without an instance", tegvurn_link(embedding, 0, NULL)},
      {"register without a name", tegvurn_register(embedding, 0, NO_TEXT)},
      {"call without a name", tegvurn_call(embedding, 0, NO_TEXT, NULL, 0, NULL, 0, NULL)},
      {"call without arguments", tegvurn_call(embedding, 0, empty, NULL, 1, NULL, 0, NULL)},
      {"call without results", tegvurn_call(embedding, 0, two, NULL, 0, NULL, 2, &count)},
      {"get a global without a name", tegvurn_get_global(embedding, 0, NO_TEXT, &value)},
      {"get a global without a value", tegvurn_get_global(embedding, 0, tegvurn_string("number"), NULL)},
      {"fuel left without a number", tegvurn_fuel_left(embedding, NULL)},
      {"quota left without a number", tegvurn_quota_left(embedding, NULL)},
      {"exports without a list", tegvurn_exports(embedding, 0, NULL, &count)},
      {"exports without a count", tegvurn_exports(embedding, 0, &exports, NULL)},
      {"find an export without a name", tegvurn_find_export(embedding, 0, NO_TEXT, &exports)},
      {"find an export without a place for it", tegvurn_find_export(embedding, 0, empty, NULL)},
      {"exports of a module without a list", tegvurn_module_exports(embedding, 0, NULL, &count)},
      {"exports of a module without a count", tegvurn_module_exports(embedding, 0, &exports, NULL)},
      {"imports of a module without a list", tegvurn_module_imports(embedding, 0, NULL, &count)},
      {"imports of a module without a count", tegvurn_module_imports(embedding, 0, &imports, NULL)},
      {"provide without a number", tegvurn_provide(embedding, empty, NULL, 0, NULL, 0, NULL)},
      {"provide without a name", tegvurn_provide(embedding, NO_TEXT, NULL, 0, NULL, 0, &left)},
      {"provide without host functions", tegvurn_provide(embedding, empty, NULL, 1, NULL, 0, &left)},
      {"provide without parameters", tegvurn_provide(embedding, empty, &host, 1, NULL, 0, &left)},
      {"provide without objects", tegvurn_provide(embedding, empty, NULL, 0, NULL, 1, &left)},
      {"provide without the name of an object", tegvurn_provide(embedding, empty, NULL, 0, &object, 1, &left)},
      {"open a window without a number", tegvurn_window_open(embedding, 0, tegvurn_string("memory"), NULL)},
      {"open a window without a name", tegvurn_window_open(embedding, 0, NO_TEXT, &left)},
      {"read by a window without a place", tegvurn_window_read(embedding, 0, 0, NULL, 1)},
      {"write by a window without bytes", tegvurn_window_write(embedding, 0, 0, NULL, 1)},
      {"script without bytes", tegvurn_script(embedding, NULL, 1, NULL, 0, &report)},
      {"script without files", tegvurn_script(embedding, "{}", 2, NULL, 1, &report)},
      {"script without the name of a file", tegvurn_script(embedding, "{}", 2, &files[0], 1, &report)},
      {"script without the bytes of a file", tegvurn_script(embedding, "{}", 2, &files[1], 1, &report)},
      {"script without a report", tegvurn_script(embedding, "{}", 2, NULL, 0, NULL)},
      {"how the last call ended", tegvurn_last(embedding)->status},
  };
  CHECK_ROWS(rows, TEGVURN_STATUS_BAD_POINTER);
  const tegvurn_end *end = tegvurn_last(embedding);
  CHECK(end->number == 0 && !strcmp(end->name, "BadPointer") && !strcmp(end->text, "a pointer is null"));
  CHECK(left == 0 && value.i32 == 7 && !exports && !imports && count == 0);
  CHECK(tegvurn_fuel_left(embedding, &left) == TEGVURN_STATUS_DONE && left == fuel);
  CHECK(tegvurn_link(embedding, 1, &left) == TEGVURN_STATUS_REFUSED && end->number == TEGVURN_REFUSAL_UNKNOWN_MODULE);
  CHECK(tegvurn_free(embedding) == TEGVURN_STATUS_DONE);
}

static void test_texts(void) {
  struct asked asked = {NULL, NULL, NULL, 0};
  tegvurn *embedding = embedding_of(&asked);
  tegvurn_value value = tegvurn_i32(1);
  tegvurn_export *export = NULL;
  uint64_t number;
  CHECK(tegvurn_register(embedding, 0, tegvurn_string("\xc3")) == TEGVURN_STATUS_NOT_SPELT);
  CHECK(tegvurn_register(embedding, 0, (tegvurn_text){"", 0}) == TEGVURN_STATUS_DONE);
  CHECK(tegvurn_register(embedding, 0, tegvurn_string("host")) == TEGVURN_STATUS_REFUSED);
  CHECK(!strcmp(tegvurn_last(embedding)->name, "NameTaken") && !strcmp(tegvurn_last(embedding)->text, "a host function has the name"));
  CHECK(tegvurn_get_global(embedding, 0, tegvurn_string("\xff"), &value) == TEGVURN_STATUS_NOT_SPELT && value.i32 == 1);
  CHECK(tegvurn_get_global(embedding, 0, (tegvurn_text){"number\0x", 8}, &value) == TEGVURN_STATUS_REFUSED);
  CHECK(tegvurn_last(embedding)->number == TEGVURN_REFUSAL_UNKNOWN_EXPORT);
  CHECK(tegvurn_get_global(embedding, 0, (tegvurn_text){"numbers", 6}, &value) == TEGVURN_STATUS_DONE);
  CHECK(call_one(embedding, "\xff", value, &value) == TEGVURN_STATUS_NOT_SPELT);
  CHECK(tegvurn_find_export(embedding, 0, tegvurn_string("\xff"), &export) == TEGVURN_STATUS_NOT_SPELT && !export);
  value.type = (tegvurn_type)5;
  CHECK(call_one(embedding, "ask", value, &value) == TEGVURN_STATUS_NOT_SPELT);
  CHECK(tegvurn_load(embedding, "\0asm\1\0\0", 7, &number) == TEGVURN_STATUS_REFUSED);
  const tegvurn_end *end = tegvurn_last(embedding);
  CHECK(end->number == TEGVURN_REFUSAL_MALFORMED && end->place == TEGVURN_PLACE_BYTE && end->at == 7);
  CHECK(!strcmp(end->text, "malformed module at byte 7"));
  CHECK(tegvurn_set_fuel(embedding, 0) == TEGVURN_STATUS_DONE && end->status == TEGVURN_STATUS_DONE && end->number == 0);
  CHECK(end->place == TEGVURN_PLACE_NONE && end->at == 0 && !*end->text && !strcmp(end->name, "Done"));
  CHECK(tegvurn_load(embedding, NULL, 0, &number) == TEGVURN_STATUS_REFUSED && end->place == TEGVURN_PLACE_BYTE && end->at == 0);
  CHECK(call_one(embedding, "byte", tegvurn_i32(0), &value) == TEGVURN_STATUS_EXHAUSTED);
  CHECK(end->number == TEGVURN_EXHAUSTION_FUEL && !strcmp(end->name, "Fuel") && !strcmp(end->text, "out of fuel"));
  tegvurn_free(embedding);
}

/* Whether the last call is explained with this text, whatever room there is for it. */
static bool is_explained(tegvurn *embedding, const char *wanted) {
  size_t length = strlen(wanted);
  bool is_so = tegvurn_explain(embedding, NULL, 0) == length;
  for (size_t size = 1; size < length + 3; size++) {
    char text[256];
    memset(text, 'x', sizeof text);
    size_t kept = size <= length ? size - 1 : length;
    is_so = is_so && tegvurn_explain(embedding, text, size) == length && !strncmp(text, wanted, kept) && !text[kept] && text[kept + 1] == 'x';
  }
  return is_so;
}

/* A call that was refused is explained until the next call. */
static void test_explanations(void) {
  struct asked asked = {NULL, NULL, NULL, 0};
  tegvurn *embedding = embedding_of(&asked);
  uint64_t number;
  tegvurn_value value;
  tegvurn_export *export;
  CHECK(is_explained(embedding, ""));
  CHECK(tegvurn_load(embedding, "\0asm\1\0\0", 7, &number) == TEGVURN_STATUS_REFUSED);
  CHECK(is_explained(embedding, "malformed module: the version is not 1, at offset 0x7"));
  CHECK(!strcmp(tegvurn_last(embedding)->text, "malformed module at byte 7"));
  CHECK(tegvurn_fuel_left(embedding, &number) == TEGVURN_STATUS_DONE && is_explained(embedding, "malformed module at byte 7"));
  CHECK(tegvurn_link(embedding, 9, &number) == TEGVURN_STATUS_REFUSED && is_explained(embedding, "there is no module of the number"));
  CHECK(tegvurn_find_export(embedding, 7, tegvurn_string("f"), &export) == TEGVURN_STATUS_REFUSED);
  CHECK(is_explained(embedding, "there is no instance of the number"));
  CHECK(call_one(embedding, "ask", tegvurn_i64(1), &value) == TEGVURN_STATUS_REFUSED);
  CHECK(is_explained(embedding, "argument 0: expected i32, found i64"));
  CHECK(tegvurn_set_fuel(embedding, 0) == TEGVURN_STATUS_DONE && is_explained(embedding, ""));
  CHECK(call_one(embedding, "byte", tegvurn_i32(0), &value) == TEGVURN_STATUS_EXHAUSTED && is_explained(embedding, ""));
  CHECK(tegvurn_set_fuel(embedding, 1000) == TEGVURN_STATUS_DONE);
  CHECK(tegvurn_load(embedding, NULL, 5, &number) == TEGVURN_STATUS_BAD_POINTER && is_explained(embedding, ""));
  CHECK(tegvurn_load(embedding, test_module, sizeof test_module, &number) == TEGVURN_STATUS_DONE && is_explained(embedding, ""));
  CHECK(tegvurn_free(embedding) == TEGVURN_STATUS_DONE);
  CHECK(!tegvurn_explain(NULL, NULL, 0));
}

static double seconds(void) {
  struct timespec time;
  clock_gettime(CLOCK_MONOTONIC, &time);
  return (double)time.tv_sec + (double)time.tv_nsec / 1e9;
}

/* A module that is too large is refused at once, without being read: reading these bytes would crash. */
static void test_too_large(void) {
  static const size_t sizes[] = {67108865, 3u << 30, SIZE_MAX / 2, SIZE_MAX};
  struct asked asked = {NULL, NULL, NULL, 0};
  tegvurn *embedding = embedding_of(&asked);
  void *bytes = mmap(NULL, sizes[1], PROT_NONE, MAP_PRIVATE | MAP_ANONYMOUS | MAP_NORESERVE, -1, 0);
  CHECK(bytes != MAP_FAILED);
  for (int i = 0; i < 4; i++) {
    uint64_t module = 77;
    double start = seconds();
    CHECK(tegvurn_load(embedding, bytes, sizes[i], &module) == TEGVURN_STATUS_REFUSED && module == 77);
    CHECK(seconds() - start < 0.1);
    const tegvurn_end *end = tegvurn_last(embedding);
    CHECK(end->status == TEGVURN_STATUS_REFUSED && end->number == TEGVURN_REFUSAL_LIMIT && !strcmp(end->name, "Limit"));
    CHECK(end->place == TEGVURN_PLACE_NONE && end->at == 0 && end->code == 0 && !strcmp(end->text, "a limit is passed"));
    char text[128], wanted[128];
    sprintf(wanted, "module exceeds a limit: %zu bytes, and at most 67108864 are allowed", sizes[i]);
    CHECK(tegvurn_explain(embedding, text, sizeof text) == strlen(wanted) && !strcmp(text, wanted));
  }
  munmap(bytes, sizes[1]);
  CHECK(tegvurn_free(embedding) == TEGVURN_STATUS_DONE);
}

/* Arguments, a name and a file that are longer than any message before. */
static void test_long_messages(void) {
  static tegvurn_value args[1000];
  static char name[5000];
  struct asked asked = {NULL, NULL, NULL, 0};
  tegvurn_report report;
  for (int i = 0; i < 1000; i++) args[i] = tegvurn_i64(1);
  memset(name, 'a', sizeof name);
  tegvurn *embedding = embedding_of(&asked);
  CHECK(tegvurn_call(embedding, 0, tegvurn_string("empty"), args, 1000, NULL, 0, NULL) == TEGVURN_STATUS_REFUSED);
  CHECK(tegvurn_last(embedding)->number == TEGVURN_REFUSAL_BAD_ARGUMENTS);
  tegvurn_free(embedding);
  embedding = embedding_of(&asked);
  CHECK(tegvurn_call(embedding, 0, (tegvurn_text){name, sizeof name}, NULL, 0, NULL, 0, NULL) == TEGVURN_STATUS_REFUSED);
  CHECK(tegvurn_last(embedding)->number == TEGVURN_REFUSAL_UNKNOWN_EXPORT);
  tegvurn_free(embedding);
  embedding = embedding_of(&asked);
  const tegvurn_file file = {{name, sizeof name}, name, sizeof name};
  CHECK(tegvurn_script(embedding, "{\"commands\":[]}", 15, &file, 1, &report) == TEGVURN_STATUS_DONE && report.passed == 0);
  tegvurn_free(embedding);
}

/* What is kept and what is not */

static void *copy_of(const void *bytes, size_t size) {
  void *copy = malloc(size ? size : 1);
  if (!copy) exit(2);
  return memcpy(copy, bytes, size);
}

/* Everything that is passed to a call is freed after it. */
static void test_copies(void) {
  struct asked asked = {NULL, NULL, NULL, 0};
  char *module = copy_of("host", 4), *name = copy_of("ask", 3);
  tegvurn_type *types = copy_of(i32_type, sizeof i32_type);
  tegvurn_host *host = malloc(sizeof *host);
  if (!host) exit(2);
  *host = (tegvurn_host){{module, 4}, {name, 3}, types, 1, types, 1, ask, &asked};
  tegvurn *embedding;
  uint64_t number;
  CHECK(tegvurn_new(&config, host, 1, &embedding, NULL) == TEGVURN_STATUS_DONE);
  free(module), free(name), free(types), free(host);
  /* (module (import "host" "ask" (func (param i32) (result i32))) (export "f" (func 0))) */
  static const char bytes[] = "\0asm\1\0\0\0\1\6\1\x60\1\x7f\1\x7f\2\x0c\1\4host\3ask\0\0\7\5\1\1f\0\0";
  void *copy = copy_of(bytes, sizeof bytes - 1);
  CHECK(tegvurn_load(embedding, copy, sizeof bytes - 1, &number) == TEGVURN_STATUS_DONE);
  free(copy);
  CHECK(tegvurn_link(embedding, number, &number) == TEGVURN_STATUS_DONE);
  tegvurn_value *value = copy_of(&(tegvurn_value){.type = TEGVURN_TYPE_I32, .i32 = 9}, sizeof *value), result;
  CHECK(tegvurn_call(embedding, number, tegvurn_string("f"), value, 1, &result, 1, NULL) == TEGVURN_STATUS_DONE && result.i32 == 9);
  free(value);
  tegvurn_export *exports;
  size_t count;
  CHECK(tegvurn_exports(embedding, number, &exports, &count) == TEGVURN_STATUS_DONE && count == 1);
  CHECK(tegvurn_free(embedding) == TEGVURN_STATUS_DONE);
  CHECK(!strcmp(exports[0].name.bytes, "f") && exports[0].name.size == 1 && exports[0].kind == TEGVURN_KIND_FUNCTION);
  CHECK(exports[0].param_count == 1 && exports[0].params[0] == TEGVURN_TYPE_I32 && exports[0].results[0] == TEGVURN_TYPE_I32);
  tegvurn_exports_free(exports);
}

/* Exports */

static bool is_same_type(const tegvurn_export *one, const tegvurn_export *other) {
  return one->kind == other->kind && one->param_count == other->param_count && one->result_count == other->result_count &&
         (!one->param_count || !memcmp(one->params, other->params, one->param_count * sizeof *one->params)) &&
         (!one->result_count || !memcmp(one->results, other->results, one->result_count * sizeof *one->results)) &&
         one->type == other->type && one->is_mutable == other->is_mutable && one->minimum == other->minimum &&
         one->has_maximum == other->has_maximum && one->maximum == other->maximum;
}

/* Each export is found by its name as it is listed. */
static void test_find_export(void) {
  struct asked asked = {NULL, NULL, NULL, 0};
  tegvurn *embedding = embedding_of(&asked);
  tegvurn_export *exports, *export, *unchanged = NULL;
  size_t count;
  CHECK(tegvurn_exports(embedding, 0, &exports, &count) == TEGVURN_STATUS_DONE && count == 12);
  for (size_t i = 0; i < count; i++) {
    const char *name = exports[i].name.bytes;
    check(tegvurn_find_export(embedding, 0, tegvurn_string(name), &export) == TEGVURN_STATUS_DONE, __LINE__, name);
    check(export->name.size == strlen(name) && !strcmp(export->name.bytes, name) && is_same_type(export, &exports[i]), __LINE__, name);
    tegvurn_exports_free(export);
  }
  tegvurn_exports_free(exports);
  const struct { const char *name; uint64_t instance; tegvurn_text text; tegvurn_refusal refusal; } rows[] = {
      {"find in an unknown instance", 1, tegvurn_string("ask"), TEGVURN_REFUSAL_UNKNOWN_INSTANCE},
      {"find in the last instance", UINT64_MAX, tegvurn_string("ask"), TEGVURN_REFUSAL_UNKNOWN_INSTANCE},
      {"find an unknown export", 0, tegvurn_string("asks"), TEGVURN_REFUSAL_UNKNOWN_EXPORT},
      {"find an empty name", 0, {NULL, 0}, TEGVURN_REFUSAL_UNKNOWN_EXPORT},
      {"find a name and a zero byte", 0, {"ask\0", 4}, TEGVURN_REFUSAL_UNKNOWN_EXPORT},
  };
  for (size_t i = 0; i < sizeof rows / sizeof *rows; i++) {
    tegvurn_status status = tegvurn_find_export(embedding, rows[i].instance, rows[i].text, &unchanged);
    const tegvurn_end *end = tegvurn_last(embedding);
    check(status == TEGVURN_STATUS_REFUSED && end->number == rows[i].refusal && *end->text && !unchanged, __LINE__, rows[i].name);
  }
  size_t untouched = 7;
  CHECK(tegvurn_exports(embedding, 1, &unchanged, &untouched) == TEGVURN_STATUS_REFUSED && !unchanged && untouched == 7);
  CHECK(tegvurn_last(embedding)->number == TEGVURN_REFUSAL_UNKNOWN_INSTANCE);
  CHECK(tegvurn_free(embedding) == TEGVURN_STATUS_DONE);
}

/* Returns an embedding in which instance 0 exports a function under that many names. `types` is the number of its parameters, and of its
   results. */
static tegvurn *embedding_with(size_t exports, size_t types) {
  uint8_t *bytes = malloc(EXPORTS_ROOM(exports, types));
  tegvurn *embedding;
  uint64_t number;
  if (!bytes) exit(2);
  CHECK(tegvurn_new(&config, NULL, 0, &embedding, NULL) == TEGVURN_STATUS_DONE);
  CHECK(tegvurn_load(embedding, bytes, spell_exports(bytes, exports, types), &number) == TEGVURN_STATUS_DONE);
  CHECK(tegvurn_link(embedding, number, &number) == TEGVURN_STATUS_DONE && number == 0);
  free(bytes);
  return embedding;
}

/* All exports of a function share the arrays of its type, which outlive the embedding. */
static void test_many_exports(void) {
  tegvurn *embedding = embedding_with(MANY_EXPORTS, MANY_TYPES);
  tegvurn_export *exports, *last;
  uint8_t name[4] = {0};
  size_t count;
  bool is_right = true;
  CHECK(tegvurn_exports(embedding, 0, &exports, &count) == TEGVURN_STATUS_DONE && count == MANY_EXPORTS);
  spell_name(name, MANY_EXPORTS - 1);
  CHECK(tegvurn_find_export(embedding, 0, tegvurn_string((char *)name), &last) == TEGVURN_STATUS_DONE);
  CHECK(tegvurn_free(embedding) == TEGVURN_STATUS_DONE);
  for (size_t i = 0; i < count; i++) {
    spell_name(name, i);
    is_right = is_right && exports[i].name.size == 3 && !memcmp(exports[i].name.bytes, name, 4) &&
               exports[i].params == exports[0].params && exports[i].results == exports[0].results;
  }
  CHECK(is_right && is_same_type(&exports[0], last) && is_same_type(&exports[count - 1], last));
  for (size_t i = 0; i < MANY_TYPES; i++)
    is_right = is_right && last->params[i] == TEGVURN_TYPE_I32 && last->results[i] == TEGVURN_TYPE_I32;
  CHECK(is_right && last->param_count == MANY_TYPES && last->result_count == MANY_TYPES && !memcmp(last->name.bytes, name, 4));
  tegvurn_exports_free(exports);
  tegvurn_exports_free(last);
}

#define MORE_EXPORTS 200000
#define FOUND_OFTEN 1000

/* Finding an export takes little time, however many exports there are. */
static void test_find_among_more(void) {
  tegvurn *embedding = embedding_with(MORE_EXPORTS, 1);
  bool is_right = true;
  double start = seconds();
  for (size_t i = 0; i < FOUND_OFTEN; i++) {
    tegvurn_export *export = NULL;
    uint8_t name[4] = {0};
    spell_name(name, MORE_EXPORTS - 1 - i);
    is_right = is_right && !tegvurn_find_export(embedding, 0, tegvurn_string((char *)name), &export) && export->param_count == 1;
    tegvurn_exports_free(export);
  }
  CHECK(is_right && seconds() - start < 0.5);
  CHECK(tegvurn_free(embedding) == TEGVURN_STATUS_DONE);
}

/* Files are forgotten after a script, and after one of them is not accepted. */
static void test_files(void) {
  struct asked asked = {NULL, NULL, NULL, 0};
  tegvurn *embedding = embedding_of(&asked);
  static const char json[] = "{\"commands\":[{\"type\":\"module\",\"line\":1,\"filename\":\"a\"}]}";
  const tegvurn_file files[] = {{{"a", 1}, test_module, sizeof test_module}, {{"\xff", 1}, "", 0}};
  tegvurn_report report = {7, 7, 7, NULL};
  const tegvurn_end *end = tegvurn_last(embedding);
  CHECK(tegvurn_script(embedding, json, sizeof json - 1, files, 2, &report) == TEGVURN_STATUS_NOT_SPELT);
  CHECK(end->status == TEGVURN_STATUS_NOT_SPELT);
  CHECK(tegvurn_script(embedding, json, sizeof json - 1, NULL, 0, &report) == TEGVURN_STATUS_REFUSED);
  CHECK(end->number == TEGVURN_REFUSAL_MISSING_FILE && !strcmp(end->name, "MissingFile"));
  CHECK(end->place == TEGVURN_PLACE_COMMAND && end->at == 0 && report.passed == 7);
  CHECK(tegvurn_script(embedding, json, sizeof json - 1, files, 1, &report) == TEGVURN_STATUS_DONE);
  CHECK(report.passed == 1 && report.failed == 0 && report.skipped == 0);
  CHECK(tegvurn_script(embedding, json, sizeof json - 1, NULL, 0, &report) == TEGVURN_STATUS_REFUSED);
  CHECK(end->number == TEGVURN_REFUSAL_MISSING_FILE);
  tegvurn_free(embedding);
}

/* A host function of many parameters and results */

static bool add_index(void *context, tegvurn_host_call *call) {
  (void)context;
  for (size_t i = 0; i < call->result_count; i++) call->results[i] = tegvurn_i32(call->args[i].i32 + (uint32_t)i);
  return call->arg_count == WIDTH && call->result_count == WIDTH;
}

/* Encodes (module (import "host" "ask" (func (param i32 ..) (result i32 ..))) (export "f" (func 0))), and returns its size. */
static size_t spell_wide(uint8_t *bytes) {
  static const uint8_t head[] = {0, 'a', 's', 'm', 1, 0, 0, 0, 1, 0xde, 0x04, 1, 0x60}, width[] = {0xac, 0x02};
  static const uint8_t rest[] = {2, 12, 1, 4, 'h', 'o', 's', 't', 3, 'a', 's', 'k', 0, 0, 7, 5, 1, 1, 'f', 0, 0};
  uint8_t *to = bytes;
  memcpy(to, head, sizeof head), to += sizeof head;
  for (int i = 0; i < 2; i++) {
    memcpy(to, width, sizeof width), to += sizeof width;
    memset(to, TEGVURN_TYPE_I32, WIDTH), to += WIDTH;
  }
  memcpy(to, rest, sizeof rest);
  return (size_t)(to - bytes) + sizeof rest;
}

static void test_wide(void) {
  static tegvurn_type types[WIDTH];
  static tegvurn_value args[WIDTH], results[WIDTH];
  uint8_t bytes[2 * WIDTH + 100];
  for (uint32_t i = 0; i < WIDTH; i++) types[i] = TEGVURN_TYPE_I32, args[i] = tegvurn_i32(i);
  tegvurn_host host = host_of("ask", types, WIDTH, add_index, NULL);
  tegvurn *embedding;
  uint64_t number;
  size_t count;
  CHECK(tegvurn_new(&config, &host, 1, &embedding, NULL) == TEGVURN_STATUS_DONE);
  CHECK(tegvurn_load(embedding, bytes, spell_wide(bytes), &number) == TEGVURN_STATUS_DONE);
  CHECK(tegvurn_link(embedding, number, &number) == TEGVURN_STATUS_DONE);
  for (size_t room = WIDTH; room; room = room / 2) {
    bool is_right = true;
    memset(results, 0, sizeof results);
    CHECK(tegvurn_call(embedding, number, tegvurn_string("f"), args, WIDTH, results, room, &count) ==
          (room < WIDTH ? TEGVURN_STATUS_NO_ROOM : TEGVURN_STATUS_DONE));
    for (uint32_t i = 0; i < WIDTH; i++) is_right = is_right && results[i].i32 == (i < room ? 2 * i : 0);
    CHECK(is_right && count == WIDTH);
  }
  tegvurn_free(embedding);
}

/* Providers */

/* A guest that imports a memory, a table, globals and a function from `env`:

   (module
     (import "env" "memory" (memory 1))
     (import "env" "table" (table 2 funcref))
     (import "env" "counter" (global $counter (mut i32)))
     (import "env" "limit" (global $limit i64))
     (import "env" "ask" (func $ask (param i32) (result i32)))
     (func (export "run") (param i32) (result i32)
       (global.set $counter (i32.add (global.get $counter) (i32.const 1)))
       (call $ask (local.get 0)))
     (func (export "entries") (result i32) table.size 0)
     (export "counter" (global $counter))
     (export "limit" (global $limit))) */
static const uint8_t guest[] = {
    0x00, 0x61, 0x73, 0x6d, 0x01, 0x00, 0x00, 0x00, 0x01, 0x0a, 0x02, 0x60, 0x01, 0x7f, 0x01, 0x7f, 0x60, 0x00, 0x01, 0x7f,
    0x02, 0x43, 0x05, 0x03, 0x65, 0x6e, 0x76, 0x06, 0x6d, 0x65, 0x6d, 0x6f, 0x72, 0x79, 0x02, 0x00, 0x01, 0x03, 0x65, 0x6e,
    0x76, 0x05, 0x74, 0x61, 0x62, 0x6c, 0x65, 0x01, 0x70, 0x00, 0x02, 0x03, 0x65, 0x6e, 0x76, 0x07, 0x63, 0x6f, 0x75, 0x6e,
    0x74, 0x65, 0x72, 0x03, 0x7f, 0x01, 0x03, 0x65, 0x6e, 0x76, 0x05, 0x6c, 0x69, 0x6d, 0x69, 0x74, 0x03, 0x7e, 0x00, 0x03,
    0x65, 0x6e, 0x76, 0x03, 0x61, 0x73, 0x6b, 0x00, 0x00, 0x03, 0x03, 0x02, 0x00, 0x01, 0x07, 0x23, 0x04, 0x03, 0x72, 0x75,
    0x6e, 0x00, 0x01, 0x07, 0x65, 0x6e, 0x74, 0x72, 0x69, 0x65, 0x73, 0x00, 0x02, 0x07, 0x63, 0x6f, 0x75, 0x6e, 0x74, 0x65,
    0x72, 0x03, 0x00, 0x05, 0x6c, 0x69, 0x6d, 0x69, 0x74, 0x03, 0x01, 0x0a, 0x15, 0x02, 0x0d, 0x00, 0x23, 0x00, 0x41, 0x01,
    0x6a, 0x24, 0x00, 0x20, 0x00, 0x10, 0x00, 0x0b, 0x05, 0x00, 0xfc, 0x10, 0x00, 0x0b,
};

static tegvurn_provided memory_of(const char *name, uint64_t minimum) {
  return (tegvurn_provided){.name = tegvurn_string(name), .kind = TEGVURN_KIND_MEMORY, .minimum = minimum};
}

static tegvurn_provided global_of(const char *name, tegvurn_value value, bool is_mutable) {
  return (tegvurn_provided){.name = tegvurn_string(name), .kind = TEGVURN_KIND_GLOBAL, .value = value, .is_mutable = is_mutable};
}

/* Returns the status of loading and linking a module. If that is done, the instance is in *instance. */
static tegvurn_status link_bytes(tegvurn *embedding, const void *bytes, size_t size, uint64_t *instance) {
  tegvurn_status status = tegvurn_load(embedding, bytes, size, instance);
  return status ? status : tegvurn_link(embedding, *instance, instance);
}

/* Writes its argument into the first byte of the memory, which has two pages. */
static bool ask_for_byte(struct asked *asked, tegvurn_host_call *call) {
  (void)asked;
  call->memory[0] = (uint8_t)call->args[0].i32;
  call->results[0] = tegvurn_i32((uint32_t)call->memory_size);
  return true;
}

/* A guest imports all that it needs from a provider: host functions of another module name, and objects. */
static void test_provider(void) {
  struct asked asked = {ask_for_byte, NULL, NULL, 0};
  tegvurn *embedding = embedding_of(&asked);
  const tegvurn_host hosts[] = {host_of("ask", i32_type, 1, ask, &asked), host_of("keep", extern_type, 1, ask, &asked)};
  const tegvurn_provided table = {.name = tegvurn_string("table"), .kind = TEGVURN_KIND_TABLE, .type = TEGVURN_TYPE_FUNCREF, .minimum = 3};
  const tegvurn_provided objects[] = {global_of("counter", tegvurn_i32(41), true), memory_of("memory", 2), table,
                                      global_of("limit", tegvurn_i64((uint64_t)-5), false)};
  uint64_t provider = 77, instance = 77;
  tegvurn_value value = tegvurn_i32(9);
  tegvurn_export *found;
  char byte = 0;
  CHECK(tegvurn_provide(embedding, tegvurn_string("env"), hosts, 2, objects, 4, &provider) == TEGVURN_STATUS_DONE && provider == 1);
  CHECK(link_bytes(embedding, guest, sizeof guest, &instance) == TEGVURN_STATUS_DONE && instance == 2);
  CHECK(tegvurn_call(embedding, instance, tegvurn_string("run"), &value, 1, &value, 1, NULL) == TEGVURN_STATUS_DONE && value.i32 == 131072);
  uint64_t window = 77;
  CHECK(tegvurn_window_open(embedding, provider, tegvurn_string("memory"), &window) == TEGVURN_STATUS_DONE);
  CHECK(tegvurn_window_read(embedding, window, 0, &byte, 1) == TEGVURN_STATUS_DONE && byte == 9);
  CHECK(tegvurn_call(embedding, instance, tegvurn_string("entries"), NULL, 0, &value, 1, NULL) == TEGVURN_STATUS_DONE && value.i32 == 3);
  CHECK(tegvurn_get_global(embedding, provider, tegvurn_string("counter"), &value) == TEGVURN_STATUS_DONE && value.i32 == 42);
  CHECK(tegvurn_get_global(embedding, instance, tegvurn_string("limit"), &value) == TEGVURN_STATUS_DONE && value.i64 == (uint64_t)-5);
  CHECK(tegvurn_find_export(embedding, provider, tegvurn_string("keep"), &found) == TEGVURN_STATUS_DONE);
  CHECK(found->param_count == 1 && found->params[0] == TEGVURN_TYPE_EXTERNREF && found->result_count == 1);
  tegvurn_exports_free(found);
  CHECK(tegvurn_free(embedding) == TEGVURN_STATUS_DONE);
}

/* Globals begin with each kind of value, and tables and memories have their limits. */
static void test_provider_objects(void) {
  static const uint64_t numbers[] = {0, 1, 63, 64, 127, 128, 0x7FFFFFFF, 0x80000000, 0xFFFFFFBF, 0xFFFFFFC0, 0xFFFFFFFF,
                                     INT64_MAX, (uint64_t)INT64_MAX + 1, UINT64_MAX - 64, UINT64_MAX - 63, UINT64_MAX};
  tegvurn_provided objects[34] = {memory_of("memory", 1), {.name = tegvurn_string("table"), .kind = TEGVURN_KIND_TABLE}};
  char names[32][3];
  tegvurn *embedding;
  tegvurn_value value;
  tegvurn_export *found;
  uint64_t instance;
  objects[0].has_maximum = objects[1].has_maximum = true;
  objects[0].maximum = 200, objects[1].maximum = 300, objects[1].minimum = 20, objects[1].type = TEGVURN_TYPE_EXTERNREF;
  for (int i = 0; i < 32; i++) {
    names[i][0] = (char)('a' + i / 16), names[i][1] = (char)('a' + i % 16), names[i][2] = 0;
    objects[i + 2] = global_of(names[i], i < 16 ? tegvurn_i32((uint32_t)numbers[i]) : tegvurn_i64(numbers[i - 16]), i % 2);
  }
  CHECK(tegvurn_new(&config, NULL, 0, &embedding, NULL) == TEGVURN_STATUS_DONE);
  CHECK(tegvurn_provide(embedding, tegvurn_string("env"), NULL, 0, objects, 34, &instance) == TEGVURN_STATUS_DONE);
  for (int i = 0; i < 32; i++) {
    CHECK(tegvurn_get_global(embedding, instance, tegvurn_string(names[i]), &value) == TEGVURN_STATUS_DONE);
    CHECK(i < 16 ? value.type == TEGVURN_TYPE_I32 && value.i32 == (uint32_t)numbers[i]
                 : value.type == TEGVURN_TYPE_I64 && value.i64 == numbers[i - 16]);
    CHECK(tegvurn_find_export(embedding, instance, tegvurn_string(names[i]), &found) == TEGVURN_STATUS_DONE && found->is_mutable == i % 2);
    tegvurn_exports_free(found);
  }
  CHECK(tegvurn_find_export(embedding, instance, tegvurn_string("memory"), &found) == TEGVURN_STATUS_DONE);
  CHECK(found->kind == TEGVURN_KIND_MEMORY && found->minimum == 1 && found->has_maximum && found->maximum == 200);
  tegvurn_exports_free(found);
  CHECK(tegvurn_find_export(embedding, instance, tegvurn_string("table"), &found) == TEGVURN_STATUS_DONE);
  CHECK(found->kind == TEGVURN_KIND_TABLE && found->type == TEGVURN_TYPE_EXTERNREF);
  CHECK(found->minimum == 20 && found->has_maximum && found->maximum == 300);
  tegvurn_exports_free(found);
  const tegvurn_provided nulls[] = {global_of("function", tegvurn_null(TEGVURN_TYPE_FUNCREF), false),
                                    global_of("host", tegvurn_null(TEGVURN_TYPE_EXTERNREF), true)};
  CHECK(tegvurn_provide(embedding, tegvurn_string("env"), NULL, 0, nulls, 2, &instance) == TEGVURN_STATUS_DONE);
  for (int i = 0; i < 2; i++) {
    CHECK(tegvurn_get_global(embedding, instance, nulls[i].name, &value) == TEGVURN_STATUS_DONE);
    CHECK(value.type == nulls[i].value.type && value.is_null);
  }
  CHECK(tegvurn_free(embedding) == TEGVURN_STATUS_DONE);
}

static void test_provider_refusals(void) {
  struct asked asked = {NULL, NULL, NULL, 0};
  tegvurn *embedding = embedding_of(&asked);
  const tegvurn_host unknown = host_of("unknown", i32_type, 1, ask, &asked), other = host_of("ask", extern_type, 1, ask, &asked);
  const tegvurn_provided twice[] = {memory_of("memory", 1), global_of("memory", tegvurn_i32(1), true)};
  const tegvurn_provided large = memory_of("memory", 17), reference = global_of("g", tegvurn_ref(TEGVURN_TYPE_EXTERNREF, 0), true);
  const tegvurn_provided function = {.name = tegvurn_string("f"), .kind = TEGVURN_KIND_FUNCTION};
  const tegvurn_provided no_kind = {.name = tegvurn_string("f"), .kind = (tegvurn_kind)4};
  const struct {
    const char *name;
    const tegvurn_host *hosts;
    const tegvurn_provided *objects;
    size_t count;
    tegvurn_refusal refusal;
  } rows[] = {
      {"env", &unknown, NULL, 0, TEGVURN_REFUSAL_UNKNOWN_IMPORT},
      {"env", &other, NULL, 0, TEGVURN_REFUSAL_INCOMPATIBLE_IMPORT},
      {"env", NULL, twice, 2, TEGVURN_REFUSAL_INVALID},
      {"env", NULL, &large, 1, TEGVURN_REFUSAL_LIMIT},
      {"env", NULL, &reference, 1, TEGVURN_REFUSAL_BAD_ARGUMENTS},
      {"env", NULL, &function, 1, TEGVURN_REFUSAL_BAD_ARGUMENTS},
      {"env", NULL, &no_kind, 1, TEGVURN_REFUSAL_BAD_ARGUMENTS},
      {"host", NULL, NULL, 0, TEGVURN_REFUSAL_NAME_TAKEN},
  };
  uint64_t instance = 77;
  for (size_t i = 0; i < sizeof rows / sizeof *rows; i++) {
    size_t host_count = rows[i].hosts != NULL;
    CHECK(tegvurn_provide(embedding, tegvurn_string(rows[i].name), rows[i].hosts, host_count, rows[i].objects, rows[i].count, &instance) ==
              TEGVURN_STATUS_REFUSED && instance == 77);
    CHECK(tegvurn_last(embedding)->number == rows[i].refusal && *tegvurn_last(embedding)->text);
  }
  CHECK(tegvurn_provide(embedding, tegvurn_string("\xff"), NULL, 0, NULL, 0, &instance) == TEGVURN_STATUS_NOT_SPELT && instance == 77);
  CHECK(link_bytes(embedding, guest, sizeof guest, &instance) == TEGVURN_STATUS_REFUSED);
  CHECK(tegvurn_free(embedding) == TEGVURN_STATUS_DONE);
}

/* Windows */

#define MEMORY_SIZE 65536

/* Returns a window on the memory of instance 0. */
static uint64_t window_of(tegvurn *embedding, const char *memory) {
  uint64_t window = 77;
  CHECK(tegvurn_window_open(embedding, 0, tegvurn_string(memory), &window) == TEGVURN_STATUS_DONE);
  return window;
}

/* A host reads and writes the memory of an instance between calls. */
static void test_window(void) {
  struct asked asked = {NULL, NULL, NULL, 0};
  tegvurn *embedding = embedding_of(&asked);
  uint64_t window = window_of(embedding, "memory"), other = window_of(embedding, "memory");
  char bytes[6] = "?????";
  tegvurn_value result;
  CHECK(tegvurn_window_read(embedding, window, 8, bytes, 5) == TEGVURN_STATUS_DONE && !strcmp(bytes, "hello"));
  CHECK(tegvurn_window_write(embedding, window, 8, "J", 1) == TEGVURN_STATUS_DONE);
  CHECK(call_one(embedding, "byte", tegvurn_i32(8), &result) == TEGVURN_STATUS_DONE && result.i32 == 'J');
  CHECK(tegvurn_window_read(embedding, other, 8, bytes, 5) == TEGVURN_STATUS_DONE && !strcmp(bytes, "Jello"));
  CHECK(tegvurn_window_write(embedding, other, 12, "y", 1) == TEGVURN_STATUS_DONE);
  CHECK(tegvurn_window_read(embedding, window, 8, bytes, 5) == TEGVURN_STATUS_DONE && !strcmp(bytes, "Jelly"));
  CHECK(tegvurn_free(embedding) == TEGVURN_STATUS_DONE);
}

static const struct { const char *name; uint64_t at; size_t size; bool is_inside; } ranges[] = {
    {"the whole memory", 0, MEMORY_SIZE, true},
    {"its last byte", MEMORY_SIZE - 1, 1, true},
    {"no bytes at its end", MEMORY_SIZE, 0, true},
    {"no bytes after its end", MEMORY_SIZE + 1, 0, false},
    {"a byte at its end", MEMORY_SIZE, 1, false},
    {"bytes over its end", MEMORY_SIZE - 1, 2, false},
    {"more bytes than it has", 0, MEMORY_SIZE + 1, false},
    {"a byte far after its end", UINT64_MAX, 1, false},
    {"no bytes far after its end", UINT64_MAX, 0, false},
    {"the most bytes", 1, SIZE_MAX, false},
};

/* Only bytes that are all in the memory are read and written. */
static void test_window_ranges(void) {
  static uint8_t bytes[MEMORY_SIZE + 1];
  struct asked asked = {NULL, NULL, NULL, 0};
  tegvurn *embedding = embedding_of(&asked);
  uint64_t window = window_of(embedding, "memory");
  const tegvurn_end *end = tegvurn_last(embedding);
  tegvurn_value result;
  for (size_t i = 0; i < sizeof ranges / sizeof *ranges; i++) {
    tegvurn_status wanted = ranges[i].is_inside ? TEGVURN_STATUS_DONE : TEGVURN_STATUS_TRAP;
    memset(bytes, 'x', sizeof bytes);
    check(tegvurn_window_write(embedding, window, ranges[i].at, bytes, ranges[i].size) == wanted, __LINE__, ranges[i].name);
    uint32_t last = ranges[i].is_inside && ranges[i].size ? 'x' : 0;
    CHECK(call_one(embedding, "byte", tegvurn_i32(MEMORY_SIZE - 1), &result) == TEGVURN_STATUS_DONE && result.i32 == last);
    check(tegvurn_window_read(embedding, window, ranges[i].at, bytes, ranges[i].size) == wanted, __LINE__, ranges[i].name);
    bool is_out = end->status == TEGVURN_STATUS_TRAP && end->number == TEGVURN_TRAP_MEMORY_BOUNDS && !end->code;
    check(ranges[i].is_inside || (is_out && !strcmp(end->text, "out of bounds memory access")), __LINE__, ranges[i].name);
    check(bytes[0] == 'x' && bytes[MEMORY_SIZE] == 'x', __LINE__, ranges[i].name);
    CHECK(tegvurn_window_write(embedding, window, MEMORY_SIZE - 1, "", 1) == TEGVURN_STATUS_DONE);
  }
  CHECK(tegvurn_free(embedding) == TEGVURN_STATUS_DONE);
}

/* Reading and writing spend no fuel, and reading leaves the end of an earlier call. */
static void test_window_fuel(void) {
  static const uint64_t fuels[] = {0, 1, 1000, UINT64_MAX};
  struct asked asked = {NULL, NULL, NULL, 0};
  tegvurn *embedding = embedding_of(&asked);
  uint64_t window = window_of(embedding, "memory"), left = 77;
  const tegvurn_end *end = tegvurn_last(embedding);
  char byte = 0;
  for (int i = 0; i < 4; i++) {
    CHECK(tegvurn_set_fuel(embedding, fuels[i]) == TEGVURN_STATUS_DONE);
    CHECK(tegvurn_window_write(embedding, window, 3, "w", 1) == TEGVURN_STATUS_DONE);
    CHECK(tegvurn_window_read(embedding, window, 3, &byte, 1) == TEGVURN_STATUS_DONE && byte == 'w');
    CHECK(tegvurn_fuel_left(embedding, &left) == TEGVURN_STATUS_DONE && left == fuels[i]);
  }
  CHECK(tegvurn_call(embedding, 0, tegvurn_string("trap"), NULL, 0, NULL, 0, NULL) == TEGVURN_STATUS_TRAP);
  CHECK(tegvurn_window_read(embedding, window, 3, &byte, 1) == TEGVURN_STATUS_DONE && end->number == TEGVURN_TRAP_UNREACHABLE);
  CHECK(tegvurn_window_write(embedding, window, 3, "w", 1) == TEGVURN_STATUS_DONE && end->status == TEGVURN_STATUS_DONE);
  CHECK(tegvurn_free(embedding) == TEGVURN_STATUS_DONE);
}

/* (module (memory (export "m") 0 2) (func (export "grow") i32.const 1 memory.grow drop)) */
#define GROWS "\0asm\1\0\0\0\1\4\1\x60\0\0\3\2\1\0\5\4\1\1\0\2\7\x0c\2\1m\2\0\4grow\0\0\x0a\x09\1\7\0\x41\1\x40\0\x1a\x0b"

/* A window sees a memory that is empty, and that grows. */
static void test_window_growth(void) {
  const tegvurn_host host = tegvurn_window_host();
  tegvurn *embedding;
  uint64_t instance;
  char byte = 'x';
  CHECK(tegvurn_new(&config, &host, 1, &embedding, NULL) == TEGVURN_STATUS_DONE);
  CHECK(link_bytes(embedding, GROWS, sizeof GROWS - 1, &instance) == TEGVURN_STATUS_DONE && instance == 0);
  uint64_t window = window_of(embedding, "m");
  CHECK(tegvurn_window_read(embedding, window, 0, NULL, 0) == TEGVURN_STATUS_DONE);
  for (uint64_t last = MEMORY_SIZE - 1; last < 2 * MEMORY_SIZE; last += MEMORY_SIZE) {
    CHECK(tegvurn_window_write(embedding, window, last, "a", 1) == TEGVURN_STATUS_TRAP);
    CHECK(tegvurn_call(embedding, 0, tegvurn_string("grow"), NULL, 0, NULL, 0, NULL) == TEGVURN_STATUS_DONE);
    CHECK(tegvurn_window_read(embedding, window, last, &byte, 1) == TEGVURN_STATUS_DONE && byte == 0);
    CHECK(tegvurn_window_write(embedding, window, last, "a", 1) == TEGVURN_STATUS_DONE);
    CHECK(tegvurn_window_read(embedding, window, last, &byte, 1) == TEGVURN_STATUS_DONE && byte == 'a');
  }
  CHECK(tegvurn_free(embedding) == TEGVURN_STATUS_DONE);
}

/* (module (import "tegvurn.window" "memory" (memory 0))) */
#define IMPORTS_MEMORY "\0asm\1\0\0\0\2\x1a\1\x0etegvurn.window\6memory\2\0\0"
/* (module (import "tegvurn" "window" (func $window)) (memory 1) (func (export "f") call $window)) */
#define CALLS_WINDOW \
  "\0asm\1\0\0\0\1\4\1\x60\0\0\2\x12\1\7tegvurn\6window\0\0\3\2\1\0\5\3\1\0\1\7\5\1\1" \
  "f\0\1\x0a\6\1\4\0\x10\0\x0b"

/* A module of a stranger reaches neither the instance of a window nor what a window copies. */
static void test_window_strangers(void) {
  struct asked asked = {NULL, NULL, NULL, 0};
  tegvurn *embedding = embedding_of(&asked);
  uint64_t window = window_of(embedding, "memory"), stranger = 77;
  const tegvurn_end *end = tegvurn_last(embedding);
  char bytes[6] = "?????";
  CHECK(link_bytes(embedding, IMPORTS_MEMORY, sizeof IMPORTS_MEMORY - 1, &stranger) == TEGVURN_STATUS_REFUSED);
  CHECK(end->number == TEGVURN_REFUSAL_UNKNOWN_IMPORT && end->place == TEGVURN_PLACE_IMPORT && end->at == 0);
  CHECK(link_bytes(embedding, CALLS_WINDOW, sizeof CALLS_WINDOW - 1, &stranger) == TEGVURN_STATUS_DONE);
  CHECK(tegvurn_window_read(embedding, window, 8, bytes, 5) == TEGVURN_STATUS_DONE);
  CHECK(tegvurn_call(embedding, stranger, tegvurn_string("f"), NULL, 0, NULL, 0, NULL) == TEGVURN_STATUS_DONE);
  CHECK(!strcmp(bytes, "hello"));
  CHECK(tegvurn_window_read(embedding, stranger, 8, bytes, 5) == TEGVURN_STATUS_REFUSED && end->number == TEGVURN_REFUSAL_UNKNOWN_EXPORT);
  CHECK(tegvurn_window_write(embedding, 99, 8, bytes, 5) == TEGVURN_STATUS_REFUSED && end->number == TEGVURN_REFUSAL_UNKNOWN_INSTANCE);
  CHECK(tegvurn_free(embedding) == TEGVURN_STATUS_DONE);
}

/* A window that is refused changes nothing that later links can see. */
static void test_window_refusals(void) {
  static const struct { const char *name; uint64_t instance; tegvurn_refusal refusal; } rows[] = {
      {"memory", 9, TEGVURN_REFUSAL_UNKNOWN_INSTANCE}, {"m", 0, TEGVURN_REFUSAL_UNKNOWN_EXPORT},
      {"number", 0, TEGVURN_REFUSAL_WRONG_KIND},       {"\xff", 0, (tegvurn_refusal)0},
  };
  struct asked asked = {NULL, NULL, NULL, 0};
  tegvurn *embedding = embedding_of(&asked), *without;
  uint64_t window = 77;
  for (size_t i = 0; i < sizeof rows / sizeof *rows; i++) {
    tegvurn_status wanted = rows[i].refusal ? TEGVURN_STATUS_REFUSED : TEGVURN_STATUS_NOT_SPELT;
    CHECK(tegvurn_window_open(embedding, rows[i].instance, tegvurn_string(rows[i].name), &window) == wanted && window == 77);
    check(tegvurn_last(embedding)->number == (uint32_t)rows[i].refusal, __LINE__, rows[i].name);
  }
  CHECK(tegvurn_new(&config, NULL, 0, &without, NULL) == TEGVURN_STATUS_DONE);
  CHECK(link_bytes(without, GROWS, sizeof GROWS - 1, &window) == TEGVURN_STATUS_DONE && window == 0);
  CHECK(tegvurn_window_open(without, 0, tegvurn_string("m"), &window) == TEGVURN_STATUS_REFUSED && window == 0);
  CHECK(tegvurn_last(without)->number == TEGVURN_REFUSAL_UNKNOWN_IMPORT && !strcmp(tegvurn_last(without)->text, "import 1 is unknown"));
  CHECK(link_bytes(without, IMPORTS_MEMORY, sizeof IMPORTS_MEMORY - 1, &window) == TEGVURN_STATUS_REFUSED);
  CHECK(tegvurn_last(without)->number == TEGVURN_REFUSAL_UNKNOWN_IMPORT && tegvurn_last(without)->at == 0);
  CHECK(tegvurn_free(embedding) == TEGVURN_STATUS_DONE && tegvurn_free(without) == TEGVURN_STATUS_DONE);
}

/* Callbacks that are left */

#define LEFT_OFTEN 1000

/* Valgrind and sanitizers keep freed memory for a while. */
#if defined(TEGVURN_VALGRIND) || defined(__SANITIZE_ADDRESS__)
#define FREES_AT_ONCE false
#else
#define FREES_AT_ONCE true
#endif

static jmp_buf way_out;

static bool jump(struct asked *asked, tegvurn_host_call *call) {
  (void)call;
  asked->number++;
  longjmp(way_out, 1);
}

/* Calls an export whose host function is left, and returns whether the embedding is busy after that. */
static bool is_left(tegvurn *embedding, const char *name) {
  tegvurn_value result;
  if (!setjmp(way_out)) {
    call_one(embedding, name, tegvurn_i32(1), &result);
    return false;
  }
  return is_all_busy(embedding);
}

/* Counts the mappings and the resident pages of the process. Each count is 0 if the system does not provide it. */
static void count_memory(long *mappings, long *pages) {
  FILE *maps = fopen("/proc/self/maps", "r"), *sizes = fopen("/proc/self/statm", "r");
  *mappings = *pages = 0;
  for (int byte; maps && (byte = fgetc(maps)) != EOF;) *mappings += byte == '\n';
  if (sizes && fscanf(sizes, "%*d %ld", pages) != 1) *pages = 0;
  if (maps) fclose(maps);
  if (sizes) fclose(sizes);
}

/* Leaves and abandons many embeddings. The proved code waits at different places with and without borrowed memory. */
static void test_left_often(void) {
  struct asked asked = {jump, NULL, NULL, 0};
  bool is_right = true;
  long mappings_before, pages_before, mappings, pages;
  for (int i = 0; i < LEFT_OFTEN; i++) {
    if (i == LEFT_OFTEN / 10) count_memory(&mappings_before, &pages_before);
    tegvurn *embedding = embedding_of(&asked);
    is_right = is_right && is_left(embedding, i % 2 ? "ask" : "ask_outside") && tegvurn_abandon(embedding) == TEGVURN_STATUS_DONE;
  }
  count_memory(&mappings, &pages);
  CHECK(is_right && asked.number == LEFT_OFTEN);
  CHECK(mappings <= mappings_before + 10 && (pages <= pages_before + 1000 || !FREES_AT_ONCE));
}

/* The callback of one embedding calls another embedding, whose callback leaves both. */
static void test_left_nested(void) {
  struct asked inner = {jump, NULL, NULL, 0}, outer = {ask_next, NULL, &inner, 0}, other = {NULL, NULL, NULL, 0};
  tegvurn_value result;
  embedding_of(&inner), embedding_of(&outer), embedding_of(&other);
  CHECK(is_left(outer.embedding, "ask") && is_all_busy(inner.embedding));
  CHECK(tegvurn_abandon(outer.embedding) == TEGVURN_STATUS_DONE && is_all_busy(inner.embedding));
  CHECK(call_one(other.embedding, "ask", tegvurn_i32(1), &result) == TEGVURN_STATUS_DONE && result.i32 == 1);
  CHECK(tegvurn_abandon(inner.embedding) == TEGVURN_STATUS_DONE);
  CHECK(call_one(other.embedding, "ask", tegvurn_i32(2), &result) == TEGVURN_STATUS_DONE && result.i32 == 2);
  CHECK(tegvurn_free(other.embedding) == TEGVURN_STATUS_DONE);
}

/* The remaining commands of a script call no host function. */
static void test_left_script(void) {
#define COMMAND "{\"type\":\"action\",\"line\":1,\"action\":{\"type\":\"invoke\",\"field\":\"ask\",\"args\":[{\"type\":\"i32\",\"value\":\"1\"}]}}"
  static const char json[] = "{\"commands\":[{\"type\":\"module\",\"line\":1,\"filename\":\"a\"}," COMMAND "," COMMAND "," COMMAND "]}";
  static struct asked asked = {jump, NULL, NULL, 0};
  const tegvurn_file file = {{"a", 1}, test_module, sizeof test_module};
  static tegvurn_report report;
  embedding_of(&asked);
  if (!setjmp(way_out)) CHECK(tegvurn_script(asked.embedding, json, sizeof json - 1, &file, 1, &report) == TEGVURN_STATUS_BUSY);
  CHECK(is_all_busy(asked.embedding) && asked.number == 1);
  CHECK(tegvurn_abandon(asked.embedding) == TEGVURN_STATUS_DONE && asked.number == 1);
}

static bool end_thread(struct asked *asked, tegvurn_host_call *call) {
  (void)asked, (void)call;
  pthread_exit(NULL);
}

static void *call_to_the_end(void *asked) {
  tegvurn_value result;
  call_one(embedding_of(asked), "ask", tegvurn_i32(1), &result);
  CHECK(!"the thread goes on");
  return NULL;
}

static void *abandon_it(void *embedding) {
  CHECK(tegvurn_abandon(embedding) == TEGVURN_STATUS_DONE);
  return NULL;
}

/* A thread ends inside a callback, and another one abandons the embedding. */
static void test_left_by_thread(void) {
  struct asked asked = {end_thread, NULL, NULL, 0};
  run_on_thread(call_to_the_end, &asked);
  CHECK(is_all_busy(asked.embedding));
  CHECK(tegvurn_abandon(asked.embedding) == TEGVURN_STATUS_DONE);
  run_on_thread(call_to_the_end, &asked);
  run_on_thread(abandon_it, asked.embedding);
}

/* Abandoning an idle embedding frees it, on any thread. */
static void test_abandon_idle(void) {
  struct asked asked = {NULL, NULL, NULL, 0};
  tegvurn *embedding;
  CHECK(tegvurn_abandon(NULL) == TEGVURN_STATUS_DONE);
  CHECK(tegvurn_new(&config, NULL, 0, &embedding, NULL) == TEGVURN_STATUS_DONE && tegvurn_abandon(embedding) == TEGVURN_STATUS_DONE);
  CHECK(tegvurn_abandon(embedding_of(&asked)) == TEGVURN_STATUS_DONE);
  run_on_thread(abandon_it, embedding_of(&asked));
}

int main(void) {
  test_busy();
  test_free_elsewhere();
  test_ended_thread();
  test_moved();
  test_shared();
  test_nested();
  test_threads();
  test_signals();
  test_blocked_signals();
  test_last();
  test_room();
  test_references();
  test_traps();
  test_link_ends();
  test_wrong_results();
  test_memory();
  test_new();
  test_defaults();
  test_new_without_pointers();
  test_calls_without_embedding();
  test_calls_without_pointers();
  test_texts();
  test_explanations();
  test_too_large();
  test_long_messages();
  test_copies();
  test_find_export();
  test_many_exports();
  test_find_among_more();
  test_files();
  test_wide();
  test_provider();
  test_provider_objects();
  test_provider_refusals();
  test_window();
  test_window_ranges();
  test_window_fuel();
  test_window_growth();
  test_window_strangers();
  test_window_refusals();
  test_left_often();
  test_left_nested();
  test_left_script();
  test_left_by_thread();
  test_abandon_idle();
  printf("%d passed, %d failed\n", passed, failed);
  return failed != 0;
}
