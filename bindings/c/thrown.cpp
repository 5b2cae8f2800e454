/* Checks that a C++ exception can leave a callback: it passes through the library's frames, and the embedding is abandoned after it. */
#include "tegvurn.h"
#include "test_module.h"

#include <cstdio>

static bool leave(void *, tegvurn_host_call *) { throw 7; }

/* Calls an export whose host function throws, and returns what it threw. */
static int thrown_by(tegvurn *embedding) {
  tegvurn_value value = tegvurn_i32(1);
  try {
    tegvurn_call(embedding, 0, tegvurn_string("ask"), &value, 1, &value, 1, NULL);
  } catch (int number) {
    return number;
  }
  return 0;
}

/* Makes an embedding, leaves its callback and abandons it. Returns whether each step was right. */
static bool is_right() {
  const tegvurn_type i32_type[] = {TEGVURN_TYPE_I32}, extern_type[] = {TEGVURN_TYPE_EXTERNREF};
  const tegvurn_host hosts[] = {
      {tegvurn_string("host"), tegvurn_string("ask"), i32_type, 1, i32_type, 1, leave, NULL},
      {tegvurn_string("host"), tegvurn_string("keep"), extern_type, 1, extern_type, 1, leave, NULL},
      {tegvurn_string("host"), tegvurn_string("nothing"), NULL, 0, NULL, 0, leave, NULL},
  };
  const tegvurn_config config = {1000, 100, 16, 100};
  tegvurn *embedding;
  uint64_t number;
  return tegvurn_new(&config, hosts, 3, &embedding, NULL) == TEGVURN_STATUS_DONE &&
         tegvurn_load(embedding, test_module, sizeof test_module, &number) == TEGVURN_STATUS_DONE &&
         tegvurn_link(embedding, number, &number) == TEGVURN_STATUS_DONE && thrown_by(embedding) == 7 &&
         tegvurn_free(embedding) == TEGVURN_STATUS_BUSY && tegvurn_abandon(embedding) == TEGVURN_STATUS_DONE;
}

int main() {
  for (int times = 0; times < 100; times++)
    if (!is_right()) return 1;
  std::printf("as it has to be\n");
}
