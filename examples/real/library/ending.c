/* The ends of a program inside of a call: `abort` is the trap `unreachable`, and `exit` asks the host. */
#include <stdlib.h>

#include "host.h"

void abort(void) { __builtin_trap(); }

void exit(int status) { host_exit(status); }

char *getenv(const char *name) {
  (void)name;
  return NULL;
}
