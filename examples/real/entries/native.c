/* Runs an entry as a native program: `PROGRAM MODE`, from standard input to standard output. Its status is that of the entry. */
#include <stdio.h>

#include "entry.h"

size_t host_read(void *to, size_t size) { return fread(to, 1, size, stdin); }

void host_write(const void *from, size_t size) {
  if (fwrite(from, 1, size, stdout) != size) exit(100);
}

_Noreturn void host_exit(int status) { exit(status); }

int main(int count, char **arguments) { return run(count > 1 ? atoi(arguments[1]) : 0); }
