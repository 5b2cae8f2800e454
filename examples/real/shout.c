/* A first module: writes its input with capital letters. docs/COMPILING.md compiles it. */
#include "host.h"

int run(int mode) {
  static char buffer[4096];
  size_t size;
  while ((size = host_read(buffer, sizeof buffer))) {
    for (size_t i = 0; i < size; i++)
      if (buffer[i] >= 'a' && buffer[i] <= 'z') buffer[i] -= 'a' - 'A';
    host_write(buffer, size);
  }
  return 0;
}
