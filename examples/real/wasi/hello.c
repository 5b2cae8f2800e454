/* An ordinary command in C: it greets each word among its arguments, then counts the lines and the bytes of its input. */
#include <stdio.h>
#include <stdlib.h>

int main(int count, char **arguments) {
  for (int i = 1; i < count; i++) printf("hello, %s\n", arguments[i]);
  long lines = 0, bytes = 0;
  for (int character; (character = getchar()) != EOF; bytes++) lines += character == '\n';
  const char *unit = getenv("UNIT");
  printf("%ld lines, %ld %s\n", lines, bytes, unit ? unit : "bytes");
  if (!bytes) fputs("no input\n", stderr);
  return bytes ? 0 : 3;
}
