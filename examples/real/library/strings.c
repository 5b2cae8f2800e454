/* Bytes and texts. */
#include <ctype.h>
#include <stdlib.h>
#include <string.h>
#include <strings.h>

/* Of these three functions, clang makes `memory.copy` and `memory.fill`. Those trap for a size of 0 at an address outside of the memory.
   Programs pass that to memcpy, so it does nothing here. */
#ifdef __wasm__
#define BULK __attribute__((target("bulk-memory")))
#else
#define BULK
#endif

BULK void *memcpy(void *to, const void *from, size_t size) { return size ? __builtin_memmove(to, from, size) : to; }
BULK void *memmove(void *to, const void *from, size_t size) { return size ? __builtin_memmove(to, from, size) : to; }
BULK void *memset(void *to, int byte, size_t size) { return size ? __builtin_memset(to, byte, size) : to; }

int memcmp(const void *left, const void *right, size_t size) {
  const unsigned char *a = left, *b = right;
  for (size_t i = 0; i < size; i++)
    if (a[i] != b[i]) return a[i] - b[i];
  return 0;
}

void *memchr(const void *bytes, int byte, size_t size) {
  const unsigned char *at = bytes;
  for (; size--; at++)
    if (*at == (unsigned char)byte) return (void *)at;
  return NULL;
}

size_t strnlen(const char *text, size_t most) {
  size_t length = 0;
  while (length < most && text[length]) length++;
  return length;
}

size_t strlen(const char *text) { return strnlen(text, (size_t)-1); }

int strncmp(const char *left, const char *right, size_t most) {
  for (; most--; left++, right++)
    if (*left != *right || !*left) return (unsigned char)*left - (unsigned char)*right;
  return 0;
}

int strcmp(const char *left, const char *right) { return strncmp(left, right, (size_t)-1); }

int strcoll(const char *left, const char *right) { return strcmp(left, right); }

int strncasecmp(const char *left, const char *right, size_t most) {
  for (; most--; left++, right++) {
    int difference = tolower((unsigned char)*left) - tolower((unsigned char)*right);
    if (difference || !*left) return difference;
  }
  return 0;
}

int strcasecmp(const char *left, const char *right) { return strncasecmp(left, right, (size_t)-1); }

char *strncpy(char *to, const char *from, size_t size) {
  size_t length = strnlen(from, size);
  memcpy(to, from, length);
  memset(to + length, 0, size - length);
  return to;
}

char *strcpy(char *to, const char *from) { return memcpy(to, from, strlen(from) + 1); }

char *strncat(char *to, const char *from, size_t most) {
  size_t length = strnlen(from, most);
  char *end = to + strlen(to);
  memcpy(end, from, length);
  end[length] = 0;
  return to;
}

char *strcat(char *to, const char *from) { return strncat(to, from, (size_t)-1); }

char *strchr(const char *text, int character) { return memchr(text, character, strlen(text) + 1); }

char *strrchr(const char *text, int character) {
  for (size_t i = strlen(text) + 1; i--;)
    if (text[i] == (char)character) return (char *)text + i;
  return NULL;
}

char *strstr(const char *text, const char *part) {
  size_t length = strlen(part);
  for (;; text++) {
    if (!strncmp(text, part, length)) return (char *)text;
    if (!*text) return NULL;
  }
}

/* Returns how many characters at the start of a text are in a list, or are not. */
static size_t span(const char *text, const char *list, int are_in) {
  size_t length = 0;
  while (text[length] && (strchr(list, text[length]) != NULL) == are_in) length++;
  return length;
}

size_t strspn(const char *text, const char *accepted) { return span(text, accepted, 1); }

size_t strcspn(const char *text, const char *rejected) { return span(text, rejected, 0); }

char *strpbrk(const char *text, const char *accepted) {
  text += strcspn(text, accepted);
  return *text ? (char *)text : NULL;
}

char *strdup(const char *text) {
  size_t size = strlen(text) + 1;
  char *copy = malloc(size);
  return copy ? memcpy(copy, text, size) : NULL;
}

char *strerror(int number) {
  (void)number;
  return "error";
}
