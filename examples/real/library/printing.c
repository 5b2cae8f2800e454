/* Formatted texts: the conversions d i u o x X c s p %, with their flags, widths, precisions and lengths. There are no floats. */
#include <stdint.h>
#include <stdio.h>
#include <stdlib.h>
#include <string.h>

#include "host.h"

/* Where a text goes: to memory, or to the host if `to` is NULL. `size` is that of the whole text. */
struct output {
  char *to;
  size_t room, size;
};

/* A conversion. */
struct conversion {
  int is_left, has_zeros, has_prefix, width, precision;
  char sign; /* of numbers that are not negative, or 0 */
};

static void add(struct output *output, const char *bytes, size_t size) {
  if (!output->to) {
    if (output->room) host_write(bytes, size);
  } else if (output->size < output->room) {
    size_t fits = output->room - output->size;
    memcpy(output->to + output->size, bytes, size < fits ? size : fits);
  }
  output->size += size;
}

static void repeat(struct output *output, char character, int count) {
  for (; count > 0; count--) add(output, &character, 1);
}

/* Adds a text of a sign or a prefix, zeros, and the rest, in the width of a conversion. */
static void add_padded(struct output *output, const struct conversion *how, const char *prefix, int zeros, const char *text, size_t size) {
  int length = (int)(strlen(prefix) + size), missing = how->width - length - zeros;
  if (!how->is_left && !how->has_zeros) repeat(output, ' ', missing);
  add(output, prefix, strlen(prefix));
  repeat(output, '0', zeros);
  if (!how->is_left && how->has_zeros) repeat(output, '0', missing);
  add(output, text, size);
  if (how->is_left) repeat(output, ' ', missing);
}

static void add_number(struct output *output, struct conversion *how, unsigned long long number, char letter, const char *prefix) {
  char digits[24], *at = digits + sizeof digits;
  unsigned base = letter == 'o' ? 8 : letter == 'x' || letter == 'X' ? 16 : 10;
  const char *all = letter == 'X' ? "0123456789ABCDEF" : "0123456789abcdef";
  if (base == 16 && how->has_prefix && number) prefix = letter == 'x' ? "0x" : "0X";
  for (; number; number /= base) *--at = all[number % base];
  int size = (int)(digits + sizeof digits - at);
  if (base == 8 && how->has_prefix && how->precision <= size) how->precision = size + 1;
  if (how->precision >= 0) how->has_zeros = 0;
  else how->precision = 1;
  add_padded(output, how, prefix, how->precision > size ? how->precision - size : 0, at, (size_t)size);
}

/* Reads a decimal number, or takes it from the arguments for `*`. */
#define NUMBER(format, arguments) (*(format) == '*' ? ((format)++, va_arg(arguments, int)) : (int)strtol((format), (char **)&(format), 10))

/* Returns the next argument of a size of 1 to 8 bytes, sign-extended. */
#define ARGUMENT(arguments, size, is_signed) \
  ((size) == 8 ? va_arg(arguments, unsigned long long) : narrow(va_arg(arguments, unsigned), size, is_signed))

static unsigned long long narrow(unsigned number, int size, int is_signed) {
  if (size == 1) return is_signed ? (unsigned long long)(signed char)number : (unsigned char)number;
  if (size == 2) return is_signed ? (unsigned long long)(short)number : (unsigned short)number;
  return is_signed ? (unsigned long long)(int)number : number;
}

/* Reads the letters of a length. Returns the size that they stand for. */
static int size_of(const char **format) {
  int size = sizeof(int);
  for (;; ++*format) {
    if (**format == 'h') size /= 2;
    else if (**format == 'l') size = size == sizeof(int) && (*format)[1] != 'l' ? sizeof(long) : sizeof(long long);
    else if (**format == 'z' || **format == 't') size = sizeof(size_t);
    else if (**format == 'j') size = sizeof(intmax_t);
    else return size;
  }
}

static const char *flags_of(const char *format, struct conversion *how) {
  for (;; format++) {
    if (*format == '-') how->is_left = 1;
    else if (*format == '0') how->has_zeros = 1;
    else if (*format == '#') how->has_prefix = 1;
    else if (*format == '+') how->sign = '+';
    else if (*format == ' ') how->sign = how->sign ? how->sign : ' ';
    else return format;
  }
}

static void add_all(struct output *output, const char *format, va_list arguments) {
  while (*format) {
    size_t plain = strcspn(format, "%");
    if (plain) add(output, format, plain);
    format += plain;
    if (!*format) return;
    struct conversion how = {.precision = -1};
    format = flags_of(format + 1, &how);
    if (*format == '*' || (*format >= '1' && *format <= '9')) how.width = NUMBER(format, arguments);
    if (how.width < 0) how.is_left = 1, how.width = -how.width;
    if (*format == '.') format++, how.precision = *format == '*' || (*format >= '0' && *format <= '9') ? NUMBER(format, arguments) : 0;
    int size = size_of(&format);
    char letter = *format++, character;
    const char *text;
    unsigned long long number;
    switch (letter) {
    case 'd':
    case 'i':
      number = ARGUMENT(arguments, size, 1);
      if ((long long)number < 0) add_number(output, &how, -number, letter, "-");
      else add_number(output, &how, number, letter, (char[]){how.sign, 0});
      break;
    case 'u':
    case 'o':
    case 'x':
    case 'X':
      add_number(output, &how, ARGUMENT(arguments, size, 0), letter, "");
      break;
    case 'p':
      how.has_prefix = 1;
      add_number(output, &how, (uintptr_t)va_arg(arguments, void *), 'x', "");
      break;
    case 'c':
      character = (char)va_arg(arguments, int);
      add_padded(output, &how, "", 0, &character, 1);
      break;
    case 's':
      text = va_arg(arguments, const char *);
      add_padded(output, &how, "", 0, text, how.precision < 0 ? strlen(text) : strnlen(text, (size_t)how.precision));
      break;
    case '%':
      add(output, "%", 1);
      break;
    default:
      __builtin_trap(); /* a conversion that this library does not have, such as that of a float */
    }
  }
}

int vsnprintf(char *to, size_t room, const char *format, va_list arguments) {
  char nothing;
  struct output output = {room ? to : &nothing, room ? room - 1 : 0, 0};
  va_list copy;
  va_copy(copy, arguments);
  add_all(&output, format, copy);
  va_end(copy);
  if (room) to[output.size < room ? output.size : room - 1] = 0;
  return (int)output.size;
}

int vsprintf(char *to, const char *format, va_list arguments) { return vsnprintf(to, SIZE_MAX / 2, format, arguments); }

int vfprintf(FILE *file, const char *format, va_list arguments) {
  struct output output = {NULL, file == stdout, 0};
  va_list copy;
  va_copy(copy, arguments);
  add_all(&output, format, copy);
  va_end(copy);
  return (int)output.size;
}

#define FORWARD(call) \
  va_list arguments; \
  va_start(arguments, format); \
  int size = call; \
  va_end(arguments); \
  return size;

int snprintf(char *to, size_t room, const char *format, ...) { FORWARD(vsnprintf(to, room, format, arguments)) }
int sprintf(char *to, const char *format, ...) { FORWARD(vsprintf(to, format, arguments)) }
int fprintf(FILE *file, const char *format, ...) { FORWARD(vfprintf(file, format, arguments)) }
int printf(const char *format, ...) { FORWARD(vfprintf(stdout, format, arguments)) }
