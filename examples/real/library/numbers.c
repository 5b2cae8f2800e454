/* Numbers: those in texts, absolute values, and what clang calls for 128-bit integers. */
#include <ctype.h>
#include <errno.h>
#include <limits.h>
#include <stdint.h>
#include <stdlib.h>

/* Returns the value of a digit, or a number that is too large for any base. */
static unsigned digit_of(char character) {
  if (isdigit(character)) return (unsigned)(character - '0');
  return isalpha(character) ? (unsigned)(tolower(character) - 'a' + 10) : 99;
}

/* Reads an integer. Its magnitude is cut to `most`, or after a minus to `least`. Sets the end, and whether to negate what it returns. What is
   cut to the most of an unsigned type, for which `most` and `least` are equal, is not negated. */
static unsigned long long magnitude(const char *text, char **end, int base, unsigned long long most, unsigned long long least, int *minus) {
  const char *at = text;
  while (isspace((unsigned char)*at)) at++;
  *minus = *at == '-';
  if (*at == '-' || *at == '+') at++;
  int has_prefix = *at == '0' && (at[1] | 32) == 'x' && digit_of(at[2]) < 16;
  if (has_prefix && (base == 0 || base == 16)) at += 2, base = 16;
  if (!base) base = *at == '0' ? 8 : 10;
  unsigned long long limit = *minus ? least : most;
  unsigned long long value = 0;
  const char *first = at;
  int is_cut = 0;
  for (; digit_of(*at) < (unsigned)base; at++)
    if (__builtin_mul_overflow(value, (unsigned)base, &value) || __builtin_add_overflow(value, digit_of(*at), &value) || value > limit)
      is_cut = 1;
  if (is_cut) value = limit, errno = ERANGE, *minus = *minus && most != least;
  if (end) *end = (char *)(at == first ? text : at);
  return value;
}

unsigned long long strtoull(const char *text, char **end, int base) {
  int minus;
  unsigned long long value = magnitude(text, end, base, ULLONG_MAX, ULLONG_MAX, &minus);
  return minus ? -value : value;
}

long long strtoll(const char *text, char **end, int base) {
  int minus;
  unsigned long long value = magnitude(text, end, base, LLONG_MAX, (unsigned long long)LLONG_MAX + 1, &minus);
  return (long long)(minus ? -value : value);
}

unsigned long strtoul(const char *text, char **end, int base) {
  int minus;
  unsigned long value = (unsigned long)magnitude(text, end, base, ULONG_MAX, ULONG_MAX, &minus);
  return minus ? -value : value;
}

long strtol(const char *text, char **end, int base) {
  int minus;
  unsigned long value = (unsigned long)magnitude(text, end, base, LONG_MAX, (unsigned long)LONG_MAX + 1, &minus);
  return (long)(minus ? -value : value);
}

int atoi(const char *text) { return (int)strtol(text, NULL, 10); }
int abs(int number) { return number < 0 ? -number : number; }
long labs(long number) { return number < 0 ? -number : number; }

typedef unsigned __int128 wide;

static wide wide_of(uint64_t high, uint64_t low) {
  union {
    uint64_t halves[2];
    wide whole;
  } parts = {{low, high}};
  return parts.whole;
}

static uint64_t half_of(wide number, int high) {
  union {
    wide whole;
    uint64_t halves[2];
  } parts = {number};
  return parts.halves[high];
}

/* The product of two 64-bit numbers, by four products of halves. */
static wide product(uint64_t left, uint64_t right) {
  uint64_t mask = UINT32_MAX;
  uint64_t low = (left & mask) * (right & mask);
  uint64_t middle = (left >> 32) * (right & mask) + (low >> 32);
  uint64_t other = (left & mask) * (right >> 32) + (middle & mask);
  uint64_t high = (left >> 32) * (right >> 32) + (middle >> 32) + (other >> 32);
  return wide_of(high, other << 32 | (low & mask));
}

wide __multi3(wide left, wide right) {
  wide whole = product(half_of(left, 0), half_of(right, 0));
  uint64_t high = half_of(whole, 1) + half_of(left, 0) * half_of(right, 1) + half_of(left, 1) * half_of(right, 0);
  return wide_of(high, half_of(whole, 0));
}

wide __ashlti3(wide number, int count) {
  uint64_t low = half_of(number, 0), high = half_of(number, 1);
  if (count & 64) return wide_of(low << (count & 63), 0);
  return count ? wide_of(high << count | low >> (64 - count), low << count) : number;
}

wide __lshrti3(wide number, int count) {
  uint64_t low = half_of(number, 0), high = half_of(number, 1);
  if (count & 64) return wide_of(0, high >> (count & 63));
  return count ? wide_of(high >> count, low >> count | high << (64 - count)) : number;
}
