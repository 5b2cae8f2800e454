/* Tests the library natively: the allocator by random calls, and the other functions beside those of the system. It prints how many checks
   passed and failed, and its status is 1 if one failed. */
#include <errno.h>
#include <limits.h>
#include <stdint.h>
#include <stdio.h>
#include <stdlib.h>
#include <string.h>
#include <strings.h>

/* The functions of the system. */
int real_printf(const char *, ...) __asm__("printf");
int real_snprintf(char *, size_t, const char *, ...) __asm__("snprintf");
int real_memcmp(const void *, const void *, size_t) __asm__("memcmp");
int real_strcmp(const char *, const char *) __asm__("strcmp");
int real_strncmp(const char *, const char *, size_t) __asm__("strncmp");
int real_strcasecmp(const char *, const char *) __asm__("strcasecmp");
char *real_strstr(const char *, const char *) __asm__("strstr");
char *real_strchr(const char *, int) __asm__("strchr");
char *real_strrchr(const char *, int) __asm__("strrchr");
char *real_strpbrk(const char *, const char *) __asm__("strpbrk");
size_t real_strspn(const char *, const char *) __asm__("strspn");
size_t real_strcspn(const char *, const char *) __asm__("strcspn");
long real_strtol(const char *, char **, int) __asm__("strtol");
unsigned long real_strtoul(const char *, char **, int) __asm__("strtoul");
long long real_strtoll(const char *, char **, int) __asm__("strtoll");
unsigned long long real_strtoull(const char *, char **, int) __asm__("strtoull");

static unsigned passed, failed;

static void check(int holds, const char *what) {
  passed += holds != 0;
  failed += !holds;
  if (!holds && failed < 20) real_printf("FAILED: %s\n", what);
}

static uint64_t state = 1;

/* Returns a random number below a bound. */
static size_t below(size_t bound) {
  state ^= state << 13;
  state ^= state >> 7;
  state ^= state << 17;
  return (size_t)(state >> 11) % bound;
}

/* The allocator. Its pages are those of an array, in which some are left out. */

#define PAGE 65536
#define PAGES 512
static _Alignas(PAGE) uint8_t pages[PAGES * PAGE];
static size_t pages_taken;

uint8_t *more_pages(size_t count) {
  if (below(8) == 0 && pages_taken < PAGES) pages_taken++;
  if (count > PAGES - pages_taken) return NULL;
  pages_taken += count;
  return pages + (pages_taken - count) * PAGE;
}

#define BLOCKS 300
static struct {
  uint8_t *at;
  size_t size;
} blocks[BLOCKS];

static uint8_t mark_of(size_t i) { return (uint8_t)(i * 7 + 1); }

/* Returns whether a block has its mark everywhere up to a size. */
static int is_marked(size_t i, size_t size) {
  for (size_t k = 0; k < size; k++)
    if (blocks[i].at[k] != mark_of(i)) return 0;
  return 1;
}

static void set_block(size_t i, void *at, size_t size) {
  check(at && (uintptr_t)at % 16 == 0, "a block has 16-byte alignment");
  blocks[i].at = at;
  blocks[i].size = size;
  memset(at, mark_of(i), size);
}

static void step(size_t i) {
  size_t size = below(10) ? below(400) : below(60000);
  if (!blocks[i].at && below(2)) {
    set_block(i, malloc(size), size);
  } else if (!blocks[i].at) {
    uint8_t *at = calloc(size, 1), *end = at + size;
    while (end > at && !end[-1]) end--;
    check(end == at, "calloc clears");
    set_block(i, at, size);
  } else if (below(3)) {
    check(is_marked(i, blocks[i].size), "a block keeps its bytes");
    free(blocks[i].at);
    blocks[i].at = NULL;
  } else {
    size_t kept = size < blocks[i].size ? size : blocks[i].size;
    blocks[i].at = realloc(blocks[i].at, size);
    check(is_marked(i, kept), "realloc keeps the bytes");
    set_block(i, blocks[i].at, size);
  }
}

static void test_allocator(void) {
  for (int i = 0; i < 200000; i++) step(below(BLOCKS));
  for (size_t i = 0; i < BLOCKS; i++) free(blocks[i].at);
  size_t before = pages_taken;
  void *large = malloc(200000);
  check(large && pages_taken == before, "freed neighbours join");
  errno = 0;
  check(!malloc((size_t)PAGES * PAGE) && errno == ENOMEM, "no more pages than there are");
  check(!malloc(SIZE_MAX) && !calloc(SIZE_MAX / 2, 3) && !realloc(large, SIZE_MAX - 8), "sizes that overflow");
  check(!reallocarray(NULL, SIZE_MAX / 2, 3), "an array whose size overflows");
  free(large);
  free(NULL);
}

/* Bytes and texts: random ones of few letters. */

static void random_text(char *to, size_t room) {
  size_t size = below(room);
  for (size_t i = 0; i < size; i++) to[i] = "abAB"[below(4)];
  to[size] = 0;
}

static int sign(int number) { return (number > 0) - (number < 0); }

static void test_texts(void) {
  for (int i = 0; i < 20000; i++) {
    char a[24], b[6], copy[64];
    random_text(a, sizeof a);
    random_text(b, sizeof b);
    size_t most = below(8);
    int letter = "abAB\0"[below(5)];
    check(sign(strcmp(a, b)) == sign(real_strcmp(a, b)), "strcmp");
    check(sign(strncmp(a, b, most)) == sign(real_strncmp(a, b, most)), "strncmp");
    check(sign(strcasecmp(a, b)) == sign(real_strcasecmp(a, b)), "strcasecmp");
    check(sign(memcmp(a, b, sizeof b)) == sign(real_memcmp(a, b, sizeof b)), "memcmp");
    check(strstr(a, b) == real_strstr(a, b), "strstr");
    check(strchr(a, letter) == real_strchr(a, letter), "strchr");
    check(strrchr(a, letter) == real_strrchr(a, letter), "strrchr");
    check(strspn(a, b) == real_strspn(a, b), "strspn");
    check(strcspn(a, b) == real_strcspn(a, b), "strcspn");
    check(strpbrk(a, b) == real_strpbrk(a, b), "strpbrk");
    strcat(strcpy(copy, a), b);
    check(strlen(copy) == strlen(a) + strlen(b) && !real_strcmp(copy + strlen(a), b), "strcpy and strcat");
    strncat(strcpy(copy, a), b, most);
    check(strlen(copy) == strlen(a) + strnlen(b, most), "strncat");
    memset(copy, 'x', sizeof copy);
    strncpy(copy, a, 30);
    check(!real_strcmp(copy, a) && !copy[29] && copy[30] == 'x', "strncpy");
  }
}

/* Sorting. */

static int compare(const void *left, const void *right) { return *(const int *)left - *(const int *)right; }

static void test_sorting(void) {
  for (size_t count = 0; count < 200; count++) {
    int numbers[200], sum = 0, sorted_sum = 0, is_sorted = 1;
    for (size_t i = 0; i < count; i++) sum += numbers[i] = (int)below(100);
    qsort(numbers, count, sizeof *numbers, compare);
    for (size_t i = 0; i < count; i++) sorted_sum += numbers[i];
    for (size_t i = 1; i < count; i++) is_sorted &= numbers[i - 1] <= numbers[i];
    check(is_sorted && sum == sorted_sum, "qsort");
    int key = (int)below(100), is_in = 0;
    for (size_t i = 0; i < count; i++) is_in |= numbers[i] == key;
    const int *found = bsearch(&key, numbers, count, sizeof *numbers, compare);
    check(is_in ? found && *found == key : !found, "bsearch");
  }
}

/* Formatted texts and numbers in texts, beside those of the system. */

#define SAME(room, ...) \
  do { \
    char ours[200] = "", theirs[200] = ""; \
    int size = snprintf(ours, room, __VA_ARGS__); \
    check(size == real_snprintf(theirs, room, __VA_ARGS__) && !real_strcmp(ours, theirs), "snprintf of " #__VA_ARGS__); \
  } while (0)

#define FORMATS(conversion, value) \
  SAME(200, "%" conversion, value); \
  SAME(200, "[%12" conversion "]", value); \
  SAME(200, "[%-12" conversion "]", value); \
  SAME(200, "[%.5" conversion "]", value); \
  SAME(200, "[%9.3" conversion "] and %%", value); \
  SAME(200, "[%-*.*" conversion "]", 11, 4, value); \
  SAME(4, "%" conversion, value); \
  SAME(1, "%" conversion, value)

#define NUMBERS(conversion, value) \
  FORMATS(conversion, value); \
  SAME(200, "[%012" conversion "]", value); \
  SAME(200, "[%.0" conversion "]", value)

#pragma GCC diagnostic ignored "-Wformat"
static void test_printing(void) {
  static const int small[] = {0, 1, -1, 42, -12345, INT_MAX, INT_MIN};
  for (size_t i = 0; i < sizeof small / sizeof *small; i++) {
    NUMBERS("d", small[i]);
    NUMBERS("i", small[i]);
    NUMBERS("u", small[i]);
    NUMBERS("x", small[i]);
    NUMBERS("X", small[i]);
    NUMBERS("o", small[i]);
    NUMBERS("hhd", small[i]);
    NUMBERS("hu", small[i]);
    NUMBERS("hx", small[i]);
    SAME(200, "[%+d] [% d] [%+6d] [%-+6d]", small[i], small[i], small[i], small[i]);
    SAME(200, "[%#x] [%#X] [%#o] [%#010x]", small[i], small[i], small[i], small[i]);
  }
  static const long long large[] = {0, 7, -7, LLONG_MAX, LLONG_MIN, 0x123456789abcdef};
  for (size_t i = 0; i < sizeof large / sizeof *large; i++) {
    NUMBERS("lld", large[i]);
    NUMBERS("llu", large[i]);
    NUMBERS("llx", large[i]);
    NUMBERS("ld", (long)large[i]);
    NUMBERS("zu", (size_t)large[i]);
    NUMBERS("jd", (intmax_t)large[i]);
  }
  static const char *const texts[] = {"", "a", "some text", "a longer text than others"};
  for (size_t i = 0; i < sizeof texts / sizeof *texts; i++) {
    FORMATS("s", texts[i]);
  }
  SAME(200, "%c%5c%-5c|", 'a', 'b', 'c');
  SAME(200, "%p", (void *)0x1234);
  SAME(200, "plain %% text");
}

#define READS(name, type) \
  do { \
    char *ours, *theirs; \
    type value = name(texts[i], &ours, bases[k]); \
    check(value == real_##name(texts[i], &theirs, bases[k]) && ours == theirs, #name); \
  } while (0)

static void test_reading(void) {
  static const char *const texts[] = {"", "0", "12", " \t+34x", "-56", "-", "0x", "0x1F", "-0X1f", "077", "08", "zz", "2147483648",
                                      "9223372036854775807", "9223372036854775808", "-9223372036854775808", "-9223372036854775809",
                                      "18446744073709551615", "18446744073709551616", "-18446744073709551615", "99999999999999999999999"};
  static const int bases[] = {0, 2, 8, 10, 16, 36};
  for (size_t i = 0; i < sizeof texts / sizeof *texts; i++)
    for (size_t k = 0; k < sizeof bases / sizeof *bases; k++) {
      READS(strtol, long);
      READS(strtoul, unsigned long);
      READS(strtoll, long long);
      READS(strtoull, unsigned long long);
    }
  check(atoi("-17") == -17 && abs(-3) == 3 && labs(4) == 4, "atoi, abs and labs");
}

/* 128-bit integers, beside those of the compiler. */

typedef unsigned __int128 wide;
wide library_multi3(wide left, wide right);
wide library_ashlti3(wide number, int count);
wide library_lshrti3(wide number, int count);

static wide random_wide(void) {
  uint64_t high = state * 0x9E3779B97F4A7C15u;
  below(2);
  uint64_t low = below(2) ? state * 0xD1B54A32D192ED03u : (uint64_t)-1 >> below(64);
  return (wide)(below(3) ? high : 0) << 64 | low;
}

static void test_wide(void) {
  for (int i = 0; i < 100000; i++) {
    wide left = random_wide(), right = random_wide();
    int count = (int)below(128);
    check(library_multi3(left, right) == left * right, "__multi3");
    check(library_ashlti3(left, count) == left << count, "__ashlti3");
    check(library_lshrti3(left, count) == left >> count, "__lshrti3");
  }
}

/* The host. */

static char written[100];
static size_t written_size;

void host_write(const void *from, size_t size) {
  memcpy(written + written_size, from, size);
  written_size += size;
}

size_t host_read(void *to, size_t size) { return memset(to, 'r', size), size; }

void host_exit(int status) {
  (void)status;
  __builtin_trap();
}

static void test_files(void) {
  char bytes[4];
  printf("%d-%s", 5, "six");
  fprintf(stderr, "dropped");
  puts("!");
  check(written_size == 7 && !real_memcmp(written, "5-six!\n", 7), "printf and puts write to the host");
  check(fread(bytes, 2, 2, stdin) == 2 && bytes[3] == 'r' && !fread(bytes, 1, 1, stdout), "fread reads from the host");
}

int main(void) {
  test_allocator();
  test_texts();
  test_sorting();
  test_printing();
  test_reading();
  test_wide();
  test_files();
  real_printf("library: passed %u failed %u\n", passed, failed);
  return failed != 0;
}
