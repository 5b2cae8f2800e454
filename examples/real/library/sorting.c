/* Sorting and searching. */
#include <stdint.h>
#include <stdlib.h>

typedef int comparison(const void *, const void *);

static void exchange(char *left, char *right, size_t size) {
  for (; size--; left++, right++) {
    char kept = *left;
    *left = *right;
    *right = kept;
  }
}

/* Moves the item at `root` down to its place in a heap. */
static void sift(char *items, size_t root, size_t count, size_t size, comparison *compare) {
  for (size_t child; (child = 2 * root + 1) < count; root = child) {
    if (child + 1 < count && compare(items + child * size, items + (child + 1) * size) < 0) child++;
    if (compare(items + root * size, items + child * size) >= 0) return;
    exchange(items + root * size, items + child * size, size);
  }
}

void qsort(void *items, size_t count, size_t size, comparison *compare) {
  for (size_t root = count / 2; root--;) sift(items, root, count, size, compare);
  while (count > 1) {
    count--;
    exchange(items, (char *)items + count * size, size);
    sift(items, 0, count, size, compare);
  }
}

void *bsearch(const void *key, const void *items, size_t count, size_t size, comparison *compare) {
  const char *first = items;
  while (count) {
    const char *middle = first + count / 2 * size;
    int order = compare(key, middle);
    if (!order) return (void *)middle;
    if (order > 0) {
      first = middle + size;
      count--;
    }
    count /= 2;
  }
  return NULL;
}
