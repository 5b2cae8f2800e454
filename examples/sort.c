// Sorts numbers from a generator by heap sort.

enum { MOST = 512 };

static unsigned numbers[MOST];

// Returns the next state of a linear congruential generator.
static unsigned next(unsigned state) {
    return state * 1664525u + 1013904223u;
}

static void swap(unsigned i, unsigned j) {
    unsigned kept = numbers[i];
    numbers[i] = numbers[j];
    numbers[j] = kept;
}

// Moves the number at a root down until no child is greater.
static void sink(unsigned root, unsigned count) {
    for (;;) {
        unsigned child = 2 * root + 1;
        if (child >= count) {
            return;
        }
        if (child + 1 < count && numbers[child] < numbers[child + 1]) {
            child++;
        }
        if (numbers[root] >= numbers[child]) {
            return;
        }
        swap(root, child);
        root = child;
    }
}

static void sort(unsigned count) {
    for (unsigned root = count / 2; root > 0; root--) {
        sink(root - 1, count);
    }
    for (unsigned last = count; last > 1; last--) {
        swap(0, last - 1);
        sink(0, last - 1);
    }
}

// Makes numbers from a seed, at most MOST, sorts them, and returns the one at an index, or 0 if there is none. Returns 4294967295 if they
// are not in order.
unsigned sorted_at(unsigned seed, unsigned count, unsigned index) {
    if (count > MOST) {
        count = MOST;
    }
    for (unsigned i = 0; i < count; i++) {
        seed = next(seed);
        numbers[i] = seed >> 8;
    }
    sort(count);
    for (unsigned i = 1; i < count; i++) {
        if (numbers[i - 1] > numbers[i]) {
            return 4294967295u;
        }
    }
    return index < count ? numbers[index] : 0;
}
