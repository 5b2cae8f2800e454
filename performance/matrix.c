// Multiplies two square matrices of 64-bit integers.

enum { MOST = 16 };

static unsigned long long left[MOST][MOST], right[MOST][MOST], product[MOST][MOST];

// Fills both factors: entry (i, j) of the left one is i * seed + j, and that of the right one is i + j * seed.
static void fill(unsigned size, unsigned seed) {
    for (unsigned i = 0; i < size; i++) {
        for (unsigned j = 0; j < size; j++) {
            left[i][j] = (unsigned long long)i * seed + j;
            right[i][j] = i + (unsigned long long)j * seed;
        }
    }
}

static void multiply(unsigned size) {
    for (unsigned i = 0; i < size; i++) {
        for (unsigned j = 0; j < size; j++) {
            unsigned long long sum = 0;
            for (unsigned k = 0; k < size; k++) {
                sum += left[i][k] * right[k][j];
            }
            product[i][j] = sum;
        }
    }
}

static unsigned long long sum_entries(unsigned size) {
    unsigned long long sum = 0;
    for (unsigned i = 0; i < size; i++) {
        for (unsigned j = 0; j < size; j++) {
            sum += product[i][j];
        }
    }
    return sum;
}

// Returns the sum of all entries of `times` products of matrices of this size, at most 16. Each seed is one more than the one before.
unsigned long long product_sum(unsigned size, unsigned seed, unsigned times) {
    unsigned long long sum = 0;
    if (size > MOST) {
        size = MOST;
    }
    for (unsigned k = 0; k < times; k++) {
        fill(size, seed + k);
        multiply(size);
        sum += sum_entries(size);
    }
    return sum;
}
