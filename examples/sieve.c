// Finds the primes below a bound, by the sieve of Eratosthenes.

enum { MOST = 5000 };

// Whether a number is known to be composite.
static unsigned char composite[MOST];

// Clears the marks of all numbers below a bound.
static void clear(unsigned bound) {
    for (unsigned n = 0; n < bound; n++) {
        composite[n] = 0;
    }
}

// Marks the multiples of a prime, from its square on.
static void mark_multiples(unsigned prime, unsigned bound) {
    for (unsigned n = prime * prime; n < bound; n += prime) {
        composite[n] = 1;
    }
}

// Returns the number of primes below a bound, which counts as MOST if it is greater.
unsigned count_primes(unsigned bound) {
    unsigned count = 0;
    if (bound > MOST) {
        bound = MOST;
    }
    clear(bound);
    for (unsigned n = 2; n < bound; n++) {
        if (!composite[n]) {
            count++;
            if (n * n < bound) {
                mark_multiples(n, bound);
            }
        }
    }
    return count;
}

// Returns the greatest prime below a bound, which counts as MOST if it is greater, or 0 if there is none.
unsigned greatest_prime(unsigned bound) {
    if (bound > MOST) {
        bound = MOST;
    }
    count_primes(bound);
    for (unsigned n = bound; n > 2; n--) {
        if (!composite[n - 1]) {
            return n - 1;
        }
    }
    return 0;
}
