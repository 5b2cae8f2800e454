// Functions that call themselves.

// Returns the Fibonacci number of an index.
unsigned fibonacci(unsigned index) {
    return index < 2 ? index : fibonacci(index - 1) + fibonacci(index - 2);
}

// Returns the value of Takeuchi's function.
int takeuchi(int x, int y, int z) {
    return y < x ? takeuchi(takeuchi(x - 1, y, z), takeuchi(y - 1, z, x), takeuchi(z - 1, x, y)) : z;
}

// Returns in how many ways queens can be placed on the remaining rows, if these columns and diagonals are threatened.
static unsigned place(unsigned all, unsigned columns, unsigned left, unsigned right) {
    unsigned ways = 0;
    if (columns == all) {
        return 1;
    }
    for (unsigned free = all & ~(columns | left | right); free != 0; free &= free - 1) {
        unsigned queen = free & -free;
        ways += place(all, columns | queen, (left | queen) << 1, (right | queen) >> 1);
    }
    return ways;
}

// Returns in how many ways `count` queens, at most 31, can be placed on a board of `count` rows and columns, none threatened by another.
unsigned queens(unsigned count) {
    return place((1u << count) - 1, 0, 0, 0);
}
