"""The functions of the modules in `performance` and `examples` that tools measure, with what they must print."""
import functools
import hashlib
import itertools


def fibonacci(index):
    """Returns what `fib` and `fibonacci` print: the Fibonacci number of an index."""
    number, following = 0, 1
    for _ in range(index):
        number, following = following, number + following
    return f"i32 {number}"


def rounds(count):
    """Returns what a loop prints that counts down from a number above zero: how many iterations it makes."""
    return f"i32 {count}"


@functools.cache
def moved(x, y, z):
    """Returns the value of Takeuchi's function."""
    return moved(moved(x - 1, y, z), moved(y - 1, z, x), moved(z - 1, x, y)) if y < x else z


def takeuchi(x, y, z):
    """Returns what `takeuchi` prints."""
    return f"i32 {moved(x, y, z)}"


def queens(count):
    """Returns what `queens` prints: the number of permutations of the columns in which no two queens share a diagonal."""
    rows = range(count)
    return f"i32 {sum(len({p[i] + i for i in rows}) == len({p[i] - i for i in rows}) == count for p in itertools.permutations(rows))}"


def product_sum(size, seed, times):
    """Returns what `product_sum` prints: the sum of all entries of products of two matrices, each with a seed of its own."""
    rows = range(size)
    once = [sum((i * s + k) * (k + j * s) for i in rows for j in rows for k in rows) for s in range(seed, seed + times)]
    return f"i64 {sum(once) % 2**64}"


def primes(bound):
    """Returns what `count_primes` prints: the number of primes below a bound."""
    return f"i32 {sum(all(n % k for k in range(2, int(n**0.5) + 1)) for n in range(2, bound))}"


def digest_part(times, index):
    """Returns what `digest_part` prints: eight bytes of the SHA-256 digest of a repeated text, as a number."""
    digest = hashlib.sha256(b"abc" * times).digest()
    return f"i64 {int.from_bytes(digest[8 * index : 8 * index + 8], 'big')}"


def sorted_at(seed, count, index):
    """Returns what `sorted_at` prints: of the numbers that a generator makes from a seed, the one at an index in their order."""
    numbers = []
    for _ in range(count):
        seed = (seed * 1664525 + 1013904223) % 2**32
        numbers.append(seed >> 8)
    return f"i32 {sorted(numbers)[index]}"


# The module, the function, what it must print, and the arguments of a short call, of a longer one, and of a long one or None.
MEASURED = [
    ("performance/fibonacci", "fib", fibonacci, [10], [20], [34]),
    ("performance/counting_loop", "count", rounds, [1_000], [30_000], [20_000_000]),
    ("performance/recursion", "fibonacci", fibonacci, [10], [20], [34]),
    ("performance/recursion", "takeuchi", takeuchi, [5, 3, 1], [12, 8, 4], [22, 16, 8]),
    ("performance/recursion", "queens", queens, [4], [7], [9]),
    ("performance/tail_calls", "count", rounds, [1_000], [30_000], [20_000_000]),
    ("performance/tail_calls", "count_through", rounds, [1_000], [30_000], [20_000_000]),
    ("performance/matrix", "product_sum", product_sum, [4, 3, 1], [16, 3, 1], [16, 3, 500]),
    ("examples/sieve", "count_primes", primes, [1_000], [5_000], None),
    ("examples/hash", "digest_part", digest_part, [1, 0], [85, 0], None),
    ("examples/sort", "sorted_at", sorted_at, [1, 10, 5], [1, 512, 5], None),
]
