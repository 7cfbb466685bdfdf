"""The families: which rows hold which blocks.

A family has a kind, q, k, the block count n, the row count t and the strength
d. For every block and every d others some row holds the block and none of the
others. Blocks and rows are numbered from 1.
"""

from functools import cached_property, lru_cache

from sheet import MAX_BLOCKS, Refused

# Refusal numbers.
WRONG_COUNT = 5
NO_SUCH_FAMILY = 6

FIELD_SIZES = (5, 7, 8, 11, 13, 16)
COEFFICIENT_COUNTS = (2, 3, 4)

# What the binary fields reduce by: x^3 + x + 1 and x^4 + x + 1.
MODULUS = {8: 0b1011, 16: 0b10011}


class PrimeField:
    """The numbers modulo a prime q."""

    def __init__(self, q):
        self.q = q

    def add(self, a, b):
        return (a + b) % self.q

    def multiply(self, a, b):
        return (a * b) % self.q


class BinaryField:
    """Polynomials over bits; bit i of an element is its coefficient of x^i."""

    def __init__(self, q):
        self.q = q
        self.modulus = MODULUS[q]

    def add(self, a, b):
        return (a % self.q) ^ (b % self.q)

    def multiply(self, a, b):
        a, b = a % self.q, b % self.q
        product = 0
        for place in range(b.bit_length()):
            if b >> place & 1:
                product ^= a << place
        # Long division: take the modulus away under the highest bit.
        while product.bit_length() >= self.modulus.bit_length():
            product ^= self.modulus << product.bit_length() - self.modulus.bit_length()
        return product


def make_field(q):
    return BinaryField(q) if q in MODULUS else PrimeField(q)


def check_count(n, capacity=MAX_BLOCKS):
    if n < 1 or n > MAX_BLOCKS or n > capacity:
        raise Refused(WRONG_COUNT)


class Family:
    # Only the polynomial kind has these two.
    q = 0
    k = 0

    def rows_of(self, j):
        """The rows that hold block j, rising; none if there is no block j."""
        if j < 1 or j > self.n:
            return []
        return sorted(self.rows_of_present(j))

    @cached_property
    def table(self):
        """Every row from 1 to t with its blocks, rising; some have none."""
        table = {i: [] for i in range(1, self.t + 1)}
        for j in range(1, self.n + 1):
            for i in self.rows_of(j):
                table[i].append(j)
        return table

    def blocks_in(self, i):
        """The blocks that row i holds, rising; none if there is no row i."""
        return self.table.get(i, [])


class Single(Family):
    """Each row holds one block."""

    kind = 1

    def __init__(self, n):
        check_count(n)
        self.n = self.t = self.d = n

    def rows_of_present(self, j):
        return [j]


@lru_cache(maxsize=None)
def half_full(t):
    """All t-bit numbers with half of their bits one (rounded down), rising."""
    return [number for number in range(2 ** t) if bin(number).count("1") == t // 2]


class Halves(Family):
    """Each block lies in half of the rows, no two blocks in the same half."""

    kind = 2
    d = 1

    def __init__(self, n):
        check_count(n)
        self.n = n
        self.t = 2
        while len(half_full(self.t)) < n:
            self.t += 1

    def rows_of_present(self, j):
        number = half_full(self.t)[j - 1]
        return [i for i in range(1, self.t + 1) if number >> (i - 1) & 1]


class Polynomial(Family):
    """Each block is a polynomial p and lies in a row for each point (a, p(a))."""

    kind = 3

    def __init__(self, q, k, n):
        # First that there is such a family, then whether it has room.
        if q not in FIELD_SIZES or k not in COEFFICIENT_COUNTS:
            raise Refused(NO_SUCH_FAMILY)
        check_count(n, q ** k)
        self.q, self.k, self.n = q, k, n
        self.t = q * q
        self.d = strength(q, k)
        self.field = make_field(q)

    def coefficients(self, j):
        """The k digits of j - 1 in base q, the lowest first; it is the constant."""
        return [(j - 1) // self.q ** place % self.q for place in range(self.k)]

    def value(self, coefficients, a):
        total, power = 0, 1
        for coefficient in coefficients:
            total = self.field.add(total, self.field.multiply(coefficient, power))
            power = self.field.multiply(power, a)
        return total

    def rows_of_present(self, j):
        coefficients = self.coefficients(j)
        # This product and this sum are those of whole numbers, not the field's.
        return [a * self.q + self.value(coefficients, a) + 1 for a in range(self.q)]


def strength(q, k):
    # Two polynomials meet at k - 1 points at most, and each has q points, so
    # this many others leave at least one of them free.
    return (q - 1) // (k - 1)


class Plane(Family):
    """The twelve lines of the plane of nine points; the points are the rows."""

    kind = 4
    t = 9
    d = 2
    LINES = "123 456 789 147 258 369 159 267 348 168 249 357".split()

    def __init__(self, n):
        check_count(n, len(self.LINES))
        self.n = n

    def rows_of_present(self, j):
        return [int(digit) for digit in self.LINES[j - 1]]


def choose(n, d):
    """A family for n blocks of strength d: halves, or the first polynomial one."""
    check_count(n)
    if d == 1:
        return Halves(n)
    for q in FIELD_SIZES:
        for k in COEFFICIENT_COUNTS:
            # The strength must be d exactly; a stronger family is not taken.
            if strength(q, k) == d and q ** k >= n:
                return Polynomial(q, k, n)
    raise Refused(NO_SUCH_FAMILY)
