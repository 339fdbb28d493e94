"""Polynomials, elements and matrices for the comparisons: all good, in several styles, drawn with given dice."""
import functools
import itertools
import operator

import rowtext
from rowtext import degree, field_product, hadamard

POLYNOMIALS = rowtext.irreducible_polynomials()
OF_DEGREE = {m: [p for p in POLYNOMIALS if degree(p) == m] for m in range(2, 9)}


def elements(dice, p, how_many):
    """So many different nonzero elements, or as many as there are."""
    most = (1 << degree(p)) - 1
    return dice.sample(range(1, most + 1), min(how_many, most))


def with_sum_one(dice, p, count, n=8):
    """Candidates of which n sum to 1, so that a search of order n has something to try."""
    while True:
        chosen = elements(dice, p, count)
        rest = functools.reduce(operator.xor, chosen[: n - 1], 1)
        if rest and rest not in chosen[: n - 1]:
            return list(dict.fromkeys(chosen[: n - 1] + [rest] + chosen[n - 1 :]))[:count]


@functools.cache
def line_ones(p, a):
    """The ones in each line of an element's bit matrix, whose column k is a times 2^k."""
    columns = [field_product(p, a, 1 << k) for k in range(degree(p))]
    return [sum(column >> bit & 1 for column in columns) for bit in range(degree(p))]


def ones(p, row):
    """The ones of all output bits of a row."""
    return sum(sum(line_ones(p, a)) for a in row)


def depth(p, row):
    return max((sum(bits) - 1).bit_length() for bits in zip(*(line_ones(p, a) for a in row)))


def swaps(p, row, a, b):
    """The pairs that can stand in the row in the place of a and b, with the same sum and the same count."""
    for c in range(1, 1 << degree(p)):
        d = a ^ b ^ c
        if d and not {c, d} & set(row) and ones(p, (c, d)) == ones(p, (a, b)):
            yield c, d


def tied(dice, m, n):
    """A polynomial of degree m, n candidates that sum to 1, and two that can stand in the place of two of them: the set is then as
    light and shallower, but later in dictionary order. Where both sets give good rows, depth decides a search of order n."""
    while True:
        p = dice.choice(OF_DEGREE[m])
        row = with_sum_one(dice, p, n, n)
        if 2 * ones(p, row) > m << depth(p, row):
            continue  # even shared out evenly, the ones are too many for a shallower row
        a, b = dice.sample(row, 2)
        for c, d in swaps(p, row, a, b):
            other = sorted({*row, c, d} - {a, b})
            if depth(p, other) < depth(p, row) and sorted(row) < other:
                return p, dice.sample([*row, c, d], n + 2)


@functools.cache
def of_one_count(p):
    """The nonzero elements of a field, in groups of equal counts, those of two and more."""
    groups = {}
    for a in range(1, 1 << degree(p)):
        groups.setdefault(ones(p, [a]), []).append(a)
    return [group for group in groups.values() if len(group) > 1]


def tied_circulant(dice, m, n):
    """A polynomial of degree m and candidates of one count, so that all rows of order n are as light; of these, taken with their entries
    in ascending order, none of the first third in the dictionary has the least depth. Where early and shallow ones are MDS, depth
    decides a circulant search. There is no such set over degrees 2 and 3, and none for some orders over degree 4."""
    while True:
        p = dice.choice(OF_DEGREE[m])
        group = dice.choice(of_one_count(p))
        candidates = dice.sample(group, min(len(group), dice.randint(3, 8 if n < 6 else 6)))
        depths = [depth(p, row) for row in itertools.combinations_with_replacement(sorted(candidates), n)]
        if min(depths) < min(depths[: len(depths) // 3 + 1]):
            return p, candidates


def low_rank(dice, p, n):
    """A product of an n × r and an r × n matrix, so its rank is at most r."""
    r, top = dice.randint(1, n), (1 << degree(p)) - 1
    left = [[dice.randint(0, top) for _ in range(r)] for _ in range(n)]
    right = [[dice.randint(0, top) for _ in range(n)] for _ in range(r)]
    entries = []
    for i in range(n):
        for j in range(n):
            entry = 0
            for k in range(r):
                entry ^= field_product(p, left[i][k], right[k][j])
            entries.append(entry)
    return entries


def cauchy(dice, p, n):
    """1 / (x_i + y_j) with 2n different elements: MDS. One column and one line are scaled."""
    if 2 * n > 1 << degree(p):
        return low_rank(dice, p, n)
    points = dice.sample(range(1 << degree(p)), 2 * n)
    scale = dice.randint(1, (1 << degree(p)) - 1)
    entries = [rowtext.inverse(p, x ^ y) for x in points[:n] for y in points[n:]]
    return [field_product(p, scale, a) if k < n or k % n == 0 else a for k, a in enumerate(entries)]


def spoilt(dice, p, n):
    """An MDS matrix with one entry changed, so that few blocks are singular."""
    entries = cauchy(dice, p, n)
    entries[dice.randrange(n * n)] = dice.randint(0, (1 << degree(p)) - 1)
    return entries


def dense(dice, p, n):
    return [dice.randint(0, (1 << degree(p)) - 1) for _ in range(n * n)]


def sparse(dice, p, n):
    return [dice.choice([0, 0, 1, dice.randint(0, (1 << degree(p)) - 1)]) for _ in range(n * n)]


def permutation(dice, p, n):
    """One nonzero entry in each line and column; sometimes an involution."""
    places = dice.sample(range(n), n)
    return [dice.choice([1, 1, 2]) if places[i] == j else 0 for i in range(n) for j in range(n)]


def shaped(dice, p, n):
    """A Hadamard matrix where the order allows it, its row sometimes with the sum 1; else a circulant one."""
    row = [dice.randint(0, (1 << degree(p)) - 1) for _ in range(n)]
    if n & (n - 1):
        return rowtext.circulant(row)
    if dice.random() < 0.7:
        row[0] = functools.reduce(operator.xor, row[1:], 1)
    return hadamard(row)


def of_density(dice, p, n, percent):
    """Each entry is nonzero with this chance."""
    top = (1 << degree(p)) - 1
    return [dice.randint(1, top) if dice.randrange(100) < percent else 0 for _ in range(n * n)]


def with_lines_of_zeros(dice, p, n):
    """No zero but in whole lines, of which there is one or more."""
    empty = dice.sample(range(n), dice.randint(1, n))
    return [0 if k // n in empty else a for k, a in enumerate(of_density(dice, p, n, 100))]


def with_columns_of_zeros(dice, p, n):
    """The same of columns."""
    entries = with_lines_of_zeros(dice, p, n)
    return [entries[j * n + i] for i in range(n) for j in range(n)]


def triangle(dice, p, n):
    """Zeros before the diagonal and nowhere else."""
    return [0 if k % n < k // n else a for k, a in enumerate(of_density(dice, p, n, 100))]


def identity(_dice, _p, n):
    return [int(i == j) for i in range(n) for j in range(n)]


def zeros(_dice, _p, n):
    return [0] * (n * n)


WITH_ZEROS = (with_lines_of_zeros, with_columns_of_zeros, triangle, identity, zeros)
DENSITIES = range(0, 101, 10)
STYLES = (dense, sparse, low_rank, cauchy, spoilt, permutation, shaped)
