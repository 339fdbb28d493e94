"""The reference lines of document 01, with the counts of request One, the gates of request Two, the order of request Three, the
rows of request Four, the worked example of request Five, the circulant rows of request Six and the walks of request Seven, as whole
request and answer texts, the products also as numbers; a text for each refusal."""
from rowtext import ALWAYS_ZERO, CHECK, CIRCULANT, GATES, NONE_YET, SEARCH, SURVEY, WALK, circulant, hadamard, line, request

WORKED_REQUEST = b"     1    19     4     4\n     1     4     9    13\n"
WORKED_ANSWER = b"     0     6    18    72\n     1     4     9    13\n"

COUNTS_OVER_19 = [0, 0, 1, 5, 2, 6, 5, 9, 3, 1, 8, 6, 5, 3, 8, 6]


def field_lines():
    """Facts of the field, seen through checks: the count of an element is the matrix count of order 1, and a × b = 1
    exactly if the matrix with 0 a in its first line and b 0 in its second is an involution."""
    for a, count in enumerate(COUNTS_OVER_19):
        branch = 1 if a == 0 else 2
        answer = line([0, branch, branch - 1, int(a == 1), count])
        yield f"count of {a} over 19", request(CHECK, 19, 1, [a]), answer
    yield "2 × 9 = 1 over 19", request(CHECK, 19, 2, [0, 2, 9, 0]), line([0, 2, 0, 1, 1 + 1])
    yield "8 × 15 = 1 over 19", request(CHECK, 19, 2, [0, 8, 15, 0]), line([0, 2, 0, 1, 3 + 6])
    # 2 to the fifth power is 4 × 8; the bit matrices of 4 and 8 over 31 have 7 ones each, so they count 3.
    yield "2 to the fifth power is 1 over 31", request(CHECK, 31, 2, [0, 4, 8, 0]), line([0, 2, 0, 1, 3 + 3])


def search_lines():
    found = WORKED_ANSWER
    yield "worked example", WORKED_REQUEST, found
    yield "candidates 1 2 4 8", request(SEARCH, 19, 4, [1, 2, 4, 8]), line([9])
    yield "candidates 1 3 8 11", request(SEARCH, 19, 4, [1, 3, 8, 11]), line([9])
    yield "candidates 1 4 9", request(SEARCH, 19, 4, [1, 4, 9]), line([9])
    yield "all fifteen over 19", request(SEARCH, 19, 4, list(range(1, 16))), found


ELEVEN_OVER_31 = b"""     1    31     4    11
     1     2     3     4     6     7     8     9    10    12    14
"""
ALL_OVER_31 = b"""     1    31     4    15
     1     2     3     4     5     6     7     8     9    10    11    12    13    14    15
"""


def depth_lines():
    """Of equal counts the least depth. Over 31 the rows 1 2 4 6, 1 2 8 10, 1 2 13 15 and 1 4 8 12 count 24. An output bit of the
    first two joins 9 input bits (depth 4), one of the last two at most 7 (depth 3)."""
    eleven = b"     0    12    24    96\n     1     4     8    12\n"
    fifteen = b"     0    12    24    96\n     1     2    13    15\n"
    yield "all fifteen over 31", ALL_OVER_31, fifteen
    yield "eleven candidates over 31", ELEVEN_OVER_31, eleven
    yield "candidates 1 2 4 6 over 31", request(SEARCH, 31, 4, [1, 2, 4, 6]), line([0, 12, 24, 96]) + line([1, 2, 4, 6])
    yield "both, of which one is shallower", request(SEARCH, 31, 4, [15, 13, 6, 4, 2, 1]), fifteen
    # 1 8 16 24 is shallower and earlier, and counts 32.
    lighter = line([0, 12, 30, 120]) + line([1, 8, 49, 57])
    yield "a row that is lighter, and deeper", request(SEARCH, 67, 4, [1, 8, 16, 24, 49, 57]), lighter
    of_order_eight = line([0, 36, 64, 512]) + line([2, 3, 4, 12, 5, 10, 8, 15])
    yield "all fifteen over 19 at order 8", request(SEARCH, 19, 8, list(range(1, 16))), of_order_eight


def check_lines():
    yield "Hadamard 1 3 8 11", request(CHECK, 19, 4, hadamard([1, 3, 8, 11])), line([0, 4, 0, 1, 104])
    yield "Hadamard 1 4 9 13", request(CHECK, 19, 4, hadamard([1, 4, 9, 13])), line([0, 5, 1, 1, 72])
    yield "FIPS 197 matrix", request(CHECK, 283, 4, circulant([2, 3, 1, 1])), line([0, 5, 1, 0, 152])
    yield "identity of order 2 over 7", request(CHECK, 7, 2, [1, 0, 0, 1]), line([0, 2, 0, 1, 0])
    yield "order 1, entry 0, over 7", request(CHECK, 7, 1, [0]), line([0, 1, 0, 0, 0])


def zero_lines():
    """Zeros cost no gates."""
    yield "lines with 0, 1 and 3 entries", request(CHECK, 19, 3, [0, 0, 0, 0, 7, 0, 1, 2, 3]), line([0, 2, 0, 0, 23])
    triangle = [0 if j < i else a for i in range(4) for j, a in enumerate(circulant([2, 3, 1, 1])[4 * i : 4 * i + 4])]
    yield "upper triangle of the FIPS 197 matrix", request(CHECK, 283, 4, triangle), line([0, 2, 0, 0, 93])
    for p in (7, 11, 19, 37, 67, 131, 283):
        for n in range(1, 9):
            identity = [int(i == j) for i in range(n) for j in range(n)]
            answer = line([0, 2, int(n == 1), 1, 0])
            yield f"identity of order {n} over {p}", request(CHECK, p, n, identity), answer
            yield f"zeros of order {n} over {p}", request(CHECK, p, n, [0] * (n * n)), line([0, 1, 0, 0, 0])


def survey_lines():
    """The lines ascend by polynomial."""
    yield "survey of degree 2", request(SURVEY, 2, 0, []), line([0, 1]) + line([7, 2, 2])
    yield "survey of degree 3", request(SURVEY, 3, 0, []), line([0, 2]) + line([11, 15, 47]) + line([13, 15, 47])
    of_degree_four = line([0, 3]) + line([19, 68, 416]) + line([25, 68, 416]) + line([31, 68, 352])
    yield "survey of degree 4", request(SURVEY, 4, 0, []), of_degree_four


TWO_LINES = request(GATES, 7, 2, [2, 3, 0, 1])
TWO_LINES_GATES = b"""     0     4
     1     2
     4     3
     0     1
     6     2
     5
     7
     2
     3
"""

# Over 19, the input bits that each bit of an element's product joins, from x^4 = x + 1.
JOINED_OVER_19 = {
    1: [[0], [1], [2], [3]],
    4: [[2], [2, 3], [0, 3], [1]],
    9: [[0, 1], [2], [3], [0]],
    13: [[0, 1, 2], [3], [0], [0, 1]],
}


def gate_text(inputs, joined):
    """A gate list, written from the input bits that each output bit joins, the lowest first."""
    gates, carriers = [], []
    for bits in joined:
        carrier = bits[0] if bits else ALWAYS_ZERO
        for bit in bits[1:]:
            gates.append([carrier, bit])
            carrier = inputs + len(gates) - 1
        carriers.append([carrier])
    return b"".join(map(line, [[0, len(gates)], *gates, *carriers]))


def fips_joined():
    """FIPS 197, MixColumns: an output word is 2 x0 + 3 x1 + x2 + x3, the input words turned on from word to word, and the doubled
    byte takes bit 7 into the bits 0, 1, 3 and 4."""
    for i in range(4):
        for bit in range(8):
            words = [[bit - 1] * (bit > 0) + [7] * (bit in (0, 1, 3, 4))]
            words += [sorted(words[0] + [bit]), [bit], [bit]]
            yield sorted((i + turn) % 4 * 8 + b for turn, bits in enumerate(words) for b in bits)


def gate_lines():
    yield "gates of 2 3 / 0 1 over 7", TWO_LINES, TWO_LINES_GATES
    yield "gates of 3 over 7", request(GATES, 7, 1, [3]), line([0, 1]) + line([0, 1]) + line([2]) + line([0])
    yield "gates of 0 over 7", request(GATES, 7, 1, [0]), line([0, 0]) + 2 * line([999999])
    for p in (7, 11, 19, 37, 67, 131, 283):
        for n in (1, 2, 5, 8):
            bits = n * (p.bit_length() - 1)
            identity = request(GATES, p, n, [int(i == j) for i in range(n) for j in range(n)])
            yield f"gates of the identity of order {n} over {p}", identity, gate_text(bits, [[k] for k in range(bits)])
            yield f"gates of zeros of order {n} over {p}", request(GATES, p, n, [0] * (n * n)), gate_text(bits, [[]] * bits)
            ones = [list(range(k % (bits // n), bits, bits // n)) for k in range(bits)]
            yield f"gates of ones of order {n} over {p}", request(GATES, p, n, [1] * (n * n)), gate_text(bits, ones)
    row = [1, 4, 9, 13]
    joined = [[4 * j + b for j in range(4) for b in JOINED_OVER_19[row[i ^ j]][bit]] for i in range(4) for bit in range(4)]
    yield "gates of Hadamard 1 4 9 13", request(GATES, 19, 4, hadamard(row)), gate_text(16, joined)
    yield "gates of the FIPS 197 matrix", request(GATES, 283, 4, circulant([2, 3, 1, 1])), gate_text(32, fips_joined())


# FIPS 197 (2001), section 4.2.1: {57} doubled 0 to 7 times over m(x) = 283. The standard prints the values up to {07}.
DOUBLED = (0x57, 0xAE, 0x47, 0x8E, 0x07, 0x0E, 0x1C, 0x38)


def worked_products():
    """(polynomial, factor, factor, product): the worked example of FIPS 197, with each doubled value, also from the one before."""
    for k, value in enumerate(DOUBLED):
        yield 283, 0x57, 1 << k, value
    for value, after in zip(DOUBLED, DOUBLED[1:]):
        yield 283, value, 2, after
    yield 283, 0x57, 0x13, 0xFE  # {57} + {ae} + {07}
    yield 283, 0x57, 0x83, 0xC1  # {57} + {ae} + {38}


def product_lines():
    """The worked example, seen through texts: bit b of {57} times x joins the bits k of x where the value doubled k times has bit b,
    and a × b = c exactly if the matrix s a / b s is an involution, s × s = c + 1."""
    joined = [[k for k, value in enumerate(DOUBLED) if value >> bit & 1] for bit in range(8)]
    yield "{57}, doubled 0 to 7 times", request(GATES, 283, 1, [0x57]), gate_text(8, joined)
    counts = {0x57: 22, 0x13: 19, 0x83: 21, 0x4E: 15, 0x99: 23}
    for b, s in ((0x13, 0x4E), (0x83, 0x99)):
        matrix = [s, 0x57, b, s]
        answer = line([0, 3, 1, 1, sum(counts[a] for a in matrix) + 2 * 8])
        yield f"{{57}} × {{{b:x}}} over 283", request(CHECK, 283, 2, matrix), answer


CIRCULANT_REQUEST = b"     5   283     4     3\n     1     2     3\n"
CIRCULANT_ANSWER = b"     0    14    38   152\n     1     1     2     3\n"


def circulant_lines():
    """The lightest MDS circulant matrix; an element may stand in the row several times."""
    def found(p, n, candidates, counts, row):
        return f"circulant of order {n} over {p}: {row}", request(CIRCULANT, p, n, candidates), line([0, *counts]) + line(row)

    yield "circulant over 1 2 3", CIRCULANT_REQUEST, CIRCULANT_ANSWER
    yield found(283, 4, [3, 1, 2], [14, 38, 152], [1, 1, 2, 3])
    yield found(7, 2, [3, 2], [2, 4, 8], [2, 3])
    yield found(19, 3, [1, 2, 3, 4], [1, 9, 27], [1, 1, 2])
    yield found(283, 8, list(range(1, 9)), [53, 109, 872], [1, 1, 3, 1, 8, 4, 5, 6])
    yield "no circulant of order 8 over 19", request(CIRCULANT, 19, 8, [1, 2, 4, 8, 3, 6, 12, 11]), line([9])
    # Fewer candidates than the order. A single one gives lines that are all alike.
    yield found(19, 3, [2, 1], [1, 9, 27], [1, 1, 2])
    yield found(67, 5, [1, 2, 3], [9, 33, 165], [1, 1, 2, 3, 2])
    for n in range(2, 9):
        yield f"one candidate at order {n}", request(CIRCULANT, 283, n, [2]), line([9])


def circulant_depth_lines():
    """Of equal counts the least depth. Over 19 the elements 3 and 6 count 5; bit 1 of 2 3 joins 5 input bits, a bit of 2 6 at most 4."""
    yield "circulant 2 3", request(CIRCULANT, 19, 2, [3, 2]), line([0, 6, 10, 20]) + line([2, 3])
    yield "circulant 2 6, which is shallower", request(CIRCULANT, 19, 2, [6, 3, 2]), line([0, 6, 10, 20]) + line([2, 6])
    # 1 2 2 8 is as light and earlier, and deeper.
    yield "circulant 1 8 12 12", request(CIRCULANT, 25, 4, [1, 2, 8, 12]), line([0, 8, 20, 80]) + line([1, 8, 12, 12])
    # 3 9 is shallower and earlier, and counts 10.
    yield "circulant 9 13, which is deeper", request(CIRCULANT, 19, 2, [3, 9, 13]), line([0, 4, 8, 16]) + line([9, 13])


WALK_REQUEST = b"     6    19     4     4     1\n     1     4     9    13\n"
WALK_ANSWER = b"     0     0     1    18    18\n     1     4     9    13\n"
ALL_WALKED = b"""     6    19     4    15999999
     1     2     3     4     5     6     7     8     9    10    11    12    13    14    15
"""
EXAMPLE_WALK = ALL_WALKED.replace(b"999999", b"   300")
EXAMPLE_WALK_ANSWER = b"     0     0   300    20    16\n     1     2     4     6\n"


def walk_text(p, n, candidates, budget):
    return request(WALK, p, n, candidates, budget=budget)


def walk_line(p, n, candidates, budget, told, row=None):
    """A walk and its answer: finished, rows tried, count and bound, then the row; without one the count is 999999."""
    name = f"walk of {budget} rows of order {n} over {p}, {len(candidates)} candidates from {candidates[0]} on"
    return name, walk_text(p, n, candidates, budget), line([0, *told]) + line(row or [0] * n)


def walk_lines():
    """The best row yet. The first row over 1 4 9 13 is good; over 1 2 4 8 none of the 24 is."""
    row, fifteen = [1, 4, 9, 13], list(range(1, 16))
    yield "one row tried", WALK_REQUEST, WALK_ANSWER
    yield "all fifteen walked", ALL_WALKED, b"     0     1 32760    18    16\n     1     4     9    13\n"
    yield walk_line(19, 4, row, 0, [0, 0, NONE_YET, 18])
    for budget in (2, 12, 23):
        yield walk_line(19, 4, row, budget, [0, budget, 18, 18], row)
    for budget in (24, 25, 999999):
        yield walk_line(19, 4, row[::-1], budget, [1, 24, 18, 18], row)
    for budget in (0, 1, 23):
        yield walk_line(19, 4, [1, 2, 4, 8], budget, [0, budget, NONE_YET, 18])
    for budget in (24, 25, 999999):
        yield f"walk without a row, budget {budget}", walk_text(19, 4, [1, 2, 4, 8], budget), line([9])
    # Fewer candidates than the order: no row to try, so the walk is finished.
    for budget in (0, 1, 999999):
        yield f"walk over three candidates, budget {budget}", walk_text(19, 4, [1, 4, 9], budget), line([9])
        yield f"walk of order 8 over seven, budget {budget}", walk_text(19, 8, fifteen[:7], budget), line([9])
    # 2 · 156 + 6 · 12 + 9 rows stand before 1 4 9 13, of 15 · 14 · 13 · 12; the lightest four candidates count 0 1 1 2. Before it
    # stands 1 2 4 6, which counts 0 + 1 + 2 + 5 and 3 · 4.
    yield "three hundred rows tried", EXAMPLE_WALK, EXAMPLE_WALK_ANSWER
    yield walk_line(19, 4, fifteen, 393, [0, 393, 20, 16], [1, 2, 4, 6])
    yield walk_line(19, 4, fifteen, 394, [0, 394, 18, 16], row)
    yield walk_line(19, 4, fifteen, 32759, [0, 32759, 18, 16], row)
    yield walk_line(19, 4, fifteen[::-1], 32760, [1, 32760, 18, 16], row)
    yield walk_line(19, 4, fifteen, 32761, [1, 32760, 18, 16], row)
    yield walk_line(19, 8, fifteen, 0, [0, 0, NONE_YET, 48])
    yield from walk_depth_lines()
    yield from walk_lines_of_order_eight()


def walk_depth_lines():
    """Of equal counts the least depth. Over 31 the row 1 2 4 6, the 15th, counts 24, as 1 2 13 15 does, the 132nd, which is shallower. The
    lightest four candidates count 0 3 3 3."""
    fifteen, changes = list(range(1, 16)), {15: [1, 2, 4, 6], 132: [1, 2, 13, 15]}
    yield walk_line(31, 4, fifteen, 14, [0, 14, NONE_YET, 21])
    for budget, row in changes.items():
        yield walk_line(31, 4, fifteen, budget, [0, budget, 24, 21], row)
    yield walk_line(31, 4, fifteen, 131, [0, 131, 24, 21], changes[15])
    yield walk_line(31, 4, fifteen, 32760, [1, 32760, 24, 21], changes[132])
    # 1 8 16 24 counts 32, and 1 8 49 57, the ninth row, counts 30 and is deeper.
    six = [1, 8, 16, 24, 49, 57]
    yield walk_line(67, 4, six, 1, [0, 1, 32, 28], six[:4])
    yield walk_line(67, 4, six, 8, [0, 8, 32, 28], six[:4])
    yield walk_line(67, 4, six, 9, [0, 9, 30, 28], [1, 8, 49, 57])
    yield walk_line(67, 4, six, 360, [1, 360, 30, 28], [1, 8, 49, 57])


def walk_lines_of_order_eight():
    """The row 2 3 4 12 5 10 8 15 is the 75th of the 40320 over its entries."""
    row = [2, 3, 4, 12, 5, 10, 8, 15]
    yield walk_line(19, 8, row, 74, [0, 74, NONE_YET, 64])
    yield walk_line(19, 8, row, 75, [0, 75, 64, 64], row)
    yield walk_line(19, 8, row, 40319, [0, 40319, 64, 64], row)
    yield walk_line(19, 8, row, 40320, [1, 40320, 64, 64], row)
    yield walk_line(19, 8, row, 999999, [1, 40320, 64, 64], row)
    eight = list(range(1, 9))  # they do not sum to 1
    yield walk_line(19, 8, eight, 40319, [0, 40319, NONE_YET, 59])
    yield "walk of order 8 without a row", walk_text(19, 8, eight, 40320), line([9])


def limit_lines():
    """Limits of polynomial, order and count."""
    for polynomial, number in [(3, 3), (7, 9), (21, 4), (511, 4), (512, 3)]:
        yield f"polynomial {polynomial}", request(SEARCH, polynomial, 4, [1]), line([number])
    values = list(range(1, 257))
    eight, four = [1, 2, 3, 9, 4, 10, 8, 14], [1, 2, 141, 143]
    yield "order 8, 16 candidates", request(SEARCH, 283, 8, values[:16]), line([0, 84, 140, 1120]) + line(eight)
    yield "order 8, 17 candidates", request(SEARCH, 283, 8, values[:17]), line([6])
    yield "order 4, 255 candidates", request(SEARCH, 283, 4, values[:255]), line([0, 20, 44, 176]) + line(four)
    yield "order 4, 256 values", request(SEARCH, 283, 4, values), line([6])
    for polynomial, number in [(3, 3), (7, 9), (21, 4), (511, 4), (512, 3)]:
        yield f"circulant, polynomial {polynomial}", request(CIRCULANT, polynomial, 4, [1]), line([number])
    for order in (0, 1, 9, 999999):
        yield f"circulant, order {order}", request(CIRCULANT, 283, order, values[:8]), line([5])
    for order in range(2, 9):
        yield f"circulant, order {order}, no candidate", request(CIRCULANT, 283, order, []), line([6])
        yield f"circulant, order {order}, 9 candidates", request(CIRCULANT, 283, order, values[:9]), line([6])
    for polynomial, number in [(3, 3), (7, 9), (21, 4), (511, 4), (512, 3)]:
        yield f"walk, polynomial {polynomial}", walk_text(polynomial, 4, [1], 0), line([number])
    yield walk_line(283, 8, values[:16], 0, [0, 0, NONE_YET, 124])
    yield "walk of order 8, 17 candidates", walk_text(283, 8, values[:17], 0), line([6])
    yield walk_line(283, 4, values[:255], 0, [0, 0, NONE_YET, 36])
    yield "walk of order 4, 256 values", walk_text(283, 4, values, 0), line([6])
    for order in (0, 1, 2, 3, 5, 6, 7, 9, 16, 999999):
        yield f"walk of order {order}", walk_text(283, order, values[:8], 1), line([5])


def reference_lines():
    """(name, request text, answer text)"""
    parts = (search_lines, depth_lines, check_lines, zero_lines, survey_lines, field_lines, gate_lines, product_lines, limit_lines)
    for part in (*parts, circulant_lines, circulant_depth_lines, walk_lines):
        yield from part()


def refusal_lines():
    """(name, request text, refusal): each number alone, and with later faults in the same text."""
    r = request
    yield "empty text", b"", 1
    yield "no line end", WORKED_REQUEST[:-1], 1
    yield "a byte behind", WORKED_REQUEST + b"\n", 1
    yield "a value missing", r(SEARCH, 19, 4, [1, 4, 9], count=4), 1
    yield "a value too many", r(SEARCH, 19, 4, [1, 4, 9, 13], count=3), 1
    yield "a leading zero", WORKED_REQUEST.replace(b"    19", b"   019"), 1
    yield "672 values", r(SEARCH, 19, 4, [1] * 672), 1
    yield "1 before 2 to 8", r(9, 3, 9, [0, 0, 999999], count=2), 1
    yield "kind 0", r(0, 19, 4, [1]), 2
    yield "kind 8", r(8, 19, 4, [1]), 2
    yield "2 before 3 to 8", r(999999, 512, 9, [0, 0, 999999]), 2
    yield "polynomial 3", r(CHECK, 3, 1, [0]), 3
    yield "polynomial 512", r(CHECK, 512, 1, [0]), 3
    yield "degree 1", r(SURVEY, 1, 0, []), 3
    yield "degree 9", r(SURVEY, 9, 0, []), 3
    yield "3 before 5 to 8", r(SEARCH, 3, 5, [0, 0, 999999]), 3
    yield "3 before 5 and 6 in a survey", r(SURVEY, 19, 4, [1]), 3
    yield "polynomial 21", r(CHECK, 21, 1, [0]), 4
    yield "4 before 5 to 8", r(SEARCH, 21, 5, [0, 0, 999999]), 4
    yield "order 2 in a search", r(SEARCH, 19, 2, [1]), 5
    yield "order 0 in a check", r(CHECK, 19, 0, []), 5
    yield "order 9 in a check", r(CHECK, 19, 9, [1] * 81), 5
    yield "order 1 in a survey", r(SURVEY, 4, 1, []), 5
    yield "5 before 6 to 8", r(SEARCH, 19, 5, [0, 0] + [16] * 300), 5
    yield "no candidate", r(SEARCH, 19, 4, []), 6
    yield "17 candidates at order 8", r(SEARCH, 283, 8, list(range(1, 18))), 6
    yield "15 entries at order 4", r(CHECK, 19, 4, [1] * 15), 6
    yield "a value in a survey", r(SURVEY, 4, 0, [1]), 6
    yield "6 before 7 and 8", r(SEARCH, 19, 8, [16, 0, 0] * 6), 6
    yield "candidate 16 over 19", r(SEARCH, 19, 4, [1, 16]), 7
    yield "entry 16 over 19", r(CHECK, 19, 1, [16]), 7
    yield "7 before 8", r(SEARCH, 19, 4, [0, 0, 16]), 7
    yield "candidate 0", r(SEARCH, 19, 4, [1, 0]), 8
    yield "a candidate repeated", r(SEARCH, 19, 4, [1, 4, 9, 13, 4]), 8
    yield "8 before 9", r(SEARCH, 19, 4, [1, 1]), 8
    yield "no row at order 4", r(SEARCH, 19, 4, [1, 2, 4, 8]), 9
    yield "no row at order 8", r(SEARCH, 19, 8, [1, 2, 3, 4, 5, 6, 7]), 9
    yield from gate_refusals()
    yield from circulant_refusals()
    yield from walk_refusals()


def gate_refusals():
    """Kind 4: each number alone, the first fault of several, and where a number begins and ends."""
    r = request
    yield "gates without a line end", TWO_LINES[:-1], 1
    yield "gates with an entry missing", r(GATES, 7, 2, [2, 3, 0], count=4), 1
    yield "1 before 3 to 7 in gates", r(GATES, 3, 9, [999999, 0], count=1), 1
    yield "gates over 3", r(GATES, 3, 1, [0]), 3
    yield "gates over 512", r(GATES, 512, 1, [0]), 3
    yield "3 before 5 to 7 in gates", r(GATES, 3, 9, [999999]), 3
    yield "gates over 4", r(GATES, 4, 1, [0]), 4
    yield "gates over 21", r(GATES, 21, 1, [0]), 4
    yield "gates over 511", r(GATES, 511, 1, [0]), 4
    yield "4 before 5 to 7 in gates", r(GATES, 21, 9, [999999]), 4
    yield "order 0 in gates", r(GATES, 19, 0, []), 5
    yield "order 9 in gates", r(GATES, 19, 9, [1] * 81), 5
    yield "5 before 6 and 7 in gates", r(GATES, 19, 9, [999999]), 5
    yield "15 entries at order 4 in gates", r(GATES, 19, 4, [1] * 15), 6
    yield "17 entries at order 4 in gates", r(GATES, 19, 4, [1] * 17), 6
    yield "no entry in gates", r(GATES, 19, 1, []), 6
    yield "6 before 7 in gates", r(GATES, 19, 2, [16] * 3), 6
    yield "entry 16 over 19 in gates", r(GATES, 19, 1, [16]), 7
    yield "the last entry 256 over 283 in gates", r(GATES, 283, 8, [0] * 63 + [256]), 7


def circulant_refusals():
    """Kind 5: each number alone, the first fault of several, and where a number begins and ends."""
    r = request
    yield "circulant without a line end", CIRCULANT_REQUEST[:-1], 1
    yield "circulant with a candidate missing", r(CIRCULANT, 283, 4, [1, 2], count=3), 1
    yield "1 before 3 to 8 in circulant", r(CIRCULANT, 3, 9, [0, 0, 999999], count=2), 1
    yield "kind 6 with four numbers in line one", r(6, 283, 4, [1, 2, 3]), 1
    yield "circulant over 3", r(CIRCULANT, 3, 2, [1]), 3
    yield "circulant over 512", r(CIRCULANT, 512, 2, [1]), 3
    yield "3 before 5 to 8 in circulant", r(CIRCULANT, 3, 9, [0, 0, 999999]), 3
    yield "circulant over 4", r(CIRCULANT, 4, 2, [1]), 4
    yield "circulant over 21", r(CIRCULANT, 21, 2, [1]), 4
    yield "circulant over 511", r(CIRCULANT, 511, 2, [1]), 4
    yield "4 before 5 to 8 in circulant", r(CIRCULANT, 21, 9, [0, 0, 999999]), 4
    yield "order 1 in circulant", r(CIRCULANT, 19, 1, [1]), 5
    yield "order 9 in circulant", r(CIRCULANT, 19, 9, [1]), 5
    yield "5 before 6 to 8 in circulant", r(CIRCULANT, 19, 1, [0, 0] + [16] * 300), 5
    yield "no candidate in circulant", r(CIRCULANT, 19, 2, []), 6
    yield "9 candidates in circulant", r(CIRCULANT, 19, 8, list(range(1, 10))), 6
    yield "6 before 7 and 8 in circulant", r(CIRCULANT, 19, 8, [16, 0, 0] * 3), 6
    yield "candidate 16 over 19 in circulant", r(CIRCULANT, 19, 4, [1, 16]), 7
    yield "the last candidate 256 over 283 in circulant", r(CIRCULANT, 283, 8, [1, 2, 3, 4, 5, 6, 7, 256]), 7
    yield "7 before 8 in circulant", r(CIRCULANT, 19, 4, [0, 0, 16]), 7
    yield "candidate 0 in circulant", r(CIRCULANT, 19, 4, [1, 0]), 8
    yield "a candidate repeated in circulant", r(CIRCULANT, 19, 4, [1, 2, 3, 4, 5, 6, 7, 1]), 8
    yield "8 before 9 in circulant", r(CIRCULANT, 19, 8, [1, 1]), 8
    yield "no circulant row", r(CIRCULANT, 19, 4, [1]), 9


def walk_refusals():
    """Kind 6: each number alone, the first fault of several, and where a number begins and ends."""
    w = walk_text
    yield "walk without a line end", WALK_REQUEST[:-1], 1
    yield "walk without a budget", request(WALK, 19, 4, [1, 4, 9, 13]), 1
    yield "walk with two budgets", WALK_REQUEST.replace(b"\n", b"     1\n", 1), 1
    yield "walk with a budget in a line of its own", WALK_REQUEST.replace(b"     1\n", b"\n     1\n", 1), 1
    yield "walk with a leading zero in its budget", WALK_REQUEST.replace(b"     1\n", b"    01\n", 1), 1
    yield "walk with a budget of seven digits", WALK_REQUEST.replace(b"     1\n", b"1000000\n", 1), 1
    yield "walk with a negative budget", WALK_REQUEST.replace(b"     1\n", b"    -1\n", 1), 1
    yield "walk with an empty budget", WALK_REQUEST.replace(b"     1\n", b"      \n", 1), 1
    yield "walk with a candidate missing", request(WALK, 19, 4, [1, 4, 9], count=4, budget=1), 1
    yield "walk with a candidate too many", request(WALK, 19, 4, [1, 4, 9, 13], count=3, budget=1), 1
    yield "1 before 3 to 8 in a walk", request(WALK, 3, 9, [0, 0, 999999], count=2, budget=1), 1
    yield "walk over 671 values, which are too long", w(19, 4, [1] * 671, 1), 1
    for kind in (0, SEARCH, CHECK, SURVEY, GATES, CIRCULANT, 7, 8, 9, 16, 60, 66, 600000, 999999):
        yield f"five numbers in line one of kind {kind}", request(kind, 19, 4, [1, 4, 9, 13], budget=1), 1
        yield f"five numbers in line one of kind {kind} and no value", request(kind, 4, 0, [], budget=0), 1
    yield "walk over 3", w(3, 4, [1], 0), 3
    yield "walk over 512", w(512, 4, [1], 0), 3
    yield "3 before 5 to 8 in a walk", w(3, 5, [0, 0, 999999], 0), 3
    yield "walk over 4", w(4, 4, [1], 0), 4
    yield "walk over 21", w(21, 4, [1], 0), 4
    yield "walk over 511", w(511, 4, [1], 0), 4
    yield "4 before 5 to 8 in a walk", w(21, 5, [0, 0, 999999], 0), 4
    yield "order 2 in a walk", w(19, 2, [1, 2], 0), 5
    yield "order 9 in a walk", w(19, 9, [1], 0), 5
    yield "5 before 6 to 8 in a walk", w(19, 5, [0, 0] + [16] * 300, 0), 5
    yield "no candidate in a walk", w(19, 4, [], 0), 6
    yield "no candidate in a walk of order 8", w(19, 8, [], 999999), 6
    yield "17 candidates in a walk of order 8", w(283, 8, list(range(1, 18)), 1), 6
    yield "256 candidates in a walk of order 4", w(283, 4, list(range(256)), 1), 6
    yield "670 values in a walk", w(19, 4, [1] * 670, 1), 6
    yield "6 before 7 and 8 in a walk", w(19, 8, [16, 0, 0] * 6, 0), 6
    yield "candidate 16 over 19 in a walk", w(19, 4, [1, 16], 0), 7
    yield "the last candidate 256 over 283 in a walk", w(283, 8, [1, 2, 3, 4, 5, 6, 7, 256], 0), 7
    yield "7 before 8 in a walk", w(19, 4, [0, 0, 16], 0), 7
    yield "candidate 0 in a walk", w(19, 4, [1, 0], 0), 8
    yield "a candidate repeated in a walk", w(19, 4, [1, 4, 9, 13, 4], 1), 8
    yield "8 before 9 in a walk", w(19, 4, [1, 1], 0), 8
    yield "no row in a walk", w(19, 4, [1, 2, 4, 8], 24), 9
    yield "one candidate in a walk", w(19, 4, [1], 0), 9
