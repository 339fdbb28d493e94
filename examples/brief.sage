# From a brief to a proved row, and the row checked once more by Sage itself. To be pasted into Sage in the project's folder,
# after `rt staticlib answer` and `bindings/python/link`; or: sage examples/brief.sage

import sys
sys.path.append("bindings/python")
import rowfind

polynomial, order, candidates = 19, 4, [1..15]  # x^4 + x + 1, and every nonzero element

found = rowfind.search(polynomial, order, candidates)
print(found)

# A number and an element have the same bits: bit i is the coefficient of x^i.
bits = ZZ(polynomial).digits(2)
K.<x> = GF(2^(len(bits) - 1), modulus=GF(2)["t"](bits))
element = lambda number: sum(bit * x^i for i, bit in enumerate(ZZ(number).digits(2)))
number = lambda element: ZZ([ZZ(bit) for bit in element.polynomial()], 2)

H = matrix(K, order, order, lambda i, j: element(found.row[ZZ(i) ^^ ZZ(j)]))
print(H)
print("involution:", H^2 == 1)
print("MDS:", all(minor != 0 for size in [1..order] for minor in H.minors(size)))

# A brief that no row meets.
try:
    rowfind.search(polynomial, order, [1, 2, 4, 8])
except rowfind.Refused as refused:
    print(refused.number, refused.meaning)

# The other way: a matrix of Sage to a check.
print(rowfind.check(polynomial, [map(number, line) for line in H]))
