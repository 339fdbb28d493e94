"""The proved row finder for Python: searches of Hadamard and of circulant rows, walks, checks, surveys and gate lists, in Python numbers.

    >>> import rowfind
    >>> rowfind.search(19, 4, [1, 4, 9, 13])
    Row(row=[1, 4, 9, 13], element_sum=6, row_count=18, matrix_count=72)
    >>> rowfind.check(7, [[1, 0], [0, 1]])
    Check(branch_number=2, mds=False, involution=True, matrix_count=0)
    >>> rowfind.survey(2)
    [Polynomial(polynomial=7, count_sum=2, square_sum=2)]
    >>> rowfind.gates(7, [[2, 3], [0, 1]])
    Netlist(gates=[(1, 2), (4, 3), (0, 1), (6, 2)], carriers=[5, 7, 2, 3])
    >>> rowfind.circulant(283, 4, [1, 2, 3])
    Row(row=[1, 1, 2, 3], element_sum=14, row_count=38, matrix_count=152)
    >>> rowfind.walk(19, 4, [1, 4, 9, 13], budget=1)
    Walk(finished=False, tried=1, row_count=18, bound=18, row=[1, 4, 9, 13])

A polynomial or an element is a number whose bit i is the coefficient of x^i; anything that Python takes for an index is a
number, Sage's integers too. A request that is refused raises Refused, with the number and its meaning.

The calls go through ctypes to librowfind.so, which bindings/python/link makes. It is looked for at the path that the
environment variable ROWFIND_LIBRARY names, else beside this file, else in target/shared of the project. All calls may be
made from several threads at once. Nothing but Python's standard library is needed.
"""
import ctypes
import functools
import operator
import os
from typing import NamedTuple

SEARCH, CHECK, SURVEY, GATES, CIRCULANT, WALK = 1, 2, 3, 4, 5, 6

LARGEST = 999999  # number of six columns
ALWAYS_ZERO = 999999  # in a gate list, for the carrier of an output bit that is always 0
NONE_YET = 999999  # in a walk, for the count of the best row where there is none yet
MOST_VALUES = 671  # of a request: more do not fit 4,096 bytes
MOST_VALUES_OF_A_WALK = 670  # whose line one is longer
LONGEST_ANSWER = 52877  # bytes: ROWFIND_LONGEST_ANSWER of include/rowfind.h

MEANINGS = {
    1: "the text is not in form, is too long, or has not as many values as its count says",
    2: "the kind is not 1, 2, 3, 4, 5 or 6",
    3: "the polynomial is not from 4 to 511 (for a survey: the degree is not from 2 to 8)",
    4: "the polynomial is reducible",
    5: "the order is not allowed for the kind",
    6: "the count is not allowed for the kind and order",
    7: "a value is outside the field (2 to the degree, or more)",
    8: "a candidate is 0 or repeated",
    9: "none: no row over the candidates is both an involution and MDS (for a circulant search: none is MDS)",
    10: "the lent space is shorter than the answer due",
}


class Refused(Exception):
    """A refused request: the number of the refusal and its meaning."""

    def __init__(self, number):
        self.number, self.meaning = number, MEANINGS.get(number, "no known refusal")
        super().__init__(number)

    def __str__(self):
        return f"refused with {self.number}: {self.meaning}"


class Row(NamedTuple):
    """The lightest row. At line i, column j of its matrix stands the row's entry at (i xor j); if it is circulant, that at (j - i)
    modulo the order."""

    row: list
    element_sum: int  # of the XOR counts of the row's elements
    row_count: int
    matrix_count: int


class Walk(NamedTuple):
    """How far a walk came, and the best row of those that it tried."""

    finished: bool  # every row of different candidates was tried
    tried: int
    row_count: int  # of the best row yet; None if there is none yet
    bound: int  # no row of different candidates counts less
    row: list  # the best row yet, or None


class Check(NamedTuple):
    """What is found of a matrix."""

    branch_number: int
    mds: bool
    involution: bool
    matrix_count: int


class Polynomial(NamedTuple):
    """An irreducible polynomial, with the sum of the XOR counts of its nonzero elements, and of their squares."""

    polynomial: int
    count_sum: int
    square_sum: int


class Netlist(NamedTuple):
    """The two-input XOR gates of a matrix of order n over degree m. Input bit j of word i has the number i·m + j, and the gates
    are numbered on from n·m. Output bit b of word i stands at i·m + b."""

    gates: list  # the two numbers that each gate joins, the running result first
    carriers: list  # the number that carries each output bit, or None where the bit is always 0


def search(polynomial, order, candidates):
    """The lightest row of order 4 or 8 over the candidates that is an MDS involution: of equal counts the one of least depth, of
    these the first in dictionary order. Where there is none, Refused with number 9."""
    (_, *counts), row = numbers(answer(request(SEARCH, polynomial, order, candidates)))
    return Row(row, *counts)


def circulant(polynomial, order, candidates):
    """The lightest row of order 2 to 8 over 1 to 8 candidates whose circulant matrix is MDS, by the same rules; a candidate may stand
    in it several times. Where there is none, Refused with number 9."""
    (_, *counts), row = numbers(answer(request(CIRCULANT, polynomial, order, candidates)))
    return Row(row, *counts)


def walk(polynomial, order, candidates, budget=LARGEST):
    """The best row yet: of the rows of different candidates, of order 4 or 8, as many as the budget says are tried in dictionary order,
    and the best of those that are MDS involutions is kept, by the rules of a search. A larger budget never gives a worse row, and
    once it is finished its row is that of a search. Where it is finished without a row, Refused with number 9."""
    text = request(WALK, polynomial, order, candidates, budget=budget)
    (_, finished, tried, count, bound), row = numbers(answer(text))
    if count == NONE_YET:
        count = row = None
    return Walk(finished == 1, tried, count, bound, row)


def check(polynomial, matrix):
    """Branch number, MDS, involution and XOR count of a matrix, a list of its lines; the order is from 1 to 8."""
    ((_, branch, mds, involution, count),) = numbers(answer(of_matrix(CHECK, polynomial, matrix)))
    return Check(branch, mds == 1, involution == 1, count)


def survey(degree):
    """All irreducible polynomials of a degree from 2 to 8, in ascending order."""
    _, *lines = numbers(answer(request(SURVEY, degree, 0, [])))
    return [Polynomial(*found) for found in lines]


def gates(polynomial, matrix):
    """The gates that make the product with a matrix, a list of its lines; the order is from 1 to 8. They are as many as the
    matrix count of a check."""
    (_, how_many), *lines = numbers(answer(of_matrix(GATES, polynomial, matrix)))
    carriers = [None if number == ALWAYS_ZERO else number for (number,) in lines[how_many:]]
    return Netlist([tuple(joined) for joined in lines[:how_many]], carriers)


def line(values):
    """One line of a text: each number right-justified in six columns."""
    return b"".join(b"%6d" % value for value in values) + b"\n"


def request(kind, polynomial, order, values, count=None, budget=None):
    """The text of a request, sixteen values to a line; a walk has a budget. The count may be made to lie."""
    values = [number(value) for value in values]
    head = [number(kind), number(polynomial), number(order), len(values) if count is None else number(count)]
    head += [] if budget is None else [number(budget)]
    return line(head) + b"".join(line(values[k : k + 16]) for k in range(0, len(values), 16))


def of_matrix(kind, polynomial, matrix):
    """The text of a request about a matrix."""
    lines = [list(entries) for entries in matrix]
    if any(len(entries) != len(lines) for entries in lines):
        raise ValueError("a matrix has as many entries in each line as it has lines")
    return request(kind, polynomial, len(lines), sum(lines, []))


def number(value):
    """A number that can be written in six columns."""
    value = operator.index(value)
    if not 0 <= value <= LARGEST:
        raise ValueError(f"a number is from 0 to {LARGEST}")
    return value


def numbers(text):
    """The lines of a text as lists of numbers; ValueError if it is not the text of any."""
    lines = [[number(int(row[k : k + 6])) for k in range(0, len(row), 6)] for row in text.decode("ascii").splitlines()]
    if not lines or not all(lines) or b"".join(map(line, lines)) != text:
        raise ValueError("not lines of numbers in six columns")
    return lines


def answer(text):
    """The answer text due to a request text; Refused if it is refused."""
    space, length = ctypes.create_string_buffer(LONGEST_ANSWER), ctypes.c_size_t()
    refusal = library().rowfind_answer(text, len(text), space, len(space), ctypes.byref(length))
    if refusal:
        raise Refused(refusal)
    return space.raw[: length.value]


@functools.lru_cache(maxsize=None)
def library():
    """librowfind.so, opened once."""
    path = library_path()
    if not os.path.isfile(path):
        raise FileNotFoundError(f"there is no {path}: run bindings/python/link first, or name it by ROWFIND_LIBRARY")
    opened = ctypes.CDLL(path)
    opened.rowfind_answer.restype = ctypes.c_uint32
    opened.rowfind_answer.argtypes = [
        ctypes.c_char_p, ctypes.c_size_t, ctypes.c_char_p, ctypes.c_size_t, ctypes.POINTER(ctypes.c_size_t)
    ]
    return opened


def library_path():
    here = os.path.dirname(os.path.realpath(__file__))
    beside = os.path.join(here, "librowfind.so")
    linked = os.path.normpath(os.path.join(here, "..", "..", "target", "shared", "librowfind.so"))
    return os.environ.get("ROWFIND_LIBRARY") or (beside if os.path.isfile(beside) else linked)
