#!/usr/bin/env python3
"""Tests of the Python module, with the library that bindings/python/link has made."""
import concurrent.futures
import doctest
import os
import pickle
import subprocess
import sys
import unittest

sys.dont_write_bytecode = True
HERE = os.path.dirname(os.path.realpath(__file__))
sys.path[:0] = [HERE, os.path.join(HERE, "..", "..", "second")]

import reference
import rowfind
import rowtext


class Index:
    """A number of another library, such as Sage's integers."""

    def __init__(self, value):
        self.value = value

    def __index__(self):
        return self.value


def answer_or_refusal(text):
    """An answer text, or the line of a refusal."""
    try:
        return rowfind.answer(text)
    except rowfind.Refused as refused:
        return rowfind.line([refused.number])


def of_printed(function, matrix):
    entries, n = rowtext.entries_of(matrix), matrix["order"]
    return function(matrix["polynomial"], [entries[k : k + n] for k in range(0, n * n, n)])


def checked(matrix):
    return of_printed(rowfind.check, matrix)


class Texts(unittest.TestCase):
    def test_reference_lines(self):
        for name, text, answer in reference.reference_lines():
            self.assertEqual(answer_or_refusal(text), answer, name)

    def test_every_refusal(self):
        for name, text, number in reference.refusal_lines():
            with self.assertRaises(rowfind.Refused, msg=name) as caught:
                rowfind.answer(text)
            self.assertEqual(caught.exception.number, number, name)

    def test_only_texts_of_numbers_are_read(self):
        for text in (b"", b"\n", b"     1", b"    1 \n", b"000001\n", b"    -1\n", b"     1\n\n", b"\xff\n", b"     1\r\n"):
            with self.assertRaises(ValueError, msg=text):
                rowfind.numbers(text)


class Functions(unittest.TestCase):
    def test_documented_examples(self):
        for failures, tried in (doctest.testmod(rowfind), doctest.testfile("../../README.md", encoding="utf8")):
            self.assertEqual((failures, tried > 0), (0, True))

    def test_search(self):
        found = rowfind.search(19, 4, iter([13, 9, 4, 1]))
        self.assertEqual(found, rowfind.Row([1, 4, 9, 13], 6, 18, 72))
        self.assertEqual(rowfind.search(Index(19), Index(4), map(Index, range(1, 16))), found)
        # 1 2 4 6 is as light and earlier, and deeper.
        self.assertEqual(rowfind.search(31, 4, range(1, 16)), rowfind.Row([1, 2, 13, 15], 12, 24, 96))

    def test_circulant(self):
        found = rowfind.circulant(283, 4, iter([3, 1, 2]))
        self.assertEqual(found, rowfind.Row([1, 1, 2, 3], 14, 38, 152))
        self.assertEqual(rowfind.circulant(Index(283), Index(4), map(Index, [1, 2, 3])), found)
        self.assertEqual(rowfind.circulant(7, 2, [3, 2]), rowfind.Row([2, 3], 2, 4, 8))
        # 2 3 is as light and earlier, and deeper.
        self.assertEqual(rowfind.circulant(19, 2, [2, 3, 6]), rowfind.Row([2, 6], 6, 10, 20))

    def test_walk(self):
        found = rowfind.walk(19, 4, iter([13, 9, 4, 1]), 1)
        self.assertEqual(found, rowfind.Walk(False, 1, 18, 18, [1, 4, 9, 13]))
        self.assertEqual(rowfind.walk(Index(19), Index(4), map(Index, [1, 4, 9, 13]), budget=Index(1)), found)
        self.assertEqual(rowfind.walk(19, 4, [1, 2, 4, 8], 23), rowfind.Walk(False, 23, None, 18, None))
        # Without a budget, the largest.
        self.assertEqual(rowfind.walk(19, 4, range(1, 16)), rowfind.Walk(True, 32760, 18, 16, [1, 4, 9, 13]))
        self.assertEqual(rowfind.walk(19, 8, range(1, 16)).tried, 999999)

    def test_a_larger_budget_never_gives_a_worse_row(self):
        found = [rowfind.walk(31, 4, [15, 13, 6, 4, 2, 1], budget) for budget in range(361)]
        self.assertEqual([walk.tried for walk in found], list(range(361)))
        self.assertEqual([walk.finished for walk in found], [False] * 360 + [True])
        counts = [walk.row_count for walk in found[1:]]
        self.assertEqual(counts, sorted(counts, reverse=True))
        # 1 2 13 15 is as light as 1 2 4 6, later, and shallower.
        self.assertEqual([walk.row for walk in found[8:10]], [[1, 2, 4, 6], [1, 2, 13, 15]])
        search = rowfind.search(31, 4, [15, 13, 6, 4, 2, 1])
        self.assertEqual((found[360].row, found[360].row_count), (search.row, search.row_count))

    def test_circulant_rows_are_mds(self):
        for n in range(2, 8):
            found = rowfind.circulant(283, n, [1, 2, 3, 4, 6])
            entries = rowtext.circulant(found.row)
            check = rowfind.check(283, [entries[k : k + n] for k in range(0, n * n, n)])
            self.assertEqual((check.mds, check.branch_number, check.matrix_count), (True, n + 1, found.matrix_count))
            self.assertFalse(check.involution and n > 2)

    def test_check(self):
        fips = [[2, 3, 1, 1], [1, 2, 3, 1], [1, 1, 2, 3], [3, 1, 1, 2]]
        self.assertEqual(rowfind.check(283, fips), rowfind.Check(5, True, False, 152))
        self.assertEqual(rowfind.check(7, [[0]]), rowfind.Check(1, False, False, 0))
        self.assertEqual(rowfind.check(19, [[0, 0, 0], [0, 7, 0], [1, 2, 3]]), rowfind.Check(2, False, False, 23))

    def test_printed_matrices(self):
        right = [matrix for matrix in rowtext.printed_matrices() if "note" not in matrix]
        self.assertTrue(right)
        for matrix in right:
            claims = {name: claim for name, claim in matrix["claim"].items() if name in rowfind.Check._fields}
            self.assertEqual({name: getattr(checked(matrix), name) for name in claims}, claims, matrix["where"])

    def test_survey(self):
        self.assertEqual([found.polynomial for found in rowfind.survey(4)], [19, 25, 31])
        everything = [found.polynomial for degree in range(2, 9) for found in rowfind.survey(degree)]
        self.assertEqual(everything, rowtext.irreducible_polynomials())


    def test_gates(self):
        found = rowfind.gates(7, [[2, 3], [0, 1]])
        self.assertEqual(found, rowfind.Netlist([(1, 2), (4, 3), (0, 1), (6, 2)], [5, 7, 2, 3]))
        self.assertEqual(rowfind.gates(Index(7), [map(Index, [3])]), rowfind.Netlist([(0, 1)], [2, 0]))
        self.assertEqual(rowfind.gates(7, [[0]]), rowfind.Netlist([], [None, None]))

    def test_as_many_gates_as_the_matrix_counts(self):
        for matrix in rowtext.printed_matrices():
            gates = of_printed(rowfind.gates, matrix).gates
            self.assertEqual(len(gates), checked(matrix).matrix_count, matrix["where"])

    def test_the_longest_gates(self):
        heaviest = [[251] * 8] * 8
        found = rowfind.gates(395, heaviest)
        self.assertEqual((len(found.gates), len(found.carriers)), (3136, 64))
        text = rowfind.answer(rowfind.of_matrix(rowfind.GATES, 395, heaviest))
        self.assertEqual(len(text), 13 + 13 * 3136 + 7 * 64)
        self.assertLessEqual(len(text), rowfind.LONGEST_ANSWER)


class Refusals(unittest.TestCase):
    def test_number_and_meaning(self):
        with self.assertRaises(rowfind.Refused) as caught:
            rowfind.search(19, 4, [1, 2, 4, 8])
        refused = caught.exception
        self.assertEqual((refused.number, refused.meaning), (9, rowfind.MEANINGS[9]))
        self.assertEqual(str(refused), "refused with 9: " + rowfind.MEANINGS[9])
        self.assertEqual(pickle.loads(pickle.dumps(refused)).number, 9)

    def test_refusals_of_functions(self):
        refused = {
            1: lambda: rowfind.search(19, 4, [1] * 672),
            3: lambda: rowfind.survey(9),
            4: lambda: rowfind.check(21, [[1]]),
            5: lambda: rowfind.check(19, []),
            6: lambda: rowfind.search(283, 8, range(1, 18)),
            7: lambda: rowfind.check(19, [[16]]),
            8: lambda: rowfind.search(19, 4, [1, 1]),
        }
        of_gates = {
            3: lambda: rowfind.gates(3, [[1]]),
            4: lambda: rowfind.gates(21, [[1]]),
            5: lambda: rowfind.gates(19, []),
            7: lambda: rowfind.gates(19, [[16]]),
        }
        of_circulant = {
            3: lambda: rowfind.circulant(3, 2, [1]),
            4: lambda: rowfind.circulant(21, 2, [1]),
            5: lambda: rowfind.circulant(19, 9, [1]),
            6: lambda: rowfind.circulant(19, 8, range(1, 10)),
            7: lambda: rowfind.circulant(19, 2, [16]),
            8: lambda: rowfind.circulant(19, 2, [1, 1]),
            9: lambda: rowfind.circulant(19, 2, [1]),
        }
        of_walk = {
            1: lambda: rowfind.walk(19, 4, [1] * 671),
            3: lambda: rowfind.walk(3, 4, [1], 0),
            4: lambda: rowfind.walk(21, 4, [1], 0),
            5: lambda: rowfind.walk(19, 5, [1], 0),
            6: lambda: rowfind.walk(283, 8, range(1, 18), 0),
            7: lambda: rowfind.walk(19, 4, [16], 0),
            8: lambda: rowfind.walk(19, 4, [1, 1], 0),
            9: lambda: rowfind.walk(19, 4, [1, 4, 9], 0),
        }
        of_kinds = (refused, of_gates, of_circulant, of_walk)
        for number, call in (pair for calls in of_kinds for pair in calls.items()):
            with self.assertRaises(rowfind.Refused) as caught:
                call()
            self.assertEqual(caught.exception.number, number)

    def test_what_is_no_number(self):
        for value in (-1, 1000000, 10**5000):
            with self.assertRaises(ValueError):
                rowfind.survey(value)
            with self.assertRaises(ValueError):
                rowfind.walk(19, 4, [1], value)
        for value in (4.0, "4", None):
            with self.assertRaises(TypeError):
                rowfind.search(19, value, [1])

    def test_what_is_no_square_matrix(self):
        for matrix in ([[1, 2]], [[1], [2]], [[1, 2], [3]]):
            for function in (rowfind.check, rowfind.gates):
                with self.assertRaises(ValueError):
                    function(19, matrix)


class Library(unittest.TestCase):
    def test_several_threads_at_once(self):
        matrices = rowtext.printed_matrices()
        alone = [checked(matrix) for matrix in matrices]
        with concurrent.futures.ThreadPoolExecutor(4) as pool:
            for _ in range(3):
                self.assertEqual(list(pool.map(checked, matrices)), alone)

    def test_a_missing_library_is_named(self):
        environment = dict(os.environ, ROWFIND_LIBRARY="no such file")
        command = [sys.executable, "-B", "-c", "import rowfind; rowfind.survey(2)"]
        said = subprocess.run(command, cwd=HERE, env=environment, stderr=subprocess.PIPE, check=False).stderr.decode().splitlines()
        self.assertIn("no such file: run bindings/python/link first", said[-1])


if __name__ == "__main__":
    unittest.main()
