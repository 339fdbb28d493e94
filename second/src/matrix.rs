//! Matrices over a field: the product with an input, the determinant, the involution test, the matrix count and the
//! depth of a line.

use crate::field::Field;

/// The largest order.
pub const MOST: usize = 8;

/// A square matrix; entries outside the order are 0.
#[derive(Clone, Copy, PartialEq, Eq, Debug)]
pub struct Matrix {
    pub order: usize,
    pub entries: [[u8; MOST]; MOST],
}

impl Matrix {
    /// The matrix whose entry at line i, column j is `entry(i, j)`.
    pub fn from_entries(order: usize, entry: impl Fn(usize, usize) -> u8) -> Matrix {
        let mut entries = [[0; MOST]; MOST];
        for (i, line) in entries.iter_mut().enumerate().take(order) {
            for (j, cell) in line.iter_mut().enumerate().take(order) {
                *cell = entry(i, j);
            }
        }
        Matrix { order, entries }
    }

    /// The matrix with entry h at (i exclusive or j).
    pub fn hadamard(row: &[u8]) -> Matrix {
        Matrix::from_entries(row.len(), |i, j| row[i ^ j])
    }

    /// The matrix whose entry at line i, column j is the row's at (j - i) modulo the order.
    pub fn circulant(row: &[u8]) -> Matrix {
        let n = row.len();
        Matrix::from_entries(n, |i, j| row[(n + j - i) % n])
    }

    /// The output for an input.
    pub fn apply(&self, field: &Field, input: &[u8; MOST]) -> [u8; MOST] {
        let mut output = [0; MOST];
        for (word, line) in output.iter_mut().zip(&self.entries).take(self.order) {
            *word = (0..self.order).fold(0, |sum, j| sum ^ field.product(line[j], input[j]));
        }
        output
    }

    /// The determinant by elimination: a line with a nonzero entry in the column is brought up, which changes no sign
    /// as there is none, and multiples of it are subtracted below; then it is the product along the diagonal.
    pub fn determinant(&self, field: &Field) -> u8 {
        let mut lines = self.entries;
        let mut product = 1;
        for column in 0..self.order {
            let Some(found) = (column..self.order).find(|&i| lines[i][column] != 0) else { return 0 };
            lines.swap(column, found);
            let pivot = lines[column];
            product = field.product(product, pivot[column]);
            for line in &mut lines[column + 1..self.order] {
                let factor = field.product(line[column], field.inverse(pivot[column]));
                line.iter_mut().zip(pivot).for_each(|(cell, above)| *cell ^= field.product(factor, above));
            }
        }
        product
    }

    /// Applied twice, it gives every unit vector back. By linearity it then gives every input back.
    pub fn is_involution(&self, field: &Field) -> bool {
        (0..self.order).all(|j| {
            let mut unit = [0; MOST];
            unit[j] = 1;
            self.apply(field, &self.apply(field, &unit)) == unit
        })
    }

    /// The sum of the counts of its lines.
    pub fn count(&self, field: &Field) -> u32 {
        self.entries.iter().take(self.order).map(|line| line_count(field, &line[..self.order])).sum()
    }
}

/// The XORs of a line, counted at its output bits: one that joins t input bits takes t − 1, one that joins none takes none.
pub fn line_count(field: &Field, line: &[u8]) -> u32 {
    (0..field.degree).map(|bit| joined(field, line, bit).saturating_sub(1)).sum()
}

/// The greatest depth of a line's output bits.
pub fn line_depth(field: &Field, line: &[u8]) -> u32 {
    (0..field.degree).map(|bit| depth_of(joined(field, line, bit))).max().unwrap_or(0)
}

/// The depth of an output bit that joins so many input bits: the least d with 2^d at least that.
pub fn depth_of(ones: u32) -> u32 {
    ones.next_power_of_two().trailing_zeros()
}

/// How many input bits an output bit of a line joins: bit k of word j where entry j times 2^k has the output bit.
pub fn joined(field: &Field, line: &[u8], bit: usize) -> u32 {
    let ones = |a: u8| (0..field.degree).map(|k| u32::from(field.product(a, 1 << k) >> bit & 1)).sum::<u32>();
    line.iter().map(|&a| ones(a)).sum()
}

#[cfg(test)]
mod tests {
    use super::*;
    use crate::brute;

    #[test]
    fn determinant_equals_the_sum_over_all_permutations() {
        brute::for_small_matrices(|field, matrix| {
            assert_eq!(matrix.determinant(field), brute::determinant(field, matrix), "{matrix:?}");
        });
        let field = Field::new(19);
        let two = |a, b, c, d| Matrix::from_entries(2, |i, j| [[a, b], [c, d]][i][j]).determinant(&field);
        assert_eq!((two(2, 1, 1, 1), two(0, 2, 9, 0), two(1, 3, 8, 11)), (3, 1, 0));
        assert_eq!(Matrix::from_entries(0, |_, _| 0).determinant(&field), 1);
    }

    #[test]
    fn involution_equals_the_definition_over_all_inputs() {
        brute::for_small_matrices(|field, matrix| {
            assert_eq!(matrix.is_involution(field), brute::is_involution(field, matrix), "{matrix:?}");
        });
    }

    #[test]
    fn a_line_counts_its_elements_and_the_sums_of_its_nonzero_entries() {
        brute::for_small_matrices(|field, matrix| {
            for line in &matrix.entries[..matrix.order] {
                let elements: u32 = line.iter().map(|&a| field.xor_count(a)).sum();
                let sums = brute::weight(line).saturating_sub(1) * field.degree;
                assert_eq!(line_count(field, &line[..matrix.order]), elements + sums as u32, "{line:?}");
            }
        });
    }

    #[test]
    fn depth_is_the_least_exponent_of_two_that_reaches_the_ones() {
        assert_eq!([0, 1, 2, 3, 4, 5, 6, 7, 8, 9].map(depth_of), [0, 0, 1, 2, 2, 3, 3, 3, 3, 4]);
        for ones in 0..=64 {
            let d = depth_of(ones);
            assert!(1 << d >= ones && (0..d).all(|less| 1 << less < ones), "{ones}");
        }
    }

    /// Over 31 the bit matrix of 2 has the columns 2, 4, 8, 15, with 1, 1, 1 and 4 ones; its lines have no more than two.
    #[test]
    fn ones_are_those_of_lines_not_of_columns() {
        let field = Field::new(31);
        let ones = |row: &[u8]| [0, 1, 2, 3].map(|bit| joined(&field, row, bit));
        assert_eq!(ones(&[2]), [1, 2, 2, 2]);
        assert_eq!(line_depth(&field, &[2]), 1);
        assert_eq!((ones(&[1, 2, 4, 6]), line_depth(&field, &[1, 2, 4, 6])), ([5, 7, 9, 7], 4));
        assert_eq!((ones(&[1, 2, 13, 15]), line_depth(&field, &[1, 2, 13, 15])), ([7, 7, 7, 7], 3));
        let field = Field::new(19);
        assert_eq!([0, 1, 2, 3].map(|bit| joined(&field, &[1, 4, 9, 13], bit)), [7, 5, 5, 5]);
        assert_eq!(line_depth(&field, &[1, 4, 9, 13]), 3);
    }

    #[test]
    fn depth_of_a_line_equals_the_definition() {
        brute::for_small_matrices(|field, matrix| {
            for line in &matrix.entries[..matrix.order] {
                let line = &line[..matrix.order];
                assert_eq!(line_depth(field, line), brute::depth(field, line), "{line:?}");
            }
        });
    }

    /// The search counts on it for the places that it has not filled.
    #[test]
    fn every_output_bit_of_an_element_other_than_0_joins_an_input_bit() {
        for p in [7, 11, 13, 19, 25, 31, 37, 67, 131, 283, 451] {
            let field = Field::new(p);
            for a in 1..field.size {
                assert!((0..field.degree).all(|bit| joined(&field, &[a as u8], bit) >= 1), "{a} over {p}");
            }
        }
    }

    #[test]
    fn zeros_cost_nothing() {
        for m in 2..=8 {
            let field = Field::new([7, 11, 19, 37, 67, 131, 283][m - 2]);
            for n in 1..=MOST {
                assert_eq!(Matrix::from_entries(n, |_, _| 0).count(&field), 0);
                assert_eq!(Matrix::from_entries(n, |i, j| (i == j) as u8).count(&field), 0);
                assert_eq!(Matrix::from_entries(n, |_, _| 1).count(&field) as usize, n * (n - 1) * m);
            }
        }
    }

    #[test]
    fn circulant_turns_its_row_from_line_to_line() {
        let fips = [[2, 3, 1, 1], [1, 2, 3, 1], [1, 1, 2, 3], [3, 1, 1, 2]];
        assert_eq!(Matrix::circulant(&[2, 3, 1, 1]), Matrix::from_entries(4, |i, j| fips[i][j]));
        assert_eq!(Matrix::circulant(&[5]), Matrix::hadamard(&[5]));
        assert_eq!(Matrix::circulant(&[5, 6]), Matrix::hadamard(&[5, 6]));
    }

    #[test]
    fn hadamard_is_an_involution_exactly_where_its_row_sums_to_one() {
        for p in [7, 11, 19, 25, 31] {
            let field = Field::new(p);
            for row in brute::rows(&(0..field.size.min(8) as u8).collect::<Vec<u8>>(), 4) {
                let sum = row.iter().fold(0, |s, h| s ^ h);
                assert_eq!(Matrix::hadamard(&row).is_involution(&field), sum == 1);
            }
        }
    }
}
