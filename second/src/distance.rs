//! The branch number as the minimum distance of a linear code.
//!
//! The words (x, Mx) form a linear code of length 2n and dimension n, and the branch number of M is the least
//! weight of a word other than 0. It is found by the method of Brouwer and Zimmermann, without determinants and
//! without a walk over square blocks:
//!
//! - The first generator has unit vectors in the n input places. The second has unit vectors in as many output
//!   places as the rank r of M allows, and in n − r input places besides.
//! - Combinations of w lines of a generator are walked for w = 1, 2, ...; the last two coefficients are not walked:
//!   for each place the last line is used to make it 0, and the coefficient of the line before it is then read from
//!   a table, as the one that makes most of the other places 0.
//! - A word not met after w1 lines of the first and w2 of the second has more than w1 nonzero input words, and
//!   more than w2 − (n − r) nonzero output words. Once the sum of these limits reaches the least weight met,
//!   the walk ends. By the Singleton bound that weight is at most n + 1, and n + 1 is MDS.

use crate::field::{Field, ALWAYS};
use crate::matrix::{Matrix, MOST};

/// A word of the code: the input and its output.
pub type Word = ([u8; MOST], [u8; MOST]);

/// The branch number of a matrix, singular or not.
pub fn branch_number(field: &Field, matrix: &Matrix) -> usize {
    Walk::new(field, matrix, 1).run().0
}

/// Whether the branch number is n + 1. The walk ends at the first lighter word.
pub fn is_mds(field: &Field, matrix: &Matrix) -> bool {
    Walk::new(field, matrix, matrix.order).run().0 == matrix.order + 1
}

/// A quick look at a Hadamard matrix: false only where a light word was met. Words that begin at input 0 are enough,
/// as shifting the indices of an input shifts those of the output, and for an involution (Mx, x) is a word as well, so
/// that the second generator is the first one mirrored and need not be made.
pub fn may_be_mds(field: &Field, matrix: &Matrix) -> bool {
    let mirrored = Generator { outputs: matrix.order, ..Generator::by_inputs(matrix) };
    let mut walk = Walk::with(field, matrix, matrix.order, mirrored);
    walk.firsts = 1;
    walk.run().0 == matrix.order + 1
}

/// A quick look at a circulant matrix: false only where a light word was met. Words that begin at input 0 are enough, as
/// turning the places of an input turns those of the output. Words with more than half of the inputs are not looked at.
pub fn may_be_mds_circulant(field: &Field, matrix: &Matrix) -> bool {
    let mut walk = Walk::with(field, matrix, matrix.order, Generator::by_inputs(matrix));
    walk.firsts = 1;
    (1..=matrix.order / 2).all(|w| {
        walk.combine(0, w);
        walk.best > matrix.order
    })
}

/// A lightest word of a matrix that is not MDS.
pub fn lightest_word(field: &Field, matrix: &Matrix) -> Option<Word> {
    Walk::new(field, matrix, 1).run().1
}

const LENGTH: usize = 2 * MOST;

/// The n places of a word that hold no unit vector.
type Places = [u8; MOST];
type Free = [Places; MOST];

/// n lines that generate the code, with unit vectors in n places, of which `outputs` are output places.
struct Generator {
    lines: [[u8; LENGTH]; MOST],
    free: Free,
    outputs: usize,
}

impl Generator {
    /// Line j is the word of unit vector j: the unit vector, then column j of the matrix.
    fn by_inputs(matrix: &Matrix) -> Generator {
        let n = matrix.order;
        let mut lines = [[0; LENGTH]; MOST];
        for (j, line) in lines.iter_mut().enumerate().take(n) {
            line[j] = 1;
            (0..n).for_each(|i| line[n + i] = matrix.entries[i][j]);
        }
        let places: Vec<usize> = (n..2 * n).collect();
        Generator { lines, free: part(&lines, &places), outputs: 0 }
    }

    /// The same code with unit vectors in output places first, then in input places where the rank falls short.
    fn by_outputs(field: &Field, matrix: &Matrix) -> Generator {
        let n = matrix.order;
        let mut lines = Generator::by_inputs(matrix).lines;
        let mut pivots: Vec<usize> = Vec::new();
        for place in (n..2 * n).chain(0..n) {
            let done = pivots.len();
            if let Some(found) = (done..n).find(|&i| lines[i][place] != 0) {
                lines.swap(done, found);
                clear_place(field, &mut lines[..n], done, place);
                pivots.push(place);
            }
        }
        let places: Vec<usize> = (0..2 * n).filter(|p| !pivots.contains(p)).collect();
        let outputs = pivots.iter().filter(|&&p| p >= n).count();
        Generator { lines, free: part(&lines, &places), outputs }
    }
}

/// Scales line `pivot` to 1 at `place` and subtracts multiples of it until all other lines are 0 there.
fn clear_place(field: &Field, lines: &mut [[u8; LENGTH]], pivot: usize, place: usize) {
    let scale = field.inverse(lines[pivot][place]);
    let unit = lines[pivot].map(|a| field.product(a, scale));
    lines[pivot] = unit;
    for (i, line) in lines.iter_mut().enumerate() {
        let factor = line[place];
        if i != pivot && factor != 0 {
            line.iter_mut().zip(unit).for_each(|(a, u)| *a ^= field.product(factor, u));
        }
    }
}

/// The given places of each line.
fn part(lines: &[[u8; LENGTH]; MOST], places: &[usize]) -> Free {
    lines.map(|line| {
        let mut taken = [0; MOST];
        places.iter().enumerate().for_each(|(k, &p)| taken[k] = line[p]);
        taken
    })
}

fn zeros(places: &Places) -> usize {
    places.iter().filter(|&&a| a == 0).count()
}

/// The state of the walk: the least weight met, and a word that has it.
struct Walk<'a> {
    field: &'a Field,
    order: usize,
    generators: [Generator; 2],
    /// How many lines are tried as the first of a combination.
    firsts: usize,
    /// The generator that is walked, and the number of lines combined.
    walked: usize,
    lines: usize,
    coefficients: [u8; MOST],
    /// The walk ends as soon as the least weight is not above this.
    enough: usize,
    best: usize,
    word: Option<Word>,
    /// How many places each last coefficient makes 0; all 0 between two uses.
    votes: [u8; ALWAYS as usize + 1],
}

impl<'a> Walk<'a> {
    fn new(field: &'a Field, matrix: &Matrix, enough: usize) -> Walk<'a> {
        Walk::with(field, matrix, enough, Generator::by_outputs(field, matrix))
    }

    fn with(field: &'a Field, matrix: &Matrix, enough: usize, second: Generator) -> Walk<'a> {
        Walk {
            field,
            order: matrix.order,
            generators: [Generator::by_inputs(matrix), second],
            firsts: matrix.order,
            walked: 0,
            lines: 0,
            coefficients: [0; MOST],
            enough,
            best: matrix.order + 1,
            word: None,
            votes: [0; ALWAYS as usize + 1],
        }
    }

    fn run(mut self) -> (usize, Option<Word>) {
        let missing = self.order - self.generators[1].outputs;
        // For an involution both generators have the same lines: what one gives, the other gives mirrored.
        let same = missing == 0 && self.generators[0].free == self.generators[1].free;
        for w in 1..=self.order {
            self.combine(0, w);
            if self.ended(w + 1, w.saturating_sub(missing)) {
                break;
            }
            if !same {
                self.combine(1, w);
            }
            if self.ended(w + 1, (w + 1).saturating_sub(missing)) {
                break;
            }
        }
        (self.best, self.word)
    }

    /// A word not yet met has at least so many nonzero input and output words.
    fn ended(&self, inputs: usize, outputs: usize) -> bool {
        self.best <= self.enough || self.best <= inputs + outputs
    }

    /// All combinations of exactly w lines of a generator, the first coefficient being 1.
    fn combine(&mut self, generator: usize, w: usize) {
        (self.walked, self.lines) = (generator, w);
        let free = self.generators[generator].free;
        for first in 0..self.firsts.min(self.order - w + 1) {
            self.coefficients = [0; MOST];
            self.coefficients[first] = 1;
            match w {
                1 => self.meet(zeros(&free[first])),
                2 => (first + 1..self.order).for_each(|last| self.close_one(&free, &free[first], last)),
                _ => self.extend(&free, &free[first], first + 1, w - 1),
            }
            if self.best <= self.enough {
                return;
            }
        }
    }

    /// Adds `left` lines, two or more, from line `next` on, to the sum of those chosen.
    fn extend(&mut self, free: &Free, sum: &Places, next: usize, left: usize) {
        for line in next..=self.order - left {
            if left == 2 {
                (line + 1..self.order).for_each(|last| self.close_two(free, sum, line, last));
            } else {
                for c in 1..self.field.size as u16 {
                    self.coefficients[line] = c as u8;
                    let more = self.plus(sum, c as u8, &free[line]);
                    self.extend(free, &more, line + 1, left - 1);
                }
                self.coefficients[line] = 0;
            }
            if self.best <= self.enough {
                return;
            }
        }
    }

    /// Adds a last line.
    fn close_one(&mut self, free: &Free, sum: &Places, last: usize) {
        let (c, zeros) = self.best_coefficient(sum, &free[last]);
        self.coefficients[last] = c;
        self.meet(zeros);
        self.coefficients[last] = 0;
    }

    /// Adds a line and a last one. Some place is to be 0, and one where the last line is not 0: without such a
    /// place the word without the last line would be lighter, and it was met before.
    fn close_two(&mut self, free: &Free, sum: &Places, line: usize, last: usize) {
        for place in 0..self.order {
            let pivot = free[last][place];
            if pivot == 0 {
                continue;
            }
            let clearing = |v: u8| self.field.closing(pivot, v) as u8;
            let cleared_sum = self.plus(sum, clearing(sum[place]), &free[last]);
            let cleared_line = self.plus(&free[line], clearing(free[line][place]), &free[last]);
            let (c, zeros) = self.best_coefficient(&cleared_sum, &cleared_line);
            if self.weight(zeros) < self.best {
                self.coefficients[line] = c;
                self.coefficients[last] =
                    self.field.closing(pivot, self.plus(sum, c, &free[line])[place]) as u8;
                self.meet(zeros);
                self.coefficients[line] = 0;
                self.coefficients[last] = 0;
            }
        }
    }

    fn plus(&self, sum: &Places, c: u8, line: &Places) -> Places {
        std::array::from_fn(|k| sum[k] ^ self.field.product(c, line[k]))
    }

    /// The coefficient, not 0, with which the line makes most places 0, and how many.
    fn best_coefficient(&mut self, sum: &Places, line: &Places) -> (u8, usize) {
        let choices: [u16; MOST] = std::array::from_fn(|k| self.field.closing(line[k], sum[k]));
        let (mut coefficient, mut most) = (1, 0);
        for c in choices {
            let votes = &mut self.votes[c as usize];
            *votes += 1;
            if *votes > most && c != 0 && c != ALWAYS {
                (coefficient, most) = (c as u8, *votes);
            }
        }
        let always = self.votes[ALWAYS as usize];
        choices.iter().for_each(|&c| self.votes[c as usize] = 0);
        (coefficient, (most + always) as usize)
    }

    /// The weight of a combination with so many zeros in the free places. Places beyond the order are always 0.
    fn weight(&self, zeros: usize) -> usize {
        self.lines + MOST - zeros
    }

    /// The combination with the present coefficients: kept if lighter than all before.
    fn meet(&mut self, zeros: usize) {
        if self.weight(zeros) < self.best {
            self.best = self.weight(zeros);
            self.word = Some(self.current_word());
        }
    }

    fn current_word(&self) -> Word {
        let mut whole = [0; LENGTH];
        for (line, &c) in self.generators[self.walked].lines.iter().zip(&self.coefficients) {
            whole.iter_mut().zip(line).for_each(|(s, &a)| *s ^= self.field.product(c, a));
        }
        let (mut input, mut output) = ([0; MOST], [0; MOST]);
        input[..self.order].copy_from_slice(&whole[..self.order]);
        output[..self.order].copy_from_slice(&whole[self.order..2 * self.order]);
        (input, output)
    }
}

#[cfg(test)]
mod tests {
    use super::*;
    use crate::brute;

    #[test]
    fn branch_number_equals_the_definition_over_all_inputs() {
        brute::for_small_matrices(|field, matrix| {
            let expected = brute::branch_number(field, matrix);
            assert_eq!(branch_number(field, matrix), expected, "{matrix:?}");
            assert_eq!(is_mds(field, matrix), expected == matrix.order + 1);
        });
    }

    #[test]
    fn quick_look_at_hadamard_involutions_is_exact() {
        for polynomial in [11, 19, 25, 31] {
            let field = Field::new(polynomial);
            for row in brute::rows(&(1..8).collect::<Vec<u8>>(), 4)
                .filter(|row| row.iter().fold(1, |s, h| s ^ h) == 0)
            {
                let matrix = Matrix::hadamard(&row);
                assert_eq!(may_be_mds(&field, &matrix), is_mds(&field, &matrix), "{row:?}");
            }
        }
    }

    /// The quick look at a circulant matrix meets every word that has at most half of its inputs other than 0.
    #[test]
    fn quick_look_at_circulants_meets_the_light_words_of_few_inputs() {
        for (polynomial, order) in [(7, 2), (7, 3), (11, 3), (11, 4), (7, 5), (7, 6)] {
            let field = Field::new(polynomial);
            for row in brute::rows(&[0, 1, 2, 3], order) {
                let matrix = Matrix::circulant(&row);
                let light = brute::inputs(&field, order).skip(1).any(|input| {
                    let few = brute::weight(&input) <= order / 2;
                    few && brute::weight(&input) + brute::weight(&matrix.apply(&field, &input)) <= order
                });
                assert_eq!(may_be_mds_circulant(&field, &matrix), !light, "{row:?}");
            }
        }
    }

    #[test]
    fn lightest_word_has_the_branch_number_as_its_weight() {
        brute::for_small_matrices(|field, matrix| {
            let branch = branch_number(field, matrix);
            match lightest_word(field, matrix) {
                None => assert_eq!(branch, matrix.order + 1),
                Some((input, output)) => {
                    assert_eq!(matrix.apply(field, &input), output);
                    assert_ne!(input, [0; MOST]);
                    assert_eq!(brute::weight(&input) + brute::weight(&output), branch);
                }
            }
        });
    }

    #[test]
    fn known_matrices_of_order_eight() {
        let cases: [(u32, [u8; 8], bool); 5] = [
            (19, [2, 3, 4, 12, 5, 10, 8, 15], true),
            (19, [15, 2, 12, 5, 10, 4, 3, 8], true),
            (19, [2, 15, 12, 5, 10, 4, 3, 8], false),
            (285, [1, 3, 4, 5, 6, 8, 11, 7], true),
            (451, [1, 2, 3, 145, 4, 112, 5, 225], true),
        ];
        for (polynomial, row, mds) in cases {
            let field = Field::new(polynomial);
            let matrix = Matrix::hadamard(&row);
            assert_eq!(is_mds(&field, &matrix), mds);
            assert_eq!(branch_number(&field, &matrix) == 9, mds);
        }
    }

    #[test]
    fn order_eight_over_degree_eight_by_construction() {
        let field = Field::new(283);
        let identity = Matrix::from_entries(8, |i, j| (i == j) as u8);
        let zero = Matrix::from_entries(8, |_, _| 0);
        let ones = Matrix::from_entries(8, |_, _| 1);
        assert_eq!([identity, zero, ones].map(|m| branch_number(&field, &m)), [2, 1, 2]);
        // r lines of a Cauchy matrix, the other lines 0: all square blocks of the r lines are regular, so an input of
        // weight k makes at most k - 1 of them 0, and the branch number is r + 1.
        for r in 1..=8 {
            let cauchy = |i: usize, j: usize| field.inverse((i ^ (8 + j)) as u8);
            let matrix = Matrix::from_entries(8, |i, j| if i * 5 % 8 < r { cauchy(i, j) } else { 0 });
            assert_eq!(branch_number(&field, &matrix), r + 1);
        }
        // Two blocks side by side: the lesser of their branch numbers.
        let row = [1, 2, 141, 143];
        let blocks = Matrix::from_entries(8, |i, j| if i / 4 == j / 4 { row[i % 4 ^ j % 4] } else { 0 });
        assert_eq!(branch_number(&field, &blocks), 5);
    }
}
