//! For the tests only: the definitions, word for word, over all inputs and all rows.

use crate::field::Field;
use crate::matrix::{Matrix, MOST};

/// Nonzero words.
pub fn weight(words: &[u8; MOST]) -> usize {
    words.iter().filter(|&&w| w != 0).count()
}

/// All inputs of a matrix of this order, 0 first.
pub fn inputs(field: &Field, order: usize) -> impl Iterator<Item = [u8; MOST]> {
    let (degree, mask) = (field.degree, field.size - 1);
    (0..1usize << (degree * order)).map(move |number| {
        let mut input = [0; MOST];
        (0..order).for_each(|j| input[j] = (number >> (degree * j) & mask) as u8);
        input
    })
}

/// The least, over all nonzero inputs, of nonzero input words plus nonzero output words.
pub fn branch_number(field: &Field, matrix: &Matrix) -> usize {
    inputs(field, matrix.order).skip(1).map(|x| weight(&x) + weight(&matrix.apply(field, &x))).min().unwrap()
}

/// The sum over all ways to choose a column for each line, each once, of the product of the entries there.
pub fn determinant(field: &Field, matrix: &Matrix) -> u8 {
    fn from(field: &Field, matrix: &Matrix, line: usize, taken: usize) -> u8 {
        if line == matrix.order {
            return 1;
        }
        let free = (0..matrix.order).filter(|&j| taken >> j & 1 == 0);
        free.fold(0, |sum, j| {
            sum ^ field.product(matrix.entries[line][j], from(field, matrix, line + 1, taken | 1 << j))
        })
    }
    from(field, matrix, 0, 0)
}

/// Used twice, the matrix gives every input back.
pub fn is_involution(field: &Field, matrix: &Matrix) -> bool {
    inputs(field, matrix.order).all(|x| matrix.apply(field, &matrix.apply(field, &x)) == x)
}

/// Every nonzero input and its output have more nonzero words than the order.
pub fn is_mds(field: &Field, matrix: &Matrix) -> bool {
    let light = |x: [u8; MOST]| weight(&x) + weight(&matrix.apply(field, &x)) <= matrix.order;
    !inputs(field, matrix.order).skip(1).any(light)
}

/// Both properties of a row, by their definitions.
pub fn is_good(field: &Field, row: &[u8]) -> bool {
    let matrix = Matrix::hadamard(row);
    is_mds(field, &matrix) && is_involution(field, &matrix)
}

/// The square blocks of a size: so many lines and columns of a matrix.
pub fn blocks(matrix: &Matrix, size: usize) -> impl Iterator<Item = Matrix> + '_ {
    let of_size = move |set: &usize| set.count_ones() as usize == size;
    let places =
        move |set: usize| (0..matrix.order).filter(move |k| set >> k & 1 == 1).collect::<Vec<usize>>();
    let choices: Vec<Vec<usize>> = (0..1 << matrix.order).filter(of_size).map(places).collect();
    (0..choices.len() * choices.len()).map(move |k| {
        let (lines, columns) = (&choices[k / choices.len()], &choices[k % choices.len()]);
        Matrix::from_entries(size, |i, j| matrix.entries[lines[i]][columns[j]])
    })
}

/// Every square block has a determinant other than 0.
pub fn all_blocks(field: &Field, matrix: &Matrix) -> bool {
    (1..=matrix.order).all(|size| blocks(matrix, size).all(|block| block.determinant(field) != 0))
}

/// All rows over the candidates, repeats allowed, in dictionary order where the candidates ascend.
pub fn rows(candidates: &[u8], order: usize) -> impl Iterator<Item = Vec<u8>> + '_ {
    let c = candidates.len();
    (0..c.pow(order as u32)).map(move |number| {
        let (mut row, mut rest) = (vec![0; order], number);
        for entry in row.iter_mut().rev() {
            *entry = candidates[rest % c];
            rest /= c;
        }
        row
    })
}

/// The depth of a line: for each output bit the inputs with one bit that set it are counted, and the least d with 2^d at
/// least that many is taken; of these the greatest.
pub fn depth(field: &Field, line: &[u8]) -> u32 {
    let matrix = Matrix::from_entries(line.len(), |i, j| if i == 0 { line[j] } else { 0 });
    let mut ones = [0; MOST];
    for (j, k) in (0..line.len()).flat_map(|j| (0..field.degree).map(move |k| (j, k))) {
        let mut input = [0; MOST];
        input[j] = 1 << k;
        let output = matrix.apply(field, &input)[0];
        (0..field.degree).for_each(|bit| ones[bit] += output as usize >> bit & 1);
    }
    ones.iter().map(|&t| (0..).find(|&d| 1 << d >= t).unwrap()).max().unwrap()
}

/// The sum of the elements' counts, the depth and the row: the smaller one is the better row.
pub type Key = (u32, u32, Vec<u8>);

pub fn key(field: &Field, row: &[u8]) -> Key {
    (row.iter().map(|&h| field.xor_count(h)).sum(), depth(field, row), row.to_vec())
}

/// Of all rows over the candidates that are good, the least by count, then by depth, then by dictionary order.
pub fn lightest_row(
    field: &Field,
    candidates: &[u8],
    order: usize,
    good: impl Fn(&[u8]) -> bool,
) -> Option<Key> {
    rows(candidates, order).filter(|row| good(row)).map(|row| key(field, &row)).min()
}

/// A sequence of numbers fixed by its start.
pub struct Sequence(pub u64);

impl Sequence {
    /// The next number below the limit.
    pub fn below(&mut self, limit: usize) -> usize {
        self.0 = self.0.wrapping_mul(6364136223846793005).wrapping_add(1442695040888963407);
        (self.0 >> 33) as usize % limit
    }
}

/// Runs a test on all matrices of order 1, all of order 2 over degrees 2 and 3, all of order 3 over degree 2, and
/// samples of all orders that can be walked: dense, sparse, of low rank and Hadamard.
pub fn for_small_matrices(test: impl Fn(&Field, &Matrix)) {
    for (polynomial, order) in [(7, 1), (11, 1), (31, 1), (283, 1), (7, 2), (11, 2), (13, 2), (7, 3)] {
        let field = Field::new(polynomial);
        let cells = (order * order) as u32;
        for number in 0..field.size.pow(cells) {
            let digit = |k: usize| (number / field.size.pow(k as u32) % field.size) as u8;
            test(&field, &Matrix::from_entries(order, |i, j| digit(i * order + j)));
        }
    }
    let samples = [
        (19, 2, 300),
        (283, 2, 30),
        (11, 3, 1000),
        (25, 3, 300),
        (37, 3, 30),
        (7, 4, 2000),
        (11, 4, 400),
        (13, 4, 400),
        (19, 4, 30),
        (7, 5, 600),
        (11, 5, 60),
        (7, 6, 200),
        (7, 7, 60),
        (7, 8, 30),
    ];
    let mut sequence = Sequence(1);
    for (polynomial, order, times) in samples {
        let field = Field::new(polynomial);
        for time in 0..times {
            test(&field, &sample(&field, order, time % 4, &mut sequence));
        }
    }
}

fn sample(field: &Field, order: usize, style: usize, sequence: &mut Sequence) -> Matrix {
    let mut random = [[0; MOST]; MOST];
    random.iter_mut().flatten().for_each(|cell| *cell = sequence.below(field.size) as u8);
    let keep = random.map(|line| line.map(|cell| cell & 1 == 1));
    match style {
        0 => Matrix::from_entries(order, |i, j| random[i][j]),
        1 => Matrix::from_entries(order, |i, j| if keep[j][i] { random[i][j] } else { 0 }),
        2 if order.is_power_of_two() => Matrix::hadamard(&random[0][..order]),
        _ => {
            // A product of an order × rank and a rank × order matrix.
            let rank = 1 + sequence.below(order);
            let entry = |i: usize, j: usize| {
                (0..rank).fold(0, |sum, k| sum ^ field.product(random[i][k], random[(j + k) % order][j]))
            };
            Matrix::from_entries(order, entry)
        }
    }
}
