//! Single calls of the library, one to a record of 88 bytes, and their answers of 52 bytes each. A number has four
//! bytes, the lowest first.
//!
//! | bytes of a record | what |
//! | --- | --- |
//! | 0 to 15 | four numbers: call, polynomial, order or first value, count or second value |
//! | 16 to 79 | the matrix, eight lines of eight; or the row; or the candidates |
//! | 80 to 87 | the input; or the row whose count is asked for; or the budget of a walk, a number of eight bytes |
//!
//! An answer holds 13 numbers: that of the refusal or 0, four values, and eight words; what a call does not yield is
//! 0, and beside a refusal all is 0. Candidates beyond the 64 that a record holds are 0. A walk yields finished, the rows
//! tried (which are below 2^32, as many as there may be candidates), the best row's count or 999999, the bound, and the row.

use crate::answer::{first_fault, zero_or_repeated, Refusal, NONE_YET};
use crate::circulant;
use crate::distance::branch_number;
use crate::field::{degree, irreducible, Field, Fields};
use crate::matrix::{line_count, Matrix, MOST};
use crate::search::{self, Found};
use crate::walk;

pub const RECORD: usize = 88;

/// The numbers of the calls.
pub const DEGREE: u32 = 1;
pub const PRODUCT: u32 = 2;
pub const INVERSE: u32 = 3;
pub const XOR_COUNT: u32 = 4;
pub const DETERMINANT: u32 = 5;
pub const BRANCH_NUMBER: u32 = 6;
pub const MDS: u32 = 7;
pub const INVOLUTION: u32 = 8;
pub const MATRIX_COUNT: u32 = 9;
pub const ROW_COUNT: u32 = 10;
pub const PLAIN: u32 = 11;
pub const HALVED: u32 = 12;
pub const CHECK: u32 = 13;
pub const SEARCH: u32 = 14;
pub const CIRCULANT: u32 = 15;
pub const WALK: u32 = 16;

/// A search: over a field, of an order, with candidates.
type Finder = fn(&Field, usize, &[u8]) -> Option<Found>;

/// A call and what it is given.
#[derive(Clone, Copy)]
pub struct Call {
    pub call: u32,
    pub polynomial: u32,
    pub first: u32,
    pub second: u32,
    pub entries: [u8; MOST * MOST],
    pub words: [u8; MOST],
}

/// What a call yields beside the number 0.
#[derive(Default, PartialEq, Eq, Debug)]
pub struct Yield {
    pub values: [u32; 4],
    pub words: [u8; MOST],
}

fn value(value: u32) -> Yield {
    Yield { values: [value, 0, 0, 0], ..Yield::default() }
}

fn words(words: [u8; MOST]) -> Yield {
    Yield { words, ..Yield::default() }
}

impl Call {
    pub fn read(record: &[u8; RECORD]) -> Call {
        let number = |at: usize| (0..4).rev().fold(0, |n, k| n << 8 | record[at + k] as u32);
        Call {
            call: number(0),
            polynomial: number(4),
            first: number(8),
            second: number(12),
            entries: record[16..80].try_into().unwrap(),
            words: record[80..].try_into().unwrap(),
        }
    }

    /// The lowest number that applies, or what the call yields. An unknown call yields nothing.
    pub fn answer(&self, fields: &mut Fields) -> Result<Yield, Refusal> {
        if !(DEGREE..=WALK).contains(&self.call) {
            return Ok(Yield::default());
        }
        match self.refusal() {
            Some(number) => Err(number),
            None => self.accepted(fields.of(self.polynomial)),
        }
    }

    fn refusal(&self) -> Option<Refusal> {
        first_fault(&[
            (3, &|| self.polynomial < 4 || self.polynomial > 511),
            (4, &|| !irreducible(self.polynomial)),
            (5, &|| self.orders().is_some_and(|orders| !orders.contains(&self.first))),
            (6, &|| self.most_candidates().is_some_and(|most| self.second < 1 || self.second > most)),
            (7, &|| self.values().iter().any(|&v| v >= 1 << degree(self.polynomial))),
            (8, &|| match self.call {
                INVERSE => self.first == 0,
                SEARCH | CIRCULANT | WALK => zero_or_repeated(&self.values()),
                _ => false,
            }),
        ])
    }

    /// The orders that a call takes, if it takes one.
    fn orders(&self) -> Option<&'static [u32]> {
        match self.call {
            DETERMINANT => Some(&[0, 1, 2, 3, 4, 5, 6, 7, 8]),
            HALVED => Some(&[2, 4, 8]),
            SEARCH | WALK => Some(&[4, 8]),
            CIRCULANT => Some(&[2, 3, 4, 5, 6, 7, 8]),
            BRANCH_NUMBER..=CHECK => Some(&[1, 2, 3, 4, 5, 6, 7, 8]),
            _ => None,
        }
    }

    /// How many candidates a call takes at most, if it takes some: 255 for order 4, 16 for order 8, 8 for a circulant matrix.
    fn most_candidates(&self) -> Option<u32> {
        match (self.call, self.first) {
            (SEARCH | WALK, 4) => Some(255),
            (SEARCH | WALK, _) => Some(16),
            (CIRCULANT, _) => Some(8),
            _ => None,
        }
    }

    /// The order, or the count of the candidates, where it is allowed.
    fn n(&self) -> usize {
        self.first as usize
    }

    /// The values that a call looks at, where its order and count are allowed.
    fn values(&self) -> Vec<u32> {
        let wide = |bytes: &[u8]| bytes.iter().map(|&v| v as u32).collect::<Vec<u32>>();
        let block = || (0..self.n()).flat_map(|i| wide(&self.entries[i * MOST..][..self.n()]));
        match self.call {
            PRODUCT => vec![self.first, self.second],
            INVERSE | XOR_COUNT => vec![self.first],
            DETERMINANT | BRANCH_NUMBER | MDS | INVOLUTION | MATRIX_COUNT | CHECK => block().collect(),
            ROW_COUNT => wide(&self.words[..self.n()]),
            PLAIN => block().chain(wide(&self.words[..self.n()])).collect(),
            HALVED => [wide(&self.entries[..self.n()]), wide(&self.words[..self.n()])].concat(),
            SEARCH | CIRCULANT | WALK => {
                (0..self.second as usize).map(|k| *self.entries.get(k).unwrap_or(&0) as u32).collect()
            }
            _ => Vec::new(),
        }
    }

    fn matrix(&self) -> Matrix {
        Matrix::from_entries(self.n(), |i, j| self.entries[i * MOST + j])
    }

    /// The words of the input that count; those behind them are not looked at.
    fn input(&self) -> [u8; MOST] {
        std::array::from_fn(|j| if j < self.n() { self.words[j] } else { 0 })
    }

    fn accepted(&self, field: &Field) -> Result<Yield, Refusal> {
        let is_mds = || branch_number(field, &self.matrix()) == self.n() + 1;
        Ok(match self.call {
            DEGREE => value(field.degree as u32),
            PRODUCT => value(field.product(self.first as u8, self.second as u8) as u32),
            INVERSE => value(field.inverse(self.first as u8) as u32),
            XOR_COUNT => value(field.xor_count(self.first as u8)),
            DETERMINANT => value(self.matrix().determinant(field) as u32),
            BRANCH_NUMBER => value(branch_number(field, &self.matrix()) as u32),
            MDS => value(is_mds() as u32),
            INVOLUTION => value(self.matrix().is_involution(field) as u32),
            MATRIX_COUNT => value(self.matrix().count(field)),
            ROW_COUNT => value(line_count(field, &self.words[..self.n()])),
            PLAIN => words(self.matrix().apply(field, &self.input())),
            HALVED => words(Matrix::hadamard(&self.entries[..self.n()]).apply(field, &self.input())),
            CHECK => self.check(field),
            CIRCULANT => self.search(field, circulant::lightest_row)?,
            WALK => self.walk(field)?,
            _ => self.search(field, search::lightest_row)?,
        })
    }

    fn check(&self, field: &Field) -> Yield {
        let matrix = self.matrix();
        let branch = branch_number(field, &matrix) as u32;
        let mds = (branch == self.first + 1) as u32;
        let values = [branch, mds, matrix.is_involution(field) as u32, matrix.count(field)];
        Yield { values, ..Yield::default() }
    }

    /// The sum of the row's element counts, and the row.
    fn search(&self, field: &Field, lightest_row: Finder) -> Result<Yield, Refusal> {
        let found = lightest_row(field, self.n(), &self.candidates()).ok_or(9u32)?;
        Ok(Yield { values: [found.sum, 0, 0, 0], words: eight(&found.row) })
    }

    fn walk(&self, field: &Field) -> Result<Yield, Refusal> {
        let budget = u64::from_le_bytes(self.words);
        let walked = walk::walk(field, self.n(), &self.candidates(), budget);
        let bound = walk::bound(field, self.n(), &self.candidates());
        let (count, words) = match walked.best {
            Some(found) => (line_count(field, &found.row), eight(&found.row)),
            None if walked.finished => return Err(9),
            None => (NONE_YET, [0; MOST]),
        };
        let tried = u32::try_from(walked.tried).unwrap();
        Ok(Yield { values: [walked.finished as u32, tried, count, bound], words })
    }

    fn candidates(&self) -> Vec<u8> {
        self.values().iter().map(|&v| v as u8).collect()
    }
}

/// A row, and zeros behind it.
fn eight(row: &[u8]) -> [u8; MOST] {
    std::array::from_fn(|j| *row.get(j).unwrap_or(&0))
}

/// The answer's record.
pub fn written(answer: Result<Yield, Refusal>) -> Vec<u8> {
    let (number, yielded) = match answer {
        Ok(yielded) => (0, yielded),
        Err(number) => (number, Yield::default()),
    };
    let words = yielded.words.map(u32::from);
    [number].iter().chain(&yielded.values).chain(&words).flat_map(|v| v.to_le_bytes()).collect()
}

#[cfg(test)]
mod tests {
    use super::*;

    fn call(call: u32, polynomial: u32, first: u32, second: u32) -> Call {
        Call { call, polynomial, first, second, entries: [0; 64], words: [0; 8] }
    }

    /// A call of order n on a matrix, its entries line by line, and an input.
    fn on_matrix(number: u32, polynomial: u32, n: usize, matrix: &[u8], input: &[u8]) -> Call {
        let mut c = call(number, polynomial, n as u32, 0);
        (0..n * n).for_each(|k| c.entries[k / n * 8 + k % n] = matrix[k]);
        c.words[..input.len()].copy_from_slice(input);
        c
    }

    fn on_row(number: u32, polynomial: u32, n: u32, row: &[u8], input: &[u8]) -> Call {
        let mut c = call(number, polynomial, n, row.len() as u32);
        c.entries[..row.len()].copy_from_slice(row);
        c.words[..input.len()].copy_from_slice(input);
        c
    }

    fn answer(c: Call) -> Result<Yield, Refusal> {
        c.answer(&mut Fields::default())
    }

    /// The one value of a call.
    fn one(c: Call) -> Result<u32, Refusal> {
        answer(c).map(|y| {
            assert_eq!(y, value(y.values[0]));
            y.values[0]
        })
    }

    #[test]
    fn calls_of_the_field() {
        assert_eq!([7, 19, 283].map(|p| one(call(DEGREE, p, 0, 0))), [Ok(2), Ok(4), Ok(8)]);
        assert_eq!([3, 512, 21, 511].map(|p| one(call(DEGREE, p, 0, 0))), [Err(3), Err(3), Err(4), Err(4)]);
        assert_eq!(
            [(2, 9), (8, 15), (0, 15)].map(|(a, b)| one(call(PRODUCT, 19, a, b))),
            [Ok(1), Ok(1), Ok(0)]
        );
        assert_eq!([(16, 1), (1, 65536)].map(|(a, b)| one(call(PRODUCT, 19, a, b))), [Err(7), Err(7)]);
        assert_eq!([2, 15, 0, 16].map(|a| one(call(INVERSE, 19, a, 0))), [Ok(9), Ok(8), Err(8), Err(7)]);
        assert_eq!([0, 3, 9, 16].map(|a| one(call(XOR_COUNT, 19, a, 0))), [Ok(0), Ok(5), Ok(1), Err(7)]);
    }

    #[test]
    fn determinants() {
        assert_eq!(one(on_matrix(DETERMINANT, 19, 2, &[2, 1, 1, 1], &[])), Ok(3));
        assert_eq!(one(on_matrix(DETERMINANT, 19, 0, &[], &[])), Ok(1));
        assert_eq!(one(on_matrix(DETERMINANT, 19, 1, &[16], &[])), Err(7));
        assert_eq!(one(call(DETERMINANT, 19, 9, 0)), Err(5));
    }

    #[test]
    fn calls_of_a_matrix() {
        let identity = [1, 0, 0, 1];
        let numbers = [BRANCH_NUMBER, MDS, INVOLUTION, MATRIX_COUNT];
        assert_eq!(numbers.map(|c| one(on_matrix(c, 7, 2, &identity, &[]))), [Ok(2), Ok(0), Ok(1), Ok(0)]);
        assert_eq!(answer(on_matrix(CHECK, 7, 2, &identity, &[])).unwrap().values, [2, 0, 1, 0]);
        let fips = [2, 3, 1, 1, 1, 2, 3, 1, 1, 1, 2, 3, 3, 1, 1, 2];
        assert_eq!(answer(on_matrix(CHECK, 283, 4, &fips, &[])).unwrap().values, [5, 1, 0, 152]);
        for c in BRANCH_NUMBER..=CHECK {
            assert_eq!([0, 9, 65537].map(|n| answer(call(c, 19, n, 0))), [Err(5), Err(5), Err(5)]);
        }
    }

    #[test]
    fn row_counts() {
        let row = |n, words: [u8; 8]| one(Call { words, ..call(ROW_COUNT, 19, n, 0) });
        assert_eq!(row(4, [1, 4, 9, 13, 0, 0, 0, 0]), Ok(18));
        assert_eq!(row(8, [1, 4, 9, 13, 0, 0, 0, 0]), Ok(18));
        assert_eq!([1, 8].map(|n| row(n, [0; 8])), [Ok(0), Ok(0)]);
        // What stands behind the row is not looked at.
        assert_eq!(row(1, [9, 16, 0, 0, 0, 0, 0, 0]), Ok(1));
        assert_eq!(row(2, [9, 16, 0, 0, 0, 0, 0, 0]), Err(7));
    }

    #[test]
    fn products_with_an_input() {
        // 2·1 + 3·2 = 4, 1·1 + 1·2 = 3
        assert_eq!(
            answer(on_matrix(PLAIN, 19, 2, &[2, 3, 1, 1], &[1, 2])),
            Ok(words([4, 3, 0, 0, 0, 0, 0, 0]))
        );
        assert_eq!(answer(on_matrix(PLAIN, 19, 2, &[2, 3, 1, 1], &[1, 16])), Err(7));
        // 2·1 + 3·2 = 4, 3·1 + 2·2 = 7
        assert_eq!(answer(on_row(HALVED, 19, 2, &[2, 3], &[1, 2])), Ok(words([4, 7, 0, 0, 0, 0, 0, 0])));
        assert_eq!(answer(on_row(HALVED, 19, 2, &[2, 3], &[1, 16])), Err(7));
        assert_eq!(
            [0, 1, 3, 5, 16].map(|n| answer(on_row(HALVED, 19, n, &[2], &[1]))),
            [const { Err(5) }; 5]
        );
    }

    #[test]
    fn searches() {
        let found = Yield { values: [6, 0, 0, 0], words: [1, 4, 9, 13, 0, 0, 0, 0] };
        assert_eq!(answer(on_row(SEARCH, 19, 4, &[1, 4, 9, 13], &[])), Ok(found));
        // 1 2 4 6 is as light and earlier, and deeper.
        let shallower = Yield { values: [12, 0, 0, 0], words: [1, 2, 13, 15, 0, 0, 0, 0] };
        assert_eq!(answer(on_row(SEARCH, 31, 4, &[1, 2, 4, 6, 13, 15], &[])), Ok(shallower));
        let refused = |n, row: &[u8]| answer(on_row(SEARCH, 19, n, row, &[])).unwrap_err();
        assert_eq!([refused(4, &[1, 2, 4, 8]), refused(2, &[]), refused(4, &[])], [9, 5, 6]);
        assert_eq!([refused(8, &[16; 17]), refused(8, &[16, 0, 0]), refused(4, &[4, 4])], [6, 7, 8]);
        // Candidates behind the 64 of a record are 0.
        assert_eq!([255, 256].map(|count| answer(call(SEARCH, 19, 4, count))), [Err(8), Err(6)]);
    }

    #[test]
    fn circulant_searches() {
        let found = Yield { values: [14, 0, 0, 0], words: [1, 1, 2, 3, 0, 0, 0, 0] };
        assert_eq!(answer(on_row(CIRCULANT, 283, 4, &[1, 2, 3], &[])), Ok(found));
        let refused = |n, row: &[u8]| answer(on_row(CIRCULANT, 7, n, row, &[])).unwrap_err();
        assert_eq!([refused(2, &[1]), refused(1, &[1]), refused(9, &[1]), refused(2, &[])], [9, 5, 5, 6]);
        assert_eq!(
            [refused(2, &[4; 9]), refused(2, &[4]), refused(2, &[0]), refused(2, &[2, 2])],
            [6, 7, 8, 8]
        );
    }

    #[test]
    fn walks() {
        let walk = |row: &[u8], budget: u64| answer(on_row(WALK, 19, 4, row, &budget.to_le_bytes()));
        let found = |finished, tried| {
            Ok(Yield { values: [finished, tried, 18, 18], words: [1, 4, 9, 13, 0, 0, 0, 0] })
        };
        assert_eq!(walk(&[1, 4, 9, 13], 1), found(0, 1));
        for budget in [24, 25, 1 << 32, u64::MAX] {
            assert_eq!(walk(&[1, 4, 9, 13], budget), found(1, 24));
        }
        let none = Yield { values: [0, 23, 999999, 18], words: [0; 8] };
        assert_eq!(walk(&[1, 2, 4, 8], 23), Ok(none));
        assert_eq!([walk(&[1, 2, 4, 8], 24), walk(&[1, 4, 9], 0)], [Err(9), Err(9)]);
        // The eight bytes are one number: 2^32 rows are more than there are.
        let fifteen: Vec<u8> = (1..16).collect();
        assert_eq!([1 << 32, 1 << 56].map(|b| walk(&fifteen, b).unwrap().values), [[1, 32760, 18, 16]; 2]);
        assert_eq!(walk(&fifteen, 256).unwrap().values[..2], [0, 256]);
        let refused = |n, row: &[u8]| answer(on_row(WALK, 19, n, row, &[])).unwrap_err();
        assert_eq!([refused(2, &[]), refused(4, &[]), refused(8, &[16; 17])], [5, 6, 6]);
        assert_eq!([refused(8, &[16, 0, 0]), refused(4, &[4, 4]), refused(4, &[4, 0])], [7, 8, 8]);
    }

    #[test]
    fn records() {
        let record: [u8; RECORD] = std::array::from_fn(|k| k as u8);
        let read = Call::read(&record);
        assert_eq!([read.call, read.polynomial], [0x03020100, 0x07060504]);
        assert_eq!([read.first, read.second], [0x0b0a0908, 0x0f0e0d0c]);
        assert_eq!((read.entries[0], read.entries[63], read.words[0], read.words[7]), (16, 79, 80, 87));
        assert_eq!(read.answer(&mut Fields::default()), Ok(Yield::default()));
        let told = written(Ok(Yield { values: [1, 2, 3, 0x01020304], words: [9; 8] }));
        assert_eq!(told[..20], [0, 0, 0, 0, 1, 0, 0, 0, 2, 0, 0, 0, 3, 0, 0, 0, 4, 3, 2, 1]);
        assert_eq!(told[20..], [9, 0, 0, 0].repeat(8));
        assert_eq!(written(Err(7)), [vec![7], vec![0; 51]].concat());
    }
}
