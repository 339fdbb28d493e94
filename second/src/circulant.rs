//! The lightest MDS circulant row: every row over the candidates, repeats allowed, in dictionary order. Of the MDS ones the
//! one with the least count is kept, of equal counts the one with the least depth, of equal depths the first.
//!
//! Rows are walked entry by entry. A beginning is left early where nothing good and better can follow:
//!
//! - The count so far plus the least candidate count for each place left is above the best count; or it is the best count,
//!   and a row of that count with this beginning has at least the best depth, as in `search`.
//! - Even orders: the even lines and the even columns cut the circulant matrix of the entries 0, 2, ... out of the large one,
//!   the even lines and the odd columns that of the entries 1, 3, .... A light input of it, padded with zeros, is light for
//!   the large one. Which rows of half the order have such an input stands in a table.
//!
//! A row that is left is looked at quickly, first on inputs of weight 2, and, if no light input is met, judged by the whole
//! test. Where it has a light input, so have the rows that are turned from it: their matrices have the same lines.

use crate::distance::{is_mds, may_be_mds_circulant};
use crate::field::Field;
use crate::matrix::{Matrix, MOST};
use crate::search::{least_depth, ones_of, Found};
use std::cmp::Ordering::{Equal, Greater, Less};

/// The lightest row of order 2 to 8 over different nonzero candidates whose circulant matrix is MDS; of equal counts the
/// shallowest, of these the first in the dictionary.
pub fn lightest_row(field: &Field, order: usize, candidates: &[u8]) -> Option<Found> {
    Search::new(field, order, candidates, true).run()
}

/// The lightest MDS row that is first in the dictionary, whatever its depth: for telling where depth decides.
pub fn lightest_row_of_any_depth(field: &Field, order: usize, candidates: &[u8]) -> Option<Found> {
    Search::new(field, order, candidates, false).run()
}

/// Places of candidates; the place of a row in the dictionary is the number with these digits.
type Places = [usize; MOST];

struct Search<'a> {
    field: &'a Field,
    order: usize,
    /// The candidates in ascending order.
    candidates: Vec<u8>,
    /// The least candidate count.
    least: u32,
    /// For each candidate the ones of its output bits.
    ones: Vec<[u8; MOST]>,
    by_depth: bool,
    /// For even orders: whether a row of half the order may be MDS, by its place in the dictionary.
    good_halves: Vec<bool>,
    /// Whether a row is known to have a light input, by its place in the dictionary.
    bad: Vec<bool>,
    /// The places of the row's entries so far.
    chosen: Places,
    best: Option<Found>,
}

impl<'a> Search<'a> {
    fn new(field: &'a Field, order: usize, candidates: &[u8], by_depth: bool) -> Search<'a> {
        let mut candidates = candidates.to_vec();
        candidates.sort();
        let least = candidates.iter().map(|&h| field.xor_count(h)).min().unwrap_or(0);
        let ones = candidates.iter().map(|&h| ones_of(field, h)).collect();
        let good_halves = match order {
            2 | 4 | 6 | 8 => good_rows(field, order / 2, &candidates),
            _ => Vec::new(),
        };
        let bad = vec![false; candidates.len().pow(order as u32)];
        let chosen = [0; MOST];
        Search { field, order, candidates, least, ones, by_depth, good_halves, bad, chosen, best: None }
    }

    fn run(mut self) -> Option<Found> {
        self.extend(0, 0);
        self.best
    }

    /// All rows with the chosen beginning, so many entries.
    fn extend(&mut self, filled: usize, sum: u32) {
        for k in 0..self.candidates.len() {
            self.chosen[filled] = k;
            let sum = sum + self.field.xor_count(self.candidates[k]);
            if self.is_beaten(filled + 1, sum) || self.ends_bad_half(filled) {
                continue;
            }
            if filled + 1 == self.order {
                self.judge(sum);
            } else {
                self.extend(filled + 1, sum);
            }
        }
    }

    /// Whether every row with the chosen beginning is heavier than the best, or as heavy and not shallower. Rows walked
    /// later stand later in the dictionary.
    fn is_beaten(&self, filled: usize, sum: u32) -> bool {
        let least = sum + (self.order - filled) as u32 * self.least;
        self.best.as_ref().is_some_and(|best| match least.cmp(&best.sum) {
            Less => false,
            Equal => self.least_depth(filled, best.sum) >= best.depth,
            Greater => true,
        })
    }

    /// What the depth of a row with the chosen beginning and this sum of counts is at least, and of a whole row its depth.
    fn least_depth(&self, filled: usize, sum: u32) -> u32 {
        if !self.by_depth {
            return 0;
        }
        let beginning = self.chosen[..filled].iter().map(|&k| &self.ones[k]);
        least_depth(self.field.degree, self.order, beginning, sum)
    }

    /// Whether the entry at this place is the last of the even or of the odd ones, and these are no MDS row.
    fn ends_bad_half(&self, last: usize) -> bool {
        let is_last = !self.good_halves.is_empty() && last + 2 >= self.order;
        is_last && !self.good_halves[self.place((last % 2..=last).step_by(2))]
    }

    /// The place in the dictionary of the row with the chosen entries at these indices.
    fn place(&self, indices: impl Iterator<Item = usize>) -> usize {
        indices.fold(0, |place, i| place * self.candidates.len() + self.chosen[i])
    }

    fn judge(&mut self, sum: u32) {
        if self.bad[self.place(0..self.order)] {
            return;
        }
        let row: Vec<u8> = self.chosen[..self.order].iter().map(|&k| self.candidates[k]).collect();
        if may_be_good(self.field, &row) && is_mds(self.field, &Matrix::circulant(&row)) {
            self.best = Some(Found { sum, depth: self.least_depth(self.order, sum), row });
        } else {
            self.mark_turned();
        }
    }

    /// The row has a light input: notes it, and those that are turned from it.
    fn mark_turned(&mut self) {
        for turn in 0..self.order {
            let place = self.place((turn..self.order).chain(0..turn));
            self.bad[place] = true;
        }
    }
}

/// Whether a row may be MDS, for every row over the candidates in dictionary order.
fn good_rows(field: &Field, order: usize, candidates: &[u8]) -> Vec<bool> {
    let c = candidates.len();
    let entry = |place: usize, k: usize| candidates[place / c.pow((order - 1 - k) as u32) % c];
    let row = |place: usize| (0..order).map(|k| entry(place, k)).collect::<Vec<u8>>();
    (0..c.pow(order as u32)).map(|place| may_be_good(field, &row(place))).collect()
}

/// A quick look at a row: false only where a light input was met.
fn may_be_good(field: &Field, row: &[u8]) -> bool {
    !has_light_pair(field, row) && may_be_mds_circulant(field, &Matrix::circulant(row))
}

/// Whether an input of weight 2, with 1 and c at two words so far apart, has two zeros in its output: for some c, two lines are
/// closed by it.
fn has_light_pair(field: &Field, row: &[u8]) -> bool {
    let n = row.len();
    (1..=n / 2).any(|apart| {
        let mut seen = [false; 256];
        let closing = |k: usize| field.closing(row[(k + apart) % n], row[k]) as usize;
        (0..n).any(|k| std::mem::replace(&mut seen[closing(k)], true))
    })
}

#[cfg(test)]
mod tests {
    use super::*;
    use crate::brute;

    fn key(found: Option<Found>) -> Option<brute::Key> {
        found.map(|f| (f.sum, f.depth, f.row))
    }

    /// So many of these elements, or as many as there are, in an order that is drawn.
    fn draw(mut elements: Vec<u8>, how_many: usize, sequence: &mut brute::Sequence) -> Vec<u8> {
        let mut drawn = Vec::new();
        while drawn.len() < how_many && !elements.is_empty() {
            drawn.push(elements.swap_remove(sequence.below(elements.len())));
        }
        drawn
    }

    /// The elements with the count of one that is drawn: all rows over them have the same count.
    fn of_one_count(field: &Field, sequence: &mut brute::Sequence) -> Vec<u8> {
        let count = field.xor_count(1 + sequence.below(field.size - 1) as u8);
        (1..=(field.size - 1) as u8).filter(|&a| field.xor_count(a) == count).collect()
    }

    /// All rows over the candidates whose square blocks all have a determinant other than 0.
    fn by_blocks(field: &Field, candidates: &[u8], order: usize) -> Vec<brute::Key> {
        let good = |row: &Vec<u8>| brute::all_blocks(field, &Matrix::circulant(row));
        brute::rows(candidates, order).filter(good).map(|row| brute::key(field, &row)).collect()
    }

    #[test]
    fn every_set_of_candidates_over_degrees_two_and_three() {
        for (polynomial, order) in [(7, 2), (7, 3), (7, 4), (7, 5), (11, 2), (11, 3), (11, 4), (13, 4)] {
            let field = Field::new(polynomial);
            let all: Vec<u8> = (1..field.size as u8).collect();
            let is_good = |row: &Vec<u8>| brute::is_mds(&field, &Matrix::circulant(row));
            let good: Vec<Vec<u8>> = brute::rows(&all, order).filter(is_good).collect();
            for set in 1..1usize << all.len() {
                let candidates: Vec<u8> = all.iter().copied().filter(|h| set >> (h - 1) & 1 == 1).collect();
                let over = good.iter().filter(|row| row.iter().all(|h| candidates.contains(h)));
                let expected = over.map(|row| brute::key(&field, row)).min();
                assert_eq!(key(lightest_row(&field, order, &candidates)), expected, "{candidates:?}");
            }
        }
    }

    /// Few candidates, also fewer than the order. Of order 8 they are too few for an MDS row.
    #[test]
    fn every_order_against_all_rows() {
        let (mut sequence, mut found) = (brute::Sequence(7), [0; MOST + 1]);
        for (order, most) in [(2, 8), (3, 8), (4, 8), (5, 6), (6, 5), (7, 4), (8, 3)] {
            for polynomial in [7, 13, 25, 37, 91, 137, 285, 451] {
                let field = Field::new(polynomial);
                for how_many in 1..=most.min(field.size - 1) {
                    let candidates = draw((1..=(field.size - 1) as u8).collect(), how_many, &mut sequence);
                    let expected = by_blocks(&field, &candidates, order).into_iter().min();
                    found[order] += expected.is_some() as usize;
                    assert_eq!(key(lightest_row(&field, order, &candidates)), expected, "{candidates:?}");
                }
            }
        }
        assert!(found[2..MOST].iter().all(|&rows| rows > 0), "{found:?}");
    }

    /// All rows tie by their count: the row of least depth, and the first of any depth.
    #[test]
    fn ties_against_all_rows() {
        let (mut sequence, mut decided) = (brute::Sequence(8), 0);
        for (polynomial, order) in [(67, 2), (131, 2), (25, 3), (37, 3), (283, 3), (73, 4), (131, 4), (37, 5)]
        {
            let field = Field::new(polynomial);
            for _ in 0..40 {
                let alike = of_one_count(&field, &mut sequence);
                let candidates = draw(alike, 10 - order, &mut sequence);
                let keys = by_blocks(&field, &candidates, order);
                let best = keys.iter().min();
                assert_eq!(key(lightest_row(&field, order, &candidates)).as_ref(), best, "{candidates:?}");
                let first = keys.iter().map(|key| &key.2).min();
                let of_any_depth = lightest_row_of_any_depth(&field, order, &candidates);
                assert_eq!(of_any_depth.as_ref().map(|found| &found.row), first, "{candidates:?}");
                decided += (first != best.map(|key| &key.2)) as usize;
            }
        }
        assert!(decided > 20, "{decided}");
    }

    /// All 5^8 rows.
    #[test]
    fn order_eight_against_all_rows() {
        for (polynomial, candidates) in [(285, [40, 47, 65, 161, 255]), (445, [6, 55, 163, 176, 205])] {
            let field = Field::new(polynomial);
            let good = |row: &[u8]| is_mds(&field, &Matrix::circulant(row));
            let expected = brute::lightest_row(&field, &candidates, 8, good);
            assert!(expected.is_some());
            assert_eq!(key(lightest_row(&field, 8, &candidates)), expected, "{candidates:?}");
        }
    }

    /// No row that is MDS is left for a quick look, for its halves or for a row that is turned from it.
    #[test]
    fn early_exits_leave_every_mds_row() {
        let mut good = 0;
        for (polynomial, order, most) in [(11, 4, 7), (19, 4, 15), (37, 5, 6), (67, 6, 5), (131, 7, 4)] {
            let field = Field::new(polynomial);
            for row in brute::rows(&(1..=most).collect::<Vec<u8>>(), order) {
                if is_mds(&field, &Matrix::circulant(&row)) {
                    good += 1;
                    assert!(may_be_good(&field, &row), "{row:?}");
                    let half = |from: usize| row.iter().copied().skip(from).step_by(2).collect::<Vec<u8>>();
                    assert!(order % 2 == 1 || (0..2).all(|from| may_be_good(&field, &half(from))), "{row:?}");
                    let turned = [&row[1..], &row[..1]].concat();
                    assert!(is_mds(&field, &Matrix::circulant(&turned)), "{row:?}");
                }
            }
        }
        assert!(good > 1000, "{good}");
    }

    #[test]
    fn no_mds_row_is_noted_as_bad() {
        for (polynomial, order, most) in [(19, 4, 8), (37, 5, 6), (67, 6, 5), (131, 7, 4)] {
            let (field, candidates) = (Field::new(polynomial), (1..=most).collect::<Vec<u8>>());
            let mut search = Search::new(&field, order, &candidates, true);
            search.extend(0, 0);
            for (place, row) in brute::rows(&candidates, order).enumerate() {
                assert!(!search.bad[place] || !is_mds(&field, &Matrix::circulant(&row)), "{row:?}");
            }
            assert!(search.bad.contains(&true));
        }
    }

    #[test]
    fn light_pairs_are_the_singular_blocks_of_two_lines() {
        for (polynomial, order) in [(11, 2), (11, 3), (19, 4), (37, 5), (67, 6)] {
            let field = Field::new(polynomial);
            for row in brute::rows(&[1, 2, 3, 5, 7], order) {
                let matrix = Matrix::circulant(&row);
                let singular = brute::blocks(&matrix, 2).any(|block| block.determinant(&field) == 0);
                assert_eq!(has_light_pair(&field, &row), singular, "{row:?}");
            }
        }
    }

    /// Of order 2 there is one over 7, and from order 3 on none.
    #[test]
    fn mds_involutions() {
        let both = |field: &Field, row: &[u8]| {
            let matrix = Matrix::circulant(row);
            matrix.is_involution(field) && is_mds(field, &matrix)
        };
        assert!(both(&Field::new(7), &[2, 3]));
        for (polynomial, order) in
            [(7, 3), (11, 3), (19, 3), (37, 3), (7, 4), (11, 4), (19, 4), (7, 5), (11, 5), (7, 6)]
        {
            let field = Field::new(polynomial);
            let all: Vec<u8> = (1..field.size as u8).collect();
            assert!(
                !brute::rows(&all, order).any(|row| both(&field, &row)),
                "order {order} over {polynomial}"
            );
        }
    }

    #[test]
    fn order_of_the_candidates_does_not_matter() {
        let field = Field::new(67);
        let mut candidates = [7, 1, 33, 2, 61, 17, 5, 40];
        let expected = lightest_row(&field, 5, &candidates);
        assert!(expected.is_some());
        for _ in 0..8 {
            candidates.rotate_left(1);
            assert_eq!(lightest_row(&field, 5, &candidates), expected);
            candidates.swap(2, 5);
        }
    }
}
