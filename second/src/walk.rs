//! The best row yet: rows of different candidates, tried one by one in dictionary order until a budget is spent or none
//! is left. Each one tried counts, whatever comes of it.
//!
//! Rows are walked entry by entry, over a chain of the candidates that are not yet placed: an entry that is placed is
//! taken out of the chain and put back behind its rows. No row is left out of the walk; a row is looked at only where it
//! can be good and better than the best so far:
//!
//! - The exclusive or of the row of an involution is 1: of the rows with the same beginning, only the one with the last
//!   entry that makes it so.
//! - Order 8: a row with four entries on an index plane that give no MDS matrix (see `search`) is not MDS.
//! - It counts less than the best, or as much and is shallower: rows walked later stand later in the dictionary.
//!
//! What is left is looked at quickly, by elimination, and if no singular block is met judged by the branch number. An
//! affine map of the indices permutes the lines and the columns of a Hadamard matrix of order 8 and leaves its branch
//! number: a verdict is kept for the rows that such maps take to one another.

use crate::distance::is_mds;
use crate::field::Field;
use crate::matrix::{depth_of, line_count, Matrix, MOST};
use crate::search::{good_fours, ones_of, planes_ending, Found, PLANES};
use std::collections::HashMap;
use std::hash::{BuildHasherDefault, Hasher};

/// How far a walk came.
#[derive(Clone, PartialEq, Eq, Debug)]
pub struct Walked {
    /// Every row of different candidates was tried.
    pub finished: bool,
    pub tried: u64,
    /// Of the rows tried that are MDS and involutions: the least count, then the least depth, then the first.
    pub best: Option<Found>,
}

/// The walk of order 4 or 8 over different nonzero candidates that tries so many rows, or all if there are fewer.
pub fn walk(field: &Field, order: usize, candidates: &[u8], budget: u64) -> Walked {
    Walk::new(field, order, candidates, budget, true).run()
}

/// The same, its best row the lightest that comes first, whatever its depth: for telling where depth decides.
pub fn walk_of_any_depth(field: &Field, order: usize, candidates: &[u8], budget: u64) -> Walked {
    Walk::new(field, order, candidates, budget, false).run()
}

/// The count of the lightest candidates as a row, as many as the order: no row of different candidates counts less.
pub fn bound(field: &Field, order: usize, candidates: &[u8]) -> u32 {
    let mut lightest = candidates.to_vec();
    lightest.sort_by_key(|&h| field.xor_count(h));
    line_count(field, &lightest[..order.min(candidates.len())])
}

/// A candidate's place, where there is none.
const NO_PLACE: usize = 256;

struct Walk<'a> {
    field: &'a Field,
    order: usize,
    /// The candidates in ascending order, and their counts and the ones of their output bits.
    candidates: Vec<u8>,
    counts: Vec<u32>,
    ones: Vec<[u8; MOST]>,
    /// `place[h]` is the place of h among the candidates.
    place: [usize; 256],
    /// The places that are free, ascending: behind place k comes `next[k]`, and `next[c]` is the first of c places; c ends it.
    next: [usize; 256],
    by_depth: bool,
    good_fours: Vec<bool>,
    chosen: [usize; MOST],
    /// How many rows may still be tried, and whether there was one that might not.
    left: u64,
    stopped: bool,
    best: Option<Found>,
    verdicts: Verdicts,
}

impl<'a> Walk<'a> {
    fn new(field: &'a Field, order: usize, candidates: &[u8], budget: u64, by_depth: bool) -> Walk<'a> {
        let mut candidates = candidates.to_vec();
        candidates.sort();
        let mut place = [NO_PLACE; 256];
        candidates.iter().enumerate().for_each(|(k, &h)| place[h as usize] = k);
        let c = candidates.len();
        let next = std::array::from_fn(|k| if k < c { k + 1 } else { 0 });
        let counts = candidates.iter().map(|&h| field.xor_count(h)).collect();
        let ones = candidates.iter().map(|&h| ones_of(field, h)).collect();
        let good_fours = if order == 8 { good_fours(field, &candidates) } else { Vec::new() };
        let verdicts = Verdicts::default();
        let (chosen, left, stopped, best) = ([0; MOST], budget, false, None);
        Walk {
            field,
            order,
            candidates,
            counts,
            ones,
            place,
            next,
            by_depth,
            good_fours,
            chosen,
            left,
            stopped,
            best,
            verdicts,
        }
    }

    fn run(mut self) -> Walked {
        let budget = self.left;
        if self.candidates.len() >= self.order {
            self.extend(0, 0, 1, true, 0);
        }
        Walked { finished: !self.stopped, tried: budget - self.left, best: self.best }
    }

    /// All rows with the chosen beginning, so many entries; `rest` is what the entries left sum to in an involution, and
    /// `hopeful` is false where none of the rows is MDS.
    fn extend(&mut self, filled: usize, sum: u32, rest: u8, hopeful: bool, planes_from: usize) {
        if filled + 1 == self.order {
            self.try_rows(filled, sum, rest, hopeful, planes_from);
            return;
        }
        let end = self.candidates.len();
        let (mut before, mut k) = (end, self.next[end]);
        while k != end && !self.stopped {
            self.chosen[filled] = k;
            let (planes_to, hopeful) = self.planes(planes_from, filled, hopeful);
            self.next[before] = self.next[k];
            self.extend(filled + 1, sum + self.counts[k], rest ^ self.candidates[k], hopeful, planes_to);
            self.next[before] = k;
            (before, k) = (k, self.next[k]);
        }
    }

    /// Tries the rows with all entries chosen but the last, one after the other.
    fn try_rows(&mut self, filled: usize, sum: u32, rest: u8, hopeful: bool, planes_from: usize) {
        let end = self.candidates.len();
        let last = if hopeful { self.place[rest as usize] } else { NO_PLACE };
        let mut k = self.next[end];
        while k != end {
            if self.left == 0 {
                self.stopped = true;
                return;
            }
            self.left -= 1;
            if k == last {
                self.chosen[filled] = k;
                if self.planes(planes_from, filled, true).1 {
                    self.judge(sum + self.counts[k]);
                }
            }
            k = self.next[k];
        }
    }

    /// Behind the planes that end at this index, and whether there is still hope after them.
    fn planes(&self, from: usize, index: usize, hopeful: bool) -> (usize, bool) {
        if self.order != 8 {
            return (from, hopeful);
        }
        let to = from + planes_ending(&PLANES[from..], index);
        let set = |plane: &[usize; 4]| plane.iter().fold(0, |set, &i| set | 1 << self.chosen[i]);
        (to, hopeful && PLANES[from..to].iter().all(|plane| self.good_fours[set(plane)]))
    }

    /// A row whose sum is 1 and whose planes are good: the best from now on, if it is better and MDS.
    fn judge(&mut self, sum: u32) {
        let depth = self.depth();
        let is_better = |best: &Found| (sum, depth) < (best.sum, best.depth);
        if self.best.as_ref().is_none_or(is_better) && self.is_mds() {
            let row = self.chosen[..self.order].iter().map(|&k| self.candidates[k]).collect();
            self.best = Some(Found { sum, depth, row });
        }
    }

    /// The depth of the row; 0 where it does not count.
    fn depth(&self) -> u32 {
        if !self.by_depth {
            return 0;
        }
        let mut ones = [0; MOST];
        for &k in &self.chosen[..self.order] {
            ones.iter_mut().zip(self.ones[k]).for_each(|(total, more)| *total += more);
        }
        depth_of(ones.into_iter().max().unwrap_or(0).into())
    }

    fn is_mds(&mut self) -> bool {
        let (field, candidates) = (self.field, &self.candidates);
        let judged = |places: &[usize]| {
            let row: Vec<u8> = places.iter().map(|&k| candidates[k]).collect();
            let matrix = Matrix::hadamard(&row);
            !has_singular_block(field, &matrix) && is_mds(field, &matrix) && matrix.is_involution(field)
        };
        if self.order != 8 {
            return judged(&self.chosen[..self.order]);
        }
        let moved = affine_first(&self.chosen);
        let key = moved.iter().fold(0, |key, &k| key << 4 | k as u32);
        *self.verdicts.entry(key).or_insert_with(|| judged(&moved))
    }
}

/// Whether a Hadamard matrix has a singular square block in as many lines as half the order, or fewer. A block with column 0
/// among its columns is enough, as shifting the indices of lines and columns leaves its entries. An involution with a
/// larger singular block has a smaller one: the block of the other lines and columns, turned over.
fn has_singular_block(field: &Field, matrix: &Matrix) -> bool {
    let size = matrix.order / 2;
    (0..matrix.order).any(|line| is_singular_from(field, matrix, line, 0, size))
}

/// Whether a block of at most this size is singular whose first line and column are these. The matrix has been reduced by the
/// lines and columns before: an entry in the place of the next pivot is 0 exactly where the block up to it is singular.
fn is_singular_from(field: &Field, matrix: &Matrix, line: usize, column: usize, size: usize) -> bool {
    let pivot = matrix.entries[line][column];
    if pivot == 0 || size == 1 {
        return pivot == 0;
    }
    let inverse = field.inverse(pivot);
    let mut reduced = *matrix;
    for i in line + 1..matrix.order {
        let factor = field.product(matrix.entries[i][column], inverse);
        for j in column + 1..matrix.order {
            reduced.entries[i][j] ^= field.product(factor, matrix.entries[line][j]);
        }
    }
    let behind = |at: usize| at + 1..matrix.order;
    behind(line).any(|i| behind(column).any(|j| is_singular_from(field, &reduced, i, j, size - 1)))
}

/// The row moved by the affine map of its indices that brings its least entry to 0, the next two to 1 and 2, and of those
/// that are then outside the plane of these the least to 4. Rows that affine maps take to one another have the same one.
fn affine_first(row: &[usize; MOST]) -> [usize; MOST] {
    let least = |at: &dyn Fn(&usize) -> bool| (0..MOST).filter(at).min_by_key(|&i| row[i]).unwrap();
    let zero = least(&|_| true);
    let one = least(&|i| *i != zero);
    let two = least(&|i| ![zero, one].contains(i));
    let four = least(&|i| ![zero, one, two, zero ^ one ^ two].contains(i));
    let image = |bit: usize, index: usize| if bit != 0 { zero ^ index } else { 0 };
    std::array::from_fn(|i| row[zero ^ image(i & 1, one) ^ image(i & 2, two) ^ image(i & 4, four)])
}

/// By the eight places of a row, four bits each: whether it is good.
type Verdicts = HashMap<u32, bool, BuildHasherDefault<Spread>>;

/// Spreads a number over 64 bits.
#[derive(Default)]
struct Spread(u64);

impl Hasher for Spread {
    fn write(&mut self, bytes: &[u8]) {
        bytes.iter().for_each(|&byte| self.write_u32(byte.into()));
    }

    fn write_u32(&mut self, number: u32) {
        self.0 = (self.0 ^ u64::from(number)).wrapping_mul(0x9e37_79b9_7f4a_7c15).rotate_left(26);
    }

    fn finish(&self) -> u64 {
        self.0
    }
}

#[cfg(test)]
mod tests {
    use super::*;
    use crate::brute;
    use crate::search::lightest_row;

    /// The rows of different candidates, in dictionary order where the candidates ascend: each candidate, and behind it the
    /// rows over the others.
    fn rows(candidates: &[u8], order: usize) -> Vec<Vec<u8>> {
        if order == 0 {
            return vec![Vec::new()];
        }
        let behind = |k: usize| rows(&[&candidates[..k], &candidates[k + 1..]].concat(), order - 1);
        let with = |k: usize, rest: Vec<u8>| [&candidates[k..k + 1], &rest].concat();
        (0..candidates.len()).flat_map(|k| behind(k).into_iter().map(move |rest| with(k, rest))).collect()
    }

    /// By the number of rows tried, from 0 on: the best of them by the definitions.
    fn best_yet(field: &Field, rows: &[Vec<u8>], good: impl Fn(&[u8]) -> bool) -> Vec<Option<brute::Key>> {
        let mut best = vec![None];
        for row in rows {
            let key = Some(row).filter(|row| good(row)).map(|row| brute::key(field, row));
            let before: &Option<brute::Key> = &best[best.len() - 1];
            best.push(before.iter().chain(&key).min().cloned());
        }
        best
    }

    /// Walks with these budgets, against the best of the rows tried.
    fn check(
        field: &Field,
        order: usize,
        candidates: &[u8],
        best: &[Option<brute::Key>],
        budgets: impl IntoIterator<Item = u64>,
    ) {
        let all = best.len() as u64 - 1;
        for budget in budgets {
            let walked = walk(field, order, candidates, budget);
            let tried = budget.min(all);
            assert_eq!((walked.finished, walked.tried), (budget >= all, tried), "{candidates:?}, {budget}");
            let key = walked.best.map(|found| (found.sum, found.depth, found.row));
            assert_eq!(key, best[tried as usize], "{candidates:?}, {budget}");
        }
    }

    /// The elements whose bits are set in the number, the largest first.
    fn subset(number: usize) -> Vec<u8> {
        (0..16).rev().filter(|k| number >> k & 1 == 1).map(|k| k as u8 + 1).collect()
    }

    fn ascending(candidates: &[u8]) -> Vec<u8> {
        let mut candidates = candidates.to_vec();
        candidates.sort();
        candidates
    }

    #[test]
    fn as_many_rows_as_choices_one_after_the_other() {
        let field = Field::new(19);
        for (order, c) in (0..16).map(|c| (4, c)).chain((0..10).map(|c| (8, c))) {
            let candidates: Vec<u8> = (1..=c).collect();
            let all = (0..order as u64).map(|k| u64::from(c).saturating_sub(k)).product::<u64>();
            let walked = walk(&field, order, &candidates, u64::MAX);
            assert_eq!((walked.finished, walked.tried), (true, all), "{c} at order {order}");
        }
        let differ = |row: &Vec<u8>| row.iter().enumerate().all(|(k, h)| !row[..k].contains(h));
        for c in 0..7 {
            let candidates: Vec<u8> = (1..=c).collect();
            let expected: Vec<Vec<u8>> = brute::rows(&candidates, 4).filter(differ).collect();
            assert_eq!(rows(&candidates, 4), expected);
        }
        assert_eq!(rows(&[1, 2, 3, 4, 5], 4)[..3], [[1, 2, 3, 4], [1, 2, 3, 5], [1, 2, 4, 3]]);
    }

    #[test]
    fn order_four_over_degrees_two_and_three_every_set_and_budget() {
        for polynomial in [7, 11, 13] {
            let field = Field::new(polynomial);
            let every: Vec<u8> = (1..field.size as u8).collect();
            let good: Vec<Vec<u8>> =
                rows(&every, 4).into_iter().filter(|row| brute::is_good(&field, row)).collect();
            assert_eq!(good.is_empty(), polynomial == 7);
            for set in 1..1usize << (field.size - 1) {
                let candidates = subset(set);
                let tried = rows(&ascending(&candidates), 4);
                let best = best_yet(&field, &tried, |row| good.iter().any(|g| g == row));
                check(&field, 4, &candidates, &best, 0..best.len() as u64 + 2);
            }
        }
    }

    /// Over 31 the best row changes three times; some of the sets have no good row.
    #[test]
    fn order_four_over_degree_four_every_budget() {
        let briefs: [(u32, &[u8]); 7] = [
            (19, &[1, 4, 9, 13]),
            (19, &[1, 2, 4, 8]),
            (19, &[13, 9, 4, 1, 2, 3]),
            (25, &[1, 2, 3, 4, 5, 6, 7]),
            (31, &[15, 13, 6, 4, 2, 1]),
            (31, &[1, 2, 4, 6, 8, 10, 12]),
            (31, &[3, 5, 7, 9, 11, 12, 14]),
        ];
        for (polynomial, candidates) in briefs {
            let field = Field::new(polynomial);
            let tried = rows(&ascending(candidates), 4);
            let best = best_yet(&field, &tried, |row| {
                row.iter().fold(1, |sum, h| sum ^ h) == 0 && brute::is_good(&field, row)
            });
            check(&field, 4, candidates, &best, 0..best.len() as u64 + 2);
        }
    }

    /// Count before depth: a deeper row that is lighter comes in the place of a shallower one.
    #[test]
    fn order_four_over_degree_six_every_budget() {
        for candidates in [[1, 8, 16, 24, 49, 57], [1, 8, 33, 41, 49, 57]] {
            let field = Field::new(67);
            let good = |row: &[u8]| is_mds(&field, &Matrix::hadamard(row)) && is_involution(&field, row);
            let best = best_yet(&field, &rows(&candidates, 4), good);
            let mut changes: Vec<&brute::Key> = best.iter().flatten().collect();
            changes.dedup();
            assert!(changes.windows(2).any(|pair| pair[1].1 > pair[0].1));
            check(&field, 4, &candidates, &best, 0..best.len() as u64 + 2);
        }
    }

    /// Over 31, 1 2 4 6 is the first row of 360, and 1 2 13 15, which is as light and shallower, the ninth.
    #[test]
    fn where_depth_does_not_count_the_first_of_the_lightest_is_best() {
        let (field, candidates) = (Field::new(31), [15, 13, 6, 4, 2, 1]);
        for (budget, best) in
            [(1, [1, 2, 4, 6]), (8, [1, 2, 4, 6]), (9, [1, 2, 13, 15]), (360, [1, 2, 13, 15])]
        {
            let of_any_depth = walk_of_any_depth(&field, 4, &candidates, budget);
            assert_eq!(of_any_depth.best.unwrap().row, [1, 2, 4, 6]);
            assert_eq!(walk(&field, 4, &candidates, budget).best.unwrap().row, best);
        }
    }

    fn is_involution(field: &Field, row: &[u8]) -> bool {
        Matrix::hadamard(row).is_involution(field)
    }

    /// Every row is judged by its own branch number: no planes, and no verdict of another row.
    #[test]
    fn order_eight_against_all_rows() {
        let briefs: [(u32, [u8; 8]); 3] = [
            (19, [2, 3, 4, 5, 8, 10, 12, 15]),
            (67, [17, 19, 21, 27, 23, 28, 24, 30]),
            (37, [16, 17, 18, 19, 20, 21, 24, 28]),
        ];
        for (polynomial, candidates) in briefs {
            let field = Field::new(polynomial);
            let tried = rows(&ascending(&candidates), 8);
            let good = |row: &[u8]| is_involution(&field, row) && is_mds(&field, &Matrix::hadamard(row));
            let best = best_yet(&field, &tried, good);
            let changes = (1..best.len()).filter(|&k| best[k] != best[k - 1]);
            let near = changes.flat_map(|k| [k as u64 - 1, k as u64, k as u64 + 1]);
            check(&field, 8, &candidates, &best, near.chain([0, 1, 5040, 40319, 40320, 40321, u64::MAX]));
        }
    }

    /// Nine candidates, of which eight sum to 1: most beginnings have no row with that sum.
    #[test]
    fn order_eight_with_a_candidate_to_spare() {
        let field = Field::new(19);
        let candidates = [2, 3, 4, 5, 7, 8, 10, 12, 15];
        let tried = rows(&candidates, 8);
        let good = |row: &[u8]| is_involution(&field, row) && is_mds(&field, &Matrix::hadamard(row));
        let best = best_yet(&field, &tried, good);
        assert!(best[best.len() - 1].is_some());
        let mut sequence = brute::Sequence(7);
        let drawn: Vec<u64> = (0..20).map(|_| sequence.below(best.len()) as u64).collect();
        let changes = (1..best.len()).filter(|&k| best[k] != best[k - 1]).map(|k| k as u64);
        check(&field, 8, &candidates, &best, changes.flat_map(|k| [k - 1, k]).chain(drawn).chain([362880]));
    }

    #[test]
    fn a_finished_walk_has_the_row_of_the_search() {
        let mut sequence = brute::Sequence(11);
        let mut without = 0;
        for polynomial in [19, 25, 31, 37, 61, 67, 91, 131, 137, 283, 285, 415, 451] {
            let field = Field::new(polynomial);
            for (order, c) in [(4, 4), (4, 8), (4, 15), (8, 8), (8, 9)] {
                let mut candidates = Vec::new();
                while candidates.len() < c {
                    let h = 1 + sequence.below(field.size - 1) as u8;
                    if !candidates.contains(&h) {
                        candidates.push(h);
                    }
                }
                let walked = walk(&field, order, &candidates, u64::MAX);
                assert_eq!(walked.best, lightest_row(&field, order, &candidates), "{candidates:?}");
                without += walked.best.is_none() as usize;
            }
        }
        assert!((5..60).contains(&without), "{without}");
        // Depth decides, between sets of eight as light.
        for (polynomial, ten) in [
            (299, [3, 45, 72, 75, 76, 99, 113, 215, 233, 248]),
            (355, [2, 45, 77, 88, 101, 129, 143, 167, 169, 186]),
        ] {
            let field = Field::new(polynomial);
            let walked = walk(&field, 8, &ten, 1814400);
            assert_eq!((walked.finished, walked.tried), (true, 1814400));
            assert_eq!(walked.best, lightest_row(&field, 8, &ten));
        }
    }

    #[test]
    fn the_bound_is_the_count_of_the_lightest_row_whether_it_is_good_or_not() {
        for (polynomial, candidates) in [
            (19, &[15, 14, 13, 12, 1, 2, 3][..]),
            (31, &[1, 2, 4, 6]),
            (31, &[7, 6, 5, 4, 3, 2, 1]),
            (283, &[255, 1, 128, 141, 3, 9, 77]),
        ] {
            let field = Field::new(polynomial);
            let counts = rows(candidates, 4).into_iter().map(|row| line_count(&field, &row));
            assert_eq!(bound(&field, 4, candidates), counts.min().unwrap(), "{candidates:?}");
        }
        let field = Field::new(19);
        let fifteen: Vec<u8> = (1..16).rev().collect();
        assert_eq!([4, 8].map(|order| bound(&field, order, &fifteen)), [16, 48]);
    }

    /// Of rows with the sum 1; over degree 4 some are MDS, over the larger degrees more.
    #[test]
    fn a_matrix_without_a_singular_block_of_half_the_order_is_mds() {
        let (mut sequence, mut good, mut times) = (brute::Sequence(5), [0; 2], 0);
        for polynomial in [11, 19, 25, 37, 67, 131, 283, 285, 451] {
            let field = Field::new(polynomial);
            for time in 0..400 {
                let order = if time % 2 == 0 { 4 } else { 8 };
                let mut row: Vec<u8> = (1..order).map(|_| 1 + sequence.below(field.size - 1) as u8).collect();
                row.push(row.iter().fold(1, |sum, h| sum ^ h));
                let matrix = Matrix::hadamard(&row);
                let expected = is_mds(&field, &matrix);
                assert_eq!(!has_singular_block(&field, &matrix), expected, "{row:?} over {polynomial}");
                assert_eq!(expected, brute::all_blocks(&field, &matrix), "{row:?} over {polynomial}");
                good[time % 2] += expected as usize;
                times += 1;
            }
        }
        assert!(good[0] > 300 && good[1] > 20 && good[0] + good[1] < times, "{good:?}");
    }

    /// The maps i ↦ s + i1·a + i2·b + i4·c with a, b, c independent.
    fn affine_maps() -> Vec<[usize; MOST]> {
        let mut maps = Vec::new();
        for number in 0..8usize.pow(4) {
            let [s, a, b, c] = [0, 3, 6, 9].map(|k| number >> k & 7);
            let map: [usize; MOST] =
                std::array::from_fn(|i| s ^ a * (i & 1) ^ b * (i >> 1 & 1) ^ c * (i >> 2 & 1));
            if (0..MOST).all(|i| map.contains(&i)) {
                maps.push(map);
            }
        }
        maps
    }

    #[test]
    fn a_verdict_is_that_of_all_rows_moved_by_affine_maps() {
        let (maps, mut sequence, mut good) = (affine_maps(), brute::Sequence(3), 0);
        assert_eq!(maps.len(), 1344);
        for (polynomial, set) in [
            (19, [2, 3, 4, 5, 8, 10, 12, 15]),
            (67, [17, 19, 21, 23, 24, 27, 28, 30]),
            (283, [1, 2, 3, 4, 8, 9, 10, 14]),
        ] {
            let field = Field::new(polynomial);
            let verdict = |places: &[usize; MOST]| is_mds(&field, &Matrix::hadamard(&places.map(|k| set[k])));
            for _ in 0..40 {
                let mut row: [usize; MOST] = std::array::from_fn(|k| k);
                (0..MOST).for_each(|k| row.swap(k, k + sequence.below(MOST - k)));
                let (first, expected) = (affine_first(&row), verdict(&row));
                for map in &maps {
                    let moved = map.map(|i| row[i]);
                    assert_eq!(affine_first(&moved), first);
                    assert!(first <= moved);
                }
                for _ in 0..20 {
                    assert_eq!(verdict(&maps[sequence.below(maps.len())].map(|i| row[i])), expected);
                }
                assert_eq!(verdict(&first), expected);
                good += expected as usize;
            }
        }
        assert!((1..120).contains(&good), "{good}");
    }
}
