//! The lightest row: every row over the candidates, in dictionary order. Of the good ones the one with the least count
//! is kept, of equal counts the one with the least depth, of equal depths the first.
//!
//! Rows are walked entry by entry. A beginning is left early where nothing good and better can follow:
//!
//! - The exclusive or of the row of an involution is 1, so the last entry follows from the others.
//! - Two equal entries, at a and b, give the input with ones at words 0 and (a xor b) two zeros in its output, at
//!   words a and b, so the matrix is not MDS: entries differ.
//! - The count so far plus the least counts for the places left is above the best count; or it is the best count, and
//!   a row of that count with this beginning has at least the best depth. Each place left adds a one or more to every
//!   output bit, and some output bit has no fewer ones than they have on average.
//! - Order 8: lines and columns of an index plane {a, b, c, a xor b xor c} cut a Hadamard matrix of order 4 out of the
//!   large one. A light input of it, padded with zeros, is light for the large one, so all 14 of them are MDS.
//!   Whether four candidates give an MDS matrix does not depend on their order, and stands in a table.
//!
//! A row that is left is looked at quickly and, if no light input is met, judged by the whole test.

use crate::distance::{is_mds, may_be_mds};
use crate::field::Field;
use crate::matrix::{depth_of, joined, Matrix, MOST};
use std::cmp::Ordering::{Equal, Greater, Less};

/// A row, the sum of its elements' counts, and its depth, which is 0 where the search does not look at it.
#[derive(Clone, PartialEq, Eq, Debug)]
pub struct Found {
    pub sum: u32,
    pub depth: u32,
    pub row: Vec<u8>,
}

/// The lightest good row of order 4 or 8 over different nonzero candidates; of equal counts the shallowest, of these the
/// first in the dictionary.
pub fn lightest_row(field: &Field, order: usize, candidates: &[u8]) -> Option<Found> {
    Search::new(field, order, candidates, true).run()
}

/// The lightest good row that is first in the dictionary, whatever its depth: for telling where depth decides.
pub fn lightest_row_of_any_depth(field: &Field, order: usize, candidates: &[u8]) -> Option<Found> {
    Search::new(field, order, candidates, false).run()
}

/// Both properties of a row.
fn is_good(field: &Field, row: &[u8]) -> bool {
    let matrix = Matrix::hadamard(row);
    is_mds(field, &matrix) && matrix.is_involution(field)
}

struct Search<'a> {
    field: &'a Field,
    order: usize,
    /// The candidates in ascending order.
    candidates: Vec<u8>,
    /// `place[h]` is the place of h among the candidates.
    place: Vec<Option<usize>>,
    /// `least[k]` is the sum of the k smallest candidate counts.
    least: Vec<u32>,
    /// For each candidate the ones of its output bits.
    ones: Vec<[u8; MOST]>,
    by_depth: bool,
    /// For order 8: whether the candidates whose places are the bits of the index give an MDS matrix of order 4.
    good_fours: Vec<bool>,
    /// The places of the row's entries so far.
    chosen: [usize; MOST],
    used: [bool; 256],
    best: Option<Found>,
}

impl<'a> Search<'a> {
    fn new(field: &'a Field, order: usize, candidates: &[u8], by_depth: bool) -> Search<'a> {
        let mut candidates = candidates.to_vec();
        candidates.sort();
        let mut place = vec![None; field.size];
        candidates.iter().enumerate().for_each(|(k, &h)| place[h as usize] = Some(k));
        let least = least_sums(field, &candidates, order);
        let ones = candidates.iter().map(|&h| ones_of(field, h)).collect();
        let good_fours = if order == 8 { good_fours(field, &candidates) } else { Vec::new() };
        let (chosen, used) = ([0; MOST], [false; 256]);
        Search {
            field,
            order,
            candidates,
            place,
            least,
            ones,
            by_depth,
            good_fours,
            chosen,
            used,
            best: None,
        }
    }

    fn run(mut self) -> Option<Found> {
        self.extend(0, 0, 1, 0);
        self.best
    }

    /// All rows with the chosen beginning, so many entries; `rest` is what the entries left must sum to.
    fn extend(&mut self, filled: usize, sum: u32, rest: u8, planes_from: usize) {
        if filled + 1 == self.order {
            if let Some(last) = self.place.get(rest as usize).copied().flatten() {
                self.place_entry(filled, last, sum, rest, planes_from);
            }
            return;
        }
        for k in 0..self.candidates.len() {
            self.place_entry(filled, k, sum, rest, planes_from);
        }
    }

    /// Candidate k as the next entry.
    fn place_entry(&mut self, filled: usize, k: usize, sum: u32, rest: u8, planes_from: usize) {
        if self.used[k] {
            return;
        }
        self.chosen[filled] = k;
        let h = self.candidates[k];
        let sum = sum + self.field.xor_count(h);
        if self.is_beaten(filled + 1, sum) {
            return;
        }
        let planes_to = planes_from + planes_ending(&PLANES[planes_from..], filled);
        if self.order == 8 && !PLANES[planes_from..planes_to].iter().all(|plane| self.is_good_four(plane)) {
            return;
        }
        if filled + 1 == self.order {
            self.judge(sum);
            return;
        }
        self.used[k] = true;
        self.extend(filled + 1, sum, rest ^ h, planes_to);
        self.used[k] = false;
    }

    /// Whether every row with the chosen beginning is heavier than the best, or as heavy and not shallower. Rows walked
    /// later stand later in the dictionary.
    fn is_beaten(&self, filled: usize, sum: u32) -> bool {
        let Some(least) = self.least.get(self.order - filled) else { return true };
        self.best.as_ref().is_some_and(|best| match (sum + least).cmp(&best.sum) {
            Less => false,
            Equal => self.least_depth(filled, best.sum) >= best.depth,
            Greater => true,
        })
    }

    /// What the depth of a row with the chosen beginning and this sum of counts is at least, and of a whole row its depth.
    fn least_depth(&self, filled: usize, sum: u32) -> u32 {
        if !self.by_depth {
            return 0;
        }
        let beginning = self.chosen[..filled].iter().map(|&k| &self.ones[k]);
        least_depth(self.field.degree, self.order, beginning, sum)
    }

    fn is_good_four(&self, plane: &[usize; 4]) -> bool {
        self.good_fours[plane.iter().fold(0, |set, &i| set | 1 << self.chosen[i])]
    }

    fn judge(&mut self, sum: u32) {
        let row: Vec<u8> = self.chosen[..self.order].iter().map(|&k| self.candidates[k]).collect();
        if may_be_mds(self.field, &Matrix::hadamard(&row)) && is_good(self.field, &row) {
            self.best = Some(Found { sum, depth: self.least_depth(self.order, sum), row });
        }
    }
}

/// The 14 index planes of order 8, by their largest index.
pub const PLANES: [[usize; 4]; 14] = [
    [0, 1, 2, 3],
    [0, 1, 4, 5],
    [2, 3, 4, 5],
    [0, 2, 4, 6],
    [0, 3, 5, 6],
    [1, 2, 5, 6],
    [1, 3, 4, 6],
    [0, 1, 6, 7],
    [0, 2, 5, 7],
    [0, 3, 4, 7],
    [1, 2, 4, 7],
    [1, 3, 5, 7],
    [2, 3, 6, 7],
    [4, 5, 6, 7],
];

/// How many of the planes, from the first on, end at this index.
pub fn planes_ending(planes: &[[usize; 4]], index: usize) -> usize {
    planes.iter().take_while(|plane| plane[3] == index).count()
}

/// What the depth of a row of this order and this sum of counts is at least, by the ones of its beginning's entries; of a whole
/// row its depth.
pub fn least_depth<'a>(
    degree: usize,
    order: usize,
    beginning: impl ExactSizeIterator<Item = &'a [u8; MOST]>,
    sum: u32,
) -> u32 {
    let mut ones = [(order - beginning.len()) as u8; MOST];
    for entry in beginning {
        ones.iter_mut().zip(entry).for_each(|(total, more)| *total += more);
    }
    // The bit matrix of an element has as many ones as its count, and one for each output bit.
    let average = order as u32 + sum.div_ceil(degree as u32);
    depth_of(ones.into_iter().map(u32::from).fold(average, u32::max))
}

/// The ones of an element's output bits; 0 behind the last.
pub fn ones_of(field: &Field, a: u8) -> [u8; MOST] {
    std::array::from_fn(|bit| if bit < field.degree { joined(field, &[a], bit) as u8 } else { 0 })
}

/// Sums of the 0, 1, 2, ... smallest counts, at most as many as the order.
fn least_sums(field: &Field, candidates: &[u8], order: usize) -> Vec<u32> {
    let mut counts: Vec<u32> = candidates.iter().map(|&h| field.xor_count(h)).collect();
    counts.sort();
    let mut sums = vec![0];
    for count in counts.into_iter().take(order) {
        sums.push(sums[sums.len() - 1] + count);
    }
    sums
}

pub fn good_fours(field: &Field, candidates: &[u8]) -> Vec<bool> {
    let members = |set: usize| (0..candidates.len()).filter(move |k| set >> k & 1 == 1);
    let is_mds_four = |set: usize| {
        set.count_ones() == 4 && {
            let row: Vec<u8> = members(set).map(|k| candidates[k]).collect();
            is_mds(field, &Matrix::hadamard(&row))
        }
    };
    (0..1 << candidates.len()).map(is_mds_four).collect()
}

#[cfg(test)]
mod tests {
    use super::*;
    use crate::brute;

    fn key(found: Option<Found>) -> Option<brute::Key> {
        found.map(|f| (f.sum, f.depth, f.row))
    }

    /// The nonzero elements whose bits are set in the number.
    fn subset(number: usize) -> Vec<u8> {
        (0..16).filter(|k| number >> k & 1 == 1).map(|k| k as u8 + 1).collect()
    }

    #[test]
    fn planes_are_all_sets_of_four_indices_with_sum_zero() {
        let mut expected = Vec::new();
        for d in 0..8 {
            for a in 0..8 {
                for b in a + 1..8 {
                    let c = a ^ b ^ d;
                    if b < c && c < d {
                        expected.push([a, b, c, d]);
                    }
                }
            }
        }
        assert_eq!(PLANES.to_vec(), expected);
    }

    #[test]
    fn order_four_over_degrees_two_and_three_every_set_of_candidates() {
        for polynomial in [7, 11, 13] {
            let field = Field::new(polynomial);
            let all: Vec<u8> = (1..field.size as u8).collect();
            let good: Vec<Vec<u8>> = brute::rows(&all, 4).filter(|row| brute::is_good(&field, row)).collect();
            for set in 1..1usize << (field.size - 1) {
                let candidates = subset(set);
                let expected =
                    brute::lightest_row(&field, &candidates, 4, |row| good.iter().any(|g| g == row));
                assert_eq!(key(lightest_row(&field, 4, &candidates)), expected, "{candidates:?}");
            }
        }
    }

    #[test]
    fn order_four_over_degree_four_samples() {
        let mut sequence = brute::Sequence(4);
        for polynomial in [19, 25, 31] {
            let field = Field::new(polynomial);
            for _ in 0..4 {
                let candidates = subset(sequence.below(1 << 15) & 0x7abd | 1);
                let few = &candidates[..candidates.len().min(6)];
                let expected = brute::lightest_row(&field, few, 4, |row| brute::is_good(&field, row));
                assert_eq!(key(lightest_row(&field, 4, few)), expected, "{few:?}");
            }
        }
    }

    /// All 15^4 rows over degree 4, and the entries of every two good rows as candidates.
    #[test]
    fn order_four_over_degree_four_every_two_good_rows() {
        let (fifteen, mut decided) = (subset(0x7fff), 0);
        for polynomial in [19, 25, 31] {
            let field = Field::new(polynomial);
            let good = |row: &Vec<u8>| row.iter().fold(1, |s, h| s ^ h) == 0 && is_good(&field, row);
            let rows = brute::rows(&fifteen, 4).filter(good);
            let keys: Vec<brute::Key> = rows.map(|row| brute::key(&field, &row)).collect();
            let sets: Vec<&brute::Key> = keys.iter().filter(|key| key.2.is_sorted()).collect();
            for (one, other) in sets.iter().flat_map(|one| sets.iter().map(move |other| (one, other))) {
                let candidates: Vec<u8> =
                    (1..16).filter(|h| one.2.contains(h) || other.2.contains(h)).collect();
                let over: Vec<&brute::Key> =
                    keys.iter().filter(|key| key.2.iter().all(|h| candidates.contains(h))).collect();
                let expected = over.iter().min().copied().unwrap();
                let found = lightest_row(&field, 4, &candidates);
                assert_eq!(key(found).as_ref(), Some(expected), "{candidates:?}");
                let first = over.iter().min_by_key(|key| (key.0, &key.2)).unwrap();
                let of_any_depth = lightest_row_of_any_depth(&field, 4, &candidates).unwrap();
                assert_eq!(of_any_depth.row, first.2);
                decided += (first.2 != expected.2) as usize;
            }
        }
        assert!(decided > 100, "{decided}");
    }

    /// The count comes before the depth: the lightest row is first or last in the dictionary, and a heavier one shallower.
    #[test]
    fn order_four_over_degree_six_where_a_heavier_row_is_shallower() {
        for (polynomial, candidates) in [
            (67, [1, 8, 16, 24, 49, 57]),
            (67, [1, 8, 33, 41, 49, 57]),
            (73, [1, 2, 4, 6, 9, 11]),
            (73, [1, 2, 4, 6, 18, 22]),
        ] {
            let field = Field::new(polynomial);
            let good = |row: &[u8]| row.iter().fold(1, |s, h| s ^ h) == 0 && is_good(&field, row);
            let expected = brute::lightest_row(&field, &candidates, 4, good);
            let rows = brute::rows(&candidates, 4).filter(|row| good(row));
            let shallowest = rows.map(|row| brute::depth(&field, &row)).min();
            assert_eq!((expected.as_ref().map(|key| key.1), shallowest), (Some(4), Some(3)));
            assert_eq!(key(lightest_row(&field, 4, &candidates)), expected);
        }
    }

    /// The last entries of the best row add a single one to the output bit that decides: no beginning may be left in the
    /// belief that they add more.
    #[test]
    fn order_four_over_degree_eight_where_the_last_entries_add_little() {
        let field = Field::new(283);
        let candidates = [45, 53, 98, 100, 122, 133, 156, 174, 226];
        let good = |row: &[u8]| row.iter().fold(1, |s, h| s ^ h) == 0 && is_good(&field, row);
        let expected = brute::lightest_row(&field, &candidates, 4, good);
        assert_eq!(expected.as_ref().map(|key| &key.2[..]), Some(&[98, 122, 133, 156][..]));
        assert_eq!(key(lightest_row(&field, 4, &candidates)), expected);
    }

    #[test]
    fn order_eight_over_degree_two_has_no_row() {
        let field = Field::new(7);
        assert_eq!(brute::lightest_row(&field, &[1, 2, 3], 8, |row| brute::is_good(&field, row)), None);
        assert_eq!(lightest_row(&field, 8, &[1, 2, 3]), None);
    }

    /// The table of fours is read for every order of its four candidates.
    #[test]
    fn mds_at_order_four_does_not_depend_on_the_order_of_the_row() {
        for polynomial in [11, 19, 25, 31, 37] {
            let field = Field::new(polynomial);
            let candidates: Vec<u8> = (1..field.size.min(16) as u8).collect();
            let table = good_fours(&field, &candidates);
            for row in brute::rows(&candidates, 4) {
                let set = row.iter().fold(0usize, |set, h| set | 1 << (h - 1));
                assert_eq!(is_mds(&field, &Matrix::hadamard(&row)), table[set], "{row:?}");
            }
        }
    }

    /// All 8^8 rows, with repeats, against the walk with its early exits.
    #[test]
    fn order_eight_against_all_rows() {
        let field = Field::new(19);
        let candidates = [2, 3, 4, 5, 8, 10, 12, 15];
        let good = |row: &[u8]| row.iter().fold(1, |s, h| s ^ h) == 0 && is_good(&field, row);
        let expected = brute::lightest_row(&field, &candidates, 8, good);
        assert!(expected.is_some());
        assert_eq!(key(lightest_row(&field, 8, &candidates)), expected);
    }

    /// Eight candidates have one count and one depth in every order. The best row over ten is the best of those over eight.
    #[test]
    fn order_eight_against_every_eight_of_ten_candidates() {
        let briefs = [
            (299, [3, 45, 72, 75, 76, 99, 113, 215, 233, 248]),
            (355, [2, 45, 77, 88, 101, 129, 143, 167, 169, 186]),
            (425, [6, 14, 24, 28, 52, 199, 216, 224, 240, 242]),
        ];
        for (polynomial, ten) in briefs {
            let field = Field::new(polynomial);
            let eights = (0..1usize << 10).filter(|set| set.count_ones() == 8);
            let members =
                |set: usize| (0..10).filter(|k| set >> k & 1 == 1).map(|k| ten[k]).collect::<Vec<u8>>();
            let found = eights.filter_map(|set| lightest_row_of_any_depth(&field, 8, &members(set)));
            let expected = found.map(|found| brute::key(&field, &found.row)).min();
            assert_eq!(key(lightest_row(&field, 8, &ten)), expected);
            let of_any_depth = lightest_row_of_any_depth(&field, 8, &ten).unwrap();
            let (sum, depth, row) = brute::key(&field, &of_any_depth.row);
            assert!(expected.is_some_and(|best| sum == best.0 && depth > best.1 && row < best.2));
        }
    }

    #[test]
    fn order_of_the_candidates_does_not_matter() {
        let field = Field::new(25);
        let mut candidates: Vec<u8> = (1..16).collect();
        let expected = lightest_row(&field, 4, &candidates);
        assert!(expected.is_some());
        for _ in 0..15 {
            candidates.rotate_left(1);
            assert_eq!(lightest_row(&field, 4, &candidates), expected);
            candidates.swap(2, 9);
        }
    }
}
