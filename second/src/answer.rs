//! From a request text to its answer text, and the refusals in their order.

use crate::circulant;
use crate::distance::{branch_number, lightest_word, Word};
use crate::field::{degree, irreducible, Field, Fields};
use crate::gates::Netlist;
use crate::matrix::{line_count, line_depth, Matrix};
use crate::search::{self, Found};
use crate::text::{line_of, read_request, Request};
use crate::walk::{self, Walked};

/// In the place of the best row's count where there is no row yet.
pub const NONE_YET: u32 = 999999;

/// A refusal's number, 1 to 9.
pub type Refusal = u32;

/// A walk: over a field, of an order, with candidates and a budget.
type Walker = fn(&Field, usize, &[u8], u64) -> Walked;

/// Answers requests; the tables of a field are kept for the next request.
#[derive(Default)]
pub struct Answerer {
    fields: Fields,
}

impl Answerer {
    /// The whole answer text, or the refusal's line.
    pub fn answer(&mut self, text: &[u8]) -> String {
        self.accepted(text).unwrap_or_else(|refusal| line_of(&[refusal]))
    }

    /// For a check: the input and output of least weight, if it is not MDS.
    pub fn lightest_word(&mut self, text: &[u8]) -> Result<Option<Word>, Refusal> {
        let request = judged(text)?;
        if request.kind != 2 {
            return Err(2);
        }
        Ok(lightest_word(self.fields.of(request.polynomial), &matrix_of(&request)))
    }

    /// Rows and their depths. For a check: its first line. For a search of either shape and for a walk: the row that is found, and
    /// the one that would be if depth did not count; zeros where a walk has none yet.
    pub fn depths(&mut self, text: &[u8]) -> Result<Vec<(u32, Vec<u8>)>, Refusal> {
        let request = judged(text)?;
        if ![1, 2, 5, 6].contains(&request.kind) {
            return Err(2);
        }
        let field = self.fields.of(request.polynomial);
        let rows = match request.kind {
            2 => vec![elements(&request)[..request.order as usize].to_vec()],
            6 => [walk::walk, walk::walk_of_any_depth].map(|walk| best_yet(walk, field, &request)).into(),
            _ => vec![lightest(field, &request)?.row, lightest_of_any_depth(field, &request)?.row],
        };
        Ok(rows.into_iter().map(|row| (line_depth(field, &row), row)).collect())
    }

    fn accepted(&mut self, text: &[u8]) -> Result<String, Refusal> {
        let request = judged(text)?;
        match request.kind {
            1 | 5 => search_answer(self.fields.of(request.polynomial), &request),
            2 => Ok(check_answer(self.fields.of(request.polynomial), &request)),
            3 => Ok(survey_answer(request.polynomial)),
            6 => walk_answer(self.fields.of(request.polynomial), &request),
            _ => Ok(Netlist::of(self.fields.of(request.polynomial), &matrix_of(&request)).text()),
        }
    }
}

/// The request of a text, or the lowest of the numbers 1 to 8 that applies.
fn judged(text: &[u8]) -> Result<Request, Refusal> {
    let request = read_request(text).ok_or(1u32)?;
    let refused = match request.kind {
        1 | 6 => search_refusal(&request),
        2 | 4 => check_refusal(&request),
        3 => survey_refusal(&request),
        5 => circulant_refusal(&request),
        _ => Some(2),
    };
    refused.map_or(Ok(request), Err)
}

/// The first number whose fault is there.
pub fn first_fault(faults: &[(Refusal, &dyn Fn() -> bool)]) -> Option<Refusal> {
    faults.iter().find(|(_, is_there)| is_there()).map(|(number, _)| *number)
}

fn search_refusal(request: &Request) -> Option<Refusal> {
    let most = if request.order == 4 { 255 } else { 16 };
    candidates_refusal(request, &[4, 8], most)
}

fn circulant_refusal(request: &Request) -> Option<Refusal> {
    candidates_refusal(request, &[2, 3, 4, 5, 6, 7, 8], 8)
}

/// Of a request with 1 to `most` candidates, of one of these orders.
fn candidates_refusal(request: &Request, orders: &[u32], most: u32) -> Option<Refusal> {
    first_fault(&[
        (3, &|| !polynomial_in_range(request)),
        (4, &|| !irreducible(request.polynomial)),
        (5, &|| !orders.contains(&request.order)),
        (6, &|| request.count < 1 || request.count > most),
        (7, &|| value_outside_field(request)),
        (8, &|| zero_or_repeated(&request.values)),
    ])
}

fn check_refusal(request: &Request) -> Option<Refusal> {
    first_fault(&[
        (3, &|| !polynomial_in_range(request)),
        (4, &|| !irreducible(request.polynomial)),
        (5, &|| request.order < 1 || request.order > 8),
        (6, &|| request.count != request.order * request.order),
        (7, &|| value_outside_field(request)),
    ])
}

fn survey_refusal(request: &Request) -> Option<Refusal> {
    first_fault(&[
        (3, &|| request.polynomial < 2 || request.polynomial > 8),
        (5, &|| request.order != 0),
        (6, &|| request.count != 0),
    ])
}

fn polynomial_in_range(request: &Request) -> bool {
    (4..=511).contains(&request.polynomial)
}

fn value_outside_field(request: &Request) -> bool {
    let size = 1 << degree(request.polynomial);
    request.values.iter().any(|&v| v >= size)
}

pub fn zero_or_repeated(values: &[u32]) -> bool {
    values.iter().enumerate().any(|(k, v)| *v == 0 || values[..k].contains(v))
}

/// The values, each of which is an element.
fn elements(request: &Request) -> Vec<u8> {
    request.values.iter().map(|&v| v as u8).collect()
}

/// The row of the kind's shape.
fn lightest(field: &Field, request: &Request) -> Result<Found, Refusal> {
    let find = if request.kind == 1 { search::lightest_row } else { circulant::lightest_row };
    find(field, request.order as usize, &elements(request)).ok_or(9)
}

fn lightest_of_any_depth(field: &Field, request: &Request) -> Result<Found, Refusal> {
    let find = match request.kind {
        1 => search::lightest_row_of_any_depth,
        _ => circulant::lightest_row_of_any_depth,
    };
    find(field, request.order as usize, &elements(request)).ok_or(9)
}

/// The best row of a walk, or zeros.
fn best_yet(walk: Walker, field: &Field, request: &Request) -> Vec<u8> {
    let order = request.order as usize;
    let best = walk(field, order, &elements(request), request.budget.into()).best;
    best.map_or(vec![0; order], |found| found.row)
}

fn search_answer(field: &Field, request: &Request) -> Result<String, Refusal> {
    let found = lightest(field, request)?;
    let row_count = line_count(field, &found.row);
    let row: Vec<u32> = found.row.iter().map(|&h| h as u32).collect();
    Ok(line_of(&[0, found.sum, row_count, request.order * row_count]) + &line_of(&row))
}

/// How far the walk came, its best row's count and the bound; then the row, or zeros.
fn walk_answer(field: &Field, request: &Request) -> Result<String, Refusal> {
    let (order, candidates) = (request.order as usize, elements(request));
    let walked = walk::walk(field, order, &candidates, request.budget.into());
    let (count, row) = match walked.best {
        Some(found) => (line_count(field, &found.row), found.row),
        None if walked.finished => return Err(9),
        None => (NONE_YET, vec![0; order]),
    };
    let row: Vec<u32> = row.into_iter().map(u32::from).collect();
    let head =
        [0, walked.finished as u32, walked.tried as u32, count, walk::bound(field, order, &candidates)];
    Ok(line_of(&head) + &line_of(&row))
}

fn matrix_of(request: &Request) -> Matrix {
    let n = request.order as usize;
    Matrix::from_entries(n, |i, j| request.values[i * n + j] as u8)
}

fn check_answer(field: &Field, request: &Request) -> String {
    let matrix = matrix_of(request);
    let branch = branch_number(field, &matrix) as u32;
    let mds = (branch == request.order + 1) as u32;
    line_of(&[0, branch, mds, matrix.is_involution(field) as u32, matrix.count(field)])
}

/// The lines ascend by the polynomial.
fn survey_answer(degree: u32) -> String {
    let polynomials: Vec<u32> = (1 << degree..1 << (degree + 1)).filter(|&p| irreducible(p)).collect();
    let head = line_of(&[0, polynomials.len() as u32]);
    polynomials.iter().fold(head, |text, &p| text + &survey_line(p))
}

fn survey_line(polynomial: u32) -> String {
    let field = Field::new(polynomial);
    let counts: Vec<u32> = (1..field.size).map(|a| field.xor_count(a as u8)).collect();
    line_of(&[polynomial, counts.iter().sum(), counts.iter().map(|c| c * c).sum()])
}

#[cfg(test)]
mod tests {
    use super::*;

    fn text_of(head: &[u32], values: &[u32]) -> String {
        values.chunks(16).fold(line_of(head), |text, line| text + &line_of(line))
    }

    /// The answer's numbers to a request whose count is right.
    fn ask(kind: u32, polynomial: u32, order: u32, values: &[u32]) -> Vec<u32> {
        numbers_of(&text_of(&[kind, polynomial, order, values.len() as u32], values))
    }

    /// The same for a walk.
    fn walked(polynomial: u32, order: u32, values: &[u32], budget: u32) -> Vec<u32> {
        numbers_of(&text_of(&[6, polynomial, order, values.len() as u32, budget], values))
    }

    fn numbers_of(text: &str) -> Vec<u32> {
        let answer = Answerer::default().answer(text.as_bytes());
        let numbers = answer.lines().flat_map(|line| line.as_bytes().chunks(6));
        numbers.map(|columns| std::str::from_utf8(columns).unwrap().trim().parse().unwrap()).collect()
    }

    fn hadamard(row: &[u32]) -> Vec<u32> {
        let n = row.len();
        (0..n * n).map(|k| row[(k / n) ^ (k % n)]).collect()
    }

    #[test]
    fn worked_example_byte_for_byte() {
        let request = "     1    19     4     4\n     1     4     9    13\n";
        let expected = "     0     6    18    72\n     1     4     9    13\n";
        assert_eq!(Answerer::default().answer(request.as_bytes()), expected);
    }

    #[test]
    fn reference_searches() {
        assert_eq!(ask(1, 19, 4, &[1, 2, 4, 8]), [9]);
        assert_eq!(ask(1, 19, 4, &[1, 3, 8, 11]), [9]);
        assert_eq!(ask(1, 19, 4, &[1, 4, 9]), [9]);
        let fifteen: Vec<u32> = (1..16).collect();
        assert_eq!(ask(1, 19, 4, &fifteen), [0, 6, 18, 72, 1, 4, 9, 13]);
    }

    /// Least count, then least depth, then first in dictionary order.
    #[test]
    fn reference_searches_by_depth() {
        let fifteen: Vec<u32> = (1..16).collect();
        assert_eq!(ask(1, 31, 4, &fifteen), [0, 12, 24, 96, 1, 2, 13, 15]);
        assert_eq!(ask(1, 31, 4, &[1, 2, 3, 4, 6, 7, 8, 9, 10, 12, 14]), [0, 12, 24, 96, 1, 4, 8, 12]);
        assert_eq!(ask(1, 31, 4, &[1, 2, 4, 6]), [0, 12, 24, 96, 1, 2, 4, 6]);
        // 1 8 16 24 is shallower and earlier, and heavier.
        assert_eq!(ask(1, 67, 4, &[1, 8, 16, 24, 49, 57]), [0, 12, 30, 120, 1, 8, 49, 57]);
        assert_eq!(ask(1, 19, 8, &fifteen), [0, 36, 64, 512, 2, 3, 4, 12, 5, 10, 8, 15]);
    }

    #[test]
    fn reference_circulants() {
        assert_eq!(ask(5, 283, 4, &[1, 2, 3]), [0, 14, 38, 152, 1, 1, 2, 3]);
        assert_eq!(ask(5, 7, 2, &[3, 2]), [0, 2, 4, 8, 2, 3]);
        assert_eq!(ask(5, 19, 3, &[1, 2, 3, 4]), [0, 1, 9, 27, 1, 1, 2]);
        let eight: Vec<u32> = (1..9).collect();
        assert_eq!(ask(5, 283, 8, &eight), [0, 53, 109, 872, 1, 1, 3, 1, 8, 4, 5, 6]);
        assert_eq!(ask(5, 19, 8, &[1, 2, 4, 8, 3, 6, 12, 11]), [9]);
        // Fewer candidates than the order may do; one never does.
        assert_eq!(ask(5, 19, 3, &[2, 1]), [0, 1, 9, 27, 1, 1, 2]);
        assert!((2..9).all(|n| ask(5, 283, n, &[1]) == [9]));
    }

    #[test]
    fn reference_circulants_by_depth() {
        assert_eq!(ask(5, 19, 2, &[3, 2]), [0, 6, 10, 20, 2, 3]);
        assert_eq!(ask(5, 19, 2, &[6, 3, 2]), [0, 6, 10, 20, 2, 6]);
        assert_eq!(ask(5, 25, 4, &[1, 2, 8, 12]), [0, 8, 20, 80, 1, 8, 12, 12]);
        // 3 9 is shallower and earlier, and heavier.
        assert_eq!(ask(5, 19, 2, &[3, 9, 13]), [0, 4, 8, 16, 9, 13]);
    }

    #[test]
    fn reference_walks() {
        let row = [1, 4, 9, 13];
        assert_eq!(walked(19, 4, &row, 0), [0, 0, 0, 999999, 18, 0, 0, 0, 0]);
        assert_eq!(walked(19, 4, &row, 1), [0, 0, 1, 18, 18, 1, 4, 9, 13]);
        assert_eq!(walked(19, 4, &row, 23), [0, 0, 23, 18, 18, 1, 4, 9, 13]);
        assert_eq!(walked(19, 4, &row, 24), [0, 1, 24, 18, 18, 1, 4, 9, 13]);
        assert_eq!(walked(19, 4, &row, 999999), [0, 1, 24, 18, 18, 1, 4, 9, 13]);
        assert_eq!(walked(19, 4, &[1, 2, 4, 8], 23), [0, 0, 23, 999999, 18, 0, 0, 0, 0]);
        assert_eq!(walked(19, 4, &[1, 2, 4, 8], 24), [9]);
        assert_eq!([0, 1, 999999].map(|budget| walked(19, 4, &[1, 4, 9], budget)), [[9], [9], [9]]);
        assert_eq!([0, 999999].map(|budget| walked(19, 8, &[1, 2, 3, 4, 5, 6, 7], budget)), [[9], [9]]);
        let fifteen: Vec<u32> = (1..16).collect();
        assert_eq!(walked(19, 4, &fifteen, 999999), [0, 1, 32760, 18, 16, 1, 4, 9, 13]);
        let empty = [0, 0, 0, 999999, 48, 0, 0, 0, 0, 0, 0, 0, 0];
        assert_eq!(walked(19, 8, &fifteen, 0), empty);
    }

    #[test]
    fn depths_of_a_check_and_of_a_search() {
        let depths = |kind, polynomial, order, values: &[u32]| {
            let text = text_of(&[kind, polynomial, order, values.len() as u32], values);
            Answerer::default().depths(text.as_bytes())
        };
        assert_eq!(depths(2, 31, 4, &hadamard(&[1, 2, 4, 6])), Ok(vec![(4, vec![1, 2, 4, 6])]));
        assert_eq!(depths(2, 7, 2, &[0, 0, 1, 1]), Ok(vec![(0, vec![0, 0])]));
        let fifteen: Vec<u32> = (1..16).collect();
        assert_eq!(depths(1, 31, 4, &fifteen), Ok(vec![(3, vec![1, 2, 13, 15]), (4, vec![1, 2, 4, 6])]));
        assert_eq!(depths(1, 19, 4, &fifteen), Ok(vec![(3, vec![1, 4, 9, 13]); 2]));
        assert_eq!(depths(1, 19, 4, &[1, 2, 4, 8]), Err(9));
        assert_eq!(depths(5, 19, 2, &[2, 3, 6]), Ok(vec![(2, vec![2, 6]), (3, vec![2, 3])]));
        assert_eq!(depths(5, 19, 2, &[2]), Err(9));
        let walk = |budget| {
            let text = text_of(&[6, 31, 4, 15, budget], &fifteen);
            Answerer::default().depths(text.as_bytes())
        };
        assert_eq!(walk(131), Ok(vec![(4, vec![1, 2, 4, 6]); 2]));
        assert_eq!(walk(132), Ok(vec![(3, vec![1, 2, 13, 15]), (4, vec![1, 2, 4, 6])]));
        assert_eq!(walk(14), Ok(vec![(0, vec![0; 4]); 2]));
        assert_eq!(
            [depths(3, 4, 0, &[]), depths(4, 7, 1, &[3]), depths(2, 21, 1, &[1])],
            [Err(2), Err(2), Err(4)]
        );
    }

    #[test]
    fn reference_checks() {
        assert_eq!(ask(2, 19, 4, &hadamard(&[1, 3, 8, 11])), [0, 4, 0, 1, 104]);
        assert_eq!(ask(2, 19, 4, &hadamard(&[1, 4, 9, 13])), [0, 5, 1, 1, 72]);
        let fips = [2, 3, 1, 1, 1, 2, 3, 1, 1, 1, 2, 3, 3, 1, 1, 2];
        assert_eq!(ask(2, 283, 4, &fips), [0, 5, 1, 0, 152]);
        assert_eq!(ask(2, 7, 2, &[1, 0, 0, 1]), [0, 2, 0, 1, 0]);
        assert_eq!(ask(2, 7, 1, &[0]), [0, 1, 0, 0, 0]);
        assert_eq!(ask(2, 19, 3, &[0, 0, 0, 0, 7, 0, 1, 2, 3]), [0, 2, 0, 0, 23]);
        let triangle = [2, 3, 1, 1, 0, 2, 3, 1, 0, 0, 2, 3, 0, 0, 0, 2];
        assert_eq!(ask(2, 283, 4, &triangle), [0, 2, 0, 0, 93]);
    }

    #[test]
    fn reference_surveys() {
        assert_eq!(ask(3, 2, 0, &[]), [0, 1, 7, 2, 2]);
        for m in 2..=8 {
            let answer = ask(3, m, 0, &[]);
            assert_eq!(answer[1], [1, 2, 3, 6, 9, 18, 30][m as usize - 2]);
            assert_eq!(answer.len(), 2 + 3 * answer[1] as usize);
            // Each bit matrix column runs through the whole field: the sum is the same for every polynomial.
            assert!(answer[2..].chunks(3).all(|l| l[1] == m * m * (1 << (m - 1)) - m * ((1 << m) - 1)));
        }
    }

    /// As many as `reference_surveys` says, so these are all.
    #[test]
    fn survey_lines_ascend_by_polynomial() {
        assert_eq!(ask(3, 3, 0, &[]), [0, 2, 11, 15, 47, 13, 15, 47]);
        for m in 2..=8 {
            let listed: Vec<u32> = ask(3, m, 0, &[])[2..].chunks(3).map(|l| l[0]).collect();
            assert!(listed.windows(2).all(|pair| pair[0] < pair[1]));
            assert!(listed.iter().all(|&p| degree(p) == m && irreducible(p)));
        }
    }

    #[test]
    fn reference_gates() {
        assert_eq!(ask(4, 7, 2, &[2, 3, 0, 1]), [0, 4, 1, 2, 4, 3, 0, 1, 6, 2, 5, 7, 2, 3]);
        assert_eq!(ask(4, 7, 1, &[3]), [0, 1, 0, 1, 2, 0]);
        assert_eq!(ask(4, 7, 1, &[0]), [0, 0, 999999, 999999]);
        let worked = ask(4, 19, 4, &hadamard(&[1, 4, 9, 13]));
        assert_eq!((worked[1], worked.len()), (72, 2 + 2 * 72 + 16));
    }

    #[test]
    fn reference_refusals() {
        assert_eq!(ask(1, 3, 4, &[1]), [3]);
        assert_eq!(ask(1, 7, 4, &[1]), [9]);
        assert_eq!(ask(1, 21, 4, &[1]), [4]);
        assert_eq!(ask(1, 511, 4, &[1]), [4]);
        assert_eq!(ask(1, 512, 4, &[1]), [3]);
        let values: Vec<u32> = (1..=256).collect();
        assert_ne!(ask(1, 283, 8, &values[..16]), [6]);
        assert_eq!(ask(1, 283, 8, &values[..17]), [6]);
        assert_ne!(ask(1, 283, 4, &values[..255]), [6]);
        assert_eq!(ask(1, 283, 4, &values), [6]);
    }

    #[test]
    fn lowest_refusal_comes_first() {
        let answer = |text: &str| Answerer::default().answer(text.as_bytes());
        assert_eq!(answer(""), "     1\n");
        assert_eq!(answer("     9     3     9     1\n"), "     1\n");
        assert_eq!(ask(9, 3, 9, &[0, 0]), [2]);
        assert_eq!(ask(8, 19, 4, &[1]), [2]);
        assert_eq!(ask(6, 19, 4, &[1]), [1]);
        assert_eq!(ask(0, 21, 9, &[300]), [2]);
        assert_eq!(ask(1, 512, 5, &[]), [3]);
        assert_eq!(ask(1, 21, 5, &[]), [4]);
        assert_eq!(ask(1, 19, 5, &[]), [5]);
        assert_eq!(ask(1, 19, 8, &[16; 17]), [6]);
        assert_eq!(ask(1, 19, 4, &[]), [6]);
        assert_eq!(ask(1, 19, 4, &[0, 0, 16]), [7]);
        assert_eq!(ask(1, 19, 4, &[2, 4, 2]), [8]);
        assert_eq!(ask(1, 19, 4, &[2, 0]), [8]);
        for kind in [2, 4] {
            assert_eq!(ask(kind, 512, 9, &[16]), [3]);
            assert_eq!(ask(kind, 21, 9, &[16]), [4]);
            assert_eq!(ask(kind, 19, 0, &[]), [5]);
            assert_eq!(ask(kind, 19, 9, &[16]), [5]);
            assert_eq!(ask(kind, 19, 2, &[16; 3]), [6]);
            assert_eq!(ask(kind, 19, 2, &[0, 0, 0, 16]), [7]);
        }
        assert_eq!(ask(5, 512, 9, &[]), [3]);
        assert_eq!(ask(5, 21, 9, &[]), [4]);
        assert_eq!([0, 1, 9].map(|n| ask(5, 19, n, &[16; 9])), [[5], [5], [5]]);
        assert_eq!(ask(5, 19, 2, &[16; 9]), [6]);
        assert_eq!(ask(5, 19, 8, &[]), [6]);
        assert_eq!(ask(5, 19, 4, &[0, 0, 16]), [7]);
        assert_eq!(ask(5, 19, 4, &[2, 4, 2]), [8]);
        assert_eq!(ask(5, 19, 4, &[2, 0]), [8]);
        assert_eq!(walked(512, 5, &[], 0), [3]);
        assert_eq!(walked(21, 5, &[], 999999), [4]);
        assert_eq!([0, 2, 5, 9].map(|n| walked(19, n, &[16; 9], 0)), [[5], [5], [5], [5]]);
        assert_eq!(walked(19, 8, &[16; 17], 24), [6]);
        assert_eq!(walked(19, 4, &[], 0), [6]);
        assert_eq!(walked(19, 4, &[0, 0, 16], 0), [7]);
        assert_eq!(walked(19, 4, &[2, 4, 2], 0), [8]);
        assert_eq!(walked(19, 4, &[2, 0], 0), [8]);
        assert_eq!(ask(3, 9, 1, &[1]), [3]);
        assert_eq!(ask(3, 1, 0, &[]), [3]);
        assert_eq!(ask(3, 4, 1, &[1]), [5]);
        assert_eq!(ask(3, 4, 0, &[99]), [6]);
    }
}
