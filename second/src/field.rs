//! Polynomials over two elements, the field they give, and the XOR count of an element.
//!
//! A polynomial is a number whose bit i is the coefficient of x^i. Sums are exclusive or.

use std::collections::HashMap;

/// Product of two polynomials over two elements, not reduced.
pub fn polynomial_product(a: u32, b: u32) -> u32 {
    (0..16).filter(|i| b >> i & 1 == 1).fold(0, |sum, i| sum ^ (a << i))
}

/// Degree of a polynomial other than 0: the place of its highest set bit.
pub fn degree(p: u32) -> u32 {
    31 - p.leading_zeros()
}

/// Remainder of `a` after division by `p`: as long as the degree of `p` is reached, subtract a multiple of `p`.
pub fn remainder(mut a: u32, p: u32) -> u32 {
    while a != 0 && degree(a) >= degree(p) {
        a ^= p << (degree(a) - degree(p));
    }
    a
}

/// Irreducible: no product of two polynomials of degree 1 or more equals `p`.
/// Degrees add in a product, so for each first factor only one degree is left for the second.
pub fn irreducible(p: u32) -> bool {
    let m = degree(p);
    let product_is_p = |a: u32| {
        let rest = m - degree(a);
        (1 << rest..1 << (rest + 1)).any(|b| polynomial_product(a, b) == p)
    };
    !(2..1 << m).any(product_is_p)
}

/// Marks a line that is 0 whatever the last coefficient is (see `Field::closing`).
pub const ALWAYS: u16 = 256;

/// A field of 2^m elements, with its tables.
pub struct Field {
    pub degree: usize,
    pub size: usize,
    product: Vec<u8>,
    closing: Vec<u16>,
    counts: Vec<u32>,
}

impl Field {
    /// The field of an irreducible polynomial of degree 1 to 8.
    pub fn new(polynomial: u32) -> Field {
        let degree = degree(polynomial) as usize;
        let size = 1 << degree;
        let product = product_table(polynomial, size);
        let closing = closing_table(&product, size);
        let counts = (0..size).map(|a| xor_count(&product, degree, a)).collect();
        Field { degree, size, product, closing, counts }
    }

    pub fn product(&self, a: u8, b: u8) -> u8 {
        self.product[a as usize * self.size + b as usize]
    }

    /// The element c, not 0, with v + c·g = 0; 0 where there is none; `ALWAYS` where every c does.
    #[inline]
    pub fn closing(&self, g: u8, v: u8) -> u16 {
        self.closing[g as usize * self.size + v as usize]
    }

    pub fn inverse(&self, a: u8) -> u8 {
        self.closing(a, 1) as u8
    }

    pub fn xor_count(&self, a: u8) -> u32 {
        self.counts[a as usize]
    }
}

/// The fields met so far, by their polynomials: the tables of a field are made once.
#[derive(Default)]
pub struct Fields(HashMap<u32, Field>);

impl Fields {
    pub fn of(&mut self, polynomial: u32) -> &Field {
        self.0.entry(polynomial).or_insert_with(|| Field::new(polynomial))
    }
}

fn product_table(polynomial: u32, size: usize) -> Vec<u8> {
    let entry =
        |i: usize| remainder(polynomial_product((i / size) as u32, (i % size) as u32), polynomial) as u8;
    (0..size * size).map(entry).collect()
}

fn closing_table(product: &[u8], size: usize) -> Vec<u16> {
    let mut closing = vec![0; size * size];
    closing[0] = ALWAYS;
    for g in 1..size {
        for c in 1..size {
            closing[g * size + product[g * size + c] as usize] = c as u16;
        }
    }
    closing
}

/// Ones of the bit matrix (column j is a times 2^j) less m; 0 for the element 0.
fn xor_count(product: &[u8], degree: usize, a: usize) -> u32 {
    if a == 0 {
        return 0;
    }
    let ones: u32 = (0..degree).map(|j| product[(a << degree) + (1 << j)].count_ones()).sum();
    ones - degree as u32
}

#[cfg(test)]
mod tests {
    use super::*;

    /// All polynomials below 512 that are no product of two polynomials of degree 1 or more, by a sieve.
    fn sieve() -> Vec<u32> {
        let mut reducible = vec![false; 512];
        for a in 2..256 {
            for b in 2..256 {
                if let Some(mark) = reducible.get_mut(polynomial_product(a, b) as usize) {
                    *mark = true;
                }
            }
        }
        (4..512).filter(|&p| !reducible[p as usize]).collect()
    }

    #[test]
    fn irreducible_polynomials_are_those_left_by_the_sieve() {
        let found: Vec<u32> = (4..512).filter(|&p| irreducible(p)).collect();
        assert_eq!(found, sieve());
        let of_degree = |m| found.iter().filter(|&&p| degree(p) == m).count();
        assert_eq!([2, 3, 4, 5, 6, 7, 8].map(of_degree), [1, 2, 3, 6, 9, 18, 30]);
        assert!([19, 25, 31].iter().all(|p| found.contains(p)));
    }

    #[test]
    fn every_field_obeys_its_laws() {
        for p in sieve().into_iter().filter(|&p| p < 64) {
            let f = Field::new(p);
            let elements = 0..f.size as u8;
            for a in elements.clone() {
                assert_eq!(f.product(a, 1), a);
                assert!(a == 0 || f.product(a, f.inverse(a)) == 1);
                for b in elements.clone() {
                    assert_eq!(f.product(a, b), f.product(b, a));
                    for c in elements.clone() {
                        assert_eq!(f.product(a, b ^ c), f.product(a, b) ^ f.product(a, c));
                        assert_eq!(f.product(a, f.product(b, c)), f.product(f.product(a, b), c));
                    }
                }
            }
        }
    }

    #[test]
    fn closing_element_is_the_one_found_by_trial() {
        for p in [7, 11, 19, 37] {
            let f = Field::new(p);
            for g in 0..f.size as u8 {
                for v in 0..f.size as u8 {
                    let fits: Vec<u8> = (1..f.size as u8).filter(|&c| v ^ f.product(c, g) == 0).collect();
                    let expected = match fits.len() {
                        0 => 0,
                        1 => fits[0] as u16,
                        _ => ALWAYS,
                    };
                    assert_eq!(f.closing(g, v), if g == 0 && v == 0 { ALWAYS } else { expected });
                }
            }
        }
    }

    #[test]
    fn reference_lines_of_the_field() {
        let f = Field::new(19);
        let counts: Vec<u32> = (0..16).map(|a| f.xor_count(a)).collect();
        assert_eq!(counts, [0, 0, 1, 5, 2, 6, 5, 9, 3, 1, 8, 6, 5, 3, 8, 6]);
        assert_eq!((f.product(2, 9), f.product(8, 15)), (1, 1));
        let g = Field::new(31);
        assert_eq!((0..5).fold(1, |power, _| g.product(power, 2)), 1);
    }

    /// FIPS 197 (2001), section 4.2.1: {57} doubled again and again, and two products, with the sum after each bit.
    #[test]
    fn worked_example_of_the_standard() {
        let f = Field::new(0x11b);
        let doubled: Vec<u8> = (0..8).map(|k| f.product(0x57, 1 << k)).collect();
        assert_eq!(doubled, [0x57, 0xae, 0x47, 0x8e, 0x07, 0x0e, 0x1c, 0x38]);
        assert!(doubled.windows(2).all(|pair| f.product(pair[0], 2) == pair[1]));
        let sums = |b: u8| [1, 2, 4, 5, 8].map(|k| f.product(0x57, (b as u16 % (1 << k)) as u8));
        assert_eq!(sums(0x13), [0x57, 0xf9, 0xf9, 0xfe, 0xfe]);
        assert_eq!(sums(0x83), [0x57, 0xf9, 0xf9, 0xf9, 0xc1]);
    }

    /// Doubling as that section has it: a left shift, and where the degree is reached the polynomial is subtracted.
    #[test]
    fn products_are_sums_of_doubled_values() {
        for p in sieve() {
            let f = Field::new(p);
            let double = |x: u32| (x << 1) ^ if (x << 1) >> f.degree & 1 == 1 { p } else { 0 };
            for a in 0..f.size as u8 {
                let doubled: Vec<u32> =
                    std::iter::successors(Some(a as u32), |&x| Some(double(x))).take(f.degree).collect();
                for b in 0..f.size as u8 {
                    let selected = (0..f.degree).filter(|k| b >> k & 1 == 1);
                    assert_eq!(f.product(a, b) as u32, selected.fold(0, |sum, k| sum ^ doubled[k]));
                }
            }
        }
    }
}
