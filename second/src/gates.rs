//! The gate list of a matrix: two-input XORs that join input bits to each output bit, none shared between outputs.
//!
//! The bit matrix is made column by column: column v is the output for the input in which bit v alone is 1. Then it is
//! read line by line: an output bit joins the inputs that its line names, from the lowest number up.

use crate::field::Field;
use crate::matrix::{Matrix, MOST};
use crate::text::line_of;

/// Stands in the text for the carrier of an output bit that is always 0.
const ALWAYS_ZERO: u32 = 999999;

/// Input bit k of word j has the number j·m + k; the gates are numbered on from the number of input bits.
#[derive(PartialEq, Eq, Debug)]
pub struct Netlist {
    inputs: u32,
    /// The two numbers that each gate joins: the running result, then the input.
    gates: Vec<[u32; 2]>,
    /// The number that carries each output bit; none where the bit is always 0.
    carriers: Vec<Option<u32>>,
}

impl Netlist {
    /// The list of a matrix: outputs in ascending order.
    pub fn of(field: &Field, matrix: &Matrix) -> Netlist {
        let lines = bit_matrix(field, matrix);
        let mut list = Netlist { inputs: lines.len() as u32, gates: Vec::new(), carriers: Vec::new() };
        for line in lines {
            let joined = (0..list.inputs).filter(|v| line >> v & 1 == 1);
            let carrier = joined.reduce(|running, input| list.join(running, input));
            list.carriers.push(carrier);
        }
        list
    }

    /// One gate more; its number.
    fn join(&mut self, running: u32, input: u32) -> u32 {
        self.gates.push([running, input]);
        self.inputs + self.gates.len() as u32 - 1
    }

    /// The answer text: 0 and the number of gates, a line for each gate, a line for each output bit.
    pub fn text(&self) -> String {
        let head = line_of(&[0, self.gates.len() as u32]);
        let gates = self.gates.iter().map(|gate| line_of(gate));
        let carriers = self.carriers.iter().map(|carrier| line_of(&[carrier.unwrap_or(ALWAYS_ZERO)]));
        std::iter::once(head).chain(gates).chain(carriers).collect()
    }
}

/// A line for each output bit: bit v of it is 1 where the output bit joins input bit v.
fn bit_matrix(field: &Field, matrix: &Matrix) -> Vec<u64> {
    let size = matrix.order * field.degree;
    let mut lines = vec![0; size];
    for v in 0..size {
        let column = bits_of(field, &matrix.apply(field, &words_of(field, 1 << v)));
        lines.iter_mut().enumerate().for_each(|(output, line)| *line |= (column >> output & 1) << v);
    }
    lines
}

/// The words whose bits stand in a number one word after the other, bit k of word j at j·m + k.
fn words_of(field: &Field, bits: u64) -> [u8; MOST] {
    std::array::from_fn(|j| (bits >> (j * field.degree)) as u8 & (field.size - 1) as u8)
}

/// The number in which the bits of these words stand.
fn bits_of(field: &Field, words: &[u8; MOST]) -> u64 {
    words.iter().rev().fold(0, |bits, &word| bits << field.degree | u64::from(word))
}

#[cfg(test)]
mod tests {
    use super::*;
    use crate::brute;
    use crate::field::irreducible;

    /// A list read from its text.
    fn read(inputs: usize, text: &str) -> Netlist {
        let numbers = |line: &str| -> Vec<u32> {
            line.as_bytes()
                .chunks(6)
                .map(|n| std::str::from_utf8(n).unwrap().trim().parse().unwrap())
                .collect()
        };
        let mut lines = text.lines().map(numbers);
        let head = lines.next().unwrap();
        let gates = lines.by_ref().take(head[1] as usize).map(|gate| gate.try_into().unwrap()).collect();
        let carriers = lines.map(|line| Some(line[0]).filter(|&number| number != ALWAYS_ZERO)).collect();
        Netlist { inputs: inputs as u32, gates, carriers }
    }

    /// The output for an input, gate after gate; both as numbers of their bits.
    fn evaluate(list: &Netlist, input: u64) -> u64 {
        let mut wires: Vec<u64> = (0..list.inputs).map(|v| input >> v & 1).collect();
        for &[one, other] in &list.gates {
            wires.push(wires[one as usize] ^ wires[other as usize]);
        }
        let carried = |carrier: &Option<u32>| carrier.map_or(0, |number| wires[number as usize]);
        list.carriers.iter().rev().fold(0, |output, carrier| output << 1 | carried(carrier))
    }

    fn text_of(polynomial: u32, order: usize, entries: &[u8]) -> String {
        let matrix = Matrix::from_entries(order, |i, j| entries[i * order + j]);
        Netlist::of(&Field::new(polynomial), &matrix).text()
    }

    #[test]
    fn reference_lists_byte_for_byte() {
        let two_lines = concat!(
            "     0     4\n",
            "     1     2\n     4     3\n     0     1\n     6     2\n",
            "     5\n     7\n     2\n     3\n",
        );
        assert_eq!(text_of(7, 2, &[2, 3, 0, 1]), two_lines);
        assert_eq!(text_of(7, 1, &[3]), "     0     1\n     0     1\n     2\n     0\n");
        assert_eq!(text_of(7, 1, &[0]), "     0     0\n999999\n999999\n");
        assert_eq!(text_of(7, 2, &[1, 0, 0, 1]), "     0     0\n     0\n     1\n     2\n     3\n");
    }

    #[test]
    fn evaluated_on_every_input_it_gives_the_product() {
        brute::for_small_matrices(|field, matrix| {
            let list = read(matrix.order * field.degree, &Netlist::of(field, matrix).text());
            for input in brute::inputs(field, matrix.order) {
                let output = bits_of(field, &matrix.apply(field, &input));
                assert_eq!(evaluate(&list, bits_of(field, &input)), output, "{matrix:?} on {input:?}");
            }
        });
    }

    #[test]
    fn as_many_gates_as_the_matrix_counts() {
        brute::for_small_matrices(|field, matrix| {
            assert_eq!(Netlist::of(field, matrix).gates.len() as u32, matrix.count(field), "{matrix:?}");
        });
    }

    /// A gate joins two smaller numbers, the second an input; each gate is used once, by the next one or an output.
    #[test]
    fn in_order_and_nothing_shared() {
        brute::for_small_matrices(|field, matrix| {
            let list = Netlist::of(field, matrix);
            assert_eq!(list.carriers.len(), matrix.order * field.degree);
            let mut used: Vec<u32> = list.carriers.iter().flatten().copied().collect();
            for (k, &[running, input]) in list.gates.iter().enumerate() {
                let follows = running == list.inputs + k as u32 - 1;
                assert!(input < list.inputs && (follows || running < input), "{matrix:?}");
                used.push(running);
            }
            used.retain(|&number| number >= list.inputs);
            used.sort();
            assert!(used.into_iter().eq(list.inputs..list.inputs + list.gates.len() as u32), "{matrix:?}");
        });
    }

    #[test]
    fn what_is_written_is_read_back() {
        brute::for_small_matrices(|field, matrix| {
            let list = Netlist::of(field, matrix);
            let text = list.text();
            assert_eq!(text.len(), 13 + 13 * list.gates.len() + 7 * list.carriers.len());
            assert_eq!(read(list.carriers.len(), &text), list);
        });
    }

    /// The heaviest element of a degree, at every place of order 8, makes the longest list of the degree.
    #[test]
    fn the_longest_list() {
        let mut heaviest = [(0, 0, 0); 9];
        for p in (4..512).filter(|&p| irreducible(p)) {
            let field = Field::new(p);
            for a in 1..field.size as u32 {
                let (count, best) = (field.xor_count(a as u8), &mut heaviest[field.degree]);
                if count > best.0 {
                    *best = (count, p, a);
                }
            }
        }
        let found =
            [(1, 7, 2), (4, 11, 3), (9, 19, 7), (14, 37, 14), (23, 67, 23), (33, 131, 47), (42, 395, 251)];
        assert_eq!(heaviest[2..], found);
        for (m, (count, p, a)) in heaviest.into_iter().enumerate().skip(2) {
            let gates = 64 * count as usize + 56 * m;
            let text = text_of(p, MOST, &[a as u8; MOST * MOST]);
            assert!(text.starts_with(&line_of(&[0, gates as u32])));
            assert_eq!(text.len(), 13 + 13 * gates + 56 * m);
            assert!(m < 8 || (gates, text.len()) == (3136, 41229));
        }
    }
}
