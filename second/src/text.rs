//! Request and answer texts: numbers in six columns, sixteen values to a line.

/// The longest text.
pub const LONGEST: usize = 4096;

const COLUMNS: usize = 6;
const VALUES_IN_A_LINE: usize = 16;

/// The kind whose line one has a fifth number, the budget.
const WALK: u32 = 6;

/// A request in form; whether its numbers are allowed is not said.
#[derive(Debug, PartialEq, Eq)]
pub struct Request {
    pub kind: u32,
    pub polynomial: u32,
    pub order: u32,
    pub count: u32,
    /// Of a walk; 0 in every other kind.
    pub budget: u32,
    pub values: Vec<u32>,
}

/// The request of a text in form, nothing for any other text.
pub fn read_request(text: &[u8]) -> Option<Request> {
    if text.len() > LONGEST {
        return None;
    }
    let mut reader = Reader { text, at: 0 };
    let kind = reader.number()?;
    let polynomial = reader.number()?;
    let order = reader.number()?;
    let count = reader.number()?;
    let budget = if kind == WALK { reader.number()? } else { 0 };
    reader.line_end()?;
    let values = reader.values(count)?;
    (reader.at == text.len()).then_some(Request { kind, polynomial, order, count, budget, values })
}

struct Reader<'a> {
    text: &'a [u8],
    at: usize,
}

impl Reader<'_> {
    /// The number in the next six columns.
    fn number(&mut self) -> Option<u32> {
        let columns = self.text.get(self.at..self.at + COLUMNS)?;
        self.at += COLUMNS;
        number_of(columns)
    }

    fn line_end(&mut self) -> Option<()> {
        let byte = *self.text.get(self.at)?;
        self.at += 1;
        (byte == b'\n').then_some(())
    }

    /// Exactly `count` values: a line ends after each sixteenth and after the last.
    fn values(&mut self, count: u32) -> Option<Vec<u32>> {
        let mut values = Vec::new();
        for k in 1..=count as usize {
            values.push(self.number()?);
            if k % VALUES_IN_A_LINE == 0 || k == count as usize {
                self.line_end()?;
            }
        }
        Some(values)
    }
}

/// Spaces, then digits up to the last column, at least one; a leading 0 only as the number 0.
fn number_of(columns: &[u8]) -> Option<u32> {
    let start = columns.iter().position(|&b| b != b' ')?;
    let digits = &columns[start..];
    let leading_zero = digits[0] == b'0' && digits.len() > 1;
    if leading_zero || !digits.iter().all(u8::is_ascii_digit) {
        return None;
    }
    Some(digits.iter().fold(0, |n, d| 10 * n + (d - b'0') as u32))
}

/// One line of numbers, each in six columns.
pub fn line_of(numbers: &[u32]) -> String {
    let mut line: String = numbers.iter().map(|n| format!("{n:6}")).collect();
    line.push('\n');
    line
}

#[cfg(test)]
mod tests {
    use super::*;

    /// The one text of a request.
    fn text_of(head: &[u32], values: &[u32]) -> String {
        values.chunks(VALUES_IN_A_LINE).fold(line_of(head), |text, line| text + &line_of(line))
    }

    /// The numbers of line one.
    fn head_of(r: &Request) -> Vec<u32> {
        let four = vec![r.kind, r.polynomial, r.order, r.count];
        if r.kind == 6 {
            [four, vec![r.budget]].concat()
        } else {
            four
        }
    }

    #[test]
    fn what_is_written_is_read_back() {
        for count in [0, 1, 2, 15, 16, 17, 31, 32, 33, 255, 671] {
            let values: Vec<u32> = (0..count).map(|k| k * 1487 % 1000000).collect();
            let text = text_of(&[1, 999999, 0, count], &values);
            assert_eq!(text.len(), 25 + 6 * count as usize + (count as usize).div_ceil(16));
            let read = read_request(text.as_bytes()).unwrap();
            assert_eq!((read.kind, read.polynomial, read.order, read.count), (1, 999999, 0, count));
            assert_eq!((read.budget, read.values), (0, values));
        }
        assert_eq!(read_request(text_of(&[1, 19, 4, 672], &[1; 672]).as_bytes()), None);
    }

    /// Its line one has five numbers, so one value fewer fits.
    #[test]
    fn a_walk_has_a_budget() {
        for count in [0, 1, 16, 17, 255, 670] {
            for budget in [0, 1, 999999] {
                let values: Vec<u32> = (0..count).map(|k| k * 1487 % 1000000).collect();
                let text = text_of(&[6, 19, 4, count, budget], &values);
                let read = read_request(text.as_bytes()).unwrap();
                assert_eq!((head_of(&read), read.values), (vec![6, 19, 4, count, budget], values));
            }
        }
        assert_eq!(read_request(text_of(&[6, 19, 4, 671, 0], &[1; 671]).as_bytes()), None);
    }

    #[test]
    fn only_a_walk_has_five_numbers_in_line_one() {
        for kind in [0, 1, 2, 3, 4, 5, 6, 8, 9, 60, 66, 600000, 999999] {
            for values in [&[][..], &[1], &[1, 4, 9, 13]] {
                let count = values.len() as u32;
                let is_read = |head: &[u32]| read_request(text_of(head, values).as_bytes()).is_some();
                assert_eq!(is_read(&[kind, 19, 4, count]), kind != 6);
                assert_eq!(is_read(&[kind, 19, 4, count, 1]), kind == 6);
                assert!(!is_read(&[kind, 19, 4, count, 1, 1]) && !is_read(&[kind, 19, 4]));
            }
        }
    }

    /// What is accepted is the one text of its numbers: every text one byte away is read as other numbers or not.
    #[test]
    fn what_is_read_is_the_text() {
        for head in [&[1, 19, 4, 4][..], &[6, 19, 4, 4, 24]] {
            let text = text_of(head, &[1, 4, 9, 13]).into_bytes();
            for at in 0..text.len() {
                for byte in 0..=255 {
                    let mut changed = text.clone();
                    changed[at] = byte;
                    if let Some(r) = read_request(&changed) {
                        assert_eq!(text_of(&head_of(&r), &r.values).into_bytes(), changed);
                    }
                }
                let mut shorter = text.clone();
                shorter.remove(at);
                assert_eq!(read_request(&shorter), None);
                let mut longer = text.clone();
                longer.insert(at, b' ');
                assert_eq!(read_request(&longer), None);
            }
        }
    }

    #[test]
    fn numbers_out_of_form() {
        for columns in [
            "      ", "    01", "000000", "12    ", "   1 2", "    -1", "    +1", "  0x13", "\t    1",
            "     \0",
        ] {
            assert_eq!(number_of(columns.as_bytes()), None, "{columns:?}");
        }
        assert_eq!(number_of(b"     0"), Some(0));
        assert_eq!(number_of(b"999999"), Some(999999));
    }
}
