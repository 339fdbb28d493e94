//! A second row finder, written from the definitions alone, for comparison with `rowfind`.
//!
//! - `second` reads one request text on standard input and writes the answer text or the refusal's line.
//! - `second serve` reads requests one after another, each as its length in four bytes (lowest first) and its bytes,
//!   and writes each answer in the same form, until its input ends.
//! - `second calls` reads records of single calls and writes the record of each answer, until its input ends.
//! - `second light` reads a check and writes an input of least weight and its output, if it is not MDS.
//! - `second depth` reads a check and writes the depth of its first line; or a search, of either shape, or a walk, and
//!   writes the depth of the row that is found and of the one that would be found if depth did not count.

mod answer;
#[cfg(test)]
mod brute;
mod calls;
mod circulant;
mod distance;
mod field;
mod gates;
mod matrix;
mod search;
mod text;
mod walk;

use answer::Answerer;
use calls::Call;
use field::Fields;
use std::io::{self, Read, Write};

fn main() -> io::Result<()> {
    match std::env::args().nth(1).as_deref() {
        None => answer_one(),
        Some("serve") => serve(),
        Some("calls") => calls(),
        Some("light") => light(),
        Some("depth") => depth(),
        Some(other) => {
            eprintln!("second: unknown mode '{other}': none, serve, calls, light or depth");
            std::process::exit(2)
        }
    }
}

/// Standard input until its end or one byte more than the longest text. A failed read counts as the end.
fn read_text() -> Vec<u8> {
    let mut text = Vec::new();
    let _ = io::stdin().lock().take(text::LONGEST as u64 + 1).read_to_end(&mut text);
    text
}

fn answer_one() -> io::Result<()> {
    io::stdout().write_all(Answerer::default().answer(&read_text()).as_bytes())
}

fn serve() -> io::Result<()> {
    let (mut input, mut output) = (io::stdin().lock(), io::stdout().lock());
    let mut answerer = Answerer::default();
    let mut length = [0; 4];
    while input.read_exact(&mut length).is_ok() {
        let mut text = vec![0; u32::from_le_bytes(length) as usize];
        input.read_exact(&mut text)?;
        let answer = answerer.answer(&text);
        output.write_all(&(answer.len() as u32).to_le_bytes())?;
        output.write_all(answer.as_bytes())?;
        output.flush()?;
    }
    Ok(())
}

fn calls() -> io::Result<()> {
    let (mut input, mut output) = (io::stdin().lock(), io::BufWriter::new(io::stdout().lock()));
    let mut fields = Fields::default();
    let mut record = [0; calls::RECORD];
    while input.read_exact(&mut record).is_ok() {
        output.write_all(&calls::written(Call::read(&record).answer(&mut fields)))?;
    }
    output.flush()
}

fn light() -> io::Result<()> {
    let text = match Answerer::default().lightest_word(&read_text()) {
        Err(refusal) => format!("refused {refusal}\n"),
        Ok(None) => "none\n".to_string(),
        Ok(Some((input, output))) => format!("input {input:?}\noutput {output:?}\n"),
    };
    io::stdout().write_all(text.as_bytes())
}

fn depth() -> io::Result<()> {
    let spaced = |row: Vec<u8>| row.iter().map(u8::to_string).collect::<Vec<String>>().join(" ");
    let text = match Answerer::default().depths(&read_text()) {
        Err(refusal) => format!("refused {refusal}\n"),
        Ok(rows) => {
            rows.into_iter().map(|(depth, row)| format!("depth {depth} of {}\n", spaced(row))).collect()
        }
    };
    io::stdout().write_all(text.as_bytes())
}
