//! Tree lines on a page of 72 columns: their checks in order, and its rows,
//! by padded text.

use crate::calls::{Expected, Left};
use crate::fast::parts;
use crate::network::{Network, LINE};
use crate::sheets::{demand, pair, parse, Refusal};

/// What a page shows of a tree line: its weight and its union.
#[derive(Clone, Copy, Debug, PartialEq, Eq)]
pub struct Shown {
    pub weight: u16,
    pub union: u64,
}

fn shown(line: &[u8]) -> Shown {
    Shown {
        weight: pair(line),
        union: u64::from_be_bytes(line[LINE - 8..].try_into().expect("eight bytes")),
    }
}

/// Every line in some bytes, or 24.
fn lines_of(bytes: &[u8], p: usize) -> Result<Vec<Shown>, Refusal> {
    demand(bytes.len() % LINE == 0, 24, 0)?;
    demand(bytes.len() / LINE <= 999_999, 24, 0)?;
    let lines: Vec<Shown> = bytes.chunks(LINE).map(shown).collect();
    let known = |line: &Shown| parts(line.union).all(|part| part < p);
    demand(lines.iter().all(known), 24, 0)?;
    Ok(lines)
}

/// The rows of one line, each of 72 columns.
fn line_rows(network: &Network, number: usize, line: Shown) -> Vec<String> {
    let names: Vec<String> = parts(line.union)
        .map(|part| String::from_utf8_lossy(&network.names[part]).into_owned())
        .collect();
    let mut rows: Vec<String> = names
        .chunks(6)
        .map(|six| six.iter().map(|name| format!("{name:<10}")).collect())
        .collect();
    if rows.is_empty() {
        rows.push(String::new());
    }
    let front = format!("{number:>6}{:>6}", line.weight);
    let fronts = std::iter::once(front).chain(std::iter::repeat(String::new()));
    rows.into_iter()
        .zip(fronts)
        .map(|(names, front)| format!("{front:<12}{names:<60}"))
        .collect()
}

/// The rows of the page, or the first refusal: the sheet's, then 24.
pub fn page_rows(sheet: &[u8], lines: &[u8]) -> Result<Vec<String>, Refusal> {
    let network = parse(sheet)?;
    let lines = lines_of(lines, network.names.len())?;
    let rows = |(place, line): (usize, &Shown)| line_rows(&network, place + 1, *line);
    Ok(lines.iter().enumerate().flat_map(rows).collect())
}

/// The page, with an output of this length.
pub fn page(sheet: &[u8], lines: &[u8], out: usize) -> Expected {
    match page_rows(sheet, lines) {
        Err(refusal) => Expected::refused(refusal, Left::Untouched),
        Ok(rows) => {
            let bytes: Vec<u8> = rows
                .iter()
                .flat_map(|row| format!("{row}\n").into_bytes())
                .collect();
            Expected::written(rows.len(), bytes, out, Left::Untouched)
        }
    }
}
