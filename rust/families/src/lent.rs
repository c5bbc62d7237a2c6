//! The calls of the C interface one by one, over space that the caller
//! lends. Each answers with the library's own outcome.
//!
//! Every call is safe for any arguments: the library is total, a Rust slice
//! is never null and always aligned, and a slice that the library writes is
//! borrowed mutably, so that it overlaps no other.

use crate::ffi;
use crate::refused::Refused;
use crate::tables::{CliquesMut, TablesMut, TablesRef};

pub use crate::ffi::{Mean, Need, Outcome, Started, State};

/// Which of the two runs a call goes through.
#[derive(Clone, Copy, Debug, PartialEq, Eq)]
pub enum Run {
    Sequential,
    Maximal,
}

/// What a clique is measured by, with the threshold that it must reach.
#[derive(Clone, Copy, Debug, PartialEq)]
pub enum Measure {
    /// The weight of its weakest link.
    Weakest(u16),
    /// The product of its link weights as a float, pairs by lower then higher
    /// part, each product rounded once. For k 2 to 4.
    Product(f64),
}

impl Outcome {
    /// The outcome if it is accepted, else the refusal in it.
    pub fn accepted(self) -> Result<Outcome, Refused> {
        match self.number {
            0 => Ok(self),
            number => Err(Refused {
                number,
                place: self.place,
            }),
        }
    }
}

/// Reads a sheet; `count` is the number of links, `parts` that of parts.
pub fn read(
    sheet: &[u8],
    names: &mut [u8],
    lower: &mut [u16],
    higher: &mut [u16],
    weights: &mut [u16],
) -> Outcome {
    unsafe {
        ffi::families_read(
            sheet.as_ptr(),
            sheet.len(),
            names.as_mut_ptr(),
            names.len(),
            lower.as_mut_ptr(),
            lower.len(),
            higher.as_mut_ptr(),
            higher.len(),
            weights.as_mut_ptr(),
            weights.len(),
        )
    }
}

/// Writes a network as a sheet; `count` is its length in bytes.
pub fn write(
    names: &[u8],
    lower: &[u16],
    higher: &[u16],
    weights: &[u16],
    out: &mut [u8],
) -> Outcome {
    unsafe {
        ffi::families_write(
            names.as_ptr(),
            names.len(),
            lower.as_ptr(),
            lower.len(),
            higher.as_ptr(),
            higher.len(),
            weights.as_ptr(),
            weights.len(),
            out.as_mut_ptr(),
            out.len(),
        )
    }
}

/// Makes a sheet from a sensor dump; `count` is its length in bytes.
pub fn dump_sheet(dump: &[u8], out: &mut [u8]) -> Outcome {
    unsafe { ffi::families_dump_sheet(dump.as_ptr(), dump.len(), out.as_mut_ptr(), out.len()) }
}

/// Finds a part's name; `count` is where its eight bytes start.
pub fn name(sheet: &[u8], part: usize) -> Outcome {
    unsafe { ffi::families_name(sheet.as_ptr(), sheet.len(), part) }
}

/// The slot bound of p and k, in `count`.
pub fn slot_bound(p: usize, k: usize) -> Outcome {
    unsafe { ffi::families_slot_bound(p, k) }
}

/// C(n, r) for n 0 to 64 and r 0 to 6 in `count`, 0 outside.
pub fn subset_count(n: usize, r: usize) -> Outcome {
    unsafe { ffi::families_subset_count(n, r) }
}

/// Starts a sequential run; a refused start gives a state of zeros and
/// leaves tables and journal.
pub fn start(p: usize, k: usize, tables: TablesMut, journal: &mut [u64]) -> Started {
    unsafe {
        ffi::families_start(
            p,
            k,
            tables.sets.as_mut_ptr(),
            tables.sets.len(),
            tables.entries.as_mut_ptr(),
            tables.entries.len(),
            tables.smallest.as_mut_ptr(),
            tables.smallest.len(),
            tables.unions.as_mut_ptr(),
            tables.unions.len(),
            journal.as_mut_ptr(),
            journal.len(),
        )
    }
}

/// Adds a link. A refused insert gives back its state and leaves tables and
/// journal.
pub fn insert(
    state: State,
    tables: TablesMut,
    journal: &mut [u64],
    lower: usize,
    higher: usize,
    weight: u16,
) -> Started {
    unsafe {
        ffi::families_insert(
            state,
            tables.sets.as_mut_ptr(),
            tables.sets.len(),
            tables.entries.as_mut_ptr(),
            tables.entries.len(),
            tables.smallest.as_mut_ptr(),
            tables.smallest.len(),
            tables.unions.as_mut_ptr(),
            tables.unions.len(),
            journal.as_mut_ptr(),
            journal.len(),
            lower,
            higher,
            weight,
        )
    }
}

/// Takes the last link back. A refused taking back gives back its state and
/// leaves tables and journal.
pub fn take_back(state: State, tables: TablesMut, journal: &mut [u64]) -> Started {
    unsafe {
        ffi::families_take_back(
            state,
            tables.sets.as_mut_ptr(),
            tables.sets.len(),
            tables.entries.as_mut_ptr(),
            tables.entries.len(),
            tables.smallest.as_mut_ptr(),
            tables.smallest.len(),
            tables.unions.as_mut_ptr(),
            tables.unions.len(),
            journal.as_mut_ptr(),
            journal.len(),
        )
    }
}

/// The listing of the links that remain; `count` is the number of communities.
pub fn listing_now(state: State, tables: TablesRef, out: &mut [u8]) -> Outcome {
    unsafe {
        ffi::families_listing_now(
            state,
            tables.sets.as_ptr(),
            tables.sets.len(),
            tables.entries.as_ptr(),
            tables.entries.len(),
            tables.smallest.as_ptr(),
            tables.smallest.len(),
            tables.unions.as_ptr(),
            tables.unions.len(),
            out.as_mut_ptr(),
            out.len(),
        )
    }
}

/// The listing of a sheet at t; `count` is the number of communities.
pub fn listing(
    run: Run,
    sheet: &[u8],
    k: usize,
    t: u16,
    tables: TablesMut,
    out: &mut [u8],
) -> Outcome {
    let call = match run {
        Run::Sequential => ffi::families_listing_sequential,
        Run::Maximal => ffi::families_listing_maximal,
    };
    unsafe {
        call(
            sheet.as_ptr(),
            sheet.len(),
            k,
            t,
            tables.sets.as_mut_ptr(),
            tables.sets.len(),
            tables.entries.as_mut_ptr(),
            tables.entries.len(),
            tables.smallest.as_mut_ptr(),
            tables.smallest.len(),
            tables.unions.as_mut_ptr(),
            tables.unions.len(),
            out.as_mut_ptr(),
            out.len(),
        )
    }
}

/// The listing of a sheet by clique strength; `count` is the number of
/// communities.
pub fn strong_listing(
    sheet: &[u8],
    k: usize,
    measure: Measure,
    cliques: CliquesMut,
    tables: TablesMut,
    out: &mut [u8],
) -> Outcome {
    macro_rules! call {
        ($function:ident, $threshold:expr) => {
            unsafe {
                ffi::$function(
                    sheet.as_ptr(),
                    sheet.len(),
                    k,
                    $threshold,
                    cliques.sets.as_mut_ptr(),
                    cliques.sets.len(),
                    cliques.products.as_mut_ptr(),
                    cliques.products.len(),
                    tables.sets.as_mut_ptr(),
                    tables.sets.len(),
                    tables.entries.as_mut_ptr(),
                    tables.entries.len(),
                    tables.smallest.as_mut_ptr(),
                    tables.smallest.len(),
                    tables.unions.as_mut_ptr(),
                    tables.unions.len(),
                    out.as_mut_ptr(),
                    out.len(),
                )
            }
        };
    }
    match measure {
        Measure::Weakest(t) => call!(families_listing_weakest, t),
        Measure::Product(t) => call!(families_listing_product, t),
    }
}

/// The meeting weight of two k-cliques in `count`, 0 for never.
pub fn meeting(run: Run, sheet: &[u8], k: usize, a: u64, b: u64, tables: TablesMut) -> Outcome {
    let call = match run {
        Run::Sequential => ffi::families_meeting_sequential,
        Run::Maximal => ffi::families_meeting_maximal,
    };
    unsafe {
        call(
            sheet.as_ptr(),
            sheet.len(),
            k,
            a,
            b,
            tables.sets.as_mut_ptr(),
            tables.sets.len(),
            tables.entries.as_mut_ptr(),
            tables.entries.len(),
            tables.smallest.as_mut_ptr(),
            tables.smallest.len(),
            tables.unions.as_mut_ptr(),
            tables.unions.len(),
        )
    }
}

/// The mean link weight of a k-clique's family at t; `count` is the number
/// of links.
pub fn family_mean(sheet: &[u8], k: usize, t: u16, clique: u64, tables: TablesMut) -> Mean {
    unsafe {
        ffi::families_family_mean(
            sheet.as_ptr(),
            sheet.len(),
            k,
            t,
            clique,
            tables.sets.as_mut_ptr(),
            tables.sets.len(),
            tables.entries.as_mut_ptr(),
            tables.entries.len(),
            tables.smallest.as_mut_ptr(),
            tables.smallest.len(),
            tables.unions.as_mut_ptr(),
            tables.unions.len(),
        )
    }
}

/// What the sequential run needs of a sheet at t: k-cliques, joins, slots.
pub fn needed(sheet: &[u8], k: usize, t: u16) -> Need {
    unsafe { ffi::families_needed(sheet.as_ptr(), sheet.len(), k, t) }
}

/// Writes the sheet of p parts with all pairs linked at weight 1; `count` is
/// its length in bytes.
pub fn fullest_sheet(p: usize, k: usize, out: &mut [u8]) -> Outcome {
    unsafe { ffi::families_fullest_sheet(p, k, out.as_mut_ptr(), out.len()) }
}

/// The merge tree; `count` is the number of lines.
pub fn tree(sheet: &[u8], k: usize, tables: TablesMut, out: &mut [u8]) -> Outcome {
    unsafe {
        ffi::families_tree(
            sheet.as_ptr(),
            sheet.len(),
            k,
            tables.sets.as_mut_ptr(),
            tables.sets.len(),
            tables.entries.as_mut_ptr(),
            tables.entries.len(),
            tables.smallest.as_mut_ptr(),
            tables.smallest.len(),
            tables.unions.as_mut_ptr(),
            tables.unions.len(),
            out.as_mut_ptr(),
            out.len(),
        )
    }
}

/// How many rows tree lines take on a page of 72 columns; `count` is the
/// number of rows.
pub fn page_rows(sheet: &[u8], lines: &[u8]) -> Outcome {
    unsafe { ffi::families_page_rows(sheet.as_ptr(), sheet.len(), lines.as_ptr(), lines.len()) }
}

/// Writes that page; `count` is the number of rows, of 73 bytes each.
pub fn page(sheet: &[u8], lines: &[u8], out: &mut [u8]) -> Outcome {
    unsafe {
        ffi::families_page(
            sheet.as_ptr(),
            sheet.len(),
            lines.as_ptr(),
            lines.len(),
            out.as_mut_ptr(),
            out.len(),
        )
    }
}
