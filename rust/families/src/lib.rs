//! Families of parts that fail together: link sheets, k-clique percolation by
//! link weights or by clique strength, meeting weights, mean link weights and
//! the merge tree, by the proved library behind its C interface.
//!
//! The functions here make their own tables and outputs; those of [`lent`]
//! take the caller's. A refusal is [`Refused`], with a number, a place and a
//! sentence.

mod communities;
mod ffi;
pub mod lent;
mod refused;
mod sequential;
mod sheet;
mod tables;

pub use communities::{
    decode_listing, decode_tree, listing, mean, meeting, needed, page, strong_listing, tree,
    Community, Line, MeanWeight, Meeting, Needs,
};
pub use lent::{Measure, Run};
pub use refused::Refused;
pub use sequential::Sequential;
pub use sheet::{from_dump, fullest, name, read, write, Network};
pub use tables::{
    Cliques, CliquesMut, Space, Tables, TablesMut, TablesRef, JOURNAL_ENTRIES, MOST_SLOTS,
};

/// The most slots that the sequential run can need for p parts: C(p, k-1),
/// or none where p is below k.
pub fn slot_bound(p: usize, k: usize) -> Result<usize, Refused> {
    lent::slot_bound(p, k).accepted().map(|o| o.count)
}

/// C(n, r) for n 0 to 64 and r 0 to 6, and 0 outside.
pub fn subset_count(n: usize, r: usize) -> usize {
    lent::subset_count(n, r).count
}
