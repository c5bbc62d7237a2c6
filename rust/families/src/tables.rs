//! The four tables that the runs work in, the clique list, and the length of a
//! journal.

use crate::lent::{self, Run};

/// No run uses more slots than this: it refuses instead.
pub const MOST_SLOTS: usize = 16_777_216;

/// A journal has an entry for each possible link: any other length is
/// refused (20).
pub const JOURNAL_ENTRIES: usize = 2_016;

/// How many slots to make room for.
#[derive(Clone, Copy, Debug, PartialEq, Eq)]
pub enum Space {
    /// The slot bound of the part count and k. The sequential run never
    /// needs more; the maximal-clique run can, and is then refused (15).
    Bound,
    /// At most so many slots.
    Slots(usize),
}

impl Space {
    /// The slots to make for a run. Where p or k is out of range the call
    /// itself will be refused, so no space is needed.
    pub(crate) fn slots(self, run: Run, p: usize, k: usize) -> usize {
        let bound = slot_bound_or_none(p, k);
        match (self, run) {
            (Space::Bound, _) => bound,
            (Space::Slots(limit), Run::Sequential) => limit.min(bound),
            (Space::Slots(limit), Run::Maximal) => limit.min(MOST_SLOTS),
        }
    }
}

pub(crate) fn slot_bound_or_none(p: usize, k: usize) -> usize {
    lent::slot_bound(p, k).accepted().map_or(0, |o| o.count)
}

/// The four tables, borrowed for a call that writes them.
#[derive(Debug)]
pub struct TablesMut<'a> {
    pub sets: &'a mut [u64],
    pub entries: &'a mut [u32],
    pub smallest: &'a mut [u64],
    pub unions: &'a mut [u64],
}

/// The four tables, borrowed for a call that only reads them.
#[derive(Clone, Copy, Debug)]
pub struct TablesRef<'a> {
    pub sets: &'a [u64],
    pub entries: &'a [u32],
    pub smallest: &'a [u64],
    pub unions: &'a [u64],
}

/// The clique list, borrowed for a call that writes it.
#[derive(Debug)]
pub struct CliquesMut<'a> {
    pub sets: &'a mut [u64],
    pub products: &'a mut [f64],
}

/// Room for k-cliques and their products, as many of the one as of the other.
#[derive(Clone, Debug, PartialEq)]
pub struct Cliques {
    sets: Vec<u64>,
    products: Vec<f64>,
}

impl Cliques {
    pub fn new(cliques: usize) -> Cliques {
        Cliques {
            sets: vec![0; cliques],
            products: vec![0.0; cliques],
        }
    }

    pub fn as_mut(&mut self) -> CliquesMut<'_> {
        CliquesMut {
            sets: &mut self.sets,
            products: &mut self.products,
        }
    }
}

/// Four tables of one length.
#[derive(Clone, Debug, PartialEq, Eq)]
pub struct Tables {
    sets: Vec<u64>,
    entries: Vec<u32>,
    smallest: Vec<u64>,
    unions: Vec<u64>,
}

impl Tables {
    pub fn new(slots: usize) -> Tables {
        Tables {
            sets: vec![0; slots],
            entries: vec![0; slots],
            smallest: vec![0; slots],
            unions: vec![0; slots],
        }
    }

    pub fn as_mut(&mut self) -> TablesMut<'_> {
        TablesMut {
            sets: &mut self.sets,
            entries: &mut self.entries,
            smallest: &mut self.smallest,
            unions: &mut self.unions,
        }
    }

    pub fn as_ref(&self) -> TablesRef<'_> {
        TablesRef {
            sets: &self.sets,
            entries: &self.entries,
            smallest: &self.smallest,
            unions: &self.unions,
        }
    }
}
