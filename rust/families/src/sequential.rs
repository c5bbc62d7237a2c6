//! The sequential run, link by link.

use crate::communities::{listing_in, listing_space, most_communities, Community};
use crate::lent::{self, Run, Started, State};
use crate::refused::Refused;
use crate::tables::{Space, Tables, JOURNAL_ENTRIES};

/// A run in progress: its state, and the tables and journal that belong to it.
#[derive(Clone, Debug)]
pub struct Sequential {
    state: State,
    tables: Tables,
    journal: Vec<u64>,
}

impl Sequential {
    /// Starts a run with no links.
    pub fn start(p: usize, k: usize, space: Space) -> Result<Sequential, Refused> {
        let mut tables = Tables::new(space.slots(Run::Sequential, p, k));
        let mut journal = vec![0; JOURNAL_ENTRIES];
        let started = lent::start(p, k, tables.as_mut(), &mut journal);
        started.outcome.accepted()?;
        Ok(Sequential {
            state: started.state,
            tables,
            journal,
        })
    }

    /// Adds a link; a refused one leaves the run as it was.
    pub fn insert(&mut self, lower: usize, higher: usize, weight: u16) -> Result<(), Refused> {
        let (tables, journal) = (self.tables.as_mut(), &mut self.journal);
        let after = lent::insert(self.state, tables, journal, lower, higher, weight);
        self.settle(after)
    }

    /// Takes the last link back; with no link left it is refused (19).
    pub fn take_back(&mut self) -> Result<(), Refused> {
        let (tables, journal) = (self.tables.as_mut(), &mut self.journal);
        let after = lent::take_back(self.state, tables, journal);
        self.settle(after)
    }

    fn settle(&mut self, after: Started) -> Result<(), Refused> {
        self.state = after.state;
        after.outcome.accepted().map(|_| ())
    }

    /// The communities of the links that remain.
    pub fn listing_now(&self) -> Result<Vec<Community>, Refused> {
        let State { used, k, .. } = self.state;
        let mut out = listing_space(most_communities(used, k));
        let outcome = lent::listing_now(self.state, self.tables.as_ref(), &mut out).accepted()?;
        Ok(listing_in(out, outcome.count))
    }

    /// The links that remain, in their order: lower part, higher part, weight.
    pub fn links(&self) -> Vec<(usize, usize, u16)> {
        let part = |entry: u64| usize::from(entry as u16);
        self.journal[..self.state.links]
            .iter()
            .map(|&entry| (part(entry >> 32), part(entry >> 16), entry as u16))
            .collect()
    }

    pub fn used_slots(&self) -> usize {
        self.state.used
    }
}
