//! Space lent to a call, with guard cells on both sides.

use std::fmt::Debug;

use families::{TablesMut, TablesRef};
use reference::random::Random;

/// What lent space is made of.
pub trait Cell: Copy + PartialEq + Debug + Default {
    fn random(random: &mut Random) -> Self;
}

macro_rules! cell {
    ($($number:ty)*) => {
        $(impl Cell for $number {
            fn random(random: &mut Random) -> Self {
                random.number() as $number
            }
        })*
    };
}

cell!(u8 u16 u32 u64);

/// Cells to lend. Guards and junk are random, so that a call that reads what
/// isn't its own gives a random answer.
#[derive(Clone, Debug)]
pub struct Guarded<T> {
    cells: Vec<T>,
    before: Vec<T>,
    guard: usize,
}

impl<T: Cell> Guarded<T> {
    /// Cells of random content.
    pub fn junk(random: &mut Random, length: usize) -> Guarded<T> {
        // An odd guard puts bytes at an odd address.
        let guard = random.within(4, 9);
        let cells: Vec<T> = (0..length + 2 * guard).map(|_| T::random(random)).collect();
        Guarded {
            before: cells.clone(),
            cells,
            guard,
        }
    }

    /// Cells that hold the values.
    pub fn holding(random: &mut Random, values: &[T]) -> Guarded<T> {
        let mut guarded = Guarded::junk(random, values.len());
        guarded.get_mut().copy_from_slice(values);
        guarded.settle();
        guarded
    }

    /// Cells of another length that begin with the same values.
    pub fn resized(&self, random: &mut Random, length: usize) -> Guarded<T> {
        let mut guarded = Guarded::junk(random, length);
        let same = length.min(self.get().len());
        guarded.get_mut()[..same].copy_from_slice(&self.get()[..same]);
        guarded.settle();
        guarded
    }

    fn end(&self) -> usize {
        self.cells.len() - self.guard
    }

    pub fn get(&self) -> &[T] {
        &self.cells[self.guard..self.end()]
    }

    pub fn get_mut(&mut self) -> &mut [T] {
        let end = self.end();
        &mut self.cells[self.guard..end]
    }

    /// Takes the cells as they are for those before the next call.
    pub fn settle(&mut self) {
        self.before.clone_from(&self.cells);
    }

    /// What is wrong, unless the cells begin with `expected` and all others
    /// are as they were.
    pub fn check(&self, what: &str, expected: &[T]) -> Result<(), String> {
        let (start, end) = (self.guard, self.guard + expected.len());
        let same = |range: std::ops::Range<usize>| self.cells[range.clone()] == self.before[range];
        if !same(0..start) || !same(self.end()..self.cells.len()) {
            return Err(format!("a cell beside the {what} was written"));
        }
        if self.cells[start..end] != *expected {
            let found = &self.cells[start..end];
            return Err(format!(
                "{what}: expected {expected:02x?}, found {found:02x?}"
            ));
        }
        if !same(end..self.end()) {
            return Err(format!("more was written to the {what} than the answer"));
        }
        Ok(())
    }

    pub fn check_guards(&self, what: &str) -> Result<(), String> {
        self.check(what, self.get())
    }

    pub fn check_zero(&self, what: &str) -> Result<(), String> {
        self.check(what, &vec![T::default(); self.get().len()])
    }
}

/// The four tables, guarded.
#[derive(Clone, Debug)]
pub struct GuardedTables {
    pub sets: Guarded<u64>,
    pub entries: Guarded<u32>,
    pub smallest: Guarded<u64>,
    pub unions: Guarded<u64>,
}

impl GuardedTables {
    pub fn junk(random: &mut Random, lengths: [usize; 4]) -> GuardedTables {
        GuardedTables {
            sets: Guarded::junk(random, lengths[0]),
            entries: Guarded::junk(random, lengths[1]),
            smallest: Guarded::junk(random, lengths[2]),
            unions: Guarded::junk(random, lengths[3]),
        }
    }

    pub fn lengths(&self) -> [usize; 4] {
        [
            self.sets.get().len(),
            self.entries.get().len(),
            self.smallest.get().len(),
            self.unions.get().len(),
        ]
    }

    pub fn lend_mut(&mut self) -> TablesMut<'_> {
        TablesMut {
            sets: self.sets.get_mut(),
            entries: self.entries.get_mut(),
            smallest: self.smallest.get_mut(),
            unions: self.unions.get_mut(),
        }
    }

    pub fn lend(&self) -> TablesRef<'_> {
        TablesRef {
            sets: self.sets.get(),
            entries: self.entries.get(),
            smallest: self.smallest.get(),
            unions: self.unions.get(),
        }
    }

    pub fn settle(&mut self) {
        self.sets.settle();
        self.entries.settle();
        self.smallest.settle();
        self.unions.settle();
    }

    pub fn check_untouched(&self) -> Result<(), String> {
        self.sets.check("sets", &[])?;
        self.entries.check("entries", &[])?;
        self.smallest.check("smallest cliques", &[])?;
        self.unions.check("unions", &[])
    }

    pub fn check_zero(&self) -> Result<(), String> {
        self.sets.check_zero("sets")?;
        self.entries.check_zero("entries")?;
        self.smallest.check_zero("smallest cliques")?;
        self.unions.check_zero("unions")
    }

    pub fn check_guards(&self) -> Result<(), String> {
        self.sets.check_guards("sets")?;
        self.entries.check_guards("entries")?;
        self.smallest.check_guards("smallest cliques")?;
        self.unions.check_guards("unions")
    }
}

/// What the steps are lent: the four tables and the journal, guarded.
#[derive(Clone, Debug)]
pub struct StepSpace {
    pub tables: GuardedTables,
    pub journal: Guarded<u64>,
}

impl StepSpace {
    pub fn junk(random: &mut Random, lengths: [usize; 4], journal: usize) -> StepSpace {
        StepSpace {
            tables: GuardedTables::junk(random, lengths),
            journal: Guarded::junk(random, journal),
        }
    }

    /// Tables and a journal of other lengths that begin with the same cells.
    pub fn resized(&self, random: &mut Random, lengths: [usize; 4], journal: usize) -> StepSpace {
        let tables = &self.tables;
        StepSpace {
            tables: GuardedTables {
                sets: tables.sets.resized(random, lengths[0]),
                entries: tables.entries.resized(random, lengths[1]),
                smallest: tables.smallest.resized(random, lengths[2]),
                unions: tables.unions.resized(random, lengths[3]),
            },
            journal: self.journal.resized(random, journal),
        }
    }

    pub fn settle(&mut self) {
        self.tables.settle();
        self.journal.settle();
    }

    pub fn check_untouched(&self) -> Result<(), String> {
        self.tables.check_untouched()?;
        self.journal.check("journal", &[])
    }

    pub fn check_zero(&self) -> Result<(), String> {
        self.tables.check_zero()?;
        self.journal.check_zero("journal")
    }

    pub fn check_guards(&self) -> Result<(), String> {
        self.tables.check_guards()?;
        self.journal.check_guards("journal")
    }
}
