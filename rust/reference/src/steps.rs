//! The sequential run's steps: what a start, each insert and taking back of a
//! list and the listing now must answer, and what must stand in state, tables
//! and journal afterwards. All of it is made anew after each step, from the
//! links that remain.

use std::collections::HashSet;

use crate::calls::{good_k, level, Expected, Left, MOST_SLOTS};
use crate::fast::{self, Classes, Rows};
use crate::network::{listing_bytes, Community, Link};
use crate::sheets::{demand, good_part_count, LinksSoFar, Refusal};

/// A journal has an entry for each pair of 64 parts.
pub const JOURNAL_ENTRIES: usize = 64 * 63 / 2;

/// A step of a list.
#[derive(Clone, Copy, Debug, PartialEq, Eq)]
pub enum Step {
    /// Lower part, higher part, weight.
    Insert(usize, usize, u16),
    TakeBack,
}

impl From<Link> for Step {
    fn from(link: Link) -> Step {
        Step::Insert(link.lower.into(), link.higher.into(), link.weight)
    }
}

/// State, tables and journal as a step left them.
#[derive(Clone, Copy, Debug)]
pub struct Shown<'a> {
    pub p: usize,
    pub k: usize,
    pub used: usize,
    pub last: usize,
    pub links: usize,
    pub rows: &'a Rows,
    pub sets: &'a [u64],
    pub entries: &'a [u32],
    pub smallest: &'a [u64],
    pub unions: &'a [u64],
    pub journal: &'a [u64],
}

impl Shown<'_> {
    fn lengths(&self) -> [usize; 4] {
        [
            self.sets.len(),
            self.entries.len(),
            self.smallest.len(),
            self.unions.len(),
        ]
    }
}

/// Checks 4, 10, 11 and 20 of a start.
pub fn check_start(p: usize, k: usize, lengths: [usize; 4], journal: usize) -> Result<(), Refusal> {
    demand(good_part_count(p), 4, 0)?;
    demand(good_k(k), 10, 0)?;
    demand(level(lengths), 11, 0)?;
    demand(journal == JOURNAL_ENTRIES, 20, 0)
}

/// Checks 11 and 12, which come first after a start.
pub fn check_state(shown: Shown) -> Result<(), Refusal> {
    demand(level(shown.lengths()), 11, 0)?;
    let most = shown.sets.len().min(MOST_SLOTS);
    let in_range = good_k(shown.k) && good_part_count(shown.p) && shown.used <= most;
    demand(in_range, 12, 0)?;
    let mut used = shown.entries[..shown.used].iter().enumerate();
    demand(used.all(|(slot, &entry)| entry as usize <= slot), 12, 0)
}

/// What a step checks whatever list its state, tables and journal come from:
/// 11, 12 and 20, and 19 where a link is to be taken back.
pub fn check_step(shown: Shown, step: Step) -> Result<(), Refusal> {
    check_state(shown)?;
    demand(shown.journal.len() == JOURNAL_ENTRIES, 20, 0)?;
    demand(step != Step::TakeBack || shown.links > 0, 19, 0)
}

/// A list of inserts and takings back from an accepted start: the links that
/// remain, which follow from p, k, the tables' length and the steps alone.
#[derive(Clone, Debug)]
pub struct Steps {
    p: usize,
    k: usize,
    slots: usize,
    links: Vec<Link>,
    classes: Classes,
}

impl Steps {
    pub fn start(
        p: usize,
        k: usize,
        lengths: [usize; 4],
        journal: usize,
    ) -> Result<Steps, Refusal> {
        check_start(p, k, lengths, journal)?;
        Ok(Steps {
            p,
            k,
            slots: lengths[0].min(MOST_SLOTS),
            links: Vec::new(),
            classes: Classes::default(),
        })
    }

    pub fn step(&mut self, step: Step) -> Result<(), Refusal> {
        match step {
            Step::Insert(lower, higher, weight) => self.insert(lower, higher, weight),
            Step::TakeBack => self.take_back(),
        }
    }

    /// Tries a link by 6 to 9 against those that remain, then by 15 together
    /// with them.
    fn insert(&mut self, lower: usize, higher: usize, weight: u16) -> Result<(), Refusal> {
        let link = LinksSoFar::of(self.p, &self.links)
            .check(lower, higher, weight)
            .map_err(|number| Refusal { number, place: 0 })?;
        let mut links = self.links.clone();
        links.push(link);
        let classes = fast::classes(&links, self.p, self.k, 0);
        demand(classes.slot_count() <= self.slots, 15, 0)?;
        (self.links, self.classes) = (links, classes);
        Ok(())
    }

    /// Takes the last link away; with none it is refused by 19.
    fn take_back(&mut self) -> Result<(), Refusal> {
        demand(self.links.pop().is_some(), 19, 0)?;
        self.classes = fast::classes(&self.links, self.p, self.k, 0);
        Ok(())
    }

    pub fn links(&self) -> &[Link] {
        &self.links
    }

    /// The slots that the links that remain need.
    pub fn used(&self) -> usize {
        self.classes.slot_count()
    }

    /// The weight of the last link; with none any weight may follow.
    pub fn last_weight(&self) -> u16 {
        self.links.last().map_or(65_535, |link| link.weight)
    }

    /// The links that remain in order, then zeros.
    pub fn journal(&self) -> Vec<u64> {
        let mut journal = vec![0; JOURNAL_ENTRIES];
        for (entry, link) in journal.iter_mut().zip(&self.links) {
            let [lower, higher] = [link.lower, link.higher].map(u64::from);
            *entry = lower * (1 << 32) + higher * (1 << 16) + u64::from(link.weight);
        }
        journal
    }

    pub fn listing(&self) -> Vec<Community> {
        self.classes.listing()
    }

    /// The listing now, into an output of so many bytes.
    pub fn listing_now(&self, out: usize) -> Expected {
        let listing = self.listing();
        let bytes = listing_bytes(&listing);
        Expected::written(listing.len(), bytes, out, Left::Untouched)
    }

    /// What is wrong with state, tables or journal, if they don't show the
    /// links that remain as the requirement says.
    pub fn check_shown(&mut self, shown: Shown) -> Result<(), String> {
        let found = [shown.p, shown.k, shown.used, shown.last, shown.links];
        let last = usize::from(self.last_weight());
        let expected = [self.p, self.k, self.used(), last, self.links.len()];
        if found != expected {
            return Err(format!("state: expected {expected:?}, found {found:?}"));
        }
        let expected = fast::rows(&self.links, 0);
        if *shown.rows != expected {
            let found = shown.rows;
            return Err(format!("rows: expected {expected:x?}, found {found:x?}"));
        }
        let expected = self.journal();
        if shown.journal != expected {
            let found = shown.journal;
            return Err(format!("journal: expected {expected:x?}, found {found:x?}"));
        }
        self.check_tables(shown)
    }

    /// What is wrong with the tables. Slot order and the free fields are free.
    fn check_tables(&mut self, shown: Shown) -> Result<(), String> {
        let used = shown.used;
        let unused_zero = shown.sets[used..].iter().all(|&n| n == 0)
            && shown.entries[used..].iter().all(|&n| n == 0)
            && shown.smallest[used..].iter().all(|&n| n == 0)
            && shown.unions[used..].iter().all(|&n| n == 0);
        if !unused_zero {
            return Err("an unused slot is not zero".to_string());
        }
        let mut seen = HashSet::new();
        // By the reference's root: the root that the tables give.
        let mut roots = vec![None; used];
        for slot in 0..used {
            let set = shown.sets[slot];
            if !seen.insert(set) {
                return Err(format!("set {set} stands in two slots"));
            }
            let Some(class) = self.classes.root_of(set) else {
                return Err(format!("set {set} in slot {slot} needs none"));
            };
            let root = end_of(shown.entries, slot)?;
            if *roots[class as usize].get_or_insert(root) != root {
                return Err(format!("slot {slot} ends at {root}, unlike its class"));
            }
            self.check_root(shown, class, root)?;
        }
        let mut distinct: Vec<usize> = roots.into_iter().flatten().collect();
        let classes = distinct.len();
        distinct.sort_unstable();
        distinct.dedup();
        match distinct.len() == classes {
            true => Ok(()),
            false => Err("two communities end at one slot".to_string()),
        }
    }

    fn check_root(&self, shown: Shown, class: u32, root: usize) -> Result<(), String> {
        let Community { smallest, union } = self.classes.shown(class);
        if (shown.smallest[root], shown.unions[root]) == (smallest, union) {
            return Ok(());
        }
        Err(format!(
            "root {root} shows {}/{}, not {smallest}/{union}",
            shown.smallest[root], shown.unions[root]
        ))
    }
}

/// The slot at which the entries from a used slot end.
fn end_of(entries: &[u32], mut slot: usize) -> Result<usize, String> {
    loop {
        let entry = entries[slot] as usize;
        if entry > slot {
            return Err(format!("entry {entry} stands in slot {slot}"));
        }
        if entry == slot {
            return Ok(slot);
        }
        slot = entry;
    }
}
