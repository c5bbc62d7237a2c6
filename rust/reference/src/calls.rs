//! What every call must answer, write and leave in its tables, as a function
//! of its arguments.

use std::cell::{OnceCell, RefCell};
use std::collections::HashMap;
use std::rc::Rc;

use crate::dumps::{counted, parse_dump};
use crate::fast::{self, Clique};
use crate::network::{levels, listing_bytes, tree_bytes, Community, Mean, Network};
use crate::sheets::{demand, good_part_count, parse, parse_lists, sheet_bytes, Refusal};
use crate::strength::{pair_weights, Measure};

/// No run uses more slots than this.
pub const MOST_SLOTS: usize = 16_777_216;

#[derive(Clone, Copy, Debug, PartialEq, Eq)]
pub enum Run {
    Sequential,
    Maximal,
}

/// An answer as numbers: 0 in `number` is accepted, and a refusal has no
/// count and no parts.
#[derive(Clone, Copy, Debug, Default, PartialEq, Eq)]
pub struct Outcome {
    pub number: u8,
    pub place: usize,
    pub count: usize,
    pub parts: usize,
}

impl Outcome {
    pub fn count(count: usize) -> Outcome {
        Outcome {
            count,
            ..Outcome::default()
        }
    }
}

impl From<Refusal> for Outcome {
    fn from(Refusal { number, place }: Refusal) -> Outcome {
        Outcome {
            number,
            place,
            ..Outcome::default()
        }
    }
}

/// What a call leaves in the tables.
#[derive(Clone, Copy, Debug, PartialEq, Eq)]
pub enum Left {
    Untouched,
    Zero,
}

/// What is expected of a call with one output: the answer, the bytes at the
/// start of the output (all others stay) and the tables.
#[derive(Clone, Debug, PartialEq, Eq)]
pub struct Expected {
    pub outcome: Outcome,
    pub output: Vec<u8>,
    pub tables: Left,
}

impl Expected {
    pub fn refused(refusal: Refusal, tables: Left) -> Expected {
        Expected {
            outcome: refusal.into(),
            output: Vec::new(),
            tables,
        }
    }

    pub fn answered(count: usize, output: Vec<u8>, tables: Left) -> Expected {
        Expected {
            outcome: Outcome::count(count),
            output,
            tables,
        }
    }

    /// An answer of so many bytes, refused where the output is shorter.
    pub(crate) fn written(count: usize, bytes: Vec<u8>, out: usize, tables: Left) -> Expected {
        match demand(bytes.len() <= out, 16, 0) {
            Err(refusal) => Expected::refused(refusal, tables),
            Ok(()) => Expected::answered(count, bytes, tables),
        }
    }
}

/// What is expected of the reader: the answer, and what stands at the start
/// of its four outputs.
#[derive(Clone, Debug, Default, PartialEq, Eq)]
pub struct ExpectedNetwork {
    pub outcome: Outcome,
    pub names: Vec<u8>,
    pub lower: Vec<u16>,
    pub higher: Vec<u16>,
    pub weights: Vec<u16>,
}

/// What is expected of a family's mean link weight: the answer, which counts
/// the links, its three other numbers and the tables.
#[derive(Clone, Copy, Debug, PartialEq, Eq)]
pub struct ExpectedMean {
    pub outcome: Outcome,
    pub sum: u64,
    pub quotient: u64,
    pub remainder: u64,
    pub tables: Left,
}

impl ExpectedMean {
    pub fn refused(refusal: Refusal, tables: Left) -> ExpectedMean {
        ExpectedMean {
            outcome: refusal.into(),
            ..ExpectedMean::told(Mean::default(), tables)
        }
    }

    pub fn told(mean: Mean, tables: Left) -> ExpectedMean {
        ExpectedMean {
            outcome: Outcome::count(mean.links),
            sum: mean.sum,
            quotient: mean.quotient,
            remainder: mean.remainder,
            tables,
        }
    }
}

/// The sheet of p parts with all pairs linked at weight 1, or a refusal.
pub fn fullest_sheet(p: usize, k: usize, out: usize) -> Expected {
    let checked = demand((1..=64).contains(&p), 4, 0).and_then(|()| demand(good_k(k), 10, 0));
    if let Err(refusal) = checked {
        return Expected::refused(refusal, Left::Untouched);
    }
    let links = p * (p - 1) / 2;
    let mut bytes = vec![b'P', b'L', b'S', 0, 1, p as u8];
    bytes.extend((links as u16).to_be_bytes());
    for part in 0..p {
        bytes.extend(format!("P{part:02}     ").bytes());
    }
    for lower in 0..p {
        for higher in lower + 1..p {
            bytes.extend([lower as u8, higher as u8, 0, 1]);
        }
    }
    Expected::written(bytes.len(), bytes, out, Left::Untouched)
}

/// C(n, r) for n 0 to 64 and r 0 to 6, and 0 outside: by Pascal's rule, row
/// by row, so that no product or division is shared with the formula.
pub fn subset_count(n: usize, r: usize) -> usize {
    if n > 64 || r > 6 {
        return 0;
    }
    let mut row = [1, 0, 0, 0, 0, 0, 0];
    for _ in 0..n {
        for i in (1..row.len()).rev() {
            row[i] += row[i - 1];
        }
    }
    row[r]
}

pub fn good_k(k: usize) -> bool {
    (2..=6).contains(&k)
}

pub fn slot_bound(p: usize, k: usize) -> Outcome {
    let checks = demand(good_part_count(p), 4, 0).and_then(|()| demand(good_k(k), 10, 0));
    match checks {
        Err(refusal) => refusal.into(),
        Ok(()) if p < k => Outcome::count(0),
        Ok(()) => Outcome::count(subset_count(p, k - 1)),
    }
}

/// Whether four tables have one length.
pub fn level(lengths: [usize; 4]) -> bool {
    lengths.iter().all(|&length| length == lengths[0])
}

pub fn write(names: &[u8], lower: &[u16], higher: &[u16], weights: &[u16], out: usize) -> Expected {
    match parse_lists(names, lower, higher, weights) {
        Err(refusal) => Expected::refused(refusal, Left::Untouched),
        Ok(network) => {
            let bytes = sheet_bytes(&network);
            Expected::written(bytes.len(), bytes, out, Left::Untouched)
        }
    }
}

/// The sheet of a dump.
pub fn dump_sheet(dump: &[u8], out: usize) -> Expected {
    match parse_dump(dump) {
        Err(refusal) => Expected::refused(refusal, Left::Untouched),
        Ok(dump) => {
            let bytes = sheet_bytes(&counted(&dump));
            Expected::written(bytes.len(), bytes, out, Left::Untouched)
        }
    }
}

/// What the links of weight t or more make: the slots they need, their
/// communities and, once asked for, the mean link weight of each of their
/// k-cliques' families.
struct AtThreshold {
    slots: usize,
    listing: Vec<Community>,
    means: OnceCell<fast::SetMap<Mean>>,
}

/// A sheet and k, with what was computed for them.
pub struct Facts<'a> {
    network: &'a Network,
    k: usize,
    cliques: Vec<Clique>,
    weights: OnceCell<Vec<Vec<u16>>>,
    at: RefCell<HashMap<usize, Rc<AtThreshold>>>,
    maximal: RefCell<HashMap<u16, (usize, usize)>>,
}

impl<'a> Facts<'a> {
    pub fn new(network: &'a Network, k: usize) -> Facts<'a> {
        Facts {
            network,
            k,
            cliques: fast::cliques(&network.links, network.names.len(), k),
            weights: OnceCell::new(),
            at: RefCell::default(),
            maximal: RefCell::default(),
        }
    }

    /// All k-cliques, by falling weakest link.
    pub fn cliques(&self) -> &[Clique] {
        &self.cliques
    }

    /// The k-cliques over links of weight t or more.
    fn cliques_at(&self, t: u16) -> &[Clique] {
        let end = self.cliques.partition_point(|c| c.weakest >= t);
        &self.cliques[..end]
    }

    /// Thresholds with the same k-cliques share one entry.
    fn at(&self, t: u16) -> Rc<AtThreshold> {
        let cliques = self.cliques_at(t);
        let mut at = self.at.borrow_mut();
        let entry = at.entry(cliques.len()).or_insert_with(|| {
            let mut classes = fast::Classes::default();
            for clique in cliques {
                classes.add(clique.set);
            }
            Rc::new(AtThreshold {
                slots: classes.slot_count(),
                listing: classes.listing(),
                means: OnceCell::new(),
            })
        });
        Rc::clone(entry)
    }

    /// The slots that the sequential run needs at t.
    pub fn slots(&self, t: u16) -> usize {
        self.at(t).slots
    }

    pub fn listing(&self, t: u16) -> Vec<Community> {
        self.at(t).listing.clone()
    }

    /// The mean link weight of a k-clique's family at t; `None` where the set
    /// is no k-clique there.
    pub fn mean(&self, t: u16, clique: u64) -> Option<Mean> {
        let at = self.at(t);
        let means = || fast::means(&self.network.links, self.cliques_at(t));
        at.means.get_or_init(means).get(&clique).copied()
    }

    /// The link weights of each of the k-cliques, pairs by lower then higher
    /// part.
    pub fn weights(&self) -> &[Vec<u16>] {
        self.weights.get_or_init(|| {
            let weights = fast::weights(&self.network.links);
            let of = |clique: &Clique| pair_weights(&weights, clique.set);
            self.cliques.iter().map(of).collect()
        })
    }

    /// The classes of the k-cliques at or above a measure's threshold.
    pub fn strong(&self, measure: Measure) -> fast::Classes {
        let mut classes = fast::Classes::default();
        for (clique, weights) in self.cliques.iter().zip(self.weights()) {
            if measure.reached(weights) {
                classes.add(clique.set);
            }
        }
        classes
    }

    /// How many maximal cliques there are at t; above `stop`, only that they
    /// are more.
    pub fn maximal(&self, t: u16, stop: usize) -> usize {
        let known = self.maximal.borrow().get(&t).copied();
        match known {
            Some((counted, stopped)) if counted <= stopped || stop <= stopped => counted,
            _ => {
                let Network { names, links } = self.network;
                let rows = fast::rows(links, t);
                let counted = fast::maximal_cliques(&rows, names.len(), self.k, stop).len();
                self.maximal.borrow_mut().insert(t, (counted, stop));
                counted
            }
        }
    }

    /// How many maximal cliques there are at most at any weight of the
    /// sheet; above `stop`, only that they are more.
    pub fn most_maximal(&self, stop: usize) -> usize {
        let mut most = 0;
        for t in levels(&self.network.links) {
            most = most.max(self.maximal(t, stop));
            if most > stop {
                break;
            }
        }
        most
    }

    pub fn is_clique(&self, set: u64) -> bool {
        let rows = fast::rows(&self.network.links, 0);
        let others_linked = |q: usize| set & !(1 << q) & !rows[q] == 0;
        set.count_ones() as usize == self.k && fast::parts(set).all(others_linked)
    }
}

/// The answers to the calls on one sheet.
pub struct Judge {
    sheet: Vec<u8>,
    network: Result<Network, Refusal>,
}

impl Judge {
    pub fn new(sheet: &[u8]) -> Judge {
        Judge {
            sheet: sheet.to_vec(),
            network: parse(sheet),
        }
    }

    pub fn sheet(&self) -> &[u8] {
        &self.sheet
    }

    pub fn network(&self) -> Result<&Network, Refusal> {
        self.network.as_ref().map_err(|refusal| *refusal)
    }

    /// The reader, with outputs of these lengths: names, then the lists.
    pub fn read(&self, outputs: [usize; 4]) -> ExpectedNetwork {
        let checked = self.network().and_then(|network| {
            let m = network.links.len();
            let enough = outputs[0] >= 8 * network.names.len();
            demand(enough && outputs[1..].iter().all(|&o| o >= m), 16, 0)?;
            Ok(network)
        });
        match checked {
            Err(refusal) => ExpectedNetwork {
                outcome: refusal.into(),
                ..ExpectedNetwork::default()
            },
            Ok(Network { names, links }) => ExpectedNetwork {
                outcome: Outcome {
                    count: links.len(),
                    parts: names.len(),
                    ..Outcome::default()
                },
                names: names.concat(),
                lower: links.iter().map(|l| l.lower.into()).collect(),
                higher: links.iter().map(|l| l.higher.into()).collect(),
                weights: links.iter().map(|l| l.weight).collect(),
            },
        }
    }

    /// Where a part's name starts.
    pub fn name(&self, part: usize) -> Outcome {
        let checked = self
            .network()
            .and_then(|network| demand(part < network.names.len(), 14, 0));
        match checked {
            Err(refusal) => refusal.into(),
            Ok(()) => Outcome::count(8 + 8 * part),
        }
    }

    /// The same sheet with one k.
    pub fn with(&self, k: usize) -> JudgeK<'_> {
        JudgeK {
            judge: self,
            k,
            facts: OnceCell::new(),
        }
    }
}

/// The answers to the calls on one sheet with one k.
pub struct JudgeK<'a> {
    judge: &'a Judge,
    k: usize,
    facts: OnceCell<Facts<'a>>,
}

impl JudgeK<'_> {
    pub fn k(&self) -> usize {
        self.k
    }

    pub fn judge(&self) -> &Judge {
        self.judge
    }

    /// The facts, where the sheet and k are accepted.
    pub fn facts(&self) -> Result<&Facts<'_>, Refusal> {
        let network = self.judge.network()?;
        demand(good_k(self.k), 10, 0)?;
        Ok(self.facts.get_or_init(|| Facts::new(network, self.k)))
    }

    /// The k-cliques at t, the joins and the slots of the sequential run.
    pub fn needed(&self, t: u16) -> Result<[u64; 3], Refusal> {
        let facts = self.facts()?;
        let cliques = facts.cliques_at(t).len() as u64;
        Ok([cliques, self.k as u64 * cliques, facts.slots(t) as u64])
    }

    /// The checks up to 11.
    fn until_tables(&self, tables: [usize; 4]) -> Result<&Facts<'_>, Refusal> {
        let network = self.judge.network()?;
        demand(good_k(self.k), 10, 0)?;
        demand(level(tables), 11, 0)?;
        Ok(self.facts.get_or_init(|| Facts::new(network, self.k)))
    }

    pub fn listing(&self, run: Run, t: u16, tables: [usize; 4], out: usize) -> Expected {
        let facts = match self.until_tables(tables) {
            Err(refusal) => return Expected::refused(refusal, Left::Untouched),
            Ok(facts) => facts,
        };
        let most = tables[0].min(MOST_SLOTS);
        let needed = match run {
            Run::Sequential => facts.slots(t),
            Run::Maximal => facts.maximal(t, most),
        };
        match demand(needed <= most, 15, 0) {
            Err(refusal) => Expected::refused(refusal, Left::Zero),
            Ok(()) => {
                let listing = facts.listing(t);
                Expected::written(listing.len(), listing_bytes(&listing), out, Left::Zero)
            }
        }
    }

    /// The checks of a strong listing up to 11, with the lengths of the clique
    /// list and the tables.
    fn until_list(
        &self,
        measure: Measure,
        list: [usize; 2],
        tables: [usize; 4],
    ) -> Result<&Facts<'_>, Refusal> {
        let network = self.judge.network()?;
        demand(good_k(self.k), 10, 0)?;
        if let Measure::Product(t) = measure {
            demand(self.k <= 4, 22, 0)?;
            demand(!t.is_nan(), 23, 0)?;
        }
        demand(list[0] == list[1] && level(tables), 11, 0)?;
        Ok(self.facts.get_or_init(|| Facts::new(network, self.k)))
    }

    /// A listing by clique strength; the clique list is left as the tables
    /// are.
    pub fn strong_listing(
        &self,
        measure: Measure,
        list: [usize; 2],
        tables: [usize; 4],
        out: usize,
    ) -> Expected {
        let facts = match self.until_list(measure, list, tables) {
            Err(refusal) => return Expected::refused(refusal, Left::Untouched),
            Ok(facts) => facts,
        };
        let classes = facts.strong(measure);
        let fits =
            facts.cliques().len() <= list[0] && classes.slot_count() <= tables[0].min(MOST_SLOTS);
        match demand(fits, 15, 0) {
            Err(refusal) => Expected::refused(refusal, Left::Zero),
            Ok(()) => {
                let listing = classes.listing();
                Expected::written(listing.len(), listing_bytes(&listing), out, Left::Zero)
            }
        }
    }

    /// The count is the meeting weight, 0 for never.
    pub fn meeting(&self, run: Run, a: u64, b: u64, tables: [usize; 4]) -> Expected {
        let checked = self.until_tables(tables).and_then(|facts| {
            demand(facts.is_clique(a) && facts.is_clique(b), 13, 0)?;
            Ok(facts)
        });
        let facts = match checked {
            Err(refusal) => return Expected::refused(refusal, Left::Untouched),
            Ok(facts) => facts,
        };
        let most = tables[0].min(MOST_SLOTS);
        let needed = match run {
            Run::Sequential => facts.slots(0),
            Run::Maximal => facts.most_maximal(most),
        };
        let weight = || usize::from(fast::meeting(facts.cliques(), a, b).unwrap_or(0));
        match demand(needed <= most, 15, 0) {
            Err(refusal) => Expected::refused(refusal, Left::Zero),
            Ok(()) => Expected::written(weight(), Vec::new(), 0, Left::Zero),
        }
    }

    /// The mean link weight of a k-clique's family at t.
    pub fn family_mean(&self, t: u16, clique: u64, tables: [usize; 4]) -> ExpectedMean {
        let checked = self.until_tables(tables).and_then(|facts| {
            let none = Refusal {
                number: 13,
                place: 0,
            };
            Ok((facts.mean(t, clique).ok_or(none)?, facts.slots(t)))
        });
        let (mean, needed) = match checked {
            Err(refusal) => return ExpectedMean::refused(refusal, Left::Untouched),
            Ok(found) => found,
        };
        match demand(needed <= tables[0].min(MOST_SLOTS), 15, 0) {
            Err(refusal) => ExpectedMean::refused(refusal, Left::Zero),
            Ok(()) => ExpectedMean::told(mean, Left::Zero),
        }
    }

    pub fn tree(&self, tables: [usize; 4], out: usize) -> Expected {
        let facts = match self.until_tables(tables) {
            Err(refusal) => return Expected::refused(refusal, Left::Untouched),
            Ok(facts) => facts,
        };
        match demand(facts.slots(0) <= tables[0].min(MOST_SLOTS), 15, 0) {
            Err(refusal) => Expected::refused(refusal, Left::Zero),
            Ok(()) => {
                let lines = fast::tree_of(facts.cliques());
                Expected::written(lines.len(), tree_bytes(&lines), out, Left::Zero)
            }
        }
    }
}
