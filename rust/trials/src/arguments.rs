//! Arguments to try, good and bad.

use reference::calls::{Judge, JudgeK, Run};
use reference::fast;
use reference::network::{levels, tree_bytes, Network, LINE};
use reference::pages::page_rows;
use reference::random::Random;
use reference::sheets::sheet_bytes;
use reference::strength::Measure;

use crate::sheets::{network, p8, random_network, thin_out};
use crate::trials::Trials;

pub const RUNS: [Run; 2] = [Run::Sequential, Run::Maximal];

/// Values of k that are refused; some would pass if they were cut short.
pub const BAD_K: [usize; 9] = [
    0,
    1,
    7,
    8,
    255,
    256 + 3,
    65_536 + 3,
    (1 << 32) + 3,
    usize::MAX,
];

/// Part counts that are refused; some would pass if they were cut short.
pub const BAD_P: [usize; 7] = [0, 65, 255, 256 + 5, 65_536 + 5, (1 << 32) + 5, usize::MAX];

/// A length to try where so much is needed: mostly just enough.
pub fn around(random: &mut Random, need: usize) -> usize {
    match random.below(20) {
        0..=11 => need,
        12..=14 => need + random.within(1, 9),
        15..=17 => need.saturating_sub(1),
        18 => 0,
        _ => random.below(need + 1),
    }
}

/// Four lengths of which one is another than the rest.
pub fn unequal(slots: usize) -> Vec<[usize; 4]> {
    let mut all = Vec::new();
    for table in 0..4 {
        for other in [slots + 1, slots.wrapping_sub(1), 0, slots + 7] {
            let mut lengths = [slots; 4];
            lengths[table] = other;
            if other != slots && other <= slots + 7 {
                all.push(lengths);
            }
        }
    }
    all
}

/// Thresholds of every kind: 0, 1, weights of the sheet, one above a weight,
/// above all.
pub fn thresholds(random: &mut Random, network: &Network) -> Vec<u16> {
    let mut weights = levels(&network.links);
    let highest = weights.first().copied().unwrap_or(0);
    random.shuffle(&mut weights);
    weights.truncate(3);
    if let Some(&weight) = weights.first() {
        weights.push(weight.saturating_add(1));
    }
    weights.extend([random.below(2) as u16, highest.saturating_add(1)]);
    weights
}

/// A set that is probably no k-clique: too many or too few parts, a part
/// that the sheet lacks, or any bits.
pub fn any_set(random: &mut Random, judge: &JudgeK) -> u64 {
    let cliques = judge.facts().map_or(&[][..], |facts| facts.cliques());
    let near = match cliques.is_empty() {
        true => random.number() & random.number() & random.number(),
        false => random.pick(cliques).set,
    };
    match random.below(6) {
        0 => near ^ 1 << random.below(64),
        1 => near & near.wrapping_sub(1),
        2 => (near & near.wrapping_sub(1)) | 1 << random.below(64),
        3 => random.pick(&[0, u64::MAX, 1 << 63, 3, 7]),
        4 => random.number(),
        _ => near,
    }
}

/// A measure with this threshold of weight, or with any bits for a product.
fn any_measure(random: &mut Random, t: u16) -> Measure {
    match random.chance(50) {
        true => Measure::Weakest(t),
        false => Measure::Product(f64::from_bits(random.number())),
    }
}

impl Trials {
    /// Small sheets, a refused one among them, each with every k, good and
    /// bad: for what a caller can get wrong, crossed.
    pub fn small_sheets(&mut self, tried: impl Fn(&mut Trials, &JudgeK)) {
        let mut more = random_network(&mut self.random, 8);
        (3..=6).for_each(|k| thin_out(&mut more, k, 60));
        let bad = Network {
            names: vec![*b" B      "; 5],
            ..p8()
        };
        for network in [p8(), more, network(5, &[]), bad, network(1, &[])] {
            let judge = Judge::new(&sheet_bytes(&network));
            for k in BAD_K.into_iter().chain(2..=6) {
                tried(self, &judge.with(k));
            }
        }
    }

    /// Every call on a sheet, with arguments good and bad. It is for small
    /// sheets: nothing bounds the work where they are accepted.
    pub fn every_call(&mut self, judge: &Judge) {
        let random = &mut self.random;
        let k = match random.chance(85) {
            true => random.within(2, 6),
            false => random.pick(&BAD_K),
        };
        let judge_k = judge.with(k);
        let part = match random.chance(50) {
            true => random.below(66),
            false => random.pick(&BAD_P),
        };
        self.name(judge, part);
        let outputs = self.outputs(judge);
        self.read(judge, outputs);
        let t = match judge.network() {
            Ok(network) => {
                let all = thresholds(&mut self.random, network);
                self.random.pick(&all)
            }
            Err(_) => self.random.number() as u16,
        };
        self.needed(&judge_k, t);
        for run in RUNS {
            let lengths = self.lengths(&judge_k, run, t);
            let out = self.listing_output(&judge_k, t);
            self.listing(&judge_k, run, t, lengths, out);
            let lengths = self.lengths(&judge_k, run, 0);
            let [a, b] = [0, 1].map(|_| any_set(&mut self.random, &judge_k));
            self.meeting(&judge_k, run, a, b, lengths);
        }
        let lengths = self.lengths(&judge_k, Run::Sequential, t);
        let clique = any_set(&mut self.random, &judge_k);
        self.family_mean(&judge_k, t, clique, lengths);
        let measure = any_measure(&mut self.random, t);
        self.strong_around(&judge_k, measure);
        let lengths = self.lengths(&judge_k, Run::Sequential, 0);
        let out = self.tree_output(&judge_k);
        self.tree(&judge_k, lengths, out);
        self.page_around(&judge_k);
    }

    /// Lengths for the reader's outputs.
    pub fn outputs(&mut self, judge: &Judge) -> [usize; 4] {
        let (names, links) = match judge.network() {
            Ok(network) => (8 * network.names.len(), network.links.len()),
            Err(_) => (40, 9),
        };
        let enough = [names, links, links, links];
        match self.random.chance(60) {
            true => enough,
            false => enough.map(|need| around(&mut self.random, need)),
        }
    }

    /// Lengths for the tables.
    pub fn lengths(&mut self, judge: &JudgeK, run: Run, t: u16) -> [usize; 4] {
        let most = 300;
        let need = judge.facts().map_or(5, |facts| match run {
            Run::Sequential => facts.slots(t),
            Run::Maximal if t == 0 => facts.most_maximal(most).min(most),
            Run::Maximal => facts.maximal(t, most).min(most),
        });
        let slots = around(&mut self.random, need);
        match self.random.chance(92) {
            true => [slots; 4],
            false => {
                let all = unequal(slots);
                self.random.pick(&all)
            }
        }
    }

    pub fn listing_output(&mut self, judge: &JudgeK, t: u16) -> usize {
        let need = judge.facts().map_or(1, |facts| facts.listing(t).len());
        around(&mut self.random, 16 * need)
    }

    pub fn tree_output(&mut self, judge: &JudgeK) -> usize {
        let lines = |facts: &reference::calls::Facts| fast::tree_of(facts.cliques()).len();
        let need = judge.facts().map_or(1, lines);
        around(&mut self.random, LINE * need)
    }

    /// The sheet's tree on the page, its lines whole or with a byte more, a
    /// byte fewer or another bit.
    pub fn page_around(&mut self, judge: &JudgeK) {
        let lines = judge.facts().map(|facts| fast::tree_of(facts.cliques()));
        let mut lines = tree_bytes(&lines.unwrap_or_default());
        match self.random.below(8) {
            0 => lines.push(0),
            1 => lines.truncate(lines.len().saturating_sub(1)),
            2 if !lines.is_empty() => {
                let at = self.random.below(lines.len());
                lines[at] ^= 1 << self.random.below(8);
            }
            _ => {}
        }
        let sheet = judge.judge().sheet();
        let need = page_rows(sheet, &lines).map_or(lines.len() / LINE + 1, |rows| rows.len());
        let out = around(&mut self.random, 73 * need);
        self.page(sheet, &lines, out);
    }
}
