//! Mean link weights of families: every k-clique of random sheets at every
//! threshold, the requirement's small sheets by hand, and refusals in order.

use families::{mean, MeanWeight, Refused, Space};
use reference::calls::{slot_bound, ExpectedMean, Judge, JudgeK, Left};
use reference::network::{levels, Mean, Network};
use reference::sheets::{sheet_bytes, Refusal};
use trials::arguments::{any_set, around, unequal};
use trials::calls::FamilyMean;
use trials::sheets::{complete, network, p8, random_network, thin_out};
use trials::Trials;

const SHEETS: usize = 3_200;

/// A sheet with more k-cliques and thresholds gets so many drawn at random.
const MOST_CALLS: usize = 100;

/// 0, every weight of the sheet, one above each, and the largest.
fn every_threshold(network: &Network) -> Vec<u16> {
    let weights = levels(&network.links);
    let mut all: Vec<u16> = weights.iter().map(|t| t.saturating_add(1)).collect();
    all.extend(weights);
    all.extend([0, 65_535]);
    all.sort_unstable();
    all.dedup();
    all
}

#[test]
fn every_clique_at_every_threshold() {
    let trials = &mut Trials::new("means of every clique");
    // How many sets were no k-clique at t, and how many were one.
    let mut met = [0; 2];
    for case in 0..SHEETS {
        trials.case();
        let (p, k) = (1 + case % 64, trials.random.within(2, 6));
        let mut network = random_network(&mut trials.random, p);
        // A search for slots may cost as much as there are slots.
        if k > 2 {
            let most = trials.random.pick(&[20, 60, 60, 150]);
            thin_out(&mut network, k, most);
        }
        let judge = Judge::new(&sheet_bytes(&network));
        every_clique(trials, &judge.with(k), &network, &mut met);
    }
    assert!(met.iter().all(|&calls| calls > 10 * SHEETS), "{met:?}");
}

fn every_clique(trials: &mut Trials, judge: &JudgeK, network: &Network, met: &mut [usize; 2]) {
    let facts = judge.facts().expect("an accepted sheet");
    let (cliques, thresholds) = (facts.cliques(), every_threshold(network));
    let all = cliques.len() * thresholds.len();
    for call in 0..all.min(MOST_CALLS) {
        let drawn = match all <= MOST_CALLS {
            true => call,
            false => trials.random.below(all),
        };
        let (clique, t) = (
            cliques[drawn / thresholds.len()].set,
            thresholds[drawn % thresholds.len()],
        );
        let slots = around(&mut trials.random, facts.slots(t));
        trials.family_mean(judge, t, clique, [slots; 4]);
        met[usize::from(facts.mean(t, clique).is_some())] += 1;
    }
    let t = trials.random.pick(&thresholds);
    let any = any_set(&mut trials.random, judge);
    trials.family_mean(judge, t, any, [facts.slots(t); 4]);
    let lengths = trials.random.pick(&unequal(facts.slots(t)));
    trials.family_mean(judge, t, any, lengths);
}

/// A sheet of document 01 with k, by its name there.
struct Example {
    sheet: Vec<u8>,
    k: usize,
}

impl Example {
    fn new(network: &Network, k: usize) -> Example {
        Example {
            sheet: sheet_bytes(network),
            k,
        }
    }

    fn with(&self, t: u16, clique: u64, slots: usize) -> FamilyMean {
        FamilyMean {
            k: self.k,
            t,
            clique,
            lengths: [slots; 4],
        }
    }

    /// Expects sum, number, quotient and remainder, by exactly so many slots.
    fn told(&self, trials: &mut Trials, t: u16, clique: u64, slots: usize, numbers: [u64; 4]) {
        trials.case();
        let [sum, links, quotient, remainder] = numbers;
        let links = links as usize;
        let own = MeanWeight {
            sum,
            links,
            quotient,
            remainder,
        };
        for space in [Space::Bound, Space::Slots(slots), Space::Slots(1 << 40)] {
            assert_eq!(mean(&self.sheet, self.k, t, clique, space), Ok(own));
        }
        let mean = Mean {
            sum,
            links,
            quotient,
            remainder,
        };
        let expected = ExpectedMean::told(mean, Left::Zero);
        for more in [0, 3] {
            let call = self.with(t, clique, slots + more);
            trials.family_mean_as(&self.sheet, call, &expected);
        }
        self.refused(trials, self.with(t, clique, slots - 1), 15, 0, Left::Zero);
    }

    fn refused(&self, trials: &mut Trials, call: FamilyMean, number: u8, place: usize, left: Left) {
        trials.case();
        let expected = ExpectedMean::refused(Refusal { number, place }, left);
        trials.family_mean_as(&self.sheet, call, &expected);
    }

    /// Expects 13, also where there is no slot.
    fn none(&self, trials: &mut Trials, t: u16, set: u64) {
        for slots in [0, 40] {
            let call = self.with(t, set, slots);
            self.refused(trials, call, 13, 0, Left::Untouched);
        }
        let refused = Refused {
            number: 13,
            place: 0,
        };
        let found = mean(&self.sheet, self.k, t, set, Space::Bound);
        assert_eq!(found, Err(refused));
    }
}

#[test]
fn p1_to_p8() {
    let trials = &mut Trials::new("means of P1 to P8");
    let links = [(0, 1, 9), (0, 2, 9), (1, 2, 8), (1, 3, 5), (2, 3, 5)];
    let p1 = Example::new(&network(4, &links), 3);
    p1.none(trials, 9, 7);
    p1.told(trials, 8, 7, 3, [26, 3, 8, 2]);
    p1.none(trials, 6, 14);
    for clique in [7, 14] {
        p1.told(trials, 5, clique, 5, [36, 5, 7, 1]);
        p1.told(trials, 0, clique, 5, [36, 5, 7, 1]);
    }
    for set in [0, 3, 11, 13, 15, 7 | 1 << 63, u64::MAX] {
        p1.none(trials, 5, set);
    }
    let mut two = p8();
    let p8 = Example::new(&two, 3);
    two.links.pop();
    let (p5, p7) = (Example::new(&two, 3), Example::new(&two, 2));
    for clique in [7, 28] {
        p5.told(trials, 4, clique, 6, [12, 3, 4, 0]);
        p5.told(trials, 0, clique, 6, [12, 3, 4, 0]);
        p8.told(trials, 3, clique, 6, [12, 3, 4, 0]);
        p8.told(trials, 2, clique, 7, [26, 7, 3, 5]);
    }
    p7.told(trials, 4, 3, 5, [24, 6, 4, 0]);
    p7.told(trials, 4, 24, 5, [24, 6, 4, 0]);
    p7.none(trials, 4, 9);
    p8.told(trials, 2, 14, 7, [26, 7, 3, 5]);
    p8.none(trials, 3, 14);
}

#[test]
fn p9_and_p10() {
    let trials = &mut Trials::new("means of P9 and P10");
    let mut ring = Vec::new();
    for q in 0..11 {
        ring.extend((q + 1..=q + 2).filter(|&r| r < 11).map(|r| (q, r, 4)));
    }
    ring.extend([(0, 5, 4), (5, 10, 4), (0, 10, 4)]);
    let p9 = Example::new(&network(11, &ring), 3);
    // The three links of the small family lie among the large one's parts.
    for q in 0..9 {
        p9.told(trials, 4, 7 << q, 22, [76, 19, 4, 0]);
    }
    p9.told(trials, 4, 1057, 22, [12, 3, 4, 0]);
    p9.none(trials, 5, 7);
    let mut two = Vec::new();
    for q in 0..6 {
        let reach = |r: &u8| *r < 4 || q > 1;
        two.extend((q + 1..6).filter(reach).map(|r| (q, r, 4)));
    }
    let two = network(6, &two);
    let (p10, by_three) = (Example::new(&two, 4), Example::new(&two, 3));
    // Both families count the link 2-3.
    p10.told(trials, 4, 15, 8, [24, 6, 4, 0]);
    p10.told(trials, 4, 60, 8, [24, 6, 4, 0]);
    by_three.told(trials, 4, 7, 11, [44, 11, 4, 0]);
    Example::new(&two, 5).none(trials, 4, 31);
}

/// All pairs linked at the largest weight, then the last at one less.
#[test]
fn largest_sums() {
    let trials = &mut Trials::new("largest sums");
    for (p, k) in [(64, 2), (20, 3), (12, 4), (10, 5), (9, 6)] {
        let mut all = complete(p);
        all.links.iter_mut().for_each(|l| l.weight = 65_535);
        let (links, slots) = (all.links.len() as u64, slot_bound(p, k).count);
        let clique = ((1 << k) - 1) << (p - k);
        let sum = 65_535 * links;
        Example::new(&all, k).told(trials, 65_535, clique, slots, [sum, links, 65_535, 0]);
        all.links.last_mut().expect("a link").weight = 65_534;
        let numbers = [sum - 1, links, 65_534, links - 1];
        Example::new(&all, k).told(trials, 65_534, clique, slots, numbers);
        Example::new(&all, k).none(trials, 65_535, clique);
    }
}

/// All faults at once; from row to row the first one is mended.
#[test]
fn refusals_in_order() {
    let trials = &mut Trials::new("means refused in order");
    let good = Example::new(&p8(), 3);
    let mut bad = Example::new(&p8(), 3);
    bad.sheet[75] = 0;
    let all = FamilyMean {
        k: 7,
        lengths: [5, 5, 6, 5],
        ..good.with(4, 14, 5)
    };
    bad.refused(trials, all, 7, 72, Left::Untouched);
    good.refused(trials, all, 10, 0, Left::Untouched);
    let call = FamilyMean { k: 3, ..all };
    good.refused(trials, call, 11, 0, Left::Untouched);
    // At t 2 the set 14 is a k-clique, at t 4 it is none.
    good.refused(trials, good.with(4, 14, 5), 13, 0, Left::Untouched);
    good.refused(trials, good.with(4, 7, 5), 15, 0, Left::Zero);
    good.told(trials, 4, 7, 6, [12, 3, 4, 0]);
    // Slots are counted at t too.
    good.refused(trials, good.with(2, 14, 6), 15, 0, Left::Zero);
    good.told(trials, 2, 14, 7, [26, 7, 3, 5]);
}

/// Everything that a caller can get wrong, crossed.
#[test]
fn callers_faults() {
    let trials = &mut Trials::new("means' faults crossed");
    trials.small_sheets(crossed);
}

fn crossed(trials: &mut Trials, judge: &JudgeK) {
    let need = judge.facts().map_or(7, |facts| facts.slots(0));
    let level = [need, need.saturating_sub(1), 0, need + 3].map(|slots| [slots; 4]);
    for lengths in level.into_iter().chain(unequal(need)) {
        for set in [7, 28, 14, 3, 15, 0, 7 | 1 << 63, u64::MAX] {
            for t in [0, 2, 3, 4, 5, 65_535] {
                trials.case();
                trials.family_mean(judge, t, set, lengths);
            }
        }
    }
}
