//! Listings by clique strength: thresholds at a product and one step of a
//! float beside it, weights so large that products are rounded, lists and
//! tables exact and one short, the weakest link against the old listing, and
//! refusals in order.

use std::io::{self, Write};

use families::{strong_listing, Community, Refused, Space};
use reference::calls::{slot_bound, subset_count, Expected, Judge, JudgeK, Left, Run};
use reference::network::{levels, Network};
use reference::random::Random;
use reference::sheets::{sheet_bytes, Refusal};
use reference::strength::{product, whole_product, Measure};
use trials::arguments::{unequal, RUNS};
use trials::sheets::{complete, network, p8, random_network, thin_out};
use trials::strengths::{measure_of, StrongListing};
use trials::Trials;

const SHEETS: usize = 3_200;

/// A sheet with more k-cliques gets so many drawn at random.
const MOST_CLIQUES: usize = 12;

/// A product, and the floats next to it on both sides.
fn beside(product: f64) -> [f64; 3] {
    let bits = product.to_bits();
    [bits - 1, bits, bits + 1].map(f64::from_bits)
}

/// Thresholds that no product equals, numbers all.
const ODD: [f64; 9] = [
    f64::NEG_INFINITY,
    f64::MIN,
    -0.0,
    0.0,
    f64::MIN_POSITIVE,
    0.999_999_999_999_999_9,
    1.5,
    f64::MAX,
    f64::INFINITY,
];

/// Not numbers: quiet and signalling, of either sign.
fn no_numbers() -> [f64; 4] {
    [
        0x7ff8_0000_0000_0000,
        0xfff8_0000_0000_0000,
        0x7ff0_0000_0000_0001,
        0xffff_ffff_ffff_ffff,
    ]
    .map(f64::from_bits)
}

/// Up to so many of the numbers below `all`, at random where there are more.
fn drawn(random: &mut Random, all: usize, most: usize) -> Vec<usize> {
    let mut places: Vec<usize> = (0..all).collect();
    random.shuffle(&mut places);
    places.truncate(most);
    places
}

/// The largest 2^53 |v - e| / e met, where v is the float and e the whole
/// product. It is 6 or less.
#[derive(Default)]
struct Farthest {
    ratio: f64,
    rounded: usize,
}

impl Farthest {
    fn meet(&mut self, weights: &[u16]) {
        let (float, whole) = (product(weights), whole_product(weights));
        // A product of weights is below 2^96, and its float is whole too.
        let distance = whole.abs_diff(float as u128);
        assert!(
            float.fract() == 0.0 && distance << 53 <= 6 * whole,
            "{weights:?}"
        );
        self.ratio = self.ratio.max((distance << 53) as f64 / whole as f64);
        self.rounded += usize::from(distance > 0);
    }

    fn tell(&self, what: &str) {
        let Farthest { ratio, rounded } = self;
        let text = "the largest 2^53 |v - e| / e was";
        let _ = writeln!(
            io::stderr(),
            "{what}: {text} {ratio:.4}, {rounded} products rounded"
        );
    }
}

/// The products of some of a sheet's k-cliques, each as a threshold with the
/// floats beside it.
fn every_product(trials: &mut Trials, judge: &JudgeK, farthest: &mut Farthest) {
    let facts = judge.facts().expect("an accepted sheet");
    let weights = facts.weights();
    weights.iter().for_each(|weights| farthest.meet(weights));
    for place in drawn(&mut trials.random, weights.len(), MOST_CLIQUES) {
        let [below, own, above] = beside(product(&weights[place]));
        assert!(Measure::Product(own).reached(&weights[place]));
        assert!(!Measure::Product(above).reached(&weights[place]));
        for threshold in [below, own, above] {
            trials.strong_around(judge, Measure::Product(threshold));
        }
    }
    let odd = trials.random.pick(&ODD);
    trials.strong_around(judge, Measure::Product(odd));
    let none = trials.random.pick(&no_numbers());
    trials.strong_around(judge, Measure::Product(none));
}

#[test]
fn products_of_random_sheets() {
    let trials = &mut Trials::new("products of random sheets");
    let farthest = &mut Farthest::default();
    for case in 0..SHEETS {
        trials.case();
        let (p, k) = (1 + case % 64, trials.random.within(2, 4));
        let mut network = random_network(&mut trials.random, p);
        let most = trials.random.pick(&[20, 60, 60, 150]);
        thin_out(&mut network, k, most);
        let judge = Judge::new(&sheet_bytes(&network));
        every_product(trials, &judge.with(k), farthest);
    }
    farthest.tell("products of random sheets");
}

/// All pairs of p parts linked with weights of one range.
fn heavy_network(random: &mut Random, p: usize, least: u16) -> Network {
    let mut network = complete(p);
    random.shuffle(&mut network.links);
    for link in &mut network.links {
        link.weight = random.within(least.into(), 65_535) as u16;
    }
    network
        .links
        .sort_by_key(|link| std::cmp::Reverse(link.weight));
    network
}

/// Only from 2^53 on is a product rounded: with four parts and weights near
/// the largest, where another order of multiplication gives another float.
#[test]
fn products_that_are_rounded() {
    let trials = &mut Trials::new("products that are rounded");
    let farthest = &mut Farthest::default();
    let mut turned = 0;
    for case in 0..4_000 {
        trials.case();
        let least = trials.random.pick(&[65_500, 65_000, 40_000, 6_000]);
        let network = heavy_network(&mut trials.random, 4 + case % 3, least);
        let judge = Judge::new(&sheet_bytes(&network));
        let judge = judge.with(4);
        let facts = judge.facts().expect("an accepted sheet");
        for weights in facts.weights() {
            let mut back = weights.clone();
            back.reverse();
            turned += usize::from(product(&back) != product(weights));
        }
        every_product(trials, &judge, farthest);
    }
    farthest.tell("products that are rounded");
    assert!(farthest.rounded > 10_000 && turned > 1_000, "{turned}");
}

/// At every threshold the weakest link gives the bytes of either run.
#[test]
fn weakest_link_is_the_old_listing() {
    let trials = &mut Trials::new("weakest links");
    for case in 0..SHEETS {
        trials.case();
        let (p, k) = (1 + case % 64, 2 + case % 5);
        let mut network = random_network(&mut trials.random, p);
        let most = trials.random.pick(&[20, 60, 150]);
        thin_out(&mut network, k, most);
        let judge = Judge::new(&sheet_bytes(&network));
        old_listings(trials, &judge.with(k), &network);
    }
}

fn old_listings(trials: &mut Trials, judge: &JudgeK, network: &Network) {
    let facts = judge.facts().expect("an accepted sheet");
    let mut thresholds = levels(&network.links);
    trials.random.shuffle(&mut thresholds);
    thresholds.truncate(5);
    thresholds.extend(thresholds.first().map(|t| t.saturating_add(1)));
    thresholds.extend([0, 65_535]);
    for t in thresholds {
        let (cliques, slots) = (facts.cliques().len(), facts.slots(t));
        let out = 16 * facts.listing(t).len();
        let measure = Measure::Weakest(t);
        let strong = judge.strong_listing(measure, [cliques; 2], [slots; 4], out);
        assert_eq!(strong, judge.listing(Run::Sequential, t, [slots; 4], out));
        trials.strong(judge, measure, [cliques; 2], [slots; 4], out);
        trials.strong_around(judge, measure);
        for run in RUNS {
            let most = facts.maximal(t, 300).max(slots);
            if most <= 300 {
                trials.listing(judge, run, t, [most; 4], out);
                assert_eq!(judge.listing(run, t, [most; 4], out), strong);
            }
        }
    }
}

/// A sheet with k.
struct Example {
    sheet: Vec<u8>,
    k: usize,
}

impl Example {
    fn new(network: &Network, k: usize) -> Example {
        Example {
            sheet: sheet_bytes(network),
            k,
        }
    }

    fn with(&self, measure: Measure, cliques: usize, slots: usize, out: usize) -> StrongListing {
        StrongListing {
            k: self.k,
            measure,
            list: [cliques; 2],
            lengths: [slots; 4],
            out,
        }
    }

    fn refused(&self, trials: &mut Trials, call: StrongListing, number: u8, left: Left) {
        trials.case();
        let expected = Expected::refused(Refusal { number, place: 0 }, left);
        trials.strong_as(&self.sheet, call, &expected);
    }

    /// Expects these communities by exactly so many cliques and slots.
    fn lists(
        &self,
        trials: &mut Trials,
        measure: Measure,
        cliques: usize,
        slots: usize,
        communities: &[(u64, u64)],
    ) {
        trials.case();
        let bytes: Vec<u8> = communities
            .iter()
            .flat_map(|(a, b)| [a.to_be_bytes(), b.to_be_bytes()].concat())
            .collect();
        let out = bytes.len();
        let expected = Expected::answered(communities.len(), bytes, Left::Zero);
        for more in [0, 3] {
            let call = self.with(measure, cliques + more, slots + more, out + more);
            trials.strong_as(&self.sheet, call, &expected);
        }
        for (list, slots) in [
            (cliques.wrapping_sub(1), slots),
            (cliques, slots.wrapping_sub(1)),
        ] {
            if list != usize::MAX && slots != usize::MAX {
                self.refused(trials, self.with(measure, list, slots, out), 15, Left::Zero);
            }
        }
        if out > 0 {
            let call = self.with(measure, cliques, slots, out - 1);
            self.refused(trials, call, 16, Left::Zero);
        }
        self.owned(measure, cliques, slots, communities);
    }

    /// The call that makes its own space, within limits.
    fn owned(&self, measure: Measure, cliques: usize, slots: usize, communities: &[(u64, u64)]) {
        let own: Vec<Community> = communities
            .iter()
            .map(|&(smallest, union)| Community { smallest, union })
            .collect();
        let call =
            |most, space| strong_listing(&self.sheet, self.k, measure_of(measure), most, space);
        assert_eq!(call(usize::MAX, Space::Bound), Ok(own.clone()));
        assert_eq!(call(cliques, Space::Slots(slots)), Ok(own));
        let short = Err(Refused {
            number: 15,
            place: 0,
        });
        if cliques > 0 {
            assert_eq!(call(cliques - 1, Space::Bound), short);
        }
        if slots > 0 {
            assert_eq!(call(cliques, Space::Slots(slots - 1)), short);
        }
    }
}

/// One weak link: the triangle 0, 1, 2 of weights 100, 100, 2 is stronger by
/// its product than 3, 4, 5 of weight 20, and weaker by its weakest link.
#[test]
fn weak_link_in_a_strong_group() {
    let trials = &mut Trials::new("a weak link in a strong group");
    let links = [
        (0, 1, 100),
        (0, 2, 100),
        (3, 4, 20),
        (3, 5, 20),
        (4, 5, 20),
        (1, 2, 2),
    ];
    let two = Example::new(&network(6, &links), 3);
    two.lists(trials, Measure::Product(20_000.0), 2, 3, &[(7, 7)]);
    two.lists(trials, Measure::Product(20_001.0), 2, 0, &[]);
    two.lists(trials, Measure::Product(8_000.0), 2, 6, &[(7, 7), (56, 56)]);
    two.lists(trials, Measure::Weakest(3), 2, 3, &[(56, 56)]);
    two.lists(trials, Measure::Weakest(2), 2, 6, &[(7, 7), (56, 56)]);
    for t in ODD {
        let (slots, all): (usize, &[(u64, u64)]) = match t <= 8_000.0 {
            true => (6, &[(7, 7), (56, 56)]),
            false => (0, &[]),
        };
        two.lists(trials, Measure::Product(t), 2, slots, all);
    }
    let none = Example::new(&network(3, &[]), 3);
    none.lists(trials, Measure::Product(0.0), 0, 0, &[]);
    none.lists(trials, Measure::Weakest(0), 0, 0, &[]);
}

/// P8, whose third triangle joins the other two, and the fullest sheets.
#[test]
fn p8_and_full_sheets() {
    let trials = &mut Trials::new("small and full sheets");
    let by_three = Example::new(&p8(), 3);
    by_three.lists(trials, Measure::Product(64.0), 3, 6, &[(7, 7), (28, 28)]);
    let [below, _, above] = beside(32.0);
    by_three.lists(trials, Measure::Product(below), 3, 7, &[(7, 31)]);
    by_three.lists(trials, Measure::Product(32.0), 3, 7, &[(7, 31)]);
    by_three.lists(trials, Measure::Product(above), 3, 6, &[(7, 7), (28, 28)]);
    for (p, k) in [(64, 2), (20, 3), (12, 4), (10, 5), (9, 6)] {
        let all = Example::new(&complete(p), k);
        let (cliques, slots) = (subset_count(p, k), slot_bound(p, k).count);
        let whole = ((1 << k) - 1, u64::MAX >> (64 - p));
        all.lists(trials, Measure::Weakest(1), cliques, slots, &[whole]);
        all.lists(trials, Measure::Weakest(2), cliques, 0, &[]);
        if k <= 4 {
            all.lists(trials, Measure::Product(1.0), cliques, slots, &[whole]);
            all.lists(trials, Measure::Product(1.000_1), cliques, 0, &[]);
        }
    }
}

/// The weights of the product `six` of crates/products/proofs/Examples.antt:
/// the same bits here, and a threshold that is reached at just these.
#[test]
fn computed_product() {
    let trials = &mut Trials::new("a product that the prover computes");
    let links = [
        (1, 2, 59_851),
        (2, 3, 59_183),
        (0, 3, 53_256),
        (0, 1, 50_510),
        (0, 2, 28_704),
        (1, 3, 18_191),
    ];
    let bits = 0x45b0_136a_40be_7466;
    let weights = [50_510, 28_704, 53_256, 59_851, 18_191, 59_183];
    assert_eq!(product(&weights).to_bits(), bits);
    let [_, at, above] = beside(f64::from_bits(bits));
    let four = Example::new(&network(4, &links), 4);
    four.lists(trials, Measure::Product(at), 1, 4, &[(15, 15)]);
    four.lists(trials, Measure::Product(above), 1, 0, &[]);
}

/// Every fault at once, the sheet's apart.
const FAULTY: StrongListing = StrongListing {
    k: 7,
    measure: Measure::Product(f64::NAN),
    list: [2, 3],
    lengths: [5, 5, 6, 5],
    out: 15,
};

/// From row to row the first fault is mended: the sheet, 10, 22 and 23.
#[test]
fn refusals_before_11() {
    let trials = &mut Trials::new("strong listings refused before 11");
    let good = Example::new(&p8(), 3);
    let mut bad = Example::new(&p8(), 3);
    bad.sheet[75] = 0;
    trials.case();
    let seven = Refusal {
        number: 7,
        place: 72,
    };
    let expected = Expected::refused(seven, Left::Untouched);
    trials.strong_as(&bad.sheet, FAULTY, &expected);
    good.refused(trials, FAULTY, 10, Left::Untouched);
    for k in [5, 6] {
        good.refused(trials, StrongListing { k, ..FAULTY }, 22, Left::Untouched);
    }
    for measure in no_numbers().map(Measure::Product) {
        let call = StrongListing {
            k: 3,
            measure,
            ..FAULTY
        };
        good.refused(trials, call, 23, Left::Untouched);
    }
}

/// Then 11 for the list or the tables, 15 for the list, 15 for the tables
/// and 16.
#[test]
fn refusals_from_11_on() {
    let trials = &mut Trials::new("strong listings refused from 11 on");
    let good = Example::new(&p8(), 3);
    let measure = Measure::Product(32.0);
    let rows = [
        ([2, 3], [5, 5, 6, 5], 11, Left::Untouched),
        ([2, 2], [5, 5, 6, 5], 11, Left::Untouched),
        ([2, 3], [6; 4], 11, Left::Untouched),
        ([3, 2], [6; 4], 11, Left::Untouched),
        ([2, 2], [7; 4], 15, Left::Zero),
        ([3, 3], [6; 4], 15, Left::Zero),
        ([3, 3], [7; 4], 16, Left::Zero),
    ];
    for (list, lengths, number, left) in rows {
        let call = StrongListing {
            k: 3,
            measure,
            list,
            lengths,
            ..FAULTY
        };
        good.refused(trials, call, number, left);
    }
    good.lists(trials, measure, 3, 7, &[(7, 31)]);
}

/// Everything that a caller can get wrong, crossed.
#[test]
fn callers_faults() {
    let trials = &mut Trials::new("strong listings' faults crossed");
    trials.small_sheets(crossed);
}

fn crossed(trials: &mut Trials, judge: &JudgeK) {
    let need = judge.facts().map_or(7, |facts| facts.slots(0));
    let cliques = judge.facts().map_or(3, |facts| facts.cliques().len());
    let level = [need, need.saturating_sub(1), 0].map(|slots| [slots; 4]);
    let lists = [
        [cliques; 2],
        [cliques.saturating_sub(1); 2],
        [cliques, cliques + 1],
        [cliques + 1, cliques],
        [4 * cliques + 4, cliques],
        [0, 1],
    ];
    let products = [0.0, 32.0, f64::INFINITY, f64::NEG_INFINITY, f64::NAN].map(Measure::Product);
    let weakest = [0, 3, 65_535].map(Measure::Weakest);
    for lengths in level.into_iter().chain(unequal(need)) {
        for list in lists {
            for measure in products.into_iter().chain(weakest) {
                trials.case();
                for out in [0, 15, 16, 4_096] {
                    trials.strong(judge, measure, list, lengths, out);
                }
            }
        }
    }
}
