//! What a run needs, told before it: against the reference, then a run with
//! that many slots and with one fewer; and the fullest sheet byte for byte.

use reference::calls::{Judge, Run};
use reference::network::levels;
use reference::sheets::sheet_bytes;
use trials::arguments::{BAD_K, BAD_P};
use trials::sheets::{random_network, thin_out};
use trials::Trials;

const SHEETS: usize = 1_600;

/// The bytes of the fullest sheet of 64 parts.
const LONGEST: usize = 8_584;

#[test]
fn needs_and_runs() {
    let trials = &mut Trials::new("needs of runs");
    for case in 0..SHEETS {
        trials.case();
        let (p, k) = (1 + case % 64, trials.random.within(2, 6));
        let mut network = random_network(&mut trials.random, p);
        if k > 2 {
            thin_out(&mut network, k, 100);
        }
        let judge = Judge::new(&sheet_bytes(&network));
        let judge = judge.with(k);
        let mut thresholds = levels(&network.links);
        thresholds.extend([0, 65_535]);
        let t = trials.random.pick(&thresholds);
        trials.needed(&judge, t);
        let slots = judge.needed(t).expect("an accepted sheet")[2] as usize;
        let out = 1 << 14;
        trials.listing(&judge, Run::Sequential, t, [slots; 4], out);
        if slots > 0 {
            trials.listing(&judge, Run::Sequential, t, [slots - 1; 4], out);
        }
        let bad = trials.random.pick(&BAD_K);
        trials.needed(&judge.judge().with(bad), t);
    }
}

#[test]
fn fullest_sheets() {
    let trials = &mut Trials::new("fullest sheets");
    for p in 0..=66usize {
        for k in 0..=8 {
            trials.case();
            let length = 8 + 8 * p + 2 * p * p.saturating_sub(1);
            for out in [length.saturating_sub(1), length, length + 1] {
                trials.fullest_sheet(p, k, out);
            }
        }
    }
    // Numbers of which some would pass if they were cut short.
    for p in (1..=3).chain(BAD_P) {
        for k in (2..=3).chain(BAD_K) {
            trials.case();
            for out in [0, LONGEST] {
                trials.fullest_sheet(p, k, out);
            }
        }
    }
}

/// The need of the fullest sheet is the slot bound.
#[test]
fn fullest_needs() {
    for p in 1..=64 {
        for k in 2..=6 {
            let mut sheet = vec![0; LONGEST];
            let length = families::lent::fullest_sheet(p, k, &mut sheet).count;
            let need = families::lent::needed(&sheet[..length], k, 1);
            let bound = families::lent::slot_bound(p, k).count as u64;
            assert_eq!(need.slots, bound, "p {p}, k {k}");
            assert_eq!(need.joins, k as u64 * need.cliques, "p {p}, k {k}");
        }
    }
    let mut sheet = vec![0; LONGEST];
    let length = families::lent::fullest_sheet(64, 6, &mut sheet).count;
    let need = families::lent::needed(&sheet[..length], 6, 1);
    let numbers = [need.cliques, need.joins, need.slots];
    assert_eq!(numbers, [74_974_368, 449_846_208, 7_624_512]);
}
