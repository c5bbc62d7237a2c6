//! Lists of inserts and takings back with refused ones in between.

use reference::calls::Judge;
use reference::network::{Link, Network};
use reference::sheets::{sheet_bytes, Refusal};
use reference::steps::{Step, JOURNAL_ENTRIES};
use trials::arguments::RUNS;
use trials::inserts::Inserts;
use trials::lists::{random_list, slots_needed};
use trials::sheets::{complete, p8};
use trials::Trials;

fn refused(number: u8) -> Result<(), Refusal> {
    Err(Refusal { number, place: 0 })
}

fn run_list(trials: &mut Trials, p: usize, k: usize, slots: usize, list: &[Step]) {
    trials.case();
    let mut inserts = Inserts::start(trials, p, k, slots);
    inserts.listing_now(trials, 0);
    for &step in list {
        let answer = inserts.step(trials, step);
        // What 15 refused is not among the links: it gets 15 again.
        if answer == refused(15) {
            let again = inserts.step(trials, step);
            assert_eq!(again, answer);
        }
    }
    let need = 16 * inserts.steps.listing().len();
    for out in [need, need.saturating_sub(1), 0, need + 20] {
        inserts.listing_now(trials, out);
    }
    by_both_runs(trials, p, k, &inserts);
}

/// Both runs on the sheet of the links that remain, equal weights in another
/// order, give the listing now.
fn by_both_runs(trials: &mut Trials, p: usize, k: usize, inserts: &Inserts) {
    let mut links = inserts.steps.links().to_vec();
    trials.random.shuffle(&mut links);
    links.sort_by_key(|link| std::cmp::Reverse(link.weight));
    let names = reference::published::plain_names(p);
    let judge = Judge::new(&sheet_bytes(&Network { names, links }));
    let judge = judge.with(k);
    let facts = judge.facts().expect("an accepted sheet");
    assert_eq!(facts.listing(0), inserts.steps.listing());
    let out = 16 * facts.listing(0).len();
    let most = 300;
    let needs = [facts.slots(0), facts.maximal(0, most).min(most)];
    for (run, need) in RUNS.into_iter().zip(needs) {
        trials.listing(&judge, run, 0, [need; 4], out);
    }
}

#[test]
fn lists_of_inserts() {
    let trials = &mut Trials::new("lists of inserts");
    for case in 0..4_000 {
        let p = match case % 4 {
            0 => trials.random.within(1, 64),
            1 => trials.random.within(8, 20),
            _ => trials.random.within(2, 9),
        };
        let k = 2 + case % 5;
        let list = random_list(&mut trials.random, p, k);
        let need = slots_needed(p, k, &list);
        let mut lengths = vec![need, need + 3, 0, trials.random.below(need + 1)];
        lengths.extend(need.checked_sub(1));
        for slots in lengths {
            run_list(trials, p, k, slots, &list);
        }
    }
}

fn accept(trials: &mut Trials, inserts: &mut Inserts, steps: impl IntoIterator<Item = Step>) {
    for step in steps {
        assert_eq!(inserts.step(trials, step), Ok(()), "{step:?}");
    }
}

fn refuse(trials: &mut Trials, inserts: &mut Inserts, number: u8, step: Step) {
    assert_eq!(inserts.step(trials, step), refused(number), "{step:?}");
}

fn backs(count: usize) -> Vec<Step> {
    vec![Step::TakeBack; count]
}

/// A link that is taken back no longer counts for 8 and 9, and with no link
/// left any weight passes.
#[test]
fn taken_back() {
    let trials = &mut Trials::new("taken back");
    for k in 2..=6 {
        trials.case();
        let inserts = &mut Inserts::start(trials, 5, k, 40);
        refuse(trials, inserts, 19, Step::TakeBack);
        accept(trials, inserts, p8().links.into_iter().map(Step::from));
        refuse(trials, inserts, 8, Step::Insert(0, 3, 3));
        refuse(trials, inserts, 9, Step::Insert(1, 3, 2));
        accept(trials, inserts, backs(1));
        refuse(trials, inserts, 8, Step::Insert(1, 3, 5));
        accept(trials, inserts, [Step::Insert(1, 3, 3)]);
        accept(trials, inserts, backs(7));
        refuse(trials, inserts, 19, Step::TakeBack);
        accept(trials, inserts, [Step::Insert(3, 4, 65_535)]);
        refuse(trials, inserts, 9, Step::Insert(3, 4, 65_535));
    }
}

/// Every pair of 64 parts by falling weight, equal weights in any order.
fn every_pair(trials: &mut Trials) -> Vec<Link> {
    let mut links = complete(64).links;
    trials.random.shuffle(&mut links);
    let most = trials.random.pick(&[1, 3, 500, 65_535]);
    for link in &mut links {
        link.weight = trials.random.within(1, most) as u16;
    }
    links.sort_by_key(|link| std::cmp::Reverse(link.weight));
    links
}

/// The journal full, a part of it taken back and put in again the other way
/// round with the weight of the last link left, then all taken back.
#[test]
fn full_journals() {
    let trials = &mut Trials::new("full journals");
    for _ in 0..4 {
        trials.case();
        let links = every_pair(trials);
        assert_eq!(links.len(), JOURNAL_ENTRIES);
        let inserts = &mut Inserts::start(trials, 64, 2, 64);
        accept(trials, inserts, links.iter().copied().map(Step::from));
        // There is no room for another link, and none can come.
        let again = trials.random.pick(&links);
        refuse(trials, inserts, 9, Link { weight: 1, ..again }.into());
        let back = trials.random.within(1, 300);
        accept(trials, inserts, backs(back));
        let weight = inserts.steps.last_weight();
        let taken = links.iter().rev().take(back);
        let again = taken.map(|&link| Link { weight, ..link }.into());
        accept(trials, inserts, again);
        accept(trials, inserts, backs(JOURNAL_ENTRIES));
        refuse(trials, inserts, 19, Step::TakeBack);
        accept(trials, inserts, [Step::Insert(0, 63, 65_535)]);
    }
}
