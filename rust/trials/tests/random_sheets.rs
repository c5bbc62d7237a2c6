//! Random sheets by every call, and complete ones.

use reference::calls::{slot_bound, Expected, Judge, JudgeK, Left, Outcome, Run};
use reference::fast;
use reference::network::{listing_bytes, Network};
use reference::sheets::sheet_bytes;
use trials::arguments::{any_set, around, thresholds, RUNS};
use trials::calls::Listing;
use trials::sheets::{complete, random_network, thin_out};
use trials::trials::hex;
use trials::Trials;

const SHEETS: usize = 20_480;

/// The most slots lent to a maximal-clique run that may need any number.
const MOST_MAXIMAL: usize = 300;

#[test]
fn random_sheets() {
    let trials = &mut Trials::new("random sheets");
    for case in 0..SHEETS {
        trials.case();
        let p = 1 + case % 64;
        // A search for slots may cost as much as there are slots, so most
        // sheets have few cliques.
        let most = match trials.random.below(200) {
            0 => 2500,
            1..=10 => 700,
            _ => 250,
        };
        let k = trials.random.within(2, 6);
        let mut network = random_network(&mut trials.random, p);
        if k > 2 {
            thin_out(&mut network, k, most);
        }
        let judge = Judge::new(&sheet_bytes(&network));
        read_and_write(trials, &judge, &network);
        trials.slot_bound(p, k);
        try_k(trials, &judge.with(k), &network);
        let other = trials.random.within(2, 6);
        let rows = fast::rows(&network.links, 0);
        if other != k && fast::count_cliques(&rows, fast::all_parts(p), other, most) <= most {
            try_k(trials, &judge.with(other), &network);
        }
    }
}

fn read_and_write(trials: &mut Trials, judge: &Judge, network: &Network) {
    let outputs = trials.outputs(judge);
    trials.read(judge, outputs);
    let part = trials.random.below(network.names.len() + 1);
    trials.name(judge, part);
    let sheet = judge.sheet();
    let written = families::read(sheet).and_then(|network| families::write(&network));
    let verdict = match written {
        Ok(written) if written == sheet => Ok(()),
        other => Err(format!("expected the sheet again, found {other:x?}")),
    };
    trials.expect(verdict, || format!("read and write, sheet {}", hex(sheet)));
    let read = judge.read([usize::MAX; 4]);
    let lists = [&read.lower[..], &read.higher, &read.weights];
    let out = around(&mut trials.random, sheet.len());
    trials.write(&read.names, lists, out);
}

fn try_k(trials: &mut Trials, judge: &JudgeK, network: &Network) {
    let facts = judge.facts().expect("an accepted sheet");
    for t in thresholds(&mut trials.random, network) {
        for run in RUNS {
            let need = match run {
                Run::Sequential => facts.slots(t),
                Run::Maximal => facts.maximal(t, MOST_MAXIMAL).min(MOST_MAXIMAL),
            };
            let slots = around(&mut trials.random, need);
            let out = trials.listing_output(judge, t);
            trials.listing(judge, run, t, [slots; 4], out);
        }
    }
    let slots = around(&mut trials.random, facts.slots(0));
    let out = trials.tree_output(judge);
    trials.tree(judge, [slots; 4], out);
    meetings(trials, judge);
}

fn meetings(trials: &mut Trials, judge: &JudgeK) {
    let facts = judge.facts().expect("an accepted sheet");
    let mut sets = vec![[0, 1].map(|_| any_set(&mut trials.random, judge))];
    if !facts.cliques().is_empty() {
        let mut clique = || trials.random.pick(facts.cliques()).set;
        let (a, b, c) = (clique(), clique(), clique());
        sets.extend([[a, b], [c, c]]);
        sets.push([a, any_set(&mut trials.random, judge)]);
    }
    let most = facts.most_maximal(MOST_MAXIMAL).min(MOST_MAXIMAL);
    for [a, b] in sets {
        for (run, need) in RUNS.into_iter().zip([facts.slots(0), most]) {
            let slots = around(&mut trials.random, need);
            trials.meeting(judge, run, a, b, [slots; 4]);
        }
    }
}

/// Sheets with all pairs linked need exactly the slot bound.
#[test]
fn complete_sheets() {
    let trials = &mut Trials::new("complete sheets");
    let cases = (1..=64).flat_map(|p| (2..=6).map(move |k| (p, k)));
    for (p, k) in cases {
        let network = complete(p);
        let bound = slot_bound(p, k).count;
        let parts = fast::all_parts(p);
        let cliques = fast::count_cliques(&fast::rows(&network.links, 0), parts, k, 42_000);
        // Where every slot is compared for every clique, this is the work.
        if cliques * k * bound > 60_000_000 {
            continue;
        }
        trials.case();
        let judge = Judge::new(&sheet_bytes(&network));
        let judge = judge.with(k);
        let communities = judge.facts().expect("accepted").listing(1).len();
        for slots in [bound, bound.saturating_sub(1)] {
            trials.listing(&judge, Run::Sequential, 1, [slots; 4], 16 * communities);
            trials.tree(&judge, [slots; 4], 26 * communities);
        }
        trials.listing(&judge, Run::Maximal, 1, [communities; 4], 16 * communities);
    }
}

/// Large cliques, which only the maximal-clique run can take.
#[test]
fn large_cliques() {
    let trials = &mut Trials::new("large cliques");
    while trials.cases() < 300 {
        let random = &mut trials.random;
        let (p, k) = (random.within(40, 64), random.within(2, 6));
        let mut network = complete(p);
        let (left, right) = (random.within(5, p), random.within(5, p));
        let missing = random.pick(&[0, 1, 3, 8]);
        network.links.retain(|link| {
            let (lower, higher) = (usize::from(link.lower), usize::from(link.higher));
            let inside = higher < left || lower >= left.min(right);
            inside && !random.chance(missing)
        });
        let slots = 2_000;
        if let Some(listing) = fast::listing_by_maximal(&network.links, p, k, 1, slots) {
            trials.case();
            let call = Listing {
                run: Run::Maximal,
                k,
                t: 1,
                lengths: [slots; 4],
                out: 16 * listing.len(),
            };
            let expected = Expected {
                outcome: Outcome::count(listing.len()),
                output: listing_bytes(&listing),
                tables: Left::Zero,
            };
            trials.listing_as(&sheet_bytes(&network), call, &expected);
        }
    }
}
