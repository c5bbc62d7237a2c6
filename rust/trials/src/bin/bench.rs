//! Times of the library and of the reference on test sheets, with their
//! ratio: both listings at t 1, the one by clique strength, and the merge
//! tree; then what a run needs of the fullest sheet. The test sheets are those
//! of the recipe of the bench's test sheets, from the starting number 1.
//!
//! The first argument gives the most slots of the sequential run: its time
//! grows with the square of their number, since slots are found by a linear
//! search.

use std::env;
use std::hint::black_box;
use std::time::{Duration, Instant};

use families::{lent, Cliques, Run, Tables};
use reference::fast;
use reference::network::Network;
use reference::sheets::sheet_bytes;
use reference::strength::{pair_weights, Measure};
use trials::sheets::bench_network;
use trials::strengths::measure_of;

const DEFAULT_SLOTS: usize = 12_000;
const MAXIMAL_CLIQUES: usize = 1_000_000;
const TIMES: usize = 5;

/// The best times of two pieces of work, taken in turns.
fn best(mut library: impl FnMut(), mut reference: impl FnMut()) -> (Duration, Duration) {
    let time = |work: &mut dyn FnMut()| {
        let begun = Instant::now();
        work();
        begun.elapsed()
    };
    let mut best = (Duration::MAX, Duration::MAX);
    for _ in 0..TIMES {
        best.0 = best.0.min(time(&mut library));
        best.1 = best.1.min(time(&mut reference));
    }
    best
}

fn show((library, reference): (Duration, Duration)) -> String {
    let ms = |time: Duration| time.as_secs_f64() * 1e3;
    let ratio = library.as_secs_f64() / reference.as_secs_f64().max(1e-9);
    format!(
        " | {:>10.3} {:>10.3} {ratio:>8.2}",
        ms(library),
        ms(reference)
    )
}

/// The times of one listing.
fn listing(network: &Network, k: usize, run: Run, slots: usize) -> String {
    let (p, links) = (network.names.len(), &network.links[..]);
    let sheet = sheet_bytes(network);
    let mut tables = Tables::new(slots);
    let mut out = vec![0; 16 * fast::listing(links, p, k, 1).len()];
    let times = best(
        || {
            let outcome = lent::listing(run, &sheet, k, 1, tables.as_mut(), &mut out);
            assert_eq!(outcome.number, 0, "refused");
        },
        || match run {
            Run::Sequential => drop(black_box(fast::listing(links, p, k, 1))),
            Run::Maximal => drop(black_box(fast::listing_by_maximal(links, p, k, 1, slots))),
        },
    );
    show(times)
}

/// The listing by clique strength: each clique's weights and measure, then
/// percolation; it stores no list.
fn strong_reference(network: &Network, k: usize, measure: Measure) -> fast::Classes {
    let (p, links) = (network.names.len(), &network.links[..]);
    let (rows, weights) = (fast::rows(links, 0), fast::weights(links));
    let mut classes = fast::Classes::default();
    fast::each_clique(&rows, 0, fast::all_parts(p), k, &mut |set| {
        if measure.reached(&pair_weights(&weights, set)) {
            classes.add(set);
        }
    });
    classes
}

/// The times of a listing by clique strength that every clique reaches, so
/// that it percolates what the sequential run does.
fn strong(network: &Network, k: usize, slots: usize) -> String {
    let measure = match k <= 4 {
        true => Measure::Product(1.0),
        false => Measure::Weakest(1),
    };
    let rows = fast::rows(&network.links, 0);
    let parts = fast::all_parts(network.names.len());
    let sheet = sheet_bytes(network);
    let mut cliques = Cliques::new(fast::count_cliques(&rows, parts, k, usize::MAX));
    let mut tables = Tables::new(slots);
    let mut out = vec![0; 16 * strong_reference(network, k, measure).listing().len()];
    let times = best(
        || {
            let (list, tables) = (cliques.as_mut(), tables.as_mut());
            let measure = measure_of(measure);
            let outcome = lent::strong_listing(&sheet, k, measure, list, tables, &mut out);
            assert_eq!(outcome.number, 0, "refused");
        },
        || drop(black_box(strong_reference(network, k, measure).listing())),
    );
    show(times)
}

/// The times of the merge tree.
fn tree(network: &Network, k: usize, slots: usize) -> String {
    let (p, links) = (network.names.len(), &network.links[..]);
    let sheet = sheet_bytes(network);
    let mut tables = Tables::new(slots);
    let mut out = vec![0; 26 * fast::tree(links, p, k).len()];
    let times = best(
        || {
            let outcome = lent::tree(&sheet, k, tables.as_mut(), &mut out);
            assert_eq!(outcome.number, 0, "refused");
        },
        || drop(black_box(fast::tree(links, p, k))),
    );
    show(times)
}

/// How many (k-1)-cliques lie in a k-clique: some part is linked to all of
/// their parts.
fn slots_needed(rows: &fast::Rows, parts: u64, k: usize) -> usize {
    let mut slots = 0;
    fast::each_clique(rows, 0, parts, k - 1, &mut |set| {
        let common = fast::parts(set).fold(parts, |common, part| common & rows[part]);
        slots += usize::from(common != 0);
    });
    slots
}

/// The times of what a run needs of the fullest sheet, told before it.
fn needs(p: usize, k: usize) {
    let mut sheet = vec![0; 8_584];
    let length = lent::fullest_sheet(p, k, &mut sheet).count;
    let sheet = &sheet[..length];
    let rows = fast::rows(&bench_network(1, p, 100).links, 1);
    let parts = fast::all_parts(p);
    let counts = || {
        let cliques = fast::count_cliques(&rows, parts, k, usize::MAX);
        (cliques as u64, slots_needed(&rows, parts, k) as u64)
    };
    let need = lent::needed(sheet, k, 1);
    assert_eq!((need.cliques, need.slots), counts());
    let times = best(
        || {
            black_box(lent::needed(sheet, k, 1));
        },
        || {
            black_box(counts());
        },
    );
    let (slots, cliques) = (need.slots, need.cliques);
    println!("{p:>3} {k:>2} {slots:>9} {cliques:>10}{}", show(times));
}

/// The column of a run that is left out.
fn none() -> String {
    format!(" | {:>10} {:>10} {:>8}", "-", "-", "-")
}

fn row(p: usize, density: u64, k: usize, most: usize) {
    let network = bench_network(1, p, density);
    let slots = fast::classes(&network.links, p, k, 1).slot_count();
    let rows = fast::rows(&network.links, 1);
    let maximal = fast::maximal_cliques(&rows, p, k, MAXIMAL_CLIQUES).len();
    print!("{p:>3} {density:>4} {k:>2} {slots:>8} {maximal:>8}");
    match slots <= most {
        true => print!(
            "{}{}",
            listing(&network, k, Run::Sequential, slots),
            strong(&network, k, slots)
        ),
        false => print!("{}{}", none(), none()),
    }
    match maximal <= MAXIMAL_CLIQUES {
        true => print!("{}", listing(&network, k, Run::Maximal, maximal)),
        false => print!("{}", none()),
    }
    match slots <= most {
        true => println!("{}", tree(&network, k, slots)),
        false => println!("{}", none()),
    }
}

fn main() {
    let most = env::args()
        .nth(1)
        .map_or(DEFAULT_SLOTS, |text| text.parse().expect("a number"));
    println!("ms, best of {TIMES}: library, reference, ratio");
    println!("p parts, d density in percent, threshold 1; as many slots as the run needs");
    println!("the tables are zero before each call, as every call leaves them");
    println!("by strength: product 1 or more at k 3 and 4, weakest link 1 or more at k 5");
    println!("- : more than {most} slots (MOST= takes another number)");
    let column = format!(" | {:>10} {:>10} {:>8}", "library", "reference", "ratio");
    println!(
        "{:>28} | {:<30} | {:<30} | {:<30} | {:<30}",
        "", "sequential", "by strength", "maximal", "tree"
    );
    println!(
        "{:>3} {:>4} {:>2} {:>8} {:>8}{}",
        "p",
        "d",
        "k",
        "slots",
        "maximal",
        column.repeat(4)
    );
    for p in [32, 64] {
        for density in [20, 50, 80, 100] {
            for k in 3..=5 {
                row(p, density, k, most);
            }
        }
    }
    println!("\nwhat a run needs of the fullest sheet, told before it");
    println!(
        "{:>3} {:>2} {:>9} {:>10}{column}",
        "p", "k", "slots", "cliques"
    );
    for k in 3..=6 {
        needs(64, k);
    }
}
