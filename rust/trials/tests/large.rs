//! The limit of 16,777,216 slots, and a clique list longer than that. These
//! tests need up to 700 MB and some time, so they run only where they are
//! asked for (`-- --ignored`).

use families::lent::{self, State};
use families::{Cliques, Measure, Space, Tables, JOURNAL_ENTRIES, MOST_SLOTS};
use reference::network::{Link, Network};
use reference::published::plain_names;
use reference::sheets::sheet_bytes;
use trials::sheets::complete;
use trials::Trials;

/// 24 pairs of parts, each part linked to all but the other of its pair:
/// 2^24 maximal cliques. With `apart`, two parts more that are linked to
/// each other only: one maximal clique more.
fn pairs(apart: bool) -> Vec<u8> {
    let linked = |lower: u8, higher: u8| match higher {
        49 => apart && lower == 48,
        48 => false,
        _ => lower / 2 != higher / 2,
    };
    let mut links = Vec::new();
    for lower in 0..50 {
        links.extend(
            (lower + 1..50)
                .filter(|&h| linked(lower, h))
                .map(|higher| Link {
                    lower,
                    higher,
                    weight: 3,
                }),
        );
    }
    sheet_bytes(&Network {
        names: plain_names(50),
        links,
    })
}

fn all_zero(tables: &Tables) -> bool {
    let tables = tables.as_ref();
    let sets = [tables.sets, tables.smallest, tables.unions];
    sets.iter().all(|t| t.iter().all(|&n| n == 0)) && tables.entries.iter().all(|&n| n == 0)
}

#[test]
#[ignore = "needs much memory"]
fn one_maximal_clique_too_many() {
    let trials = &mut Trials::new("one maximal clique too many");
    trials.case();
    let mut tables = Tables::new(MOST_SLOTS + 1);
    tables.as_mut().sets.fill(9);
    let run = families::Run::Maximal;
    let outcome = lent::listing(run, &pairs(true), 2, 0, tables.as_mut(), &mut [7; 64]);
    assert_eq!(outcome.number, 15);
    assert!(all_zero(&tables));
}

#[test]
#[ignore = "needs much memory"]
fn as_many_maximal_cliques_as_slots() {
    let trials = &mut Trials::new("as many maximal cliques as slots");
    trials.case();
    let space = Space::Slots(MOST_SLOTS);
    let found = families::listing(families::Run::Maximal, &pairs(false), 2, 0, space);
    let expected = families::Community {
        smallest: 0b101,
        union: (1 << 48) - 1,
    };
    assert_eq!(found, Ok(vec![expected]));
}

/// 12 knows the same limit, whatever the tables' length.
#[test]
#[ignore = "needs much memory"]
fn used_slots_beyond_the_limit() {
    let trials = &mut Trials::new("used slots beyond the limit");
    trials.case();
    let mut tables = Tables::new(MOST_SLOTS + 1);
    let mut journal = vec![7; JOURNAL_ENTRIES];
    let started = lent::start(5, 3, tables.as_mut(), &mut journal);
    assert_eq!(started.outcome.number, 0);
    let state = State {
        used: MOST_SLOTS + 1,
        ..started.state
    };
    let after = lent::insert(state, tables.as_mut(), &mut journal, 0, 1, 5);
    assert_eq!((after.outcome.number, after.state), (12, state));
    let after = lent::take_back(state, tables.as_mut(), &mut journal);
    assert_eq!((after.outcome.number, after.state), (12, state));
    let outcome = lent::listing_now(state, tables.as_ref(), &mut []);
    assert_eq!(outcome.number, 12);
    // One slot fewer is within the range: entries of 0 are above none.
    let state = State {
        used: MOST_SLOTS,
        ..started.state
    };
    assert_ne!(
        lent::listing_now(state, tables.as_ref(), &mut []).number,
        12
    );
}

/// All cliques of six of 51 parts: the list holds them, and no slot is needed
/// where none is strong.
#[test]
#[ignore = "needs much memory"]
fn more_cliques_than_slots() {
    let trials = &mut Trials::new("more cliques than there may be slots");
    let sheet = sheet_bytes(&complete(51));
    for (cliques, expected) in [(18_009_460, (0, 0)), (18_009_459, (15, 0))] {
        trials.case();
        let mut list = Cliques::new(cliques);
        list.as_mut().sets.fill(9);
        list.as_mut().products.fill(9.0);
        let mut tables = Tables::new(0);
        let (space, slots) = (list.as_mut(), tables.as_mut());
        let found = lent::strong_listing(&sheet, 6, Measure::Weakest(2), space, slots, &mut []);
        assert_eq!((found.number, found.count), expected);
        let left = list.as_mut();
        assert!(left.sets.iter().all(|&set| set == 0));
        assert!(left.products.iter().all(|v| v.to_bits() == 0));
    }
}
