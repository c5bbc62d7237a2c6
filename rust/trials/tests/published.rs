//! Published networks and merge trees, by the library.

use reference::calls::{Expected, Judge, Left, Outcome};
use reference::network::{listing_bytes, tree_text, Line};
use reference::published::{networks, trees};
use reference::sheets::sheet_bytes;
use trials::arguments::RUNS;
use trials::calls::Listing;
use trials::trials::hex;
use trials::Trials;

/// Enough slots for every published network by either run.
const SLOTS: usize = 1 << 14;

#[test]
fn published_networks() {
    let trials = &mut Trials::new("published networks");
    for case in networks() {
        trials.case();
        let sheet = sheet_bytes(&case.network);
        let expected = Expected {
            outcome: Outcome::count(case.listing.len()),
            output: listing_bytes(&case.listing),
            tables: Left::Zero,
        };
        for run in RUNS {
            let call = Listing {
                run,
                k: case.k,
                t: case.t,
                lengths: [SLOTS; 4],
                out: 16 * case.listing.len(),
            };
            trials.listing_as(&sheet, call, &expected);
        }
    }
    assert_eq!(trials.cases(), 288);
}

fn line(line: &families::Line) -> Line {
    Line {
        weight: line.weight,
        joins: line.joins,
        into: line.into.unwrap_or(0),
        smallest: line.smallest,
        union: line.union,
    }
}

#[test]
fn published_trees() {
    let trials = &mut Trials::new("published trees");
    for case in trees() {
        trials.case();
        let sheet = sheet_bytes(&case.network);
        let (p, m) = (case.network.names.len(), case.network.links.len());
        let found = match families::tree(&sheet, case.k, families::Space::Slots(SLOTS)) {
            Ok(lines) => tree_text(p, m, &lines.iter().map(line).collect::<Vec<_>>()),
            Err(refused) => refused.to_string(),
        };
        let verdict = match found == case.text {
            true => Ok(()),
            false => Err(format!("expected {}\nfound {found}", case.text)),
        };
        trials.expect(verdict, || {
            format!("tree of {}, k {}, sheet {}", case.name, case.k, hex(&sheet))
        });
        let lines = case.text.lines().count() - 2;
        trials.tree(&Judge::new(&sheet).with(case.k), [SLOTS; 4], 26 * lines);
    }
    assert_eq!(trials.cases(), 21);
}
