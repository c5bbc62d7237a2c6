//! Names in sheets, dumps and networks for the writer: 5 for every name, then
//! 21 for the first that equals an earlier one, both before links and rows.

use reference::calls::{dump_sheet, write, Judge, Outcome};
use reference::dumps::{dump_bytes, Dump};
use reference::network::{Link, Network};
use reference::published::plain_names;
use reference::sheets::{sheet_bytes, Refusal};
use trials::told::Told;
use trials::Trials;

type Name = [u8; 8];

/// Names that pass; some differ in the last byte only, some are another's
/// beginning.
const GOOD: [&Name; 5] = [
    b"ABCDEFGH",
    b"ABCDEFGI",
    b"ABCDEFG ",
    b"ABC     ",
    b"A       ",
];

/// Names that do not; up to a space the first is a good one.
const BAD: [&Name; 4] = [b"A B     ", b" A      ", b"ABCDEFG\x7f", b"        "];

/// The number that some names are refused with, and which name it is told
/// of.
type Fault = Option<(u8, usize)>;

/// By the words of the request, name against name.
fn fault(names: &[Name]) -> Fault {
    let bad = |&q: &usize| BAD.contains(&&names[q]);
    let again = |&q: &usize| names[..q].contains(&names[q]);
    let form = (0..names.len()).find(bad).map(|q| (5, q));
    form.or((0..names.len()).find(again).map(|q| (21, q)))
}

/// A refusal for the names with its place, or else what comes after them.
fn refusal(fault: Fault, then: Option<Refusal>) -> Option<Refusal> {
    let of_name = |(number, name)| Refusal {
        number,
        place: 8 + 8 * name,
    };
    fault.map(of_name).or(then)
}

/// The same from the writer, which tells no place.
fn placeless(fault: Fault, then: Option<Refusal>) -> Option<Refusal> {
    refusal(fault, then).map(|refusal| Refusal {
        place: 0,
        ..refusal
    })
}

fn is_refused(found: Outcome, expected: Option<Refusal>) {
    match expected {
        Some(expected) => assert_eq!(found, expected.into()),
        None => assert_eq!(found.number, 0),
    }
}

/// Sheets with a link that passes and with one that does not.
fn sheets(trials: &mut Trials, names: &[Name], fault: Fault) {
    let place = 8 + 8 * names.len();
    let six = Refusal { number: 6, place };
    for (higher, then) in [(1, None), (names.len() as u8, Some(six))] {
        let (lower, weight) = (0, 5);
        let links = vec![Link {
            lower,
            higher,
            weight,
        }];
        let names = names.to_vec();
        let judge = Judge::new(&sheet_bytes(&Network { names, links }));
        assert_eq!(judge.network().err(), refusal(fault, then));
        trials.every_call(&judge);
    }
}

/// Dumps with good rows, with room and without, and where p is below 64 with
/// a faulty row.
fn dumps(trials: &mut Trials, names: &[Name], fault: Fault) {
    let p = names.len();
    let place = 8 + 8 * p;
    let sixteen = Refusal {
        number: 16,
        place: 0,
    };
    let eighteen = Refusal { number: 18, place };
    let mut all = vec![(3, 9_000, None), (3, 0, Some(sixteen))];
    if p < 64 {
        all.push((1 << p, 9_000, Some(eighteen)));
    }
    for (row, out, then) in all {
        let (names, rows) = (names.to_vec(), vec![row, 0]);
        let dump = dump_bytes(&Dump { names, rows });
        is_refused(dump_sheet(&dump, out).outcome, refusal(fault, then));
        trials.dump_sheet(&dump, out);
    }
}

/// Networks for the writer with a good link, with room and without, and with
/// a faulty link.
fn networks(trials: &mut Trials, names: &[Name], fault: Fault) {
    let (p, names) = (names.len() as u16, names.concat());
    let told = |number| Some(Refusal { number, place: 0 });
    for (higher, out, then) in [(1, 600, None), (1, 0, told(16)), (p, 600, told(6))] {
        let lists: [&[u16]; 3] = [&[0], &[higher], &[5]];
        let found = write(&names, lists[0], lists[1], lists[2], out);
        is_refused(found.outcome, placeless(fault, then));
        trials.write(&names, lists, out);
    }
}

fn everywhere(trials: &mut Trials, names: &[Name], fault: Fault) {
    trials.case();
    sheets(trials, names, fault);
    dumps(trials, names, fault);
    networks(trials, names, fault);
}

/// Every three of the names above, in every order.
#[test]
fn three_names() {
    let trials = &mut Trials::new("three names");
    let all: Vec<Name> = GOOD.iter().chain(&BAD).map(|&&name| name).collect();
    let mut told = Told::default();
    for number in 0..all.len().pow(3) {
        let names = [0, 1, 2].map(|i| all[number / all.len().pow(i) % all.len()]);
        let fault = fault(&names);
        told.add(fault.map_or(0, |(number, _)| number));
        everywhere(trials, &names, fault);
    }
    // Three different good names, some bad one, and good names of which some are equal.
    assert_eq!([0, 5, 21].map(|number| told.times(number)), [60, 604, 65]);
}

/// Names that differ in one byte, each of the eight.
#[test]
fn one_byte_apart() {
    let trials = &mut Trials::new("names one byte apart");
    for byte in 0..8 {
        let mut names = [*b"ABCDEFGH"; 2];
        everywhere(trials, &names, Some((21, 1)));
        names[1][byte] ^= 32;
        everywhere(trials, &names, None);
    }
}

/// 64 parts of which two have one name, at every two places, alone and with a
/// bad form anywhere: that is told first.
#[test]
fn every_two_places() {
    let trials = &mut Trials::new("equal names at every two places");
    for later in 1..64 {
        for earlier in 0..later {
            let mut names = plain_names(64);
            names[later] = names[earlier];
            everywhere(trials, &names, Some((21, later)));
            let bad = trials.random.below(64);
            names[bad] = *BAD[trials.random.below(BAD.len())];
            everywhere(trials, &names, Some((5, bad)));
        }
    }
}

/// Several names that are equal to others: the first of the later ones is
/// told.
#[test]
fn many_equal() {
    let trials = &mut Trials::new("many equal names");
    for case in 0..2_000 {
        let p = 2 + case % 63;
        let mut names = plain_names(p);
        for _ in 0..trials.random.below(5) {
            let [from, to] = [0, 1].map(|_| trials.random.below(p));
            names[to] = names[from];
        }
        let fault = fault(&names);
        everywhere(trials, &names, fault);
    }
}
