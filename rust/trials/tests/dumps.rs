//! Sheets made from sensor dumps: random dumps, every refusal at every
//! place, damaged and random bytes, and the largest dumps there are.

use reference::calls::{dump_sheet, Judge};
use reference::dumps::{counted, dump_bytes, parse_dump, Dump};
use reference::fast::all_parts;
use reference::published::plain_names;
use reference::random::Random;
use reference::sheets::{parse, sheet_bytes, Refusal};
use trials::arguments::around;
use trials::sheets::{random_name, random_names};
use trials::told::Told;
use trials::Trials;

/// A row of one of several shapes: few parts, many, none, one, all.
fn random_row(random: &mut Random, p: usize) -> u64 {
    let row = match random.below(6) {
        0 => 0,
        1 => 1 << random.below(p),
        2 => u64::MAX,
        3 => random.number(),
        4 => random.number() & random.number() & random.number(),
        _ => 1 << random.below(p) | 1 << random.below(p) | 1 << (p - 1),
    };
    row & all_parts(p)
}

fn random_dump(random: &mut Random, p: usize, most: usize) -> Dump {
    let rows = random.below(most + 1);
    Dump {
        names: random_names(random, p),
        rows: (0..rows).map(|_| random_row(random, p)).collect(),
    }
}

fn dumps(random: &mut Random) -> Vec<Dump> {
    let mut dumps: Vec<Dump> = [1, 2, 3, 5, 9, 33, 63, 64]
        .map(|p| random_dump(random, p, 12))
        .to_vec();
    dumps.push(Dump {
        names: plain_names(64),
        rows: vec![0, 1, 1 << 63, 1 << 63 | 1, u64::MAX],
    });
    dumps
}

#[test]
fn random_dumps() {
    let trials = &mut Trials::new("random dumps");
    for case in 0..5_000 {
        trials.case();
        let dump = random_dump(&mut trials.random, 1 + case % 64, 60);
        let bytes = dump_bytes(&dump);
        let sheet = sheet_bytes(&counted(&dump));
        trials.dump_sheet(&bytes, sheet.len());
        let out = around(&mut trials.random, sheet.len());
        trials.dump_sheet(&bytes, out);
        // The sheet is one that every call takes; its weights add up.
        let judge = Judge::new(&sheet);
        let network = parse(&sheet).expect("an accepted sheet");
        let p = dump.names.len();
        trials.read(&judge, [8 * p, 2016, 2016, 2016]);
        let weights: usize = network.links.iter().map(|l| usize::from(l.weight)).sum();
        let of_row =
            |row: &u64| row.count_ones() as usize * row.count_ones().saturating_sub(1) as usize / 2;
        assert_eq!(weights, dump.rows.iter().map(of_row).sum());
        assert_eq!(families::from_dump(&bytes).as_ref(), Ok(&sheet));
    }
}

fn changed(dump: &[u8], place: usize, bytes: &[u8]) -> Vec<u8> {
    let mut dump = dump.to_vec();
    dump[place..place + bytes.len()].copy_from_slice(bytes);
    dump
}

fn header_faults(dump: &Dump) -> Vec<(Vec<u8>, Refusal)> {
    let bytes = dump_bytes(dump);
    let mut faults = Vec::new();
    let mut add = |bytes: Vec<u8>, number, place| faults.push((bytes, Refusal { number, place }));
    for length in 0..8 {
        let place = match length {
            0..=2 => 0,
            3..=4 => 3,
            _ => length,
        };
        add(bytes[..length].to_vec(), 17, place);
    }
    for place in 0..3 {
        for byte in [0, b'p', b'L', b'S', bytes[place] ^ 128] {
            add(changed(&bytes, place, &[byte]), 17, 0);
        }
    }
    for version in [0u16, 2, 256, 257, 65_535] {
        add(changed(&bytes, 3, &version.to_be_bytes()), 17, 3);
    }
    let (p, n) = (dump.names.len(), dump.rows.len() as u16);
    // The length holds names and rows alike: a part more and a row less keep it.
    for other in [0, p.wrapping_sub(1), p + 1, 255] {
        if other != p && other < 256 {
            add(changed(&bytes, 5, &[other as u8]), 17, bytes.len());
        }
    }
    for n in [n.wrapping_sub(1), n + 1, n ^ 256, 65_535] {
        add(changed(&bytes, 6, &n.to_be_bytes()), 17, bytes.len());
    }
    for p in [0, 65, 66, 128, 255] {
        let other = Dump {
            names: vec![*b"A       "; p],
            rows: dump.rows.clone(),
        };
        add(dump_bytes(&other), 4, 5);
    }
    faults
}

fn name_and_row_faults(dump: &Dump) -> Vec<(Vec<u8>, Refusal)> {
    let bytes = dump_bytes(dump);
    let p = dump.names.len();
    let mut faults = Vec::new();
    for i in 0..p {
        let place = 8 + 8 * i;
        for form in [
            b"        ",
            b" A      ",
            b"A B     ",
            b"A\0      ",
            b"ABCDEFG\x7f",
        ] {
            faults.push((changed(&bytes, place, form), Refusal { number: 5, place }));
        }
    }
    for (i, &row) in dump.rows.iter().enumerate() {
        let place = 8 + 8 * p + 8 * i;
        for part in p..64 {
            let damaged = changed(&bytes, place, &(row | 1 << part).to_be_bytes());
            faults.push((damaged, Refusal { number: 18, place }));
        }
    }
    faults
}

#[test]
fn faults_at_every_place() {
    let trials = &mut Trials::new("dumps' faults at every place");
    for dump in dumps(&mut trials.random) {
        let mut faults = header_faults(&dump);
        faults.extend(name_and_row_faults(&dump));
        for (bytes, refusal) in faults {
            trials.case();
            assert_eq!(parse_dump(&bytes), Err(refusal));
            for out in [0, 8, 40_000] {
                trials.dump_sheet(&bytes, out);
            }
            assert_eq!(
                families::from_dump(&bytes).map_err(|r| (r.number, r.place)),
                Err((refusal.number, refusal.place))
            );
        }
    }
}

/// A name's fault before a row's, the first row's before a later one's, and
/// 16 behind all of them.
#[test]
fn orders() {
    let trials = &mut Trials::new("dumps' orders");
    let dump = Dump {
        names: plain_names(3),
        rows: vec![7, 8, 16, 3],
    };
    let bytes = dump_bytes(&dump);
    for place in 8..bytes.len() {
        for byte in [0, 32, 255] {
            trials.case();
            trials.dump_sheet(&changed(&bytes, place, &[byte]), 0);
            trials.dump_sheet(&changed(&bytes, place, &[byte]), 400);
        }
    }
    let good = dump_bytes(&Dump {
        rows: vec![7, 0, 1, 3],
        ..dump
    });
    let length = dump_sheet(&good, 400).output.len();
    for out in 0..length + 9 {
        trials.case();
        trials.dump_sheet(&good, out);
    }
}

/// One more fault, or none where a byte happens to be good.
fn spoil(random: &mut Random, bytes: &mut Vec<u8>, p: usize) {
    let rows = 8 + 8 * p;
    let byte = random.pick(&[0, 1, 32, 33, 127, 255]);
    let place = match random.below(12) {
        0 => random.below(3),
        1 => 3 + random.below(2),
        2 => 6 + random.below(2),
        3 => return bytes.truncate(bytes.len() - random.below(2)),
        4..=6 => 8 + random.below(8 * p + 1),
        7 if p > 0 && bytes.len() >= rows => {
            // A name again, or over itself.
            let from = 8 + 8 * random.below(p);
            return bytes.copy_within(from..from + 8, 8 + 8 * random.below(p));
        }
        _ => rows + random.below(64),
    };
    if let Some(spoiled) = bytes.get_mut(place) {
        *spoiled = byte;
    }
}

/// Up to four faults at once, in the head, the counts, the names, the rows
/// and the output: the first in the order of the checks stands.
#[test]
fn several_faults() {
    let trials = &mut Trials::new("dumps' faults at once");
    let mut told = Told::default();
    for case in 0..20_000 {
        trials.case();
        let random = &mut trials.random;
        let mut dump = random_dump(random, 1 + case % 64, 8);
        let p = match random.chance(80) {
            true => dump.names.len(),
            false => random.pick(&[0, 65, 66, 255]),
        };
        dump.names.resize(p, *b"A       ");
        let mut bytes = dump_bytes(&dump);
        for _ in 0..random.below(4) {
            spoil(random, &mut bytes, p);
        }
        let out = random.pick(&[0, 40, 9_000]);
        told.add(dump_sheet(&bytes, out).outcome.number);
        trials.dump_sheet(&bytes, out);
    }
    told.each_above(500, &[0, 4, 5, 16, 17, 18, 21]);
}

#[test]
fn truncations_and_single_bits() {
    let trials = &mut Trials::new("dumps cut and damaged");
    for dump in dumps(&mut trials.random) {
        let bytes = dump_bytes(&dump);
        for length in 0..bytes.len() {
            trials.case();
            trials.dump_sheet(&bytes[..length], 9_000);
        }
        for more in 1..17 {
            trials.case();
            trials.dump_sheet(&[&bytes[..], &vec![33; more]].concat(), 9_000);
        }
        for bit in 0..8 * bytes.len() {
            trials.case();
            let mut damaged = bytes.clone();
            damaged[bit / 8] ^= 1 << (bit % 8);
            trials.dump_sheet(&damaged, 9_000);
        }
    }
}

/// Bytes that look more or less like a dump, among them sheets.
#[test]
fn bytes_at_random() {
    let trials = &mut Trials::new("dumps at random");
    for _ in 0..20_000 {
        trials.case();
        let random = &mut trials.random;
        let (p, n) = (random.below(67), random.below(9));
        let mut bytes = match random.below(5) {
            0 => Vec::new(),
            1 => b"PLS\0\x01".to_vec(),
            _ => vec![b'P', b'R', b'D', 0, 1, p as u8, 0, n as u8],
        };
        let length = match random.chance(85) {
            true => 8 + 8 * p + 8 * n,
            false => random.below(300),
        };
        while bytes.len() < length {
            match bytes.len() < 8 + 8 * p {
                true if random.chance(99) => bytes.extend(random_name(random)),
                true => bytes.push(random.number() as u8),
                false => bytes.extend((random.number() >> random.below(65).min(63)).to_be_bytes()),
            }
        }
        bytes.truncate(length);
        let out = random.pick(&[0, 100, 600, 9_000]);
        trials.dump_sheet(&bytes, out);
    }
}

/// 65,535 rows: with all 64 parts every pair's weight is 65,535.
#[test]
fn largest() {
    let trials = &mut Trials::new("largest dumps");
    let mut all: Vec<Vec<u64>> = [u64::MAX, 0, 1 << 63, 3 << 62, 1 << 63 | 1]
        .map(|row| vec![row; 65_535])
        .to_vec();
    all.push(
        (0..65_535)
            .map(|_| random_row(&mut trials.random, 64))
            .collect(),
    );
    for rows in all {
        trials.case();
        let dump = Dump {
            names: plain_names(64),
            rows,
        };
        let length = sheet_bytes(&counted(&dump)).len();
        trials.dump_sheet(&dump_bytes(&dump), length);
        trials.dump_sheet(&dump_bytes(&dump), length - 1);
    }
}
