//! Refusals of the calls on a sheet: every number at every place (names.rs
//! has 21), several faults at once, truncations, random bytes and single bits.

use reference::calls::{Judge, JudgeK, Run};
use reference::network::{Link, Network};
use reference::random::Random;
use reference::sheets::{sheet_bytes, Refusal};
use trials::arguments::{unequal, BAD_P, RUNS};
use trials::sheets::{network, p8, random_name, random_network, thin_out};
use trials::told::Told;
use trials::Trials;

fn random_sheet(random: &mut Random, p: usize) -> Network {
    let mut network = random_network(random, p);
    for k in 3..=6 {
        thin_out(&mut network, k, 60);
    }
    network.links.truncate(80);
    network
}

/// Valid networks to damage, small and large.
fn networks(random: &mut Random) -> Vec<Network> {
    let mut networks = vec![
        network(1, &[]),
        network(2, &[(0, 1, 65_535)]),
        network(3, &[(0, 1, 3), (1, 2, 2), (0, 2, 1)]),
        p8(),
    ];
    networks.extend([9, 14, 33, 64].map(|p| random_sheet(random, p)));
    networks
}

/// A damaged sheet with the refusal that it must get.
type Damaged = (Vec<u8>, Refusal);

fn changed(sheet: &[u8], place: usize, bytes: &[u8]) -> Vec<u8> {
    let mut sheet = sheet.to_vec();
    sheet[place..place + bytes.len()].copy_from_slice(bytes);
    sheet
}

/// Damage to the mark, version, length and part count.
fn header_faults(network: &Network) -> Vec<Damaged> {
    let sheet = sheet_bytes(network);
    let mut faults = Vec::new();
    let mut add = |sheet: Vec<u8>, number, place| faults.push((sheet, Refusal { number, place }));
    for length in 0..8 {
        let (number, place) = match length {
            0..=2 => (1, 0),
            3..=4 => (2, 3),
            _ => (3, length),
        };
        add(sheet[..length].to_vec(), number, place);
    }
    for place in 0..3 {
        for byte in [0, b'p', b'Q', sheet[place] ^ 128] {
            add(changed(&sheet, place, &[byte]), 1, 0);
        }
    }
    for version in [0u16, 2, 256, 257, 65_535] {
        add(changed(&sheet, 3, &version.to_be_bytes()), 2, 3);
    }
    let (p, m) = (network.names.len() as u8, network.links.len() as u16);
    for p in [0, p - 1, p + 1, 255] {
        if usize::from(p) != network.names.len() {
            add(changed(&sheet, 5, &[p]), 3, sheet.len());
        }
    }
    for m in [m.wrapping_sub(1), m + 1, m ^ 256, 65_535] {
        add(changed(&sheet, 6, &m.to_be_bytes()), 3, sheet.len());
    }
    for p in [0, 65, 66, 128, 255] {
        let other = Network {
            names: vec![*b"A       "; p],
            links: network.links.clone(),
        };
        add(sheet_bytes(&other), 4, 5);
    }
    faults
}

/// Damage to each name.
fn name_faults(network: &Network) -> Vec<Damaged> {
    let sheet = sheet_bytes(network);
    let mut faults = Vec::new();
    for i in 0..network.names.len() {
        let place = 8 + 8 * i;
        let refusal = Refusal { number: 5, place };
        let forms = [
            *b"        ",
            *b" A      ",
            *b"       A",
            *b"A B     ",
            *b"ABCDEF G",
            *b"A\0\0\0\0\0\0\0",
        ];
        for form in forms {
            faults.push((changed(&sheet, place, &form), refusal));
        }
        for byte in [0, 9, 10, 31, 127, 128, 160, 255] {
            for at in 0..8 {
                faults.push((changed(&sheet, place + at, &[byte]), refusal));
            }
        }
    }
    faults
}

/// Damage to each link.
fn link_faults(network: &Network) -> Vec<Damaged> {
    let sheet = sheet_bytes(network);
    let p = network.names.len() as u8;
    let mut faults = Vec::new();
    for (i, link) in network.links.iter().enumerate() {
        let place = 8 + 8 * usize::from(p) + 4 * i;
        let mut add = |at: usize, bytes: &[u8], number| {
            let refusal = Refusal { number, place };
            faults.push((changed(&sheet, place + at, bytes), refusal));
        };
        let Link { lower, higher, .. } = *link;
        for pair in [
            [lower, lower],
            [higher, lower],
            [higher, higher],
            [lower, p],
            [p, p + 1],
            [lower, 255],
            [255, higher],
            [255, 255],
        ] {
            add(0, &pair, 6);
        }
        add(2, &[0, 0], 7);
        let Some(before) = i.checked_sub(1).map(|i| network.links[i]) else {
            continue;
        };
        for above in [before.weight.checked_add(1), Some(65_535)] {
            if let Some(weight) = above.filter(|&weight| weight > before.weight) {
                add(2, &weight.to_be_bytes(), 8);
            }
        }
        for earlier in &network.links[..i] {
            add(0, &[earlier.lower, earlier.higher], 9);
        }
    }
    faults
}

#[test]
fn faults_at_every_place() {
    let trials = &mut Trials::new("faults at every place");
    for network in networks(&mut trials.random) {
        let mut faults = header_faults(&network);
        faults.extend(name_faults(&network));
        faults.extend(link_faults(&network));
        for (sheet, refusal) in faults {
            trials.case();
            let judge = Judge::new(&sheet);
            assert_eq!(judge.network(), Err(refusal));
            trials.every_call(&judge);
        }
    }
}

#[test]
fn truncations() {
    let trials = &mut Trials::new("truncations");
    for network in networks(&mut trials.random) {
        let sheet = sheet_bytes(&network);
        for length in 0..sheet.len() {
            trials.case();
            let judge = Judge::new(&sheet[..length]);
            assert!(judge.network().is_err());
            trials.every_call(&judge);
        }
        for more in 1..9 {
            trials.case();
            let longer = [&sheet[..], &vec![33; more]].concat();
            trials.every_call(&Judge::new(&longer));
        }
    }
}

#[test]
fn single_bits() {
    let trials = &mut Trials::new("single bits");
    for network in networks(&mut trials.random) {
        let sheet = sheet_bytes(&network);
        for bit in 0..8 * sheet.len() {
            trials.case();
            let mut damaged = sheet.clone();
            damaged[bit / 8] ^= 1 << (bit % 8);
            trials.every_call(&Judge::new(&damaged));
        }
    }
}

/// Bytes that look more or less like a sheet.
fn random_bytes(random: &mut Random) -> Vec<u8> {
    let (p, m) = (random.below(67), random.below(12));
    let mut sheet = match random.below(4) {
        0 => Vec::new(),
        1 => b"PLS\0\x01".to_vec(),
        _ => vec![b'P', b'L', b'S', 0, 1, p as u8, 0, m as u8],
    };
    let names = random.chance(80);
    let (one, alike) = (random_name(random), random.chance(10));
    let length = match random.chance(80) {
        true => 8 + 8 * p + 4 * m,
        false => random.below(200),
    };
    while sheet.len() < length {
        match names && sheet.len() >= 8 && sheet.len() < 8 + 8 * p {
            true if alike => sheet.extend(one),
            true => sheet.extend(random_name(random)),
            false if random.chance(50) => sheet.push(random.below(8) as u8),
            false => sheet.push(random.number() as u8),
        }
    }
    sheet.truncate(length);
    sheet
}

#[test]
fn bytes_at_random() {
    let trials = &mut Trials::new("bytes at random");
    for _ in 0..20_000 {
        trials.case();
        let sheet = random_bytes(&mut trials.random);
        trials.every_call(&Judge::new(&sheet));
    }
}

#[test]
fn several_faults() {
    let trials = &mut Trials::new("several faults");
    let networks = networks(&mut trials.random);
    let mut told = Told::default();
    for _ in 0..20_000 {
        trials.case();
        let network = &networks[trials.random.below(networks.len())];
        let mut sheet = sheet_bytes(network);
        if trials.random.chance(20) {
            let p = network.names.len();
            let from = 8 + 8 * trials.random.below(p);
            sheet.copy_within(from..from + 8, 8 + 8 * trials.random.below(p));
        }
        for _ in 0..trials.random.within(1, 4) {
            let place = trials.random.below(sheet.len());
            // Mostly behind the header, whose faults hide all others.
            if place >= 8 || trials.random.chance(10) {
                let old = sheet[place];
                let new = [
                    0,
                    32,
                    old ^ 1,
                    old.wrapping_add(old % 2),
                    network.names.len() as u8,
                    255,
                ];
                sheet[place] = trials.random.pick(&new);
            }
        }
        if trials.random.chance(5) {
            sheet.pop();
        }
        let judge = Judge::new(&sheet);
        let number = judge.network().err().map_or(0, |refusal| refusal.number);
        told.add(number);
        trials.every_call(&judge);
    }
    told.each_above(20, &[0, 1, 2, 3, 5, 6, 7, 8, 21]);
}

/// Everything that a caller can get wrong, crossed: k, the tables, the sets,
/// the slots, the output.
#[test]
fn callers_faults() {
    let trials = &mut Trials::new("callers' faults");
    trials.small_sheets(crossed);
}

fn crossed(trials: &mut Trials, judge: &JudgeK) {
    let need = judge.facts().map_or(7, |facts| facts.slots(0));
    let level = [need, need.saturating_sub(1), 0, need + 3].map(|slots| [slots; 4]);
    for lengths in level.into_iter().chain(unequal(need)) {
        for run in RUNS {
            for out in [0, 1, 15, 16, 17, 31, 32, 40] {
                trials.case();
                trials.listing(judge, run, 2, lengths, out);
                trials.listing(judge, run, 3, lengths, out);
            }
            for a in [7, 28, 14, 3, 15, 0, 7 | 1 << 63, u64::MAX] {
                for b in [7, 28, 14, 13, 3, 15, 31, 1 << 40] {
                    trials.case();
                    trials.meeting(judge, run, a, b, lengths);
                }
            }
        }
        for out in [0, 25, 26, 27, 77, 78, 79, 100] {
            trials.case();
            trials.tree(judge, lengths, out);
        }
    }
}

#[test]
fn readers_and_names_faults() {
    let trials = &mut Trials::new("readers' and names' faults");
    for network in networks(&mut trials.random) {
        let judge = Judge::new(&sheet_bytes(&network));
        for part in (0..70).chain(BAD_P) {
            trials.case();
            trials.name(&judge, part);
        }
        let (p, m) = (network.names.len(), network.links.len());
        let enough = [8 * p, m, m, m];
        trials.read(&judge, enough);
        for output in 0..4 {
            for other in [enough[output].saturating_sub(1), 0, enough[output] + 5] {
                trials.case();
                let mut outputs = enough;
                outputs[output] = other;
                trials.read(&judge, outputs);
            }
        }
    }
}

/// Link counts up to the largest: 64 parts have 2,016 pairs, so the next link
/// must repeat one.
#[test]
fn long_sheets() {
    let trials = &mut Trials::new("long sheets");
    let pairs: Vec<(u8, u8)> = (0..64)
        .flat_map(|lower| (lower + 1..64).map(move |higher| (lower, higher)))
        .collect();
    for m in [255, 256, 257, 2_015, 2_016, 2_017, 4_096, 65_535] {
        trials.case();
        let links = pairs.iter().cycle().take(m).map(|&(a, b)| (a, b, 7));
        let judge = Judge::new(&sheet_bytes(&network(64, &links.collect::<Vec<_>>())));
        trials.read(&judge, [512, m, m, m]);
        trials.name(&judge, 63);
        trials.listing(&judge.with(2), Run::Sequential, 7, [64; 4], 16);
        if m > 2_016 {
            let place = 8 + 512 + 4 * 2_016;
            assert_eq!(judge.network(), Err(Refusal { number: 9, place }));
            trials.every_call(&judge);
        }
    }
}

/// The number of maximal cliques neither rises nor falls with t, so a meeting
/// can lack slots at one weight in the middle only.
#[test]
fn maximal_cliques_at_some_weight() {
    let trials = &mut Trials::new("maximal cliques at some weight");
    // A triangle, then three triangles in a fan, then all four parts linked.
    let links = [
        (0, 1, 9),
        (0, 2, 9),
        (1, 2, 9),
        (0, 3, 5),
        (1, 3, 5),
        (0, 4, 5),
        (1, 4, 5),
        (2, 3, 2),
        (2, 4, 2),
        (3, 4, 2),
    ];
    let judge = Judge::new(&sheet_bytes(&network(5, &links)));
    let judge = judge.with(3);
    let facts = judge.facts().expect("accepted");
    assert_eq!([9, 5, 2].map(|t| facts.maximal(t, 100)), [1, 3, 1]);
    for slots in 0..5 {
        for (a, b) in [(7, 7), (7, 11), (11, 19), (7, 28), (28, 28)] {
            trials.case();
            trials.meeting(&judge, Run::Maximal, a, b, [slots; 4]);
        }
        for t in [0, 1, 2, 3, 5, 6, 9, 10] {
            trials.case();
            trials.listing(&judge, Run::Maximal, t, [slots; 4], 16);
        }
    }
}
