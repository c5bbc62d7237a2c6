//! The writer's refusals, the slot bound and the subset counts.

use reference::calls;
use reference::network::Network;
use reference::random::Random;
use reference::sheets::sheet_bytes;
use trials::arguments::{BAD_K, BAD_P};
use trials::sheets::random_network;
use trials::told::Told;
use trials::Trials;

/// The writer's arguments.
#[derive(Clone)]
struct Lists {
    names: Vec<u8>,
    lists: [Vec<u16>; 3],
}

impl Lists {
    fn of(network: &Network) -> Lists {
        let links = &network.links;
        Lists {
            names: network.names.concat(),
            lists: [
                links.iter().map(|l| l.lower.into()).collect(),
                links.iter().map(|l| l.higher.into()).collect(),
                links.iter().map(|l| l.weight).collect(),
            ],
        }
    }

    fn random(random: &mut Random, p: usize, most: usize) -> Lists {
        let mut network = random_network(random, p);
        network.links.truncate(most);
        Lists::of(&network)
    }

    fn length(&self) -> usize {
        8 + self.names.len() + 4 * self.lists[0].len()
    }

    /// The number that the writer is to tell.
    fn number(&self, out: usize) -> u8 {
        let [lower, higher, weights] = &self.lists;
        let expected = calls::write(&self.names, lower, higher, weights, out);
        expected.outcome.number
    }

    fn write(&self, trials: &mut Trials, out: usize) {
        trials.case();
        let [lower, higher, weights] = &self.lists;
        trials.write(&self.names, [lower, higher, weights], out);
    }
}

#[test]
fn outputs() {
    let trials = &mut Trials::new("writer's outputs");
    for case in 0..640 {
        let lists = Lists::random(&mut trials.random, 1 + case % 64, 2016);
        let length = lists.length();
        for out in [length, length - 1, 0, 8, length + 9] {
            lists.write(trials, out);
        }
    }
}

/// Different names for any number of parts.
fn numbered_names(p: usize) -> Vec<u8> {
    (0..p)
        .flat_map(|q| format!("P{q:<7}").into_bytes())
        .collect()
}

#[test]
fn lengths() {
    let trials = &mut Trials::new("writer's lengths");
    let lists = Lists::random(&mut trials.random, 9, 12);
    for length in 0..80 {
        let mut other = lists.clone();
        other.names.resize(length, b'A');
        other.write(trials, 4000);
    }
    // From no part to more than a sheet can have, with and without links.
    for p in (0..70).chain([128, 255, 256, 257, 300]) {
        for links in [0, 1, lists.lists[0].len()] {
            for names in [numbered_names(p), b"A       ".repeat(p)] {
                let mut other = lists.clone();
                other.names = names;
                other.lists.iter_mut().for_each(|list| list.truncate(links));
                other.write(trials, 4000);
            }
        }
    }
    for list in 0..3 {
        for length in 0..lists.lists[list].len() + 3 {
            let mut other = lists.clone();
            other.lists[list].resize(length, 1);
            other.write(trials, 4000);
            other.names.clear();
            other.write(trials, 4000);
        }
    }
}

#[test]
fn names_and_links() {
    let trials = &mut Trials::new("writer's names and links");
    for p in [1, 2, 5, 13, 64] {
        let lists = Lists::random(&mut trials.random, p, 60);
        for byte in 0..lists.names.len() {
            for bad in [0, 31, 32, 127, 255] {
                let mut other = lists.clone();
                other.names[byte] = bad;
                other.write(trials, 4000);
            }
        }
        let parts = [0, 1, p as u16 - 1, p as u16, 255, 256, 257, 65_535];
        for link in 0..lists.lists[0].len() {
            for list in 0..3 {
                for value in parts {
                    let mut other = lists.clone();
                    other.lists[list][link] = value;
                    other.write(trials, 4000);
                }
            }
            for earlier in 0..link {
                let mut other = lists.clone();
                for list in &mut other.lists[..2] {
                    list[link] = list[earlier];
                }
                other.write(trials, 4000);
            }
        }
    }
}

#[test]
fn several_faults() {
    let trials = &mut Trials::new("writer's faults at once");
    let mut told = Told::default();
    for _ in 0..20_000 {
        let p = trials.random.within(1, 12);
        let mut lists = Lists::random(&mut trials.random, p, 20);
        for _ in 0..trials.random.within(1, 4) {
            let random = &mut trials.random;
            match random.below(9) {
                0 => lists.names.truncate(random.below(8 * p)),
                1 => lists.names.extend([32; 4]),
                2 | 3 if !lists.names.is_empty() => {
                    let place = random.below(lists.names.len());
                    lists.names[place] = random.number() as u8;
                }
                4 => lists.lists[random.below(3)].push(1),
                5 if lists.names.len() >= 8 * p => {
                    let from = 8 * random.below(p);
                    lists.names.copy_within(from..from + 8, 8 * random.below(p));
                }
                _ => {
                    let list = random.below(3);
                    if let Some(value) = lists.lists[list].last_mut() {
                        *value = random.pick(&[0, 1, 64, 256, 65_535]);
                    }
                }
            }
        }
        let out = trials::arguments::around(&mut trials.random, lists.length());
        told.add(lists.number(out));
        lists.write(trials, out);
    }
    told.each_above(100, &[0, 3, 5, 6, 7, 8, 16, 21]);
}

/// More links than a sheet can count must repeat a pair.
#[test]
fn too_many_links() {
    let trials = &mut Trials::new("too many links");
    let mut network = random_network(&mut Random::new(5), 64);
    network.links.clear();
    for lower in 0..64 {
        for higher in lower + 1..64 {
            network.links.push(reference::network::Link {
                lower,
                higher,
                weight: 7,
            });
        }
    }
    let complete = Lists::of(&network);
    complete.write(trials, sheet_bytes(&network).len());
    for links in [2_017, 65_535, 65_536, 65_537, 65_536 + 2_016, 70_000] {
        let mut lists = complete.clone();
        for list in &mut lists.lists {
            *list = list.iter().copied().cycle().take(links).collect();
        }
        lists.write(trials, 300_000);
        lists.write(trials, 0);
        lists.lists[2][2_016] = 8;
        lists.write(trials, 300_000);
        lists.lists[2][2_016] = 0;
        lists.write(trials, 300_000);
        lists.lists[0][2_016] = 64;
        lists.write(trials, 300_000);
    }
}

#[test]
fn slot_bounds() {
    let trials = &mut Trials::new("slot bounds");
    for p in (0..70).chain(BAD_P) {
        for k in (0..10).chain(BAD_K) {
            trials.case();
            trials.slot_bound(p, k);
        }
    }
}

#[test]
fn subset_counts() {
    let trials = &mut Trials::new("subset counts");
    for n in (0..70).chain(BAD_P) {
        for r in (0..10).chain(BAD_K) {
            trials.case();
            trials.subset_count(n, r);
        }
    }
}
