//! Random networks, networks by hand, and the sheets of the bench's recipe.

use reference::fast;
use reference::network::{Link, Network};
use reference::published::plain_names;
use reference::random::Random;

/// A network of p parts with plain names, and these links.
pub fn network(p: usize, links: &[(u8, u8, u16)]) -> Network {
    let link = |&(lower, higher, weight): &(u8, u8, u16)| Link {
        lower,
        higher,
        weight,
    };
    Network {
        names: plain_names(p),
        links: links.iter().map(link).collect(),
    }
}

/// Document 01's example P8: two triangles of weight 4 and the link of weight
/// 2 that joins them.
pub fn p8() -> Network {
    let pairs = [(0, 1), (0, 2), (1, 2), (2, 3), (2, 4), (3, 4)];
    let mut links = pairs.map(|(a, b)| (a, b, 4)).to_vec();
    links.push((1, 3, 2));
    network(5, &links)
}

/// All pairs of parts linked at weight 1.
pub fn complete(p: usize) -> Network {
    let links = (0..p as u8).flat_map(|lower| {
        (lower + 1..p as u8).map(move |higher| Link {
            lower,
            higher,
            weight: 1,
        })
    });
    Network {
        names: plain_names(p),
        links: links.collect(),
    }
}

/// A random name: one to eight signs, then spaces.
pub fn random_name(random: &mut Random) -> [u8; 8] {
    let signs = random.within(1, 8);
    let mut name = [32; 8];
    for byte in &mut name[..signs] {
        *byte = random.within(33, 126) as u8;
    }
    name
}

/// Random names, of which no two are equal.
pub fn random_names(random: &mut Random, p: usize) -> Vec<[u8; 8]> {
    let mut names = Vec::with_capacity(p);
    while names.len() < p {
        let name = random_name(random);
        if !names.contains(&name) {
            names.push(name);
        }
    }
    names
}

/// All pairs of parts below p.
fn pairs(p: usize) -> impl Iterator<Item = (usize, usize)> {
    (0..p).flat_map(move |lower| (lower + 1..p).map(move |higher| (lower, higher)))
}

/// The pairs of a random graph of one of several shapes.
fn random_pairs(random: &mut Random, p: usize) -> Vec<(usize, usize)> {
    match random.below(8) {
        0 => ring(random, p),
        1 => blocks(random, p),
        2 | 3 => planted(random, p),
        _ => {
            let density = random.pick(&[0, 3, 8, 15, 25, 35, 50, 65, 80, 92, 100]);
            pairs(p).filter(|_| random.chance(density)).collect()
        }
    }
}

/// Each part linked to the next few round the ring.
fn ring(random: &mut Random, p: usize) -> Vec<(usize, usize)> {
    let reach = random.within(1, 7);
    pairs(p)
        .filter(|(lower, higher)| (higher - lower).min(p + lower - higher) <= reach)
        .collect()
}

/// Parts in blocks, linked inside their block only or outside it only: apart
/// cliques, or the graphs with the most maximal cliques.
fn blocks(random: &mut Random, p: usize) -> Vec<(usize, usize)> {
    let (size, inside) = (random.within(2, 8), random.chance(50));
    pairs(p)
        .filter(|(lower, higher)| (lower / size == higher / size) == inside)
        .collect()
}

/// Cliques that may overlap, and a few links more.
fn planted(random: &mut Random, p: usize) -> Vec<(usize, usize)> {
    let cliques = random.within(1, 2 + p / 4);
    let mut linked = [0u64; 64];
    for _ in 0..cliques {
        let size = random.within(2, 8.min(p.max(2)));
        let first = random.below(p);
        let near = random.chance(50);
        let members: u64 = (0..size)
            .map(|i| {
                if near {
                    (first + i) % p
                } else {
                    random.below(p)
                }
            })
            .fold(0, |set, q| set | 1 << q);
        fast::parts(members).for_each(|q| linked[q] |= members);
    }
    let more = random.below(6);
    pairs(p)
        .filter(|&(lower, higher)| linked[lower] >> higher & 1 == 1 || random.chance(more))
        .collect()
}

/// Weights to draw from: often few, so that many are equal.
fn random_weights(random: &mut Random, links: usize) -> Vec<u16> {
    let any = |random: &mut Random| random.within(1, 65_535) as u16;
    match random.below(6) {
        0 => vec![any(random)],
        1 => vec![1, 65_535],
        2 => (1..=random.within(2, 9) as u16).collect(),
        3 => vec![1, 255, 256, 65_534, 65_535],
        // Distinct for most links, but each level costs a search.
        4 if links <= 200 => (0..200).map(|_| any(random)).collect(),
        _ => (0..random.within(1, 12)).map(|_| any(random)).collect(),
    }
}

/// A random network. Equal weights stand in any order.
pub fn random_network(random: &mut Random, p: usize) -> Network {
    let mut pairs = random_pairs(random, p);
    random.shuffle(&mut pairs);
    let weights = random_weights(random, pairs.len());
    let mut links: Vec<Link> = pairs
        .into_iter()
        .map(|(lower, higher)| Link {
            lower: lower as u8,
            higher: higher as u8,
            weight: random.pick(&weights),
        })
        .collect();
    links.sort_by_key(|link| std::cmp::Reverse(link.weight));
    Network {
        names: random_names(random, p),
        links,
    }
}

/// Drops links from the end until there are no more k-cliques than `most`.
pub fn thin_out(network: &mut Network, k: usize, most: usize) {
    let parts = fast::all_parts(network.names.len());
    let too_many =
        |links: &[Link]| fast::count_cliques(&fast::rows(links, 0), parts, k, most) > most;
    while too_many(&network.links) {
        network.links.truncate(network.links.len() * 7 / 8);
    }
}

/// The test sheet's network from a starting number, part count and density:
/// a pair is linked when its draw modulo 100 is below the density, and only
/// then a further draw gives its weight.
pub fn bench_network(start: u32, p: usize, density: u64) -> Network {
    let mut state = u64::from(start) % (1 << 31);
    let mut draw = || {
        state = (state * 1_103_515_245 + 12_345) % (1 << 31);
        state / 65_536
    };
    let mut links = Vec::new();
    for (lower, higher) in pairs(p) {
        if draw() % 100 < density {
            links.push(Link {
                lower: lower as u8,
                higher: higher as u8,
                weight: (1 + draw() % 100) as u16,
            });
        }
    }
    // The pairs stand by lower, then higher part; a stable sort keeps that.
    links.sort_by_key(|link| std::cmp::Reverse(link.weight));
    Network {
        names: plain_names(p),
        links,
    }
}
