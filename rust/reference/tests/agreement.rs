//! The two implementations compared with each other on random networks, and
//! the rules of the steps with the definitions.

use reference::calls::{subset_count, Facts};
use reference::definition;
use reference::fast;
use reference::network::{levels, Community, Link, Mean, Network};
use reference::published::plain_names;
use reference::random::Random;
use reference::sheets::{good_names, parse, parse_lists, sheet_bytes, LinksSoFar};
use reference::steps::{Step, Steps, JOURNAL_ENTRIES};
use reference::strength::{product, Measure};

/// A random network whose weights are among a few.
fn network(random: &mut Random, p: usize) -> Network {
    let density = random.within(0, 100);
    let weights = random.within(1, 6);
    let mut links = Vec::new();
    for lower in 0..p {
        for higher in lower + 1..p {
            if random.chance(density) {
                links.push(Link {
                    lower: lower as u8,
                    higher: higher as u8,
                    weight: random.within(1, weights) as u16,
                });
            }
        }
    }
    random.shuffle(&mut links);
    links.sort_by_key(|link| std::cmp::Reverse(link.weight));
    Network {
        names: plain_names(p),
        links,
    }
}

/// The classes by the definition join two at a time, so the work grows with
/// the cube of the cliques.
const MOST_CLIQUES: usize = 160;

fn compare(network: &Network, k: usize, random: &mut Random) -> bool {
    let (p, links) = (network.names.len(), &network.links[..]);
    let cliques = definition::k_cliques(links, p, k);
    if cliques.len() > MOST_CLIQUES {
        return false;
    }
    let counted = fast::count_cliques(&fast::rows(links, 0), fast::all_parts(p), k, usize::MAX);
    assert_eq!(counted, cliques.len());
    let facts = Facts::new(network, k);
    let mut thresholds = levels(links);
    thresholds.extend([0, 1, random.within(0, 8) as u16, 65_535]);
    for t in thresholds {
        let expected = definition::listing(links, p, k, t);
        assert_eq!(fast::listing(links, p, k, t), expected);
        assert_eq!(facts.listing(t), expected);
        assert_eq!(definition::listing_by_maximal(links, p, k, t), expected);
        let stop = 1 << 14;
        let by_maximal = fast::listing_by_maximal(links, p, k, t, stop);
        assert_eq!(by_maximal, Some(expected));
        let heavy = definition::heavy(links, t);
        let slots = definition::slot_cliques(&heavy, p, k).len();
        assert_eq!(facts.slots(t), slots);
        let maximal = definition::maximal_cliques(&heavy, p, k);
        let mut found = fast::maximal_cliques(&fast::rows(links, t), p, k, stop);
        found.sort_unstable();
        assert_eq!(found, maximal);
        let below = maximal.len() / 2;
        let counted = facts.maximal(t, below);
        assert_eq!(counted.min(below + 1), maximal.len().min(below + 1));
        assert_eq!(facts.maximal(t, stop), maximal.len());
    }
    assert_eq!(fast::tree(links, p, k), definition::tree(links, p, k));
    compare_means(network, &facts, &cliques, k, random);
    compare_cliques(network, &facts, &cliques, k, random);
    compare_strength(network, &facts, k, random);
    true
}

/// Listings by clique strength: at a product, beside it, and by the weakest
/// link, which is the listing at that threshold.
fn compare_strength(network: &Network, facts: &Facts, k: usize, random: &mut Random) {
    let (p, links) = (network.names.len(), &network.links[..]);
    let mut measures = vec![Measure::Weakest(random.within(0, 7) as u16)];
    if !facts.weights().is_empty() {
        let own = product(&facts.weights()[random.below(facts.weights().len())]);
        let above = f64::from_bits(own.to_bits() + 1);
        measures.extend([own, above].map(Measure::Product));
    }
    for measure in measures {
        let expected = definition::strong_listing(links, p, k, measure);
        assert_eq!(facts.strong(measure).listing(), expected);
        if let Measure::Weakest(t) = measure {
            assert_eq!(definition::listing(links, p, k, t), expected);
        }
        let cliques = definition::strong_cliques(links, p, k, measure);
        let mut slots: Vec<u64> = cliques
            .iter()
            .flat_map(|&set| fast::parts(set).map(move |part| set & !(1 << part)))
            .collect();
        slots.sort_unstable();
        slots.dedup();
        assert_eq!(facts.strong(measure).slot_count(), slots.len());
    }
}

/// Mean link weights at every level, just above it and at the ends, of a
/// k-clique of the sheet and of a set near it.
fn compare_means(network: &Network, facts: &Facts, cliques: &[u64], k: usize, random: &mut Random) {
    let (p, links) = (network.names.len(), &network.links[..]);
    let mut thresholds = levels(links);
    thresholds.extend(levels(links).iter().map(|t| t + 1));
    thresholds.extend([0, 65_535]);
    for t in thresholds {
        let near = match cliques {
            [] => random.number() & random.number(),
            _ => random.pick(cliques),
        };
        for set in [near, near ^ 1 << random.below(p + 1)] {
            let expected = definition::family_links(links, p, k, t, set);
            let found = facts.mean(t, set);
            assert_eq!(found, expected.as_deref().map(Mean::of));
            if let (Some(mean), Some(counted)) = (found, expected) {
                let sum: u64 = counted.iter().map(|l| u64::from(l.weight)).sum();
                assert!(counted.iter().all(|l| l.weight >= t));
                assert!(mean.remainder < counted.len() as u64);
                assert_eq!(mean.quotient * counted.len() as u64 + mean.remainder, sum);
            }
        }
    }
}

fn compare_cliques(
    network: &Network,
    facts: &Facts,
    cliques: &[u64],
    k: usize,
    random: &mut Random,
) {
    let (p, links) = (network.names.len(), &network.links[..]);
    for _ in 0..4.min(cliques.len()) {
        let (a, b) = (random.pick(cliques), random.pick(cliques));
        let expected = definition::meeting(links, p, k, a, b);
        assert_eq!(fast::meeting(facts.cliques(), a, b), expected);
    }
    for _ in 0..20 {
        let set = random.number() & random.number() & fast::all_parts(p + 1);
        assert_eq!(facts.is_clique(set), cliques.contains(&set));
    }
}

#[test]
fn definition_and_fast_agree() {
    let mut random = Random::new(1);
    let mut compared = 0;
    for case in 0..1500 {
        let p = 1 + case % 11;
        let network = network(&mut random, p);
        for k in 2..=6 {
            compared += usize::from(compare(&network, k, &mut random));
        }
    }
    for p in [12, 13, 14] {
        for k in 2..=6 {
            let network = network(&mut random, p);
            compared += usize::from(compare(&network, k, &mut random));
        }
    }
    println!("{compared} networks with a k compared");
    assert!(compared > 5000);
}

/// Tries a list of random inserts and takings back, each against the
/// definitions, and gives the number of steps.
fn compare_steps(random: &mut Random) -> usize {
    let (p, k) = (random.within(1, 8), random.within(2, 6));
    let most = subset_count(p, k - 1);
    let slots = random.within(0, most);
    let mut steps = Steps::start(p, k, [slots; 4], JOURNAL_ENTRIES).expect("an accepted start");
    let mut remaining: Vec<Link> = Vec::new();
    let back = random.pick(&[0, 10, 40, 60]);
    let count = random.within(0, 60);
    for _ in 0..count {
        let step = match random.chance(back) {
            true => Step::TakeBack,
            false => random_insert(random, p, remaining.last()),
        };
        let answer = steps.step(step).map_err(|r| r.number);
        assert_eq!(answer, by_definition(p, k, slots, &mut remaining, step));
        assert_eq!(steps.links(), remaining);
        let expected = remaining.last().map_or(65_535, |link| link.weight);
        assert_eq!(steps.last_weight(), expected);
        let slots = definition::slot_cliques(&remaining, p, k).len();
        assert_eq!(steps.used(), slots);
        assert_eq!(steps.listing(), definition::listing(&remaining, p, k, 0));
        compare_journal(&steps.journal(), &remaining);
    }
    count
}

fn random_insert(random: &mut Random, p: usize, last: Option<&Link>) -> Step {
    let last = last.map_or(9, |link| usize::from(link.weight));
    let weight = match random.chance(90) {
        true => random.within(last.max(2) - 2, last),
        false => random.pick(&[0, 1, 10, 256, 65_535]),
    };
    Step::Insert(random.below(p + 1), random.below(p + 1), weight as u16)
}

/// The journal's entries as bytes: two zeros, the lower part, the higher part
/// and the weight, two each.
fn compare_journal(journal: &[u64], remaining: &[Link]) {
    assert_eq!(journal.len(), 2_016);
    let (links, rest) = journal.split_at(remaining.len());
    for (entry, link) in links.iter().zip(remaining) {
        let [high, low] = link.weight.to_be_bytes();
        let bytes = [0, 0, 0, link.lower, 0, link.higher, high, low];
        assert_eq!(entry.to_be_bytes(), bytes);
    }
    assert!(rest.iter().all(|&entry| entry == 0));
}

/// The answer to a step by the definitions, which changes the links that
/// remain where it is accepted.
fn by_definition(
    p: usize,
    k: usize,
    slots: usize,
    remaining: &mut Vec<Link>,
    step: Step,
) -> Result<(), u8> {
    let Step::Insert(lower, higher, weight) = step else {
        return remaining.pop().map(|_| ()).ok_or(19);
    };
    if lower >= p || higher >= p || lower >= higher {
        return Err(6);
    }
    if weight == 0 {
        return Err(7);
    }
    if remaining.iter().any(|link| link.weight < weight) {
        return Err(8);
    }
    if definition::linked(remaining, lower, higher) {
        return Err(9);
    }
    let mut with = remaining.clone();
    with.push(Link {
        lower: lower as u8,
        higher: higher as u8,
        weight,
    });
    if definition::slot_cliques(&with, p, k).len() > slots {
        return Err(15);
    }
    *remaining = with;
    Ok(())
}

#[test]
fn steps_follow_the_definitions() {
    let mut random = Random::new(2);
    let steps: usize = (0..600).map(|_| compare_steps(&mut random)).sum();
    println!("{steps} steps compared");
}

#[test]
fn sheets_and_lists_come_back() {
    let mut random = Random::new(3);
    for case in 0..500 {
        let network = network(&mut random, 1 + case % 64);
        let sheet = sheet_bytes(&network);
        assert_eq!(parse(&sheet).as_ref(), Ok(&network));
        let of = |part: fn(&Link) -> u16| network.links.iter().map(part).collect::<Vec<_>>();
        let lists = [
            of(|l| l.lower.into()),
            of(|l| l.higher.into()),
            of(|l| l.weight),
        ];
        let names = network.names.concat();
        let again = parse_lists(&names, &lists[0], &lists[1], &lists[2]);
        assert_eq!(again.as_ref(), Ok(&network));
    }
}

#[test]
fn subset_counts_are_counts_of_subsets() {
    for n in 0..=14 {
        for r in 0..=6 {
            let of_size = |set: &u64| set.count_ones() as usize == r;
            assert_eq!(subset_count(n, r), (0..1u64 << n).filter(of_size).count());
        }
    }
    assert_eq!(subset_count(64, 5), 7_624_512);
    assert_eq!((subset_count(65, 1), subset_count(64, 7)), (0, 0));
}

#[test]
fn links_are_checked_in_order() {
    let mut so_far = LinksSoFar::new(4);
    so_far.add(so_far.check(0, 1, 5).expect("a first link"));
    assert_eq!(so_far.check(1, 1, 0), Err(6));
    assert_eq!(so_far.check(0, 1, 0), Err(7));
    assert_eq!(so_far.check(0, 1, 6), Err(8));
    assert_eq!(so_far.check(0, 1, 5), Err(9));
}

#[test]
fn names_are_checked_in_order() {
    let told = |names: &[u8]| {
        let found = good_names(names, |name| name);
        found.map_err(|r| (r.number, r.place)).err()
    };
    assert_eq!(told(b"A       B       AB      "), None);
    assert_eq!(told(b"ABCDEFGHABCDEFGIABCDEFG "), None);
    assert_eq!(told(b"A       A       A       "), Some((21, 1)));
    assert_eq!(told(b"A       B       B       A       "), Some((21, 2)));
    assert_eq!(told(b"A       A       A B     "), Some((5, 2)));
}

/// Whether two k-cliques are in one class over links of weight t or more.
fn joined(links: &[Link], p: usize, k: usize, t: u16, [a, b]: [u64; 2]) -> bool {
    let rows = fast::rows(links, t);
    let complete = |set: u64| fast::parts(set).all(|q| set & !(1 << q) & !rows[q] == 0);
    let mut classes = fast::classes(links, p, k, t);
    let mut root = |set: u64| classes.root_of(set & (set - 1));
    complete(a) && complete(b) && root(a) == root(b)
}

/// The tree's lines level by level: those begun and not yet gone into
/// another are as many as the communities, each begins as one of them, and
/// its union is that of one at the last level before it goes into another.
fn check_tree(links: &[Link], p: usize, k: usize) {
    let lines = fast::tree(links, p, k);
    for t in levels(links) {
        let listing = fast::listing(links, p, k, t);
        let begun = |weight: u16| weight >= t;
        let alive = lines.iter().filter(|line| {
            let gone = line.into > 0 && begun(lines[line.into as usize - 1].weight);
            begun(line.weight) && !gone
        });
        assert_eq!(alive.count(), listing.len());
        for line in lines.iter().filter(|line| line.weight == t) {
            let own = |c: &&Community| c.smallest == line.smallest && c.union & !line.union == 0;
            assert_eq!(listing.iter().filter(own).count(), 1);
            let number = lines.iter().position(|l| l == line).map(|i| i as u32 + 1);
            let into = lines.iter().filter(|l| Some(l.into) == number);
            assert_eq!(into.count() as u32, line.joins);
        }
    }
    for line in &lines {
        let last = definition::last_level(links, &lines, line);
        let own = |c: &&Community| joined(links, p, k, last, [c.smallest, line.smallest]);
        let listing = fast::listing(links, p, k, last);
        let unions: Vec<u64> = listing.iter().filter(own).map(|c| c.union).collect();
        assert_eq!(unions, [line.union]);
        if line.into > 0 {
            assert_eq!(line.union & !lines[line.into as usize - 1].union, 0);
        }
    }
    assert!(lines.is_sorted_by_key(|line| (std::cmp::Reverse(line.weight), line.smallest)));
}

#[test]
fn cliques_and_maximal_cliques_agree_up_to_64_parts() {
    let mut random = Random::new(4);
    for case in 0..1500 {
        let (p, k) = (1 + case % 64, 2 + case % 5);
        let mut network = network(&mut random, p);
        let count = |links: &[Link]| {
            fast::count_cliques(&fast::rows(links, 0), fast::all_parts(p), k, 1000)
        };
        while count(&network.links) > 1000 {
            network.links.truncate(network.links.len() * 7 / 8);
        }
        let links = &network.links[..];
        for t in levels(links) {
            let stop = 20_000;
            if let Some(listing) = fast::listing_by_maximal(links, p, k, t, stop) {
                assert_eq!(listing, fast::listing(links, p, k, t));
            }
        }
        check_tree(links, p, k);
        let cliques = fast::cliques(links, p, k);
        for _ in 0..5.min(cliques.len()) {
            let sets = [0, 1].map(|_| random.pick(&cliques).set);
            let met = fast::meeting(&cliques, sets[0], sets[1]);
            for t in levels(links) {
                let expected = met.is_some_and(|weight| weight >= t);
                assert_eq!(joined(links, p, k, t, sets), expected);
            }
        }
    }
}
