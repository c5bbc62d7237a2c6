//! Random lists of inserts and takings back.

use reference::calls::slot_bound;
use reference::network::Link;
use reference::random::Random;
use reference::steps::{Step, Steps, JOURNAL_ENTRIES};

use crate::sheets::{random_network, thin_out};

type Insert = (usize, usize, u16);

/// An insert that is refused by one or more of 6 to 9, or may be.
fn bad_insert(random: &mut Random, p: usize, tried: &[Insert]) -> Insert {
    let last = tried.last().copied().unwrap_or((0, 1, 5));
    let (lower, higher, weight) = match tried.is_empty() {
        true => last,
        false => random.pick(tried),
    };
    let far = random.pick(&[
        p,
        p + 1,
        64,
        256,
        lower.wrapping_add(256),
        1 << 32,
        usize::MAX,
    ]);
    let above = last.2.saturating_add(1);
    match random.below(12) {
        0 => (lower, far, weight),
        1 => (far, higher, weight),
        2 => (higher, lower, weight),
        3 => (lower, lower, 0),
        4 => (lower, higher, 0),
        5 => (lower, higher, above),
        6 => (random.below(p), random.below(p), above),
        7 => (random.below(p), random.below(p), 65_535),
        8 => (far, far, 0),
        9 => (random.below(p), random.below(p), 0),
        10 => (lower, higher, 1),
        _ => (lower, higher, last.2),
    }
}

/// A list that grows: its steps, all inserts tried, and the links that would
/// remain with slots enough and no bad insert accepted.
#[derive(Default)]
struct List {
    steps: Vec<Step>,
    tried: Vec<Insert>,
    links: Vec<Insert>,
}

impl List {
    fn insert(&mut self, link: Insert) {
        let (lower, higher, weight) = link;
        self.steps.push(Step::Insert(lower, higher, weight));
        self.tried.push(link);
    }

    /// Bad inserts, each with so many chances in a hundred.
    fn insert_bad(&mut self, random: &mut Random, p: usize, chance: usize) {
        while random.chance(chance) {
            let link = bad_insert(random, p, &self.tried);
            self.insert(link);
        }
    }

    /// Takes links back, each with so many chances in a hundred, and gives
    /// those that are to come again, the next one last.
    fn take_back(&mut self, random: &mut Random, chance: usize) -> Vec<Insert> {
        let mut again = Vec::new();
        while random.chance(chance) {
            self.steps.push(Step::TakeBack);
            if let Some((lower, higher, weight)) = self.links.pop() {
                let most = self.links.last().map_or(65_535, |before| before.2);
                let heavier = random.within(weight.into(), most.into()) as u16;
                again.push((lower, higher, random.pick(&[weight, heavier])));
            }
        }
        again.retain(|_| random.chance(70));
        again
    }

    /// Takes all links back, and at times one more.
    fn take_all_back(&mut self, random: &mut Random) {
        let all = self.links.len() + random.below(3);
        self.steps.extend(vec![Step::TakeBack; all]);
        self.links.clear();
    }
}

/// The links of a random network, few enough for k, the first one last.
fn random_links(random: &mut Random, p: usize, k: usize) -> Vec<Insert> {
    let mut network = random_network(random, p);
    if k > 2 {
        let most = random.pick(&[60, 120, 400]);
        thin_out(&mut network, k, most);
    }
    let insert = |link: Link| (link.lower.into(), link.higher.into(), link.weight);
    network.links.into_iter().rev().map(insert).collect()
}

/// A list of steps: a network's links in their order, some taken back and put
/// in again or left out, bad inserts between; at times all are taken back.
pub fn random_list(random: &mut Random, p: usize, k: usize) -> Vec<Step> {
    let mut to_come = random_links(random, p, k);
    let (bad, back) = (random.pick(&[0, 10, 30, 60]), random.pick(&[0, 5, 20, 45]));
    let mut list = List::default();
    while let Some(link) = to_come.pop() {
        list.insert_bad(random, p, bad);
        list.insert(link);
        list.links.push(link);
        to_come.extend(list.take_back(random, back));
    }
    list.insert_bad(random, p, 60);
    if random.chance(15) {
        list.take_all_back(random);
        list.insert((0, p - 1, 65_535));
        list.insert_bad(random, p, 60);
    }
    list.steps
}

/// The most slots that a list needs at one time where it has all it wants.
pub fn slots_needed(p: usize, k: usize, list: &[Step]) -> usize {
    let slots = slot_bound(p, k).count;
    let mut steps = Steps::start(p, k, [slots; 4], JOURNAL_ENTRIES).expect("a start");
    let used = list.iter().map(|&step| {
        let _ = steps.step(step);
        steps.used()
    });
    used.max().unwrap_or(0)
}
