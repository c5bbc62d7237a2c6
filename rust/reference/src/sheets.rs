//! Sheets and networks as bytes, with checks 1 to 9 and 21 in their order.

use std::collections::HashSet;

use crate::network::{Link, Network};

/// A refusal: its number and place.
#[derive(Clone, Copy, Debug, PartialEq, Eq)]
pub struct Refusal {
    pub number: u8,
    pub place: usize,
}

/// Refuses with a number and a place unless something holds.
pub fn demand(holds: bool, number: u8, place: usize) -> Result<(), Refusal> {
    match holds {
        true => Ok(()),
        false => Err(Refusal { number, place }),
    }
}

pub fn good_part_count(p: usize) -> bool {
    (1..=64).contains(&p)
}

/// A name is one or more bytes 33 to 126, then spaces to the end.
pub fn good_name(name: &[u8]) -> bool {
    let signs = name.iter().take_while(|b| (33..=126).contains(*b)).count();
    signs > 0 && name[signs..].iter().all(|&b| b == 32)
}

/// The names in some bytes, eight for each, or the first refusal: 5 for a name
/// that is none, and only then 21 for one that equals an earlier one, both
/// with the place of the name's number.
pub fn good_names(bytes: &[u8], place: impl Fn(usize) -> usize) -> Result<Vec<[u8; 8]>, Refusal> {
    let names: Vec<[u8; 8]> = bytes
        .chunks(8)
        .map(|name| name.try_into().expect("eight bytes"))
        .collect();
    for (i, name) in names.iter().enumerate() {
        demand(good_name(name), 5, place(i))?;
    }
    let mut earlier = HashSet::new();
    for (i, name) in names.iter().enumerate() {
        demand(earlier.insert(name), 21, place(i))?;
    }
    Ok(names)
}

/// Where the name of a number stands behind a head of eight bytes.
pub fn name_place(name: usize) -> usize {
    8 + 8 * name
}

/// Links before the next, which is checked against them by 6 to 9.
#[derive(Clone, Debug)]
pub struct LinksSoFar {
    p: usize,
    links: Vec<Link>,
    rows: [u64; 64],
}

impl LinksSoFar {
    pub fn new(p: usize) -> LinksSoFar {
        LinksSoFar {
            p,
            links: Vec::new(),
            rows: [0; 64],
        }
    }

    /// These links, each of which passed.
    pub fn of(p: usize, links: &[Link]) -> LinksSoFar {
        let mut so_far = LinksSoFar::new(p);
        links.iter().for_each(|&link| so_far.add(link));
        so_far
    }

    /// The link as one that may follow, or the first of 6 to 9 that applies.
    pub fn check(&self, lower: usize, higher: usize, weight: u16) -> Result<Link, u8> {
        if lower >= self.p || higher >= self.p || lower >= higher {
            return Err(6);
        }
        if weight == 0 {
            return Err(7);
        }
        if self.links.last().is_some_and(|last| weight > last.weight) {
            return Err(8);
        }
        if self.rows[lower] >> higher & 1 == 1 {
            return Err(9);
        }
        Ok(Link {
            lower: lower as u8,
            higher: higher as u8,
            weight,
        })
    }

    pub fn add(&mut self, link: Link) {
        self.rows[usize::from(link.lower)] |= 1 << link.higher;
        self.rows[usize::from(link.higher)] |= 1 << link.lower;
        self.links.push(link);
    }
}

/// The number in the first two bytes.
pub fn pair(bytes: &[u8]) -> u16 {
    u16::from_be_bytes([bytes[0], bytes[1]])
}

/// The network of a sheet, or the first refusal among 1 to 9 and 21.
pub fn parse(sheet: &[u8]) -> Result<Network, Refusal> {
    demand(sheet.starts_with(b"PLS"), 1, 0)?;
    demand(sheet.len() >= 5 && pair(&sheet[3..]) == 1, 2, 3)?;
    demand(sheet.len() >= 8, 3, sheet.len())?;
    let (p, m) = (usize::from(sheet[5]), usize::from(pair(&sheet[6..])));
    demand(sheet.len() == 8 + 8 * p + 4 * m, 3, sheet.len())?;
    demand(good_part_count(p), 4, 5)?;
    let (names, links) = sheet[8..].split_at(8 * p);
    let names = good_names(names, name_place)?;
    let mut so_far = LinksSoFar::new(p);
    for (i, bytes) in links.chunks(4).enumerate() {
        let place = 8 + 8 * p + 4 * i;
        let link = so_far
            .check(bytes[0].into(), bytes[1].into(), pair(&bytes[2..]))
            .map_err(|number| Refusal { number, place })?;
        so_far.add(link);
    }
    Ok(Network {
        names,
        links: so_far.links,
    })
}

/// The sheet of a network.
pub fn sheet_bytes(network: &Network) -> Vec<u8> {
    let mut bytes = b"PLS\x00\x01".to_vec();
    bytes.push(network.names.len() as u8);
    bytes.extend((network.links.len() as u16).to_be_bytes());
    bytes.extend(network.names.concat());
    for link in &network.links {
        bytes.extend([link.lower, link.higher]);
        bytes.extend(link.weight.to_be_bytes());
    }
    bytes
}

/// The network in the writer's arguments, or its first refusal among 3 to 9
/// and 21; the place is always 0.
pub fn parse_lists(
    names: &[u8],
    lower: &[u16],
    higher: &[u16],
    weights: &[u16],
) -> Result<Network, Refusal> {
    let level = lower.len() == higher.len() && higher.len() == weights.len();
    demand(names.len().is_multiple_of(8) && level, 3, 0)?;
    let p = names.len() / 8;
    demand(good_part_count(p), 4, 0)?;
    let names = good_names(names, |_| 0)?;
    let mut so_far = LinksSoFar::new(p);
    for i in 0..lower.len() {
        let link = so_far
            .check(lower[i].into(), higher[i].into(), weights[i])
            .map_err(|number| Refusal { number, place: 0 })?;
        so_far.add(link);
    }
    Ok(Network {
        names,
        links: so_far.links,
    })
}
