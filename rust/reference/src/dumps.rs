//! Sensor dumps, with their checks in order, and the sheets made from them.

use std::cmp::Reverse;

use crate::fast::parts;
use crate::network::{Link, Network};
use crate::sheets::{demand, good_names, good_part_count, name_place, pair, Refusal};

/// A dump: the parts' names, and the parts that tripped together in each row.
#[derive(Clone, Debug, Default, PartialEq, Eq)]
pub struct Dump {
    pub names: Vec<[u8; 8]>,
    pub rows: Vec<u64>,
}

/// The dump in some bytes, or the first refusal among 17, 4, 5, 21 and 18.
pub fn parse_dump(bytes: &[u8]) -> Result<Dump, Refusal> {
    let length = bytes.len();
    demand(bytes.starts_with(b"PRD"), 17, 0)?;
    demand(length >= 5 && pair(&bytes[3..]) == 1, 17, 3)?;
    demand(length >= 8, 17, length)?;
    let (p, n) = (usize::from(bytes[5]), usize::from(pair(&bytes[6..])));
    demand(length == 8 + 8 * p + 8 * n, 17, length)?;
    demand(good_part_count(p), 4, 5)?;
    let (names, rows) = bytes[8..].split_at(8 * p);
    let mut dump = Dump {
        names: good_names(names, name_place)?,
        rows: Vec::with_capacity(n),
    };
    for (i, row) in rows.chunks(8).enumerate() {
        let row = u64::from_be_bytes(row.try_into().expect("eight bytes"));
        demand(parts(row).all(|part| part < p), 18, 8 + 8 * p + 8 * i)?;
        dump.rows.push(row);
    }
    Ok(dump)
}

/// The bytes of a dump.
pub fn dump_bytes(dump: &Dump) -> Vec<u8> {
    let mut bytes = b"PRD\x00\x01".to_vec();
    bytes.push(dump.names.len() as u8);
    bytes.extend((dump.rows.len() as u16).to_be_bytes());
    bytes.extend(dump.names.concat());
    bytes.extend(dump.rows.iter().flat_map(|row| row.to_be_bytes()));
    bytes
}

/// The network of a dump: a pair's weight is the number of rows that hold
/// both its parts. Pair by pair, each over all rows.
pub fn counted(dump: &Dump) -> Network {
    let p = dump.names.len();
    let mut links = Vec::new();
    for lower in 0..p {
        for higher in lower + 1..p {
            let both = 1 << lower | 1 << higher;
            let weight = dump.rows.iter().filter(|&row| row & both == both).count();
            if weight > 0 {
                links.push(Link {
                    lower: lower as u8,
                    higher: higher as u8,
                    weight: weight as u16,
                });
            }
        }
    }
    links.sort_by_key(|link| Reverse(link.weight));
    Network {
        names: dump.names.clone(),
        links,
    }
}
