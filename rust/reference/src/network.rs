//! What the implementations speak of: links, communities, mean link weights,
//! tree lines, and the bytes that show them. Numbers in bytes stand high byte first.

/// A link as a sheet gives it.
#[derive(Clone, Copy, Debug, PartialEq, Eq, Hash)]
pub struct Link {
    pub lower: u8,
    pub higher: u8,
    pub weight: u16,
}

/// A network that a sheet can show.
#[derive(Clone, Debug, Default, PartialEq, Eq)]
pub struct Network {
    pub names: Vec<[u8; 8]>,
    pub links: Vec<Link>,
}

/// A community: its smallest k-clique and the union of its parts.
#[derive(Clone, Copy, Debug, PartialEq, Eq, PartialOrd, Ord)]
pub struct Community {
    pub smallest: u64,
    pub union: u64,
}

/// The weights of a family's links: their sum and number, the whole quotient
/// of the two and the remainder.
#[derive(Clone, Copy, Debug, Default, PartialEq, Eq)]
pub struct Mean {
    pub sum: u64,
    pub links: usize,
    pub quotient: u64,
    pub remainder: u64,
}

impl Mean {
    /// The mean weight of one link or more.
    pub fn of(links: &[Link]) -> Mean {
        let (sum, number) = (links.iter().map(|l| u64::from(l.weight)).sum(), links.len());
        Mean {
            sum,
            links: number,
            quotient: sum / number as u64,
            remainder: sum % number as u64,
        }
    }
}

/// A line of the merge tree; `into` is 0 for a line that goes into none.
#[derive(Clone, Copy, Debug, PartialEq, Eq)]
pub struct Line {
    pub weight: u16,
    pub joins: u32,
    pub into: u32,
    pub smallest: u64,
    pub union: u64,
}

/// The distinct weights of the links, falling.
pub fn levels(links: &[Link]) -> Vec<u16> {
    let mut weights: Vec<u16> = links.iter().map(|link| link.weight).collect();
    weights.sort_unstable();
    weights.dedup();
    weights.reverse();
    weights
}

pub fn listing_bytes(communities: &[Community]) -> Vec<u8> {
    communities
        .iter()
        .flat_map(|c| [c.smallest.to_be_bytes(), c.union.to_be_bytes()].concat())
        .collect()
}

/// How many bytes a tree line has.
pub const LINE: usize = 26;

pub fn tree_bytes(lines: &[Line]) -> Vec<u8> {
    let mut bytes = Vec::with_capacity(LINE * lines.len());
    for line in lines {
        bytes.extend(line.weight.to_be_bytes());
        bytes.extend(line.joins.to_be_bytes());
        bytes.extend(line.into.to_be_bytes());
        bytes.extend(line.smallest.to_be_bytes());
        bytes.extend(line.union.to_be_bytes());
    }
    bytes
}

/// The tree as the tree program prints it.
pub fn tree_text(p: usize, m: usize, lines: &[Line]) -> String {
    let mut text = format!("parts {p} links {m}\n");
    for (index, line) in lines.iter().enumerate() {
        text += &format!(
            "line {} weight {} joins {} into {} smallest {} parts {}\n",
            index + 1,
            line.weight,
            line.joins,
            line.into,
            line.smallest,
            line.union
        );
    }
    text + &format!("end {}\n", lines.len())
}
