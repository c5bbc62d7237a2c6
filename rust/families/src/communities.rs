//! Communities of a sheet: listings, meeting weights, mean link weights, the
//! merge tree and its page.

use crate::lent::{self, Measure, Run};
use crate::refused::Refused;
use crate::sheet::claimed_parts;
use crate::tables::{slot_bound_or_none, Cliques, Space, Tables};

const LISTING_BYTES: usize = 16;
const LINE_BYTES: usize = 26;
const ROW_BYTES: usize = 73;

/// A community: its smallest k-clique and the union of its parts, both as
/// sets with bit q for part q.
#[derive(Clone, Copy, Debug, PartialEq, Eq)]
pub struct Community {
    pub smallest: u64,
    pub union: u64,
}

/// Where two k-cliques come together.
#[derive(Clone, Copy, Debug, PartialEq, Eq)]
pub enum Meeting {
    /// The largest threshold at which a chain joins them.
    At(u16),
    Never,
}

/// The weights of a family's links: their sum and number, the whole quotient
/// of the two and the remainder.
#[derive(Clone, Copy, Debug, PartialEq, Eq)]
pub struct MeanWeight {
    pub sum: u64,
    pub links: usize,
    pub quotient: u64,
    pub remainder: u64,
}

/// What the sequential run needs: its k-cliques, k joins for each, and the
/// slots that it will use.
#[derive(Clone, Copy, Debug, PartialEq, Eq)]
pub struct Needs {
    pub cliques: u64,
    pub joins: u64,
    pub slots: u64,
}

/// A line of the merge tree. Lines are numbered from 1 in their order. Weight
/// and smallest clique are those of its start; its union is that of its class
/// at the last level before it goes into another line, or at the last of all.
#[derive(Clone, Copy, Debug, PartialEq, Eq)]
pub struct Line {
    pub weight: u16,
    pub joins: u32,
    /// The number of the line that this one goes into.
    pub into: Option<u32>,
    pub smallest: u64,
    pub union: u64,
}

/// The communities of a listing's bytes; bytes after the last whole one are
/// left alone.
pub fn decode_listing(bytes: &[u8]) -> Vec<Community> {
    bytes
        .chunks_exact(LISTING_BYTES)
        .map(|bytes| Community {
            smallest: number(&bytes[..8]),
            union: number(&bytes[8..]),
        })
        .collect()
}

/// The lines of a merge tree's bytes; bytes after the last whole one are
/// left alone.
pub fn decode_tree(bytes: &[u8]) -> Vec<Line> {
    bytes.chunks_exact(LINE_BYTES).map(decode_line).collect()
}

fn decode_line(bytes: &[u8]) -> Line {
    let into = number(&bytes[6..10]) as u32;
    Line {
        weight: number(&bytes[..2]) as u16,
        joins: number(&bytes[2..6]) as u32,
        into: (into != 0).then_some(into),
        smallest: number(&bytes[10..18]),
        union: number(&bytes[18..26]),
    }
}

fn number(bytes: &[u8]) -> u64 {
    bytes.iter().fold(0, |n, &byte| n << 8 | u64::from(byte))
}

/// The most communities there can be: each has k slots or more to itself.
pub(crate) fn most_communities(slots: usize, k: usize) -> usize {
    slots.checked_div(k).unwrap_or(0)
}

pub(crate) fn listing_space(communities: usize) -> Vec<u8> {
    vec![0; LISTING_BYTES * communities]
}

pub(crate) fn listing_in(mut out: Vec<u8>, communities: usize) -> Vec<Community> {
    out.truncate(LISTING_BYTES * communities);
    decode_listing(&out)
}

/// The communities over links of weight t or more.
pub fn listing(
    run: Run,
    sheet: &[u8],
    k: usize,
    t: u16,
    space: Space,
) -> Result<Vec<Community>, Refused> {
    let p = claimed_parts(sheet);
    let slots = space.slots(run, p, k);
    let mut tables = Tables::new(slots);
    let most = most_communities(slot_bound_or_none(p, k), k).min(slots);
    let mut out = listing_space(most);
    let outcome = lent::listing(run, sheet, k, t, tables.as_mut(), &mut out).accepted()?;
    Ok(listing_in(out, outcome.count))
}

/// The communities of the k-cliques at or above a measure's threshold. All
/// k-cliques of the sheet are stored, at most `most_cliques` of them: a sheet
/// with more is refused (15).
pub fn strong_listing(
    sheet: &[u8],
    k: usize,
    measure: Measure,
    most_cliques: usize,
    space: Space,
) -> Result<Vec<Community>, Refused> {
    let p = claimed_parts(sheet);
    let mut cliques = Cliques::new(lent::subset_count(p, k).count.min(most_cliques));
    let slots = space.slots(Run::Sequential, p, k);
    let mut tables = Tables::new(slots);
    let mut out = listing_space(most_communities(slots, k));
    let (list, tables) = (cliques.as_mut(), tables.as_mut());
    let outcome = lent::strong_listing(sheet, k, measure, list, tables, &mut out).accepted()?;
    Ok(listing_in(out, outcome.count))
}

/// The meeting weight of two k-cliques.
pub fn meeting(
    run: Run,
    sheet: &[u8],
    k: usize,
    a: u64,
    b: u64,
    space: Space,
) -> Result<Meeting, Refused> {
    let mut tables = Tables::new(space.slots(run, claimed_parts(sheet), k));
    let outcome = lent::meeting(run, sheet, k, a, b, tables.as_mut()).accepted()?;
    Ok(match outcome.count {
        0 => Meeting::Never,
        weight => Meeting::At(weight as u16),
    })
}

/// The mean link weight of the family that a k-clique belongs to over links
/// of weight t or more: of the links that lie in some k-clique of that family.
/// A set that is no k-clique at t is refused (13).
pub fn mean(
    sheet: &[u8],
    k: usize,
    t: u16,
    clique: u64,
    space: Space,
) -> Result<MeanWeight, Refused> {
    let slots = space.slots(Run::Sequential, claimed_parts(sheet), k);
    let mut tables = Tables::new(slots);
    let mean = lent::family_mean(sheet, k, t, clique, tables.as_mut());
    Ok(MeanWeight {
        sum: mean.sum,
        links: mean.outcome.accepted()?.count,
        quotient: mean.quotient,
        remainder: mean.remainder,
    })
}

/// What the sequential run needs of a sheet at t, told before it. With as many
/// slots it is accepted, with fewer it is refused 15.
pub fn needed(sheet: &[u8], k: usize, t: u16) -> Result<Needs, Refused> {
    let need = lent::needed(sheet, k, t);
    need.outcome.accepted()?;
    Ok(Needs {
        cliques: need.cliques,
        joins: need.joins,
        slots: need.slots,
    })
}

/// The merge tree's lines.
pub fn tree(sheet: &[u8], k: usize, space: Space) -> Result<Vec<Line>, Refused> {
    let slots = space.slots(Run::Sequential, claimed_parts(sheet), k);
    let mut tables = Tables::new(slots);
    // A line that joins takes the place of two or more, so with c
    // communities at most c lines begin and at most c - 1 join.
    let most = 2 * most_communities(slots, k);
    let mut out = vec![0; LINE_BYTES * most];
    let outcome = lent::tree(sheet, k, tables.as_mut(), &mut out).accepted()?;
    out.truncate(LINE_BYTES * outcome.count);
    Ok(decode_tree(&out))
}

/// The page of a merge tree's bytes, with the names of a sheet: rows of 72
/// columns and a newline.
pub fn page(sheet: &[u8], lines: &[u8]) -> Result<Vec<u8>, Refused> {
    let rows = lent::page_rows(sheet, lines).accepted()?.count;
    let mut out = vec![0; ROW_BYTES * rows];
    lent::page(sheet, lines, &mut out).accepted()?;
    Ok(out)
}
