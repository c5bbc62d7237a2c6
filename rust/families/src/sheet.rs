//! Link sheets: reading, writing, names; sheets made from dumps, and the
//! fullest one.

use crate::lent;
use crate::refused::Refused;

/// A network: the names' bytes, eight for each part, and three lists of one
/// length with the links in their order.
#[derive(Clone, Debug, Default, PartialEq, Eq)]
pub struct Network {
    pub names: Vec<u8>,
    pub lower: Vec<u16>,
    pub higher: Vec<u16>,
    pub weights: Vec<u16>,
}

/// The part count that a sheet or dump claims, 0 where it is too short to have one.
pub(crate) fn claimed_parts(sheet: &[u8]) -> usize {
    sheet.get(5).map_or(0, |&p| usize::from(p))
}

fn claimed_links(sheet: &[u8]) -> usize {
    match sheet.get(6..8) {
        Some(&[high, low]) => usize::from(u16::from_be_bytes([high, low])),
        _ => 0,
    }
}

/// Reads a sheet.
pub fn read(sheet: &[u8]) -> Result<Network, Refused> {
    let links = claimed_links(sheet);
    let mut network = Network {
        names: vec![0; 8 * claimed_parts(sheet)],
        lower: vec![0; links],
        higher: vec![0; links],
        weights: vec![0; links],
    };
    lent::read(
        sheet,
        &mut network.names,
        &mut network.lower,
        &mut network.higher,
        &mut network.weights,
    )
    .accepted()?;
    Ok(network)
}

/// Writes a network as a sheet.
pub fn write(network: &Network) -> Result<Vec<u8>, Refused> {
    let mut sheet = vec![0; 8 + network.names.len() + 4 * network.lower.len()];
    let outcome = lent::write(
        &network.names,
        &network.lower,
        &network.higher,
        &network.weights,
        &mut sheet,
    )
    .accepted()?;
    sheet.truncate(outcome.count);
    Ok(sheet)
}

/// The sheet of a sensor dump: a pair's weight is the number of rows that
/// hold both its parts.
pub fn from_dump(dump: &[u8]) -> Result<Vec<u8>, Refused> {
    let parts = claimed_parts(dump);
    // A link for each pair at the most.
    let mut sheet = vec![0; 8 + 8 * parts + 2 * parts * parts.saturating_sub(1)];
    let outcome = lent::dump_sheet(dump, &mut sheet).accepted()?;
    sheet.truncate(outcome.count);
    Ok(sheet)
}

/// The sheet of p parts with all pairs linked at weight 1. For k no sheet of p
/// parts needs more slots at any threshold than this one at 1.
pub fn fullest(p: usize, k: usize) -> Result<Vec<u8>, Refused> {
    // That of 64 parts: 8 bytes for each, and 4 for each of 2,016 links.
    let mut sheet = vec![0; 8_584];
    let outcome = lent::fullest_sheet(p, k, &mut sheet).accepted()?;
    sheet.truncate(outcome.count);
    Ok(sheet)
}

/// A part's name, as the eight bytes inside the sheet.
pub fn name(sheet: &[u8], part: usize) -> Result<&[u8], Refused> {
    let start = lent::name(sheet, part).accepted()?.count;
    Ok(&sheet[start..start + 8])
}
