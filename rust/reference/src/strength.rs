//! The strength of a clique: its weakest link, or the product of its link
//! weights as a 64-bit float.

use crate::fast::parts;

/// What a clique is measured by, with the threshold that it must reach.
#[derive(Clone, Copy, Debug, PartialEq)]
pub enum Measure {
    Weakest(u16),
    Product(f64),
}

/// The weights of a set's pairs, by lower then higher part.
pub fn pair_weights(weights: &[[u16; 64]; 64], set: u64) -> Vec<u16> {
    let members: Vec<usize> = parts(set).collect();
    let mut pairs = Vec::new();
    for (i, &q) in members.iter().enumerate() {
        for &r in &members[i + 1..] {
            pairs.push(weights[q][r]);
        }
    }
    pairs
}

/// The product from left to right, each step rounded once.
pub fn product(weights: &[u16]) -> f64 {
    let mut product = f64::from(weights[0]);
    for &weight in &weights[1..] {
        product *= f64::from(weight);
    }
    product
}

/// The product of up to six weights, exactly.
pub fn whole_product(weights: &[u16]) -> u128 {
    weights.iter().map(|&weight| u128::from(weight)).product()
}

impl Measure {
    /// Whether a clique with these weights is at or above the threshold.
    pub fn reached(self, weights: &[u16]) -> bool {
        match self {
            Measure::Weakest(t) => weights.iter().all(|&weight| weight >= t),
            Measure::Product(t) => product(weights) >= t,
        }
    }
}
