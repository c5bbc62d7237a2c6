//! A second implementation of link sheets, k-clique percolation, meeting
//! weights, mean link weights and the merge tree, written from the requirement
//! alone, for comparison with the library.
//!
//! - [`definition`]: the definitions as they stand, over all sets of parts,
//!   for small part counts.
//! - [`fast`]: bit sets and hashing, for up to 64 parts.
//! - [`calls`], [`sheets`], [`steps`]: every check in its order, and so the
//!   expected answer, output, tables and journal of every call.
//! - [`dumps`]: the sheet of a sensor dump.
//! - [`pages`]: tree lines on a page of 72 columns.
//! - [`strength`]: the weakest link and the product of a clique.
//! - [`published`]: published networks with their expected families.

pub mod calls;
pub mod definition;
pub mod dumps;
pub mod fast;
pub mod json;
pub mod network;
pub mod pages;
pub mod published;
pub mod random;
pub mod sheets;
pub mod steps;
pub mod strength;
