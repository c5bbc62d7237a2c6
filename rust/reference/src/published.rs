//! Published networks with their families, and merge trees. Where each comes
//! from stands in the data.

use crate::json::{parse, Value};
use crate::network::{Community, Link, Network};

const NETWORKS: &str = include_str!("../../../tests/data/published.json");
const TREES: &str = include_str!("../../../tests/data/published_trees.json");

/// A network with the listing expected at k and t.
#[derive(Clone, Debug)]
pub struct Published {
    pub name: String,
    pub network: Network,
    pub k: usize,
    pub t: u16,
    pub listing: Vec<Community>,
}

/// A network with the merge tree expected at k, as the tree program prints
/// it.
#[derive(Clone, Debug)]
pub struct PublishedTree {
    pub name: String,
    pub network: Network,
    pub k: usize,
    pub text: String,
}

/// Names for p parts: P00, P01 and on.
pub fn plain_names(p: usize) -> Vec<[u8; 8]> {
    (0..p)
        .map(|q| {
            let name = format!("P{q:02}     ");
            name.as_bytes().try_into().expect("eight bytes")
        })
        .collect()
}

fn network(entry: &Value) -> Network {
    let link = |link: &Value| Link {
        lower: link.list()[0].number() as u8,
        higher: link.list()[1].number() as u8,
        weight: link.list()[2].number() as u16,
    };
    Network {
        names: plain_names(entry.field("p").number() as usize),
        links: entry.field("links").list().iter().map(link).collect(),
    }
}

fn published(entry: &Value) -> Published {
    let community = |pair: &Value| Community {
        smallest: pair.list()[0].number(),
        union: pair.list()[1].number(),
    };
    let unions = |union: &Value| union.list().iter().fold(0, |u, q| u | 1 << q.number());
    let listing: Vec<Community> = entry
        .field("smallest_union")
        .list()
        .iter()
        .map(community)
        .collect();
    let mut published: Vec<u64> = entry
        .field("communities")
        .list()
        .iter()
        .map(unions)
        .collect();
    let mut listed: Vec<u64> = listing.iter().map(|c| c.union).collect();
    published.sort_unstable();
    listed.sort_unstable();
    assert_eq!(published, listed, "the data's two forms differ");
    Published {
        name: entry.field("name").text().to_string(),
        network: network(entry),
        k: entry.field("k").number() as usize,
        t: entry.field("t").number() as u16,
        listing,
    }
}

/// All published networks.
pub fn networks() -> Vec<Published> {
    parse(NETWORKS).list().iter().map(published).collect()
}

/// All published trees, with the networks of the same name and part count.
pub fn trees() -> Vec<PublishedTree> {
    let networks = networks();
    let tree = |entry: &Value| {
        let name = entry.field("name").text();
        let p = entry.field("p").number() as usize;
        let found = networks
            .iter()
            .find(|n| n.name == name && n.network.names.len() == p);
        PublishedTree {
            name: name.to_string(),
            network: found.expect("the tree's network").network.clone(),
            k: entry.field("k").number() as usize,
            text: entry.field("tree").text().to_string(),
        }
    };
    parse(TREES).list().iter().map(tree).collect()
}
