//! Both implementations on the requirement's small sheets and on published
//! networks and trees.

use reference::calls::{Judge, Outcome};
use reference::definition;
use reference::fast;
use reference::network::{tree_text, Community, Link, Mean, Network};
use reference::published::{networks, plain_names, trees};
use reference::sheets::sheet_bytes;
use reference::steps::{Step, Steps, JOURNAL_ENTRIES};

fn links(list: &[(u8, u8, u16)]) -> Vec<Link> {
    let link = |&(lower, higher, weight): &(u8, u8, u16)| Link {
        lower,
        higher,
        weight,
    };
    list.iter().map(link).collect()
}

fn expect(links: &[Link], p: usize, k: usize, t: u16, listing: &[(u64, u64)]) {
    let listing: Vec<Community> = listing
        .iter()
        .map(|&(smallest, union)| Community { smallest, union })
        .collect();
    assert_eq!(definition::listing(links, p, k, t), listing);
    assert_eq!(definition::listing_by_maximal(links, p, k, t), listing);
    assert_eq!(fast::listing(links, p, k, t), listing);
}

/// The sum, number, quotient and remainder of a family's link weights.
fn expect_mean(links: &[Link], p: usize, k: usize, t: u16, clique: u64, numbers: [u64; 4]) {
    let [sum, number, quotient, remainder] = numbers;
    let mean = Mean {
        sum,
        links: number as usize,
        quotient,
        remainder,
    };
    let counted = definition::family_links(links, p, k, t, clique).expect("a k-clique");
    assert_eq!(Mean::of(&counted), mean);
    let mut cliques = fast::cliques(links, p, k);
    cliques.retain(|c| c.weakest >= t);
    assert_eq!(fast::means(links, &cliques)[&clique], mean);
}

fn two_triangles() -> Vec<Link> {
    let pairs = [(0, 1), (0, 2), (1, 2), (2, 3), (2, 4), (3, 4)];
    links(&pairs.map(|(a, b)| (a, b, 4)))
}

#[test]
fn p1_to_p4() {
    let sheet = links(&[(0, 1, 9), (0, 2, 9), (1, 2, 8), (1, 3, 5), (2, 3, 5)]);
    expect(&sheet, 4, 3, 9, &[]);
    expect(&sheet, 4, 3, 8, &[(7, 7)]);
    expect(&sheet, 4, 3, 5, &[(7, 15)]);
    expect_mean(&sheet, 4, 3, 8, 7, [26, 3, 8, 2]);
    expect_mean(&sheet, 4, 3, 5, 7, [36, 5, 7, 1]);
    expect_mean(&sheet, 4, 3, 5, 14, [36, 5, 7, 1]);
    assert_eq!(definition::family_links(&sheet, 4, 3, 6, 14), None);
    assert_eq!(definition::meeting(&sheet, 4, 3, 7, 14), Some(5));
    assert_eq!(fast::meeting(&fast::cliques(&sheet, 4, 3), 7, 14), Some(5));
    expect_tree(&sheet, 4, 3, &["8 joins 0 into 0 smallest 7 parts 15"]);
}

/// Both trees, each line from its weight on.
fn expect_tree(links: &[Link], p: usize, k: usize, rows: &[&str]) {
    let mut text = format!("parts {p} links {}\n", links.len());
    for (i, row) in rows.iter().enumerate() {
        text += &format!("line {} weight {row}\n", i + 1);
    }
    text += &format!("end {}\n", rows.len());
    assert_eq!(
        tree_text(p, links.len(), &definition::tree(links, p, k)),
        text
    );
    assert_eq!(tree_text(p, links.len(), &fast::tree(links, p, k)), text);
}

/// The first class grows before the two join, the second at that level, which
/// is not shown, and their class after it.
#[test]
fn a_line_shows_what_it_grew_to() {
    let mut sheet = two_triangles();
    sheet.extend(links(&[(0, 5, 3), (1, 5, 3)]));
    sheet.extend(links(&[(1, 3, 2), (3, 6, 2), (4, 6, 2)]));
    sheet.extend(links(&[(0, 7, 1), (1, 7, 1)]));
    let rows = [
        "4 joins 0 into 3 smallest 7 parts 39",
        "4 joins 0 into 3 smallest 28 parts 28",
        "2 joins 2 into 0 smallest 7 parts 255",
    ];
    expect_tree(&sheet, 8, 3, &rows);
}

#[test]
fn p5_to_p8() {
    let mut sheet = two_triangles();
    expect(&sheet, 5, 3, 4, &[(7, 7), (28, 28)]);
    expect(&sheet, 5, 2, 4, &[(3, 31)]);
    assert_eq!(definition::meeting(&sheet, 5, 3, 7, 28), None);
    assert_eq!(fast::meeting(&fast::cliques(&sheet, 5, 3), 7, 28), None);
    sheet.extend(links(&[(1, 3, 2)]));
    expect(&sheet, 5, 3, 2, &[(7, 31)]);
    assert_eq!(definition::slot_cliques(&sheet, 5, 3).len(), 7);
    let mut steps = Steps::start(5, 3, [6; 4], JOURNAL_ENTRIES).expect("an accepted start");
    let mut insert = |link: &Link| steps.step((*link).into()).map_err(|r| r.number);
    assert!(sheet[..6].iter().all(|link| insert(link).is_ok()));
    assert_eq!(insert(&sheet[6]), Err(15));
    let rows = [
        "4 joins 0 into 3 smallest 7 parts 7",
        "4 joins 0 into 3 smallest 28 parts 28",
        "2 joins 2 into 0 smallest 7 parts 31",
    ];
    expect_tree(&sheet, 5, 3, &rows);
}

/// The request's own words: the last link goes, a heavier one may follow, and
/// with no link left there is nothing to take back.
#[test]
fn p8_taken_back() {
    let mut steps = Steps::start(5, 3, [7; 4], JOURNAL_ENTRIES).expect("an accepted start");
    let mut step = |step| {
        let answer = steps.step(step).map_or_else(|r| r.number, |()| 0);
        (
            answer,
            steps.used(),
            steps.last_weight(),
            steps.links().len(),
        )
    };
    for link in two_triangles() {
        assert_eq!(step(link.into()).0, 0);
    }
    assert_eq!(step(Step::Insert(1, 3, 2)), (0, 7, 2, 7));
    assert_eq!(step(Step::Insert(0, 3, 3)), (8, 7, 2, 7));
    assert_eq!(step(Step::TakeBack), (0, 6, 4, 6));
    assert_eq!(step(Step::Insert(1, 3, 3)), (0, 7, 3, 7));
    for links in (0..7).rev() {
        assert_eq!(step(Step::TakeBack).3, links);
    }
    assert_eq!(step(Step::TakeBack), (19, 0, 65_535, 0));
    assert_eq!(step(Step::Insert(0, 1, 65_535)), (0, 0, 65_535, 1));
    assert_eq!(steps.journal()[..2], [0x0001_ffff, 0]);
}

#[test]
fn p9_and_p10() {
    let mut ring = Vec::new();
    for q in 0..11u8 {
        ring.extend((q + 1..=q + 2).filter(|&r| r < 11).map(|r| (q, r, 4)));
    }
    ring.extend([(0, 5, 4), (5, 10, 4), (0, 10, 4)]);
    expect(&links(&ring), 11, 3, 4, &[(7, 2047), (1057, 1057)]);
    // 0-5, 5-10 and 0-10 lie inside the large union, but in none of its cliques.
    expect_mean(&links(&ring), 11, 3, 4, 7, [76, 19, 4, 0]);
    expect_mean(&links(&ring), 11, 3, 4, 1057, [12, 3, 4, 0]);
    let mut two = Vec::new();
    for q in 0..6u8 {
        let reach = |r: &u8| *r < 4 || q > 1;
        two.extend((q + 1..6).filter(reach).map(|r| (q, r, 4)));
    }
    expect(&links(&two), 6, 4, 4, &[(15, 15), (60, 60)]);
    expect_mean(&links(&two), 6, 4, 4, 60, [24, 6, 4, 0]);
    expect_mean(&links(&two), 6, 3, 4, 7, [44, 11, 4, 0]);
}

#[test]
fn small_sheets() {
    let one = Network {
        names: plain_names(1),
        links: Vec::new(),
    };
    let sheet = sheet_bytes(&one);
    assert_eq!(sheet.len(), 16);
    assert_eq!(Judge::new(&sheet).read([8, 0, 0, 0]).outcome.number, 0);
    let twice = Network {
        names: plain_names(3),
        links: links(&[(0, 1, 5), (0, 1, 5)]),
    };
    let refused = Judge::new(&sheet_bytes(&twice)).read([24, 2, 2, 2]).outcome;
    let expected = Outcome {
        number: 9,
        place: 36,
        ..Outcome::default()
    };
    assert_eq!(refused, expected);
}

#[test]
fn published_networks() {
    let networks = networks();
    for case in &networks {
        let (p, links) = (case.network.names.len(), &case.network.links[..]);
        let found = fast::listing(links, p, case.k, case.t);
        assert_eq!(
            found, case.listing,
            "{} k {} t {}",
            case.name, case.k, case.t
        );
        let by_maximal = fast::listing_by_maximal(links, p, case.k, case.t, 1 << 20);
        assert_eq!(by_maximal.as_ref(), Some(&case.listing), "{}", case.name);
        // The definition's cost grows with the cube of the cliques.
        if p <= 14 && definition::k_cliques(links, p, case.k).len() <= 300 {
            let found = definition::listing(links, p, case.k, case.t);
            assert_eq!(
                found, case.listing,
                "{} k {} t {}",
                case.name, case.k, case.t
            );
        }
    }
    println!("{} published networks", networks.len());
    assert_eq!(networks.len(), 288);
}

#[test]
fn published_trees() {
    let trees = trees();
    for case in &trees {
        let (p, links) = (case.network.names.len(), &case.network.links[..]);
        let found = fast::tree(links, p, case.k);
        assert_eq!(
            tree_text(p, links.len(), &found),
            case.text,
            "{}",
            case.name
        );
        if p <= 14 && definition::k_cliques(links, p, case.k).len() <= 300 {
            let found = definition::tree(links, p, case.k);
            assert_eq!(
                tree_text(p, links.len(), &found),
                case.text,
                "{}",
                case.name
            );
        }
    }
    println!("{} published trees", trees.len());
    assert_eq!(trees.len(), 21);
}
