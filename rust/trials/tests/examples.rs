//! The requirement's small sheets, by the calls that make their own space.

use families::{
    decode_listing, decode_tree, fullest, lent, listing, meeting, name, needed, page, read,
    slot_bound, subset_count, tree, write, Community, Line, Meeting, Needs, Network, Refused, Run,
    Sequential, Space, Tables,
};
use trials::Trials;

const RUNS: [Run; 2] = [Run::Sequential, Run::Maximal];

fn network(p: usize, links: &[(u16, u16, u16)]) -> Network {
    Network {
        names: (0..p)
            .flat_map(|q| {
                *format!("P{q:02}     ")
                    .as_bytes()
                    .first_chunk::<8>()
                    .unwrap()
            })
            .collect(),
        lower: links.iter().map(|link| link.0).collect(),
        higher: links.iter().map(|link| link.1).collect(),
        weights: links.iter().map(|link| link.2).collect(),
    }
}

fn sheet(p: usize, links: &[(u16, u16, u16)]) -> Vec<u8> {
    write(&network(p, links)).expect("a sheet")
}

fn p1() -> Vec<u8> {
    sheet(4, &[(0, 1, 9), (0, 2, 9), (1, 2, 8), (1, 3, 5), (2, 3, 5)])
}

const TWO_TRIANGLES: [(u16, u16, u16); 6] = [
    (0, 1, 4),
    (0, 2, 4),
    (1, 2, 4),
    (2, 3, 4),
    (2, 4, 4),
    (3, 4, 4),
];

fn p8_links() -> Vec<(u16, u16, u16)> {
    [&TWO_TRIANGLES[..], &[(1, 3, 2)]].concat()
}

fn expect_listing(trials: &mut Trials, sheet: &[u8], k: usize, t: u16, shown: &[(u64, u64)]) {
    let expected: Vec<Community> = shown
        .iter()
        .map(|&(smallest, union)| Community { smallest, union })
        .collect();
    for run in RUNS {
        for space in [Space::Bound, Space::Slots(100)] {
            trials.case();
            assert_eq!(listing(run, sheet, k, t, space).as_ref(), Ok(&expected));
        }
    }
}

fn expect_meeting(trials: &mut Trials, sheet: &[u8], a: u64, b: u64, expected: Meeting) {
    for run in RUNS {
        trials.case();
        assert_eq!(meeting(run, sheet, 3, a, b, Space::Bound), Ok(expected));
    }
}

#[test]
fn small_sheets() {
    let trials = &mut Trials::new("small sheets");
    expect_listing(trials, &p1(), 3, 9, &[]);
    expect_listing(trials, &p1(), 3, 8, &[(7, 7)]);
    expect_listing(trials, &p1(), 3, 5, &[(7, 15)]);
    expect_meeting(trials, &p1(), 7, 14, Meeting::At(5));
    expect_meeting(trials, &p1(), 7, 7, Meeting::At(8));
    let p5 = sheet(5, &TWO_TRIANGLES);
    expect_listing(trials, &p5, 3, 4, &[(7, 7), (28, 28)]);
    expect_listing(trials, &p5, 2, 4, &[(3, 31)]);
    expect_meeting(trials, &p5, 7, 28, Meeting::Never);
    expect_listing(trials, &sheet(5, &p8_links()), 3, 2, &[(7, 31)]);
    let mut ring = Vec::new();
    for q in 0..11 {
        ring.extend((q + 1..=q + 2).filter(|&r| r < 11).map(|r| (q, r, 4)));
    }
    ring.extend([(0, 5, 4), (5, 10, 4), (0, 10, 4)]);
    expect_listing(trials, &sheet(11, &ring), 3, 4, &[(7, 2047), (1057, 1057)]);
    let mut two = Vec::new();
    for q in 0..6 {
        let reach = |r: &u16| *r < 4 || q > 1;
        two.extend((q + 1..6).filter(reach).map(|r| (q, r, 4)));
    }
    expect_listing(trials, &sheet(6, &two), 4, 4, &[(15, 15), (60, 60)]);
}

#[test]
fn merge_tree() {
    let line = |weight, joins, into, smallest, union| Line {
        weight,
        joins,
        into,
        smallest,
        union,
    };
    let expected = vec![
        line(4, 0, Some(3), 7, 7),
        line(4, 0, Some(3), 28, 28),
        line(2, 2, None, 7, 31),
    ];
    let sheet = sheet(5, &p8_links());
    for space in [Space::Bound, Space::Slots(7), Space::Slots(1 << 40)] {
        assert_eq!(tree(&sheet, 3, space).as_ref(), Ok(&expected));
    }
    let refused = tree(&sheet, 3, Space::Slots(6)).unwrap_err();
    assert_eq!((refused.number, refused.place), (15, 0));
    let grown = vec![line(8, 0, None, 7, 15)];
    assert_eq!(tree(&p1(), 3, Space::Bound), Ok(grown));
}

#[test]
fn inserts() {
    let mut run = Sequential::start(5, 3, Space::Slots(6)).expect("a start");
    for (lower, higher, weight) in TWO_TRIANGLES {
        let answer = run.insert(lower.into(), higher.into(), weight);
        assert_eq!(answer, Ok(()));
    }
    assert_eq!(run.insert(1, 3, 2).unwrap_err().number, 15);
    assert_eq!(run.insert(1, 3, 5).unwrap_err().number, 8);
    assert_eq!(run.insert(0, 1, 4).unwrap_err().number, 9);
    assert_eq!(run.used_slots(), 6);
    let shown = |smallest, union| Community { smallest, union };
    let two = vec![shown(7, 7), shown(28, 28)];
    assert_eq!(run.listing_now(), Ok(two));
    let mut run = Sequential::start(5, 3, Space::Bound).expect("a start");
    for (lower, higher, weight) in p8_links() {
        let answer = run.insert(lower.into(), higher.into(), weight);
        assert_eq!(answer, Ok(()));
    }
    assert_eq!(run.used_slots(), 7);
    assert_eq!(run.listing_now(), Ok(vec![shown(7, 31)]));
    assert_eq!(run.links()[5..], [(3, 4, 4), (1, 3, 2)]);
    assert_eq!(run.take_back(), Ok(()));
    assert_eq!(run.listing_now(), Ok(vec![shown(7, 7), shown(28, 28)]));
    assert_eq!(run.insert(1, 3, 3), Ok(()));
    assert_eq!((run.links().len(), run.links()[6]), (7, (1, 3, 3)));
    for _ in 0..7 {
        assert_eq!(run.take_back(), Ok(()));
    }
    assert_eq!(run.take_back().unwrap_err().number, 19);
    assert_eq!((run.used_slots(), run.links()), (0, vec![]));
    assert_eq!(run.insert(0, 1, 65_535), Ok(()));
    for (p, k, number) in [(0, 3, 4), (65, 9, 4), (3, 7, 10), (3, 1, 10)] {
        let refused = Sequential::start(p, k, Space::Bound).unwrap_err();
        assert_eq!((refused.number, refused.place), (number, 0));
    }
}

#[test]
fn sheets_and_names() {
    let one = sheet(1, &[]);
    assert_eq!(one.len(), 16);
    assert_eq!(read(&one), Ok(network(1, &[])));
    let twice = network(3, &[(0, 1, 5), (0, 1, 5)]);
    let refused = |number, place| Refused { number, place };
    assert_eq!(write(&twice), Err(refused(9, 0)));
    let mut bytes = sheet(3, &[(0, 1, 5), (0, 2, 5)]);
    bytes[37] = 1;
    assert_eq!(read(&bytes), Err(refused(9, 36)));
    let mut alike = network(3, &[]);
    alike.names.copy_within(8..16, 16);
    assert_eq!(write(&alike), Err(refused(21, 0)));
    bytes.copy_within(16..24, 24);
    assert_eq!(read(&bytes), Err(refused(21, 24)));
    assert_eq!(read(b""), Err(refused(1, 0)));
    assert_eq!(read(b"PLS\x00\x01\xff\xff\xff"), Err(refused(3, 8)));
    let sheet = p1();
    for part in 0..4 {
        let own = &sheet[8 + 8 * part..][..8];
        let found = name(&sheet, part).expect("a name");
        // The very bytes of the sheet, not a copy.
        assert_eq!((found.as_ptr(), found.len()), (own.as_ptr(), 8));
    }
    assert_eq!(name(&sheet, 4), Err(refused(14, 0)));
}

#[test]
fn the_tree_on_a_page() {
    let sheet = p1();
    let mut lines = [0; 26];
    let told = lent::tree(&sheet, 3, Tables::new(6).as_mut(), &mut lines);
    assert_eq!((told.number, told.count), (0, 1));
    let names = "P00       P01       P02       P03";
    let shown = format!("{:>6}{:>6}{names:<60}\n", 1, 8);
    assert_eq!(page(&sheet, &lines), Ok(shown.into_bytes()));
    assert_eq!(page(&sheet, b""), Ok(Vec::new()));
    let refused = |number, place| Err(Refused { number, place });
    assert_eq!(page(&sheet, &lines[1..]), refused(24, 0));
    assert_eq!(page(b"PLS", &lines), refused(2, 3));
}

#[test]
fn bounds_and_words() {
    assert_eq!(slot_bound(64, 6), Ok(7_624_512));
    assert_eq!(slot_bound(4, 5), Ok(0));
    assert_eq!(slot_bound(0, 9).unwrap_err().number, 4);
    assert_eq!(slot_bound(64, 9).unwrap_err().number, 10);
    assert_eq!(subset_count(64, 5), 7_624_512);
    assert_eq!(subset_count(65, 5), 0);
    let words = |number| Refused { number, place: 36 }.to_string();
    assert_eq!(words(9), "refused 9 at 36: pair given before");
    let mut sentences: Vec<String> = (1..=23).map(words).collect();
    sentences.sort();
    sentences.dedup();
    assert_eq!(sentences.len(), 23);
    assert!(!sentences.contains(&words(24)) && !words(24).contains("without a meaning"));
    assert!(!sentences.iter().any(|s| s.contains("without a meaning")));
}

#[test]
fn needs() {
    let full = fullest(5, 3).expect("a sheet");
    let need = Needs {
        cliques: 10,
        joins: 30,
        slots: 10,
    };
    assert_eq!(needed(&full, 3, 1), Ok(need));
    let all = vec![Community {
        smallest: 7,
        union: 31,
    }];
    let listed = |slots| listing(Run::Sequential, &full, 3, 1, Space::Slots(slots));
    assert_eq!(listed(10), Ok(all));
    let refused = |number| Refused { number, place: 0 };
    assert_eq!(listed(9), Err(refused(15)));
    assert_eq!(needed(&full, 7, 1), Err(refused(10)));
    assert_eq!(needed(b"", 3, 1), Err(refused(1)));
    assert_eq!(fullest(65, 7), Err(refused(4)));
    assert_eq!(fullest(64, 7), Err(refused(10)));
    let longest = fullest(64, 6).expect("a sheet");
    assert_eq!(longest.len(), 8_584);
}

#[test]
fn decoding() {
    let listing: Vec<u8> = (0..=16).collect();
    let community = decode_listing(&listing);
    let expected = Community {
        smallest: 0x0001_0203_0405_0607,
        union: 0x0809_0a0b_0c0d_0e0f,
    };
    assert_eq!(community, [expected]);
    let line: Vec<u8> = (0..26).collect();
    let expected = Line {
        weight: 0x0001,
        joins: 0x0203_0405,
        into: Some(0x0607_0809),
        smallest: 0x0a0b_0c0d_0e0f_1011,
        union: 0x1213_1415_1617_1819,
    };
    assert_eq!(decode_tree(&line), [expected]);
    assert_eq!(decode_tree(&[0; 26])[0].into, None);
}
