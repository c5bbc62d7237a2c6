//! Tree lines on the page: trees that the library made of random sheets,
//! random lines with every number of parts, damaged and random bytes, every
//! length, every part that a sheet lacks, and the most lines there are.

use families::lent;
use families::Tables;
use reference::fast::all_parts;
use reference::network::{tree_bytes, Line, LINE};
use reference::pages::{page, page_rows};
use reference::random::Random;
use reference::sheets::sheet_bytes;
use trials::arguments::around;
use trials::sheets::{complete, p8, random_network};
use trials::told::Told;
use trials::Trials;

const CASES: usize = 3_000;

/// Bytes of a row.
const ROW: usize = 73;

/// The most rows of a line: 64 names, six to a row.
const MOST_ROWS: usize = 11;

fn line_of(union: u64) -> Line {
    Line {
        weight: 7,
        joins: 0,
        into: 0,
        smallest: 0,
        union,
    }
}

/// A line with a union of parts below p: few parts, many, none, one, all.
fn random_line(random: &mut Random, p: usize) -> Line {
    let union = match random.below(6) {
        0 => 0,
        1 => 1 << random.below(p),
        2 => u64::MAX,
        3 => random.number(),
        _ => random.number() & random.number() & random.number(),
    };
    Line {
        weight: random.number() as u16,
        joins: random.number() as u32,
        into: random.number() as u32,
        smallest: random.number(),
        union: union & all_parts(p),
    }
}

/// So many lines, with unions of parts below p.
fn random_lines(random: &mut Random, p: usize, count: usize) -> Vec<u8> {
    let lines: Vec<Line> = (0..count).map(|_| random_line(random, p)).collect();
    tree_bytes(&lines)
}

/// Both calls, with an output of about the bytes that the page has; of
/// refused lines, of those that as many lines can have. Gives the number
/// that the one that writes tells.
fn tried(trials: &mut Trials, sheet: &[u8], lines: &[u8]) -> u8 {
    let most = MOST_ROWS * (lines.len() / LINE + 1);
    let rows = page_rows(sheet, lines).map_or(most, |rows| rows.len());
    let out = around(&mut trials.random, ROW * rows);
    trials.page(sheet, lines, out);
    page(sheet, lines, out).outcome.number
}

#[test]
fn random_pages() {
    let trials = &mut Trials::new("random pages");
    let mut told = Told::default();
    for case in 0..CASES {
        trials.case();
        let p = 1 + case % 64;
        let sheet = sheet_bytes(&random_network(&mut trials.random, p));
        let count = trials.random.below(12);
        let lines = random_lines(&mut trials.random, p, count);
        told.add(tried(trials, &sheet, &lines));
        if case % 2 == 0 {
            let short = trials.random.below(lines.len() + 1);
            told.add(tried(trials, &sheet, &lines[..short]));
        }
    }
    told.each_above(300, &[0, 16, 24]);
}

/// What the library's own tree wrote, on the page of the same sheet: never
/// 24.
#[test]
fn trees_made() {
    let trials = &mut Trials::new("pages of trees");
    let mut lined = 0;
    for case in 0..CASES / 3 {
        trials.case();
        let p = 3 + case % 8;
        let sheet = sheet_bytes(&random_network(&mut trials.random, p));
        let mut lines = vec![0; LINE * 1_000];
        let mut tables = Tables::new(1_000);
        let told = lent::tree(&sheet, 2 + case % 3, tables.as_mut(), &mut lines);
        let n = told.accepted().expect("a tree").count;
        lined += usize::from(n > 0);
        let number = tried(trials, &sheet, &lines[..LINE * n]);
        assert_ne!(number, 24, "{n} lines");
    }
    assert!(lined > CASES / 6, "{lined} trees have a line");
}

/// A bit of a line or a byte of the sheet is another one, so that unions have
/// parts that the sheet lacks, and checks of both kinds meet.
#[test]
fn damaged_pages() {
    let trials = &mut Trials::new("damaged pages");
    let mut told = Told::default();
    for case in 0..CASES {
        trials.case();
        let p = 1 + case % 64;
        let mut sheet = sheet_bytes(&random_network(&mut trials.random, p));
        let count = trials.random.within(1, 5);
        let mut lines = random_lines(&mut trials.random, p, count);
        let at = trials.random.below(lines.len());
        lines[at] ^= 1 << trials.random.below(8);
        told.add(tried(trials, &sheet, &lines));
        match case % 3 {
            0 if p > 1 => sheet.copy_within(8..16, 8 * p),
            _ => {
                let at = trials.random.below(sheet.len());
                sheet[at] ^= 1 << trials.random.below(8);
            }
        }
        told.add(tried(trials, &sheet, &lines));
    }
    told.each_above(300, &[0, 16, 21, 24]);
}

#[test]
fn random_bytes() {
    let trials = &mut Trials::new("random bytes for lines");
    for case in 0..CASES {
        trials.case();
        let p = random_p(&mut trials.random);
        let sheet = sheet_bytes(&random_network(&mut trials.random, p));
        let length = match case % 2 {
            0 => LINE * trials.random.below(6),
            _ => trials.random.below(6 * LINE),
        };
        let lines: Vec<u8> = (0..length).map(|_| trials.random.number() as u8).collect();
        tried(trials, &sheet, &lines);
    }
}

/// Mostly 64 parts: any union is known then.
fn random_p(random: &mut Random) -> usize {
    match random.chance(60) {
        true => 64,
        false => random.within(1, 64),
    }
}

/// Every number of names a line can have, on either side of six and its
/// multiples, with the lowest and with the highest parts.
#[test]
fn every_number_of_names() {
    let trials = &mut Trials::new("names of a line");
    let sheet = sheet_bytes(&complete(64));
    for names in 0..=64u32 {
        trials.case();
        let low = u64::MAX.checked_shr(64 - names).unwrap_or(0);
        let high = u64::MAX.checked_shl(64 - names).unwrap_or(0);
        tried(trials, &sheet, &tree_bytes(&[low, high].map(line_of)));
    }
}

/// Every part that a sheet lacks, in each of three lines.
#[test]
fn every_part_lacking() {
    let trials = &mut Trials::new("parts lacking");
    for p in [1, 2, 7, 8, 9, 31, 32, 33, 63] {
        let sheet = sheet_bytes(&complete(p));
        for part in p..64 {
            for place in 0..3 {
                trials.case();
                let mut lines = [line_of(1), line_of(0), line_of(all_parts(p))];
                lines[place].union |= 1 << part;
                let number = tried(trials, &sheet, &tree_bytes(&lines));
                assert_eq!(number, 24, "part {part} of {p}");
            }
        }
    }
}

/// Every length up to three lines, and every length of the output.
#[test]
fn every_length() {
    let trials = &mut Trials::new("lengths of lines and output");
    let sheet = sheet_bytes(&complete(9));
    let lines = tree_bytes(&[line_of(0), line_of(all_parts(9)), line_of(1 << 8)]);
    for length in 0..=3 * LINE {
        trials.case();
        let number = tried(trials, &sheet, &lines[..length]);
        let whole = length % LINE == 0;
        assert_eq!(number == 24, !whole, "{length} bytes");
    }
    let rows = page_rows(&sheet, &lines).expect("a page").len();
    assert_eq!(rows, 4);
    for out in 0..=ROW * rows + 1 {
        trials.case();
        trials.page(&sheet, &lines, out);
        let number = page(&sheet, &lines, out).outcome.number;
        assert_eq!(number, if out < ROW * rows { 16 } else { 0 });
    }
}

/// 999,999 lines have a page, and 1,000,000 have none; numbers of every width.
#[test]
fn most_lines() {
    let trials = &mut Trials::new("most lines");
    let sheet = sheet_bytes(&p8());
    let lines = vec![0; LINE * 1_000_000];
    let few = &lines[..LINE * 999_999];
    trials.case();
    trials.page_rows_as(&sheet, few, Ok(999_999));
    trials.page(&sheet, few, ROW * 999_999);
    trials.page(&sheet, &lines, ROW * 1_000_000);
}

/// 999,999 lines of all 64 parts: the most rows there are, counted, and
/// refused where the output is shorter.
#[test]
fn most_rows() {
    let trials = &mut Trials::new("most rows");
    let sheet = sheet_bytes(&complete(64));
    let lines = tree_bytes(&[line_of(u64::MAX)]).repeat(999_999);
    trials.case();
    trials.page_rows_as(&sheet, &lines, Ok(10_999_989));
    let mut out = vec![9; ROW * 1_000];
    let found = lent::page(&sheet, &lines, &mut out);
    assert_eq!((found.number, found.count), (16, 0));
    assert!(out.iter().all(|&byte| byte == 9));
}
