//! The worked cases of the requests, in tests/data/cases: one a line, with
//! the call, its arguments and what it must answer.

use std::fs;
use std::path::Path;

use reference::calls::{self, Expected, ExpectedMean, ExpectedNetwork, Judge, Left, Outcome};
use reference::json::{parse, Value};
use reference::network::{Link, Mean};
use reference::pages;
use reference::sheets::Refusal;
use reference::steps::Step;
use reference::strength::Measure;
use trials::calls::FamilyMean;
use trials::inserts::Inserts;
use trials::strengths::StrongListing;
use trials::Trials;

fn bytes(value: &Value) -> Vec<u8> {
    let digits = value.text();
    (0..digits.len() / 2)
        .map(|i| u8::from_str_radix(&digits[2 * i..2 * i + 2], 16).expect("hexadecimal digits"))
        .collect()
}

fn number(value: &Value) -> usize {
    value.number() as usize
}

/// A set of parts from its hexadecimal digits.
fn set(value: &Value) -> u64 {
    u64::from_str_radix(value.text(), 16).expect("hexadecimal digits")
}

fn list(value: &Value) -> Vec<u64> {
    value.list().iter().map(Value::number).collect()
}

/// Numbers of 16 bits.
fn short_list(value: &Value) -> Vec<u16> {
    let short = |&number: &u64| u16::try_from(number).expect("16 bits");
    list(value).iter().map(short).collect()
}

/// Four lengths: of the tables, or of the reader's outputs.
fn lengths(value: &Value) -> [usize; 4] {
    let lengths: Vec<usize> = value.list().iter().map(number).collect();
    lengths.try_into().expect("four lengths")
}

/// What stands in the tables afterwards.
fn left(case: &Value) -> Left {
    match case.field("tables").text() {
        "untouched" => Left::Untouched,
        "zeroed" => Left::Zero,
        other => panic!("tables are not left {other}"),
    }
}

/// The refusal of a case, or the answer where there is none.
fn answer(out: &Value) -> Result<&Value, Refusal> {
    match out.field("refused") {
        Value::Null => Ok(out.field("ok")),
        refused => Err(Refusal {
            number: number(&refused.list()[0]) as u8,
            place: number(&refused.list()[1]),
        }),
    }
}

/// What a call with one output of bytes must answer.
fn expected(out: &Value, tables: Left) -> Expected {
    match answer(out).map(|ok| bytes(ok.field("data"))) {
        Ok(output) => Expected::answered(output.len(), output, tables),
        Err(refusal) => Expected::refused(refusal, tables),
    }
}

fn expected_mean(out: &Value, tables: Left) -> ExpectedMean {
    let mean = answer(out).map(|ok| Mean {
        sum: ok.field("total").number(),
        links: number(ok.field("number")),
        quotient: ok.field("quotient").number(),
        remainder: ok.field("remainder").number(),
    });
    match mean {
        Ok(mean) => ExpectedMean::told(mean, tables),
        Err(refusal) => ExpectedMean::refused(refusal, tables),
    }
}

/// The reader's four outputs.
fn network_read(ok: &Value) -> ExpectedNetwork {
    let outcome = Outcome {
        count: number(ok.field("m")),
        parts: number(ok.field("p")),
        ..Outcome::default()
    };
    ExpectedNetwork {
        outcome,
        names: bytes(ok.field("names")),
        lower: short_list(ok.field("lower")),
        higher: short_list(ok.field("higher")),
        weights: short_list(ok.field("weights")),
    }
}

fn read_sheet(trials: &mut Trials, case: &Value) {
    let given = case.field("in");
    let outputs = lengths(given.field("lens"));
    let judge = Judge::new(&bytes(given.field("sheet")));
    let expected = match answer(case.field("out")) {
        Ok(ok) => network_read(ok),
        Err(refusal) => ExpectedNetwork {
            outcome: refusal.into(),
            ..ExpectedNetwork::default()
        },
    };
    assert_eq!(judge.read(outputs), expected, "{case:?}");
    trials.read(&judge, outputs);
}

fn name_of(trials: &mut Trials, case: &Value) {
    let given = case.field("in");
    let (sheet, part) = (bytes(given.field("sheet")), number(given.field("part")));
    let judge = Judge::new(&sheet);
    let expected = match answer(case.field("out")) {
        Ok(ok) => {
            let at = number(ok.field("at"));
            assert_eq!(sheet[at..at + 8], bytes(ok.field("name")), "{case:?}");
            Outcome::count(at)
        }
        Err(refusal) => refusal.into(),
    };
    assert_eq!(judge.name(part), expected, "{case:?}");
    trials.name(&judge, part);
}

fn write_network(trials: &mut Trials, case: &Value) {
    let given = case.field("in");
    let names = bytes(given.field("names"));
    let [lower, higher, weights] =
        ["lower", "higher", "weights"].map(|name| short_list(given.field(name)));
    let out = number(given.field("out_len"));
    let expected = expected(case.field("out"), Left::Untouched);
    let found = calls::write(&names, &lower, &higher, &weights, out);
    assert_eq!(found, expected, "{case:?}");
    trials.write(&names, [&lower, &higher, &weights], out);
}

fn mean_weight(trials: &mut Trials, case: &Value) {
    let given = case.field("in");
    let sheet = bytes(given.field("sheet"));
    let call = FamilyMean {
        k: number(given.field("k")),
        t: number(given.field("t")) as u16,
        clique: set(given.field("clique")),
        lengths: lengths(given.field("tables")),
    };
    let expected = expected_mean(case.field("out"), left(case));
    let judge = Judge::new(&sheet);
    let found = judge
        .with(call.k)
        .family_mean(call.t, call.clique, call.lengths);
    assert_eq!(found, expected, "{case:?}");
    trials.family_mean_as(&sheet, call, &expected);
}

/// What a call that writes bytes and counts them is to give.
fn written(case: &Value) -> Expected {
    match answer(case.field("out")) {
        Ok(ok) => Expected::answered(
            number(ok.field("count")),
            bytes(ok.field("data")),
            left(case),
        ),
        Err(refusal) => Expected::refused(refusal, left(case)),
    }
}

/// The threshold of a product stands as the bits of its float.
fn measure(value: &Value) -> Measure {
    match value.field("product") {
        Value::Null => Measure::Weakest(number(value.field("weakest")) as u16),
        product => Measure::Product(f64::from_bits(set(product))),
    }
}

fn listing_strength(trials: &mut Trials, case: &Value) {
    let given = case.field("in");
    let sheet = bytes(given.field("sheet"));
    let list = list(given.field("cliques"));
    let call = StrongListing {
        k: number(given.field("k")),
        measure: measure(given.field("measure")),
        list: [list[0] as usize, list[1] as usize],
        lengths: lengths(given.field("tables")),
        out: number(given.field("out_len")),
    };
    let expected = written(case);
    let judge = Judge::new(&sheet);
    let found = judge
        .with(call.k)
        .strong_listing(call.measure, call.list, call.lengths, call.out);
    assert_eq!(found, expected, "{case:?}");
    trials.strong_as(&sheet, call, &expected);
}

fn merge_tree(trials: &mut Trials, case: &Value) {
    let given = case.field("in");
    let judge = Judge::new(&bytes(given.field("sheet")));
    let judge = judge.with(number(given.field("k")));
    let (tables, out) = (
        lengths(given.field("tables")),
        number(given.field("out_len")),
    );
    assert_eq!(judge.tree(tables, out), written(case), "{case:?}");
    trials.tree(&judge, tables, out);
}

fn slots_needed(trials: &mut Trials, case: &Value) {
    let given = case.field("in");
    let sheet = bytes(given.field("sheet"));
    let (k, t) = (number(given.field("k")), number(given.field("t")) as u16);
    let expected = answer(case.field("out"))
        .map(|ok| ["cliques", "joins", "slots"].map(|name| ok.field(name).number()));
    assert_eq!(Judge::new(&sheet).with(k).needed(t), expected, "{case:?}");
    trials.needed_as(&sheet, k, t, expected);
}

fn page_rows(trials: &mut Trials, case: &Value) {
    let [sheet, lines] = ["sheet", "lines"].map(|name| bytes(case.field("in").field(name)));
    let expected = answer(case.field("out")).map(|ok| number(ok.field("rows")));
    let rows = pages::page_rows(&sheet, &lines).map(|rows| rows.len());
    assert_eq!(rows, expected, "{case:?}");
    trials.page_rows_as(&sheet, &lines, expected);
}

fn tree_page(trials: &mut Trials, case: &Value) {
    let given = case.field("in");
    let [sheet, lines] = ["sheet", "lines"].map(|name| bytes(given.field(name)));
    let length = number(given.field("out_len"));
    let mut expected = expected(case.field("out"), Left::Untouched);
    expected.outcome.count /= 73;
    assert_eq!(pages::page(&sheet, &lines, length), expected, "{case:?}");
    trials.page_as(&sheet, &lines, length, &expected);
}

/// A start on both sides, which must agree.
fn start(trials: &mut Trials, given: &Value) -> Result<Inserts, Refusal> {
    let [p, k, journal] = ["p", "k", "journal"].map(|name| number(given.field(name)));
    Inserts::try_start(trials, p, k, lengths(given.field("tables")), journal)
}

/// An insert, a taking back or the listing now, on both sides, which must
/// agree: the answer as a number, or the listing.
fn operation(trials: &mut Trials, inserts: &mut Inserts, op: &Value) -> Expected {
    let numbers: Vec<usize> = op.list()[1..].iter().map(number).collect();
    let step = match (op.list()[0].text(), &numbers[..]) {
        ("insert", &[lower, higher, weight]) => Step::Insert(lower, higher, weight as u16),
        ("back", []) => Step::TakeBack,
        ("list", &[out]) => return inserts.listing_now(trials, out),
        _ => panic!("{op:?} is no step"),
    };
    match inserts.step(trials, step) {
        Ok(()) => Expected::answered(0, Vec::new(), Left::Untouched),
        Err(refusal) => Expected::refused(refusal, Left::Untouched),
    }
}

/// What an operation must answer: a refusal's number, 0, or a listing.
fn answered(told: &Value) -> Expected {
    match told {
        Value::Number(0) => Expected::answered(0, Vec::new(), Left::Untouched),
        Value::Number(number) => {
            let number = *number as u8;
            Expected::refused(Refusal { number, place: 0 }, Left::Untouched)
        }
        listing => {
            let (count, bytes) = (number(listing.field("count")), bytes(listing.field("data")));
            Expected::answered(count, bytes, Left::Untouched)
        }
    }
}

/// A list of steps from a start: every answer and the used slots after it,
/// then the links that remain, the last weight and the journal.
fn steps(trials: &mut Trials, case: &Value) {
    let (given, out) = (case.field("in"), case.field("out"));
    let started = start(trials, given);
    let told = number(out.field("start")) as u8;
    assert_eq!(started.as_ref().err().map_or(0, |r| r.number), told);
    let Ok(mut inserts) = started else { return };
    let (answers, used) = (out.field("answers").list(), out.field("used").list());
    let ops = given.field("ops").list();
    assert_eq!([answers.len(), used.len()], [ops.len(); 2], "{case:?}");
    for ((op, told), used) in ops.iter().zip(answers).zip(used) {
        let found = operation(trials, &mut inserts, op);
        assert_eq!(found, answered(told), "{op:?} in {case:?}");
        assert_eq!(inserts.state.used, number(used), "{op:?} in {case:?}");
    }
    remains(&inserts, out);
}

/// What remains at the end of a list, by the case and by both sides.
fn remains(inserts: &Inserts, out: &Value) {
    let numbers = |link: &Value| <[u64; 3]>::try_from(list(link)).expect("three numbers");
    let told: Vec<[u64; 3]> = out.field("links").list().iter().map(numbers).collect();
    let numbers = |link: &Link| [link.lower.into(), link.higher.into(), link.weight.into()];
    let links: Vec<[u64; 3]> = inserts.steps.links().iter().map(numbers).collect();
    assert_eq!((links, inserts.state.links), (told.clone(), told.len()));
    let last = match out.field("last_weight") {
        Value::Null => 65_535,
        weight => number(weight),
    };
    assert_eq!(inserts.state.last, last);
    let mut journal = list(out.field("journal"));
    journal.resize(2_016, 0);
    assert_eq!(inserts.space.journal.get(), journal);
}

/// State, table and journal lengths of a list with the case's numbers in
/// their place.
fn patch(trials: &mut Trials, inserts: &mut Inserts, patch: &Value) {
    let Value::Record(fields) = patch else {
        panic!("{patch:?} is no patch")
    };
    let mut tables = inserts.space.tables.lengths();
    let mut journal = inserts.space.journal.get().len();
    for (name, value) in fields {
        match name.as_str() {
            "p" => inserts.state.p = number(value),
            "used" => inserts.state.used = number(value),
            "tables" => tables = lengths(value),
            "journal" => journal = number(value),
            other => panic!("no trial for a patch of {other}"),
        }
    }
    inserts.space = inserts.space.resized(&mut trials.random, tables, journal);
}

/// The refusal of a start, or of a step after a list whose state, tables or
/// journal were spoiled.
fn state_check(trials: &mut Trials, case: &Value) {
    let (given, out) = (case.field("in"), case.field("out"));
    let told = answer(out).err().map_or(Outcome::default(), Outcome::from);
    let started = start(trials, given);
    if given.field("start_only") == &Value::Truth(true) {
        let found = started.err().map_or(Outcome::default(), Outcome::from);
        return assert_eq!(found, told, "{case:?}");
    }
    let mut inserts = started.expect("an accepted start");
    for op in given.field("ops").list() {
        let found = operation(trials, &mut inserts, op).outcome;
        assert_eq!(found, Outcome::default(), "{op:?} in {case:?}");
    }
    patch(trials, &mut inserts, given.field("patch"));
    let found = operation(trials, &mut inserts, given.field("then")).outcome;
    assert_eq!(
        (found.number, found.place),
        (told.number, told.place),
        "{case:?}"
    );
}

/// The library and the reference on one case.
fn tried(trials: &mut Trials, case: &Value) {
    let (given, out) = (case.field("in"), case.field("out"));
    match case.field("call").text() {
        "sheet_from_dump" => {
            let (dump, length) = (bytes(given.field("dump")), number(given.field("out_len")));
            let expected = expected(out, Left::Untouched);
            assert_eq!(calls::dump_sheet(&dump, length), expected, "{case:?}");
            trials.dump_sheet_as(&dump, length, &expected);
        }
        "read_sheet" => read_sheet(trials, case),
        "name_of" => name_of(trials, case),
        "write_network" => write_network(trials, case),
        "mean_weight" => mean_weight(trials, case),
        "listing_strength" => listing_strength(trials, case),
        "merge_tree" => merge_tree(trials, case),
        "slots_needed" => slots_needed(trials, case),
        "fullest_sheet" => {
            let [p, k, length] = ["p", "k", "out_len"].map(|name| number(given.field(name)));
            let expected = expected(out, Left::Untouched);
            assert_eq!(calls::fullest_sheet(p, k, length), expected, "{case:?}");
            trials.fullest_sheet_as(p, k, length, &expected);
        }
        "page_rows" => page_rows(trials, case),
        "tree_page" => tree_page(trials, case),
        "steps" => steps(trials, case),
        "state_check" => state_check(trials, case),
        call => panic!("no trial for the call {call}"),
    }
}

#[test]
fn worked_cases() {
    let trials = &mut Trials::new("worked cases");
    let folder = Path::new(env!("CARGO_MANIFEST_DIR")).join("../../tests/data/cases");
    let mut files: Vec<_> = fs::read_dir(folder)
        .expect("the folder of cases")
        .map(|entry| entry.expect("a file").path())
        .collect();
    files.sort();
    for file in files {
        let text = fs::read_to_string(&file).expect("a file of cases");
        for line in text.lines() {
            trials.case();
            tried(trials, &parse(line));
        }
    }
    assert!(trials.cases() > 0, "no case was found");
}
