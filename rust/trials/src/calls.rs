//! Each call made once with guarded space and compared with the reference.

use families::lent;
use reference::calls::{self, Expected, ExpectedMean, Judge, JudgeK, Left, Outcome, Run};
use reference::pages;
use reference::sheets::Refusal;

use crate::guarded::{Guarded, GuardedTables};
use crate::trials::{hex, Trials};

/// The library's name for a run.
pub fn run_of(run: Run) -> families::Run {
    match run {
        Run::Sequential => families::Run::Sequential,
        Run::Maximal => families::Run::Maximal,
    }
}

/// The arguments of a listing besides its sheet, with the lengths of the
/// tables and the output.
#[derive(Clone, Copy, Debug)]
pub struct Listing {
    pub run: Run,
    pub k: usize,
    pub t: u16,
    pub lengths: [usize; 4],
    pub out: usize,
}

/// The arguments of a family's mean link weight besides its sheet, with the
/// lengths of the tables.
#[derive(Clone, Copy, Debug)]
pub struct FamilyMean {
    pub k: usize,
    pub t: u16,
    pub clique: u64,
    pub lengths: [usize; 4],
}

/// What is wrong with an outcome, unless it is as expected.
pub fn check_outcome(found: lent::Outcome, expected: Outcome) -> Result<(), String> {
    let found = Outcome {
        number: found.number,
        place: found.place,
        count: found.count,
        parts: found.parts,
    };
    match found == expected {
        true => Ok(()),
        false => Err(format!("expected {expected:?}\nfound    {found:?}")),
    }
}

/// What is wrong with a call on a sheet, in its answer, output or tables.
pub(crate) fn check_call(
    found: lent::Outcome,
    expected: &Expected,
    out: &Guarded<u8>,
    tables: &GuardedTables,
) -> Result<(), String> {
    check_outcome(found, expected.outcome)?;
    out.check("output", &expected.output)?;
    check_tables(tables, expected.tables)
}

fn check_tables(tables: &GuardedTables, left: Left) -> Result<(), String> {
    match left {
        Left::Untouched => tables.check_untouched(),
        Left::Zero => tables.check_zero(),
    }
}

/// What is wrong with a mean link weight, in its numbers or tables.
fn check_mean(
    found: lent::Mean,
    expected: &ExpectedMean,
    tables: &GuardedTables,
) -> Result<(), String> {
    check_outcome(found.outcome, expected.outcome)?;
    let numbers = [found.sum, found.quotient, found.remainder];
    if numbers != [expected.sum, expected.quotient, expected.remainder] {
        return Err(format!("expected {expected:?}\nfound    {found:?}"));
    }
    check_tables(tables, expected.tables)
}

impl Trials {
    /// The reader, with outputs of these lengths.
    pub fn read(&mut self, judge: &Judge, outputs: [usize; 4]) {
        let sheet = Guarded::holding(&mut self.random, judge.sheet());
        let mut names = Guarded::junk(&mut self.random, outputs[0]);
        let [mut lower, mut higher, mut weights] =
            [1, 2, 3].map(|i| Guarded::junk(&mut self.random, outputs[i]));
        let found = lent::read(
            sheet.get(),
            names.get_mut(),
            lower.get_mut(),
            higher.get_mut(),
            weights.get_mut(),
        );
        let expected = judge.read(outputs);
        let verdict = check_outcome(found, expected.outcome)
            .and_then(|()| names.check("names", &expected.names))
            .and_then(|()| lower.check("lower parts", &expected.lower))
            .and_then(|()| higher.check("higher parts", &expected.higher))
            .and_then(|()| weights.check("weights", &expected.weights))
            .and_then(|()| sheet.check("sheet", &[]));
        self.expect(verdict, || {
            format!("read, outputs {outputs:?}, sheet {}", hex(judge.sheet()))
        });
    }

    /// The writer, with an output of so many bytes.
    pub fn write(&mut self, names: &[u8], lists: [&[u16]; 3], out: usize) {
        let names = Guarded::holding(&mut self.random, names);
        let [lower, higher, weights] = lists.map(|list| Guarded::holding(&mut self.random, list));
        let mut output = Guarded::junk(&mut self.random, out);
        let found = lent::write(
            names.get(),
            lower.get(),
            higher.get(),
            weights.get(),
            output.get_mut(),
        );
        let expected = calls::write(names.get(), lists[0], lists[1], lists[2], out);
        let verdict = check_outcome(found, expected.outcome)
            .and_then(|()| output.check("output", &expected.output))
            .and_then(|()| names.check("names", &[]))
            .and_then(|()| lower.check("lower parts", &[]))
            .and_then(|()| higher.check("higher parts", &[]))
            .and_then(|()| weights.check("weights", &[]));
        self.expect(verdict, || {
            let names = hex(names.get());
            let [lower, higher, weights] = lists;
            format!(
                "write, output {out}, names {names}\n\
                 lower {lower:04x?}\nhigher {higher:04x?}\nweights {weights:04x?}"
            )
        });
    }

    /// The sheet of a dump, with an output of so many bytes.
    pub fn dump_sheet(&mut self, dump: &[u8], out: usize) {
        self.dump_sheet_as(dump, out, &calls::dump_sheet(dump, out));
    }

    /// The sheet of a dump, whose answer is known.
    pub fn dump_sheet_as(&mut self, dump: &[u8], out: usize, expected: &Expected) {
        let dump = Guarded::holding(&mut self.random, dump);
        let mut output = Guarded::junk(&mut self.random, out);
        let found = lent::dump_sheet(dump.get(), output.get_mut());
        let verdict = check_outcome(found, expected.outcome)
            .and_then(|()| output.check("output", &expected.output))
            .and_then(|()| dump.check("dump", &[]));
        self.expect(verdict, || {
            format!("dump sheet, output {out}, dump {}", hex(dump.get()))
        });
    }

    pub fn name(&mut self, judge: &Judge, part: usize) {
        let sheet = Guarded::holding(&mut self.random, judge.sheet());
        let found = lent::name(sheet.get(), part);
        let verdict =
            check_outcome(found, judge.name(part)).and_then(|()| sheet.check("sheet", &[]));
        self.expect(verdict, || {
            format!("name of part {part}, sheet {}", hex(judge.sheet()))
        });
    }

    pub fn slot_bound(&mut self, p: usize, k: usize) {
        let verdict = check_outcome(lent::slot_bound(p, k), calls::slot_bound(p, k));
        self.expect(verdict, || format!("slot bound of p {p}, k {k}"));
    }

    pub fn subset_count(&mut self, n: usize, r: usize) {
        let expected = Outcome::count(calls::subset_count(n, r));
        let verdict = check_outcome(lent::subset_count(n, r), expected);
        self.expect(verdict, || format!("subset count of n {n}, r {r}"));
    }

    /// A listing, with tables and an output of these lengths.
    pub fn listing(&mut self, judge: &JudgeK, run: Run, t: u16, lengths: [usize; 4], out: usize) {
        let call = Listing {
            run,
            k: judge.k(),
            t,
            lengths,
            out,
        };
        let expected = judge.listing(run, t, lengths, out);
        self.listing_as(judge.judge().sheet(), call, &expected);
    }

    /// A listing whose answer is known.
    pub fn listing_as(&mut self, sheet: &[u8], call: Listing, expected: &Expected) {
        let sheet = Guarded::holding(&mut self.random, sheet);
        let mut tables = GuardedTables::junk(&mut self.random, call.lengths);
        let mut output = Guarded::junk(&mut self.random, call.out);
        let found = lent::listing(
            run_of(call.run),
            sheet.get(),
            call.k,
            call.t,
            tables.lend_mut(),
            output.get_mut(),
        );
        let verdict =
            check_call(found, expected, &output, &tables).and_then(|()| sheet.check("sheet", &[]));
        self.expect(verdict, || format!("{call:?}, sheet {}", hex(sheet.get())));
    }

    /// A meeting weight, with tables of these lengths.
    pub fn meeting(&mut self, judge: &JudgeK, run: Run, a: u64, b: u64, lengths: [usize; 4]) {
        let sheet = Guarded::holding(&mut self.random, judge.judge().sheet());
        let mut tables = GuardedTables::junk(&mut self.random, lengths);
        let k = judge.k();
        let found = lent::meeting(run_of(run), sheet.get(), k, a, b, tables.lend_mut());
        let expected = judge.meeting(run, a, b, lengths);
        let none = Guarded::junk(&mut self.random, 0);
        let verdict =
            check_call(found, &expected, &none, &tables).and_then(|()| sheet.check("sheet", &[]));
        self.expect(verdict, || {
            let sheet = hex(sheet.get());
            format!(
                "{run:?} meeting, k {k}, sets {a:#x} and {b:#x}, tables {lengths:?}, sheet {sheet}"
            )
        });
    }

    /// A family's mean link weight, with tables of these lengths.
    pub fn family_mean(&mut self, judge: &JudgeK, t: u16, clique: u64, lengths: [usize; 4]) {
        let call = FamilyMean {
            k: judge.k(),
            t,
            clique,
            lengths,
        };
        let expected = judge.family_mean(t, clique, lengths);
        self.family_mean_as(judge.judge().sheet(), call, &expected);
    }

    /// A family's mean link weight, whose answer is known.
    pub fn family_mean_as(&mut self, sheet: &[u8], call: FamilyMean, expected: &ExpectedMean) {
        let sheet = Guarded::holding(&mut self.random, sheet);
        let mut tables = GuardedTables::junk(&mut self.random, call.lengths);
        let found = lent::family_mean(sheet.get(), call.k, call.t, call.clique, tables.lend_mut());
        let verdict = check_mean(found, expected, &tables).and_then(|()| sheet.check("sheet", &[]));
        self.expect(verdict, || format!("{call:?}, sheet {}", hex(sheet.get())));
    }

    /// What the sequential run needs at t.
    pub fn needed(&mut self, judge: &JudgeK, t: u16) {
        self.needed_as(judge.judge().sheet(), judge.k(), t, judge.needed(t));
    }

    /// What the sequential run needs, where that is known.
    pub fn needed_as(
        &mut self,
        sheet: &[u8],
        k: usize,
        t: u16,
        expected: Result<[u64; 3], Refusal>,
    ) {
        let sheet = Guarded::holding(&mut self.random, sheet);
        let found = lent::needed(sheet.get(), k, t);
        let numbers = [found.cliques, found.joins, found.slots];
        let (outcome, told) = match expected {
            Ok(told) => (Outcome::default(), told),
            Err(refusal) => (refusal.into(), [0; 3]),
        };
        let verdict = check_outcome(found.outcome, outcome)
            .and_then(|()| match numbers == told {
                true => Ok(()),
                false => Err(format!("expected {told:?}\nfound    {numbers:?}")),
            })
            .and_then(|()| sheet.check("sheet", &[]));
        self.expect(verdict, || {
            format!("needed, k {k}, t {t}, sheet {}", hex(sheet.get()))
        });
    }

    /// The fullest sheet, with an output of this length.
    pub fn fullest_sheet(&mut self, p: usize, k: usize, out: usize) {
        self.fullest_sheet_as(p, k, out, &calls::fullest_sheet(p, k, out));
    }

    /// The fullest sheet, whose bytes are known.
    pub fn fullest_sheet_as(&mut self, p: usize, k: usize, out: usize, expected: &Expected) {
        let mut output = Guarded::junk(&mut self.random, out);
        let found = lent::fullest_sheet(p, k, output.get_mut());
        let verdict = check_outcome(found, expected.outcome)
            .and_then(|()| output.check("output", &expected.output));
        self.expect(verdict, || {
            format!("fullest sheet, p {p}, k {k}, output {out}")
        });
    }

    /// The rows of a page counted, and the page with an output of this
    /// length.
    pub fn page(&mut self, sheet: &[u8], lines: &[u8], out: usize) {
        self.page_rows_as(
            sheet,
            lines,
            pages::page_rows(sheet, lines).map(|rows| rows.len()),
        );
        self.page_as(sheet, lines, out, &pages::page(sheet, lines, out));
    }

    /// The rows of a page, whose number is known.
    pub fn page_rows_as(&mut self, sheet: &[u8], lines: &[u8], expected: Result<usize, Refusal>) {
        let sheet = Guarded::holding(&mut self.random, sheet);
        let lines = Guarded::holding(&mut self.random, lines);
        let found = lent::page_rows(sheet.get(), lines.get());
        let outcome = match expected {
            Ok(rows) => Outcome::count(rows),
            Err(refusal) => refusal.into(),
        };
        let verdict = check_outcome(found, outcome)
            .and_then(|()| sheet.check("sheet", &[]))
            .and_then(|()| lines.check("lines", &[]));
        self.expect(verdict, || {
            format!(
                "page rows, sheet {}, lines {}",
                hex(sheet.get()),
                hex(lines.get())
            )
        });
    }

    /// A page, whose bytes are known.
    pub fn page_as(&mut self, sheet: &[u8], lines: &[u8], out: usize, expected: &Expected) {
        let sheet = Guarded::holding(&mut self.random, sheet);
        let lines = Guarded::holding(&mut self.random, lines);
        let mut output = Guarded::junk(&mut self.random, out);
        let found = lent::page(sheet.get(), lines.get(), output.get_mut());
        let verdict = check_outcome(found, expected.outcome)
            .and_then(|()| output.check("output", &expected.output))
            .and_then(|()| sheet.check("sheet", &[]))
            .and_then(|()| lines.check("lines", &[]));
        self.expect(verdict, || {
            let (sheet, lines) = (hex(sheet.get()), hex(lines.get()));
            format!("page, output {out}, sheet {sheet}, lines {lines}")
        });
    }

    /// A merge tree, with tables and an output of these lengths.
    pub fn tree(&mut self, judge: &JudgeK, lengths: [usize; 4], out: usize) {
        let sheet = Guarded::holding(&mut self.random, judge.judge().sheet());
        let mut tables = GuardedTables::junk(&mut self.random, lengths);
        let mut output = Guarded::junk(&mut self.random, out);
        let k = judge.k();
        let found = lent::tree(sheet.get(), k, tables.lend_mut(), output.get_mut());
        let expected = judge.tree(lengths, out);
        let verdict =
            check_call(found, &expected, &output, &tables).and_then(|()| sheet.check("sheet", &[]));
        self.expect(verdict, || {
            let sheet = hex(sheet.get());
            format!("tree, k {k}, tables {lengths:?}, output {out}, sheet {sheet}")
        });
    }
}
