//! A listing by clique strength, made once with guarded space and compared
//! with the reference.

use families::{lent, CliquesMut};
use reference::calls::{Expected, JudgeK, Left};
use reference::random::Random;
use reference::strength::Measure;

use crate::arguments::around;
use crate::calls::check_call;
use crate::guarded::{Guarded, GuardedTables};
use crate::trials::{hex, Trials};

/// The arguments of a strong listing besides its sheet, with the lengths of
/// the clique list (sets and products), the tables and the output.
#[derive(Clone, Copy, Debug)]
pub struct StrongListing {
    pub k: usize,
    pub measure: Measure,
    pub list: [usize; 2],
    pub lengths: [usize; 4],
    pub out: usize,
}

/// The library's name for a measure.
pub fn measure_of(measure: Measure) -> families::Measure {
    match measure {
        Measure::Weakest(t) => families::Measure::Weakest(t),
        Measure::Product(t) => families::Measure::Product(t),
    }
}

/// The clique list, guarded. Products are held as their bits, so that a NaN
/// equals itself and the sign of a zero counts.
struct GuardedCliques {
    sets: Guarded<u64>,
    products: Guarded<u64>,
}

impl GuardedCliques {
    fn junk(random: &mut Random, [sets, products]: [usize; 2]) -> GuardedCliques {
        GuardedCliques {
            sets: Guarded::junk(random, sets),
            products: Guarded::junk(random, products),
        }
    }

    fn lend_mut(&mut self) -> CliquesMut<'_> {
        CliquesMut {
            sets: self.sets.get_mut(),
            products: floats(self.products.get_mut()),
        }
    }

    fn check(&self, left: Left) -> Result<(), String> {
        match left {
            Left::Untouched => {
                self.sets.check("cliques", &[])?;
                self.products.check("products", &[])
            }
            Left::Zero => {
                self.sets.check_zero("cliques")?;
                self.products.check_zero("products")
            }
        }
    }
}

/// Cells as the floats of their bits.
fn floats(cells: &mut [u64]) -> &mut [f64] {
    // Both have one size and one alignment, and all bits are a float.
    unsafe { std::slice::from_raw_parts_mut(cells.as_mut_ptr().cast(), cells.len()) }
}

impl Trials {
    /// A strong listing, with list, tables and output of these lengths.
    pub fn strong(
        &mut self,
        judge: &JudgeK,
        measure: Measure,
        list: [usize; 2],
        lengths: [usize; 4],
        out: usize,
    ) {
        let call = StrongListing {
            k: judge.k(),
            measure,
            list,
            lengths,
            out,
        };
        let expected = judge.strong_listing(measure, list, lengths, out);
        self.strong_as(judge.judge().sheet(), call, &expected);
    }

    /// A strong listing with about as much space as it needs.
    pub fn strong_around(&mut self, judge: &JudgeK, measure: Measure) {
        let (cliques, slots, communities) = judge.facts().map_or((3, 5, 1), |facts| {
            let classes = facts.strong(measure);
            let communities = classes.listing().len();
            (facts.cliques().len(), classes.slot_count(), communities)
        });
        let list = around(&mut self.random, cliques);
        let slots = around(&mut self.random, slots);
        let out = around(&mut self.random, 16 * communities);
        self.strong(judge, measure, [list; 2], [slots; 4], out);
    }

    /// A strong listing whose answer is known.
    pub fn strong_as(&mut self, sheet: &[u8], call: StrongListing, expected: &Expected) {
        let sheet = Guarded::holding(&mut self.random, sheet);
        let mut cliques = GuardedCliques::junk(&mut self.random, call.list);
        let mut tables = GuardedTables::junk(&mut self.random, call.lengths);
        let mut output = Guarded::junk(&mut self.random, call.out);
        let found = lent::strong_listing(
            sheet.get(),
            call.k,
            measure_of(call.measure),
            cliques.lend_mut(),
            tables.lend_mut(),
            output.get_mut(),
        );
        let verdict = check_call(found, expected, &output, &tables)
            .and_then(|()| cliques.check(expected.tables))
            .and_then(|()| sheet.check("sheet", &[]));
        self.expect(verdict, || format!("{call:?}, sheet {}", hex(sheet.get())));
    }
}
