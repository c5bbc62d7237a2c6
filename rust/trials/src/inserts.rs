//! A list of inserts and takings back, run beside the reference's.

use families::lent::{self, Started, State};
use reference::calls::{Expected, Left};
use reference::sheets::Refusal;
use reference::steps::{check_state, check_step, Shown, Step, Steps, JOURNAL_ENTRIES};

use crate::arguments::around;
use crate::calls::check_outcome;
use crate::guarded::{Guarded, StepSpace};
use crate::trials::Trials;

/// The state that a refused start gives.
pub const ZERO_STATE: State = State {
    p: 0,
    k: 0,
    used: 0,
    last: 0,
    links: 0,
    rows: [0; 64],
};

/// State, tables and journal as the reference reads them.
pub fn shown<'a>(state: &'a State, space: &'a StepSpace) -> Shown<'a> {
    let tables = &space.tables;
    Shown {
        p: state.p,
        k: state.k,
        used: state.used,
        last: state.last,
        links: state.links,
        rows: &state.rows,
        sets: tables.sets.get(),
        entries: tables.entries.get(),
        smallest: tables.smallest.get(),
        unions: tables.unions.get(),
        journal: space.journal.get(),
    }
}

fn accepted() -> reference::calls::Outcome {
    reference::calls::Outcome::default()
}

/// A step by the library.
pub fn make_step(state: State, space: &mut StepSpace, step: Step) -> Started {
    let (tables, journal) = (space.tables.lend_mut(), space.journal.get_mut());
    match step {
        Step::Insert(lower, higher, weight) => {
            lent::insert(state, tables, journal, lower, higher, weight)
        }
        Step::TakeBack => lent::take_back(state, tables, journal),
    }
}

/// What is wrong with a refused step, unless it left this state, the tables
/// and the journal.
pub fn check_refused(
    found: Started,
    refusal: Refusal,
    state: State,
    space: &StepSpace,
) -> Result<(), String> {
    check_outcome(found.outcome, refusal.into())?;
    if found.state != state {
        let found = found.state;
        return Err(format!("state: expected {state:x?}\nfound {found:x?}"));
    }
    space.check_untouched()
}

/// A list of steps in progress: the library's state, tables and journal, and
/// the links that remain by the reference.
#[derive(Clone)]
pub struct Inserts {
    p: usize,
    k: usize,
    pub steps: Steps,
    pub state: State,
    pub space: StepSpace,
    tried: Vec<Step>,
}

impl Inserts {
    /// An accepted start with so many slots.
    pub fn start(trials: &mut Trials, p: usize, k: usize, slots: usize) -> Inserts {
        Inserts::try_start(trials, p, k, [slots; 4], JOURNAL_ENTRIES).expect("an accepted start")
    }

    /// Starts a list with tables and a journal of random content.
    pub fn try_start(
        trials: &mut Trials,
        p: usize,
        k: usize,
        lengths: [usize; 4],
        journal: usize,
    ) -> Result<Inserts, Refusal> {
        let mut space = StepSpace::junk(&mut trials.random, lengths, journal);
        let started = lent::start(p, k, space.tables.lend_mut(), space.journal.get_mut());
        let mut steps = Steps::start(p, k, lengths, journal);
        let verdict = match &mut steps {
            Err(refusal) => check_refused(started, *refusal, ZERO_STATE, &space),
            Ok(steps) => check_outcome(started.outcome, accepted())
                .and_then(|()| space.check_zero())
                .and_then(|()| steps.check_shown(shown(&started.state, &space))),
        };
        trials.expect(verdict, || {
            format!("start, p {p}, k {k}, tables {lengths:?}, journal {journal}")
        });
        space.settle();
        Ok(Inserts {
            p,
            k,
            steps: steps?,
            state: started.state,
            space,
            tried: Vec::new(),
        })
    }

    /// Makes a step on both sides, compares the listing now, and gives the
    /// reference's answer.
    pub fn step(&mut self, trials: &mut Trials, step: Step) -> Result<(), Refusal> {
        self.tried.push(step);
        let before = self.state;
        let answer =
            check_step(shown(&before, &self.space), step).and_then(|()| self.steps.step(step));
        let after = make_step(before, &mut self.space, step);
        let verdict = match answer {
            Err(refusal) => check_refused(after, refusal, before, &self.space),
            Ok(()) => check_outcome(after.outcome, accepted())
                .and_then(|()| self.space.check_guards())
                .and_then(|()| self.steps.check_shown(shown(&after.state, &self.space))),
        };
        trials.expect(verdict, || self.input("the last step"));
        self.state = after.state;
        self.space.settle();
        let mut out = 16 * self.steps.listing().len();
        if trials.random.chance(10) {
            out = around(&mut trials.random, out);
        }
        self.listing_now(trials, out);
        answer
    }

    /// The listing now, into an output of so many bytes; gives what was
    /// expected of it.
    pub fn listing_now(&self, trials: &mut Trials, out: usize) -> Expected {
        let mut output = Guarded::junk(&mut trials.random, out);
        let found = lent::listing_now(self.state, self.space.tables.lend(), output.get_mut());
        let expected = match check_state(shown(&self.state, &self.space)) {
            Err(refusal) => Expected::refused(refusal, Left::Untouched),
            Ok(()) => self.steps.listing_now(out),
        };
        let verdict = check_outcome(found, expected.outcome)
            .and_then(|()| output.check("output", &expected.output))
            .and_then(|()| self.space.check_untouched());
        trials.expect(verdict, || {
            self.input(&format!("listing now, output {out}"))
        });
        expected
    }

    fn input(&self, call: &str) -> String {
        let Inserts { p, k, tried, .. } = self;
        let (lengths, journal) = (self.space.tables.lengths(), self.space.journal.get().len());
        format!("{call}, p {p}, k {k}, tables {lengths:?}, journal {journal}, steps {tried:x?}")
    }
}
