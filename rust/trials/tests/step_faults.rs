//! The refusals of the steps that come before those of a link: of a start,
//! and of states, tables and journals with one fault or several.

use families::lent::State;
use reference::random::Random;
use reference::steps::{Step, JOURNAL_ENTRIES};
use trials::arguments::{unequal, BAD_K, BAD_P};
use trials::guarded::StepSpace;
use trials::inserts::{Inserts, ZERO_STATE};
use trials::lists::{random_list, slots_needed};
use trials::Trials;

/// Lengths that a journal must not have.
const BAD_JOURNALS: [usize; 4] = [0, JOURNAL_ENTRIES - 1, JOURNAL_ENTRIES + 1, 4_096];

#[test]
fn starts() {
    let trials = &mut Trials::new("starts");
    for p in (1..=64).chain(BAD_P) {
        for k in (2..=6).chain(BAD_K) {
            for lengths in [[0; 4], [1; 4], [9; 4]].into_iter().chain(unequal(3)) {
                let journal = trials.random.pick(&BAD_JOURNALS);
                for journal in [JOURNAL_ENTRIES, journal] {
                    trials.case();
                    let _ = Inserts::try_start(trials, p, k, lengths, journal);
                }
            }
        }
    }
}

/// A start with every good argument but the journal.
#[test]
fn starts_with_other_journals() {
    let trials = &mut Trials::new("starts with other journals");
    for journal in (0..70).chain(1_950..2_080).chain(BAD_JOURNALS) {
        trials.case();
        let answer = Inserts::try_start(trials, 5, 3, [9; 4], journal);
        let expected = (journal != JOURNAL_ENTRIES).then_some(20);
        assert_eq!(answer.err().map(|refusal| refusal.number), expected);
    }
}

/// The faults of state, tables and journal, in the order in which they are
/// told: whether 11, 12, 20 and 19 apply.
type Faults = [bool; 4];

const NUMBERS: [u8; 4] = [11, 12, 20, 19];

/// Every call with these faults gets the first number that it knows: the
/// listing now 11 and 12, insert 20 too, taking back all. Without one of them
/// it isn't made here, since its answer may be free.
fn expect_refusals(trials: &mut Trials, inserts: &Inserts, faults: Faults) {
    trials.case();
    let first = |known: usize| (0..known).find(|&i| faults[i]).map(|i| NUMBERS[i]);
    let mut inserts = inserts.clone();
    if let Some(number) = first(2) {
        let out = trials.random.below(40);
        let expected = inserts.listing_now(trials, out);
        assert_eq!(expected.outcome.number, number);
    }
    let insert = any_insert(&mut trials.random);
    for (step, known) in [(insert, 3), (Step::TakeBack, 4)] {
        if let Some(number) = first(known) {
            let answer = inserts.step(trials, step);
            assert_eq!(answer.map_err(|refusal| refusal.number), Err(number));
        }
    }
}

/// An insert, good or refused by one of 6 to 9.
fn any_insert(random: &mut Random) -> Step {
    let lower = random.below(5);
    let higher = random.pick(&[lower, lower + 1, 5, 64, usize::MAX]);
    Step::Insert(lower, higher, random.pick(&[0, 1, 65_535]))
}

/// A list after its last step, in slots of which some may be free.
fn after_a_list(trials: &mut Trials, case: usize) -> Inserts {
    let (p, k) = (6 + case % 4, 2 + case % 5);
    let list = random_list(&mut trials.random, p, k);
    let slots = slots_needed(p, k, &list) + case % 3;
    let mut inserts = Inserts::start(trials, p, k, slots);
    for step in list {
        let _ = inserts.step(trials, step);
    }
    inserts
}

/// States with one thing wrong.
fn bad_states(state: State, slots: usize) -> Vec<State> {
    let mut states = Vec::new();
    for p in BAD_P {
        states.push(State { p, ..state });
    }
    for k in BAD_K {
        states.push(State { k, ..state });
    }
    for used in [slots + 1, slots + 256, (1 << 32) + state.used, usize::MAX] {
        states.push(State { used, ..state });
    }
    states
}

/// Every bad state, with tables as the list left them.
fn try_states(trials: &mut Trials, whole: &Inserts, [journal, no_link]: [bool; 2]) {
    let slots = whole.space.tables.lengths()[0];
    for state in bad_states(whole.state, slots) {
        let mut faulty = whole.clone();
        faulty.state = state;
        expect_refusals(trials, &faulty, [false, true, journal, no_link]);
    }
}

/// Every used joining entry above its slot number.
fn try_entries(trials: &mut Trials, whole: &Inserts, [journal, no_link]: [bool; 2]) {
    for slot in 0..whole.state.used {
        let mut faulty = whole.clone();
        let entries = &mut faulty.space.tables.entries;
        entries.get_mut()[slot] = trials.random.pick(&[slot as u32 + 1, u32::MAX, 1 << 31]);
        entries.settle();
        expect_refusals(trials, &faulty, [false, true, journal, no_link]);
    }
}

/// Every table of another length, with a good state and a bad one.
fn try_lengths(trials: &mut Trials, whole: &Inserts, [journal, no_link]: [bool; 2]) {
    let slots = whole.space.tables.lengths()[0];
    for lengths in unequal(slots) {
        let mut faulty = whole.clone();
        let length = whole.space.journal.get().len();
        faulty.space = whole.space.resized(&mut trials.random, lengths, length);
        expect_refusals(trials, &faulty, [true, false, journal, no_link]);
        faulty.state.k = 9;
        expect_refusals(trials, &faulty, [true, true, journal, no_link]);
    }
}

#[test]
fn faults_of_states_and_tables() {
    let trials = &mut Trials::new("faults of states and tables");
    for case in 0..60 {
        let mut list = after_a_list(trials, case);
        let (lengths, no_link) = (list.space.tables.lengths(), list.state.links == 0);
        let space = list.space.clone();
        for length in BAD_JOURNALS.into_iter().chain([JOURNAL_ENTRIES]) {
            list.space = space.resized(&mut trials.random, lengths, length);
            let faults = [length != JOURNAL_ENTRIES, no_link];
            expect_refusals(trials, &list, [false, false, faults[0], no_link]);
            try_states(trials, &list, faults);
            try_entries(trials, &list, faults);
            try_lengths(trials, &list, faults);
        }
    }
}

/// One fault of each kind or none, in every combination.
#[test]
fn several_faults_at_once() {
    let trials = &mut Trials::new("several faults at once");
    for case in 0..320 {
        let mut faulty = after_a_list(trials, case / 16);
        let mut faults = [0, 1, 2, 3].map(|i| case >> i & 1 == 1);
        let random = &mut trials.random;
        let slots = faulty.space.tables.lengths()[0];
        if faults[1] {
            faulty.state = random.pick(&bad_states(faulty.state, slots + 8));
        }
        if faults[3] {
            faulty.state.links = 0;
        }
        faults[3] = faulty.state.links == 0;
        let lengths = match faults[0] {
            true => random.pick(&unequal(slots)),
            false => [slots; 4],
        };
        let journal = match faults[2] {
            true => random.pick(&BAD_JOURNALS),
            false => JOURNAL_ENTRIES,
        };
        faulty.space = faulty.space.resized(random, lengths, journal);
        expect_refusals(trials, &faulty, faults);
    }
}

/// A state of zeros, as a refused start gives it, is refused by 12.
#[test]
fn after_a_refused_start() {
    let trials = &mut Trials::new("after a refused start");
    for slots in [0, 1, 9] {
        for journal in BAD_JOURNALS.into_iter().chain([JOURNAL_ENTRIES]) {
            let mut inserts = Inserts::start(trials, 5, 3, slots);
            inserts.state = ZERO_STATE;
            inserts.space = StepSpace::junk(&mut trials.random, [slots; 4], journal);
            let whole = journal == JOURNAL_ENTRIES;
            expect_refusals(trials, &inserts, [false, true, !whole, true]);
        }
    }
}
