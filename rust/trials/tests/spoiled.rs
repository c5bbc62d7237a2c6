//! States, tables and journals that no list of steps left together: beyond
//! 11, 12, 20 and 19 the calls only have to return, and to write nothing that
//! isn't theirs.

use std::io::{self, Write};
use std::process;
use std::sync::{Arc, Mutex};
use std::thread;
use std::time::{Duration, Instant};

use families::lent::{self, Started, State};
use reference::calls::Outcome;
use reference::random::Random;
use reference::steps::{check_state, check_step, Step, JOURNAL_ENTRIES};
use trials::calls::check_outcome;
use trials::guarded::{Guarded, StepSpace};
use trials::inserts::{check_refused, make_step, shown, Inserts};
use trials::lists::random_list;
use trials::Trials;

/// The state and the space of a call.
type Spoiled = (State, StepSpace);

/// Ends the test with the input of a call that does not return.
#[derive(Clone)]
struct Watch {
    call: Arc<Mutex<Option<(Instant, Spoiled)>>>,
}

impl Watch {
    fn new() -> Watch {
        let watch = Watch {
            call: Arc::default(),
        };
        let own = watch.clone();
        thread::spawn(move || loop {
            thread::sleep(Duration::from_secs(5));
            let call = own.call.lock().expect("no panic while held");
            if let Some((begun, input)) = &*call {
                if begun.elapsed() > Duration::from_secs(100) {
                    let _ = writeln!(io::stderr(), "no return from {input:x?}");
                    process::exit(1);
                }
            }
        });
        watch
    }

    fn during<T>(&self, input: &Spoiled, call: impl FnOnce() -> T) -> T {
        let set = |value| *self.call.lock().expect("no panic while held") = value;
        set(Some((Instant::now(), input.clone())));
        let answer = call();
        set(None);
        answer
    }
}

/// Makes a state and tables pass 12, whatever else is in them.
fn mend(random: &mut Random, (state, space): &mut Spoiled) {
    if !(1..=64).contains(&state.p) {
        state.p = random.within(1, 64);
    }
    if !(2..=6).contains(&state.k) {
        state.k = random.within(2, 6);
    }
    let slots = space.tables.lengths()[0];
    if state.used > slots {
        state.used = random.below(slots + 1);
    }
    let entries = space.tables.entries.get_mut().iter_mut();
    for (slot, entry) in entries.enumerate().take(state.used) {
        if *entry as usize > slot {
            *entry %= slot as u32 + 1;
        }
    }
    space.settle();
}

/// What is wrong with a step: 11, 12, 20 and 19 are told where they apply and
/// nowhere else, a refusal leaves everything, and an insert that passes these
/// is refused by 6 to 9 or 15 if at all.
fn check_spoiled(
    (state, before): &Spoiled,
    after: &StepSpace,
    step: Step,
    found: Started,
) -> Result<(), String> {
    if let Err(refusal) = check_step(shown(state, before), step) {
        return check_refused(found, refusal, *state, after);
    }
    let outcome = found.outcome;
    match (step, outcome.number) {
        (Step::Insert(..), 6..=9 | 15) => {
            let (number, place) = (outcome.number, 0);
            let refusal = reference::sheets::Refusal { number, place };
            check_refused(found, refusal, *state, after)
        }
        _ => check_outcome(outcome, Outcome::default()).and_then(|()| after.check_guards()),
    }
}

fn try_step(trials: &mut Trials, watch: &Watch, spoiled: &mut Spoiled, step: Step) {
    let before = spoiled.clone();
    let (state, space) = spoiled;
    let found = watch.during(&before, || make_step(*state, space, step));
    let verdict = check_spoiled(&before, space, step, found);
    trials.expect(verdict, || format!("{step:x?} on {before:x?}"));
    *state = found.state;
}

fn try_listing(trials: &mut Trials, watch: &Watch, spoiled: &Spoiled) {
    let (state, space) = spoiled;
    let out = trials.random.below(100);
    let mut output = Guarded::junk(&mut trials.random, out);
    watch.during(spoiled, || {
        lent::listing_now(*state, space.tables.lend(), output.get_mut())
    });
    let verdict = output
        .check_guards("output")
        .and_then(|()| space.check_untouched());
    trials.expect(verdict, || format!("listing now {spoiled:x?}"));
}

fn any_insert(random: &mut Random, p: usize) -> Step {
    let lower = random.below(p);
    let higher = random.within(lower, 64.min(p));
    Step::Insert(lower, higher, random.pick(&[1, 9, 65_535]))
}

fn try_spoiled(trials: &mut Trials, watch: &Watch, mut spoiled: Spoiled) {
    trials.case();
    for _ in 0..4 {
        mend(&mut trials.random, &mut spoiled);
        assert!(check_state(shown(&spoiled.0, &spoiled.1)).is_ok());
        try_listing(trials, watch, &spoiled);
        let insert = any_insert(&mut trials.random, spoiled.0.p);
        try_step(trials, watch, &mut spoiled, insert);
        mend(&mut trials.random, &mut spoiled);
        try_step(trials, watch, &mut spoiled, Step::TakeBack);
    }
}

/// How many links a spoiled state says there are.
fn random_links(random: &mut Random) -> usize {
    match random.chance(60) {
        true => random.below(60),
        false => random.pick(&[2_015, 2_016, 2_017, 4_096, 1 << 32, usize::MAX]),
    }
}

fn random_state(random: &mut Random) -> State {
    let p = random.within(1, 64);
    let k = random.within(2, 6);
    // Many cliques cost time, so full rows are rare where k is large.
    let dense = random.chance(if k > 4 && p > 30 { 1 } else { 40 });
    let mut rows = [0; 64];
    for row in &mut rows {
        *row = match dense {
            true => random.number() | random.number() | random.number(),
            false => random.number() & random.number() & random.number(),
        };
    }
    if random.chance(50) {
        rows.iter_mut().for_each(|row| *row &= u64::MAX >> (64 - p));
    }
    State {
        p,
        k,
        used: random.below(40),
        last: random.pick(&[0, 1, 9, 65_535, 65_536, usize::MAX]),
        links: random_links(random),
        rows,
    }
}

/// Writes entries into a journal whose parts are in range or nearly so; pairs
/// may repeat.
fn spoil_journal(random: &mut Random, state: State, journal: &mut [u64]) {
    // Few parts soon make cliques of every size. Many cliques cost time, so
    // there are few links where k is large.
    let near = random.pick(&[7, 9, 12, 64]).min(state.p);
    let most = [2_016, 2_016, 800, 300, 200][state.k - 2];
    let good = random.below(most);
    for (i, entry) in journal.iter_mut().enumerate() {
        let parts = if i < good { near } else { 64 };
        let (lower, higher) = (random.below(parts), random.below(parts + 1));
        *entry = match (i < good, random.below(8)) {
            (true, 0) => random.number(),
            (true, _) | (false, 1) => (lower as u64) << 32 | (higher as u64) << 16 | 7,
            (false, 0) => (lower as u64) << 48 | (higher as u64) << 16,
            (false, _) => 0,
        };
    }
}

fn random_space(random: &mut Random, state: State) -> StepSpace {
    let slots = random.below(40);
    let journal = match random.chance(90) {
        true => JOURNAL_ENTRIES,
        false => random.pick(&[0, 1, 2_015, 2_017]),
    };
    let mut space = StepSpace::junk(random, [slots; 4], journal);
    if random.chance(60) {
        // Sets that an insert may look for.
        for set in space.tables.sets.get_mut() {
            let parts = random.within(1, 7);
            *set = (0..parts).fold(0, |set, _| set | 1 << random.below(state.p));
        }
    }
    if random.chance(30) {
        space.tables.entries.get_mut().fill(0);
    }
    if random.chance(80) {
        spoil_journal(random, state, space.journal.get_mut());
    }
    space
}

#[test]
fn random_states() {
    let trials = &mut Trials::new("random states");
    let watch = Watch::new();
    for _ in 0..6_000 {
        let state = random_state(&mut trials.random);
        let space = random_space(&mut trials.random, state);
        try_spoiled(trials, &watch, (state, space));
    }
}

/// States, tables and journals after each step of a list.
fn snapshots(trials: &mut Trials, p: usize, k: usize, slots: usize) -> Vec<Spoiled> {
    let mut inserts = Inserts::start(trials, p, k, slots);
    let mut list = random_list(&mut trials.random, p, k);
    list.truncate(60);
    let mut snapshots = vec![(inserts.state, inserts.space.clone())];
    for step in list {
        let _ = inserts.step(trials, step);
        snapshots.push((inserts.state, inserts.space.clone()));
    }
    snapshots
}

/// State, tables and journal of different moments, of the same list or of
/// another list.
#[test]
fn states_and_tables_of_different_steps() {
    let trials = &mut Trials::new("states and tables of different steps");
    let watch = Watch::new();
    for case in 0..300 {
        let slots = trials.random.within(1, 60);
        let (p, k) = (3 + case % 12, 2 + case % 5);
        let mut all = snapshots(trials, p, k, slots);
        let (p, k) = (trials.random.within(1, 12), trials.random.within(2, 6));
        all.extend(snapshots(trials, p, k, slots));
        for _ in 0..10 {
            let random = &mut trials.random;
            let [one, other, third] = [0, 1, 2].map(|_| random.below(all.len()));
            let (mut state, mut space) = (all[one].0, all[other].1.clone());
            match random.below(8) {
                0 => space.tables.sets.get_mut().fill(0),
                1 => space.tables.smallest.get_mut().fill(u64::MAX),
                2 => state.rows[random.below(64)] ^= 1 << random.below(64),
                3 => state.used = random.below(slots + 1),
                4 => state.links = random_links(random),
                5 | 6 => space.journal = all[third].1.journal.clone(),
                _ => (),
            }
            try_spoiled(trials, &watch, (state, space));
        }
    }
}
