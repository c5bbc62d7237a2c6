//! A series of trials: its random numbers, its count and its failures.

use std::env;
use std::io::{self, Write};
use std::thread;
use std::time::Instant;

use reference::random::Random;

const DEFAULT_SEED: u64 = 20_080_229;

/// A series of trials under one name. SEED in the environment gives other
/// random numbers.
pub struct Trials {
    name: &'static str,
    seed: u64,
    pub random: Random,
    cases: usize,
    calls: usize,
    started: Instant,
}

impl Trials {
    pub fn new(name: &'static str) -> Trials {
        let seed = match env::var("SEED") {
            Ok(text) => text.parse().expect("SEED is a whole number"),
            Err(_) => DEFAULT_SEED,
        };
        // Each series has numbers of its own.
        let own = name
            .bytes()
            .fold(seed, |n, byte| Random::new(n ^ u64::from(byte)).number());
        Trials {
            name,
            seed,
            random: Random::new(own),
            cases: 0,
            calls: 0,
            started: Instant::now(),
        }
    }

    /// Counts a case: a sheet, a list of inserts, or one set of arguments.
    pub fn case(&mut self) {
        self.cases += 1;
    }

    pub fn cases(&self) -> usize {
        self.cases
    }

    /// Counts a call and stops the series if it went wrong.
    pub fn expect(&mut self, verdict: Result<(), String>, input: impl FnOnce() -> String) {
        self.calls += 1;
        if let Err(wrong) = verdict {
            panic!(
                "{}, SEED={}, case {}, call {}\n{}\n{wrong}",
                self.name,
                self.seed,
                self.cases,
                self.calls,
                input()
            );
        }
    }
}

impl Drop for Trials {
    fn drop(&mut self) {
        if !thread::panicking() {
            let seconds = self.started.elapsed().as_secs_f64();
            // Written past the test harness, which would keep it to itself.
            let _ = writeln!(
                io::stderr(),
                "{}: {} cases, {} calls, {seconds:.1} s, SEED={}",
                self.name,
                self.cases,
                self.calls,
                self.seed
            );
        }
    }
}

/// Bytes as hexadecimal digits.
pub fn hex(bytes: &[u8]) -> String {
    bytes.iter().map(|byte| format!("{byte:02x}")).collect()
}
