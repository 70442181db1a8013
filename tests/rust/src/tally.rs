//! Counts the comparisons, and prints those that fail with the input that shows it.

use crate::outcome::Outcome;
use std::collections::BTreeMap;
use std::sync::atomic::{AtomicBool, AtomicU64, Ordering};

/// Failures printed in full; the rest are only counted.
const PRINTED: u64 = 20;
/// How many have failed in all tallies.
static FAILED: AtomicU64 = AtomicU64::new(0);
/// The first failure ends the program.
static STOP: AtomicBool = AtomicBool::new(false);
/// A buffer up to this length is printed whole.
const WHOLE: usize = 256;

pub fn stop_at_first() {
    STOP.store(true, Ordering::Relaxed);
}

#[derive(Default)]
pub struct Tally {
    /// Print every input before the call, so that the last one shows where the library ended the program.
    pub trace: bool,
    pub passed: u64,
    failed: u64,
    /// Failures are only counted: they are what a planted fault is for.
    silent: bool,
    /// How often the model gave each answer since the last report.
    answers: BTreeMap<usize, u64>,
}

impl Tally {
    pub fn new(trace: bool) -> Tally {
        Tally { trace, ..Tally::default() }
    }

    /// One whose failures are only counted.
    pub fn silent() -> Tally {
        Tally { silent: true, ..Tally::default() }
    }

    pub fn failures(&self) -> u64 {
        self.failed
    }

    /// Adds what another tally has counted.
    pub fn add(&mut self, other: Tally) {
        self.passed += other.passed;
        self.failed += other.failed;
        for (answer, count) in other.answers {
            *self.answers.entry(answer).or_default() += count;
        }
    }

    /// Counts one check. `input` gives it in words, `due` is the answer that a right library gives.
    pub fn judge(&mut self, input: impl Fn() -> String, due: usize, check: impl FnOnce() -> Result<(), String>) {
        if self.trace {
            println!("{}", input());
        }
        *self.answers.entry(due).or_default() += 1;
        match check() {
            Ok(()) => self.passed += 1,
            Err(complaint) => self.fail(&input(), &complaint),
        }
    }

    /// Makes one call and compares it with what is expected. `input` gives the call in words.
    pub fn compare(
        &mut self,
        input: impl Fn() -> String,
        expected: &Outcome,
        call: impl FnOnce() -> Result<Outcome, String>,
    ) {
        self.judge(input, expected.answer, || {
            let outcome = call()?;
            if outcome == *expected {
                return Ok(());
            }
            Err(expected.difference(&outcome))
        });
    }

    fn fail(&mut self, input: &str, complaint: &str) {
        self.failed += 1;
        if self.silent {
            return;
        }
        if FAILED.fetch_add(1, Ordering::Relaxed) < PRINTED {
            println!("FAILED: {complaint}\n  input: {input}");
        }
        if STOP.load(Ordering::Relaxed) {
            std::process::exit(1);
        }
    }

    /// Compares a number of things found with the one that is known.
    pub fn number(&mut self, what: &str, known: u64, found: u64) {
        println!("{what}: {found}");
        if found == known {
            self.passed += 1;
        } else {
            self.fail(what, &format!("{found} instead of {known}"));
        }
    }

    /// Says how often each of the named answers was due. One that never was is a gap in the test itself.
    pub fn report(&mut self, call: &str, named: &[usize]) {
        let mut answers = std::mem::take(&mut self.answers);
        let mut said = Vec::new();
        for answer in named {
            let count = answers.remove(answer).unwrap_or(0);
            said.push(format!("{answer}: {count}"));
            if count == 0 {
                self.fail(call, &format!("no comparison was made in which {answer} is due"));
            }
        }
        println!("{call}: answers due {}, others: {}", said.join(", "), answers.values().sum::<u64>());
    }

    /// Prints the last line, and says whether all went well.
    pub fn finish(&self) -> bool {
        if self.failed > PRINTED {
            println!("and {} more failures", self.failed - PRINTED);
        }
        println!("{} passed, {} failed", self.passed, self.failed);
        self.failed == 0
    }
}

/// A buffer in words: its length and its bytes, or the first of them where it is long.
pub fn show(bytes: &[u8]) -> String {
    let shown: String = bytes.iter().take(WHOLE).map(|byte| format!(" {byte}")).collect();
    let more = if bytes.len() > WHOLE { " .." } else { "" };
    format!("{} bytes [{}{more}]", bytes.len(), shown.trim_start())
}

/// A promise that is judged without the model, and its complaint.
pub fn must(holds: bool, words: &str) -> Result<(), String> {
    if holds {
        return Ok(());
    }
    Err(words.to_string())
}
