//! Work that is split over the cores. Its parts and their random numbers do not depend on how many cores there are.

use crate::random::Random;
use crate::tally::Tally;
use crate::{guard, Run};
use std::sync::atomic::{AtomicUsize, Ordering};
use std::sync::Mutex;
use std::thread;
use std::time::{Duration, Instant};

/// How far a long run has come is printed as often as this.
const SILENCE: Duration = Duration::from_secs(20);

/// What the cores share: the tally of all parts done, and when it was last printed.
struct Done<'a> {
    tally: &'a mut Tally,
    parts: usize,
    printed: Instant,
}

impl Done<'_> {
    fn add(&mut self, name: &str, parts: usize, tally: Tally) {
        self.tally.add(tally);
        self.parts += 1;
        if self.printed.elapsed() >= SILENCE {
            self.printed = Instant::now();
            println!("{name}: {} of {parts} parts done, {} passed so far", self.parts, self.tally.passed);
        }
    }
}

/// Does the work of each part, the last one first, and adds up what the parts count. A trace is written by one core, so
/// that its last line is the last call.
pub fn share(run: &mut Run, name: &str, parts: usize, work: impl Fn(&mut Run, usize) + Sync) {
    let (seed, trace, calls) = (run.random.next(), run.tally.trace, run.calls);
    let taken = AtomicUsize::new(0);
    let done = Mutex::new(Done { tally: &mut run.tally, parts: 0, printed: Instant::now() });
    let core = || loop {
        let turn = taken.fetch_add(1, Ordering::Relaxed);
        if turn >= parts {
            return;
        }
        let part = parts - 1 - turn;
        guard::restart();
        let random = Random::new(seed.wrapping_add(part as u64));
        let mut own = Run { random, tally: Tally::new(trace), calls };
        work(&mut own, part);
        done.lock().expect("no core has failed").add(name, parts, own.tally);
    };
    let cores = if trace { 1 } else { thread::available_parallelism().map_or(1, usize::from) };
    thread::scope(|scope| {
        for _ in 0..cores.min(parts) {
            scope.spawn(core);
        }
    });
}
