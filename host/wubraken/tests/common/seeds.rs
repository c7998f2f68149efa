//! The seeds of a test: fixed ones, and fresh ones each run.

use std::env;
use std::io::{self, Write};
use std::thread;
use std::time::SystemTime;

use schedule::Random;

const FIXED: [u64; 3] = [1, 2, 3];
const FRESH: usize = 2;

/// Runs a test on each seed, or on the one in `WUBRAKEN_SEED` alone.
pub fn on_seeds(test: &str, run: impl Fn(&mut Random)) {
    let seeds = match env::var("WUBRAKEN_SEED") {
        Ok(seed) => vec![seed.parse().expect("WUBRAKEN_SEED is a number")],
        Err(_) => FIXED.into_iter().chain(fresh()).collect(),
    };
    for seed in seeds {
        let at = Seed { test, seed };
        at.say("runs on");
        run(&mut Random::new(seed));
    }
}

fn fresh() -> Vec<u64> {
    let now = SystemTime::now().duration_since(SystemTime::UNIX_EPOCH);
    let mut random = Random::new(now.expect("after 1970").as_nanos() as u64);
    // Short enough to be typed.
    (0..FRESH).map(|_| random.draw() >> 32).collect()
}

/// Says its seed before the run, and again if that fails.
struct Seed<'a> {
    test: &'a str,
    seed: u64,
}

impl Seed<'_> {
    /// Not captured as `print` would be: a wrong library may end the process.
    fn say(&self, what: &str) {
        let line = format!("{}: {what} WUBRAKEN_SEED={}\n", self.test, self.seed);
        let _ = io::stderr().write_all(line.as_bytes());
    }
}

impl Drop for Seed<'_> {
    fn drop(&mut self) {
        if thread::panicking() {
            self.say("failed on");
        }
    }
}
