//! The suites, by name: what each needs linked, how its number of cases follows from the one asked for, and its run.

mod benches;
mod damaged;
mod measured;
mod medium;
mod small;
mod whole_run;
mod worked;

use crate::both::Difference;
use crate::calls;
use crate::random::Random;

/// A run of one suite: so many cases passed, or the first difference.
pub type Passed = Result<usize, Difference>;

pub struct Suite {
    pub name: &'static str,
    /// The suite is left out unless one of these is linked.
    needs: &'static [&'static str],
    /// Cases for each thousand asked for.
    share: usize,
    run: fn(&mut Random, usize) -> Passed,
}

pub const SUITES: [Suite; 6] = [
    Suite { name: "worked", needs: &calls::NAMES, share: 0, run: worked::run },
    Suite { name: "damaged", needs: &["check", "measure"], share: 1_000, run: damaged::run },
    Suite { name: "small", needs: &["slice"], share: 1_000, run: small::run },
    Suite { name: "medium", needs: &["slice"], share: 15, run: medium::run },
    Suite { name: "benches", needs: &["fresh", "slice", "placement"], share: 1_000, run: benches::run },
    Suite { name: "measured", needs: &["measure"], share: 1_000, run: measured::run },
];

impl Suite {
    pub fn linked(&self) -> bool {
        self.needs.iter().any(|call| calls::linked(call))
    }

    pub fn missing(&self) -> String {
        self.needs.join(" or ")
    }

    pub fn run(&self, seed: u64, cases: usize) -> Passed {
        (self.run)(&mut Random::new(seed, self.name), (cases * self.share).div_ceil(1_000))
    }
}
