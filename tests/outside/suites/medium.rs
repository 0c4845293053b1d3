//! Rows of up to 256 cells and 512 nets against the model; those of few sites against the site-by-site search too.

use super::{whole_run, Passed};
use crate::both::{self, Difference};
use crate::random::Random;
use crate::rows::medium::medium;
use crate::rows::Row;
use crate::search;

const BUDGETS: [u32; 7] = [0, 1, 10, 50, 100, 300, u32::MAX];
/// Cells times sites up to which the search is made.
const SEARCHED: i64 = 600_000;

pub fn run(random: &mut Random, cases: usize) -> Passed {
    for _ in 0..cases {
        let row = medium(random);
        one(random, &row)?;
    }
    Ok(cases)
}

fn one(random: &mut Random, row: &Row) -> Result<(), Difference> {
    let bytes = row.bytes();
    both::check(&bytes)?;
    let finish = whole_run::to_finish(random, row, &bytes, &BUDGETS)?;
    let small_enough = row.cells.len() as i64 * row.width <= SEARCHED;
    if let Some(shortest) = small_enough.then(|| search::site_by_site(row)).flatten() {
        return whole_run::gives(random, row, &bytes, &finish, &shortest);
    }
    let placement = both::placement(&bytes, &finish.bench, &vec![1; 4 * row.cells.len()])?;
    both::measure(&bytes, &placement.buffer)?;
    Ok(())
}
