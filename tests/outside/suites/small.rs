//! Small rows: placement and netlength against the exhaustive search; steps, carried and bench against the model.

use super::{whole_run, Passed};
use crate::both::{self, expect, say, Difference};
use crate::model;
use crate::random::Random;
use crate::rows::{self, Row};
use crate::search;

const BUDGETS: [u32; 9] = [0, 1, 1, 2, 2, 3, 5, 20, u32::MAX];

pub fn run(random: &mut Random, cases: usize) -> Passed {
    for _ in 0..cases {
        let row = rows::small(random);
        one(random, &row)?;
    }
    Ok(cases)
}

fn one(random: &mut Random, row: &Row) -> Result<(), Difference> {
    let bytes = row.bytes();
    let found = search::shortest(row);
    let full = model::refused(model::FULL, row.records().len() as u64 - 1);
    let expected = if found.is_some() { row.cells.len() as u64 } else { full };
    expect("check against the search", &bytes, say(expected), say(both::check(&bytes)?))?;
    let Some(shortest) = found else { return too_full(&bytes, row) };
    let by_sites = search::site_by_site(row).map(|found| (found.positions, found.netlength));
    expect("the two searches", &bytes, Some((shortest.positions.clone(), shortest.netlength)), by_sites)?;
    let finish = whole_run::to_finish(random, row, &bytes, &BUDGETS)?;
    whole_run::at_once(&bytes, &finish)?;
    whole_run::gives(random, row, &bytes, &finish, &shortest)
}

/// A row that has no legal placement is refused by every call.
fn too_full(bytes: &[u8], row: &Row) -> Result<(), Difference> {
    let fresh = both::fresh(&[7; 1_547])?.buffer;
    let held = vec![9; 4 * row.cells.len()];
    both::slice(bytes, &fresh, 9)?;
    both::placement(bytes, &fresh, &held)?;
    both::measure(bytes, &held)?;
    Ok(())
}
