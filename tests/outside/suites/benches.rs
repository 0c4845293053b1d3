//! Benches that no run left, and damaged ones: slice and placement against the model; fresh on buffers of many lengths.

use super::whole_run::noise;
use super::Passed;
use crate::both::{self, Difference};
use crate::calls;
use crate::random::Random;
use crate::rows::{self, benches, damage, medium, Row};

const BUDGETS: [u32; 7] = [0, 1, 2, 3, 9, 100, u32::MAX];
/// Fresh is asked of buffers of every length up to this one, whatever they hold.
const LENGTHS: usize = 1_600;

pub fn run(random: &mut Random, cases: usize) -> Passed {
    let others = [6_155, 65_536 + 1_547, 1_547, 1_547, 1_547, 1_547];
    for size in (0..LENGTHS).chain(others) {
        both::fresh(&noise(random, size))?;
    }
    let cases = if calls::linked("slice") || calls::linked("placement") { cases } else { 0 };
    for _ in 0..cases {
        let row = some_row(random);
        one(random, &row)?;
    }
    Ok(LENGTHS + others.len() + cases)
}

/// A row that is not too full.
fn some_row(random: &mut Random) -> Row {
    if random.one_in(60) {
        return medium::medium(random);
    }
    let row = rows::small(random);
    Row { width: row.width.max(row.cells.iter().sum()), ..row }
}

fn one(random: &mut Random, row: &Row) -> Result<(), Difference> {
    let bytes = row.bytes();
    let bench = benches::in_form(random, row);
    if random.one_in(2) {
        return carry_on(random, row, &bytes, bench.bytes());
    }
    let damaged = benches::damaged(random, row, &bench);
    place(random, row, &bytes, &damaged)?;
    let wrong_row = if random.one_in(10) { damage::random_form(random, row) } else { bytes };
    both::slice(&wrong_row, &damaged, random.pick(&BUDGETS))?;
    Ok(())
}

/// On by the steps as it stands, to the finish or to refusal 8.
fn carry_on(random: &mut Random, row: &Row, bytes: &[u8], mut bench: Vec<u8>) -> Result<(), Difference> {
    loop {
        place(random, row, bytes, &bench)?;
        let slice = both::slice(bytes, &bench, random.pick(&BUDGETS))?;
        bench = slice.buffer;
        if slice.answer >> 63 == 1 || slice.answer % 2 == 1 {
            return place(random, row, bytes, &bench);
        }
    }
}

fn place(random: &mut Random, row: &Row, bytes: &[u8], bench: &[u8]) -> Result<(), Difference> {
    let right = 4 * row.cells.len();
    let size = if random.one_in(12) { random.pick(&[0, 1, right + 1, right + 4, right.saturating_sub(1)]) } else { right };
    let held = noise(random, size);
    both::placement(bytes, bench, &held)?;
    Ok(())
}
