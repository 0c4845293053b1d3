//! Measured placements, legal and not, with positions up to 2^32 - 1, and buffers of other lengths.

use super::Passed;
use crate::both::{self, expect, Difference};
use crate::random::Random;
use crate::rows::{self, medium, position_bytes, spread, Row};
use crate::search;

const FAR: i64 = (1 << 32) - 1;

pub fn run(random: &mut Random, cases: usize) -> Passed {
    for _ in 0..cases {
        let row = if random.one_in(40) { medium::medium(random) } else { rows::small(random) };
        one(random, &row)?;
    }
    Ok(cases)
}

fn one(random: &mut Random, row: &Row) -> Result<(), Difference> {
    let bytes = row.bytes();
    let total: i64 = row.cells.iter().sum();
    if total > row.width {
        both::measure(&bytes, &vec![0; 4 * row.cells.len()])?;
        return Ok(());
    }
    let mut positions = spread(random, &row.cells, row.width);
    if random.one_in(3) {
        let measured = both::measure(&bytes, &position_bytes(&positions))?;
        return expect("measure of a legal placement", &bytes, search::netlength(row, &positions), measured);
    }
    for _ in 0..random.pick(&[1, 1, 2]).min(row.cells.len()) {
        let cell = random.below(row.cells.len());
        positions[cell] = moved(random, row, cell, positions[cell]);
    }
    let mut placement = position_bytes(&positions);
    if random.one_in(10) {
        let size = placement.len();
        placement.resize(random.pick(&[0, size.saturating_sub(1), size.saturating_sub(4), size + 1, size + 4]), 0);
    }
    both::measure(&bytes, &placement)?;
    Ok(())
}

/// Another position of a cell: a little aside, at the row's end, or far beyond, where position + width passes 2^32.
fn moved(random: &mut Random, row: &Row, cell: usize, position: i64) -> i64 {
    let last = row.width - row.cells[cell];
    let sites = [position + 1, position - 1, last, last + 1, 0, FAR, FAR + 1 - row.cells[cell], 1 << 31, random.within(0, FAR)];
    random.pick(&sites).clamp(0, FAR)
}
