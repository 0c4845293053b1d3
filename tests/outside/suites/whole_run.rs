//! A run from a fresh bench to the finish in random slices, with the bench compared after each.

use crate::both::{self, expect, Difference};
use crate::random::Random;
use crate::rows::{position_bytes, Row};
use crate::search::Shortest;

pub struct Finish {
    pub bench: Vec<u8>,
    pub steps: u64,
}

const BENCH: usize = 1_547;

fn carried(bench: &[u8]) -> u64 {
    u64::from(u32::from_le_bytes([bench[7], bench[8], bench[9], bench[10]]))
}

/// 2m times the whole part of log2(2m), and 0 for m = 0.
fn carried_bound(nets: usize) -> u64 {
    let changes = 2 * nets as u64;
    let mut logarithm = 0;
    while 2 << logarithm <= changes {
        logarithm += 1;
    }
    changes * logarithm
}

/// Bytes that no call may take for something of its own.
pub fn noise(random: &mut Random, size: usize) -> Vec<u8> {
    (0..size).map(|_| random.next() as u8).collect()
}

pub fn to_finish(random: &mut Random, row: &Row, bytes: &[u8], budgets: &[u32]) -> Result<Finish, Difference> {
    let held = noise(random, BENCH);
    let mut bench = both::fresh(&held)?.buffer;
    let mut steps = 0;
    loop {
        let slice = both::slice(bytes, &bench, random.pick(budgets))?;
        expect("a slice of this run is not refused", bytes, true, slice.answer >> 63 == 0)?;
        bench = slice.buffer;
        steps += slice.answer / 2;
        if slice.answer % 2 == 1 {
            break;
        }
        if random.one_in(4) {
            let held = noise(random, 4 * row.cells.len());
            both::placement(bytes, &bench, &held)?;
        }
    }
    both::slice(bytes, &bench, random.pick(budgets))?;
    let n = row.cells.len() as u64;
    let (steps_kept, carried_kept) = (steps <= (3 * n).saturating_sub(1), carried(&bench) <= carried_bound(row.nets.len()));
    expect("steps at most 3n - 1", bytes, true, steps_kept)?;
    expect("carried at most 2m times the whole part of log2(2m)", bytes, true, carried_kept)?;
    Ok(Finish { bench, steps })
}

/// One slice that takes all steps leaves the same bench as many slices did.
pub fn at_once(bytes: &[u8], finish: &Finish) -> Result<(), Difference> {
    let fresh = both::fresh(&[0; BENCH])?.buffer;
    let whole = both::slice(bytes, &fresh, u32::MAX)?;
    expect("steps in one slice", bytes, 2 * finish.steps + 1, whole.answer)?;
    expect("bench after one slice", bytes, &finish.bench, &whole.buffer)
}

/// The finished bench gives the placement that the search found.
pub fn gives(random: &mut Random, row: &Row, bytes: &[u8], finish: &Finish, shortest: &Shortest) -> Result<(), Difference> {
    let held = noise(random, 4 * row.cells.len());
    let placement = both::placement(bytes, &finish.bench, &held)?;
    expect("netlength against the search", bytes, shortest.netlength, placement.answer)?;
    expect("placement against the search", bytes, position_bytes(&shortest.positions), placement.buffer.clone())?;
    let measured = both::measure(bytes, &placement.buffer)?;
    expect("measure of the search's placement", bytes, shortest.netlength, measured)
}
