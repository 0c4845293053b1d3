//! An independent reading of document 01: the five calls on bytes, each with its answer and every byte of the buffer
//! lent to it. Nothing here is quick or clever, and nothing is shared with the library.

pub mod bench;
pub mod best;
pub mod length;
pub mod reading;
pub mod steps;

use steps::Steps;

/// What a call answers, and what the buffer that it may write holds afterwards (empty if it has none).
#[derive(Clone, PartialEq, Eq)]
pub struct Outcome {
    pub answer: u64,
    pub buffer: Vec<u8>,
}

#[derive(Clone, Copy)]
pub struct Refusal {
    pub number: u64,
    pub place: u64,
}

pub const CUT: u64 = 1;
pub const MARK: u64 = 2;
pub const TAIL: u64 = 3;
pub const RANGE: u64 = 4;
pub const LONELY: u64 = 5;
pub const FULL: u64 = 6;
pub const ROOM: u64 = 7;
pub const BENCH: u64 = 8;
pub const UNFINISHED: u64 = 9;
pub const OVERLAP: u64 = 10;

pub fn refused(number: u64, place: u64) -> u64 {
    (1 << 63) + (number << 32) + place
}

/// A refusal writes nothing: the buffer holds what it held.
fn outcome(held: &[u8], result: Result<(u64, Vec<u8>), Refusal>) -> Outcome {
    match result {
        Ok((answer, buffer)) => Outcome { answer, buffer },
        Err(refusal) => Outcome { answer: refused(refusal.number, refusal.place), buffer: held.to_vec() },
    }
}

fn demand(holds: bool, number: u64, place: u64) -> Result<(), Refusal> {
    if holds { Ok(()) } else { Err(Refusal { number, place }) }
}

pub fn check(row: &[u8]) -> Outcome {
    outcome(&[], reading::read(row).map(|row| (row.cells.len() as u64, Vec::new())))
}

pub fn fresh(held: &[u8]) -> Outcome {
    outcome(held, demand(held.len() == bench::SIZE, ROOM, 0).map(|()| (0, bench::fresh())))
}

pub fn slice(row: &[u8], held: &[u8], budget: u32) -> Outcome {
    outcome(held, sliced(row, held, budget))
}

fn sliced(row: &[u8], held: &[u8], budget: u32) -> Result<(u64, Vec<u8>), Refusal> {
    let row = reading::read(row)?;
    demand(held.len() == bench::SIZE, ROOM, 0)?;
    let steps = Steps::of(&row);
    let mut bench = bench::read(&steps, held).ok_or(Refusal { number: BENCH, place: 0 })?;
    let mut taken = 0;
    while taken < budget && !steps.finished(&bench) {
        bench = steps.step(bench);
        taken += 1;
    }
    Ok((2 * u64::from(taken) + u64::from(steps.finished(&bench)), bench::write(&bench)))
}

pub fn placement(row: &[u8], bench: &[u8], held: &[u8]) -> Outcome {
    outcome(held, placed(row, bench, held))
}

fn placed(row: &[u8], bench: &[u8], held: &[u8]) -> Result<(u64, Vec<u8>), Refusal> {
    let row = reading::read(row)?;
    demand(bench.len() == bench::SIZE && held.len() == 4 * row.cells.len(), ROOM, 0)?;
    let steps = Steps::of(&row);
    let bench = bench::read(&steps, bench).ok_or(Refusal { number: BENCH, place: 0 })?;
    demand(steps.finished(&bench), UNFINISHED, 0)?;
    let positions = steps.positions(&bench);
    let bytes = positions.iter().flat_map(|p| (*p as u32).to_le_bytes()).collect();
    Ok((length::netlength(&row, &positions), bytes))
}

pub fn measure(row: &[u8], placement: &[u8]) -> Outcome {
    outcome(&[], measured(row, placement))
}

fn measured(row: &[u8], placement: &[u8]) -> Result<(u64, Vec<u8>), Refusal> {
    let row = reading::read(row)?;
    demand(placement.len() == 4 * row.cells.len(), ROOM, 0)?;
    let positions: Vec<i64> =
        placement.chunks(4).map(|p| i64::from(u32::from_le_bytes([p[0], p[1], p[2], p[3]]))).collect();
    if let Some(cell) = length::overlap(&row, &positions) {
        return Err(Refusal { number: OVERLAP, place: cell as u64 });
    }
    Ok((length::netlength(&row, &positions), Vec::new()))
}
