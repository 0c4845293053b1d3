//! The bench as 1,547 bytes: written, and read if it is in form.

use super::steps::{Bench, Steps};

pub const SIZE: usize = 1_547;
const CLUMPS: usize = 256;
const CARRIED: usize = 10_240;

pub fn fresh() -> Vec<u8> {
    write(&Bench { opened: 0, settled: Vec::new(), in_hand: None, carried: 0 })
}

pub fn write(bench: &Bench) -> Vec<u8> {
    let mut bytes = b"BN".to_vec();
    let clumps = bench.settled.iter().map(|(clump, edge)| (clump.cells, *edge));
    let clumps: Vec<(usize, i64)> = clumps.chain(bench.in_hand.iter().map(|clump| (clump.cells, 0))).collect();
    bytes.extend((bench.opened as u16).to_le_bytes());
    bytes.push(u8::from(bench.in_hand.is_some()));
    bytes.extend((clumps.len() as u16).to_le_bytes());
    bytes.extend((bench.carried as u32).to_le_bytes());
    for (cells, edge) in clumps {
        bytes.extend((cells as u16).to_le_bytes());
        bytes.extend((edge as u32).to_le_bytes());
    }
    bytes.resize(SIZE, 0);
    bytes
}

fn number(bytes: &[u8], from: usize, size: usize) -> usize {
    bytes[from..from + size].iter().rev().fold(0, |sum, byte| 256 * sum + usize::from(*byte))
}

/// The bench that these bytes say, or nothing if they are not in form.
pub fn read(steps: &Steps, bytes: &[u8]) -> Option<Bench> {
    let (opened, in_hand) = (number(bytes, 2, 2), number(bytes, 4, 1));
    let (count, carried) = (number(bytes, 5, 2), number(bytes, 7, 4));
    let numbers = bytes.starts_with(b"BN") && opened <= steps.row.cells.len() && carried <= CARRIED;
    if !numbers || in_hand > 1 || in_hand > count || count > CLUMPS {
        return None;
    }
    let (said, rest) = bytes[11..].split_at(6 * count);
    let clumps: Vec<(usize, i64)> = said.chunks(6).map(|clump| (number(clump, 0, 2), number(clump, 2, 4) as i64)).collect();
    let all_have_cells = clumps.iter().all(|(cells, _)| *cells > 0);
    let all_cells: usize = clumps.iter().map(|(cells, _)| cells).sum();
    if rest.iter().any(|byte| *byte != 0) || !all_have_cells || all_cells != opened {
        return None;
    }
    place(steps, &clumps, in_hand == 1).map(|bench| Bench { opened, carried, ..bench })
}

/// Settled clumps don't overlap and lie within 0..W; the edge in hand is 0.
fn place(steps: &Steps, clumps: &[(usize, i64)], in_hand: bool) -> Option<Bench> {
    let mut bench = Bench { opened: 0, settled: Vec::new(), in_hand: None, carried: 0 };
    let (mut first, mut end) = (0, 0);
    for (at, (cells, edge)) in clumps.iter().enumerate() {
        let clump = steps.clump(first, *cells);
        first += cells;
        if in_hand && at + 1 == clumps.len() {
            if *edge != 0 {
                return None;
            }
            bench.in_hand = Some(clump);
        } else {
            if *edge < end || edge + clump.width > steps.row.width {
                return None;
            }
            end = edge + clump.width;
            bench.settled.push((clump, *edge));
        }
    }
    Some(bench)
}
