//! Benches: in form at random, which mostly no run left, and damaged ones.

use super::{spread, Row};
use crate::random::Random;

const SIZE: usize = 1_547;
const CARRIED: i64 = 10_240;

/// A bench as numbers, in form or not.
#[derive(Clone)]
pub struct Bench {
    pub opened: i64,
    pub in_hand: i64,
    pub clumps: i64,
    pub carried: i64,
    /// Cells and left edge.
    pub each: Vec<(i64, i64)>,
}

impl Bench {
    /// As bytes; clumps past the bench's room are left out.
    pub fn bytes(&self) -> Vec<u8> {
        let mut bytes = b"BN".to_vec();
        bytes.extend(&self.opened.to_le_bytes()[..2]);
        bytes.push(self.in_hand as u8);
        bytes.extend(&self.clumps.to_le_bytes()[..2]);
        bytes.extend(&self.carried.to_le_bytes()[..4]);
        for (cells, edge) in &self.each {
            bytes.extend(&cells.to_le_bytes()[..2]);
            bytes.extend(&edge.to_le_bytes()[..4]);
        }
        bytes.resize(SIZE, 0);
        bytes
    }
}

/// A bench in form for a row that is not too full.
pub fn in_form(random: &mut Random, row: &Row) -> Bench {
    let n = row.cells.len();
    let opened = if random.one_in(3) { n } else { random.below(n + 1) };
    let mut sizes: Vec<usize> = Vec::new();
    let apart = random.one_in(4);
    for _ in 0..opened {
        match sizes.last_mut() {
            Some(cells) if !apart && random.one_in(2) => *cells += 1,
            _ => sizes.push(1),
        }
    }
    let in_hand = !sizes.is_empty() && random.one_in(2);
    let settled = sizes.len() - usize::from(in_hand);
    let mut first = 0;
    let mut widths = Vec::new();
    for cells in &sizes[..settled] {
        widths.push(row.cells[first..first + cells].iter().sum());
        first += cells;
    }
    let edges = spread(random, &widths, row.width);
    let each = sizes.iter().zip(edges.into_iter().chain([0])).map(|(cells, edge)| (*cells as i64, edge)).collect();
    let carried = if random.one_in(4) { CARRIED - random.within(0, 9) } else { random.within(0, CARRIED) };
    Bench { opened: opened as i64, in_hand: i64::from(in_hand), clumps: sizes.len() as i64, carried, each }
}

/// One number of a bench changed.
fn with_wrong_number(random: &mut Random, row: &Row, bench: &Bench) -> Bench {
    let mut wrong = bench.clone();
    let n = row.cells.len() as i64;
    match random.below(8) {
        0 => wrong.opened = random.pick(&[bench.opened - 1, bench.opened + 1, n, n + 1, 257, 65_535]),
        1 => wrong.in_hand = random.pick(&[1 - bench.in_hand, 2, 3, 128, 255]),
        2 => wrong.clumps = random.pick(&[bench.clumps - 1, bench.clumps + 1, 0, 256, 257, 65_535]),
        3 => wrong.carried = random.pick(&[CARRIED, CARRIED + 1, 65_536, 1 << 31, (1 << 32) - 1]),
        4 => shift_cells(random, &mut wrong),
        _ if bench.each.is_empty() => {}
        kind => {
            let last = bench.each.len() - 1;
            let at = if random.one_in(3) { last } else { random.below(last + 1) };
            let (cells, edge) = bench.each[at];
            if kind == 5 {
                wrong.each[at].0 = random.pick(&[cells - 1, cells + 1, 0, n, 256, 65_535]);
            } else {
                let edges = [edge - 1, edge + 1, edge + 4, 1, row.width, row.width + 1, (1 << 32) - 1, (1 << 32) - cells];
                wrong.each[at].1 = random.pick(&edges);
            }
        }
    }
    wrong
}

/// Cells moved from one clump to the next; or numbers that add to opened only if the sum wraps.
fn shift_cells(random: &mut Random, bench: &mut Bench) {
    if bench.each.len() < 2 {
        return;
    }
    let at = random.below(bench.each.len() - 1);
    let moved = random.pick(&[1, -1, 65_536 - bench.each[at].0, bench.each[at].0]);
    bench.each[at].0 -= moved;
    bench.each[at + 1].0 += moved;
}

/// A damaged bench, of another length now and then; it may be in form again.
pub fn damaged(random: &mut Random, row: &Row, bench: &Bench) -> Vec<u8> {
    let mut bytes = bench.bytes();
    let used = 11 + 6 * bench.each.len();
    match random.below(10) {
        0 => bytes[random.below(2)] ^= 1 << random.below(8),
        1 => bytes[random.below(SIZE)] = random.next() as u8,
        2 => {
            let inside = used + random.below(SIZE + 1 - used);
            let at = random.pick(&[used, inside, SIZE - 1]).min(SIZE - 1);
            bytes[at] ^= 1 << random.below(8);
        }
        3 => bytes.resize(random.pick(&[0, 1, 11, used, SIZE - 1, SIZE + 1, 2 * SIZE, 6_155]), 0),
        4 => {
            let once = with_wrong_number(random, row, bench);
            bytes = with_wrong_number(random, row, &once).bytes();
        }
        _ => bytes = with_wrong_number(random, row, bench).bytes(),
    }
    bytes
}
