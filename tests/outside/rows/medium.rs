//! Rows of up to 256 cells and 512 nets, in kinds that make few joins, many joins, ties, or no free site at all.

use super::{spread, Net, Pin, Row};
use crate::random::Random;

const CELLS: usize = 256;
const NETS: usize = 512;
const PINS: usize = 2_048;
const WIDTH: i64 = 1_000_000;
const COORDINATE: i64 = 1_000_000;

/// Where the fixed pins of a net lie.
#[derive(Clone, Copy)]
enum Wish {
    /// Near a place that its cell could have.
    Near,
    /// The further right a cell is in the row, the further left: every cell joins.
    Turned,
    /// On a few coordinates only: flat intervals.
    Ties,
    /// Anywhere, outside the row too.
    Anywhere,
    /// In place for all cells but the last few, which are wanted at the left end.
    Late,
}

pub fn medium(random: &mut Random) -> Row {
    let count = random.pick(&[6, 12, 30, 60, 120, CELLS]);
    let count = if count == CELLS || random.one_in(2) { count } else { 1 + random.below(count) };
    let widest = random.pick(&[1, 4, 12, 3_000]);
    let cells: Vec<i64> = (0..count).map(|_| random.within(1, widest)).collect();
    let total: i64 = cells.iter().sum();
    let width = match random.below(5) {
        0 => total,
        1 => total + random.within(0, 9),
        2 => WIDTH,
        _ => (total + random.within(0, 2 * total)).min(WIDTH),
    };
    let wish = random.pick(&[Wish::Near, Wish::Turned, Wish::Ties, Wish::Anywhere, Wish::Late]);
    let nets = if count == CELLS { random.pick(&[0, 100, NETS - 1, NETS]) } else { random.below((3 * count).min(NETS)) };
    let homes = spread(random, &cells, width);
    let mut row = Row { width, cells, nets: Vec::new() };
    let mut pins_left = PINS;
    for net in 0..nets {
        let most = (pins_left - (nets - 1 - net)).min(if random.one_in(40) { 300 } else { 5 });
        let made = medium_net(random, &row, &homes, wish, most);
        pins_left -= made.pins.len();
        row.nets.push(made);
    }
    row
}

fn medium_net(random: &mut Random, row: &Row, homes: &[i64], wish: Wish, most: usize) -> Net {
    let first = random.below(row.cells.len());
    let pins = 1 + random.below(most);
    let movable = if random.one_in(3) { pins } else { 1 + random.below(pins.min(2)) };
    let mut made = Vec::new();
    for _ in 0..movable {
        let cell = (first + random.below(6)).min(row.cells.len() - 1);
        made.push(Pin::Movable(cell, random.within(0, row.cells[cell])));
    }
    for _ in movable..pins {
        let at = coordinate(random, row, homes, wish, first);
        made.push(Pin::Fixed(at.clamp(-COORDINATE, COORDINATE)));
    }
    let turn = random.below(made.len());
    made.rotate_left(turn);
    let weight = if random.one_in(6) { random.within(1, 1_000) } else { random.pick(&[1, 1, 2, 3]) };
    Net { weight, pins: made }
}

fn coordinate(random: &mut Random, row: &Row, homes: &[i64], wish: Wish, cell: usize) -> i64 {
    let n = row.cells.len();
    match wish {
        Wish::Near => homes[cell] + random.within(-row.width / 16 - 1, row.width / 16 + 1),
        Wish::Turned => homes[n - 1 - cell] + random.within(-3, 3),
        Wish::Ties => random.within(0, 8) * (row.width / 8),
        Wish::Anywhere => random.within(-row.width, 2 * row.width),
        Wish::Late if cell + 4 > n => random.within(-9, 0),
        Wish::Late => homes[cell],
    }
}
