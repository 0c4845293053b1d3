//! Rows as they are written: records in any order that document 01 allows, and small random rows for the search.

pub mod benches;
pub mod damage;
pub mod medium;

use crate::random::Random;

#[derive(Clone, Copy)]
pub enum Pin {
    Fixed(i64),
    /// Cell and offset.
    Movable(usize, i64),
}

#[derive(Clone)]
pub struct Net {
    pub weight: i64,
    pub pins: Vec<Pin>,
}

#[derive(Clone)]
pub struct Row {
    pub width: i64,
    pub cells: Vec<i64>,
    pub nets: Vec<Net>,
}

/// A mark and its numbers, each with its size in bytes.
pub fn record(mark: &[u8; 2], numbers: &[(i64, usize)]) -> Vec<u8> {
    let mut bytes = mark.to_vec();
    for (number, size) in numbers {
        bytes.extend(&number.to_le_bytes()[..*size]);
    }
    bytes
}

impl Net {
    fn records(&self) -> Vec<Vec<u8>> {
        let mut records = vec![record(b"NT", &[(self.weight, 4)])];
        records.extend(self.pins.iter().map(|pin| match pin {
            Pin::Fixed(at) => record(b"FP", &[(*at, 4)]),
            Pin::Movable(cell, offset) => record(b"MP", &[(*cell as i64, 2), (*offset, 4)]),
        }));
        records
    }
}

impl Row {
    pub fn records(&self) -> Vec<Vec<u8>> {
        let (n, m) = (self.cells.len() as i64, self.nets.len() as i64);
        let mut records = vec![record(b"RW", &[(self.width, 4), (n, 2), (m, 2)])];
        records.extend(self.cells.iter().map(|width| record(b"CE", &[(*width, 4)])));
        records.extend(self.nets.iter().flat_map(Net::records));
        records.push(record(b"EN", &[]));
        records
    }

    pub fn bytes(&self) -> Vec<u8> {
        self.records().concat()
    }
}

pub fn position_bytes(positions: &[i64]) -> Vec<u8> {
    positions.iter().flat_map(|p| (*p as u32).to_le_bytes()).collect()
}

/// Left edges for parts of these widths that fit into 0..width, at random and without overlap.
pub fn spread(random: &mut Random, widths: &[i64], width: i64) -> Vec<i64> {
    let free = width - widths.iter().sum::<i64>();
    let mut gaps: Vec<i64> = widths.iter().map(|_| random.within(0, free)).collect();
    gaps.sort_unstable();
    let mut before = 0;
    let mut edges = Vec::new();
    for (gap, part) in gaps.iter().zip(widths) {
        edges.push(gap + before);
        before += part;
    }
    edges
}

/// A row small enough to try all placements: ties are frequent, some rows have no free site, a few are too full.
pub fn small(random: &mut Random) -> Row {
    let cells: Vec<i64> = (0..random.pick(&[0, 1, 1, 2, 2, 3, 3, 4, 4, 5])).map(|_| random.within(1, 4)).collect();
    let free = match cells.len() {
        5 => random.pick(&[0, 1, 2, 4, 6]),
        4 => random.pick(&[0, 1, 2, 4, 8]),
        _ => random.pick(&[0, 1, 2, 4, 8, 12]),
    };
    let total: i64 = cells.iter().sum();
    let width = if total > 0 && random.one_in(25) { total - random.within(1, total) } else { total + free };
    let nets = if cells.is_empty() { 0 } else { random.below(7) };
    let nets = (0..nets).map(|_| small_net(random, &cells, width)).collect();
    Row { width, cells, nets }
}

fn small_net(random: &mut Random, cells: &[i64], width: i64) -> Net {
    let mut pins = Vec::new();
    for _ in 0..random.pick(&[1, 1, 1, 2, 2, 3, 4]) {
        let cell = random.below(cells.len());
        pins.push(Pin::Movable(cell, random.within(0, cells[cell])));
    }
    for _ in 0..random.pick(&[0, 0, 1, 1, 1, 2, 3]) {
        pins.push(Pin::Fixed(small_coordinate(random, width)));
    }
    for last in (1..pins.len()).rev() {
        pins.swap(last, random.below(last + 1));
    }
    Net { weight: random.pick(&[1, 1, 1, 1, 2, 2, 3, 7, 1_000]), pins }
}

fn small_coordinate(random: &mut Random, width: i64) -> i64 {
    match random.below(16) {
        0 => random.pick(&[-1_000_000, 1_000_000]),
        1..=3 => random.pick(&[0, width / 2, width]),
        _ => random.within(-4, width + 4),
    }
}
