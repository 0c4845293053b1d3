//! What demand 2 asks for, found without clumps: the leftmost among the shortest legal placements, by trying them all,
//! and for longer rows by least prefix costs site by site (document 001).

use crate::rows::{Net, Pin, Row};

pub struct Shortest {
    pub positions: Vec<i64>,
    pub netlength: u64,
}

/// The pins that count: a later pin on the same cell replaces an earlier one.
fn pins(net: &Net) -> Vec<Pin> {
    let replaced = |at: usize, cell: usize| net.pins[at + 1..].iter().any(|pin| matches!(pin, Pin::Movable(c, _) if *c == cell));
    let counts = |at: usize| !matches!(net.pins[at], Pin::Movable(cell, _) if replaced(at, cell));
    (0..net.pins.len()).filter(|at| counts(*at)).map(|at| net.pins[at]).collect()
}

fn counted(row: &Row) -> Vec<(i64, Vec<Pin>)> {
    row.nets.iter().map(|net| (net.weight, pins(net))).collect()
}

fn length(nets: &[(i64, Vec<Pin>)], positions: &[i64]) -> u64 {
    let at = |pin: &Pin| match pin {
        Pin::Fixed(at) => *at,
        Pin::Movable(cell, offset) => positions[*cell] + offset,
    };
    let span = |pins: &[Pin]| pins.iter().map(at).max().unwrap_or(0) - pins.iter().map(at).min().unwrap_or(0);
    nets.iter().map(|(weight, pins)| (weight * span(pins)) as u64).sum()
}

pub fn netlength(row: &Row, positions: &[i64]) -> u64 {
    length(&counted(row), positions)
}

struct Trial<'a> {
    row: &'a Row,
    nets: Vec<(i64, Vec<Pin>)>,
    positions: Vec<i64>,
    /// Least netlength so far, the first placement that has it, and the leftmost site of each cell in any that has it.
    best: Option<(u64, Vec<i64>, Vec<i64>)>,
}

impl Trial<'_> {
    fn place_rest(&mut self, end: i64) {
        let cell = self.positions.len();
        if cell == self.row.cells.len() {
            return self.compare();
        }
        for site in end..=self.row.width - self.row.cells[cell] {
            self.positions.push(site);
            self.place_rest(site + self.row.cells[cell]);
            self.positions.pop();
        }
    }

    fn compare(&mut self) {
        let found = length(&self.nets, &self.positions);
        match &mut self.best {
            Some((least, _, _)) if *least < found => {}
            Some((least, _, leftmost)) if *least == found => {
                for (site, other) in leftmost.iter_mut().zip(&self.positions) {
                    *site = (*site).min(*other);
                }
            }
            _ => self.best = Some((found, self.positions.clone(), self.positions.clone())),
        }
    }
}

/// Every legal placement is tried. None if there is none.
pub fn shortest(row: &Row) -> Option<Shortest> {
    let mut trial = Trial { row, nets: counted(row), positions: Vec::new(), best: None };
    trial.place_rest(0);
    let (netlength, first, leftmost) = trial.best?;
    assert_eq!(first, leftmost, "no single placement has every cell leftmost");
    Some(Shortest { positions: leftmost, netlength })
}

/// The cost of each cell on each site: a legal placement's netlength is a sum over the cells, since the leftmost movable
/// pin of a net is on its leftmost cell and the rightmost on its rightmost.
fn cell_costs(row: &Row) -> Vec<Vec<i64>> {
    let mut costs = vec![vec![0; row.width as usize + 1]; row.cells.len()];
    for (weight, pins) in counted(row) {
        let movable = pins.iter().filter_map(|pin| if let Pin::Movable(cell, offset) = pin { Some((*cell, *offset)) } else { None });
        let fixed = pins.iter().filter_map(|pin| if let Pin::Fixed(at) = pin { Some(*at) } else { None });
        let (left, right) = (movable.clone().min(), movable.max());
        let (fixed_left, fixed_right) = (fixed.clone().min(), fixed.max());
        for site in 0..=row.width {
            if let (Some((l, l_offset)), Some((r, r_offset))) = (left, right) {
                let (low, high) = (site + l_offset, site + r_offset);
                costs[l][site as usize] -= weight * fixed_left.map_or(low, |fixed| fixed.min(low));
                costs[r][site as usize] += weight * fixed_right.map_or(high, |fixed| fixed.max(high));
            }
        }
    }
    costs
}

/// The same placement by least prefix costs: `least[i][y]` is the least cost of cells 0..=i with cell i at y or left of it.
pub fn site_by_site(row: &Row) -> Option<Shortest> {
    let costs = cell_costs(row);
    let mut least: Vec<Vec<Option<i64>>> = Vec::new();
    for (cell, cost) in costs.iter().enumerate() {
        let mut line = vec![None; row.width as usize + 1];
        for y in 0..=row.width - row.cells[cell] {
            let before = if cell == 0 { Some(0) } else { (y - row.cells[cell - 1]).try_into().ok().and_then(|at: usize| least[cell - 1][at]) };
            let here = before.map(|before| before + cost[y as usize]);
            let left = if y == 0 { None } else { line[y as usize - 1] };
            line[y as usize] = here.into_iter().chain(left).min();
        }
        least.push(line);
    }
    let mut positions = vec![0; row.cells.len()];
    let mut end = row.width;
    for cell in (0..row.cells.len()).rev() {
        let last = usize::try_from(end - row.cells[cell]).ok()?;
        let goal = least[cell][last]?;
        positions[cell] = least[cell].iter().position(|cost| *cost == Some(goal))? as i64;
        end = positions[cell];
    }
    Some(Shortest { netlength: netlength(row, &positions), positions })
}
