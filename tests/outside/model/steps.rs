//! Slope changes and the three steps, done literally on lists of changes.

use super::best::{interval, Change};
use super::reading::{Net, Row};

#[derive(Clone)]
pub struct Clump {
    pub cells: usize,
    pub width: i64,
    pub changes: Vec<Change>,
}

pub struct Bench {
    pub opened: usize,
    /// Clump and left edge, from left to right.
    pub settled: Vec<(Clump, i64)>,
    pub in_hand: Option<Clump>,
    pub carried: usize,
}

pub struct Steps<'a> {
    pub row: &'a Row,
    /// Each cell as a clump of its own.
    single: Vec<Clump>,
}

/// The two changes of a net: the holder and the change.
fn net_changes(row: &Row, net: &Net) -> [(usize, Change); 2] {
    let by_cell = |pin: &&(usize, i64)| pin.0;
    let (left, left_offset) = *net.pins.iter().min_by_key(by_cell).expect("a net has a pin on a cell");
    let (right, right_offset) = *net.pins.iter().max_by_key(by_cell).expect("a net has a pin on a cell");
    let fixed_left = net.fixed.iter().min().copied().unwrap_or(row.width);
    let fixed_right = net.fixed.iter().max().copied().unwrap_or(0);
    [
        (left, Change { at: fixed_left - left_offset, weight: -net.weight }),
        (right, Change { at: fixed_right - right_offset, weight: net.weight }),
    ]
}

fn join(left: Clump, right: Clump) -> Clump {
    let mut changes = left.changes;
    changes.extend(right.changes.iter().map(|change| Change { at: change.at - left.width, weight: change.weight }));
    Clump { cells: left.cells + right.cells, width: left.width + right.width, changes }
}

impl Steps<'_> {
    pub fn of(row: &Row) -> Steps<'_> {
        let plain = |width: &i64| Clump { cells: 1, width: *width, changes: Vec::new() };
        let mut single: Vec<Clump> = row.cells.iter().map(plain).collect();
        for (holder, change) in row.nets.iter().flat_map(|net| net_changes(row, net)) {
            single[holder].changes.push(change);
        }
        Steps { row, single }
    }

    /// The clump of so many cells from this one on.
    pub fn clump(&self, first: usize, cells: usize) -> Clump {
        self.single[first + 1..first + cells].iter().cloned().fold(self.single[first].clone(), join)
    }

    pub fn finished(&self, bench: &Bench) -> bool {
        bench.in_hand.is_none() && bench.opened == self.row.cells.len()
    }

    pub fn step(&self, mut bench: Bench) -> Bench {
        let Some(clump) = bench.in_hand.take() else { return self.open(bench) };
        let end = bench.settled.last().map_or(0, |(last, edge)| edge + last.width);
        let (l, r) = interval(&clump.changes, self.row.width - clump.width);
        match bench.settled.pop() {
            Some((last, _)) if end > r => {
                bench.carried += last.changes.len().min(clump.changes.len());
                bench.in_hand = Some(join(last, clump));
            }
            last => {
                bench.settled.extend(last);
                bench.settled.push((clump, end.max(l)));
            }
        }
        bench
    }

    fn open(&self, mut bench: Bench) -> Bench {
        bench.in_hand = Some(self.single[bench.opened].clone());
        bench.opened += 1;
        bench
    }

    pub fn positions(&self, bench: &Bench) -> Vec<i64> {
        let mut positions = Vec::new();
        for (clump, edge) in &bench.settled {
            let mut at = *edge;
            for _ in 0..clump.cells {
                positions.push(at);
                at += self.row.cells[positions.len() - 1];
            }
        }
        positions
    }
}
