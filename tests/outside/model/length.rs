//! Legal, and how long.

use super::reading::{Net, Row};

/// The first cell that starts before its left neighbour's end or ends past W.
pub fn overlap(row: &Row, positions: &[i64]) -> Option<usize> {
    let mut end = 0;
    for (cell, width) in row.cells.iter().enumerate() {
        if positions[cell] < end || positions[cell] + width > row.width {
            return Some(cell);
        }
        end = positions[cell] + width;
    }
    None
}

fn span(net: &Net, positions: &[i64]) -> i64 {
    let mut pins = net.fixed.clone();
    pins.extend(net.pins.iter().map(|(cell, offset)| positions[*cell] + offset));
    pins.iter().max().unwrap_or(&0) - pins.iter().min().unwrap_or(&0)
}

pub fn netlength(row: &Row, positions: &[i64]) -> u64 {
    row.nets.iter().map(|net| (net.weight * span(net, positions)) as u64).sum()
}
