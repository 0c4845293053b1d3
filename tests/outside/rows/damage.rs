//! Damaged forms of a row: cut, wrong marks, numbers at and past their ranges, records in wrong order, tails, lonely nets,
//! too many pins. Some forms are sound rows again; the model says which.

use super::{record, Net, Pin, Row};
use crate::random::Random;

const MARKS: [&[u8; 2]; 6] = [b"RW", b"CE", b"NT", b"FP", b"MP", b"EN"];
const WRONG_MARKS: [&[u8; 2]; 8] = [b"rw", b"WR", b"EC", b"TN", b"RX", b"BN", b"\0\0", b"\xff\xff"];
const PINS: usize = 2_048;

/// Every form of one row that can be listed.
pub fn every_form(row: &Row) -> Vec<Vec<u8>> {
    let records = row.records();
    let bytes = records.concat();
    let mut forms = vec![bytes.clone()];
    forms.extend((0..bytes.len()).map(|end| bytes[..end].to_vec()));
    forms.extend(wrong_marks(&records));
    forms.extend(at_and_past_ranges(row, &records));
    forms.extend(wrong_order(&records));
    forms.extend(tails(&bytes));
    forms.extend(lonely(row));
    forms.extend(widths_near_full(row));
    forms
}

fn wrong_marks(records: &[Vec<u8>]) -> Vec<Vec<u8>> {
    let mut forms = Vec::new();
    for at in 0..records.len() {
        let first = records[at][0];
        let second = records[at][1];
        let flipped = [[first ^ 1, second], [first, second ^ 1], [first ^ 0x20, second], [first, second ^ 0x80], [second, first]];
        for mark in MARKS.iter().chain(&WRONG_MARKS).map(|mark| **mark).chain(flipped) {
            forms.push(with_bytes(records, at, 0, &mark));
        }
    }
    forms
}

fn with_bytes(records: &[Vec<u8>], at: usize, from: usize, bytes: &[u8]) -> Vec<u8> {
    let mut changed = records.to_vec();
    changed[at][from..from + bytes.len()].copy_from_slice(bytes);
    changed.concat()
}

/// The numbers to try in a record: where they stand, their size, and the numbers.
fn numbers_to_try(row: &Row, record: &[u8]) -> Vec<(usize, usize, Vec<i64>)> {
    let (n, m) = (row.cells.len() as i64, row.nets.len() as i64);
    let far = [1 << 31, (1 << 31) - 1, (1 << 32) - 1];
    match &record[..2] {
        b"RW" => vec![
            (2, 4, [&[0, 1_000_000, 1_000_001][..], &far].concat()),
            (6, 2, vec![0, n - 1, n + 1, 256, 257, 65_535]),
            (8, 2, vec![0, m - 1, m + 1, 512, 513, 65_535]),
        ],
        b"CE" => vec![(2, 4, [&[0, 1, 1_000_000, 1_000_001][..], &far].concat())],
        b"NT" => vec![(2, 4, [&[0, 1, 1_000, 1_001, 65_537][..], &far].concat())],
        b"FP" => vec![(2, 4, [&[-1_000_000, -1_000_001, 1_000_000, 1_000_001][..], &far].concat())],
        b"MP" => {
            let offsets = row.cells.iter().flat_map(|width| [*width, width + 1]);
            vec![(2, 2, vec![0, n - 1, n, n + 1, 256, 65_535]), (4, 4, offsets.chain(far).chain([0]).collect())]
        }
        _ => Vec::new(),
    }
}

fn at_and_past_ranges(row: &Row, records: &[Vec<u8>]) -> Vec<Vec<u8>> {
    let mut forms = Vec::new();
    for (at, record) in records.iter().enumerate() {
        for (from, size, numbers) in numbers_to_try(row, record) {
            forms.extend(numbers.iter().map(|number| with_bytes(records, at, from, &number.to_le_bytes()[..size])));
        }
    }
    forms
}

fn wrong_order(records: &[Vec<u8>]) -> Vec<Vec<u8>> {
    let mut forms = Vec::new();
    for at in 0..records.len() {
        let (before, after) = records.split_at(at);
        forms.push([before, &after[1..]].concat().concat());
        forms.push([before, &after[..1], after].concat().concat());
        if after.len() > 1 {
            forms.push([before, &after[1..2], &after[..1], &after[2..]].concat().concat());
        }
    }
    forms
}

fn tails(bytes: &[u8]) -> Vec<Vec<u8>> {
    let tails: [&[u8]; 6] = [b"\0", b"E", b"EN", b"EN\0", b"FP\x01\0\0\0", b"RW\0\0\0\0\0\0\0\0EN"];
    tails.iter().map(|tail| [bytes, tail].concat()).collect()
}

/// Each net in turn without pins on cells, its closing record cut, of a wrong mark, or not allowed by the nets said.
fn lonely(row: &Row) -> Vec<Vec<u8>> {
    let mut forms = Vec::new();
    for at in 0..row.nets.len() {
        let mut changed = row.clone();
        changed.nets[at].pins.retain(|pin| matches!(pin, Pin::Fixed(_)));
        let records = changed.records();
        let closing = 1 + row.cells.len() + changed.nets[..=at].iter().map(|net| 1 + net.pins.len()).sum::<usize>();
        let start: usize = records[..closing].iter().map(Vec::len).sum();
        let bytes = records.concat();
        forms.extend((0..=6).map(|more| bytes[..(start + more).min(bytes.len())].to_vec()));
        forms.extend(MARKS.iter().map(|mark| with_bytes(&records, closing, 0, *mark)));
        for nets in 0..=row.nets.len() + 1 {
            forms.push(with_bytes(&records, 0, 8, &(nets as u16).to_le_bytes()));
        }
        changed.nets[at].pins.clear();
        forms.push(changed.bytes());
    }
    forms
}

fn widths_near_full(row: &Row) -> Vec<Vec<u8>> {
    let total: i64 = row.cells.iter().sum();
    let widths = [total - 1, total, total + 1];
    widths.iter().filter(|width| **width >= 0).map(|width| Row { width: *width, ..row.clone() }.bytes()).collect()
}

/// One damage at random, or a few on top of each other.
pub fn random_form(random: &mut Random, row: &Row) -> Vec<u8> {
    let mut records = row.records();
    if random.one_in(3) {
        disorder(random, &mut records);
    }
    let mut bytes = records.concat();
    for _ in 0..random.pick(&[0, 1, 1, 1, 2, 4]) {
        let at = random.below(bytes.len());
        bytes[at] = match random.below(4) {
            0 => random.pick(&[0, 1, 0x7f, 0x80, 0xff]),
            1 => bytes[at].wrapping_add(random.pick(&[1, 255])),
            2 => bytes[at] ^ 1 << random.below(8),
            _ => random.next() as u8,
        };
    }
    match random.below(12) {
        0 => bytes.truncate(random.below(bytes.len() + 1)),
        1 => bytes.extend(MARKS[random.below(6)]),
        _ => {}
    }
    bytes
}

fn disorder(random: &mut Random, records: &mut Vec<Vec<u8>>) {
    let (one, other) = (random.below(records.len()), random.below(records.len()));
    match random.below(3) {
        0 => records.swap(one, other),
        1 => records.insert(one, records[other].clone()),
        _ => {
            let moved = records.remove(one);
            records.insert(other.min(records.len()), moved);
        }
    }
}

/// A row of one cell with so many pins, in nets of random sizes; later pins on the cell replace earlier ones.
fn crowd(random: &mut Random, pins: usize) -> Row {
    let mut nets = Vec::new();
    let mut left = pins;
    while left > 0 {
        let here = 1 + random.below(left.min(700));
        let pin = |random: &mut Random| if random.one_in(2) { Pin::Fixed(random.within(-9, 9)) } else { Pin::Movable(0, random.within(0, 3)) };
        let rest = (1..here).map(|_| pin(random)).collect::<Vec<_>>();
        nets.push(Net { weight: 1, pins: [vec![Pin::Movable(0, 1)], rest].concat() });
        left -= here;
    }
    Row { width: 9, cells: vec![3], nets }
}

/// Rows with the last pin that is allowed and with one or two too many, whole, cut in the last pin, or wrong there too.
pub fn crowded_forms(random: &mut Random) -> Vec<Vec<u8>> {
    let mut forms = Vec::new();
    for pins in [PINS - 1, PINS, PINS + 1, PINS + 2] {
        for last in [record(b"FP", &[(0, 4)]), record(b"MP", &[(0, 2), (0, 4)]), record(b"FP", &[(1_000_001, 4)]), record(b"MP", &[(1, 2), (0, 4)])] {
            let mut records = crowd(random, pins - 1).records();
            records.insert(records.len() - 1, last.clone());
            let bytes = records.concat();
            forms.extend((1..=last.len() + 2).map(|less| bytes[..bytes.len() - less].to_vec()));
            forms.push(bytes);
        }
    }
    forms
}
