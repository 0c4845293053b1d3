//! Reading a row, record by record ("The row as bytes" and refusals 1 to 6).

use super::{Refusal, CUT, FULL, LONELY, MARK, RANGE, TAIL};

pub struct Net {
    pub weight: i64,
    pub fixed: Vec<i64>,
    /// Cell and offset, one for each cell named.
    pub pins: Vec<(usize, i64)>,
}

pub struct Row {
    pub width: i64,
    pub cells: Vec<i64>,
    pub nets: Vec<Net>,
}

struct Reader<'a> {
    rest: &'a [u8],
    record: u64,
    cells_said: usize,
    nets_said: usize,
    pins: usize,
    ended: bool,
    row: Row,
}

pub fn read(bytes: &[u8]) -> Result<Row, Refusal> {
    let row = Row { width: 0, cells: Vec::new(), nets: Vec::new() };
    let mut reader = Reader { rest: bytes, record: 0, cells_said: 0, nets_said: 0, pins: 0, ended: false, row };
    while !reader.ended {
        reader.read_record().map_err(|number| Refusal { number, place: reader.record })?;
        reader.record += 1;
    }
    if !reader.rest.is_empty() {
        return Err(Refusal { number: TAIL, place: reader.record });
    }
    if reader.row.cells.iter().sum::<i64>() > reader.row.width {
        return Err(Refusal { number: FULL, place: reader.record - 1 });
    }
    Ok(reader.row)
}

fn body_size(mark: &[u8]) -> usize {
    match mark {
        b"RW" => 8,
        b"MP" => 6,
        b"EN" => 0,
        _ => 4,
    }
}

fn number(body: &[u8], from: usize, size: usize) -> i64 {
    body[from..from + size].iter().rev().fold(0, |sum, byte| 256 * sum + i64::from(*byte))
}

fn signed(body: &[u8]) -> i64 {
    let plain = number(body, 0, 4);
    if plain < 1 << 31 { plain } else { plain - (1 << 32) }
}

impl Reader<'_> {
    /// One record: fewer than two bytes, mark, lonely net, body short, fields.
    fn read_record(&mut self) -> Result<(), u64> {
        if self.rest.len() < 2 {
            return Err(CUT);
        }
        let (mark, after_mark) = self.rest.split_at(2);
        if !self.allowed(mark) {
            return Err(MARK);
        }
        if (mark == b"NT" || mark == b"EN") && self.row.nets.last().is_some_and(|net| net.pins.is_empty()) {
            return Err(LONELY);
        }
        if after_mark.len() < body_size(mark) {
            return Err(CUT);
        }
        let (body, rest) = after_mark.split_at(body_size(mark));
        self.rest = rest;
        if self.take(mark, body) { Ok(()) } else { Err(RANGE) }
    }

    fn allowed(&self, mark: &[u8]) -> bool {
        let nets = self.row.nets.len();
        if self.record == 0 {
            mark == b"RW"
        } else if self.row.cells.len() < self.cells_said {
            mark == b"CE"
        } else {
            match mark {
                b"NT" => nets < self.nets_said,
                b"FP" | b"MP" => nets > 0,
                b"EN" => nets == self.nets_said,
                _ => false,
            }
        }
    }

    /// Takes a whole record; false if a number is outside its range.
    fn take(&mut self, mark: &[u8], body: &[u8]) -> bool {
        match mark {
            b"RW" => {
                self.row.width = number(body, 0, 4);
                self.cells_said = number(body, 4, 2) as usize;
                self.nets_said = number(body, 6, 2) as usize;
                self.row.width <= 1_000_000 && self.cells_said <= 256 && self.nets_said <= 512
            }
            b"CE" => {
                self.row.cells.push(number(body, 0, 4));
                (1..=1_000_000).contains(&number(body, 0, 4))
            }
            b"NT" => {
                self.row.nets.push(Net { weight: number(body, 0, 4), fixed: Vec::new(), pins: Vec::new() });
                (1..=1_000).contains(&number(body, 0, 4))
            }
            b"EN" => {
                self.ended = true;
                true
            }
            _ => self.take_pin(mark, body),
        }
    }

    fn take_pin(&mut self, mark: &[u8], body: &[u8]) -> bool {
        self.pins += 1;
        let Some(net) = self.row.nets.last_mut() else { return false };
        if mark == b"FP" {
            net.fixed.push(signed(body));
            return self.pins <= 2_048 && (-1_000_000..=1_000_000).contains(&signed(body));
        }
        let cell = number(body, 0, 2) as usize;
        let offset = number(body, 2, 4);
        net.pins.retain(|(named, _)| *named != cell);
        net.pins.push((cell, offset));
        self.pins <= 2_048 && cell < self.row.cells.len() && offset <= self.row.cells[cell]
    }
}
