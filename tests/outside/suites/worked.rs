//! The rows that document 01 works by hand, as bytes, with what it says of them. The expected values stand here as data;
//! they were worked out on paper.

use super::Passed;
use crate::both::{self, expect, say, Difference};
use crate::calls;
use crate::model::refused;
use crate::random::Random;
use crate::rows::position_bytes;

enum Fact {
    /// Taken: check answers n.
    Taken(u64),
    /// Refused with this number at this place.
    Refused(u64, u64),
    /// Finished, its cells stand at these sites and its netlength is this.
    Stands(&'static [i64], u64),
    Steps(u64),
    Carries(u8),
    /// After so many steps the bench begins with these bytes, and all further bytes are 0.
    Begins(u32, &'static [u8]),
    /// After so many steps a slice of this budget answers this.
    Slices(u32, u32, u64),
}
use Fact::{Begins, Carries, Refused, Slices, Stands, Steps, Taken};

struct Worked {
    name: &'static str,
    row: &'static [&'static [u8]],
    facts: &'static [Fact],
}

const ROWS: [Worked; 16] = [
    Worked { name: "1", row: &[b"RW\0\0\0\0\0\0\0\0", b"EN"], facts: &[Taken(0), Stands(&[], 0), Steps(0), Slices(0, 0, 1), Slices(0, 9, 1)] },
    Worked { name: "2", row: &[b"RW\x05\0\0\0\x01\0\0\0", b"CE\x05\0\0\0", b"EN"], facts: &[Taken(1), Stands(&[0], 0), Steps(2), Carries(0)] },
    Worked { name: "2, W = 4", row: &[b"RW\x04\0\0\0\x01\0\0\0", b"CE\x05\0\0\0", b"EN"], facts: &[Refused(6, 2)] },
    Worked {
        name: "3",
        row: &[b"RW\x0a\0\0\0\x01\0\x01\0", b"CE\x01\0\0\0", b"NT\x01\0\0\0", b"MP\0\0\0\0\0\0", b"FP\x03\0\0\0", b"FP\x06\0\0\0", b"EN"],
        facts: &[Taken(1), Stands(&[3], 3)],
    },
    Worked {
        name: "4",
        row: &[
            b"RW\x0a\0\0\0\x01\0\x02\0", b"CE\x01\0\0\0", //
            b"NT\x01\0\0\0", b"MP\0\0\0\0\0\0", b"FP\x02\0\0\0", b"NT\x01\0\0\0", b"MP\0\0\0\0\0\0", b"FP\x06\0\0\0", b"EN",
        ],
        facts: &[Taken(1), Stands(&[2], 4)],
    },
    Worked {
        name: "4, weighted",
        row: &[
            b"RW\x0a\0\0\0\x01\0\x02\0", b"CE\x01\0\0\0", //
            b"NT\x02\0\0\0", b"MP\0\0\0\0\0\0", b"FP\x02\0\0\0", b"NT\x03\0\0\0", b"MP\0\0\0\0\0\0", b"FP\x06\0\0\0", b"EN",
        ],
        facts: &[Taken(1), Stands(&[6], 8)],
    },
    Worked {
        name: "5",
        row: &[b"RW\x0a\0\0\0\x01\0\x01\0", b"CE\x01\0\0\0", b"NT\x01\0\0\0", b"FP\xfb\xff\xff\xff", b"MP\0\0\0\0\0\0", b"EN"],
        facts: &[Taken(1), Stands(&[0], 5)],
    },
    Worked {
        name: "6",
        row: &[
            b"RW\x0a\0\0\0\x02\0\x01\0", b"CE\x02\0\0\0", b"CE\x02\0\0\0", //
            b"NT\x01\0\0\0", b"MP\0\0\0\0\0\0", b"MP\x01\0\0\0\0\0", b"EN",
        ],
        facts: &[Taken(2), Stands(&[0, 2], 2), Steps(5), Carries(1)],
    },
    Worked {
        name: "7",
        row: &[
            b"RW\x0a\0\0\0\x02\0\x02\0", b"CE\x02\0\0\0", b"CE\x02\0\0\0", //
            b"NT\x01\0\0\0", b"MP\0\0\0\0\0\0", b"FP\x06\0\0\0", b"NT\x01\0\0\0", b"MP\x01\0\0\0\0\0", b"FP\x02\0\0\0", b"EN",
        ],
        facts: &[Taken(2), Stands(&[0, 2], 6), Steps(5), Carries(2)],
    },
    Worked {
        name: "8, 9, 10",
        row: &[
            b"RW\x0a\0\0\0\x03\0\x03\0", b"CE\x02\0\0\0", b"CE\x03\0\0\0", b"CE\x02\0\0\0", //
            b"NT\x01\0\0\0", b"MP\0\0\0\0\0\0", b"FP\x04\0\0\0", b"NT\x02\0\0\0", b"MP\x01\0\0\0\0\0", b"FP\x04\0\0\0", //
            b"NT\x01\0\0\0", b"MP\x02\0\x02\0\0\0", b"FP\x03\0\0\0", b"EN",
        ],
        facts: &[
            Taken(3),
            Stands(&[2, 4, 7], 8),
            Steps(8),
            Carries(4),
            Begins(5, b"BN\x02\0\0\x01\0\x02\0\0\0\x02\0\x02\0\0\0"),
            Begins(7, b"BN\x03\0\x01\x01\0\x04\0\0\0\x03\0\0\0\0\0"),
            Slices(0, 0, 0),
            Slices(8, 0, 1),
            Slices(8, 5, 1),
            Slices(5, 9, 7),
        ],
    },
    Worked { name: "11, empty input", row: &[], facts: &[Refused(1, 0)] },
    Worked {
        name: "11, offset equal to the width",
        row: &[b"RW\x0a\0\0\0\x01\0\x01\0", b"CE\x02\0\0\0", b"NT\x01\0\0\0", b"MP\0\0\x02\0\0\0", b"EN"],
        facts: &[Taken(1), Stands(&[0], 0)],
    },
    Worked {
        name: "11, offset one more",
        row: &[b"RW\x0a\0\0\0\x01\0\x01\0", b"CE\x02\0\0\0", b"NT\x01\0\0\0", b"MP\0\0\x03\0\0\0", b"EN"],
        facts: &[Refused(4, 3)],
    },
    Worked { name: "11, W = 1,000,000", row: &[b"RW\x40\x42\x0f\0\0\0\0\0", b"EN"], facts: &[Taken(0), Stands(&[], 0)] },
    Worked { name: "11, W = 1,000,001", row: &[b"RW\x41\x42\x0f\0\0\0\0\0", b"EN"], facts: &[Refused(4, 0)] },
    Worked {
        name: "11, W = 1,000,000 with a cell as wide",
        row: &[b"RW\x40\x42\x0f\0\x01\0\0\0", b"CE\x40\x42\x0f\0", b"EN"],
        facts: &[Taken(1), Stands(&[0], 0)],
    },
];

/// More steps than any row here takes.
const ENOUGH: u32 = 100;

impl Fact {
    fn needs(&self) -> &'static [&'static str] {
        match self {
            Taken(_) => &["check"],
            Refused(..) => &["check", "measure", "slice", "placement"],
            Stands(..) => &["placement", "measure"],
            _ => &["slice"],
        }
    }
}

fn bench_after(row: &[u8], steps: u32) -> Result<Vec<u8>, Difference> {
    let fresh = both::fresh(&[0xaa; 1_547])?.buffer;
    Ok(both::slice(row, &fresh, steps)?.buffer)
}

fn holds(name: &str, row: &[u8], fact: &Fact) -> Result<(), Difference> {
    let same = |what: &str, expected: u64, found: u64| expect(&format!("row {name}: {what}"), row, say(expected), say(found));
    match fact {
        Taken(cells) => same("check", *cells, both::check(row)?),
        Refused(number, place) => refused_by_all(row, refused(*number, *place)),
        Stands(positions, netlength) => {
            let held = vec![0xaa; 4 * positions.len()];
            let placement = both::placement(row, &bench_after(row, ENOUGH)?, &held)?;
            same("netlength", *netlength, placement.answer)?;
            expect("positions", row, position_bytes(positions), placement.buffer)?;
            same("measured", *netlength, both::measure(row, &position_bytes(positions))?)
        }
        Steps(steps) => same("steps", 2 * steps + 1, both::slice(row, &bench_after(row, 0)?, ENOUGH)?.answer),
        Carries(carried) => expect("carried", row, &[*carried, 0, 0, 0][..], &bench_after(row, ENOUGH)?[7..11]),
        Begins(steps, bytes) => {
            let mut whole = bytes.to_vec();
            whole.resize(1_547, 0);
            expect(&format!("row {name}: bench after {steps} steps"), row, whole, bench_after(row, *steps)?)
        }
        Slices(after, budget, answer) => same("slice", *answer, both::slice(row, &bench_after(row, *after)?, *budget)?.answer),
    }
}

fn refused_by_all(row: &[u8], refusal: u64) -> Result<(), Difference> {
    let bench = both::fresh(&[0; 1_547])?.buffer;
    let held = vec![0xaa; 4];
    expect("check", row, say(refusal), say(both::check(row)?))?;
    expect("measure", row, say(refusal), say(both::measure(row, &held)?))?;
    expect("slice", row, say(refusal), say(both::slice(row, &bench, 1)?.answer))?;
    expect("placement", row, say(refusal), say(both::placement(row, &bench, &held)?.answer))
}

pub fn run(_: &mut Random, _: usize) -> Passed {
    let mut passed = 0;
    for worked in &ROWS {
        let row = worked.row.concat();
        for fact in worked.facts.iter().filter(|fact| fact.needs().iter().any(|call| calls::linked(call))) {
            holds(worked.name, &row, fact)?;
            passed += 1;
        }
    }
    Ok(passed)
}
