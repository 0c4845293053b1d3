//! Damaged rows: check and measure, and with them slice and placement, must give the model's refusal and place.

use super::whole_run::noise;
use super::Passed;
use crate::both::{self, Difference};
use crate::model;
use crate::random::Random;
use crate::rows::{self, damage, medium, Row};

pub fn run(random: &mut Random, cases: usize) -> Passed {
    let mut asked = 0;
    for form in damage::crowded_forms(random) {
        ask(random, &form)?;
        asked += 1;
    }
    while asked < cases / 2 {
        let row = rows::small(random);
        for form in damage::every_form(&row) {
            ask(random, &form)?;
            asked += 1;
        }
    }
    while asked < cases {
        let row = some_row(random);
        let form = damage::random_form(random, &row);
        ask(random, &form)?;
        asked += 1;
    }
    Ok(asked)
}

fn some_row(random: &mut Random) -> Row {
    if random.one_in(50) { medium::medium(random) } else { rows::small(random) }
}

fn ask(random: &mut Random, form: &[u8]) -> Result<(), Difference> {
    let answer = both::check(form)?;
    let cells = if answer >> 63 == 0 { answer as usize } else { random.below(6) };
    let size = if random.one_in(8) { random.below(30) } else { 4 * cells };
    let placement: Vec<u8> = if random.one_in(2) { noise(random, size) } else { vec![0; size] };
    both::measure(form, &placement)?;
    let bench = if random.one_in(8) { noise(random, 1_547) } else { model::bench::fresh() };
    let bench = &bench[..if random.one_in(8) { random.below(1_548) } else { 1_547 }];
    both::slice(form, bench, random.pick(&[0, 1, 9]))?;
    both::placement(form, bench, &placement)?;
    Ok(())
}
