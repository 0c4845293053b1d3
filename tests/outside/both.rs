//! Each call asked of the model and of the library: same answer, same bytes, nothing else touched. A call that is not
//! linked is asked of the model alone.

use crate::calls::{self, Reply};
use crate::model::{self, Outcome};

/// The first difference met: what was asked, of which row, and the two answers.
pub struct Difference {
    pub asked: String,
    pub row: Vec<u8>,
    pub expected: String,
    pub found: String,
}

pub fn hex(bytes: &[u8]) -> String {
    bytes.iter().map(|byte| format!("{byte:02x}")).collect()
}

/// The same with a long run of zeros at the end only counted.
fn short_hex(bytes: &[u8]) -> String {
    let used = bytes.iter().rposition(|byte| *byte != 0).map_or(0, |last| last + 1);
    let zeros = bytes.len() - used;
    if zeros < 8 { hex(bytes) } else { format!("{} and {zeros} bytes 0", hex(&bytes[..used])) }
}

/// An answer as a person reads it.
pub fn say(answer: u64) -> String {
    let (number, place) = ((answer >> 32) & 0x7fff_ffff, answer & 0xffff_ffff);
    if answer >> 63 == 1 { format!("refusal {number} at {place} ({answer:#x})") } else { format!("{answer}") }
}

/// Something that must hold whatever the model says, as a bound or the search's placement.
pub fn expect<T: PartialEq + std::fmt::Debug>(asked: &str, row: &[u8], expected: T, found: T) -> Result<(), Difference> {
    if expected == found {
        return Ok(());
    }
    let (expected, found) = (format!("{expected:?}"), format!("{found:?}"));
    Err(Difference { asked: asked.to_string(), row: row.to_vec(), expected, found })
}

fn compare(asked: &dyn Fn() -> String, row: &[u8], model: Outcome, library: Option<Reply>) -> Result<Outcome, Difference> {
    let Some(reply) = library else { return Ok(model) };
    let difference = |expected: String, found: String| Difference { asked: asked(), row: row.to_vec(), expected, found };
    if let Some(trespass) = reply.trespass {
        return Err(difference("an answer, and nothing touched but the lent buffers".to_string(), trespass.to_string()));
    }
    if reply.answer != model.answer {
        return Err(difference(say(model.answer), say(reply.answer)));
    }
    if reply.buffer != model.buffer {
        let first = reply.buffer.iter().zip(&model.buffer).position(|(a, b)| a != b).unwrap_or(0);
        let show = |bytes: &[u8]| format!("buffer {} (first difference at byte {first})", short_hex(bytes));
        return Err(difference(show(&model.buffer), show(&reply.buffer)));
    }
    Ok(model)
}

pub fn check(row: &[u8]) -> Result<u64, Difference> {
    let asked = || "check".to_string();
    Ok(compare(&asked, row, model::check(row), calls::check(row))?.answer)
}

pub fn fresh(held: &[u8]) -> Result<Outcome, Difference> {
    let asked = || format!("fresh of {} bytes", held.len());
    compare(&asked, &[], model::fresh(held), calls::fresh(held))
}

pub fn slice(row: &[u8], held: &[u8], budget: u32) -> Result<Outcome, Difference> {
    let asked = || format!("slice of budget {budget} from bench {}", short_hex(held));
    compare(&asked, row, model::slice(row, held, budget), calls::slice(row, held, budget))
}

pub fn placement(row: &[u8], bench: &[u8], held: &[u8]) -> Result<Outcome, Difference> {
    let asked = || format!("placement into {} bytes from bench {}", held.len(), short_hex(bench));
    compare(&asked, row, model::placement(row, bench, held), calls::placement(row, bench, held))
}

pub fn measure(row: &[u8], placement: &[u8]) -> Result<u64, Difference> {
    let asked = || format!("measure of placement {}", hex(placement));
    Ok(compare(&asked, row, model::measure(row, placement), calls::measure(row, placement))?.answer)
}
