//! The library's five calls, made through `broker`, a C program that fences every lent buffer and lies beside these tests, or
//! through `broker-valgrind`. Which calls are linked was said when it was built.

use std::io::{Read, Write};
use std::process::{Child, Command, Stdio};
use std::sync::atomic::{AtomicBool, Ordering};
use std::sync::{Mutex, OnceLock};

/// What a call answered, what the buffer that it may write holds now, and what it did that it may not.
pub struct Reply {
    pub answer: u64,
    pub buffer: Vec<u8>,
    pub trespass: Option<&'static str>,
}

pub const NAMES: [&str; 5] = ["fresh", "check", "measure", "slice", "placement"];

const TRESPASSES: [Option<&str>; 3] =
    [None, Some("bytes beside a lent buffer were written"), Some("a buffer lent for reading was written")];
const LOST: &str = "the call did not return: it reached memory that is not lent or was never written, or took too long";

struct Broker {
    child: Mutex<Child>,
    linked: [u8; 5],
}

/// To be set before the first call.
pub static UNDER_VALGRIND: AtomicBool = AtomicBool::new(false);

fn broker() -> &'static Broker {
    static BROKER: OnceLock<Broker> = OnceLock::new();
    BROKER.get_or_init(|| {
        let own = std::env::current_exe().expect("the folder of this program is known");
        let name = if UNDER_VALGRIND.load(Ordering::Relaxed) { "broker-valgrind" } else { "broker" };
        let mut command = Command::new(own.with_file_name(name));
        let mut child = command.stdin(Stdio::piped()).stdout(Stdio::piped()).spawn().expect("broker lies beside this program");
        let mut linked = [0; 5];
        child.stdout.as_mut().expect("a pipe").read_exact(&mut linked).expect("broker says what is linked");
        Broker { child: Mutex::new(child), linked }
    })
}

pub fn linked(name: &str) -> bool {
    NAMES.iter().position(|known| *known == name).is_some_and(|at| broker().linked[at] == 1)
}

/// The request as broker.c reads it: call, budget, which buffer may be written, three lengths, the bytes.
fn request(call: usize, budget: u32, written: usize, buffers: &[&[u8]]) -> Vec<u8> {
    let length = |at: usize| buffers.get(at).map_or(0, |buffer| buffer.len() as u32);
    let numbers = [call as u32 + 1, budget, written as u32, length(0), length(1), length(2)];
    let mut bytes: Vec<u8> = numbers.iter().flat_map(|number| number.to_ne_bytes()).collect();
    bytes.extend(buffers.concat());
    bytes
}

fn exchange(request: &[u8], written: usize) -> std::io::Result<(u64, usize, Vec<u8>)> {
    let mut child = broker().child.lock().expect("one thread only");
    child.stdin.as_mut().expect("a pipe").write_all(request)?;
    let mut head = [0; 9];
    let mut buffer = vec![0; written];
    let replies = child.stdout.as_mut().expect("a pipe");
    replies.read_exact(&mut head)?;
    replies.read_exact(&mut buffer)?;
    let (answer, trespass) = head.split_at(8);
    Ok((u64::from_ne_bytes(answer.try_into().expect("eight bytes")), usize::from(trespass[0]), buffer))
}

/// One call; `written` is the buffer that it may write. A call that is not linked gives no reply.
fn call(name: &str, buffers: &[&[u8]], written: Option<usize>, budget: u32) -> Option<Reply> {
    if !linked(name) {
        return None;
    }
    let at = NAMES.iter().position(|known| *known == name)?;
    let request = request(at, budget, written.unwrap_or(3), buffers);
    let size = written.map_or(0, |which| buffers[which].len());
    Some(match exchange(&request, size) {
        Ok((answer, trespass, buffer)) => Reply { answer, buffer, trespass: TRESPASSES[trespass] },
        Err(_) => Reply { answer: 0, buffer: Vec::new(), trespass: Some(LOST) },
    })
}

pub fn fresh(held: &[u8]) -> Option<Reply> {
    call("fresh", &[held], Some(0), 0)
}

pub fn check(row: &[u8]) -> Option<Reply> {
    call("check", &[row], None, 0)
}

pub fn measure(row: &[u8], placement: &[u8]) -> Option<Reply> {
    call("measure", &[row, placement], None, 0)
}

pub fn slice(row: &[u8], held: &[u8], budget: u32) -> Option<Reply> {
    call("slice", &[row, held], Some(1), budget)
}

pub fn placement(row: &[u8], bench: &[u8], held: &[u8]) -> Option<Reply> {
    call("placement", &[row, bench, held], Some(2), 0)
}
