//! Weigh a load with the proved library: check program T, run it on the samples 41200 and 15600, then once more in two calls,
//! in working memory that is static, as in firmware; then with the tables on the stack; at the end the day's report.
mod stal;
use stal::{Counts, Memory, Refusal, State, Static, Stop};

const PROGRAM: &[u8] = b"I\nU,0,0\nE\nC,-,2,1,-,-,-,-,-,-,-\nB,3\nld,r2,r1,0\nld,r3,r1,1\nsub,r1,r2,r3\nhalt,0\n";
const SAMPLES: &[u8] = b"41200\n15600\n";
/// Jumps to a block that asks for integers in r1, which is a tuple there, and in r2, of which nothing is known.
const FAULTY: &[u8] = b"I\nU,0,0\nE\nC,-,2,1,-,-,-,-,-,-,-\nC,-,2,0,0,-,-,-,-,-,-\nB,3\njmp,#1\nB,4\nhalt,0\n";
static MEMORY: Static<Memory> = Static::new(Memory::new());
static STATE: Static<State> = Static::new(State::new());

/// Prints a line that was written.
fn show(line: Option<&[u8]>) {
    print!("{}", std::str::from_utf8(line.expect("LINE bytes are enough")).expect("ASCII"));
}

/// Prints a check's line, and of a faulty jump or branch the first item that does not fit.
fn verdict(v: Result<Counts, Refusal>) {
    show(stal::verdict_line(v, &mut [0; stal::LINE]));
    if let Err(Refusal { item: Some(item), .. }) = v {
        println!("item {item}");
    }
}

/// Prints an answer's line; a stop's is also kept for the day's report.
fn print(a: Result<Stop, Refusal>, day: &mut Vec<u8>) {
    let mut line = [0; stal::LINE];
    let written = stal::answer_line(a, &mut line);
    show(written);
    if a.is_ok() {
        day.extend_from_slice(written.unwrap_or(b""));
    }
}

/// Prints the day's line, and its figures.
fn report(day: &[u8]) {
    show(stal::report_line(day, &mut [0; stal::LINE]));
    if let Ok(f) = stal::report(day) {
        println!("total {}, mean {}, from {} to {}", f.total, f.quotient, f.smallest, f.largest);
    }
}

fn main() {
    let memory = MEMORY.take().expect("taken once");
    let state = STATE.take().expect("taken once");
    let day = &mut Vec::new();
    verdict(stal::check_with(PROGRAM, memory));
    print(stal::start_with(PROGRAM, SAMPLES, stal::BUDGET, memory, state), day);
    print(stal::start_with(PROGRAM, SAMPLES, 2, memory, state), day);
    print(stal::resume_with(PROGRAM, stal::BUDGET, memory, state), day);
    // no text, a faulty jump, a load that does not fit, a damaged state
    verdict(stal::check_with(b"", memory));
    verdict(stal::check_with(FAULTY, memory));
    print(stal::start_with(PROGRAM, &SAMPLES[..SAMPLES.len() - 1], 1, memory, state), day);
    state.depth = 257;
    print(stal::resume_with(PROGRAM, 1, memory, state), day);
    // with the tables on the stack
    verdict(stal::check(PROGRAM));
    print(stal::start(PROGRAM, SAMPLES, 2, state), day);
    print(stal::resume(PROGRAM, stal::BUDGET, state), day);
    // the day's report of these stops and one more; a day with a line that is no stop's
    day.extend_from_slice(b"halted,4,int,-7\n");
    report(day);
    report(PROGRAM);
}
