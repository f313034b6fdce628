//! The proved checker and machine for STAL programs, safe to call from Rust (libstal.a, made by `rt lib` in crates/stal; x86-64). No
//! allocation, no static state, `core` only: firmware may include this file as it is. Slices and `&mut` meet everything that the boundary
//! asks (not null, aligned, as long as they say, no overlap), and state and working memory have the lengths that are wanted, so nothing is
//! left to test. Two kinds of calls, with the same answers: `check_with`, `start_with` and `resume_with` are lent working memory and need
//! little stack, for firmware; `check`, `start` and `resume` put their tables on the stack, up to 1 MB of it. Besides them a day's report,
//! `report`, and the lines that the programs print, `report_line`, `verdict_line` and `answer_line`, which need neither.

use core::cell::UnsafeCell;
use core::sync::atomic::{AtomicBool, Ordering};

pub const STACK: usize = 256;
pub const HEAP: usize = 2048;
pub const BUDGET: usize = 1_000_000;
const IMAGE: usize = 161_694;
const LITERALS: usize = 16_400;
const PLAN: usize = 8_208;
const WORK: usize = 8_192;
/// No line is longer, its LF included.
pub const LINE: usize = 160;

extern "C" {
    fn stal_check(text: *const u8, text_len: usize, first: *mut usize, second: *mut usize) -> usize;
    fn stal_start(
        text: *const u8, text_len: usize, samples: *const u8, samples_len: usize, budget: usize,
        rk: *mut u8, rk_len: usize, rn: *mut u32, rn_len: usize, sk: *mut u8, sk_len: usize, sn: *mut u32, sn_len: usize,
        hk: *mut u8, hk_len: usize, hn: *mut u32, hn_len: usize, depth: *mut u32, used: *mut usize, position: *mut usize,
        first: *mut usize, kind: *mut u8, number: *mut u32,
    ) -> usize;
    fn stal_continue(
        text: *const u8, text_len: usize, budget: usize,
        rk: *mut u8, rk_len: usize, rn: *mut u32, rn_len: usize, sk: *mut u8, sk_len: usize, sn: *mut u32, sn_len: usize,
        hk: *mut u8, hk_len: usize, hn: *mut u32, hn_len: usize, depth: *mut u32, used: *mut usize, position: *mut usize,
        first: *mut usize, kind: *mut u8, number: *mut u32,
    ) -> usize;
    fn stal_check_in(
        text: *const u8, text_len: usize,
        image: *mut u16, image_len: usize, literals: *mut u32, literals_len: usize, plan: *mut u32, plan_len: usize,
        work: *mut u16, work_len: usize, first: *mut usize, second: *mut usize,
    ) -> usize;
    fn stal_start_in(
        text: *const u8, text_len: usize, samples: *const u8, samples_len: usize, budget: usize,
        image: *mut u16, image_len: usize, literals: *mut u32, literals_len: usize, plan: *mut u32, plan_len: usize,
        rk: *mut u8, rk_len: usize, rn: *mut u32, rn_len: usize, sk: *mut u8, sk_len: usize, sn: *mut u32, sn_len: usize,
        hk: *mut u8, hk_len: usize, hn: *mut u32, hn_len: usize, depth: *mut u32, used: *mut usize, position: *mut usize,
        first: *mut usize, kind: *mut u8, number: *mut u32,
    ) -> usize;
    fn stal_continue_in(
        text: *const u8, text_len: usize, budget: usize,
        image: *mut u16, image_len: usize, literals: *mut u32, literals_len: usize, plan: *mut u32, plan_len: usize,
        rk: *mut u8, rk_len: usize, rn: *mut u32, rn_len: usize, sk: *mut u8, sk_len: usize, sn: *mut u32, sn_len: usize,
        hk: *mut u8, hk_len: usize, hn: *mut u32, hn_len: usize, depth: *mut u32, used: *mut usize, position: *mut usize,
        first: *mut usize, kind: *mut u8, number: *mut u32,
    ) -> usize;
    fn stal_report(text: *const u8, text_len: usize, figures: *mut u64, figures_len: usize, line: *mut usize) -> usize;
    fn stal_report_line(text: *const u8, text_len: usize, out: *mut u8, out_len: usize, length: *mut usize) -> usize;
    fn stal_verdict_line(code: usize, first: usize, second: usize, out: *mut u8, out_len: usize, length: *mut usize) -> usize;
    fn stal_answer_line(
        code: usize, first: usize, kind: u8, number: u32, out: *mut u8, out_len: usize, length: *mut usize,
    ) -> usize;
}

/// A word: an integer, a label (its block's number), a tuple handle (its length word's index), a stack height, or junk.
#[derive(Clone, Copy, Debug, PartialEq, Eq)]
pub enum Word {
    Int(i32),
    Code(u32),
    Tuple(u32),
    Height(u32),
    Junk,
}

/// A refusal: the fault's number (1 to 16, 17 of a day's report) and its line.
#[derive(Clone, Copy, Debug, PartialEq, Eq)]
pub struct Refusal {
    pub number: usize,
    pub line: usize,
    /// for 10 at a jump or branch the first item that does not fit: sp (0) before r1 (1), r1 before r2 (2), and so on to r8 (8); 99 for the
    /// resulting row; None where there is none to name
    pub item: Option<usize>,
}

/// An accepted program's counts.
#[derive(Clone, Copy, Debug, PartialEq, Eq)]
pub struct Counts {
    pub blocks: usize,
    pub instructions: usize,
}

/// How a run stopped, with the steps made.
#[derive(Clone, Copy, Debug, PartialEq, Eq)]
pub enum Stop {
    Halted(usize, Word),
    Paused(usize),
    StackFull(usize),
    HeapFull(usize),
    Stuck(usize),
}

/// A day's figures: halts with an integer, all other stops; total, smallest, largest and mean (rounded down) of the integers, and the
/// remainder. Where there is no integer, count and the last five are 0.
#[derive(Clone, Copy, Debug, PartialEq, Eq)]
pub struct Figures {
    pub count: u64,
    pub others: u64,
    pub total: i64,
    pub smallest: i64,
    pub largest: i64,
    pub quotient: i64,
    pub remainder: u64,
}

/// The machine's state, laid out as stal_state of stal.h: kinds and numbers of registers, stack (from the bottom) and heap; how many stack
/// and heap words are in use; the next instruction, counted over all blocks.
#[repr(C)]
#[derive(Clone)]
pub struct State {
    pub rk: [u8; 8],
    pub rn: [u32; 8],
    pub sk: [u8; STACK],
    pub sn: [u32; STACK],
    pub hk: [u8; HEAP],
    pub hn: [u32; HEAP],
    pub depth: u32,
    pub used: usize,
    pub position: usize,
}

impl State {
    pub const fn new() -> State {
        State { rk: [0; 8], rn: [0; 8], sk: [0; STACK], sn: [0; STACK], hk: [0; HEAP], hn: [0; HEAP], depth: 0, used: 0, position: 0 }
    }
}

impl Default for State {
    fn default() -> State {
        State::new()
    }
}

/// Working memory, laid out as stal_memory of stal.h: 438 KB. What it holds changes no answer.
#[repr(C)]
pub struct Memory {
    image: [u16; IMAGE],
    work: [u16; WORK],
    literals: [u32; LITERALS],
    plan: [u32; PLAN],
}

impl Memory {
    /// For a static: `static MEMORY: Static<Memory> = Static::new(Memory::new());` is all zeros, so it takes no room in the program's file.
    pub const fn new() -> Memory {
        Memory { image: [0; IMAGE], work: [0; WORK], literals: [0; LITERALS], plan: [0; PLAN] }
    }
}

/// A value in a static, for whoever takes it first.
pub struct Static<T> {
    taken: AtomicBool,
    value: UnsafeCell<T>,
}

// Only `take` leads to the value, and only once.
unsafe impl<T: Send> Sync for Static<T> {}

impl<T> Static<T> {
    pub const fn new(value: T) -> Static<T> {
        Static { taken: AtomicBool::new(false), value: UnsafeCell::new(value) }
    }

    /// The value, to be lent to one call after another; None if it was taken before.
    pub fn take(&'static self) -> Option<&'static mut T> {
        if self.taken.swap(true, Ordering::Relaxed) {
            return None;
        }
        Some(unsafe { &mut *self.value.get() })
    }
}

fn word(kind: u8, number: u32) -> Word {
    match kind {
        0 => Word::Int(number as i32),
        1 => Word::Code(number),
        2 => Word::Tuple(number),
        3 => Word::Height(number),
        _ => Word::Junk,
    }
}

fn answer(code: usize, first: usize, kind: u8, number: u32) -> Result<Stop, Refusal> {
    match code {
        0 => Ok(Stop::Halted(first, word(kind, number))),
        17 => Ok(Stop::Paused(first)),
        18 => Ok(Stop::StackFull(first)),
        19 => Ok(Stop::HeapFull(first)),
        20 => Ok(Stop::Stuck(first)),
        _ => Err(Refusal { number: code, line: first, item: None }),
    }
}

fn verdict(code: usize, first: usize, second: usize) -> Result<Counts, Refusal> {
    match code {
        0 => Ok(Counts { blocks: first, instructions: second }),
        _ => Err(Refusal { number: code, line: first, item: if second == 100 { None } else { Some(second) } }),
    }
}

/// Check a program's text.
pub fn check(text: &[u8]) -> Result<Counts, Refusal> {
    let (mut first, mut second) = (0, 0);
    let code = unsafe { stal_check(text.as_ptr(), text.len(), &mut first, &mut second) };
    verdict(code, first, second)
}

/// Check a program's text in the memory lent.
pub fn check_with(text: &[u8], m: &mut Memory) -> Result<Counts, Refusal> {
    let (mut first, mut second) = (0, 0);
    let code = unsafe {
        stal_check_in(
            text.as_ptr(), text.len(),
            m.image.as_mut_ptr(), IMAGE, m.literals.as_mut_ptr(), LITERALS, m.plan.as_mut_ptr(), PLAN, m.work.as_mut_ptr(), WORK,
            &mut first, &mut second,
        )
    };
    verdict(code, first, second)
}

/// Start a program on its samples' text, with at most `budget` steps.
pub fn start(text: &[u8], samples: &[u8], budget: usize, s: &mut State) -> Result<Stop, Refusal> {
    let (mut first, mut kind, mut number) = (0, 0, 0);
    let code = unsafe {
        stal_start(
            text.as_ptr(), text.len(), samples.as_ptr(), samples.len(), budget,
            s.rk.as_mut_ptr(), 8, s.rn.as_mut_ptr(), 8, s.sk.as_mut_ptr(), STACK, s.sn.as_mut_ptr(), STACK,
            s.hk.as_mut_ptr(), HEAP, s.hn.as_mut_ptr(), HEAP, &mut s.depth, &mut s.used, &mut s.position,
            &mut first, &mut kind, &mut number,
        )
    };
    answer(code, first, kind, number)
}

/// Start a program in the memory lent.
pub fn start_with(text: &[u8], samples: &[u8], budget: usize, m: &mut Memory, s: &mut State) -> Result<Stop, Refusal> {
    let (mut first, mut kind, mut number) = (0, 0, 0);
    let code = unsafe {
        stal_start_in(
            text.as_ptr(), text.len(), samples.as_ptr(), samples.len(), budget,
            m.image.as_mut_ptr(), IMAGE, m.literals.as_mut_ptr(), LITERALS, m.plan.as_mut_ptr(), PLAN,
            s.rk.as_mut_ptr(), 8, s.rn.as_mut_ptr(), 8, s.sk.as_mut_ptr(), STACK, s.sn.as_mut_ptr(), STACK,
            s.hk.as_mut_ptr(), HEAP, s.hn.as_mut_ptr(), HEAP, &mut s.depth, &mut s.used, &mut s.position,
            &mut first, &mut kind, &mut number,
        )
    };
    answer(code, first, kind, number)
}

/// Continue a program from the state, with at most `budget` steps.
pub fn resume(text: &[u8], budget: usize, s: &mut State) -> Result<Stop, Refusal> {
    let (mut first, mut kind, mut number) = (0, 0, 0);
    let code = unsafe {
        stal_continue(
            text.as_ptr(), text.len(), budget,
            s.rk.as_mut_ptr(), 8, s.rn.as_mut_ptr(), 8, s.sk.as_mut_ptr(), STACK, s.sn.as_mut_ptr(), STACK,
            s.hk.as_mut_ptr(), HEAP, s.hn.as_mut_ptr(), HEAP, &mut s.depth, &mut s.used, &mut s.position,
            &mut first, &mut kind, &mut number,
        )
    };
    answer(code, first, kind, number)
}

/// Continue a program in the memory lent.
pub fn resume_with(text: &[u8], budget: usize, m: &mut Memory, s: &mut State) -> Result<Stop, Refusal> {
    let (mut first, mut kind, mut number) = (0, 0, 0);
    let code = unsafe {
        stal_continue_in(
            text.as_ptr(), text.len(), budget,
            m.image.as_mut_ptr(), IMAGE, m.literals.as_mut_ptr(), LITERALS, m.plan.as_mut_ptr(), PLAN,
            s.rk.as_mut_ptr(), 8, s.rn.as_mut_ptr(), 8, s.sk.as_mut_ptr(), STACK, s.sn.as_mut_ptr(), STACK,
            s.hk.as_mut_ptr(), HEAP, s.hn.as_mut_ptr(), HEAP, &mut s.depth, &mut s.used, &mut s.position,
            &mut first, &mut kind, &mut number,
        )
    };
    answer(code, first, kind, number)
}

// ---- a day's report, and lines
/// Report a day: its text is the lines of its stops, at most 500.
pub fn report(text: &[u8]) -> Result<Figures, Refusal> {
    let (mut n, mut line) = ([0u64; 7], 0);
    let code = unsafe { stal_report(text.as_ptr(), text.len(), n.as_mut_ptr(), n.len(), &mut line) };
    if code != 0 {
        return Err(Refusal { number: code, line, item: None });
    }
    Ok(Figures {
        count: n[0],
        others: n[1],
        total: n[2] as i64,
        smallest: n[3] as i64,
        largest: n[4] as i64,
        quotient: n[5] as i64,
        remainder: n[6],
    })
}

fn line_in(code: usize, length: usize, out: &[u8]) -> Option<&[u8]> {
    if code == 0 {
        out.get(..length)
    } else {
        None
    }
}

/// Write the line of a day's report; None, and nothing written, where the memory is too short.
pub fn report_line<'a>(text: &[u8], out: &'a mut [u8]) -> Option<&'a [u8]> {
    let mut length = 0;
    let code = unsafe { stal_report_line(text.as_ptr(), text.len(), out.as_mut_ptr(), out.len(), &mut length) };
    line_in(code, length, out)
}

/// Write the line of a check's answer; None, and nothing written, where the memory is too short.
pub fn verdict_line(v: Result<Counts, Refusal>, out: &mut [u8]) -> Option<&[u8]> {
    let (code, first, second) = match v {
        Ok(c) => (0, c.blocks, c.instructions),
        Err(r) => (r.number, r.line, r.item.unwrap_or(100)),
    };
    let mut length = 0;
    let code = unsafe { stal_verdict_line(code, first, second, out.as_mut_ptr(), out.len(), &mut length) };
    line_in(code, length, out)
}

fn parts(w: Word) -> (u8, u32) {
    match w {
        Word::Int(n) => (0, n as u32),
        Word::Code(n) => (1, n),
        Word::Tuple(n) => (2, n),
        Word::Height(n) => (3, n),
        Word::Junk => (4, 0),
    }
}

/// Write the line of a run's answer; None, and nothing written, where the memory is too short.
pub fn answer_line(a: Result<Stop, Refusal>, out: &mut [u8]) -> Option<&[u8]> {
    let (code, first, (kind, number)) = match a {
        Ok(Stop::Halted(steps, w)) => (0, steps, parts(w)),
        Ok(Stop::Paused(steps)) => (17, steps, (0, 0)),
        Ok(Stop::StackFull(steps)) => (18, steps, (0, 0)),
        Ok(Stop::HeapFull(steps)) => (19, steps, (0, 0)),
        Ok(Stop::Stuck(steps)) => (20, steps, (0, 0)),
        Err(r) => return verdict_line(Err(r), out),
    };
    let mut length = 0;
    let code = unsafe { stal_answer_line(code, first, kind, number, out.as_mut_ptr(), out.len(), &mut length) };
    line_in(code, length, out)
}
