//! What a guest of rvcollide in Rust stands on: its start, its output, its end, and threads, each on a hart of its own.
//!
//! Hart 0 runs the program's `main`; each other hart waits at its mailbox for a function to run. What harts share here is
//! touched by LR, SC and AMO alone, so nothing of this file is told as a race.
#![no_std]

use core::arch::{asm, global_asm};
use core::fmt::{self, Write};
use core::panic::PanicInfo;
use core::sync::atomic::AtomicUsize;
use core::sync::atomic::Ordering::{AcqRel, Acquire};

const HARTS: usize = 16;

/// What a mailbox is: without a thread; about to get one; its thread runs, has come to its end, or has panicked.
const FREE: usize = 0;
const TAKEN: usize = 1;
const RUNS: usize = 2;
const ENDED: usize = 3;
const PANICKED: usize = 4;

struct Mailbox { state: AtomicUsize, start: AtomicUsize, argument: AtomicUsize }

const ZERO: AtomicUsize = AtomicUsize::new(0);
const EMPTY: Mailbox = Mailbox { state: ZERO, start: ZERO, argument: ZERO };
static MAILBOXES: [Mailbox; HARTS] = [EMPTY; HARTS];

/// How many harts there are; and once the program has ended its exit code and 1.
static COUNT: AtomicUsize = ZERO;
static ENDING: AtomicUsize = ZERO;

fn get(word: &AtomicUsize) -> usize {
    word.fetch_or(0, AcqRel)
}

fn replace(word: &AtomicUsize, old: usize, new: usize) -> bool {
    word.compare_exchange(old, new, AcqRel, Acquire).is_ok()
}

// Where each hart begins, with its number and how many there are; sp lies within its stack from here on.
global_asm!(
    ".section .text.start, \"ax\"",
    ".globl _start",
    "_start:",
    "addi sp, sp, -16",
    "tail guest_begin",
    ".text"
);

extern "Rust" {
    /// The program's.
    fn main();
}

#[no_mangle]
extern "C" fn guest_begin(hart: usize, harts: usize) -> ! {
    if hart == 0 {
        COUNT.swap(harts, AcqRel);
        // SAFETY: the program defines it.
        unsafe { main() };
        end(0)
    }
    let mailbox = &MAILBOXES[hart];
    loop {
        while get(&mailbox.state) != RUNS {
            rest();
        }
        // SAFETY: the word is what `spawn` made of a function of this type.
        let start = unsafe { core::mem::transmute::<usize, fn(usize)>(get(&mailbox.start)) };
        start(get(&mailbox.argument));
        mailbox.state.swap(ENDED, AcqRel);
    }
}

/// Ends the program: harts without a thread end with this code.
fn end(code: usize) -> ! {
    ENDING.swap(code + 1, AcqRel);
    leave(code)
}

/// A round of a wait: a hart ends once the program has.
fn rest() {
    let code = get(&ENDING);
    if code != 0 {
        leave(code - 1);
    }
}

/// A thread, to be joined.
pub struct Thread(&'static Mailbox);

/// The thread that was to be joined has panicked, and its hart is gone.
#[derive(Debug)]
pub struct Panicked;

/// Runs a function on a hart that has no thread, or answers None where each has one.
pub fn spawn(start: fn(usize), argument: usize) -> Option<Thread> {
    let mut mailboxes = MAILBOXES.iter().take(get(&COUNT)).skip(1);
    let mailbox = mailboxes.find(|mailbox| replace(&mailbox.state, FREE, TAKEN))?;
    mailbox.start.swap(start as usize, AcqRel);
    mailbox.argument.swap(argument, AcqRel);
    mailbox.state.swap(RUNS, AcqRel);
    Some(Thread(mailbox))
}

/// Waits until a thread has come to its end; its hart may run another one then.
pub fn join(thread: Thread) -> Result<(), Panicked> {
    while get(&thread.0.state) == RUNS {
        rest();
    }
    let is_well = replace(&thread.0.state, ENDED, FREE);
    is_well.then_some(()).ok_or(Panicked)
}

/// Adds a byte to the output.
pub fn put_byte(byte: u8) {
    // SAFETY: the call changes no memory of the guest.
    unsafe { asm!("ecall", in("a0") usize::from(byte), in("a7") 1) };
}

/// Ends this hart with an exit code; the others go on.
pub fn leave(code: usize) -> ! {
    // SAFETY: the call does not come back.
    unsafe { asm!("ecall", in("a0") code, in("a7") 93, options(noreturn)) }
}

/// The output, for `write!`.
pub struct Output;

impl Write for Output {
    fn write_str(&mut self, text: &str) -> fmt::Result {
        text.bytes().for_each(put_byte);
        Ok(())
    }
}

#[panic_handler]
fn panicked(info: &PanicInfo) -> ! {
    let _ = writeln!(Output, "{info}");
    let sp: usize;
    // SAFETY: it reads a register. A hart's stack lies where its number says.
    unsafe { asm!("mv {}, sp", out(reg) sp) };
    let hart = sp / 0x10000 % HARTS;
    if hart == 0 {
        end(101);
    }
    MAILBOXES[hart].state.swap(PANICKED, AcqRel);
    leave(101)
}
