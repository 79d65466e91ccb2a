//! Threads that add to a total under a lock of the program's own. With `--cfg peek` one of them looks at it without the lock.
#![no_std]
#![no_main]

use core::cell::UnsafeCell;
use core::fmt::Write;
use core::sync::atomic::AtomicBool;
use core::sync::atomic::Ordering::{Acquire, Relaxed, Release};

const ROUNDS: usize = 10;

struct Lock<T> {
    held: AtomicBool,
    value: UnsafeCell<T>,
}

// SAFETY: one thread at a time has the value.
unsafe impl<T: Send> Sync for Lock<T> {}

impl<T: Copy> Lock<T> {
    const fn new(value: T) -> Self {
        Lock { held: AtomicBool::new(false), value: UnsafeCell::new(value) }
    }

    fn with(&self, change: impl FnOnce(&mut T)) {
        while self.held.compare_exchange_weak(false, true, Acquire, Relaxed).is_err() {
            while self.held.load(Relaxed) {}
        }
        // SAFETY: this thread has the lock.
        change(unsafe { &mut *self.value.get() });
        self.held.store(false, Release);
    }

    /// What the value is. The bug: it does not take the lock.
    fn peek(&self) -> T {
        unsafe { *self.value.get() }
    }
}

#[derive(Clone, Copy)]
struct Total {
    sum: usize,
    rounds: usize,
}

static TOTAL: Lock<Total> = Lock::new(Total { sum: 0, rounds: 0 });

fn work(number: usize) {
    for _ in 0..ROUNDS {
        TOTAL.with(|total| {
            total.sum += number;
            total.rounds += 1;
        });
        if cfg!(peek) && number == 1 && TOTAL.peek().sum > 1000 {
            guest::put_byte(b'!');
        }
    }
}

#[no_mangle]
fn main() {
    let threads = [1, 2, 3].map(|number| guest::spawn(work, number));
    let mut wanted = 0;
    for (thread, number) in threads.into_iter().zip(1..) {
        if let Some(thread) = thread {
            guest::join(thread).unwrap();
            wanted += ROUNDS * number;
        }
    }
    let found = TOTAL.peek();
    assert_eq!(found.sum, wanted);
    writeln!(guest::Output, "{} in {} rounds", found.sum, found.rounds).unwrap();
}
