// Times decks: from file to words through the static library, and the Rust's functions on the same orders, which are prepared before.
// A line of standard input is a deck: its name, the count of its lines, its bytes in hexadecimal digits, and behind a space the steps that the
// driver takes. A line of the answer is: name, lines, bytes of the file, bytes of code, and nanoseconds for a deck: through the static library;
// a plain Rust reader of the same file over the Rust's functions, with a cleared buffer of 65,536 bytes that gets the code; the Rust's functions
// with such a buffer; the Rust's functions alone.
#![allow(warnings)]

include!("around.rs");

use std::hint::black_box;

// The one place that knows how the library is called (include/handheld.h).
mod library {
    extern "C" {
        fn deck_emit_in(
            file: *const u8,
            file_len: usize,
            buf: *mut u8,
            buf_len: usize,
            labels: &mut [u64; 2039],
            jumps: &mut [u32; 20480],
            told: &mut [u32; 7],
        ) -> u32;
    }

    // Label and jump memory, lent for every deck.
    pub struct Memory {
        labels: [u64; 2039],
        jumps: [u32; 20480],
    }

    impl Memory {
        pub fn new() -> Memory {
            Memory { labels: [0; 2039], jumps: [0; 20480] }
        }

        pub fn emit(&mut self, file: &[u8], buf: &mut [u8]) {
            let mut told = [0; 7];
            unsafe {
                deck_emit_in(file.as_ptr(), file.len(), buf.as_mut_ptr(), buf.len(), &mut self.labels, &mut self.jumps, &mut told)
            };
        }
    }
}

// A deck of the Rust's: its steps are prepared. `emit` does them on a fresh assembler; with a buffer, that is cleared and gets the code.
pub trait Deck {
    fn emit(&mut self, buf: Option<&mut [u8]>) -> usize;
    // the same from the file's text
    fn read(&mut self, file: &[u8], buf: &mut [u8]) -> usize;
}

pub struct Bench;

pub trait Prepare {
    fn prepare(&self, steps: &str) -> Box<dyn Deck>;
}

// The thread's processor time in nanoseconds, which other programs on the machine disturb less than the clock.
fn spent() -> f64 {
    extern "C" {
        fn clock_gettime(clock: i32, time: *mut [i64; 2]) -> i32;
    }
    const THREAD: i32 = 3;
    let mut time = [0; 2];
    unsafe { clock_gettime(THREAD, &mut time) };
    time[0] as f64 * 1e9 + time[1] as f64
}

// The least time of one call, of 25 rounds that take 5 milliseconds or more each.
fn nanoseconds(mut call: impl FnMut()) -> f64 {
    let mut times = 1;
    let mut best = f64::MAX;
    let mut rounds = 0;
    while rounds < 25 {
        let start = spent();
        (0..times).for_each(|_| call());
        let took = spent() - start;
        if took < 5e6 {
            times *= 2;
            continue;
        }
        best = best.min(took / times as f64);
        rounds += 1;
    }
    best
}

fn bytes(digits: &str) -> Vec<u8> {
    (0..digits.len() / 2).map(|i| u8::from_str_radix(&digits[2 * i..2 * i + 2], 16).unwrap()).collect()
}

fn main() {
    let mut memory = library::Memory::new();
    for line in std::io::stdin().lines() {
        let line = line.unwrap();
        let mut parts = line.splitn(4, ' ');
        let (name, lines, file, steps) = (parts.next().unwrap(), parts.next().unwrap(), bytes(parts.next().unwrap()), parts.next().unwrap());
        let mut deck = Bench.prepare(steps);
        let (mut ours, mut theirs) = (vec![1; 65536], vec![1; 65536]);
        memory.emit(&file, &mut ours);
        let length = deck.emit(Some(&mut theirs));
        if ours != theirs {
            println!("{name}: the words differ");
            std::process::exit(1);
        }
        theirs.fill(1);
        deck.read(&file, &mut theirs);
        if ours != theirs {
            println!("{name}: the words read differ");
            std::process::exit(1);
        }
        let a = nanoseconds(|| memory.emit(black_box(&file), black_box(&mut ours)));
        let read = nanoseconds(|| drop(black_box(deck.read(black_box(&file), black_box(&mut theirs)))));
        let b = nanoseconds(|| drop(black_box(deck.emit(Some(black_box(&mut theirs))))));
        let c = nanoseconds(|| drop(black_box(deck.emit(None))));
        println!("{name} {lines} {} {length} {a:.0} {read:.0} {b:.0} {c:.0}", file.len());
    }
}
