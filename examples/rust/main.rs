//! Prints a deck file's words, what is told of them, the file's two listings and its unused labels, then lists a code and lays a few
//! orders by hand.
//!
//! tools/handheld builds and tries this. By hand, from the root of the repository:
//!
//!     tools/build handheld
//!     rustc --edition 2021 -L target/staticlib -l static=handheld examples/rust/main.rs -o target/handheld_rust
//!     target/handheld_rust examples/free_bays.deck

use std::io::Write;

/// include/handheld.h in Rust: memory as slices and arrays, so that lengths, alignment and overlap
/// are the compiler's care.
mod handheld {
    pub const ROOM: usize = 65536;
    pub const TEXT: usize = 245760;
    pub const LISTING: usize = 475136;
    pub const ATTENDANT: u32 = 1;
    pub const SENTENCE: usize = 80;
    pub const LABELS: usize = 2039;
    pub const JUMPS: usize = 20480;

    mod c {
        use super::{JUMPS, LABELS};
        extern "C" {
            pub fn deck_emit(file: *const u8, n: usize, buf: *mut u8, m: usize, told: &mut [u32; 7]) -> u32;
            pub fn deck_emit_in(
                file: *const u8,
                n: usize,
                buf: *mut u8,
                m: usize,
                labels: &mut [u64; LABELS],
                jumps: &mut [u32; JUMPS],
                told: &mut [u32; 7],
            ) -> u32;
            pub fn deck_text(file: *const u8, n: usize, out: *mut u8, m: usize) -> usize;
            pub fn deck_listing(file: *const u8, n: usize, out: *mut u8, m: usize, told: &mut [u64; 3]) -> u32;
            pub fn deck_view(file: *const u8, n: usize, view: u32, out: *mut u8, m: usize, told: &mut [u64; 3]) -> u32;
            pub fn code_listing(code: *const u8, n: usize, offset: usize, out: *mut u8, m: usize, told: &mut [u64; 2]) -> u32;
            pub fn refusal_text(number: u32, out: *mut u8, m: usize) -> usize;
            pub fn order_emit(
                line: *const u8,
                n: usize,
                tag: u32,
                buf: *mut u8,
                m: usize,
                labels: &mut [u64; LABELS],
                jumps: &mut [u32; JUMPS],
                record: &mut [u64; 3],
            ) -> u32;
            pub fn order_constant(
                line: *const u8,
                n: usize,
                k: u32,
                buf: *mut u8,
                m: usize,
                labels: &mut [u64; LABELS],
                jumps: &mut [u32; JUMPS],
                record: &mut [u64; 3],
            ) -> u32;
            pub fn order_finish(
                buf: *mut u8,
                m: usize,
                labels: &[u64; LABELS],
                jumps: &[u32; JUMPS],
                record: &mut [u64; 3],
                told: &mut [u32; 2],
            ) -> u32;
            pub fn label_unused(labels: &[u64; LABELS], record: &[u64; 3], out: &mut [u32; LABELS], told: &mut [u32; 1]) -> u32;
        }
    }

    /// The number, and all that is told.
    pub fn deck_emit(file: &[u8], buf: &mut [u8]) -> (u32, [u32; 7]) {
        let mut told = [0; 7];
        let number = unsafe { c::deck_emit(file.as_ptr(), file.len(), buf.as_mut_ptr(), buf.len(), &mut told) };
        (number, told)
    }

    /// The number, all that is told, and the label memory.
    pub fn deck_emit_in(file: &[u8], buf: &mut [u8]) -> (u32, [u32; 7], Box<[u64; LABELS]>) {
        let (mut told, mut labels, mut jumps) = ([0; 7], Box::new([0; LABELS]), Box::new([0; JUMPS]));
        let number = unsafe {
            c::deck_emit_in(file.as_ptr(), file.len(), buf.as_mut_ptr(), buf.len(), &mut labels, &mut jumps, &mut told)
        };
        (number, told, labels)
    }

    /// The number, and the labels that nobody jumps to; none where it is refused.
    pub fn label_unused(labels: &[u64; LABELS], record: &[u64; 3]) -> (u32, Vec<u32>) {
        let (mut told, mut out) = ([0; 1], [0; LABELS]);
        let number = unsafe { c::label_unused(labels, record, &mut out, &mut told) };
        (number, out[..told[0] as usize].to_vec())
    }

    pub fn deck_text(file: &[u8]) -> Vec<u8> {
        let mut out = vec![0; TEXT];
        let n = unsafe { c::deck_text(file.as_ptr(), file.len(), out.as_mut_ptr(), out.len()) };
        out.truncate(n);
        out
    }

    /// The number, all that is told, and the text.
    pub fn deck_listing(file: &[u8]) -> (u32, [u64; 3], Vec<u8>) {
        let (mut told, mut out) = ([0; 3], vec![0; LISTING]);
        let number = unsafe { c::deck_listing(file.as_ptr(), file.len(), out.as_mut_ptr(), out.len(), &mut told) };
        out.truncate(told[2] as usize);
        (number, told, out)
    }

    /// The same as one of the two sees it: 0 is the maintainer.
    pub fn deck_view(file: &[u8], view: u32) -> (u32, [u64; 3], Vec<u8>) {
        let (mut told, mut out) = ([0; 3], vec![0; LISTING]);
        let number = unsafe { c::deck_view(file.as_ptr(), file.len(), view, out.as_mut_ptr(), out.len(), &mut told) };
        out.truncate(told[2] as usize);
        (number, told, out)
    }

    /// The listing of code whose constants start at `offset`, in a text of at most `room` bytes.
    pub fn code_listing(code: &[u8], offset: usize, room: usize) -> (u32, [u64; 2], Vec<u8>) {
        let (mut told, mut out) = ([0; 2], vec![0; room]);
        let number = unsafe { c::code_listing(code.as_ptr(), code.len(), offset, out.as_mut_ptr(), out.len(), &mut told) };
        out.truncate(told[1] as usize);
        (number, told, out)
    }

    /// A refusal in words; nothing for 0.
    pub fn refusal_text(number: u32) -> String {
        let mut out = vec![0; SENTENCE];
        let n = unsafe { c::refusal_text(number, out.as_mut_ptr(), out.len()) };
        out.truncate(n);
        String::from_utf8(out).unwrap()
    }

    /// Single orders, with their record and memories.
    pub struct Orders {
        pub buf: Vec<u8>,
        pub record: [u64; 3],
        labels: Box<[u64; LABELS]>,
        jumps: Box<[u32; JUMPS]>,
    }

    impl Orders {
        pub fn new() -> Orders {
            Orders {
                buf: vec![0; ROOM],
                record: [0; 3],
                labels: Box::new([0; LABELS]),
                jumps: Box::new([0; JUMPS]),
            }
        }

        pub fn emit(&mut self, line: &[u8], tag: u32) -> u32 {
            unsafe {
                c::order_emit(
                    line.as_ptr(),
                    line.len(),
                    tag,
                    self.buf.as_mut_ptr(),
                    self.buf.len(),
                    &mut self.labels,
                    &mut self.jumps,
                    &mut self.record,
                )
            }
        }

        /// A nop where the next byte would not be at a multiple of 8: constants are to stand there. Its place, if there is one.
        pub fn to_eights(&mut self) -> Option<usize> {
            let at = self.record[0] as usize;
            if at % 8 == 0 || at + 4 > self.buf.len() {
                return None;
            }
            self.buf[at..at + 4].copy_from_slice(&0x00000013u32.to_le_bytes());
            self.record[0] += 4;
            Some(at)
        }

        /// The constant that a line says, as constant k. To be called at a length that is a multiple of 8.
        pub fn constant(&mut self, line: &[u8], k: u32) -> u32 {
            unsafe {
                c::order_constant(
                    line.as_ptr(),
                    line.len(),
                    k,
                    self.buf.as_mut_ptr(),
                    self.buf.len(),
                    &mut self.labels,
                    &mut self.jumps,
                    &mut self.record,
                )
            }
        }

        /// The number, and the refusal's place and tag.
        pub fn finish(&mut self) -> (u32, [u32; 2]) {
            let mut told = [0; 2];
            let number = unsafe {
                c::order_finish(
                    self.buf.as_mut_ptr(),
                    self.buf.len(),
                    &self.labels,
                    &self.jumps,
                    &mut self.record,
                    &mut told,
                )
            };
            (number, told)
        }

        pub fn unused(&self) -> (u32, Vec<u32>) {
            label_unused(&self.labels, &self.record)
        }
    }
}

fn reason(number: u32) {
    if number != 0 {
        println!("{}", handheld::refusal_text(number));
    }
}

/// The file's listing; that of its code is the same.
fn list_deck(file: &[u8], code: &[u8], offset: usize) {
    let (number, [line, length, size], text) = handheld::deck_listing(file);
    std::io::stdout().write_all(&text).unwrap();
    println!("number {number}, line {line}, length {length}, listing {size}");
    reason(number);
    if number == 0 {
        let (coded, _, again) = handheld::code_listing(code, offset, handheld::LISTING);
        let which = if coded == 0 && again == text { "the same" } else { "another" };
        println!("the code has {which} listing");
    }
}

/// The listing that the attendant sees: what is told of it, and the lines of its constants.
fn attend(file: &[u8]) {
    let (number, [line, length, size], text) = handheld::deck_view(file, handheld::ATTENDANT);
    println!("attendant: number {number}, line {line}, length {length}, listing {size}");
    for line in String::from_utf8(text).unwrap().lines().filter(|line| line.contains(",data,")) {
        println!("{line}");
    }
}

/// The labels that nobody jumps to.
fn unused((number, labels): (u32, Vec<u32>)) {
    let list: String = labels.iter().map(|label| format!(" {label}")).collect();
    println!("{number} unused labels:{list}");
    reason(number);
}

/// Those of the file, where it is accepted.
fn unused_in(file: &[u8]) {
    let (number, [_, _, length, _, _, jumps, _], labels) = handheld::deck_emit_in(file, &mut vec![0; handheld::ROOM]);
    if number == 0 {
        unused(handheld::label_unused(&labels, &[length as u64, jumps as u64, 1]));
    }
}

fn deck(file: &[u8]) {
    let mut code = vec![0; handheld::ROOM];
    let (number, [_, line, length, offset, constants, jumps, frame]) = handheld::deck_emit(file, &mut code);
    std::io::stdout().write_all(&handheld::deck_text(file)).unwrap();
    println!(
        "number {number}, line {line}, length {length}, constants {constants} at {offset}, jumps {jumps}, frame {frame}"
    );
    reason(number);
    list_deck(file, &code[..length as usize], offset as usize);
    attend(file);
    unused_in(file);
}

/// The listing of an instruction and a word that is none, with constants from the offset on, in so many bytes.
fn list_code(offset: usize, room: usize) {
    let (number, [place, length], text) = handheld::code_listing(&[0x13, 0, 0, 0, 0, 0, 0, 0], offset, room);
    println!("{number} listing: offset {offset}, room {room}, place {place}, length {length}");
    reason(number);
    std::io::stdout().write_all(&text).unwrap();
}

/// Lays a line's order, with a tag for its jumps.
fn lay(orders: &mut handheld::Orders, line: &str, tag: u32) {
    let number = orders.emit(line.as_bytes(), tag);
    print!("{number} {line}");
    reason(number);
}

/// Lays a line's constant as constant k.
fn lay_constant(orders: &mut handheld::Orders, line: &str, k: u32) {
    let number = orders.constant(line.as_bytes(), k);
    print!("{number} constant {k}: {line}");
    reason(number);
}

/// Lays the lines' orders, each with its number among them as the tag, and behind them the constants that they load.
fn by_hand(lines: &[&str], constants: &[&str]) {
    let mut orders = handheld::Orders::new();
    for (i, line) in lines.iter().enumerate() {
        lay(&mut orders, line, i as u32 + 1);
    }
    if !constants.is_empty() {
        if let Some(at) = orders.to_eights() {
            println!("a nop at {at}");
        }
    }
    for (k, line) in constants.iter().enumerate() {
        lay_constant(&mut orders, line, k as u32);
    }
    let (number, [place, tag]) = orders.finish();
    let [length, jumps, closed] = orders.record;
    println!("{number} finish: place {place}, tag {tag}, length {length}, jumps {jumps}, closed {closed}");
    reason(number);
    unused(orders.unused());
    lay(&mut orders, lines[0], 0);
    for (i, word) in orders.buf[..orders.record[0] as usize].chunks(4).enumerate() {
        println!("{},{:08x}", 4 * i, u32::from_le_bytes(word.try_into().unwrap()));
    }
}

fn main() {
    let Some(path) = std::env::args().nth(1) else {
        eprintln!("usage: handheld_rust DECK");
        std::process::exit(2);
    };
    deck(&std::fs::read(path).unwrap());
    for (offset, room) in [(4, 64), (4, 28), (8, 64), (12, 64)] {
        list_code(offset, room);
    }
    by_hand(&["label,0\n", "minus,10,10,11\n", "minus,10,10,32\n", "float,3\n", "branch,10,0,0\n"], &[]);
    by_hand(&["fmov,10,11\n", "branch,10,7,1\n"], &[]);
    by_hand(
        &["load_const,10,1\n", "times,10,10,11\n", "get,12,mem,4096\n", "get,13,mem,268435455\n", "get,12,mem,268435456\n"],
        &["float,3\n", "bits,3fb999999999999a\n", "float,9007199254740993\n", "fmov,0,0\n"],
    );
}
