//! The peer of kernels.rattle in Rust: the same loops, sizes and turns, written as plain loops over words.
//!
//! Built by `rustc -C opt-level=3 -C target-cpu=x86-64-v2`. Each loop is a function that is not inlined, so that the
//! compiler sees it as it would see the library's.

use std::hint::black_box;
use std::time::Instant;

/// How often each kernel is timed at each size.
const SAMPLES: u32 = 7;

/// A multiplier that spreads the bits of a word's place over the word.
const SPREAD: u64 = 0x9E37_79B9_7F4A_7C15;

#[inline(never)]
fn and(a: &mut [u64], b: &[u64]) {
    a.iter_mut().zip(b).for_each(|(a, b)| *a &= b);
}

#[inline(never)]
fn or(a: &mut [u64], b: &[u64]) {
    a.iter_mut().zip(b).for_each(|(a, b)| *a |= b);
}

#[inline(never)]
fn xor(a: &mut [u64], b: &[u64]) {
    a.iter_mut().zip(b).for_each(|(a, b)| *a ^= b);
}

#[inline(never)]
fn and_not(a: &mut [u64], b: &[u64]) {
    a.iter_mut().zip(b).for_each(|(a, b)| *a &= !b);
}

#[inline(never)]
fn not(a: &mut [u64]) {
    a.iter_mut().for_each(|a| *a = !*a);
}

#[inline(never)]
fn count(a: &[u64]) -> u64 {
    a.iter().map(|a| a.count_ones() as u64).sum()
}

#[inline(never)]
fn count_and(a: &[u64], b: &[u64]) -> u64 {
    a.iter().zip(b).map(|(a, b)| (a & b).count_ones() as u64).sum()
}

#[inline(never)]
fn count_and_not(a: &[u64], b: &[u64]) -> u64 {
    a.iter().zip(b).map(|(a, b)| (a & !b).count_ones() as u64).sum()
}

/// The plainest pass over words, to tell how fast this machine reads from one place.
#[inline(never)]
fn read(a: &[u64]) -> u64 {
    a.iter().fold(0, |sum, a| sum ^ a)
}

/// The same over the four quarters side by side, to tell how fast it reads from four places.
#[inline(never)]
fn read_four(a: &[u64]) -> u64 {
    let (low, high) = a.split_at(a.len() / 2);
    let ((a, b), (c, d)) = (low.split_at(low.len() / 2), high.split_at(high.len() / 2));
    (0..a.len()).fold(0, |sum, at| sum ^ a[at] ^ b[at] ^ c[at] ^ d[at])
}

#[derive(Clone, Copy)]
enum Kernel {
    And,
    Or,
    Xor,
    AndNot,
    Not,
    Count,
    CountAnd,
    CountAndNot,
    Read,
    ReadFour,
}

impl Kernel {
    fn name(self) -> &'static str {
        match self {
            Kernel::And => "and",
            Kernel::Or => "or",
            Kernel::Xor => "xor",
            Kernel::AndNot => "and_not",
            Kernel::Not => "not",
            Kernel::Count => "count",
            Kernel::CountAnd => "count_and",
            Kernel::CountAndNot => "count_and_not",
            Kernel::Read => "read",
            Kernel::ReadFour => "read_four",
        }
    }

    fn run(self, a: &mut [u64], b: &[u64]) -> u64 {
        match self {
            Kernel::And => and(a, b),
            Kernel::Or => or(a, b),
            Kernel::Xor => xor(a, b),
            Kernel::AndNot => and_not(a, b),
            Kernel::Not => not(a),
            Kernel::Count => return count(a),
            Kernel::CountAnd => return count_and(a, b),
            Kernel::CountAndNot => return count_and_not(a, b),
            Kernel::Read => return read(a),
            Kernel::ReadFour => return read_four(a),
        }
        0
    }
}

fn fill(words: &mut [u64], salt: u64) {
    for (at, word) in words.iter_mut().enumerate() {
        *word = (at as u64).wrapping_add(salt).wrapping_mul(SPREAD);
    }
}

fn turns_of(kernel: Kernel, a: &mut [u64], b: &[u64], turns: u32) -> u64 {
    let mut sum = 0u64;
    for turn in 0..turns {
        let at = turn as usize;
        if at < a.len() {
            a[at] ^= 1;
        }
        sum = sum.wrapping_add(black_box(kernel).run(a, b));
    }
    sum
}

fn measure(kernel: Kernel, count_of_words: usize, turns: u32) {
    let mut a = vec![0u64; count_of_words];
    let mut b = vec![0u64; count_of_words];
    fill(&mut a, 1);
    fill(&mut b, 2);
    let mut best = u128::MAX;
    let mut sum = 0u64;
    for _ in 0..SAMPLES {
        let start = Instant::now();
        sum = sum.wrapping_add(turns_of(kernel, &mut a, &b, turns));
        best = best.min(start.elapsed().as_nanos());
    }
    println!("{} {} {} {} {} {}", kernel.name(), count_of_words, turns, best, sum, count(&a));
}

fn main() {
    let kernels = [
        Kernel::And,
        Kernel::Or,
        Kernel::Xor,
        Kernel::AndNot,
        Kernel::Not,
        Kernel::Count,
        Kernel::CountAnd,
        Kernel::CountAndNot,
        Kernel::Read,
        Kernel::ReadFour,
    ];
    for (bytes, turns) in [(1usize << 10, 20_000), (1 << 18, 100), (1 << 26, 2)] {
        for kernel in kernels {
            measure(kernel, bytes / 8, turns);
        }
    }
}
