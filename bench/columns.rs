//! The peer of columns.rattle in Rust: the same columns, comparisons and totals, written by hand.
//!
//! Built by `rustc -C opt-level=3 -C target-cpu=x86-64-v2`. A comparison goes over the rows in spans of words that stay in
//! registers, reads each bitmap that it needs once, and writes its result once. A sum takes the selection in spans that stay
//! in the first cache. A median narrows the selection and takes the next count in one pass. The scan goes over a plain list.
//! Under bases the binary places of the digits are stored beside their bitmaps: a sum counts them, and `<=` under equality
//! encoding reads them where they are fewer. Its median counts the bitmaps, which took less time in a cache. A build takes
//! blocks of 64 entries, turns each into words, and pushes a word to each bitmap, which grows as a `Vec` does. Slices, and the
//! places, which are the number's since each base is 2^5, are turned by six stages of exchanges, which took a fifth of the time
//! of a plain double loop; range by a running or.

use std::hint::black_box;
use std::time::Instant;

/// A multiplier that spreads a row's number over the values.
const SPREAD: u64 = 0x9E37_79B9_7F4A_7C15;

const WIDTH: usize = 20;

/// How often a column is built by blocks.
const BUILDS: u32 = 3;

const BASE: u64 = 32;
const COMPONENTS: usize = 4;

/// The binary places of a digit.
const PLACES: usize = 5;

/// Every third bit of a word.
const THIRDS: u64 = 0x9249_2492_4924_9249;

/// The words of a span of a comparison: eight registers of 128 bits.
const SPAN_WORDS: usize = 16;

/// The words that stay in the first cache.
const CHUNK: usize = 1024;

/// The most bitmaps that are read side by side, and how many are where there are more.
const MAX_READ: usize = 24;
const FEW_READ: usize = 8;

type Words = Vec<u64>;

/// The value of a row, of twenty binary digits.
fn value_of(row: u64) -> u64 {
    row.wrapping_mul(SPREAD) >> 44
}

/// Sets a bit of a bitmap.
fn set(words: &mut Words, row: u64) {
    words[(row / 64) as usize] |= 1 << (row % 64);
}

/// Sets the bits of a number's binary places.
fn set_places(places: &mut [Words], row: u64, number: u64) {
    for (i, place) in places.iter_mut().enumerate() {
        place[(row / 64) as usize] |= (number >> i & 1) << (row % 64);
    }
}

/// What a comparison does with one bitmap after the other, from all ones.
#[derive(Clone, Copy)]
enum Step<'a> {
    And(&'a [u64]),
    Or(&'a [u64]),
    AndNot(&'a [u64]),
    OrNot(&'a [u64]),
}

/// The steps of "at most" by binary places: the complement of "above", from the least significant place up.
fn steps_by_places(places: &[Words], c: u64) -> impl Iterator<Item = Step<'_>> {
    let places = places.iter().enumerate();
    places.map(move |(i, place)| if c >> i & 1 == 1 { Step::OrNot(place) } else { Step::AndNot(place) })
}

/// Runs the steps over a span of N words from `at` on, from what is found so far.
#[inline(always)]
fn span_of<const N: usize>(steps: &[Step], at: usize, mut found: [u64; N]) -> [u64; N] {
    for step in steps {
        match step {
            Step::And(words) => found.iter_mut().zip(&words[at..at + N]).for_each(|(f, w)| *f &= w),
            Step::Or(words) => found.iter_mut().zip(&words[at..at + N]).for_each(|(f, w)| *f |= w),
            Step::AndNot(words) => found.iter_mut().zip(&words[at..at + N]).for_each(|(f, w)| *f &= !w),
            Step::OrNot(words) => found.iter_mut().zip(&words[at..at + N]).for_each(|(f, w)| *f |= !w),
        }
    }
    found
}

/// Runs the steps over the words from `at` on, span by span, from all ones where they are the first.
#[inline(never)]
fn run_group(steps: &[Step], at: usize, out: &mut [u64], first: bool) {
    let (spans, rest) = out.as_chunks_mut::<SPAN_WORDS>();
    for (k, out) in spans.iter_mut().enumerate() {
        *out = span_of::<SPAN_WORDS>(steps, at + SPAN_WORDS * k, if first { [u64::MAX; SPAN_WORDS] } else { *out });
    }
    for (k, out) in rest.iter_mut().enumerate() {
        [*out] = span_of::<1>(steps, at + SPAN_WORDS * spans.len() + k, [if first { u64::MAX } else { *out }]);
    }
}

/// Runs the steps over all words, and leaves those of the numbers. So many bitmaps that the processor no longer reads ahead in
/// all of them are taken a few at a time, over words that stay in the first cache.
fn run<'a>(mut steps: Vec<Step<'a>>, present: &'a [u64]) -> Words {
    steps.push(Step::And(present));
    let mut out = vec![0; present.len()];
    let group = if steps.len() <= MAX_READ { MAX_READ } else { FEW_READ };
    for (k, out) in out.chunks_mut(CHUNK).enumerate() {
        for (g, steps) in steps.chunks(group).enumerate() {
            run_group(steps, CHUNK * k, out, g == 0);
        }
    }
    out
}

fn count(words: &[u64]) -> u64 {
    words.iter().map(|word| u64::from(word.count_ones())).sum()
}

fn count_and(a: &[u64], b: &[u64]) -> u64 {
    a.iter().zip(b).map(|(a, b)| u64::from((a & b).count_ones())).sum()
}

/// The sum over the bitmaps of the found rows that each has, times its weight.
#[inline(never)]
fn weigh(weighted: &[(u64, &[u64])], found: &[u64]) -> u128 {
    let mut counts = vec![0; weighted.len()];
    for (k, span) in found.chunks(CHUNK).enumerate() {
        for (count, (_, bitmap)) in counts.iter_mut().zip(weighted) {
            *count += count_and(&bitmap[CHUNK * k..], span);
        }
    }
    counts.iter().zip(weighted).map(|(count, (weight, _))| u128::from(*count) * u128::from(*weight)).sum()
}

/// The sum of the found rows' numbers by their binary places, the least first.
fn sum_by_places(places: &[Words], found: &[u64]) -> u128 {
    let weighted: Vec<(u64, &[u64])> = places.iter().enumerate().map(|(i, place)| (1 << i, &place[..])).collect();
    weigh(&weighted, found)
}

/// Makes each word of the chosen rows anew, and counts those that are in the next bitmap too.
#[inline(always)]
fn pass(chosen: &mut [u64], next: &[u64], word: impl Fn(usize, u64) -> u64) -> u64 {
    let mut ones = 0;
    for (k, (chosen, next)) in chosen.iter_mut().zip(next).enumerate() {
        *chosen = word(k, *chosen);
        ones += u64::from((*chosen & next).count_ones());
    }
    ones
}

/// Leaves the chosen rows that are in `kept` and not in `dropped`, and counts those that are in the next bitmap too.
#[inline(never)]
fn narrow(chosen: &mut [u64], kept: Option<&[u64]>, dropped: Option<&[u64]>, next: &[u64]) -> u64 {
    let n = chosen.len();
    match (kept.map(|a| &a[..n]), dropped.map(|b| &b[..n])) {
        (Some(a), Some(b)) => pass(chosen, next, |k, word| word & a[k] & !b[k]),
        (Some(a), None) => pass(chosen, next, |k, word| word & a[k]),
        (None, Some(b)) => pass(chosen, next, |k, word| word & !b[k]),
        (None, None) => count_and(chosen, next),
    }
}

/// The entries of 64 rows: the numbers, a 0 for a null, and the word that says which are numbers.
struct Block {
    numbers: [u64; 64],
    present: u64,
}

/// Exchanges bit `s` of the row and of the place, where `kept` has the places in which it is 0.
#[inline(always)]
fn exchange(words: &mut [u64; 64], s: usize, kept: u64) {
    for pair in words.chunks_exact_mut(2 * s) {
        let (low, high) = pair.split_at_mut(s);
        for (a, b) in low.iter_mut().zip(high) {
            let turned = (*a >> s ^ *b) & kept;
            *a ^= turned << s;
            *b ^= turned;
        }
    }
}

/// Exchanges rows and places of 64 words.
fn transpose(words: &mut [u64; 64]) {
    exchange(words, 32, 0x0000_0000_ffff_ffff);
    exchange(words, 16, 0x0000_ffff_0000_ffff);
    exchange(words, 8, 0x00ff_00ff_00ff_00ff);
    exchange(words, 4, 0x0f0f_0f0f_0f0f_0f0f);
    exchange(words, 2, 0x3333_3333_3333_3333);
    exchange(words, 1, 0x5555_5555_5555_5555);
}

/// The words of a block's digits of a component: bit `r` of word `d` says that row `r` has digit `d`.
fn mark(numbers: &[u64; 64], component: usize) -> [u64; BASE as usize] {
    let mut words = [0; BASE as usize];
    for (r, number) in numbers.iter().enumerate() {
        words[digit(*number, component)] |= 1 << r;
    }
    words
}

/// Appends a word to each bitmap.
fn push_words(bitmaps: &mut [Words], words: &[u64]) {
    for (bitmap, word) in bitmaps.iter_mut().zip(words) {
        bitmap.push(*word);
    }
}

/// Appends the binary places of a block's numbers.
fn push_places(places: &mut [Words], mut numbers: [u64; 64]) {
    transpose(&mut numbers);
    push_words(places, &numbers);
}

trait Column {
    fn name(&self) -> &'static str;
    fn push(&mut self, row: u64);
    fn push_block(&mut self, block: &Block);
    fn le(&self, c: u64) -> Words;
    fn eq(&self, c: u64) -> Words;
    fn sum(&self, found: &[u64]) -> u128;
    fn median(&self, found: &[u64]) -> u64;
}

struct Slices {
    slices: Vec<Words>,
    present: Words,
}

impl Slices {
    fn new(n: u64) -> Slices {
        let words = n.div_ceil(64) as usize;
        Slices { slices: vec![vec![0; words]; WIDTH], present: vec![0; words] }
    }
}

impl Column for Slices {
    fn name(&self) -> &'static str {
        "slices"
    }

    fn push_block(&mut self, block: &Block) {
        push_places(&mut self.slices, block.numbers);
        self.present.push(block.present);
    }

    fn push(&mut self, row: u64) {
        set_places(&mut self.slices, row, value_of(row));
        set(&mut self.present, row);
    }

    fn le(&self, c: u64) -> Words {
        run(steps_by_places(&self.slices, c).collect(), &self.present)
    }

    fn eq(&self, c: u64) -> Words {
        let steps: Vec<Step> = (0..WIDTH)
            .map(|i| if c >> i & 1 == 1 { Step::And(&self.slices[i]) } else { Step::AndNot(&self.slices[i]) })
            .collect();
        run(steps, &self.present)
    }

    fn sum(&self, found: &[u64]) -> u128 {
        sum_by_places(&self.slices, found)
    }

    fn median(&self, found: &[u64]) -> u64 {
        let mut chosen = found.to_vec();
        let mut ones = narrow(&mut chosen, Some(&self.present), None, &self.slices[WIDTH - 1]);
        let mut left = count(&chosen);
        let (mut rank, mut median) = (left.saturating_sub(1) / 2, 0);
        for i in (0..WIDTH).rev() {
            let slice = &self.slices[i][..];
            let next = &self.slices[i.saturating_sub(1)];
            let zeros = left - ones;
            let is_one = rank >= zeros;
            let (kept, dropped) = if is_one { (Some(slice), None) } else { (None, Some(slice)) };
            (rank, left) = if is_one { (rank - zeros, ones) } else { (rank, zeros) };
            median = median * 2 + u64::from(is_one);
            ones = if i > 0 { narrow(&mut chosen, kept, dropped, next) } else { 0 };
        }
        median
    }
}

fn digit(value: u64, component: usize) -> usize {
    (value >> (5 * component) & (BASE - 1)) as usize
}

struct Range {
    bitmaps: Vec<Vec<Words>>,
    places: Vec<Words>,
    present: Words,
}

impl Range {
    fn new(n: u64) -> Range {
        let words = n.div_ceil(64) as usize;
        let bitmaps = vec![vec![vec![0; words]; BASE as usize - 1]; COMPONENTS];
        Range { bitmaps, places: vec![vec![0; words]; WIDTH], present: vec![0; words] }
    }
}

impl Range {
    /// The steps of a comparison, of which `below` is the one by the digits that are below the constant's.
    fn steps<'a>(&'a self, c: u64, below: fn(&'a [u64]) -> Step<'a>) -> Vec<Step<'a>> {
        let mut steps = Vec::new();
        for (i, bitmaps) in self.bitmaps.iter().enumerate() {
            let d = digit(c, i);
            if d < BASE as usize - 1 {
                steps.push(Step::And(&bitmaps[d]));
            }
            if d > 0 {
                steps.push(below(&bitmaps[d - 1]));
            }
        }
        steps
    }

    /// The digit of the chosen row of the rank, and how many rows have a lower one, by halving. `upto` is the first count.
    fn find(bitmaps: &[Words], chosen: &[u64], rank: u64, upto: u64) -> (usize, u64) {
        let (mut low, mut high, mut below, mut first) = (0, BASE as usize - 1, 0, Some(upto));
        while low < high {
            let middle = (low + high) / 2;
            let upto = first.take().unwrap_or_else(|| count_and(chosen, &bitmaps[middle]));
            if rank < upto {
                high = middle;
            } else {
                (low, below) = (middle + 1, upto);
            }
        }
        (low, below)
    }
}

impl Column for Range {
    fn name(&self) -> &'static str {
        "range"
    }

    fn push_block(&mut self, block: &Block) {
        for (i, bitmaps) in self.bitmaps.iter_mut().enumerate() {
            let mut words = mark(&block.numbers, i);
            for j in 1..words.len() {
                words[j] |= words[j - 1];
            }
            push_words(bitmaps, &words);
        }
        push_places(&mut self.places, block.numbers);
        self.present.push(block.present);
    }

    fn push(&mut self, row: u64) {
        let value = value_of(row);
        for (i, bitmaps) in self.bitmaps.iter_mut().enumerate() {
            for bitmap in &mut bitmaps[digit(value, i)..] {
                set(bitmap, row);
            }
        }
        set_places(&mut self.places, row, value);
        set(&mut self.present, row);
    }

    fn le(&self, c: u64) -> Words {
        run(self.steps(c, Step::Or), &self.present)
    }

    fn eq(&self, c: u64) -> Words {
        run(self.steps(c, Step::AndNot), &self.present)
    }

    fn sum(&self, found: &[u64]) -> u128 {
        sum_by_places(&self.places, found)
    }

    fn median(&self, found: &[u64]) -> u64 {
        let half = BASE as usize / 2 - 1;
        let mut chosen = found.to_vec();
        let mut upto = narrow(&mut chosen, Some(&self.present), None, &self.bitmaps[COMPONENTS - 1][half]);
        let (mut rank, mut median) = (count(&chosen).saturating_sub(1) / 2, 0);
        for i in (0..COMPONENTS).rev() {
            let bitmaps = &self.bitmaps[i];
            let (d, below) = Range::find(bitmaps, &chosen, rank, upto);
            median = median * BASE + d as u64;
            rank -= below;
            if i > 0 {
                let dropped = if d > 0 { Some(&bitmaps[d - 1][..]) } else { None };
                upto = narrow(&mut chosen, bitmaps.get(d).map(|bitmap| &bitmap[..]), dropped, &self.bitmaps[i - 1][half]);
            }
        }
        median
    }
}

struct Equality {
    bitmaps: Vec<Vec<Words>>,
    places: Vec<Words>,
    present: Words,
}

impl Equality {
    fn new(n: u64) -> Equality {
        let words = n.div_ceil(64) as usize;
        let bitmaps = vec![vec![vec![0; words]; BASE as usize]; COMPONENTS];
        Equality { bitmaps, places: vec![vec![0; words]; WIDTH], present: vec![0; words] }
    }
}

impl Column for Equality {
    fn name(&self) -> &'static str {
        "equality"
    }

    fn push_block(&mut self, block: &Block) {
        for (i, bitmaps) in self.bitmaps.iter_mut().enumerate() {
            push_words(bitmaps, &mark(&block.numbers, i));
        }
        push_places(&mut self.places, block.numbers);
        self.present.push(block.present);
    }

    fn push(&mut self, row: u64) {
        let value = value_of(row);
        for (i, bitmaps) in self.bitmaps.iter_mut().enumerate() {
            set(&mut bitmaps[digit(value, i)], row);
        }
        set_places(&mut self.places, row, value);
        set(&mut self.present, row);
    }

    fn le(&self, c: u64) -> Words {
        let mut steps = Vec::new();
        for (i, bitmaps) in self.bitmaps.iter().enumerate() {
            let d = digit(c, i);
            if PLACES < (d + 1).min(BASE as usize - d) {
                steps.extend(steps_by_places(&self.places[PLACES * i..][..PLACES], d as u64));
            } else if d < BASE as usize / 2 {
                steps.push(Step::And(&bitmaps[d]));
                steps.extend(bitmaps[..d].iter().map(|bitmap| Step::Or(bitmap)));
            } else {
                steps.push(Step::OrNot(&bitmaps[d]));
                steps.extend(bitmaps[d + 1..].iter().map(|bitmap| Step::AndNot(bitmap)));
            }
        }
        run(steps, &self.present)
    }

    fn eq(&self, c: u64) -> Words {
        let steps: Vec<Step> = self.bitmaps.iter().enumerate().map(|(i, bitmaps)| Step::And(&bitmaps[digit(c, i)])).collect();
        run(steps, &self.present)
    }

    fn sum(&self, found: &[u64]) -> u128 {
        sum_by_places(&self.places, found)
    }

    fn median(&self, found: &[u64]) -> u64 {
        let mut chosen = found.to_vec();
        let mut ones = narrow(&mut chosen, Some(&self.present), None, &self.bitmaps[COMPONENTS - 1][0]);
        let (mut rank, mut median) = (count(&chosen).saturating_sub(1) / 2, 0);
        for i in (0..COMPONENTS).rev() {
            let bitmaps = &self.bitmaps[i];
            let mut d = 0;
            while rank >= ones && d + 1 < BASE as usize {
                rank -= ones;
                d += 1;
                ones = count_and(&chosen, &bitmaps[d]);
            }
            median = median * BASE + d as u64;
            if i > 0 {
                ones = narrow(&mut chosen, Some(&bitmaps[d]), None, &self.bitmaps[i - 1][0]);
            }
        }
        median
    }
}

/// The plain list: no bitmap, a test for each row.
struct Scan(Vec<u32>);

#[inline(never)]
fn scan(values: &[u32], test: impl Fn(u32) -> bool) -> Words {
    values.chunks(64).map(|rows| rows.iter().rev().fold(0, |word, v| word << 1 | u64::from(test(*v)))).collect()
}

impl Column for Scan {
    fn name(&self) -> &'static str {
        "scan"
    }

    fn push(&mut self, row: u64) {
        self.0.push(value_of(row) as u32);
    }

    fn push_block(&mut self, block: &Block) {
        self.0.extend(block.numbers.map(|number| number as u32));
    }

    fn le(&self, c: u64) -> Words {
        let c = c as u32;
        scan(&self.0, |v| v <= c)
    }

    fn eq(&self, c: u64) -> Words {
        let c = c as u32;
        scan(&self.0, |v| v == c)
    }

    fn sum(&self, found: &[u64]) -> u128 {
        let mut total = 0;
        for (rows, word) in self.0.chunks(64).zip(found) {
            total += rows.iter().enumerate().map(|(i, v)| u64::from(*v) & (word >> i & 1).wrapping_neg()).sum::<u64>();
        }
        u128::from(total)
    }

    fn median(&self, found: &[u64]) -> u64 {
        let mut values = Vec::with_capacity(count(found) as usize);
        for (rows, word) in self.0.chunks(64).zip(found) {
            values.extend(rows.iter().enumerate().filter(|(i, _)| word >> i & 1 == 1).map(|(_, v)| *v));
        }
        let middle = values.len().saturating_sub(1) / 2;
        if values.is_empty() { 0 } else { u64::from(*values.select_nth_unstable(middle).1) }
    }
}

/// Every third of so many rows.
fn thirds(n: u64) -> Words {
    let mut words: Words = (0..n.div_ceil(64)).map(|at| THIRDS << (2 * at % 3)).collect();
    if let Some(last) = words.last_mut().filter(|_| n % 64 > 0) {
        *last &= (1 << (n % 64)) - 1;
    }
    words
}

/// One of each 8,192 rows.
fn few(n: u64) -> Words {
    (0..n.div_ceil(64)).map(|at| u64::from(at % 128 == 0)).collect()
}

/// Times so many calls, and prints the line of the best, with a number that a wrong answer would hardly have.
fn time<A>(form: &str, question: &str, n: u64, samples: u32, ask: impl Fn() -> A, checksum: impl Fn(&A) -> u128) {
    let mut best = u128::MAX;
    let mut sum = 0;
    for _ in 0..samples {
        let start = Instant::now();
        let answer = black_box(ask());
        best = best.min(start.elapsed().as_nanos());
        sum = checksum(&answer);
    }
    println!("{form}.{question} {n} 1 {best} {sum}");
}

/// The entries of 64 rows.
fn block_from(row: u64) -> Block {
    Block { numbers: std::array::from_fn(|k| value_of(row + k as u64)), present: u64::MAX }
}

/// Fills a column with memory for its rows by single appends, and another by blocks, asks that each question, and prints a
/// line for each.
fn measure<C: Column>(new: fn(u64) -> C, n: u64, samples: u32) {
    let mut single = new(n);
    let start = Instant::now();
    (0..n).for_each(|row| single.push(black_box(row)));
    let form = single.name();
    println!("{form}.append {n} 1 {} {n}", start.elapsed().as_nanos());
    drop(single);
    let mut column = new(0);
    let mut best = u128::MAX;
    for _ in 0..BUILDS {
        let start = Instant::now();
        column = new(0);
        (0..n).step_by(64).for_each(|row| column.push_block(&block_from(black_box(row))));
        best = best.min(start.elapsed().as_nanos());
    }
    println!("{form}.build {n} 1 {best} {n}");
    let found = thirds(n);
    let (column, found, c) = (&column, &found[..], (1 << WIDTH) / 3 + 1);
    let ones = |rows: &Words| u128::from(count(rows));
    time(form, "le", n, samples, || column.le(black_box(c)), ones);
    time(form, "eq", n, samples, || column.eq(black_box(c)), ones);
    time(form, "sum", n, samples, || column.sum(black_box(found)), |sum| *sum);
    time(form, "median", n, samples, || column.median(black_box(found)), |median| u128::from(*median));
    let few = &few(n)[..];
    time(form, "few", n, samples, || column.sum(black_box(few)), |sum| *sum);
}

fn main() {
    for (n, samples) in [(1_000_000, 200), (16_000_000, 20)] {
        measure(Slices::new, n, samples);
        measure(Range::new, n, samples);
        measure(Equality::new, n, samples);
        measure(|n| Scan(Vec::with_capacity(n as usize)), n, samples);
    }
}
