//! The peer of questions.rattle in Rust: scans of plain lists, without a branch where they count or add, the extremes of a column by
//! hand-written descents over spans of bitmaps, and a pass that only reads the bitmaps of three comparisons.
//!
//! Built by `rustc -C opt-level=3 -C target-cpu=x86-64-v2`. A descent takes the selected rows of 32 words, goes down the slices or the
//! components from the most significant one, and leaves the span once it can't beat the best number so far.

use std::hint::black_box;
use std::time::Instant;

/// A multiplier that spreads a row's number over the values.
const SPREAD: u64 = 0x9E37_79B9_7F4A_7C15;

/// How many feeders the rows come from.
const FEEDERS: u64 = 8;

/// How many blocks of 64 rows differ, and which of so many holds the rare row.
const KINDS: u64 = 16;
const RARE: u64 = 1563;

/// The greatest number of twenty binary digits, which the rare row has in each column.
const GREATEST: u32 = 1_048_575;

/// The constants of the comparisons.
const ABOVE: u32 = 349_526;
const BELOW: u32 = 699_051;
const HALF: u32 = 524_288;

const WIDTH: usize = 20;
const BASE: usize = 32;
const COMPONENTS: usize = 4;

/// The words of a span of a comparison, which stay in registers, and of a descent.
const SPAN_WORDS: usize = 16;
const PART: usize = 32;

type Words = Vec<u64>;
type Part = [u64; PART];

/// The value of a column of a row, of twenty binary digits.
fn value_of(row: u64, column: u64) -> u32 {
    (row.wrapping_add(column.wrapping_mul(1000)).wrapping_mul(SPREAD) >> 44) as u32
}

/// The three columns as plain lists, two of ten and of a thousand numbers, and the feeder of each row with the row's number among those
/// of that feeder.
struct Lists {
    columns: [Vec<u32>; 3],
    few: [Vec<u16>; 2],
    origins: Vec<(u32, u64)>,
}

impl Lists {
    fn new(rows: u64) -> Lists {
        let mut columns = [const { Vec::new() }; 3];
        let mut few = [const { Vec::new() }; 2];
        let (mut origins, mut fed) = (Vec::new(), [0; FEEDERS as usize]);
        for row in 0..rows / 64 * 64 {
            let (block, at) = (row / 64, row % 64);
            let is_rare = block % RARE == RARE / 2;
            let kind = if is_rare { at } else { block % KINDS * 64 + at };
            for (column, list) in (0..).zip(&mut columns) {
                list.push(if is_rare && at == 0 { GREATEST } else { value_of(kind, column) });
            }
            for (many, list) in [10, 1000].into_iter().zip(&mut few) {
                list.push(if is_rare && at == 0 { 0 } else { (kind % many) as u16 });
            }
            let feeder = (kind.wrapping_mul(SPREAD) >> 40) % FEEDERS;
            fed[feeder as usize] += 1;
            origins.push((feeder as u32, fed[feeder as usize]));
        }
        Lists { columns, few, origins }
    }

    fn len(&self) -> usize {
        self.columns[0].len()
    }

    /// How many rows hold.
    fn count(&self, holds: impl Fn(u32, u32, u32) -> bool) -> u64 {
        let [a, b, c] = &self.columns;
        let rows = a.iter().zip(b).zip(c);
        u64::from(rows.map(|((a, b), c)| u32::from(holds(*a, *b, *c))).sum::<u32>())
    }

    fn count_first(&self, holds: impl Fn(u32) -> bool) -> u64 {
        u64::from(self.columns[0].iter().map(|a| u32::from(holds(*a))).sum::<u32>())
    }

    fn count_two(&self) -> u64 {
        let rows = self.columns[0].iter().zip(&self.columns[1]);
        u64::from(rows.map(|(a, b)| u32::from((*a > ABOVE) & (*b < BELOW))).sum::<u32>())
    }

    fn least(&self) -> u64 {
        let rows = self.columns[0].iter().zip(&self.columns[1]);
        u64::from(rows.map(|(a, b)| if *b <= BELOW { *a } else { u32::MAX }).min().unwrap_or(0))
    }

    fn greatest(&self) -> u64 {
        let rows = self.columns[0].iter().zip(&self.columns[1]);
        u64::from(rows.map(|(a, b)| if *b <= BELOW { *a } else { 0 }).max().unwrap_or(0))
    }

    fn sum(&self) -> u64 {
        let rows = self.columns[0].iter().zip(&self.columns[1]);
        rows.map(|(a, b)| if *b <= BELOW { u64::from(*a) } else { 0 }).sum()
    }

    fn median(&self) -> u64 {
        let rows = self.columns[0].iter().zip(&self.columns[1]);
        let mut found: Vec<u32> = rows.filter(|(_, b)| **b <= BELOW).map(|(a, _)| *a).collect();
        let middle = (found.len() - 1) / 2;
        u64::from(*found.select_nth_unstable(middle).1)
    }

    /// The sums of a column for each number of one of few numbers, by an array of counters.
    fn group(&self, by: usize, many: usize) -> u64 {
        let (mut sums, mut counts) = (vec![0u64; many], vec![0u32; many]);
        for (b, key) in self.columns[1].iter().zip(&self.few[by]) {
            let is_found = *b <= BELOW;
            sums[usize::from(*key)] += u64::from(is_found) * u64::from(*b);
            counts[usize::from(*key)] += u32::from(is_found);
        }
        let found = sums.iter().zip(&counts).filter(|(_, count)| **count > 0);
        let groups = counts.iter().filter(|count| **count > 0).count() as u64;
        found.fold(groups, |answer, (sum, _)| (answer * 31 + sum) % 1_000_003)
    }

    /// Where the rows come from whose number in a column holds.
    fn list(&self, column: usize, holds: impl Fn(u32) -> bool) -> u64 {
        let rows = self.columns[column].iter().zip(&self.origins);
        let listed: Vec<(u32, u64)> = rows.filter(|(number, _)| holds(**number)).map(|(_, origin)| *origin).collect();
        black_box(&listed).len() as u64
    }
}

/// Makes a bitmap of the rows of a list that hold, of a whole number of parts.
fn bitmap(list: &[u32], holds: impl Fn(u32) -> bool) -> Words {
    let mut words = vec![0; list.len().div_ceil(64 * PART) * PART];
    for (row, number) in list.iter().enumerate() {
        words[row / 64] |= u64::from(holds(*number)) << (row % 64);
    }
    words
}

/// A column as slices.
struct Slices {
    slices: Vec<Words>,
    present: Words,
}

impl Slices {
    fn new(list: &[u32]) -> Slices {
        let slices = (0..WIDTH).map(|i| bitmap(list, |number| number >> i & 1 == 1)).collect();
        Slices { slices, present: bitmap(list, |_| true) }
    }

    /// The rows whose number is at most `c`.
    fn at_most(&self, c: u32) -> Words {
        let mut out = vec![0; self.present.len()];
        for (k, out) in out.as_chunks_mut::<SPAN_WORDS>().0.iter_mut().enumerate() {
            let part = SPAN_WORDS * k..SPAN_WORDS * (k + 1);
            let mut found = [u64::MAX; SPAN_WORDS];
            for (i, slice) in self.slices.iter().enumerate() {
                let words = &slice[part.clone()];
                if c >> i & 1 == 1 {
                    found.iter_mut().zip(words).for_each(|(f, w)| *f |= !w);
                } else {
                    found.iter_mut().zip(words).for_each(|(f, w)| *f &= !w);
                }
            }
            found.iter_mut().zip(&self.present[part]).for_each(|(f, w)| *f &= w);
            *out = found;
        }
        out
    }
}

/// The components of a column: bitmap `d` of one has the rows with that digit or, range encoded, with at most it.
struct Components {
    bitmaps: Vec<Vec<Words>>,
}

impl Components {
    fn new(list: &[u32], is_range: bool) -> Components {
        let digit = |number: u32, i: usize| (number >> (5 * i)) as usize & (BASE - 1);
        let one = |i: usize, d: usize| bitmap(list, |x| if is_range { digit(x, i) <= d } else { digit(x, i) == d });
        let stored = if is_range { BASE - 1 } else { BASE };
        Components { bitmaps: (0..COMPONENTS).map(|i| (0..stored).map(|d| one(i, d)).collect()).collect() }
    }
}

/// Keeps the rows that are in the bitmap or, where it says so, those that are not, if there are any.
#[inline(always)]
fn narrow(kept: &mut Part, words: &[u64], is_set: bool) -> bool {
    let turned = if is_set { 0 } else { u64::MAX };
    let words: &Part = words[..PART].try_into().unwrap();
    let mut next = [0; PART];
    let mut any = 0;
    for j in 0..PART {
        next[j] = kept[j] & (words[j] ^ turned);
        any |= next[j];
    }
    if any != 0 {
        *kept = next;
    }
    any != 0
}

/// An end of the numbers of the found rows. A step takes a place, where the span begins, its rows, and the digit that it must
/// not be worse than; it keeps the rows of the best digit. `worst` is the worst digit.
#[inline(always)]
fn end(rows: [&[u64]; 2], places: usize, bits: usize, worst: u64, step: impl Fn(usize, usize, &mut Part, u64) -> Option<u64>) -> u64 {
    let [found, present] = rows;
    let mut best = None;
    'parts: for at in (0..found.len()).step_by(PART) {
        let mut kept: Part = std::array::from_fn(|j| found[at + j] & present[at + j]);
        if kept.iter().fold(0, |any, word| any | word) == 0 {
            continue;
        }
        let (mut number, mut is_tied) = (0, best.is_some());
        for i in (0..places).rev() {
            let wanted = best.unwrap_or(0) >> (bits * i) & ((1 << bits) - 1);
            let Some(digit) = step(i, at, &mut kept, if is_tied { wanted } else { worst }) else { continue 'parts };
            is_tied &= digit == wanted;
            number = number << bits | digit;
        }
        best = Some(number);
    }
    best.unwrap_or(0)
}

fn least_of_slices(column: &Slices, found: &[u64]) -> u64 {
    end([found, &column.present], WIDTH, 1, 1, |i, at, kept, limit| {
        if narrow(kept, &column.slices[i][at..], false) { Some(0) } else if limit == 1 { Some(1) } else { None }
    })
}

fn greatest_of_slices(column: &Slices, found: &[u64]) -> u64 {
    end([found, &column.present], WIDTH, 1, 0, |i, at, kept, limit| {
        if narrow(kept, &column.slices[i][at..], true) { Some(1) } else if limit == 0 { Some(0) } else { None }
    })
}

fn least_of_range(column: &Components, present: &[u64], found: &[u64]) -> u64 {
    end([found, present], COMPONENTS, 5, 31, |i, at, kept, limit| {
        (0..=limit).find(|d| *d == 31 || narrow(kept, &column.bitmaps[i][*d as usize][at..], true))
    })
}

fn greatest_of_range(column: &Components, present: &[u64], found: &[u64]) -> u64 {
    end([found, present], COMPONENTS, 5, 0, |i, at, kept, limit| {
        (limit..=31).rev().find(|d| *d == 0 || narrow(kept, &column.bitmaps[i][*d as usize - 1][at..], false))
    })
}

fn least_of_equality(column: &Components, present: &[u64], found: &[u64]) -> u64 {
    end([found, present], COMPONENTS, 5, 31, |i, at, kept, limit| {
        (0..=limit).find(|d| narrow(kept, &column.bitmaps[i][*d as usize][at..], true))
    })
}

fn greatest_of_equality(column: &Components, present: &[u64], found: &[u64]) -> u64 {
    end([found, present], COMPONENTS, 5, 0, |i, at, kept, limit| {
        (limit..=31).rev().find(|d| narrow(kept, &column.bitmaps[i][*d as usize][at..], true))
    })
}

/// Reads each bitmap once.
fn read(columns: &[&Slices]) -> u64 {
    let bitmaps = columns.iter().flat_map(|column| column.slices.iter().chain([&column.present]));
    bitmaps.map(|bitmap| bitmap.iter().fold(0, |any, word| any | word)).fold(0, |any, word| any ^ word)
}

fn time(name: &str, rows: usize, samples: u32, ask: impl Fn() -> u64) {
    let (mut best, mut answer) = (u128::MAX, 0);
    for _ in 0..samples {
        let start = Instant::now();
        answer = black_box(ask());
        best = best.min(start.elapsed().as_nanos());
    }
    println!("{name} {rows} 1 {best} {answer}");
}

fn time_scans(lists: &Lists, samples: u32) {
    let lists = black_box(lists);
    let n = lists.len();
    time("scan.le", n, samples, || lists.count_first(|a| a <= BELOW));
    time("scan.between", n, samples, || lists.count_first(|a| (a > ABOVE) & (a < BELOW)));
    time("scan.related", n, samples, || lists.count(|a, b, _| a < b));
    time("scan.not", n, samples, || lists.count_first(|a| !(a <= BELOW)));
    time("scan.two", n, samples, || lists.count_two());
    time("scan.three", n, samples, || lists.count(|a, b, c| (a > ABOVE) & (b < BELOW) & (c <= HALF)));
    time("scan.eq", n, samples, || lists.count_first(|a| a == ABOVE));
    time("scan.sum", n, samples, || lists.sum());
    time("scan.median", n, samples.div_ceil(4), || lists.median());
    time("scan.found", n, samples, || lists.count_first(|a| a == GREATEST));
    time("scan.few", n, samples, || lists.list(0, |a| a == GREATEST));
    time("scan.many", n, samples.div_ceil(4), || lists.list(1, |b| b <= BELOW));
    time("scan.ten", n, samples, || lists.group(0, 10));
    time("scan.thousand", n, samples, || lists.group(1, 1000));
    time("scan.least", n, samples, || lists.least());
    time("scan.greatest", n, samples, || lists.greatest());
}

fn time_ends(lists: &Lists, samples: u32) {
    let n = lists.len();
    let [a, b, c] = lists.columns.each_ref().map(|list| Slices::new(list));
    time("read.bitmaps", n, samples, || read(black_box(&[&a, &b, &c])));
    let present = &a.present;
    time("slices.least", n, samples, || least_of_slices(black_box(&a), &b.at_most(BELOW)));
    time("slices.greatest", n, samples, || greatest_of_slices(black_box(&a), &b.at_most(BELOW)));
    let range = Components::new(&lists.columns[0], true);
    time("range.least", n, samples, || least_of_range(black_box(&range), present, &b.at_most(BELOW)));
    time("range.greatest", n, samples, || greatest_of_range(black_box(&range), present, &b.at_most(BELOW)));
    let equality = Components::new(&lists.columns[0], false);
    time("equality.least", n, samples, || least_of_equality(black_box(&equality), present, &b.at_most(BELOW)));
    time("equality.greatest", n, samples, || greatest_of_equality(black_box(&equality), present, &b.at_most(BELOW)));
}

fn main() {
    for (rows, samples) in [(1_000_000, 100), (10_000_000, 20)] {
        let lists = Lists::new(rows);
        time_scans(&lists, samples);
        time_ends(&lists, samples);
    }
}
