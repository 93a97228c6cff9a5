//! The peer of tables.rattle in Rust: rows in plain lists, counted by one branch-free scan, listed by one scan that counts the rows of
//! each feeder, and a machine that keeps its rows in a queue and a list.
//!
//! Built by `rustc -C opt-level=3 -C target-cpu=x86-64-v2`.

use std::collections::VecDeque;
use std::hint::black_box;
use std::time::Instant;

/// A multiplier that spreads a row's number over the values.
const SPREAD: u64 = 0x9E37_79B9_7F4A_7C15;

/// How many rows differ.
const KINDS: u64 = 1024;

/// The constants of the two comparisons.
const ABOVE: u32 = 349_526;
const BELOW: u32 = 699_051;

/// How many feeders the rows of a list come from.
const FEEDERS: u64 = 8;

/// One row of so many is rare: each of its numbers is the greatest.
const RARE: u64 = 100_000;

/// The greatest number of twenty binary digits, and one that a hundredth of them are below.
const GREATEST: u32 = 1_048_575;
const HUNDREDTH: u32 = 10_486;

/// The value of a column of a row, of twenty binary digits.
fn value_of(row: u64, column: u64) -> u64 {
    row.wrapping_add(column.wrapping_mul(1000)).wrapping_mul(SPREAD) >> 44
}

type Row = Vec<Option<i128>>;

fn row_of(row: u64) -> Row {
    (0..4).map(|column| Some(i128::from(value_of(row, column)))).collect()
}

/// A table as four plain lists of 32-bit numbers.
#[derive(Default)]
struct Table {
    columns: [Vec<u32>; 4],
}

impl Table {
    fn append(&mut self, row: &Row) -> bool {
        let fits = row.len() == 4 && row.iter().all(|entry| entry.is_none_or(|x| (0..1 << 20).contains(&x)));
        if fits {
            for (column, entry) in self.columns.iter_mut().zip(row) {
                column.push(entry.unwrap_or(0) as u32);
            }
        }
        fits
    }

    fn both(&self) -> u64 {
        let pairs = self.columns[0].iter().zip(&self.columns[1]);
        u64::from(pairs.map(|(a, b)| u32::from((*a > ABOVE) & (*b < BELOW))).sum::<u32>())
    }

    fn alone(&self) -> u64 {
        let above: u32 = self.columns[0].iter().map(|a| u32::from(*a > ABOVE)).sum();
        let below: u32 = self.columns[1].iter().map(|b| u32::from(*b < BELOW)).sum();
        u64::from(above) + u64::from(below)
    }
}

/// A table and the feeder of each row.
#[derive(Default)]
struct Fed {
    table: Table,
    feeders: Vec<u8>,
}

impl Fed {
    fn found(&self) -> u64 {
        u64::from(self.table.columns[0].iter().map(|a| u32::from(*a == GREATEST)).sum::<u32>())
    }

    fn listed(&self, test: impl Fn(u32) -> bool) -> Vec<(u32, u64)> {
        let mut counts = [0u64; 64];
        let mut rows = Vec::new();
        for (a, feeder) in self.table.columns[0].iter().zip(&self.feeders) {
            let count = &mut counts[usize::from(feeder & 63)];
            if test(*a) {
                rows.push((u32::from(*feeder), *count));
            }
            *count += 1;
        }
        rows
    }
}

fn total_of(rows: &[(u32, u64)]) -> u64 {
    rows.iter().map(|(feeder, number)| u64::from(*feeder) + number).sum()
}

fn measure_list(fed: &Fed, name: &str, test: impl Fn(u32) -> bool, samples: u32) {
    let (mut best, mut found, mut total) = (u128::MAX, 0, 0);
    for _ in 0..samples {
        let start = Instant::now();
        let rows = black_box(black_box(fed).listed(&test));
        best = best.min(start.elapsed().as_nanos());
        (found, total) = (rows.len(), total_of(&rows));
    }
    println!("{name} {} 1 {best} {found} {total}", fed.feeders.len());
}

fn measure_lists(rows: u64, samples: u32) {
    let kinds: Vec<Row> = (0..KINDS).map(row_of).collect();
    let rare: Row = vec![Some(i128::from(GREATEST)); 4];
    let mut fed = Fed::default();
    for row in 0..rows {
        let next = if row % RARE == RARE / 2 { &rare } else { &kinds[(row % KINDS) as usize] };
        fed.table.append(next);
        fed.feeders.push(((row.wrapping_mul(SPREAD) >> 40) % FEEDERS) as u8);
    }
    let (best, found) = best_of(samples, || black_box(&fed).found());
    println!("list.found {rows} 1 {best} {found}");
    measure_list(&fed, "list.few", |a| a == GREATEST, samples);
    measure_list(&fed, "list.hundredth", |a| a < HUNDREDTH, samples);
    measure_list(&fed, "list.all", |_| true, samples / 4);
}

fn best_of(samples: u32, ask: impl Fn() -> u64) -> (u128, u64) {
    let (mut best, mut result) = (u128::MAX, 0);
    for _ in 0..samples {
        let start = Instant::now();
        result = black_box(ask());
        best = best.min(start.elapsed().as_nanos());
    }
    (best, result)
}

fn measure_index(rows: u64, samples: u32) {
    let kinds: Vec<Row> = (0..KINDS).map(row_of).collect();
    let mut table = Table::default();
    let start = Instant::now();
    for row in kinds.iter().cycle().take(rows as usize) {
        table.append(black_box(row));
    }
    let taken = start.elapsed().as_nanos();
    println!("table.append {rows} 1 {taken} {}", table.columns[0].len());
    let (best, count) = best_of(samples, || black_box(&table).both());
    println!("table.both {rows} 1 {best} {count}");
    let (alone, counts) = best_of(samples, || black_box(&table).alone());
    println!("table.alone {rows} 1 {alone} {counts}");
}

enum Event {
    Submit(Row),
    Load,
}

fn measure_machine(rows: u64) {
    let mut events = Vec::new();
    for row in 0..rows {
        events.push(Event::Submit(row_of(row)));
        events.push(Event::Load);
    }
    let many = events.len();
    let (mut queue, mut table) = (VecDeque::with_capacity(4), Table::default());
    let start = Instant::now();
    let mut replies = Vec::with_capacity(many);
    for event in events {
        replies.push(match event {
            Event::Submit(row) => {
                queue.push_back(row);
                true
            }
            Event::Load => queue.pop_front().is_some_and(|row| table.append(&row)),
        });
    }
    let taken = start.elapsed().as_nanos();
    println!("machine.run {many} 1 {taken} {}", black_box(replies).iter().all(|done| *done));
}

fn main() {
    measure_index(1_000_000, 200);
    measure_lists(1_000_000, 200);
    measure_machine(250_000);
}
