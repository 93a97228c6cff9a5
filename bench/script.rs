//! The peer of `bsi script` in Rust, over plain lists: columns and rows as they come, one feeder, the same records and the same
//! answers, for the records that the benchmark gives.
//!
//! With the word `each` it writes each answer by a call of its own, as `bsi` does, so that no line waits for a later
//! record. With the word `blocks` it gathers answers, which shows what those calls cost. It reads plain fields alone.

use std::collections::VecDeque;
use std::io::{self, BufRead, Write};

type Row = Vec<Option<u64>>;

#[derive(Default)]
struct Machine {
    columns: Vec<(Vec<u8>, u64)>,
    capacity: usize,
    waiting: VecDeque<Row>,
    is_closed: bool,
    indexed: Vec<Row>,
}

fn number(field: &[u8]) -> Option<u64> {
    if field.is_empty() || field.len() > 20 {
        return None;
    }
    field.iter().try_fold(0u64, |value, byte| match byte {
        b'0'..=b'9' => value.checked_mul(10)?.checked_add((byte - b'0') as u64),
        _ => None,
    })
}

fn size(form: &[u8], text: &[u8]) -> Option<u64> {
    if form == b"slices" {
        return Some(1 << number(text)?);
    }
    text.split(|&byte| byte == b' ').try_fold(1, |size, base| Some(size * number(base)?))
}

/// A part of a predicate, in postfix order.
enum Part<'a> {
    Compare(usize, &'a [u8], u64),
    Both,
    Not,
}

impl Machine {
    fn submit(&mut self, fields: &[&[u8]]) -> Option<&'static [u8]> {
        let value = |field: &&[u8]| if field.is_empty() { Some(None) } else { number(field).map(Some) };
        let row: Row = fields.iter().map(value).collect::<Option<_>>()?;
        if self.is_closed {
            return Some(b"closed\n");
        }
        let fits = |(entry, column): (&Option<u64>, &(Vec<u8>, u64))| entry.is_none_or(|value| value < column.1);
        if row.len() != self.columns.len() || !row.iter().zip(&self.columns).all(fits) {
            return Some(b"misfit\n");
        }
        if self.waiting.len() == self.capacity {
            return Some(b"full\n");
        }
        self.waiting.push_back(row);
        Some(b"accepted\n")
    }

    fn load(&mut self, line: &mut Vec<u8>) {
        let Some(row) = self.waiting.pop_front() else {
            line.extend_from_slice(if self.is_closed { b"ended\n" } else { b"empty\n" });
            return;
        };
        writeln!(line, "loaded {}", self.indexed.len()).unwrap();
        self.indexed.push(row);
    }

    fn position(&self, name: &[u8]) -> Option<usize> {
        self.columns.iter().position(|column| column.0 == name)
    }

    fn parts<'a>(&self, mut fields: &[&'a [u8]]) -> Option<Vec<Part<'a>>> {
        let mut parts = Vec::new();
        while let [first, rest @ ..] = fields {
            fields = match *first {
                b"and" => {
                    parts.push(Part::Both);
                    rest
                }
                b"not" => {
                    parts.push(Part::Not);
                    rest
                }
                name => {
                    let [sign, constant, rest @ ..] = rest else { return None };
                    parts.push(Part::Compare(self.position(name)?, sign, number(constant)?));
                    rest
                }
            };
        }
        Some(parts)
    }

    fn selects(parts: &[Part], row: &Row) -> bool {
        let mut stack = [false; 8];
        let mut top = 0;
        for part in parts {
            match part {
                Part::Compare(column, sign, constant) => {
                    stack[top] = row[*column].is_some_and(|value| match *sign {
                        b"=" => value == *constant,
                        b"!=" => value != *constant,
                        b"<" => value < *constant,
                        b"<=" => value <= *constant,
                        b">" => value > *constant,
                        _ => value >= *constant,
                    });
                    top += 1;
                }
                Part::Both => {
                    top -= 1;
                    stack[top - 1] &= stack[top];
                }
                Part::Not => stack[top - 1] = !stack[top - 1],
            }
        }
        stack[0]
    }

    fn found<'a>(&'a self, fields: &[&'a [u8]]) -> Option<impl Iterator<Item = &'a Row> + use<'a>> {
        let parts = self.parts(fields)?;
        Some(self.indexed.iter().filter(move |row| Self::selects(&parts, row)))
    }

    fn total<'a>(&'a self, word: &[u8], name: &[u8], fields: &[&'a [u8]], line: &mut Vec<u8>) -> Option<()> {
        let column = self.position(name)?;
        let mut numbers = self.found(fields)?.filter_map(|row| row[column]);
        match word {
            b"sum" => writeln!(line, "sum {}", numbers.map(u128::from).sum::<u128>()).unwrap(),
            b"greatest" => match numbers.max() {
                Some(value) => writeln!(line, "value {value}").unwrap(),
                None => line.extend_from_slice(b"none\n"),
            },
            _ => {
                let mut list: Vec<u64> = numbers.by_ref().collect();
                if list.is_empty() {
                    line.extend_from_slice(b"none\n");
                } else {
                    let middle = (list.len() - 1) / 2;
                    writeln!(line, "value {}", list.select_nth_unstable(middle).1).unwrap();
                }
            }
        }
        Some(())
    }

    /// Appends the answer to the record, and returns whether it is one.
    fn answer(&mut self, fields: &[&[u8]], line: &mut Vec<u8>) -> Option<()> {
        match fields {
            [b"submit", b"0", values @ ..] => line.extend_from_slice(self.submit(values)?),
            [b"load", b"0"] => self.load(line),
            [b"count", rest @ ..] => writeln!(line, "count {}", self.found(rest)?.count()).unwrap(),
            [b"column", name, form, text] => {
                self.columns.push((name.to_vec(), size(form, text)?));
                line.extend_from_slice(b"ok\n");
            }
            [b"feeder", capacity] => {
                self.capacity = number(capacity)? as usize;
                line.extend_from_slice(b"ok\n");
            }
            [b"begin"] => line.extend_from_slice(b"ok\n"),
            [word, name, rest @ ..] => self.total(word, name, rest, line)?,
            _ => return None,
        }
        Some(())
    }
}

fn main() -> io::Result<()> {
    let each = std::env::args().nth(1).as_deref() == Some("each");
    let (mut input, mut output) = (io::stdin().lock(), unbuffered());
    let (mut machine, mut record, mut line) = (Machine::default(), Vec::new(), Vec::new());
    while input.read_until(b'\n', &mut record)? > 0 {
        if record.last() == Some(&b'\n') {
            record.pop();
        }
        let fields: Vec<&[u8]> = record.split(|&byte| byte == b',').collect();
        if machine.answer(&fields, &mut line).is_none() {
            line.extend_from_slice(b"bad\n");
        }
        if each || line.len() >= 1 << 16 {
            output.write_all(&line)?;
            line.clear();
        }
        record.clear();
    }
    output.write_all(&line)
}

/// Standard output as a file, since std's own is gathered by lines.
fn unbuffered() -> std::fs::File {
    use std::os::fd::FromRawFd;
    unsafe { std::fs::File::from_raw_fd(1) }
}
