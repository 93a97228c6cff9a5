// What `bsi files` does, in plain Rust over lists of rows: a thread reads each file of plain fields into a list, and each question
// is answered by a scan over all rows. It takes the asks file and then the row files, and knows no schema: every field is a
// number, or a null where it is empty.

use std::collections::HashMap;
use std::io::{BufRead, BufReader, BufWriter, Write};
use std::{env, fs, io, thread};

type Row = [Option<i64>; 4];

enum Step {
    All,
    Compare(usize, String, i64),
    Null(usize),
    Both,
    Either,
    Not,
}

fn read_rows(path: &str) -> (Vec<String>, Vec<Row>) {
    let mut lines = BufReader::new(fs::File::open(path).expect("a row file")).lines();
    let header = lines.next().expect("a header").expect("a header");
    let names = header.split(',').map(str::to_owned).collect();
    let rows = lines.map(|line| {
        let mut row = [None; 4];
        for (place, field) in line.expect("a row").split(',').enumerate() {
            row[place] = if field.is_empty() { None } else { Some(field.parse().expect("a number")) };
        }
        row
    });
    (names, rows.collect())
}

fn steps_of(fields: &[&str], places: &HashMap<String, usize>) -> Vec<Step> {
    let mut steps = Vec::new();
    let mut at = 0;
    while at < fields.len() {
        at += match fields[at] {
            "all" => { steps.push(Step::All); 1 }
            "and" => { steps.push(Step::Both); 1 }
            "or" => { steps.push(Step::Either); 1 }
            "not" => { steps.push(Step::Not); 1 }
            name if fields[at + 1] == "null" => { steps.push(Step::Null(places[name])); 2 }
            name => {
                let constant = fields[at + 2].parse().expect("a constant");
                steps.push(Step::Compare(places[name], fields[at + 1].to_owned(), constant));
                3
            }
        };
    }
    steps
}

fn compares(sign: &str, value: i64, constant: i64) -> bool {
    match sign {
        "=" => value == constant,
        "!=" => value != constant,
        "<" => value < constant,
        "<=" => value <= constant,
        ">" => value > constant,
        _ => value >= constant,
    }
}

fn selects(steps: &[Step], row: &Row, stack: &mut Vec<bool>) -> bool {
    stack.clear();
    for step in steps {
        let found = match step {
            Step::All => true,
            Step::Compare(place, sign, constant) => row[*place].is_some_and(|value| compares(sign, value, *constant)),
            Step::Null(place) => row[*place].is_none(),
            Step::Both => { let (b, a) = (stack.pop().unwrap(), stack.pop().unwrap()); a && b }
            Step::Either => { let (b, a) = (stack.pop().unwrap(), stack.pop().unwrap()); a || b }
            Step::Not => !stack.pop().unwrap(),
        };
        stack.push(found);
    }
    stack.pop().unwrap()
}

fn answer(ask: &str, rows: &[Row], places: &HashMap<String, usize>) -> String {
    let fields: Vec<&str> = ask.split(',').collect();
    let mut stack = Vec::new();
    if fields[0] == "count" {
        let steps = steps_of(&fields[1..], places);
        return format!("count {}", rows.iter().filter(|row| selects(&steps, row, &mut stack)).count());
    }
    let (place, steps) = (places[fields[1]], steps_of(&fields[2..], places));
    let mut values: Vec<i64> = rows.iter().filter(|row| selects(&steps, row, &mut stack)).filter_map(|row| row[place]).collect();
    let value = match fields[0] {
        "sum" => return format!("sum {}", values.iter().map(|&value| i128::from(value)).sum::<i128>()),
        "least" => values.iter().min().copied(),
        "greatest" => values.iter().max().copied(),
        _ if values.is_empty() => None,
        _ => { let middle = (values.len() - 1) / 2; Some(*values.select_nth_unstable(middle).1) }
    };
    value.map_or("none".to_owned(), |value| format!("value {value}"))
}

fn main() -> io::Result<()> {
    let words: Vec<String> = env::args().skip(1).collect();
    let threads: Vec<_> = words[1..].iter().cloned().map(|path| thread::spawn(move || read_rows(&path))).collect();
    let mut output = BufWriter::new(io::stdout());
    let (mut rows, mut places) = (Vec::new(), HashMap::new());
    for (file, thread) in threads.into_iter().enumerate() {
        let (names, read) = thread.join().expect("a thread");
        writeln!(output, "fed {file} {} 0", read.len())?;
        places = names.into_iter().enumerate().map(|(place, name)| (name, place)).collect();
        rows.extend(read);
    }
    for ask in fs::read_to_string(&words[0])?.lines() {
        writeln!(output, "{}", answer(ask, &rows, &places))?;
    }
    output.flush()
}
