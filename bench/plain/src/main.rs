// Does for each line of standard input what crates/bench does, in plain Rust: a case, and a line of sums.

mod answer;
mod book;
mod file;
mod made;
mod parse;
mod table;
mod trace;

use answer::answer;
use book::{Book, Value};
use file::{FULL, read, write};
use made::{Size, of_days, of_names};
use parse::parse;
use std::error::Error;
use std::io;
use table::{LONG, evaluate};

// The units of work in a round, what was counted in all rounds, and a sum over what the last one made.
type Sums = (usize, usize, u64);

fn sum(numbers: impl Iterator<Item = u64>) -> u64 {
    numbers.fold(0, |sum: u64, number| {
        sum.wrapping_mul(31).wrapping_add(number)
    })
}

fn sum_bytes(bytes: &[u8]) -> u64 {
    sum(bytes.iter().map(|byte| u64::from(*byte)))
}

fn evaluate_often(size: Size, rounds: usize, wording: &[u8]) -> Result<Sums, Box<dyn Error>> {
    let parts = parse(wording)?;
    let mut book = of_names(size)?;
    let n = usize::from(size.entries);
    let mut table = vec![0; parts.len() * n * n];
    let mut counted = 0;
    for round in 0..rounds {
        book.turn(round);
        evaluate(&book, &parts, &mut table, n);
        let whole = &table[(parts.len() - 1) * n * n..];
        counted += whole.iter().filter(|cell| **cell <= LONG).count();
    }
    let sum = sum(table.iter().map(|cell| u64::from(*cell)));
    Ok((parts.len() * n * n * n, counted, sum))
}

fn reread<V: Value>(mut book: Book<V>, rounds: usize) -> Result<Sums, Box<dyn Error>> {
    let mut file = Vec::new();
    write(&book, &mut file).ok_or("no book")?;
    let mut counted = 0;
    for round in 0..rounds {
        read(&file, FULL, &mut book).map_err(|refused| format!("refused: {refused:?}"))?;
        counted += book.values.len() + book.links.len();
        book.turn(round);
        write(&book, &mut file).ok_or("no book")?;
    }
    let units = book.values.len() + book.links.len() + 1;
    Ok((units, counted, sum_bytes(&file)))
}

fn list_often(size: Size, rounds: usize, wording: &[u8]) -> Result<Sums, Box<dyn Error>> {
    let mut file = Vec::new();
    write(&of_names(size)?, &mut file).ok_or("no book")?;
    let mut input = [wording, b"\n", &file].concat();
    let (from, to) = (input.len() - 3, input.len() - 1);
    let mut text = Vec::new();
    let mut counted = 0;
    for _ in 0..rounds {
        input.swap(from, to);
        text = answer(&input)?;
        counted += text.len();
    }
    Ok((text.len(), counted, sum_bytes(&text)))
}

// One line: `WHAT ENTRIES NAME LINKS ROUNDS WORDING`.
fn run(line: &str) -> Result<Sums, Box<dyn Error>> {
    let fields: Vec<&str> = line.splitn(6, ' ').collect();
    let &[what, entries, name, links, rounds, wording] = &fields[..] else {
        return Err("not six fields".into());
    };
    let (entries, name, links) = (entries.parse()?, name.parse()?, links.parse()?);
    if !(1..=128).contains(&entries) || !(1..=128).contains(&name) {
        return Err("not 1 to 128 entries and bytes of a name".into());
    }
    let size = Size {
        entries,
        name,
        links,
    };
    let rounds = rounds.parse()?;
    match what {
        "evaluate" => evaluate_often(size, rounds, wording.as_bytes()),
        "names" => reread(of_names(size)?, rounds),
        "days" => reread(of_days(size), rounds),
        "list" => list_often(size, rounds, wording.as_bytes()),
        _ => Err("nothing to do".into()),
    }
}

fn main() -> Result<(), Box<dyn Error>> {
    for line in io::stdin().lines() {
        let (units, counted, sum) = run(&line?)?;
        println!("units {units} counted {counted} sum {sum}");
    }
    Ok(())
}
