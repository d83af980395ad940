// The answer to a question about the book in an input, as text.

use crate::book::{Book, Day, Name, Value};
use crate::file::{Room, read};
use crate::parse::{Part, parse};
use crate::table::{LONG, evaluate};
use crate::trace::Tracer;
use std::error::Error;
use std::io::Write;

const ROOM: Room = Room {
    entries: 16,
    links: 256,
};

// By hand, as `write!` takes twice the time.
fn put_number(text: &mut Vec<u8>, number: usize) {
    if number >= 10 {
        put_number(text, number / 10);
    }
    text.push(b'0' + (number % 10) as u8);
}

// One line for each pair that is joined, with a shortest path.
fn list(tracer: &Tracer) -> Result<Vec<u8>, Box<dyn Error>> {
    let (n, last) = (tracer.n, tracer.parts.len() - 1);
    let whole = &tracer.table[last * n * n..];
    let pairs = whole.iter().filter(|cell| **cell <= LONG).count();
    let mut text = Vec::new();
    let mut steps = Vec::new();
    writeln!(text, "entries {n} pairs {pairs}")?;
    for (at, cell) in whole.iter().enumerate().filter(|(_, cell)| **cell <= LONG) {
        let (u, v) = (at / n, at % n);
        if *cell == LONG {
            writeln!(text, "{u} {v} long")?;
            continue;
        }
        steps.clear();
        tracer.walk(last, u, v, &mut steps).ok_or("no path")?;
        for number in [u, v, *cell as usize] {
            put_number(&mut text, number);
            text.push(b' ');
        }
        put_number(&mut text, u);
        for (letter, entry) in &steps {
            text.push(*letter);
            put_number(&mut text, *entry);
        }
        text.push(b'\n');
    }
    Ok(text)
}

fn ask<V: Value>(parts: &[Part], file: &[u8]) -> Result<Vec<u8>, Box<dyn Error>> {
    let mut book = Book {
        values: Vec::<V>::new(),
        links: Vec::new(),
    };
    read(file, ROOM, &mut book).map_err(|(number, at)| format!("refused {number} at {at}"))?;
    let n = book.values.len();
    let cells = parts.len() * n * n;
    if cells > 4096 {
        return Err("refused 33 at 0".into());
    }
    let mut table = vec![0; cells];
    evaluate(&book, parts, &mut table, n);
    list(&Tracer {
        parts,
        table: &table,
        n,
    })
}

// The lines of the answer to an input, which has the wording in front of its first byte 10 and the book behind.
pub fn answer(input: &[u8]) -> Result<Vec<u8>, Box<dyn Error>> {
    if input.len() > 8192 {
        return Err("refused 10 at 0".into());
    }
    let mut halves = input.splitn(2, |byte| *byte == b'\n');
    let parts = parse(halves.next().unwrap_or_default())?;
    let file = halves.next().unwrap_or_default();
    if file.get(4..6) == Some(&Day::KIND.to_le_bytes()) {
        ask::<Day>(&parts, file)
    } else {
        ask::<Name>(&parts, file)
    }
}
