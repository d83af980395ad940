// The table of a query: a block of n * n cells for each part, filled from the blocks before it.

use crate::book::{Book, Value};
use crate::parse::Part;

// Stands for every count of steps from 1,000 on.
pub const LONG: u32 = 1000;

// Stands for no path.
const NONE: u32 = 1001;

// The cell of a path joined to another.
fn joined(first: u32, second: u32) -> u32 {
    if first > LONG || second > LONG {
        NONE
    } else {
        (first + second).min(LONG)
    }
}

// Goes over a middle with one row: `first` leads to the middle, and `middle` on from there.
fn relax_row(row: &mut [u32], first: u32, middle: &[u32]) {
    if first > LONG {
        return;
    }
    for (cell, second) in row.iter_mut().zip(middle) {
        let over = joined(first, *second);
        if over < *cell {
            *cell = over;
        }
    }
}

// The same, in a form that the compiler turns into work on several cells at a time.
fn lower_row(row: &mut [u32], first: u32, middle: &[u32]) {
    if first > LONG {
        return;
    }
    for (cell, second) in row.iter_mut().zip(middle) {
        *cell = (*cell).min(joined(first, *second));
    }
}

// Goes over every entry as a middle.
fn close(block: &mut [u32], n: usize) {
    let mut middle = [0; 128];
    let middle = &mut middle[..n];
    for k in 0..n {
        middle.copy_from_slice(&block[k * n..][..n]);
        for row in block.chunks_exact_mut(n) {
            relax_row(row, row[k], middle);
        }
    }
}

// Each cell is the least over every middle.
fn join(block: &mut [u32], left: &[u32], right: &[u32], n: usize) {
    block.fill(NONE);
    for (row, left) in block.chunks_exact_mut(n).zip(left.chunks_exact(n)) {
        for (first, middle) in left.iter().zip(right.chunks_exact(n)) {
            lower_row(row, *first, middle);
        }
    }
}

fn zero_diagonal(block: &mut [u32], n: usize) {
    for cell in block.iter_mut().step_by(n + 1) {
        *cell = 0;
    }
}

// Keeps the cells where the two entries pass.
fn keep_where(block: &mut [u32], before: &[u32], n: usize, passes: impl Fn(usize, usize) -> bool) {
    let rows = block.chunks_exact_mut(n).zip(before.chunks_exact(n));
    for (u, (row, before)) in rows.enumerate() {
        for (v, (cell, kept)) in row.iter_mut().zip(before).enumerate() {
            *cell = if passes(u, v) { *kept } else { NONE };
        }
    }
}

fn fill<V: Value>(book: &Book<V>, part: Part, block: &mut [u32], done: &[u32], n: usize) {
    let size = n * n;
    let before = &done[done.len().saturating_sub(size)..];
    match part {
        Part::Epsilon => {
            block.fill(NONE);
            zero_diagonal(block, n);
        }
        Part::Letter(letter) => {
            block.fill(NONE);
            for link in book.links().filter(|link| link.letter == letter) {
                block[link.from * n + link.to] = 1;
            }
        }
        Part::Either { left } => {
            let left = &done[left * size..][..size];
            for (cell, (left, right)) in block.iter_mut().zip(left.iter().zip(before)) {
                *cell = *left.min(right);
            }
        }
        Part::Join { left } => join(block, &done[left * size..][..size], before, n),
        Part::Plus => {
            block.copy_from_slice(before);
            close(block, n);
        }
        Part::Star => {
            block.copy_from_slice(before);
            zero_diagonal(block, n);
            close(block, n);
        }
        Part::Same => keep_where(block, before, n, |u, v| book.same(u, v)),
        Part::Differ => keep_where(block, before, n, |u, v| !book.same(u, v)),
    }
}

// Fills the block of every part.
pub fn evaluate<V: Value>(book: &Book<V>, parts: &[Part], table: &mut [u32], n: usize) {
    let size = n * n;
    for (q, part) in parts.iter().enumerate() {
        let (done, rest) = table.split_at_mut(q * size);
        fill(book, *part, &mut rest[..size], done, n);
    }
}
