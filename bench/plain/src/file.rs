// Book files: read, with every record checked, and written.

use crate::book::{Book, Link, Value};

// At most so many entries and links are read.
#[derive(Clone, Copy)]
pub struct Room {
    pub entries: usize,
    pub links: usize,
}

// What a file can hold.
pub const FULL: Room = Room {
    entries: 128,
    links: 1024,
};

// The kind of the record at the front of some bytes, its payload, and what lies behind it.
fn split_record(left: &[u8]) -> Option<(u16, &[u8], &[u8])> {
    let (&[size_low, size_high, kind_low, kind_high], left) = left.split_first_chunk()?;
    let size = u16::from_le_bytes([size_low, size_high]);
    let (payload, behind) = left.split_at_checked(usize::from(size))?;
    Some((u16::from_le_bytes([kind_low, kind_high]), payload, behind))
}

fn read_link(payload: &[u8], entries: usize) -> Option<Link> {
    let &[from, letter, to] = payload else {
        return None;
    };
    let (from, to) = (usize::from(from), usize::from(to));
    Some(Link { from, letter, to }).filter(|link| link.is_sound(entries))
}

// Reads a file into a book, whose room it uses again. An error is a number, and the offset of the record.
pub fn read<V: Value>(file: &[u8], room: Room, book: &mut Book<V>) -> Result<(), (u8, usize)> {
    book.values.clear();
    book.links.clear();
    let (kind, payload, mut left) = split_record(file).ok_or((11, 0))?;
    if kind != 1 || payload != V::KIND.to_le_bytes() {
        return Err((12, 0));
    }
    while !left.is_empty() {
        let at = file.len() - left.len();
        let (kind, payload, behind) = split_record(left).ok_or((11, at))?;
        match kind {
            2 if book.links.is_empty() => {
                let value = V::decode(payload).ok_or((14, at))?;
                if book.values.len() == room.entries {
                    return Err((16, at));
                }
                book.values.push(value);
            }
            3 => {
                let link = read_link(payload, book.values.len()).ok_or((15, at))?;
                if book.links.len() == room.links {
                    return Err((17, at));
                }
                book.links.push(link);
            }
            _ => return Err((12, at)),
        }
        left = behind;
    }
    Ok(())
}

fn put_record(kind: u16, payload: &[u8], file: &mut Vec<u8>) {
    file.extend_from_slice(&(payload.len() as u16).to_le_bytes());
    file.extend_from_slice(&kind.to_le_bytes());
    file.extend_from_slice(payload);
}

// Writes the file of a book into a buffer, whose room it uses again; none where the book is no file's.
pub fn write<V: Value>(book: &Book<V>, file: &mut Vec<u8>) -> Option<()> {
    file.clear();
    let (entries, links) = (book.values.len(), book.links.len());
    if entries > FULL.entries || links > FULL.links || book.links().count() < links {
        return None;
    }
    put_record(1, &V::KIND.to_le_bytes(), file);
    for value in &book.values {
        put_record(2, value.payload().as_ref(), file);
    }
    for link in &book.links {
        put_record(3, &[link.from as u8, link.letter, link.to as u8], file);
    }
    Some(())
}
