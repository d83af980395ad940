// The book of a case, the same as that of crates/bench.

use crate::book::{Book, Calendar, Day, Link, Name, Value};
use std::error::Error;

// How large the book is: its entries, the bytes of its longest names, and its links.
#[derive(Clone, Copy)]
pub struct Size {
    pub entries: u8,
    pub name: u8,
    pub links: usize,
}

// Two entries share each name; long names differ only in their length, up to 3 bytes shorter than the longest, and in their last byte.
fn name_at(entry: u8, longest: u8) -> Option<Name> {
    let pair = entry / 2;
    let mut text = vec![b'x'; usize::from(longest - pair % longest.min(4))];
    *text.last_mut()? = pair;
    Name::decode(&text)
}

// Days of both calendars and all months.
fn day_at(entry: u8) -> Day {
    let calendar = [Calendar::Gregorian, Calendar::Julian][usize::from(entry % 2)];
    Day {
        calendar,
        year: 1900 + u16::from(entry),
        month: 1 + entry % 12,
        date: 1 + entry % 28,
    }
}

// Each entry in turn has links of `a`, `b`, `c` and `d`: those of `a` make a ring, the others lead to an entry that is drawn.
fn links(size: Size) -> Vec<Link> {
    let entries = usize::from(size.entries);
    let mut drawn = 1usize;
    let link_at = |place: usize| {
        let from = place / 4 % entries;
        let letter = b"abcd"[place % 4];
        let mut to = (from + 1) % entries;
        if letter != b'a' {
            drawn = drawn
                .wrapping_mul(6364136223846793005)
                .wrapping_add(1442695040888963407);
            // The upper bits, as the lower ones soon come again.
            to = (drawn >> 33) % entries;
        }
        Link { from, letter, to }
    };
    (0..size.links).map(link_at).collect()
}

pub fn of_names(size: Size) -> Result<Book<Name>, Box<dyn Error>> {
    let names = (0..size.entries).map(|entry| name_at(entry, size.name));
    Ok(Book {
        values: names.collect::<Option<_>>().ok_or("no name")?,
        links: links(size),
    })
}

pub fn of_days(size: Size) -> Book<Day> {
    Book {
        values: (0..size.entries).map(day_at).collect(),
        links: links(size),
    }
}
