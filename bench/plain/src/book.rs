// Books: values of one kind, names or days, and links.

// What the entries of a book hold, and how it stands in a file.
pub trait Value: Copy + PartialEq {
    const KIND: u16;

    fn decode(payload: &[u8]) -> Option<Self>;

    fn payload(&self) -> impl AsRef<[u8]>;
}

// A name of 1 to 128 bytes.
#[derive(Clone, Copy)]
pub struct Name {
    len: u8,
    bytes: [u8; 128],
}

impl Name {
    fn text(&self) -> &[u8] {
        &self.bytes[..usize::from(self.len)]
    }
}

impl PartialEq for Name {
    fn eq(&self, other: &Name) -> bool {
        self.text() == other.text()
    }
}

impl Value for Name {
    const KIND: u16 = 1;

    fn decode(payload: &[u8]) -> Option<Name> {
        let len = u8::try_from(payload.len()).ok()?;
        let mut bytes = [0; 128];
        if len == 0 {
            return None;
        }
        bytes.get_mut(..payload.len())?.copy_from_slice(payload);
        Some(Name { len, bytes })
    }

    fn payload(&self) -> impl AsRef<[u8]> {
        self.text()
    }
}

#[derive(Clone, Copy, PartialEq)]
pub enum Calendar {
    Gregorian,
    Julian,
}

// A day from 1900 to 2199.
#[derive(Clone, Copy)]
pub struct Day {
    pub calendar: Calendar,
    pub year: u16,
    pub month: u8,
    pub date: u8,
}

impl Day {
    fn in_leap_year(&self) -> bool {
        let year = self.year;
        year % 4 == 0 && (self.calendar == Calendar::Julian || year % 100 != 0 || year % 400 == 0)
    }

    fn month_length(&self) -> u8 {
        match self.month {
            2 if self.in_leap_year() => 29,
            2 => 28,
            4 | 6 | 9 | 11 => 30,
            _ => 31,
        }
    }

    fn exists(&self) -> bool {
        (1900..=2199).contains(&self.year)
            && (1..=12).contains(&self.month)
            && (1..=self.month_length()).contains(&self.date)
    }

    // The days up to this one from 1 January 1900 of the Gregorian calendar, which is 1.
    fn number(&self) -> u32 {
        const BEFORE: [u32; 12] = [0, 31, 59, 90, 120, 151, 181, 212, 243, 273, 304, 334];
        let past = u32::from(self.year) - 1;
        let (first, leaps) = match self.calendar {
            Calendar::Gregorian => (0, past / 4 - past / 100 + past / 400 - 460),
            Calendar::Julian => (12, past / 4 - 474),
        };
        let leap = u32::from(self.month > 2 && self.in_leap_year());
        let before = BEFORE[usize::from(self.month) - 1];
        first + 365 * (past - 1899) + leaps + leap + before + u32::from(self.date)
    }
}

impl PartialEq for Day {
    fn eq(&self, other: &Day) -> bool {
        self.number() == other.number()
    }
}

impl Value for Day {
    const KIND: u16 = 2;

    fn decode(payload: &[u8]) -> Option<Day> {
        let &[calendar, low, high, month, date] = payload else {
            return None;
        };
        let day = Day {
            calendar: match calendar {
                0 => Calendar::Gregorian,
                1 => Calendar::Julian,
                _ => return None,
            },
            year: u16::from_le_bytes([low, high]),
            month,
            date,
        };
        day.exists().then_some(day)
    }

    fn payload(&self) -> impl AsRef<[u8]> {
        let [low, high] = self.year.to_le_bytes();
        [self.calendar as u8, low, high, self.month, self.date]
    }
}

#[derive(Clone, Copy)]
pub struct Link {
    pub from: usize,
    pub letter: u8,
    pub to: usize,
}

impl Link {
    pub fn is_sound(&self, entries: usize) -> bool {
        self.letter.is_ascii_lowercase() && self.from < entries && self.to < entries
    }
}

#[derive(Default)]
pub struct Book<V> {
    pub values: Vec<V>,
    pub links: Vec<Link>,
}

impl<V: Value> Book<V> {
    // The links that are sound.
    pub fn links(&self) -> impl Iterator<Item = &Link> {
        let entries = self.values.len();
        self.links.iter().filter(move |link| link.is_sound(entries))
    }

    pub fn same(&self, u: usize, v: usize) -> bool {
        self.values[u] == self.values[v]
    }

    // Exchanges the ends of one link, so that no two rounds in turn have the same work.
    pub fn turn(&mut self, round: usize) {
        let count = self.links.len().max(1);
        if let Some(link) = self.links.get_mut(round % count) {
            (link.from, link.to) = (link.to, link.from);
        }
    }
}
