// A wording read into parts, each behind those that it is made of.

#[derive(Clone, Copy)]
pub enum Part {
    Epsilon,
    Letter(u8),
    Either { left: usize },
    Join { left: usize },
    Plus,
    Star,
    Same,
    Differ,
}

struct Reader<'a> {
    text: &'a [u8],
    at: usize,
    parts: Vec<Part>,
}

impl Reader<'_> {
    fn peek(&self) -> Option<u8> {
        self.text.get(self.at).copied()
    }

    fn expression(&mut self) -> Result<(), String> {
        self.run()?;
        while self.peek() == Some(b'|') {
            let left = self.parts.len() - 1;
            self.at += 1;
            self.run()?;
            self.parts.push(Part::Either { left });
        }
        Ok(())
    }

    fn run(&mut self) -> Result<(), String> {
        self.item()?;
        while let Some(b'a'..=b'z' | b'0' | b'(') = self.peek() {
            let left = self.parts.len() - 1;
            self.item()?;
            self.parts.push(Part::Join { left });
        }
        Ok(())
    }

    fn item(&mut self) -> Result<(), String> {
        self.atom()?;
        loop {
            let part = match self.peek() {
                Some(b'+') => Part::Plus,
                Some(b'*') => Part::Star,
                Some(b'=') => Part::Same,
                Some(b'~') => Part::Differ,
                _ => return Ok(()),
            };
            self.at += 1;
            self.parts.push(part);
        }
    }

    fn atom(&mut self) -> Result<(), String> {
        let first = self.peek();
        self.at += 1;
        match first {
            Some(b'0') => self.parts.push(Part::Epsilon),
            Some(letter @ b'a'..=b'z') => self.parts.push(Part::Letter(letter)),
            Some(b'(') => {
                self.expression()?;
                if self.peek() != Some(b')') {
                    return Err(format!("no expression at {}", self.at));
                }
                self.at += 1;
            }
            _ => return Err(format!("no expression at {}", self.at - 1)),
        }
        Ok(())
    }
}

// The parts of a whole text; at most 32.
pub fn parse(text: &[u8]) -> Result<Vec<Part>, String> {
    let parts = Vec::new();
    let mut reader = Reader { text, at: 0, parts };
    reader.expression()?;
    if reader.at < text.len() || reader.parts.len() > 32 {
        return Err(format!("no expression at {}, or too many parts", reader.at));
    }
    Ok(reader.parts)
}
