//! Corpora: one case after another, until the end of input.
use std::io::{self, Read, Write};

/// What the pack is to be.
#[derive(Clone, Copy, Debug, PartialEq, Eq)]
pub enum Kind {
    Enclave,
    Federate,
}

/// The kinds of question: the check of a station, that of a line, that of a line at night, that of rising levels, what a reaction reaches in marks of a byte
/// and of a bit each, the owner of a mode, the converter, a record of a line changed or tried first, the first scope tree and the next, and a tally.
pub const STATION: u8 = 0;
pub const LINE: u8 = 1;
pub const NIGHT: u8 = 2;
pub const RISING: u8 = 3;
pub const REACHED_BYTES: u8 = 4;
pub const REACHED_BITS: u8 = 5;
pub const OWNER: u8 = 6;
pub const CONVERT: u8 = 7;
pub const CHANGE: u8 = 8;
pub const PREVIEW: u8 = 9;
pub const FIRST_TREE: u8 = 10;
pub const NEXT_TREE: u8 = 11;
pub const TALLY: u8 = 12;

/// The bytes of a tally's three numbers and of how many steps it has.
pub const TALLY_HEAD: u64 = 28;

/// The most bytes that a question lends.
pub const LENT_LIMIT: u32 = 65_536;

/// How many bytes follow a question's parts, before what it lends and the steps of a tally; none for a kind that is not known.
fn rest_length(kind: u8) -> Option<u64> {
    match kind {
        STATION | LINE | NIGHT | RISING => Some(0),
        REACHED_BYTES | REACHED_BITS | OWNER | CONVERT | CHANGE | PREVIEW | FIRST_TREE | NEXT_TREE => Some(4),
        TALLY => Some(TALLY_HEAD),
        _ => None,
    }
}

/// How many bytes a step of a tally has after its first; none for a step that is not known.
pub fn step_length(step: u8) -> Option<u64> {
    match step {
        0 | 2 | 3 => Some(0),
        1 => Some(8),
        _ => None,
    }
}

/// A question: its kind, a pack with its two texts, and what follows them.
#[derive(Clone, Debug, Default, PartialEq, Eq)]
pub struct Case {
    pub kind: u8,
    pub pack: Vec<u8>,
    pub batch: Vec<u8>,
    pub house: Vec<u8>,
    pub rest: Vec<u8>,
}

impl Case {
    pub fn kind(&self) -> Option<Kind> {
        match self.kind {
            STATION | OWNER => Some(Kind::Enclave),
            RISING | REACHED_BYTES | REACHED_BITS => Some(Kind::Enclave),
            LINE | NIGHT | CHANGE | PREVIEW => Some(Kind::Federate),
            _ => None,
        }
    }

    /// The mode that is asked, where one is.
    pub fn mode(&self) -> Option<u32> {
        let rest: [u8; 4] = self.rest[..].try_into().ok()?;
        (self.kind == OWNER).then(|| u32::from_be_bytes(rest))
    }

    /// The number of the record that is changed or tried, and the row for it, where one is.
    pub fn change(&self) -> Option<(u32, &[u8])> {
        matches!(self.kind, CHANGE | PREVIEW).then(|| (number(&self.rest), &self.rest[8..]))
    }

    /// What is to be converted, a station or a line, and the output that is lent.
    pub fn conversion(&self) -> Option<(Kind, &[u8])> {
        if self.kind != CONVERT {
            return None;
        }
        let kind = if number(&self.rest) == 0 { Kind::Enclave } else { Kind::Federate };
        Some((kind, &self.rest[8..]))
    }

    /// The reaction that is asked and the bytes that are lent, where they are.
    pub fn reaction(&self) -> Option<(u32, &[u8])> {
        let asked = matches!(self.kind, REACHED_BYTES | REACHED_BITS);
        asked.then(|| (number(&self.rest), &self.rest[8..]))
    }

    /// The part of the batch text, or of the house text where `house` is 1.
    pub fn part(&self, house: u8, start: u64, length: u64) -> Option<&[u8]> {
        let text = if house == 1 { &self.house } else { &self.batch };
        let end = start.checked_add(length)?;
        text.get(usize::try_from(start).ok()?..usize::try_from(end).ok()?)
    }

    /// Bytes of the case in a corpus.
    pub fn size(&self) -> usize {
        13 + self.pack.len() + self.batch.len() + self.house.len() + self.rest.len()
    }

    pub fn write(&self, to: &mut impl Write) -> io::Result<()> {
        to.write_all(&[self.kind])?;
        for part in [&self.pack, &self.batch, &self.house] {
            to.write_all(&(part.len() as u32).to_be_bytes())?;
        }
        for part in [&self.pack, &self.batch, &self.house] {
            to.write_all(part)?;
        }
        to.write_all(&self.rest)
    }
}

/// A number of four bytes, high byte first.
fn number(bytes: &[u8]) -> u32 {
    u32::from_be_bytes([bytes[0], bytes[1], bytes[2], bytes[3]])
}

/// What stands next in a corpus.
pub enum Next {
    Case(Case),
    CutOff,
    UnknownKind,
    End,
}

pub struct Corpus<R>(pub R);

impl<R: Read> Corpus<R> {
    pub fn read(&mut self) -> io::Result<Next> {
        let head = self.take(13)?;
        if head.is_empty() {
            return Ok(Next::End);
        }
        if head.len() < 13 {
            return Ok(Next::CutOff);
        }
        let length = |at: usize| number(&head[at..]);
        let mut parts = [vec![], vec![], vec![]];
        for (part, at) in parts.iter_mut().zip([1, 5, 9]) {
            *part = self.take(length(at).into())?;
            if part.len() < length(at) as usize {
                return Ok(Next::CutOff);
            }
        }
        let [pack, batch, house] = parts;
        let Some(length) = rest_length(head[0]) else {
            return Ok(Next::UnknownKind);
        };
        let rest = self.take(length)?;
        if (rest.len() as u64) < length {
            return Ok(Next::CutOff);
        }
        let mut case = Case { kind: head[0], pack, batch, house, rest };
        let ended = match case.kind {
            TALLY => self.steps(&mut case.rest)?,
            CONVERT if number(&case.rest) > 1 => Some(Next::UnknownKind),
            REACHED_BYTES | REACHED_BITS | CONVERT | CHANGE | PREVIEW | FIRST_TREE | NEXT_TREE => self.lent(&mut case.rest)?,
            _ => None,
        };
        Ok(ended.unwrap_or(Next::Case(case)))
    }

    /// Adds a tally's steps; or how the corpus ends there.
    fn steps(&mut self, rest: &mut Vec<u8>) -> io::Result<Option<Next>> {
        for _ in 0..number(&rest[24..]) {
            let ended = self.step(rest)?;
            if ended.is_some() {
                return Ok(ended);
            }
        }
        Ok(None)
    }

    /// Adds the bytes that a question lends, an output or a row among them, with their length before them; or how the corpus ends there.
    fn lent(&mut self, rest: &mut Vec<u8>) -> io::Result<Option<Next>> {
        let head = self.take(4)?;
        if head.len() < 4 {
            return Ok(Some(Next::CutOff));
        }
        let length = number(&head);
        if length > LENT_LIMIT {
            return Ok(Some(Next::UnknownKind));
        }
        let lent = self.take(length.into())?;
        let whole = lent.len() == length as usize;
        rest.extend([head, lent].concat());
        Ok((!whole).then_some(Next::CutOff))
    }

    /// Adds a tally's next step; or how the corpus ends there.
    fn step(&mut self, steps: &mut Vec<u8>) -> io::Result<Option<Next>> {
        let kind = self.take(1)?;
        let Some(&first) = kind.first() else {
            return Ok(Some(Next::CutOff));
        };
        let Some(length) = step_length(first) else {
            return Ok(Some(Next::UnknownKind));
        };
        let links = self.take(length)?;
        let whole = links.len() as u64 == length;
        steps.extend([kind, links].concat());
        Ok((!whole).then_some(Next::CutOff))
    }

    /// Up to `length` bytes; fewer only at the end of input.
    fn take(&mut self, length: u64) -> io::Result<Vec<u8>> {
        let mut bytes = Vec::new();
        self.0.by_ref().take(length).read_to_end(&mut bytes)?;
        Ok(bytes)
    }
}
