//! The numbers of a refusal, and what is read from them.
use std::fmt;
use std::ops::Deref;

/// A refusal's number, then the numbers that it carries, in the order of documents 01 and 02. They are shown with blanks between.
#[derive(Clone, Copy, Default, PartialEq, Eq)]
pub struct Numbers {
    len: usize,
    values: [u64; 8],
}

impl Numbers {
    /// These numbers, of which eight are kept: no refusal has more.
    pub(crate) fn listed(list: &[u64]) -> Self {
        let mut numbers = Numbers::default();
        list.iter().for_each(|number| numbers.push(*number));
        numbers
    }

    pub(crate) fn push(&mut self, number: u64) {
        if let Some(next) = self.values.get_mut(self.len) {
            *next = number;
            self.len += 1;
        }
    }
}

impl Deref for Numbers {
    type Target = [u64];

    fn deref(&self) -> &[u64] {
        &self.values[..self.len]
    }
}

impl fmt::Debug for Numbers {
    fn fmt(&self, f: &mut fmt::Formatter<'_>) -> fmt::Result {
        f.debug_list().entries(self.iter()).finish()
    }
}

impl fmt::Display for Numbers {
    fn fmt(&self, f: &mut fmt::Formatter<'_>) -> fmt::Result {
        let mut before = "";
        for number in self.iter() {
            write!(f, "{before}{number}")?;
            before = " ";
        }
        Ok(())
    }
}

/// What stands in a refusal's numbers, in one of them or in more.
pub(crate) trait Value: Sized {
    /// Takes it from the front; nothing where it does not stand there.
    fn read(numbers: &mut &[u64]) -> Option<Self>;
    fn write(self, numbers: &mut Numbers);
}

impl Value for u64 {
    fn read(numbers: &mut &[u64]) -> Option<u64> {
        let (number, rest) = numbers.split_first()?;
        *numbers = rest;
        Some(*number)
    }

    fn write(self, numbers: &mut Numbers) {
        numbers.push(self);
    }
}

impl Value for u32 {
    fn read(numbers: &mut &[u64]) -> Option<u32> {
        u64::read(numbers)?.try_into().ok()
    }

    fn write(self, numbers: &mut Numbers) {
        numbers.push(self.into());
    }
}
