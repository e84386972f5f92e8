//! A record as its bits and numbers, and back.
use crate::layout::{numbers, Present, Second, Shape, SHUTDOWN, TABLES, TIMER};
use crate::RECORD;

/// One record: byte 0, byte 1, byte 2 and the numbers from byte 4 on.
#[derive(Clone, Debug, PartialEq, Eq)]
pub struct Row {
    pub table: u8,
    pub bits: u8,
    pub second: u8,
    pub numbers: Vec<u64>,
}

impl Row {
    pub fn new(table: u8, values: &[u64]) -> Self {
        assert_eq!(values.len(), numbers(table).len(), "table {table}");
        Row { table, bits: 0, second: 0, numbers: values.to_vec() }
    }

    pub fn bits(mut self, bits: u8) -> Self {
        self.bits = bits;
        self
    }

    pub fn second(mut self, second: u8) -> Self {
        self.second = second;
        self
    }

    /// The row in a record of a known table; bytes that carry no number are passed over.
    pub fn read(record: &[u8]) -> Self {
        let values = numbers(record[0])
            .iter()
            .map(|number| unsigned(&record[number.at..number.at + number.bytes]))
            .collect();
        Row { table: record[0], bits: record[1], second: record[2], numbers: values }
    }

    pub fn record(&self) -> [u8; RECORD] {
        let mut record = [0; RECORD];
        record[..3].copy_from_slice(&[self.table, self.bits, self.second]);
        for (number, value) in numbers(self.table).iter().zip(&self.numbers) {
            let bytes = value.to_be_bytes();
            record[number.at..number.at + number.bytes].copy_from_slice(&bytes[8 - number.bytes..]);
        }
        record
    }

    /// Whether the number at this place is present under the row's bits and kind.
    pub fn present(&self, number: usize) -> bool {
        match numbers(self.table)[number].field.present {
            Present::Always => true,
            Present::Bit(bit) => self.bits >> bit & 1 == 1,
            Present::Delay => match self.second {
                TIMER => self.bits & 2 != 0,
                kind => kind < SHUTDOWN,
            },
        }
    }

    /// Drops stray bits and kinds and zeroes absent numbers, so that packing passes.
    pub fn settle(&mut self) {
        let table = &TABLES[self.table as usize];
        self.bits &= table.bits;
        match table.second {
            Second::Zero => self.second = 0,
            Second::Kinds(kinds) => self.second %= kinds,
            Second::Bits(bits) => self.second &= bits,
            Second::Transition => self.second &= self.bits >> 1 & 1,
        }
        if table.name == "actions" && self.second != TIMER {
            self.bits &= 1;
        }
        for number in 0..self.numbers.len() {
            if !self.present(number) {
                self.numbers[number] = 0;
            }
        }
    }

    /// Where the identities stand: the number's place and the bit that names the text.
    pub fn identities(&self) -> impl Iterator<Item = (usize, u8)> + '_ {
        numbers(self.table).iter().enumerate().filter_map(|(at, number)| match number.field.shape {
            Shape::Identity(bit) if number.part == 0 => Some((at, self.bits >> bit & 1)),
            _ => None,
        })
    }
}

fn unsigned(bytes: &[u8]) -> u64 {
    bytes.iter().fold(0, |value, byte| value << 8 | u64::from(*byte))
}

/// The pack of these rows.
pub fn pack(rows: &[Row]) -> Vec<u8> {
    rows.iter().flat_map(Row::record).collect()
}
