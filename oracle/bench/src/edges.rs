//! Every pair and triple of first bytes, followed by the bytes on each edge, through both tests of a text: compared, not timed.
use crate::chance::{difference, BYTES};

/// What stands around the bytes: nothing, and more than a block of 16 before, behind or on both sides.
const AROUND: [[&[u8]; 2]; 4] = [[b"", b""], [LETTERS, b""], [b"", LETTERS], [LETTERS, LETTERS]];
const LETTERS: &[u8] = b"abc\xc3\xa9fghijklmnopqrstuvwxyz";

/// Counts the texts that agree, and says the first that differs.
#[derive(Default)]
struct Texts {
    agreed: u64,
    different: bool,
    text: Vec<u8>,
}

impl Texts {
    fn compare(&mut self, bytes: &[u8]) {
        for [before, behind] in AROUND {
            self.text.clear();
            [before, bytes, behind].iter().for_each(|part| self.text.extend_from_slice(part));
            match difference(&self.text) {
                None => self.agreed += 1,
                Some(test) if !self.different => {
                    println!("{test}: DIFFERENT for {:02x?}", self.text);
                    self.different = true;
                }
                Some(_) => {}
            }
        }
    }
}

/// Whether both agree with the Rust on all of them; a quick run has the bytes on an edge alone after the first one.
pub fn agree(quick: bool) -> bool {
    let all: Vec<u8> = (0..=0xff).collect();
    let next: &[u8] = if quick { &BYTES } else { &all };
    let mut texts = Texts::default();
    for a in 0..=0xff {
        texts.compare(&[a]);
        for &b in next {
            texts.compare(&[a, b]);
            for &c in next {
                texts.compare(&[a, b, c]);
            }
            for c in BYTES {
                for d in BYTES {
                    texts.compare(&[a, b, c, d]);
                }
            }
        }
    }
    println!("{} texts of every first byte compared", texts.agreed);
    !texts.different
}
