//! Identity names, and the two texts that hold them.
use crate::rng::Rng;
use std::collections::BTreeSet;

/// Scalars that may stand anywhere in an identity.
const ANYWHERE: [u32; 19] = [
    0x21, 0x7e, 0xa1, 0xe9, 0x7ff, 0x800, 0x180e, 0x200b, 0x2010, 0x202a, 0x2030, 0x2060, 0x3001, 0xd7ff,
    0xe000, 0xfeff, 0xffff, 0x10000, 0x10ffff,
];
/// Scalars that may stand inside an identity only.
const INSIDE: [u32; 4] = [0x20, 0xa0, 0x2003, 0x3000];

/// The batch text and the house text.
#[derive(Clone, Default)]
pub struct Texts {
    pub batch: Vec<u8>,
    pub house: Vec<u8>,
}

impl Texts {
    pub fn text(&mut self, house: u8) -> &mut Vec<u8> {
        if house == 1 {
            &mut self.house
        } else {
            &mut self.batch
        }
    }

    /// Puts a part into one of the texts, or finds it there: house bit, start, length.
    pub fn place(&mut self, rng: &mut Rng, part: &[u8]) -> (u8, u64, u64) {
        let house = rng.chance(1, 3) as u8;
        let length = part.len() as u64;
        let text = self.text(house);
        if rng.chance(1, 2) && text.len() < 300 && !part.is_empty() {
            if let Some(start) = text.windows(part.len()).position(|window| window == part) {
                return (house, start as u64, length);
            }
        }
        let start = text.len() as u64;
        text.extend_from_slice(part);
        (house, start, length)
    }
}

pub fn utf8(scalar: u32) -> Vec<u8> {
    let scalar = char::from_u32(scalar).expect("a scalar");
    scalar.to_string().into_bytes()
}

/// A valid identity, mostly short and of few letters, so that prefixes are common.
pub fn name(rng: &mut Rng) -> Vec<u8> {
    let length = if rng.chance(1, 20) { rng.between(5, 12) } else { rng.between(1, 4) };
    let mut name = Vec::new();
    for at in 0..length {
        let inside = at > 0 && at + 1 < length;
        if rng.chance(4, 5) {
            name.push(rng.pick(b"abc"));
        } else if inside && rng.chance(1, 3) {
            name.extend(utf8(rng.pick(&INSIDE)));
        } else if rng.chance(1, 2) {
            name.extend(utf8(rng.pick(&ANYWHERE)));
        } else {
            name.extend(utf8(any_scalar(rng)));
        }
    }
    name
}

/// A scalar of any width that may stand anywhere.
fn any_scalar(rng: &mut Rng) -> u32 {
    loop {
        let most = rng.pick(&[0x100, 0x800, 0x3100, 0x1_0000, 0x11_0000]);
        let scalar = char::from_u32(rng.below(most) as u32);
        if let Some(scalar) = scalar.filter(|scalar| !scalar.is_control() && !scalar.is_whitespace()) {
            return scalar.into();
        }
    }
}

/// Distinct names in rising order of their bytes.
pub fn names(rng: &mut Rng, count: usize) -> Vec<Vec<u8>> {
    let mut names = BTreeSet::new();
    while names.len() < count {
        let mut name = name(rng);
        if count > 40 {
            name.extend(format!("{:x}", rng.below(1 << 32)).bytes());
        }
        names.insert(name);
    }
    names.into_iter().collect()
}
