//! The UTF-8 test and `valid_id` on texts of chance, long enough for their blocks: compared, not timed.
use crate::linked;
use crate::rng::Rng;
use valid_id::image::call_valid_id;

const SEED: u64 = 7;

/// Scalars on each edge of UTF-8's lengths, of controls and of white space.
const EDGES: [u32; 22] = [
    0x00, 0x1f, 0x20, 0x21, 0x7e, 0x7f, 0x80, 0x85, 0x9f, 0xa0, 0xc0, 0x7ff, 0x800, 0xfff, 0x1000, 0x3000,
    0xd7ff, 0xe000, 0xffff, 0x10000, 0xfffff, 0x10ffff,
];
/// Bytes on each edge of what UTF-8 has first and after.
pub const BYTES: [u8; 22] = [
    0x00, 0x1f, 0x20, 0x7e, 0x7f, 0x80, 0x8f, 0x90, 0x9f, 0xa0, 0xbf, 0xc0, 0xc1, 0xc2, 0xdf, 0xe0, 0xed,
    0xef, 0xf0, 0xf4, 0xf5, 0xff,
];

fn scalar(rng: &mut Rng, most: u64) -> u32 {
    loop {
        let scalar = rng.between(0x21, most) as u32;
        if char::from_u32(scalar).is_some_and(|scalar| !scalar.is_control()) {
            return scalar;
        }
    }
}

/// Up to 40 scalars of one to four bytes.
fn good(rng: &mut Rng) -> Vec<u8> {
    let most = rng.pick(&[0x7e, 0x7ff, 0xffff, 0x10ffff]);
    let scalars = (0..rng.below(41)).map(|_| match rng.below(60) {
        0 => rng.pick(&EDGES),
        1..=9 => scalar(rng, 0x7e),
        _ => scalar(rng, most),
    });
    scalars.filter_map(char::from_u32).collect::<String>().into_bytes()
}

/// One byte replaced, left out or put in.
fn damage(rng: &mut Rng, text: &mut Vec<u8>) {
    let at = rng.place(text.len() + 1);
    match rng.below(3) {
        0 if at < text.len() => text[at] = rng.pick(&BYTES),
        1 if at < text.len() => drop(text.remove(at)),
        _ => text.insert(at, rng.pick(&BYTES)),
    }
}

/// Where this check and the Rust differ.
pub fn difference(text: &[u8]) -> Option<&'static str> {
    let read = core::str::from_utf8(text);
    if linked::is_utf8(text) != read.is_ok() {
        return Some("UTF-8");
    }
    let valid = read.map(call_valid_id).unwrap_or(false);
    (linked::valid_id(text) != valid).then_some("valid_id")
}

/// Whether both agree with the Rust on so many texts, half of them damaged.
pub fn agree(texts: u64) -> bool {
    let mut counts = [0; 2];
    for index in 0..texts {
        let mut rng = Rng::of_case(SEED, index);
        let mut text = good(&mut rng);
        for _ in 0..rng.pick(&[0, 0, 1, 2]) {
            damage(&mut rng, &mut text);
        }
        if let Some(test) = difference(&text) {
            println!("{test}: DIFFERENT for {text:02x?}");
            return false;
        }
        counts[0] += linked::is_utf8(&text) as u64;
        counts[1] += linked::valid_id(&text) as u64;
    }
    println!("{texts} texts of chance compared: {} are UTF-8, {} valid identities", counts[0], counts[1]);
    true
}
