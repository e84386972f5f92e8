//! UTF-8: the rule is `core::str::from_utf8`'s; here it is told what a text lacks.

/// Why a text is not UTF-8.
pub type Fault = &'static str;

/// The first fault of a text that no `str` can hold.
pub fn check(text: &[u8]) -> Result<(), Fault> {
    match core::str::from_utf8(text) {
        Ok(_) => Ok(()),
        Err(error) => Err(fault(&text[error.valid_up_to()..])),
    }
}

/// What is wrong where a text that is not UTF-8 goes on after its good scalars.
fn fault(text: &[u8]) -> Fault {
    let width = match text[0] {
        0x00..=0x7f => unreachable!("a scalar"),
        0x80..=0xbf => return "following byte in front",
        0xc0..=0xc1 => return "C0 or C1",
        0xc2..=0xdf => 2,
        0xe0..=0xef => 3,
        0xf0..=0xf4 => 4,
        0xf5..=0xff => return "F5 to FF",
    };
    for at in 1..width {
        match text.get(at) {
            None => return "cut off at the end",
            Some(0x80..=0xbf) => {}
            Some(_) => return "no following byte",
        }
    }
    match text[0] {
        0xe0 | 0xf0 => "longer than need be",
        0xed => "surrogate",
        _ => "over 10FFFF",
    }
}

#[cfg(test)]
mod tests {
    #[test]
    fn surrogates_and_their_neighbours() {
        assert_eq!(super::check(b"\xed\x9f\xbf\xee\x80\x80"), Ok(()));
        for bad in [b"\xed\xa0\x80", b"\xed\xaf\xbf", b"\xed\xb0\x80", b"\xed\xbf\xbf"] {
            assert_eq!(super::check(bad), Err("surrogate"));
        }
    }

    #[test]
    fn each_fault_has_its_name() {
        assert_eq!(super::check(b"a\x80"), Err("following byte in front"));
        assert_eq!(super::check(b"\xc1\xbf"), Err("C0 or C1"));
        assert_eq!(super::check(b"\xf5\x80\x80\x80"), Err("F5 to FF"));
        assert_eq!(super::check(b"\xe2\x80"), Err("cut off at the end"));
        assert_eq!(super::check(b"\xe2\x80a"), Err("no following byte"));
        assert_eq!(super::check(b"\xe0\x9f\xbf"), Err("longer than need be"));
        assert_eq!(super::check(b"\xf0\x8f\xbf\xbf"), Err("longer than need be"));
        assert_eq!(super::check(b"\xf4\x90\x80\x80"), Err("over 10FFFF"));
    }
}
