//! The functions of libimage_check.a, as `bindings/c/image_check.h` declares them, and their calls with slices: all that is unsafe here.
#![allow(unsafe_code)]
use crate::{Refusal, Tally};

/// The two numbers after the 0 of an answer that refuses nothing, 0 where it has fewer; or the refusal.
pub type Answered = Result<[u64; 2], Refusal>;

type Check = unsafe extern "C" fn(*const u8, usize, *const u8, usize, *const u8, usize, *mut [u64; 8]) -> u32;

type Reach = unsafe extern "C" fn(
    *const u8,
    usize,
    *const u8,
    usize,
    *const u8,
    usize,
    u32,
    *mut u8,
    usize,
    *mut [u64; 8],
) -> u32;

type Converter = unsafe extern "C" fn(*const u8, usize, *mut u8, usize, *mut [u64; 8]) -> u32;

type Trees = unsafe extern "C" fn(u32, *mut u8, usize, *mut [u64; 8]) -> u32;

extern "C" {
    pub fn check_enclave_image(
        pack: *const u8,
        pack_len: usize,
        batch: *const u8,
        batch_len: usize,
        house: *const u8,
        house_len: usize,
        numbers: *mut [u64; 8],
    ) -> u32;

    pub fn check_federate_image(
        pack: *const u8,
        pack_len: usize,
        batch: *const u8,
        batch_len: usize,
        house: *const u8,
        house_len: usize,
        numbers: *mut [u64; 8],
    ) -> u32;

    pub fn check_federate_image_night(
        pack: *const u8,
        pack_len: usize,
        batch: *const u8,
        batch_len: usize,
        house: *const u8,
        house_len: usize,
        numbers: *mut [u64; 8],
    ) -> u32;

    pub fn check_rising_image(
        pack: *const u8,
        pack_len: usize,
        batch: *const u8,
        batch_len: usize,
        house: *const u8,
        house_len: usize,
        numbers: *mut [u64; 8],
    ) -> u32;

    fn mode_owner_of_image(
        pack: *const u8,
        pack_len: usize,
        batch: *const u8,
        batch_len: usize,
        house: *const u8,
        house_len: usize,
        mode: u32,
        numbers: *mut [u64; 8],
    ) -> u32;

    fn preview_record_of_line(
        pack: *const u8,
        pack_len: usize,
        batch: *const u8,
        batch_len: usize,
        house: *const u8,
        house_len: usize,
        number: u32,
        row: *const u8,
        row_len: usize,
        numbers: *mut [u64; 8],
    ) -> u32;

    fn change_record_of_line(
        pack: *mut u8,
        pack_len: usize,
        batch: *const u8,
        batch_len: usize,
        house: *const u8,
        house_len: usize,
        number: u32,
        row: *const u8,
        row_len: usize,
        numbers: *mut [u64; 8],
    ) -> u32;

    pub fn convert_enclave_image(
        pack: *const u8,
        pack_len: usize,
        out: *mut u8,
        out_len: usize,
        numbers: *mut [u64; 8],
    ) -> u32;

    pub fn convert_federate_image(
        pack: *const u8,
        pack_len: usize,
        out: *mut u8,
        out_len: usize,
        numbers: *mut [u64; 8],
    ) -> u32;

    pub fn reached_in_bytes_of_image(
        pack: *const u8,
        pack_len: usize,
        batch: *const u8,
        batch_len: usize,
        house: *const u8,
        house_len: usize,
        reaction: u32,
        scratch: *mut u8,
        scratch_len: usize,
        numbers: *mut [u64; 8],
    ) -> u32;

    pub fn reached_in_bits_of_image(
        pack: *const u8,
        pack_len: usize,
        batch: *const u8,
        batch_len: usize,
        house: *const u8,
        house_len: usize,
        reaction: u32,
        scratch: *mut u8,
        scratch_len: usize,
        numbers: *mut [u64; 8],
    ) -> u32;

    fn add_accepted_to_tally(tally: *mut Tally, links: u64, numbers: *mut [u64; 8]) -> u32;
    fn add_refused_to_tally(tally: *mut Tally, numbers: *mut [u64; 8]) -> u32;
    fn share_of_tally(tally: *const Tally, numbers: *mut [u64; 8]) -> u32;
    fn mean_of_tally(tally: *const Tally, numbers: *mut [u64; 8]) -> u32;

    pub fn first_scope_tree(count: u32, table: *mut u8, table_len: usize, numbers: *mut [u64; 8]) -> u32;
    pub fn next_scope_tree(count: u32, table: *mut u8, table_len: usize, numbers: *mut [u64; 8]) -> u32;
}

/// What a call answers that writes its numbers where it is told, and gives how many they are.
fn answered(call: impl FnOnce(*mut [u64; 8]) -> u32) -> Answered {
    let mut numbers = [0; 8];
    let count = call(&mut numbers) as usize;
    match numbers {
        [0, first, second, ..] => Ok([first, second]),
        _ => Err(Refusal::given(numbers.get(..count).unwrap_or(&numbers))),
    }
}

/// A pointer and a length for each slice.
fn parts<const N: usize>(lent: [&[u8]; N]) -> [(*const u8, usize); N] {
    lent.map(|part| (part.as_ptr(), part.len()))
}

/// A check of a pack with its batch and its house text.
pub fn check(check: Check, lent: [&[u8]; 3]) -> Answered {
    let [(p, p_len), (b, b_len), (h, h_len)] = parts(lent);
    // SAFETY: each pointer has its own slice's length, nothing writes a slice while it is lent, and the numbers are this call's alone.
    answered(|numbers| unsafe { check(p, p_len, b, b_len, h, h_len, numbers) })
}

/// What a reaction reaches.
pub fn reached(reach: Reach, lent: [&[u8]; 3], reaction: u32, scratch: &mut [u8]) -> Answered {
    let [(p, p_len), (b, b_len), (h, h_len)] = parts(lent);
    let (s, s_len) = (scratch.as_mut_ptr(), scratch.len());
    // SAFETY: as in `check`, and the scratch is this call's alone.
    answered(|numbers| unsafe { reach(p, p_len, b, b_len, h, h_len, reaction, s, s_len, numbers) })
}

/// Whose mode it is.
pub fn mode_owner(lent: [&[u8]; 3], mode: u32) -> Answered {
    let [(p, p_len), (b, b_len), (h, h_len)] = parts(lent);
    // SAFETY: as in `check`.
    answered(|numbers| unsafe { mode_owner_of_image(p, p_len, b, b_len, h, h_len, mode, numbers) })
}

/// A row tried in the place of a record.
pub fn preview_record(lent: [&[u8]; 3], number: u32, row: &[u8]) -> Answered {
    let ([(p, p_len), (b, b_len), (h, h_len)], [(r, r_len)]) = (parts(lent), parts([row]));
    // SAFETY: as in `check`.
    answered(|numbers| unsafe {
        preview_record_of_line(p, p_len, b, b_len, h, h_len, number, r, r_len, numbers)
    })
}

/// A record changed to a row.
pub fn change_record(pack: &mut [u8], texts: [&[u8]; 2], number: u32, row: &[u8]) -> Answered {
    let ([(b, b_len), (h, h_len)], [(r, r_len)]) = (parts(texts), parts([row]));
    let (p, p_len) = (pack.as_mut_ptr(), pack.len());
    // SAFETY: as in `check`, and the pack is this call's alone.
    answered(|numbers| unsafe {
        change_record_of_line(p, p_len, b, b_len, h, h_len, number, r, r_len, numbers)
    })
}

/// A pack turned round into the output.
pub fn convert(converter: Converter, pack: &[u8], out: &mut [u8]) -> Answered {
    let ([(p, p_len)], o, o_len) = (parts([pack]), out.as_mut_ptr(), out.len());
    // SAFETY: as in `check`, and the output is this call's alone.
    answered(|numbers| unsafe { converter(p, p_len, o, o_len, numbers) })
}

pub fn add_accepted(tally: &mut Tally, links: u64) -> Answered {
    // SAFETY: the tally is this call's alone and has the layout of the header's, and so are the numbers.
    answered(|numbers| unsafe { add_accepted_to_tally(tally, links, numbers) })
}

pub fn add_refused(tally: &mut Tally) -> Answered {
    // SAFETY: as in `add_accepted`.
    answered(|numbers| unsafe { add_refused_to_tally(tally, numbers) })
}

pub fn share(tally: &Tally) -> Answered {
    // SAFETY: nothing writes the tally while it is lent; the rest as in `add_accepted`.
    answered(|numbers| unsafe { share_of_tally(tally, numbers) })
}

pub fn mean(tally: &Tally) -> Answered {
    // SAFETY: as in `share`.
    answered(|numbers| unsafe { mean_of_tally(tally, numbers) })
}

/// What is asked of scope trees.
pub fn tree(ask: Trees, count: u32, table: &mut [u8]) -> Answered {
    let (t, t_len) = (table.as_mut_ptr(), table.len());
    // SAFETY: the pointer has its slice's length, and the slice and the numbers are this call's alone.
    answered(|numbers| unsafe { ask(count, t, t_len, numbers) })
}
