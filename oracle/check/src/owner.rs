//! Whose mode it is (document 02, Wish 9), by the rows of an accepted station.
use crate::numbers::from_1;
use crate::worth::owners;
use crate::Answer;
use pack::layout::{MODES, REACTORS};
use pack::names::FIELDS;
use pack::row::Row;

/// Every reactor's row is read; one span holds the mode, and it is that of the reactor which the mode names.
pub fn of(station: &[Row], mode: u32) -> Answer {
    let table = |number: u8| station.iter().filter(|row| row.table == number).collect::<Vec<&Row>>();
    let modes = table(MODES);
    let Some(row) = modes.get(mode as usize) else {
        return Answer::Refused(missing(mode, modes.len()));
    };
    let owners = owners(&table(REACTORS), mode as usize);
    assert_eq!(owners, [row.numbers[0]], "the reactors whose span holds mode {mode}");
    Answer::Owner(owners[0])
}

/// 12 as for a field `mode` of row 0 of the modes.
fn missing(mode: u32, modes: usize) -> Vec<u64> {
    let field = from_1(&FIELDS, "mode");
    vec![12, MODES.into(), 0, field, MODES.into(), mode.into(), modes as u64]
}

/// Whether a refusal is of the mode asked: no row of the modes has such a field.
pub fn is_of_mode_asked(numbers: &[u64]) -> bool {
    numbers.len() == 7 && numbers == missing(numbers[5] as u32, numbers[6] as usize)
}
