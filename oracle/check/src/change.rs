//! A record of a line changed, or tried first (document 02, Wish 7).
use crate::{answer, Answer};
use pack::corpus::{Case, CHANGE, LINE};
use pack::RECORD;
use std::fmt;

/// The answer, and the pack as it then is.
#[derive(Clone, Debug, PartialEq, Eq)]
pub struct Changed {
    pub answer: Box<Answer>,
    pub pack: Vec<u8>,
}

/// Each check in document 02's order. The row is written where none refuses and it is to be changed.
pub fn of(case: &Case, number: u32, row: &[u8]) -> Changed {
    let answer = match with_row(case, number, row) {
        Err(refused) => refused,
        Ok(pack) => {
            let new = of_line(case, &pack);
            if case.kind == CHANGE && matches!(new, Answer::Accepted { .. }) {
                return Changed { answer: new.into(), pack };
            }
            new
        }
    };
    Changed { answer: answer.into(), pack: case.pack.clone() }
}

/// The pack with the row in it, or what refuses before it is made.
fn with_row(case: &Case, number: u32, row: &[u8]) -> Result<Vec<u8>, Answer> {
    let refused = |number| Err(Answer::Refused(vec![number]));
    if row.len() != RECORD {
        return refused(36);
    }
    if let present @ Answer::Refused(_) = of_line(case, &case.pack) {
        return Err(present);
    }
    let mut records: Vec<&[u8]> = case.pack.chunks(RECORD).collect();
    let Some(record) = records.get_mut(number as usize) else {
        return refused(35);
    };
    if record[0] != row[0] {
        return refused(37);
    }
    *record = row;
    Ok(records.concat())
}

/// What the check of a line answers of a pack with the case's texts.
fn of_line(case: &Case, pack: &[u8]) -> Answer {
    let (batch, house) = (case.batch.clone(), case.house.clone());
    answer(&Case { kind: LINE, pack: pack.to_vec(), batch, house, rest: vec![] })
}

/// Bytes in hexadecimal digits, or `-` where there is none.
fn digits(bytes: &[u8]) -> String {
    if bytes.is_empty() {
        return "-".into();
    }
    bytes.iter().map(|byte| format!("{byte:02x}")).collect()
}

impl fmt::Display for Changed {
    fn fmt(&self, to: &mut fmt::Formatter<'_>) -> fmt::Result {
        write!(to, "{} | {}", self.answer, digits(&self.pack))
    }
}

#[cfg(test)]
mod tests {
    use super::*;
    use pack::corpus::PREVIEW;
    use pack::layout::{BINDINGS, ENCLAVE, FEDERATE, REACTORS, SCOPES};
    use pack::row::{pack, Row};

    /// S in a line, with so many state slots.
    fn line(slots: u64) -> Vec<u8> {
        pack(&[
            Row::new(FEDERATE, &[2, 1, 2, 1, 2, 1, 0, 1]),
            Row::new(ENCLAVE, &[0, 1, slots, 0, 0, 0, 0, 0]),
            Row::new(REACTORS, &[0; 8]),
            Row::new(SCOPES, &[0; 15]),
            Row::new(BINDINGS, &[1, 1]),
        ])
    }

    /// The words of a change and of a preview, which are the same, and whether the row stands in the pack after the change.
    fn asked(pack: &[u8], number: u32, row: &[u8]) -> (String, bool) {
        let case = |kind| Case { kind, pack: pack.to_vec(), batch: b"abf".to_vec(), ..Case::default() };
        let [changed, tried] = [CHANGE, PREVIEW].map(|kind| of(&case(kind), number, row));
        assert_eq!((&tried.answer, &tried.pack[..]), (&changed.answer, pack));
        let at = number as usize * RECORD;
        let written = changed.pack.get(at..at + RECORD) == Some(row);
        assert!(written && matches!(*changed.answer, Answer::Accepted { .. }) || changed.pack == pack);
        (changed.answer.to_string(), written)
    }

    #[test]
    fn accepted_and_refused() {
        let enclave = |slots| line(slots)[RECORD..2 * RECORD].to_vec();
        let said = |words: &str, written| (words.to_string(), written);
        assert_eq!(asked(&line(1), 1, &enclave(7)), said("accepted 1 0", true));
        assert_eq!(asked(&line(1), 1, &enclave(0)), said("refused 23 2 0 0 0", false));
        assert_eq!(asked(&line(1), 1, &[enclave(1), vec![0]].concat()), said("refused 36", false));
        assert_eq!(asked(&line(0), 1, &enclave(1)[..63]), said("refused 36", false));
        assert_eq!(asked(&line(0), 5, &enclave(1)), said("refused 23 2 0 0 0", false));
        assert_eq!(asked(&line(1), 5, &enclave(1)), said("refused 35", false));
        assert_eq!(asked(&line(1), u32::MAX, &enclave(1)), said("refused 35", false));
        assert_eq!(asked(&line(1), 2, &enclave(1)), said("refused 37", false));
        assert_eq!(asked(&line(1), 0, &[0; RECORD]), said("refused 19 1 0 0 0 0", false));
        assert_eq!(asked(&[], 0, &enclave(1)), said("refused 1", false));
    }

    #[test]
    fn pack_on_the_line() {
        let changed = Changed { answer: Answer::Refused(vec![1]).into(), pack: vec![] };
        assert_eq!(changed.to_string(), "refused 1 | -");
        assert_eq!(Changed { pack: vec![0, 10, 255], ..changed }.to_string(), "refused 1 | 000aff");
    }
}
