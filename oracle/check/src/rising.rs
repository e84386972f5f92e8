//! Levels that rise, and what a reaction reaches (document 02, Wishes 4 and 11), by the rows of an accepted station.
use crate::numbers::from_1;
use crate::{rows, Answer};
use pack::corpus::{Case, REACHED_BITS};
use pack::layout::{PORTS, REACTIONS, TRIGGERS};
use pack::names::FIELDS;
use pack::row::Row;

const EFFECTS: u8 = 10;

/// A station's reactions by level and by the reactions that they trigger, port by port and trigger by trigger.
struct Reactions {
    levels: Vec<u64>,
    triggered: Vec<Vec<usize>>,
}

/// The answer to a question of kind 3, 4 or 5, whose station's own answer is given.
pub fn of(case: &Case, station: Answer) -> Answer {
    let Some((asked, lent)) = case.reaction() else {
        return risen(case, station).map_or_else(|refusal| refusal, |(answer, _)| answer);
    };
    let mut lent = lent.to_vec();
    let answer =
        risen(case, station).and_then(|(_, reactions)| reactions.reached(case.kind, asked, &mut lent));
    Answer::Lent(Box::new(answer.unwrap_or_else(|refusal| refusal)), lent)
}

/// An accepted station whose levels rise; else the refusal.
fn risen(case: &Case, station: Answer) -> Result<(Answer, Reactions), Answer> {
    if !matches!(station, Answer::Accepted { .. }) {
        return Err(station);
    }
    let reactions = Reactions::of(&rows(case));
    match reactions.not_rising() {
        Some((reaction, target)) => Err(Answer::Refused(vec![32, reaction as u64, target as u64])),
        None => Ok((station, reactions)),
    }
}

impl Reactions {
    fn of(station: &[Row]) -> Self {
        let table = |number: u8| station.iter().filter(|row| row.table == number).collect::<Vec<&Row>>();
        let (ports, triggers, effects) = (table(PORTS), table(TRIGGERS), table(EFFECTS));
        let range = |row: &Row, at: usize| {
            let start = row.numbers[at] as usize;
            start..start + row.numbers[at + 1] as usize
        };
        let of_port =
            |port: usize| triggers[range(ports[port], 2)].iter().map(|entry| entry.numbers[1] as usize);
        let of_reaction = |row: &&Row| {
            let written = &effects[range(row, 6)];
            written.iter().flat_map(|entry| of_port(entry.numbers[0] as usize)).collect()
        };
        let rows = table(REACTIONS);
        Reactions {
            levels: rows.iter().map(|row| row.numbers[2]).collect(),
            triggered: rows.iter().map(of_reaction).collect(),
        }
    }

    /// The first reaction that triggers one on no higher level, and that one.
    fn not_rising(&self) -> Option<(usize, usize)> {
        let low = |reaction: usize| {
            let targets = &self.triggered[reaction];
            targets.iter().find(|target| self.levels[reaction] >= self.levels[**target])
        };
        (0..self.levels.len()).find_map(|reaction| Some((reaction, *low(reaction)?)))
    }

    /// The count, with the lent bytes written; or a refusal.
    fn reached(&self, kind: u8, asked: u32, lent: &mut [u8]) -> Result<Answer, Answer> {
        let count = self.levels.len();
        if asked as usize >= count {
            let (table, field) = (REACTIONS.into(), from_1(&FIELDS, "reaction"));
            return Err(Answer::Refused(vec![12, table, 0, field, table, asked.into(), count as u64]));
        }
        let need = if kind == REACHED_BITS { count.div_ceil(8) } else { count };
        if lent.len() < need {
            return Err(Answer::Refused(vec![33]));
        }
        let reached = self.closure(asked as usize);
        lent[..need].fill(0);
        for reaction in (0..count).filter(|reaction| reached[*reaction]) {
            match kind {
                REACHED_BITS => lent[reaction / 8] |= 1 << (reaction % 8),
                _ => lent[reaction] = 1,
            }
        }
        Ok(Answer::Reached(reached.iter().filter(|reached| **reached).count() as u64))
    }

    /// What can be reached by any number of triggers, the one that is asked left out.
    fn closure(&self, asked: usize) -> Vec<bool> {
        let mut reached = vec![false; self.levels.len()];
        let mut left = vec![asked];
        while let Some(reaction) = left.pop() {
            for target in &self.triggered[reaction] {
                if !std::mem::replace(&mut reached[*target], true) {
                    left.push(*target);
                }
            }
        }
        assert!(!reached[asked], "reaction {asked} reaches itself, where levels rise");
        reached
    }
}

#[cfg(test)]
mod tests {
    use super::*;

    /// Reaction 0 triggers 1 and 2, and both of these 3; 4 is by itself.
    fn diamond(level: u64) -> Reactions {
        let triggered = vec![vec![1, 2], vec![3], vec![3], vec![], vec![]];
        Reactions { levels: vec![0, 1, level, 2, 0], triggered }
    }

    fn asked(kind: u8, reaction: u32, lent: &[u8]) -> (String, Vec<u8>) {
        let mut lent = lent.to_vec();
        let answer = diamond(1).reached(kind, reaction, &mut lent).unwrap_or_else(|refusal| refusal);
        (answer.to_string(), lent)
    }

    #[test]
    fn first_that_does_not_rise() {
        assert_eq!(diamond(1).not_rising(), None);
        assert_eq!(diamond(0).not_rising(), Some((0, 2)));
        assert_eq!(diamond(2).not_rising(), Some((2, 3)));
        assert_eq!(diamond(7).not_rising(), Some((2, 3)));
    }

    #[test]
    fn in_bytes_and_bits() {
        assert_eq!(asked(4, 0, &[9; 6]), ("reached 3".into(), vec![0, 1, 1, 1, 0, 9]));
        assert_eq!(asked(5, 0, &[9; 2]), ("reached 3".into(), vec![0b1110, 9]));
        assert_eq!(asked(4, 4, &[9; 5]), ("reached 0".into(), vec![0; 5]));
        assert_eq!(asked(4, 5, &[]), ("refused 12 5 0 27 5 5 5".into(), vec![]));
        assert_eq!(asked(4, 1, &[9; 4]), ("refused 33".into(), vec![9; 4]));
        assert_eq!(asked(5, 1, &[]), ("refused 33".into(), vec![]));
    }
}
