//! Two files of answer lines, line by line.
use crate::Done;
use std::collections::BTreeMap;
use std::fs::File;
use std::io::{self, BufRead, BufReader, Lines};

/// Prints `different N` for the first pair that differs, else how many of each answer agreed.
pub fn print(answers: &str, replayed: &str) -> Done {
    let mut left = lines(answers)?;
    let mut right = lines(replayed)?;
    let mut counts: BTreeMap<String, u64> = BTreeMap::new();
    for number in 0_u64.. {
        let pair = (left.next().transpose()?, right.next().transpose()?);
        let (ours, theirs) = match pair {
            (None, None) => break,
            (Some(ours), Some(theirs)) => (ours, theirs),
            (ours, theirs) => {
                let missing = |line: Option<String>| line.unwrap_or_else(|| "(no line)".into());
                return different(number, &missing(ours), &missing(theirs));
            }
        };
        if ours != theirs {
            return different(number, &ours, &theirs);
        }
        *counts.entry(group(&ours)).or_default() += 1;
    }
    for (group, count) in counts {
        println!("{count}\t{group}");
    }
    Ok(true)
}

fn lines(path: &str) -> io::Result<Lines<BufReader<File>>> {
    Ok(BufReader::new(File::open(path)?).lines())
}

fn different(number: u64, ours: &str, theirs: &str) -> Done {
    println!("different {number}");
    println!("oracle: {ours}");
    println!("replay: {theirs}");
    Ok(false)
}

/// `accepted`, or `refused` with its number; of a tally, which refusals it met. Bytes that were lent are compared, and not counted.
fn group(line: &str) -> String {
    if let Some((answer, after)) = line.split_once('|') {
        // Behind it a tally has three numbers, and lent bytes are one word.
        return if after.trim().contains(' ') { tally(line) } else { group(answer.trim()) };
    }
    let mut words = line.split(' ');
    match (words.next(), words.next()) {
        (Some("refused"), Some(number)) => format!("refused {number}"),
        (Some("accepted"), _) if line.split(' ').count() == 3 => "accepted (line)".into(),
        (Some("accepted"), _) => "accepted (station)".into(),
        (Some("owner"), _) => "owner of a mode".into(),
        (Some("reached"), _) => "reactions reached".into(),
        _ => line.into(),
    }
}

fn tally(line: &str) -> String {
    let met = |number: &&u64| line.split([';', '|']).any(|step| step.trim() == format!("refused {number}"));
    let numbers: Vec<String> = [40, 44, 45, 46].iter().filter(met).map(u64::to_string).collect();
    if numbers.is_empty() {
        "tally".into()
    } else {
        format!("tally with {}", numbers.join(", "))
    }
}
