//! A fixed list: small cases with their answers, that together meet every site, 12 with tables of every
//! length in stations and lines, and all that is said of deadlines.
use crate::{deadlines, for_each, sites, Done};
use check::{answer, Answer};
use pack::corpus::Case;
use std::collections::{BTreeMap, BTreeSet};
use std::fs::File;
use std::io::{self, BufWriter, Write};

/// Cases taken of each site, of each length and place of 12, and of all that is said of deadlines, the smallest first.
const OF_EACH: usize = 5;
/// The largest case taken to meet a site that smaller ones do not meet.
const LARGEST: usize = 100_000;
/// The largest case taken as one of several of its site.
const MIDDLE: usize = 2_500;
/// The largest case taken to fill up.
const SMALL: usize = 900;

/// What a case meets: a few cases of each are taken.
type Groups = fn(&Case, &Answer) -> Vec<String>;

/// Every site, each length and place of 12, and all that is said of deadlines.
pub fn all(case: &Case, answer: &Answer) -> Vec<String> {
    let site = sites::of(case, answer).unwrap_or_else(|| without_site(case, answer));
    let mut groups = deadlines::of(case);
    groups.extend([Some(site), sites::short_table(case, answer)].into_iter().flatten());
    groups
}

fn without_site(case: &Case, answer: &Answer) -> String {
    match answer {
        Answer::Accepted { .. } => format!("accepted {}", case.kind),
        Answer::Owner(_) => "owner".into(),
        Answer::Change(_) => "change".into(),
        Answer::Converted(_) => "converted".into(),
        Answer::Reached(count) => format!("reached {}", (*count).min(3)),
        Answer::Lent(answer, _) => format!("lent, {}", without_site(case, answer)),
        Answer::Tally(_) => "tally".into(),
        Answer::Tree(_) => "scope tree".into(),
        Answer::Refused(numbers) => format!("refused {}", numbers[0]),
    }
}

/// Of cases with deadlines: what is said of these, and their sites.
pub fn of_deadlines(case: &Case, answer: &Answer) -> Vec<String> {
    let mut groups = deadlines::of(case);
    if !groups.is_empty() {
        let site = sites::of(case, answer);
        groups.extend(site.filter(|site| site.contains("deadlines") || site.starts_with("03")));
    }
    groups
}

pub fn write(corpus: &str, out: &str, answers: &str, count: &str, groups: Groups) -> Done {
    let count: usize = count.parse().map_err(|_| io::Error::other("COUNT is a number"))?;
    let chosen = choose(corpus, count, groups)?;
    let mut out = BufWriter::new(File::create(out)?);
    let mut lines = BufWriter::new(File::create(answers)?);
    for_each(corpus, |number, case| {
        if chosen.contains(&number) {
            case.write(&mut out)?;
            writeln!(lines, "{}", answer(&case))?;
        }
        Ok(())
    })?;
    out.flush()?;
    lines.flush()?;
    println!("{} cases", chosen.len());
    Ok(true)
}

/// The smallest cases of each group, then the first small ones until there are `count`.
fn choose(corpus: &str, count: usize, groups: Groups) -> io::Result<BTreeSet<u64>> {
    let mut by_group: BTreeMap<String, Vec<(usize, u64)>> = BTreeMap::new();
    let mut small = Vec::new();
    for_each(corpus, |number, case| {
        let answer = answer(&case);
        if case.size() > LARGEST {
            return Ok(());
        }
        if case.size() <= SMALL {
            small.push(number);
        }
        for group in groups(&case, &answer) {
            let cases = by_group.entry(group).or_default();
            cases.push((case.size(), number));
            cases.sort();
            cases.truncate(OF_EACH);
        }
        Ok(())
    })?;
    let mut chosen = BTreeSet::new();
    for cases in by_group.values() {
        chosen.insert(cases[0].1);
        chosen.extend(cases.iter().filter(|(size, _)| *size <= MIDDLE).map(|(_, number)| *number));
    }
    for number in small {
        if chosen.len() >= count {
            break;
        }
        chosen.insert(number);
    }
    Ok(chosen)
}
