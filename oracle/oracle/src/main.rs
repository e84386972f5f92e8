//! The oracle's commands.
mod back;
mod case;
mod compare;
mod deadlines;
mod lines;
mod sample;
mod show;
mod site_list;
mod sites;
mod stats;
mod unlooked;
mod worth;

use check::answer;
use pack::corpus::{Case, Corpus, Next};
use std::fs::File;
use std::io::{self, BufReader, BufWriter, Write};
use std::process::ExitCode;

const USAGE: &str = "\
oracle CORPUS                        one answer line per case
oracle stats CORPUS                  how often each refusal and each site was met
oracle show CORPUS N                 case N, from 0, in words
oracle case CORPUS N DIR             case N as line.pack, batch.txt and house.txt
oracle sample CORPUS OUT ANSWERS [COUNT [deadlines]]
                                     small cases that meet every site that CORPUS meets, or all that is said of deadlines
oracle with TABLE CORPUS OUT         the cases that have a record of a table
oracle compare ANSWERS REPLAYED      two files of answer lines, line by line
oracle worth CORPUS                  tries what a yes is worth on each accepted station and line
oracle unlooked CORPUS OUT           changes what the check does not look at in each case: one answer
oracle back CORPUS REPLAYED OUT ANSWERS
                                     the packs that REPLAYED has converted, to be converted back, and what that answers
oracle lines                         the papers' lines tried by hand
oracle lines OUT ANSWERS             the same as a corpus and its answers";

fn main() -> ExitCode {
    let words: Vec<String> = std::env::args().skip(1).collect();
    let words: Vec<&str> = words.iter().map(String::as_str).collect();
    let done = match words[..] {
        ["stats", corpus] => stats::print(corpus),
        ["show", corpus, number] => show::print(corpus, number),
        ["case", corpus, number, directory] => case::write(corpus, number, directory),
        ["sample", corpus, out, answers] => sample::write(corpus, out, answers, "3000", sample::all),
        ["sample", corpus, out, answers, count] => sample::write(corpus, out, answers, count, sample::all),
        ["sample", corpus, out, answers, count, "deadlines"] => {
            sample::write(corpus, out, answers, count, sample::of_deadlines)
        }
        ["with", table, corpus, out] => case::with(table, corpus, out),
        ["compare", answers, replayed] => compare::print(answers, replayed),
        ["worth", corpus] => worth::print(corpus),
        ["unlooked", corpus, out] => unlooked::print(corpus, out),
        ["back", corpus, replayed, out, answers] => back::write(corpus, replayed, out, answers),
        ["lines"] => lines::print(),
        ["lines", out, answers] => lines::write(out, answers),
        [corpus] if !corpus.starts_with('-') => answers(corpus),
        _ => {
            eprintln!("{USAGE}");
            return ExitCode::from(2);
        }
    };
    match done {
        Ok(true) => ExitCode::SUCCESS,
        Ok(false) => ExitCode::FAILURE,
        Err(fault) => {
            eprintln!("oracle: {fault}");
            ExitCode::from(2)
        }
    }
}

/// Whether all went as it should, or why it could not be tried.
type Done = io::Result<bool>;

/// The line that a corpus ends with where it does not end after a case; none where it does.
type Ended = Option<&'static str>;

/// Calls `each` with every whole case and its number, up to one of no known kind.
fn for_each(corpus: &str, mut each: impl FnMut(u64, Case) -> io::Result<()>) -> io::Result<Ended> {
    let mut cases = Corpus(BufReader::with_capacity(1 << 20, File::open(corpus)?));
    let mut number = 0;
    loop {
        match cases.read()? {
            Next::Case(case) => each(number, case)?,
            Next::CutOff => return Ok(Some("cut off")),
            Next::UnknownKind => return Ok(Some("unknown kind")),
            Next::End => return Ok(None),
        }
        number += 1;
    }
}

/// Case `number` of a corpus.
fn one(corpus: &str, number: &str) -> io::Result<Case> {
    let wanted: u64 = number.parse().map_err(|_| io::Error::other("N is a number from 0"))?;
    let mut cases = Corpus(BufReader::with_capacity(1 << 20, File::open(corpus)?));
    for _ in 0..wanted {
        if !matches!(cases.read()?, Next::Case(_)) {
            return Err(io::Error::other("no such case"));
        }
    }
    match cases.read()? {
        Next::Case(case) => Ok(case),
        _ => Err(io::Error::other("no such case")),
    }
}

fn answers(corpus: &str) -> Done {
    let mut out = BufWriter::new(io::stdout().lock());
    let ended = for_each(corpus, |_, case| writeln!(out, "{}", answer(&case)))?;
    if let Some(line) = ended {
        writeln!(out, "{line}")?;
    }
    out.flush()?;
    Ok(true)
}
