//! `notice CORPUS ANSWERS`: the first case whose answer is not the one given; status 1 if none.
use pack::corpus::{Corpus, Next};
use std::fs::File;
use std::io::{self, BufRead, BufReader};
use std::process::ExitCode;

fn main() -> ExitCode {
    let words: Vec<String> = std::env::args().skip(1).collect();
    let [corpus, answers] = &words[..] else {
        eprintln!("notice CORPUS ANSWERS");
        return ExitCode::from(2);
    };
    match first_difference(corpus, answers) {
        Ok(Some(found)) => {
            println!("{found}");
            ExitCode::SUCCESS
        }
        Ok(None) => ExitCode::FAILURE,
        Err(fault) => {
            eprintln!("notice: {fault}");
            ExitCode::from(2)
        }
    }
}

/// The case's number with both answers; a check that stops with a panic differs.
fn first_difference(corpus: &str, answers: &str) -> io::Result<Option<String>> {
    std::panic::set_hook(Box::new(|_| ()));
    let mut cases = Corpus(BufReader::with_capacity(1 << 20, File::open(corpus)?));
    for (number, expected) in BufReader::new(File::open(answers)?).lines().enumerate() {
        let Next::Case(case) = cases.read()? else {
            break;
        };
        let expected = expected?;
        let given = std::panic::catch_unwind(|| check::answer(&case).to_string());
        let given = given.unwrap_or_else(|_| "panic".into());
        if given != expected {
            return Ok(Some(format!("case {number}: {expected} became {given}")));
        }
    }
    Ok(None)
}
