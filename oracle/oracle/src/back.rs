//! Packs that were converted, to be converted back: that gives the first pack (document 02, Wish 6).
use crate::{for_each, Done};
use check::lent;
use pack::corpus::Case;
use std::fs::File;
use std::io::{self, BufRead, BufReader, BufWriter, Write};

/// Of each case that `replayed` answers with a converted pack: the same question of that pack, and the answer which gives the first one back.
pub fn write(corpus: &str, replayed: &str, out: &str, answers: &str) -> Done {
    let mut lines = BufReader::new(File::open(replayed)?).lines();
    let mut out = BufWriter::new(File::create(out)?);
    let mut answers = BufWriter::new(File::create(answers)?);
    let mut packs = 0;
    for_each(corpus, |_, case| {
        let line = lines.next().transpose()?.ok_or_else(|| io::Error::other("fewer answers than cases"))?;
        let (Some(digits), Some((_, output))) = (line.strip_prefix("converted | "), case.conversion()) else {
            return Ok(());
        };
        let given = lent::bytes(digits).filter(|given| given.len() == output.len());
        let given = given.ok_or_else(|| io::Error::other("an answer without its output"))?;
        let length = case.pack.len();
        let back = [&case.pack, &output[length..]].concat();
        writeln!(answers, "converted | {}", lent::digits(&back))?;
        packs += 1;
        Case { pack: given[..length].to_vec(), ..case.clone() }.write(&mut out)
    })?;
    out.flush()?;
    answers.flush()?;
    println!("{packs}\tconverted there and back");
    Ok(true)
}
