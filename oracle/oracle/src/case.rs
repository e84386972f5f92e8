//! One case as the three files that the program reads, and the cases that have a record of a table.
use crate::{deadlines, for_each, one, Done};
use std::fs::{self, File};
use std::io::{self, BufWriter, Write};
use std::path::Path;

pub fn write(corpus: &str, number: &str, directory: &str) -> Done {
    let case = one(corpus, number)?;
    let directory = Path::new(directory);
    fs::create_dir_all(directory)?;
    fs::write(directory.join("line.pack"), &case.pack)?;
    fs::write(directory.join("batch.txt"), &case.batch)?;
    fs::write(directory.join("house.txt"), &case.house)?;
    Ok(true)
}

pub fn with(table: &str, corpus: &str, out: &str) -> Done {
    let table = table.parse().map_err(|_| io::Error::other("TABLE is a number from 0 to 255"))?;
    let mut out = BufWriter::new(File::create(out)?);
    for_each(corpus, |_, case| if deadlines::has(&case, table) { case.write(&mut out) } else { Ok(()) })?;
    out.flush()?;
    Ok(true)
}
