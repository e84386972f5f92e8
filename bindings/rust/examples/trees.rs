//! All small scope trees: `trees COUNT` lists the legal tables of parents of so many scopes, of 1 to 4.
use image_check::{first_tree, next_tree, Next};
use std::env;
use std::error::Error;

/// A table in words: 0 is no parent, p + 1 parent p.
fn say(table: &[u8]) {
    let parents = table.iter().map(|byte| match byte {
        0 => "-".to_string(),
        parent => (parent - 1).to_string(),
    });
    println!("parents: {}", parents.collect::<Vec<_>>().join(" "));
}

fn main() -> Result<(), Box<dyn Error>> {
    let count: u32 = env::args().nth(1).ok_or("usage: trees COUNT")?.parse()?;
    let mut table = vec![0; count as usize];
    let mut listed = 0;
    let mut given = first_tree(count, &mut table).map(|()| Next::Table);
    while given == Ok(Next::Table) {
        say(&table);
        listed += 1;
        given = next_tree(count, &mut table);
    }
    match given {
        Ok(_) => println!("tables: {listed}"),
        Err(refusal) => println!("refused {}\n> {refusal}", refusal.numbers()),
    }
    Ok(())
}
