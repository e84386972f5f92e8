//! A pack from the other make of machine: `convert station|line FILE` turns the pack in the file round, and back.
use image_check::{convert_enclave, convert_federate, Refusal};
use std::error::Error;
use std::{env, fs};

type Convert = fn(&[u8], &mut [u8]) -> Result<(), Refusal>;

fn digits(bytes: &[u8]) -> String {
    bytes.iter().map(|byte| format!(" {byte:02x}")).collect()
}

fn main() -> Result<(), Box<dyn Error>> {
    let words: Vec<String> = env::args().collect();
    let (convert, file): (Convert, &str) = match words.iter().map(String::as_str).collect::<Vec<_>>()[..] {
        [_, "station", file] => (convert_enclave, file),
        [_, "line", file] => (convert_federate, file),
        _ => return Err("usage: convert station|line FILE".into()),
    };
    let pack = fs::read(file)?;
    let (mut turned, mut back) = (vec![0; pack.len()], vec![0; pack.len()]);
    if let Err(refusal) = convert(&pack, &mut turned) {
        println!("refused {}\n> {refusal}", refusal.numbers());
        return Ok(());
    }
    println!("its first bytes:{}", digits(&pack[..16]));
    println!("turned round:{}", digits(&turned[..16]));
    convert(&turned, &mut back)?;
    println!("turned back: {}", if back == pack { "the first pack" } else { "another pack" });
    Ok(())
}
