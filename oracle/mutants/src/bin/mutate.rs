//! `mutate LIST`: how many mutants. `mutate LIST N IN OUT`: mutant N of IN, from 1.
//! `mutate checks IN FUNCTION`: the function's checks by number.
use std::fs;
use std::process::ExitCode;

fn main() -> ExitCode {
    let words: Vec<String> = std::env::args().skip(1).collect();
    let words: Vec<&str> = words.iter().map(String::as_str).collect();
    let done = match words[..] {
        ["checks", source, function] => print_checks(source, function),
        [list] => count(list),
        [list, number, source, out] => write(list, number, source, out),
        _ => Err("mutate LIST [N IN OUT], or mutate checks IN FUNCTION".into()),
    };
    match done {
        Ok(text) => {
            println!("{text}");
            ExitCode::SUCCESS
        }
        Err(fault) => {
            eprintln!("mutate: {fault}");
            ExitCode::from(2)
        }
    }
}

fn text_of(path: &str) -> Result<String, String> {
    fs::read_to_string(path).map_err(|fault| format!("{path}: {fault}"))
}

fn print_checks(source: &str, function: &str) -> Result<String, String> {
    let checks = mutants::listing(&text_of(source)?, function);
    let lines: Vec<String> =
        checks.iter().enumerate().map(|(at, words)| format!("{} {words}", at + 1)).collect();
    Ok(lines.join("\n"))
}

fn count(list: &str) -> Result<String, String> {
    Ok(mutants::read(&text_of(list)?)?.len().to_string())
}

/// Gives the mutant's name.
fn write(list: &str, number: &str, source: &str, out: &str) -> Result<String, String> {
    let mutants = mutants::read(&text_of(list)?)?;
    let at: usize = number.parse().map_err(|_| "N is a number from 1".to_string())?;
    let mutant = at.checked_sub(1).and_then(|at| mutants.get(at)).ok_or("no such mutant")?;
    let text = text_of(source)?;
    let changed = mutant.apply(&text)?;
    if changed == text {
        return Err(format!("{}: changes nothing", mutant.name));
    }
    fs::write(out, changed).map_err(|fault| format!("{out}: {fault}"))?;
    Ok(mutant.name.clone())
}
