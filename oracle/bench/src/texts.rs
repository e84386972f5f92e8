//! The UTF-8 test and `valid_id`, beside `core::str::from_utf8` and boomerang's `valid_id`.
use crate::long;
use crate::measure::{alternate, estimate, keep, Effort};
use crate::stats::Spread;
use crate::{linked, show};
use std::hint::black_box;
use valid_id::image::call_valid_id;

/// Identities that are tested one after another.
struct Texts {
    name: &'static str,
    texts: Vec<String>,
}

fn all() -> [Texts; 5] {
    let short =
        |scalars: &[&str]| (0..1024).map(|at| scalars[at % scalars.len()].repeat(1 + at % 3)).collect();
    [
        Texts { name: "ASCII", texts: vec![long::text("a")] },
        Texts { name: "ASCII with blanks", texts: vec![long::text("a word ") + "."] },
        Texts { name: "mixed", texts: vec![long::text(long::MIXED)] },
        Texts { name: "short ASCII", texts: short(&["door", "lamp.on", "a b", "x"]) },
        Texts { name: "short mixed", texts: short(&["tür", "lampe.an", "漢字", "é"]) },
    ]
}

/// Prints the rows; whether all answers agree.
pub fn run(effort: Effort) -> bool {
    println!(
        "\n{:<30} {:>8} {:>7} {:>10} {:>10}   ratio (quartiles)",
        "texts", "bytes", "texts", "the Rust", "this"
    );
    let mut agreed = true;
    for Texts { name, texts } in all() {
        agreed &= row(&format!("UTF-8, {name}"), &texts, from_utf8, linked::is_utf8, effort);
        agreed &= row(&format!("valid_id, {name}"), &texts, rust_valid_id, linked::valid_id, effort);
    }
    agreed
}

#[inline(never)]
fn from_utf8(text: &str) -> bool {
    core::str::from_utf8(text.as_bytes()).is_ok()
}

fn rust_valid_id(text: &str) -> bool {
    call_valid_id(text)
}

fn row(
    name: &str,
    texts: &[String],
    rust: fn(&str) -> bool,
    ours: fn(&[u8]) -> bool,
    effort: Effort,
) -> bool {
    if let Some(text) = texts.iter().find(|text| rust(text) != ours(text.as_bytes())) {
        println!("{name}: DIFFERENT for {:?}", text.chars().take(40).collect::<String>());
        return false;
    }
    let rust = || texts.iter().for_each(|text| keep(rust(black_box(text))));
    let ours = || texts.iter().for_each(|text| keep(ours(black_box(text.as_bytes()))));
    let times = alternate(&[(&rust, estimate(None, &rust)), (&ours, estimate(None, &ours))], effort);
    println!(
        "{name:<30} {:>8} {:>7} {:>10} {:>10}   {}",
        show::count(texts.iter().map(|text| text.len() as u64).sum()),
        show::count(texts.len() as u64),
        show::time(Spread::of(&times[0]).median()),
        show::time(Spread::of(&times[1]).median()),
        show::ratio(&Spread::of_ratios(&times[1], &times[0])),
    );
    true
}
