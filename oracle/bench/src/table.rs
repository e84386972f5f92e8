//! The table of the families: a line for each pack, and how time grows.
use crate::families::Family;
use crate::measure::{Effort, LEAST};
use crate::packs::{self, Times};
use crate::sample::Sample;
use crate::show;
use crate::stats::{growth, Spread};

pub fn head(effort: Effort) {
    let repetitions = match effort.repetitions {
        LEAST => LEAST.to_string(),
        most => format!("{LEAST} to {most}"),
    };
    println!("r  the Rust with the packing rules, decoding and its check: the work that c does");
    println!("a  the Rust with decoding: pack into tables, its check, tables freed; it has no packing rules");
    println!("   (where its check takes over half a second, rules and decoding are timed apart and b added)");
    println!("b  the Rust's check alone, tables at hand; - where the tables cannot be read");
    println!("c  this check: packing rules, then the check; named: bytes of identities, counted where named");
    println!("{}, opt-level {} {}", env!("BENCH_RUSTC"), env!("BENCH_OPT_LEVEL"), env!("BENCH_FLAGS"));
    println!("{repetitions} repetitions in alternation, medians; ratios with quartiles; time of the thread");
    println!("growth: exponent of time over pack and named bytes, over the last three sizes\n");
    println!(
        "{:<21} {:>9} {:>13} {:>9} {:>9} {:>9} {:>9}   {:<22} {:<22} c/b (quartiles)",
        "family", "pack", "named", "r", "a", "b", "c", "c/r (quartiles)", "c/a (quartiles)"
    );
}

/// These sizes of a family, a line for each; whether all answers agree.
pub fn run(family: &Family, sizes: &[usize], effort: Effort) -> bool {
    let mut points = Vec::new();
    let mut agreed = true;
    for size in sizes {
        let sample = (family.make)(*size);
        if let Some(predicted) = too_long(points.last(), &sample) {
            println!("{} not run: perhaps {}", start(family.name, &sample), show::time(predicted));
            continue;
        }
        match packs::measure(&sample, effort) {
            Ok(times) => points.push(line(family.name, &sample, &times)),
            Err(wrong) => {
                agreed = false;
                println!("{} DIFFERENT: {wrong}", start(family.name, &sample));
            }
        }
    }
    if sizes.len() > 3 && points.len() >= 3 {
        show_growth(&points[points.len() - 3..]);
    }
    agreed
}

/// A pack's bytes, and the medians of b and c.
type Point = (f64, Option<f64>, f64);

/// Nanoseconds that one call may take.
const LONGEST: f64 = 30e9;

/// What a call would take if time grew with the square from here; none where that can be waited for.
fn too_long(before: Option<&Point>, sample: &Sample) -> Option<f64> {
    let (bytes, check, ours) = *before?;
    let predicted = ours.max(check.unwrap_or(0.0)) * (sample.bytes() as f64 / bytes).powi(2);
    (predicted > LONGEST).then_some(predicted)
}

/// How a line of the table starts.
fn start(family: &str, sample: &Sample) -> String {
    let pack = show::count(sample.case.pack.len() as u64);
    format!("{family:<21} {pack:>9} {:>13}", show::count(sample.named))
}

fn line(family: &str, sample: &Sample, times: &Times) -> Point {
    let median = |values: &[f64]| (!values.is_empty()).then(|| Spread::of(values).median());
    let shown = |values: &[f64]| median(values).map_or("-".into(), show::time);
    let ratio = |under: &[f64]| match under.is_empty() {
        true => "-".into(),
        false => show::ratio(&Spread::of_ratios(&times.ours, under)),
    };
    println!(
        "{} {:>9} {:>9} {:>9} {:>9}   {:<22} {:<22} {}",
        start(family, sample),
        shown(&times.ruled),
        shown(&times.whole),
        shown(&times.check),
        shown(&times.ours),
        ratio(&times.ruled),
        ratio(&times.whole),
        ratio(&times.check),
    );
    (sample.bytes() as f64, median(&times.check), Spread::of(&times.ours).median())
}

fn show_growth(points: &[Point]) {
    let ours: Vec<(f64, f64)> = points.iter().map(|point| (point.0, point.2)).collect();
    let rust: Vec<(f64, f64)> = points.iter().filter_map(|point| Some((point.0, point.1?))).collect();
    print!("{:<21} growth of c {:.2}", "", growth(&ours));
    match rust.len() == points.len() {
        true => println!(", of b {:.2}", growth(&rust)),
        false => println!(),
    }
}
