//! The converter beside a plain one in Rust: the same checks, then each record copied and its numbers' bytes swapped by the layout.
use crate::measure::{alternate, estimate, keep, Effort};
use crate::stats::{growth, Spread};
use crate::{deadlines, linked, routes, rules, show, stations, wide};
use pack::convert;
use pack::corpus::{Case, Kind};
use pack::layout::{numbers, TABLES};
use pack::{PACK_LIMIT, RECORD};
use std::cell::RefCell;
use std::hint::black_box;
use std::sync::LazyLock;

type Record = [u8; RECORD];

/// The packs that are turned, by their families' names, and how one of so many records is made.
const PACKS: [(&str, fn(usize) -> Case); 4] = [
    ("wide", |records| wide::reactors(records).case),
    ("stations", |records| stations::line(records).case),
    ("routes", |records| routes::across_two(records).case),
    ("deadlines", |records| deadlines::station(records).case),
];

/// In records, up to the pack's limit.
const SIZES: [usize; 6] = [35, 256, 1024, 4096, 16_384, PACK_LIMIT / RECORD];

/// Where each number of a table's records stands, and whether it is a D.
static NUMBERS: LazyLock<Vec<Vec<(usize, bool)>>> = LazyLock::new(|| {
    let of = |table| numbers(table).iter().map(|number| (number.at, number.bytes == 8)).collect();
    (0..TABLES.len() as u8).map(of).collect()
});

/// A refusal's numbers, or none where the pack is turned into the output.
fn plain(pack: &[u8], kind: Kind, output: &mut [u8]) -> Option<[u64; 2]> {
    if !rules::fits(pack) {
        return Some([1, 0]);
    }
    if output.len() < pack.len() {
        return Some([34, 0]);
    }
    let refusal = rules::shape_refusal(pack, kind);
    if refusal.is_none() {
        let (tables, to) = (&*NUMBERS, output.as_chunks_mut::<RECORD>().0);
        for (record, to) in pack.as_chunks::<RECORD>().0.iter().zip(to) {
            turn(&tables[record[0] as usize], record, to);
        }
    }
    refusal
}

fn turn(numbers: &[(usize, bool)], record: &Record, to: &mut Record) {
    *to = *record;
    for &(at, long) in numbers {
        match long {
            true => swap::<8>(record, to, at),
            false => swap::<4>(record, to, at),
        }
    }
}

#[inline(always)]
fn swap<const BYTES: usize>(record: &Record, to: &mut Record, at: usize) {
    let mut bytes: [u8; BYTES] = record[at..at + BYTES].try_into().expect("as many bytes");
    bytes.reverse();
    to[at..at + BYTES].copy_from_slice(&bytes);
}

/// Prints the rows; whether all answers and outputs agree.
pub fn run(effort: Effort, quick: bool) -> bool {
    println!("\n{:<21} {:>9} {:>10} {:>10}   ratio (quartiles)", "converted", "pack", "the Rust", "this");
    let sizes = if quick { &SIZES[..3] } else { &SIZES[..] };
    let mut agreed = true;
    for (name, make) in PACKS {
        let rows: Vec<Option<(f64, f64)>> =
            sizes.iter().map(|records| row(name, &make(*records), effort)).collect();
        agreed &= rows.iter().all(Option::is_some);
        let points: Vec<(f64, f64)> = rows.into_iter().flatten().collect();
        if !quick && agreed {
            println!("{:<21} growth {:.2}", "", growth(&points[points.len() - 3..]));
        }
    }
    agreed
}

/// The pack's bytes and this side's median; none where the two differ.
fn row(name: &str, case: &Case, effort: Effort) -> Option<(f64, f64)> {
    let (pack, kind) = (&case.pack, case.kind().expect("a station or a line"));
    if !agree(pack, kind) || !agree(&convert::turned(pack), kind) {
        println!("{name:<21} {:>9} DIFFERENT", show::count(pack.len() as u64));
        return None;
    }
    let output = RefCell::new(vec![0; pack.len()]);
    let rust = || keep(plain(black_box(pack), kind, &mut output.borrow_mut()));
    let ours = || keep(linked::convert(black_box(pack), kind, &mut output.borrow_mut()));
    let times = alternate(&[(&rust, estimate(None, &rust)), (&ours, estimate(None, &ours))], effort);
    let median = Spread::of(&times[1]).median();
    println!(
        "{name:<21} {:>9} {:>10} {:>10}   {}",
        show::count(pack.len() as u64),
        show::time(Spread::of(&times[0]).median()),
        show::time(median),
        show::ratio(&Spread::of_ratios(&times[1], &times[0])),
    );
    Some((pack.len() as f64, median))
}

/// Whether both give what the reference gives: the pack turned, into an output that is longer, and 34 where it is shorter.
fn agree(pack: &[u8], kind: Kind) -> bool {
    [pack.len() + 1, pack.len() - 1].into_iter().all(|room| {
        let lent = vec![0xa5; room];
        let expected = convert::of(pack, kind, &lent);
        let (mut by_rust, mut by_us) = (lent.clone(), lent);
        let rust = plain(pack, kind, &mut by_rust).map(|numbers| numbers[0]);
        let ours = linked::convert(pack, kind, &mut by_us);
        let first = expected.refusal.as_ref().map(|numbers| numbers[0]);
        (rust, by_rust) == (first, expected.output.clone())
            && (ours, by_us) == (expected.refusal, expected.output)
    })
}
