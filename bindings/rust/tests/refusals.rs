//! That the crate and the C header have each refusal and each name that the repository's files have: numbers, names, what is carried, and words.
use image_check::Refusal;
use std::collections::{BTreeMap, BTreeSet};

/// The library's own refusals: the enum, and the definition of their numbers.
const VARIANTS: &str = include_str!("../../../crates/answers/src/lib.rt");
const NUMBERS: &str = include_str!("../../../crates/answers/specs/Numbers.antt");
const FIELDS: &str = include_str!("../../../crates/answers/src/field.rt");
const KINDS: &str = include_str!("../../../crates/answers/src/id.rt");
/// What the operator reads.
const DOCUMENT: &str = include_str!("../../../docs/REFUSALS.md");
const NAMES: &str = include_str!("../../../explain/names.txt");
const SENTENCES: &str = include_str!("../../../tests/explanations.txt");
const HEADER: &str = include_str!("../../c/image_check.h");
/// The answers of the fixed list.
const ANSWERS: &str = include_str!("../../../crates/replay/stdout");

/// A refusal's name, and the names of what it carries.
type Carried = (String, Vec<String>);

/// The words of a text: what stands between other characters.
fn words(text: &str) -> Vec<&str> {
    text.split(|c: char| !c.is_alphanumeric() && c != '_').filter(|word| !word.is_empty()).collect()
}

/// `NotUtf8` as `NOT_UTF8`.
fn capitals(name: &str) -> String {
    let mut capitals = String::new();
    for letter in name.chars() {
        if letter.is_uppercase() && !capitals.is_empty() {
            capitals.push('_');
        }
        capitals.extend(letter.to_uppercase());
    }
    capitals
}

/// The lines between the one that starts so and the next that is this.
fn block<'a>(text: &'a str, first: &str, last: &str) -> Vec<&'a str> {
    let mut lines = text.lines().skip_while(|line| !line.starts_with(first));
    assert!(lines.next().is_some(), "no line {first}");
    lines.take_while(|line| *line != last).collect()
}

/// The fields that a field of the library's stands for, as boomerang's error has them.
fn spread<'a>(name: &'a str, kind: &'a str) -> Vec<&'a str> {
    let place = ["text", "start", "len"];
    match (name, kind) {
        (_, "RowField") => vec!["table", "index", "field"],
        (_, "StableId") => [&["kind", "index"][..], &place].concat(),
        (_, "IdentityPlace") => place.into(),
        ("house", "bool") => vec!["text"],
        _ => vec![name],
    }
}

/// The library's refusals: each variant with its fields.
fn variants() -> Vec<Carried> {
    let mut variants: Vec<Carried> = vec![];
    for line in block(VARIANTS, "pub enum Refusal {", "}") {
        match words(line)[..] {
            [variant] => variants.push((variant.into(), vec![])),
            [name, kind] => {
                let fields = spread(name, kind).into_iter().map(String::from);
                variants.last_mut().expect("a variant before its fields").1.extend(fields);
            }
            _ => assert_eq!(line.trim(), "},"),
        }
    }
    variants
}

/// The library's refusals by their numbers.
fn numbered() -> BTreeMap<u64, Carried> {
    let variants = variants();
    let numbers: BTreeMap<&str, u64> = NUMBERS
        .lines()
        .filter_map(|line| line.strip_prefix("numbers ")?.split_once(" = "))
        .map(|(left, right)| (words(left)[0], words(right)[0].parse().expect("a number")))
        .collect();
    assert_eq!(numbers.len(), variants.len());
    variants.into_iter().map(|variant| (numbers[variant.0.as_str()], variant)).collect()
}

/// The refusal of this number that carries ones, of which every name has the number 1.
fn with_ones(number: u64) -> Option<Refusal> {
    let lists = (0..8).map(|count| [vec![number], vec![1; count]].concat());
    let found: Vec<Refusal> = lists.filter_map(|list| Refusal::from_numbers(&list)).collect();
    assert!(found.len() < 2, "{found:?}");
    found.first().copied()
}

/// What a refusal of the crate is called, and what it carries, as its variant is declared; a part that is a place stands for what it has.
fn declared(refusal: Refusal) -> Carried {
    let shown = format!("{refusal:?}");
    let parts: Vec<&str> = shown.split_whitespace().collect();
    let fields = (0..parts.len()).filter(|at| parts.get(at + 2) != Some(&"{"));
    let names = fields.filter_map(|at| parts[at].strip_suffix(':')).map(String::from).collect();
    (parts[0].to_string(), names)
}

#[test]
fn each_refusal_is_here() {
    let here = (0..1000).filter_map(|number| Some((number, declared(with_ones(number)?))));
    assert_eq!(numbered(), here.collect::<BTreeMap<_, _>>());
}

/// The headings of docs/REFUSALS.md, and how many numbers are said to follow.
#[test]
fn each_refusal_is_in_the_document() {
    let mut said = BTreeMap::new();
    for part in DOCUMENT.split("\n### ").skip(1) {
        let Some(number) = words(part).first().and_then(|word| word.parse::<u64>().ok()) else {
            continue;
        };
        let follows = part.split_once("\nFollows: ").expect("what follows").1.split('.').next().unwrap();
        let count = if follows == "nothing" { 0 } else { follows.split(',').count() };
        said.insert(number, count);
    }
    let here = numbered().into_iter().map(|(number, (_, fields))| (number, fields.len()));
    assert_eq!(said, here.collect::<BTreeMap<_, _>>());
}

/// What explain/names.txt names so, by number.
fn names(what: &str) -> BTreeMap<u64, String> {
    let named = |line: &str| {
        let (number, name) = line.strip_prefix(what)?.strip_prefix(' ')?.split_once(' ')?;
        Some((number.parse().expect("a number"), name.to_string()))
    };
    NAMES.lines().filter_map(named).collect()
}

/// A refusal that has the number as a table, field, kind, direction or text.
fn naming(what: &str, number: u64) -> Option<Refusal> {
    Refusal::from_numbers(&match what {
        "table" => vec![15, number, 0],
        "field" => vec![17, 2, 0, number],
        "kind" => vec![19, number, 0, 0, 0, 0],
        "direction" => vec![27, 0, 0, 0, number],
        _ => vec![2, number],
    })
}

/// The name that a refusal has for it, as the documents have it and as its variant.
fn name(refusal: Refusal) -> [String; 2] {
    match refusal {
        Refusal::EntriesNotSorted { table, .. } => [table.to_string(), format!("{table:?}")],
        Refusal::OwnershipMismatch { field, .. } => [field.to_string(), format!("{field:?}")],
        Refusal::InvalidStableId { kind, .. } => [kind.to_string(), format!("{kind:?}")],
        Refusal::DuplicateRouteHalf { direction, .. } => [direction.to_string(), format!("{direction:?}")],
        Refusal::TextTooLong { text } => [text.to_string(), format!("{text:?}")],
        other => panic!("{other:?} names nothing"),
    }
}

const NAMED: [&str; 5] = ["table", "field", "kind", "direction", "text"];

#[test]
fn each_name_is_here() {
    for what in NAMED {
        let here: BTreeMap<u64, [String; 2]> =
            (0..=300).filter_map(|number| Some((number, name(naming(what, number)?)))).collect();
        let shown = here.iter().map(|(number, [shown, _])| (*number, shown.clone()));
        assert_eq!(names(what), shown.collect::<BTreeMap<_, _>>());
        for [shown, variant] in here.values() {
            let plain = shown.trim_end_matches(".txt").replace(['.', ' '], "_");
            assert_eq!(capitals(variant), plain.to_uppercase());
        }
    }
}

/// The variants of the library's enums of fields and kinds are the crate's.
#[test]
fn names_of_the_library() {
    for (what, source, start) in [("field", FIELDS, "pub enum Field {"), ("kind", KINDS, "pub enum IdKind {")]
    {
        let theirs = block(source, start, "}").into_iter().map(|line| words(line)[0].to_string());
        let ours = (1..=300).filter_map(|number| Some(name(naming(what, number)?)[1].clone()));
        assert_eq!(theirs.collect::<Vec<_>>(), ours.collect::<Vec<_>>());
    }
}

/// The numbers that may stand in this part of a refusal.
fn may_stand(part: &str, refusal: u64, number: u64) -> bool {
    match part {
        "table" | "target" if refusal != 32 => names("table").contains_key(&number),
        "field" | "kind" | "direction" | "text" => names(part).contains_key(&number),
        "start" | "len" | "previous_end" if refusal < 15 => true,
        _ => number <= u32::MAX.into(),
    }
}

/// From numbers to a refusal and back: every number in each part, and lists that are too short or too long.
#[test]
fn there_and_back() {
    let large = [u32::MAX.into(), u64::from(u32::MAX) + 1, u64::MAX];
    let tried: Vec<u64> = (0..=300).chain(large).collect();
    for (refusal, (_, parts)) in numbered() {
        let ones = [vec![refusal], vec![1; parts.len()]].concat();
        for (at, part) in (1..).zip(&parts) {
            for number in &tried {
                let mut list = ones.clone();
                list[at] = *number;
                let back = Refusal::from_numbers(&list).map(|found| found.numbers().to_vec());
                assert_eq!(back, may_stand(part, refusal, *number).then_some(list));
            }
        }
        assert_eq!(Refusal::from_numbers(&ones).map(|found| found.number()), Some(refusal));
        assert_eq!(Refusal::from_numbers(&ones[..parts.len()]), None);
        assert_eq!(Refusal::from_numbers(&[&ones[..], &[0]].concat()), None);
    }
}

/// Each sentence is the one of `./line-check --explain`.
#[test]
fn same_words() {
    let lines: Vec<&str> = SENTENCES.lines().collect();
    let mut met = BTreeSet::new();
    for pair in lines.chunks(2) {
        let Some(numbers) = pair[0].strip_prefix("refused ") else {
            continue;
        };
        let numbers: Vec<u64> = numbers.split(' ').map(|number| number.parse().unwrap()).collect();
        let refusal = Refusal::from_numbers(&numbers).expect(pair[0]);
        assert_eq!(refusal.to_string(), pair[1].trim_start());
        assert_eq!(refusal.numbers().to_string(), pair[0]["refused ".len()..]);
        met.insert(refusal.number());
    }
    assert_eq!(met, numbered().into_keys().collect());
}

/// The fixed list's answers have every refusal, and no other.
#[test]
fn refusals_of_the_fixed_list() {
    let mut met = BTreeSet::new();
    for refused in ANSWERS.lines().flat_map(|line| line.split("refused ").skip(1)) {
        let numbers: Vec<u64> = refused.split(' ').map_while(|word| word.parse().ok()).collect();
        assert!(Refusal::from_numbers(&numbers).is_some(), "{refused}");
        met.insert(numbers[0]);
    }
    assert_eq!(met, numbered().into_keys().collect());
}

/// A constant of the header: its name without the prefix, its number, and the words of the comment behind it.
type Constant = (String, u64, Vec<String>);

/// The constants of one of the header's enums.
fn constants(what: &str) -> Vec<Constant> {
    let prefix = format!("IMAGE_CHECK_{}_", what.to_uppercase());
    let constant = |line: &&str| {
        let line = words(line).into_iter().map(String::from).collect::<Vec<_>>();
        let name = line[0].strip_prefix(&prefix).expect(&prefix).to_string();
        (name, line[1].parse().expect("a number"), line[2..].to_vec())
    };
    block(HEADER, &format!("enum image_check_{what} {{"), "};").iter().map(constant).collect()
}

#[test]
fn same_in_the_header() {
    let ours = numbered().into_iter().map(|(number, (name, fields))| (capitals(&name), number, fields));
    assert_eq!(constants("refusal"), ours.collect::<Vec<Constant>>());
    for what in NAMED {
        let named = |number| Some((capitals(&name(naming(what, number)?)[1]), number, vec![]));
        assert_eq!(constants(what), (0..=300).filter_map(named).collect::<Vec<Constant>>());
    }
}
