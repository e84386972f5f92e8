//! The styles of cases, and how often each is taken.
use crate::damage::{damage, spoil_row};
use crate::deadlines;
use crate::deep::deep;
use crate::line::{grown, Extent};
use crate::plan::{Size, SMALL};
use crate::rng::Rng;
use crate::texts::Texts;
use crate::{change, convert, faults, identities, night, rising, tally, tiny, trees};
use pack::corpus::{Case, Kind, NIGHT, OWNER};
use pack::layout::{MODES, ROUTES};
use pack::row::{pack, Row};
use pack::{PACK_LIMIT, RECORD, TEXT_LIMIT};

/// A name, how often of 1,000 in the whole mix, and how a case is made.
pub struct Style {
    pub name: &'static str,
    weight: u64,
    make: fn(&mut Rng, Kind) -> Case,
}

pub const STYLES: [Style; 9] = [
    Style { name: "grown", weight: 190, make: plain },
    Style { name: "damaged", weight: 280, make: damaged },
    Style { name: "rows", weight: 80, make: rows },
    Style { name: "bytes", weight: 60, make: bytes },
    Style { name: "tiny", weight: 100, make: small },
    Style { name: "routes", weight: 100, make: routes },
    Style { name: "text", weight: 80, make: text },
    Style { name: "ends", weight: 30, make: ends },
    Style { name: "faults", weight: 80, make: packing },
];

const ALL: &[&str] = &["grown", "damaged", "rows", "bytes", "tiny", "routes", "text", "ends", "faults"];

/// Filters that name several styles, with the kind of case that they are held to.
const GROUPS: [(&str, &[&str], Option<Kind>); 5] = [
    ("all", ALL, None),
    ("deadlines", ALL, None),
    ("station", &["grown", "damaged", "rows", "tiny", "routes", "text"], Some(Kind::Enclave)),
    ("line", &["grown", "damaged", "rows", "tiny", "routes", "text"], Some(Kind::Federate)),
    ("packing", &["bytes", "text", "ends", "faults"], None),
];

/// Which styles a run takes.
pub struct Mix {
    styles: Vec<&'static Style>,
    kind: Option<Kind>,
    /// Long texts and packs at the limit now and then.
    rarities: bool,
    special: Option<fn(&mut Rng, Kind) -> Case>,
    /// Cases that are listed by their number, and no images.
    listed: Option<fn(&mut Rng, u64) -> Case>,
    /// How many of 1,000 cases are given deadlines.
    with_deadlines: u64,
}

impl Mix {
    /// The mix with this name: a group, a style, `large`, `deep`, `night`, `owner`,, `tally` `change`, `convert`, `rising` or `trees`.
    pub fn named(name: &str) -> Option<Self> {
        let found = GROUPS.iter().find(|group| group.0 == name);
        let (names, kind) = found.map_or((vec![name], None), |group| (group.1.to_vec(), group.2));
        let styles: Vec<&Style> = STYLES.iter().filter(|style| names.contains(&style.name)).collect();
        let special: Option<fn(&mut Rng, Kind) -> Case> = match name {
            "large" => Some(large),
            "deep" => Some(deep_image),
            "night" => Some(at_night),
            "owner" => Some(owner),
            "change" => Some(|rng, _| change::case(rng)),
            "convert" => Some(to_convert),
            "tally" => Some(|rng, _| tally::case(rng)),
            "rising" => Some(|rng, _| rising::case(rng)),
            _ => None,
        };
        let rarities = name == "all" || name == "packing";
        let with_deadlines = match name {
            "deadlines" => 1000,
            "deep" | "change" | "convert" | "tally" | "trees" => 0,
            "rising" => 150,
            _ => 460,
        };
        let listed: Option<fn(&mut Rng, u64) -> Case> =
            if name == "trees" { Some(trees::case) } else { None };
        let mix = Mix { styles, kind, rarities, special, listed, with_deadlines };
        (special.is_some() || listed.is_some() || !mix.styles.is_empty()).then_some(mix)
    }

    /// Case `index` of `seed`.
    pub fn case(&self, seed: u64, index: u64) -> Case {
        let mut case = self.without_deadlines(seed, index);
        let mut rng = deadlines::stream(seed, index);
        if rng.chance(self.with_deadlines, 1000) {
            if self.kind != Some(Kind::Enclave) && self.special.is_none() && rng.chance(1, 8) {
                case = long_line(&mut rng);
            }
            deadlines::add(&mut rng, &mut case);
        }
        case
    }

    fn without_deadlines(&self, seed: u64, index: u64) -> Case {
        let mut rng = Rng::of_case(seed, index);
        if let Some(make) = self.listed {
            return make(&mut rng, index);
        }
        let of_line = rng.chance(2, 5);
        let kind = self.kind.unwrap_or(if of_line { Kind::Federate } else { Kind::Enclave });
        if let Some(make) = self.special {
            return make(&mut rng, kind);
        }
        if self.rarities && rng.chance(1, 40_000) {
            return at_the_limit(&mut rng, kind);
        }
        if self.rarities && rng.chance(1, 2_000) {
            return long_text(&mut rng, kind);
        }
        let mut left = rng.below(self.styles.iter().map(|style| style.weight).sum());
        for style in &self.styles {
            if left < style.weight {
                return (style.make)(&mut rng, kind);
            }
            left -= style.weight;
        }
        unreachable!("the weights cover every number")
    }
}

fn case(kind: Kind, rows: &[Row], texts: Texts) -> Case {
    let kind = match kind {
        Kind::Enclave => 0,
        Kind::Federate => 1,
    };
    Case { kind, pack: pack(rows), batch: texts.batch, house: texts.house, rest: vec![] }
}

fn small_image(rng: &mut Rng, kind: Kind) -> (Vec<Row>, Texts) {
    let stations = rng.below(3);
    let boundaries = rng.pick(&[0, 0, 1, 2]);
    grown(rng, kind, Extent { size: SMALL, stations, boundaries, doubled: false })
}

fn plain(rng: &mut Rng, kind: Kind) -> Case {
    let (rows, texts) = small_image(rng, kind);
    case(kind, &rows, texts)
}

fn damaged(rng: &mut Rng, kind: Kind) -> Case {
    let (mut rows, mut texts) = small_image(rng, kind);
    damage(rng, &mut rows, &mut texts, None);
    case(kind, &rows, texts)
}

fn rows(rng: &mut Rng, kind: Kind) -> Case {
    let (mut rows, mut texts) = small_image(rng, kind);
    spoil_row(rng, &mut rows, &mut texts);
    case(kind, &rows, texts)
}

fn bytes(rng: &mut Rng, kind: Kind) -> Case {
    let mut case = plain(rng, kind);
    faults::bytes(rng, &mut case);
    case
}

fn small(rng: &mut Rng, kind: Kind) -> Case {
    let (rows, texts) = tiny::tiny(rng, kind);
    case(kind, &rows, texts)
}

/// Stations that consist of routes mostly, with some of the routes damaged.
fn routes(rng: &mut Rng, kind: Kind) -> Case {
    let size = Size { reactors: 1, modes: 0, scopes: 0, actions: 0, ports: 2, reactions: 0, entries: 0 };
    let stations = rng.between(1, 3);
    let boundaries = rng.between(1, 4);
    let doubled = rng.chance(1, 6);
    let (mut rows, mut texts) = grown(rng, kind, Extent { size, stations, boundaries, doubled });
    if !doubled && rng.chance(4, 5) {
        damage(rng, &mut rows, &mut texts, Some(ROUTES));
    }
    case(kind, &rows, texts)
}

fn text(rng: &mut Rng, kind: Kind) -> Case {
    let (mut rows, mut texts) = small_image(rng, kind);
    identities::spoil(rng, &mut rows, &mut texts);
    case(kind, &rows, texts)
}

fn ends(rng: &mut Rng, kind: Kind) -> Case {
    let (mut rows, mut texts) = small_image(rng, kind);
    identities::to_an_end(rng, &mut rows, &mut texts);
    case(kind, &rows, texts)
}

fn packing(rng: &mut Rng, kind: Kind) -> Case {
    let mut case = plain(rng, kind);
    faults::spoil(rng, &mut case);
    case
}

/// Texts of 65,535 bytes and more.
fn long_text(rng: &mut Rng, kind: Kind) -> Case {
    let (mut rows, mut texts) = small_image(rng, kind);
    for house in 0..2 {
        if rng.chance(2, 3) {
            let length = TEXT_LIMIT - 1 + rng.pick(&[0, 1, 1, 2, 5000]);
            texts.text(house).resize(length, b'x');
        }
    }
    if rng.chance(1, 2) {
        identities::to_an_end(rng, &mut rows, &mut texts);
    }
    case(kind, &rows, texts)
}

/// Packs of 4,194,304 bytes, one record less or one more, filled up with descendants.
fn at_the_limit(rng: &mut Rng, kind: Kind) -> Case {
    let (rows, texts) = grown(rng, kind, Extent { size: SMALL, stations: 1, boundaries: 1, doubled: false });
    let at = rows.iter().position(|row| row.table > 13).expect("bindings");
    let count = PACK_LIMIT / RECORD + 1 - rows.len() - rng.below(3) as usize;
    let filler = vec![Row::new(13, &[0]); count];
    let rows = [&rows[..at], &filler, &rows[at..]].concat();
    case(kind, &rows, texts)
}

/// Two to four stations with reactions, half of the lines damaged.
fn long_line(rng: &mut Rng) -> Case {
    let (stations, boundaries) = (rng.between(2, 4), rng.below(3));
    let doubled = rng.chance(1, 4);
    let (mut rows, mut texts) =
        grown(rng, Kind::Federate, Extent { size: SMALL, stations, boundaries, doubled });
    if rng.chance(1, 2) {
        damage(rng, &mut rows, &mut texts, None);
    }
    case(Kind::Federate, &rows, texts)
}

/// Images with hundreds of scopes and routes, half of them damaged.
fn large(rng: &mut Rng, kind: Kind) -> Case {
    let most = rng.between(20, 200);
    let size = Size {
        reactors: most,
        modes: 3,
        scopes: 2 * most,
        actions: most,
        ports: most,
        reactions: most,
        entries: most / 4,
    };
    let stations = rng.between(1, 3);
    let extent = Extent { size, stations, boundaries: most, doubled: false };
    let (mut rows, mut texts) = grown(rng, kind, extent);
    if rng.chance(1, 2) {
        damage(rng, &mut rows, &mut texts, None);
    }
    case(kind, &rows, texts)
}

/// Images with thousands of scopes and routes.
fn deep_image(rng: &mut Rng, kind: Kind) -> Case {
    let (rows, texts) = deep(rng, kind);
    case(kind, &rows, texts)
}

/// The night's check of a line: of one that is made for it, or of a grown one whose routes are mostly logical; a quarter of the lines damaged.
fn at_night(rng: &mut Rng, _: Kind) -> Case {
    let (mut rows, mut texts) = if rng.chance(2, 3) { night::line(rng) } else { night::grown_line(rng) };
    if rng.chance(1, 4) {
        damage(rng, &mut rows, &mut texts, None);
    }
    Case { kind: NIGHT, ..case(Kind::Federate, &rows, texts) }
}

/// The owner of a mode is asked of a station whose spans hold none, one or several: of each mode, of those after the last,
/// and of a station that is refused.
fn owner(rng: &mut Rng, _: Kind) -> Case {
    let size = Size { reactors: rng.between(1, 6), modes: 3, ..SMALL };
    let extent = Extent { size, stations: 1, boundaries: 0, doubled: false };
    let (mut rows, mut texts) = grown(rng, Kind::Enclave, extent);
    if rng.chance(1, 4) {
        damage(rng, &mut rows, &mut texts, None);
    }
    let modes = rows.iter().filter(|row| row.table == MODES).count() as u64;
    let after = [modes, modes + 1, u64::from(u32::MAX)];
    let mode = if modes == 0 || rng.chance(1, 4) { rng.pick(&after) } else { rng.below(modes) };
    Case { kind: OWNER, rest: (mode as u32).to_be_bytes().into(), ..case(Kind::Enclave, &rows, texts) }
}

/// A pack to convert, well-formed or badly packed, with deadlines half of the time.
fn to_convert(rng: &mut Rng, kind: Kind) -> Case {
    if rng.chance(1, 4_000) {
        return convert::at_the_limit(rng, kind);
    }
    let mut case = if rng.chance(1, 4) { small(rng, kind) } else { plain(rng, kind) };
    if rng.chance(1, 2) {
        deadlines::add(rng, &mut case);
    }
    match rng.below(8) {
        0..=2 => faults::spoil(rng, &mut case),
        3 => faults::bytes(rng, &mut case),
        _ => {}
    }
    convert::question(rng, case)
}
